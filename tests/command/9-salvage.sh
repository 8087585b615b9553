# salvage: damaged copies of the night's book, what is closed and said, statuses, files that are there, and what then is asked.
# spoilt FILE BYTE: a copy of the night's book with one bit of this byte turned
spoilt() {
    local was
    was=$(od -An -tu1 -j "$2" -N1 <"$room/night.book" | tr -d ' ')
    { head -c "$2" "$room/night.book" && printf "\\$(printf %o $((was ^ 1)))" && tail -c +$(($2 + 2)) "$room/night.book"; } >"$1"
}
expect 'a sound book' 0 'no setting was closed' '' salvage "$room/night.book" "$room/same.book"
holds 'a sound book stays byte for byte' cmp -s "$room/night.book" "$room/same.book"
spoilt "$room/b.book" 1100
expect 'a damaged block is refused by ask' 2 'refused 7 2' "block 2, that of setting b, is damaged: its check is wrong; './parjolenc salvage $room/b.book NEW'" ask "$room/b.book" books/night/both.question
cp "$room/b.book" "$room/b-before.book"
expect 'a damaged block' 0 'closed b: nobody may look or set there' 'if all the damage was found' salvage "$room/b.book" "$room/b-salvaged.book"
holds 'the damaged one is left as it is' cmp -s "$room/b-before.book" "$room/b.book"
expect 'what was a way is none with the block closed' 1 cannot '' ask "$room/b-salvaged.book" books/night/both.question
expect 'salvaging twice' 0 'no setting was closed' '' salvage "$room/b-salvaged.book" "$room/b-again.book"
holds 'gives the same bytes' cmp -s "$room/b-salvaged.book" "$room/b-again.book"
{ head -c 1535 "$room/b.book" && printf '\377' && tail -c +1537 "$room/b.book" | head -c 1023 && printf '\377'; } >"$room/bd.book"
expect 'two damaged blocks' 0 'closed b d: nobody may look or set there' 'may come of what is closed' salvage "$room/bd.book" "$room/bd-salvaged.book"
holds 'the head and block a are the same' cmp -s -n 1024 "$room/night.book" "$room/bd-salvaged.book"
holds 'and block c' cmp -s -i 1536:1536 -n 512 "$room/night.book" "$room/bd-salvaged.book"
expect 'a file that is there' 3 '' 'is there already, and is not overwritten' salvage "$room/b.book" "$room/b-again.book"
spoilt "$room/head.book" 5
expect 'a damaged head' 2 'refused 30 0' 'its head block is damaged, so that nothing can be salvaged' salvage "$room/head.book" "$room/none.book"
holds 'leaves no file' test ! -e "$room/none.book"
spoilt "$room/n.book" 0
expect 'a damaged n' 2 'refused 30 0' 'or the head is damaged' salvage "$room/n.book" "$room/none.book"
./parjolenc salvage "$room/head.book" "$room/none.book" >/dev/full 2>"$room/said"
holds 'a refusal to a full device: the status' test $? -eq 3
holds 'and no book is said to be made' sh -c '! grep -q "was made" "$1"' sh "$room/said"
head -c 2048 "$room/night.book" >"$room/cut.book"
expect 'a book without its last block' 2 'refused 30 0' 'its head says 4 settings, and the blocks of 3 follow' salvage "$room/cut.book" "$room/none.book"
head -c 2559 "$room/night.book" >"$room/short.book"
expect 'a book that is cut off' 2 'refused 6 0' 'this is no book' salvage "$room/short.book" "$room/none.book"
expect 'rules for a book' 2 'refused 6 0' 'these are rules' salvage books/night.rules "$room/none.book"
expect 'a book without an end' 2 'refused 6 0' 'this is no book' salvage /dev/zero "$room/none.book"
expect 'salvage of one word' 3 '' 'usage: ./parjolenc salvage DAMAGED BOOK' salvage "$room/b.book"
expect 'salvage of a file that is not there' 3 '' 'there is no such file' salvage "$room/no.book" "$room/none.book"
expect 'a folder that is not there' 3 '' 'make it first' salvage "$room/b.book" "$room/no/none.book"
expect 'salvage to standard output' 3 '' 'the book is made as a file' salvage "$room/b.book" -
input=$room/b.book
expect 'a damaged book from a device' 0 'closed b: nobody may look or set there' 'may come of what is closed' salvage /dev/stdin "$room/device.book"
input=/dev/null
./parjolenc salvage "$room/b.book" "$room/full.book" >/dev/full 2>"$room/said"
holds 'salvage to a full device: the status' test $? -eq 3
holds 'the book is made all the same' cmp -s "$room/b-salvaged.book" "$room/full.book"
holds 'and that is said' grep -q 'full.book was made' "$room/said"
holds 'the example is one byte from the book of its rules' test "$(cmp -l "$room/night.book" books/night-damaged.book | wc -l)" -eq 1
expect 'the example' 0 'closed b: nobody may look or set there' 'may come of' salvage books/night-damaged.book "$room/example.book"
if [ "$(uname -m)" = x86_64 ]; then
    (ulimit -f 1; ./parjolenc salvage "$room/b.book" "$room/limit.book" >/dev/null 2>"$room/said")
    holds 'a salvage whose write fails: the status' test $? -eq 3
    holds 'a salvage whose write fails leaves no book' test ! -e "$room/limit.book"
fi
