# replay, shift and shift-text: the examples of books/, statuses, text to bytes and back, START, refusals with their hints, odd files.
for shift in books/*/*.shift; do
    start=$(sed -n 's/^# start //p' "$shift")
    expected=${shift%.shift}.expected
    case $(wc -l <"$expected") in 2) status=0 ;; *) status=1 ;; esac
    case $(sed -n 3p "$expected") in *'no record of this book') said='the book has settings a to d and posts 1 to 3' ;; *) said= ;; esac
    expect "replay $shift" "$status" "$(cat "$expected")" "$said" replay "$room/$(basename "$(dirname "$shift")").book" "$start" "$shift"
    bytes=$room/$(echo "$shift" | tr / -)
    expect "shift $shift" 0 '' '' shift "$shift" "$bytes"
    expect "shift-text $shift, of its bytes" 0 "$(grep -v -e '^#' -e '^$' "$shift")" '' shift-text "$bytes"
    expect "replay $shift, as bytes: no line is said" "$status" "$(sed 's/, line [0-9]*//' "$expected")" "$said" \
        replay "$room/$(basename "$(dirname "$shift")").book" "$start" "$bytes"
done
night=$room/night.book
cards=books/night/eight-hundred.shift
bytes=$room/books-night-eight-hundred.shift
holds 'the bytes of the night' test "$(od -An -v -tu1 "$bytes" | tr -s ' ')" = ' 114 1 2 0 66 0 81 0'

# text to bytes and back: every act of seven settings and eight posts
for p in a b c d e f g; do
    for g in 1 2 3 4 5 6 7 8; do printf 'set %s %s 0\nset %s %s 1\nlook %s %s 0\nlook %s %s 1\n' $p $g $p $g $p $g $p $g; done
done >"$room/every.txt"
expect 'every act to bytes' 0 '' '' shift "$room/every.txt" "$room/every.shift"
holds 'two bytes an act' test "$(wc -c <"$room/every.shift")" -eq 448
expect 'and back' 0 "$(cat "$room/every.txt")" '' shift-text "$room/every.shift"
./parjolenc shift-text "$room/every.shift" >"$room/every.back"
holds 'text, bytes, text: the same to the byte' cmp -s "$room/every.txt" "$room/every.back"
expect 'back to bytes' 0 '' '' shift "$room/every.back" "$room/again.shift"
holds 'bytes, text, bytes: the same to the byte' cmp -s "$room/every.shift" "$room/again.shift"
expect 'shift-text of a text: as it reads, without comments and empty lines' 0 "$(grep -v -e '^#' -e '^$' "$cards")" '' shift-text "$cards"
printf 'set a 2 0\n' >"$room/one.txt"
expect 'a shift to a second name' 0 '' '' shift "$room/one.txt" "$room/one.shift"

# a shift is made, and never overwritten
cp "$room/one.shift" "$room/kept.shift"
expect 'a shift that is there' 3 '' 'is there already' shift "$cards" "$room/kept.shift"
holds 'it is as it was' cmp -s "$room/one.shift" "$room/kept.shift"
printf 'look a 2 1\nlook a 2 2\n' >"$room/bad.txt"
expect 'a text that is refused' 2 'refused 22 2' "bad.txt, line 2: '2' is neither 0 nor 1; due here is an act" shift "$room/bad.txt" "$room/bad.shift"
holds 'no shift is made of it' test ! -e "$room/bad.shift"
expect 'a folder that is not there' 3 '' 'nofolder is not there: make it first' shift "$cards" "$room/nofolder/shift"
expect 'a shift without a name' 3 '' 'the name of the shift is empty' shift "$cards" ''
expect 'standard output where a shift is made' 3 '' 'give its name' shift "$cards" -
ln -s "$room/nowhere" "$room/hanging"
expect 'a link that leads nowhere' 3 '' 'is there already' shift "$cards" "$room/hanging"
expect 'a folder for the shift' 3 '' 'is a folder; give the name of a new file' shift "$cards" "$room"
if [ "$(uname -m)" = x86_64 ]; then
    # a file may have 1,024 bytes here: the write of a shift of 2,000 bytes fails in its midst
    for i in $(seq 1000); do echo 'set a 2 0'; done >"$room/thousand.txt"
    (ulimit -f 1; ./parjolenc shift "$room/thousand.txt" "$room/cut.shift" >/dev/null 2>"$room/said")
    holds 'a write of a shift that fails: the status' test $? -eq 3
    holds 'a write of a shift that fails leaves none' test ! -e "$room/cut.shift"
fi

# words and files
expect 'replay with two words' 3 '' "usage: ./parjolenc replay BOOK START SHIFT, START in quotes: 'a ~b c ~d'" replay "$night" "$cards"
expect 'SHIFT before START' 3 '' 'START comes before SHIFT' replay "$night" "$cards" 'a ~b ~c ~d'
expect 'replay with START not in quotes' 3 '' 'usage: ./parjolenc replay BOOK START SHIFT' replay "$night" a '~b' '~c' '~d' "$cards"
expect 'shift with one word' 3 '' 'usage: ./parjolenc shift TEXT SHIFT' shift "$cards"
expect 'shift-text with two words' 3 '' 'usage: ./parjolenc shift-text SHIFT' shift-text "$cards" "$cards"
expect 'a book that is not there' 3 '' 'nofile: there is no such file' replay "$room/nofile" 'a ~b ~c ~d' "$cards"
expect 'a shift that is not there' 3 '' 'nofile: there is no such file' replay "$night" 'a ~b ~c ~d' "$room/nofile"
expect 'a text that is not there' 3 '' 'nofile: there is no such file' shift "$room/nofile" "$room/x.shift"
expect 'a shift to print that is not there' 3 '' 'nofile: there is no such file' shift-text "$room/nofile"
expect 'a folder for a shift' 3 '' 'this is a folder' replay "$night" 'a ~b ~c ~d' "$room"
expect 'a folder to print' 3 '' 'this is a folder' shift-text "$room"
for words in "replay $night a -" "shift - $room/x.shift" 'shift-text -'; do
    expect "standard input for ${words%% *}" 3 '' "only 'answer' and 'both SHEET' take standard input" $words
done
input=$cards
expect 'a shift from a device' 0 "$(cat books/night/eight-hundred.expected)" '' replay "$night" 'a ~b ~c ~d' /dev/stdin
input=$bytes
expect 'bytes from a device' 0 "$(grep -v -e '^#' -e '^$' "$cards")" '' shift-text /dev/stdin
input=/dev/null
expect 'a shift without an end' 2 'refused 24 0' 'the shift is too long' replay "$night" 'a ~b ~c ~d' /dev/zero
mkdir "$room/s=3" && cp "$cards" "$room/s=3/-s=1 x"
expect 'a name with signs and a space' 0 "$(cat books/night/eight-hundred.expected)" '' replay "$night" 'a ~b ~c ~d' "$room/s=3/-s=1 x"
expect 'a shift to a name with signs and a space' 0 '' '' shift "$room/s=3/-s=1 x" "$room/s=3/made *"
holds 'it has the bytes' cmp -s "$bytes" "$room/s=3/made *"
for words in "replay $night a~b~c~d $cards" "shift-text $bytes"; do
    ./parjolenc $words >&- 2>"$room/said"
    holds "standard output is closed, ${words%% *}: the status" test $? -eq 3
    holds "standard output is closed, ${words%% *}: it is said" grep -q 'standard output is closed' "$room/said"
done
if [ -e /dev/full ]; then
    ./parjolenc replay "$night" 'a ~b ~c ~d' "$cards" >/dev/full 2>"$room/said"
    holds 'standard output is full: the status' test $? -eq 3
    holds 'standard output is full: it is said' grep -q 'standard output' "$room/said"
fi

# START: any order, each setting once
for start in 'a ~b ~c ~d' '~d ~c ~b a' '~b a ~d ~c'; do
    expect "START '$start'" 0 "$(cat books/night/eight-hundred.expected)" '' replay "$night" "$start" "$cards"
done
# wrong START HINT: such a START is trouble: what it must be, and what is wrong with this one.
wrong() {
    expect "START '$1': what it must be" 3 '' 'START must name each setting of the book once' replay "$night" "$1" "$cards"
    holds "START '$1': what is wrong" grep -q -F -x -e "parjolenc: $2; the book has settings a to d" "$room/said"
}
wrong '' 'START is empty'
wrong 'a ~b' 'START does not name c d'
wrong 'now a ~b ~c ~d' "START begins with 'now': leave that word out"
wrong 'a ~b ~c ~d a' 'START names a twice'
wrong 'a ~b ~c ~d ~a' 'START names a twice'
wrong 'a ~b ~c ~d e' 'START names e, which the book has not'
wrong 'a ~b ~c ~h' "START has '~h', which is no setting"
wrong 'a ~b C ~d' "START has 'C', and settings are small letters"
wrong 'a  ~b ~c ~d' 'START has a space too many: its words are split by one'
wrong ' a ~b ~c ~d' 'START has a space too many: its words are split by one'
wrong 'a,~b,~c,~d' "START has 'a,~b,~c,~d', which is no setting"
wrong 'a ~~b ~c ~d' "START has '~~b', which is no setting"
wrong '*' "START has '*', which is no setting"
printf 'size 1 1\nread a 1 1\n' >"$room/single.rules"
expect 'a book of one setting' 0 '' '' book "$room/single.rules" "$room/single.book"
expect 'START for one setting' 3 '' 'START does not name a\|START is empty; the book has setting a$' replay "$room/single.book" '' "$cards"
expect 'START too long for the program' 3 '' 'START names a twice' replay "$night" "$(printf 'a %.0s' $(seq 3000))a" "$cards"

# the settings that are printed are the START of the next shift
printf 'set c 3 1\n' >"$room/next.txt"
expect 'a next shift from there' 0 'done 1
now ~a b c d' '' replay "$night" "$(sed -n 's/^now //p' books/night/eight-hundred.expected)" "$room/next.txt"

# refusals of the book come first, then START, then the shift
expect 'a text for a book' 2 'refused 6 0' 'these are rules' replay books/night.rules 'a' "$room/bad.txt"
expect 'a shift for a book' 2 'refused 6 0' 'this is no book' replay "$cards" 'a ~b ~c ~d' "$night"
{ head -c 600 "$night"; printf '\001'; tail -c +602 "$night"; } >"$room/torn.book"
expect 'a damaged book' 2 'refused 7 1' 'block 1, that of setting a, is damaged' replay "$room/torn.book" 'a ~b ~c ~d' "$cards"
{ printf '\005'; tail -c +2 "$night"; } >"$room/head.book"
expect 'a book with a damaged head' 2 'refused 7 0' 'block 0, the head, is damaged' replay "$room/head.book" 'a ~b ~c ~d' "$cards"
expect 'START before the shift' 3 '' 'START does not name' replay "$night" a "$room/bad.txt"

# refused TEXT NUMBER LINE HINT: a shift with this text (for printf) is refused so, with the hint, by all three words.
refused() {
    printf "$1" >"$room/text"
    expect "replay, $4" 2 "refused $2 $3" "text, line $3: $4" replay "$night" 'a ~b ~c ~d' "$room/text"
    expect "shift, $4" 2 "refused $2 $3" "text, line $3: $4" shift "$room/text" "$room/x.shift"
    expect "shift-text, $4" 2 "refused $2 $3" "text, line $3: $4" shift-text "$room/text"
}
refused 'look a 2 1\r\nset a 2 0\r\n' 22 1 'the line ends in a carriage return'
refused 'look a 2 1\nset a 2 0' 22 2 'the last line has no byte 10 at its end'
refused 'look a 2 1\n\n# end' 22 3 'the last line has no byte 10 at its end'
refused '# night\n\nlook h 2 1\n' 22 3 "'h' is no setting, a to g; due here is an act, 'look SETTING POST SEEN' or 'set SETTING POST VALUE'"
refused 'look a 9 1\n' 22 1 "'9' is no post, 1 to 8"
refused 'look 2 a 1\n' 22 1 'the setting comes first, then the post'
refused 'look a 2\n' 22 1 'what was seen is missing'
refused 'set a 2\n' 22 1 'the value is missing'
refused 'set a 2 on\n' 22 1 "'on' is neither 0 nor 1"
refused 'set a 2 0 1\n' 22 1 'words after the act'
refused 'set a 2 0\nSet a 2 0\n' 22 2 "capitals: the word is 'set'"
refused 'set A 2 0\n' 22 1 'settings are small letters'
refused 'set a 2 0\n look a 2 1\n' 22 2 'a space before the first word'
refused 'set a  2 0\n' 22 1 'two spaces in column 6'
refused 'set a 2 0 \n' 22 1 'a space at the end of the line'
refused 'set a 2\t0\n' 22 1 'a tab in column 8'
refused '# plan\n0 look a 2\n' 22 2 "this is a plan's line"
refused '# rules\nsize 4 3\n' 22 2 'this is a line of rules'
refused '# question\nteam 1 2\n' 22 2 'this is a line of a question'
refused 'set a 2 0\ndance\n' 22 2 'due here is an act'

# text is found by its beginning: bytes are told that they are none
printf '\nlook a 2 1\n' >"$room/late.txt"
expect 'a text that begins with an empty line is taken for bytes: 27' 1 '*' "taken for bytes: the text of a shift begins with 'look ', 'set ' or '# '" replay "$night" 'a ~b ~c ~d' "$room/late.txt"
expect 'shift takes it' 0 '' '' shift "$room/late.txt" "$room/late.shift"
expect 'a plan for a shift, of odd length' 2 'refused 26 0' 'and this is an answer' replay "$night" 'a ~b ~c ~d' books/night/both.expected
printf '#night\nlook a 2 1\n\n' >"$room/near.txt"
expect 'a comment without its space, of odd length' 2 'refused 26 0' 'taken for bytes' replay "$night" 'a ~b ~c ~d' "$room/near.txt"
expect 'rules for a shift' '1' '*' 'these are rules' replay "$night" 'a ~b ~c ~d' <(printf 'size 4 3\n\n')
expect 'a book for a shift' 1 'done 0
now a ~b ~c ~d
act 0, bytes 4 3: no record of this book' 'record 0: bytes 4 3 are no act' replay "$night" 'a ~b ~c ~d' "$night"
expect 'bytes for a text' 2 'refused 22 1' "this is no text; './parjolenc shift-text'" shift "$bytes" "$room/x.shift"

# bytes: 26, 27, 28, 29
{ cat "$bytes"; printf '\001'; } >"$room/odd.shift"
expect 'an odd length' 2 'refused 26 0' 'odd number of bytes, and a record has two' replay "$night" 'a ~b ~c ~d' "$room/odd.shift"
expect 'an odd length, to print' 2 'refused 26 0' 'odd number of bytes' shift-text "$room/odd.shift"
printf '\162\001\310\007' >"$room/none.shift"
expect 'bytes that are no record' 1 'done 1
now a ~b ~c ~d
act 1, bytes 200 7: no record of this book' 'none.shift, record 1: bytes 200 7 are no act' replay "$night" 'a ~b ~c ~d' "$room/none.shift"
expect 'bytes that are no record, to print' 1 'refused 27 1' 'none.shift, record 1: bytes 200 7 are no act' shift-text "$room/none.shift"
printf '\002\001' >"$room/seen.shift"
expect 'a set with something seen' 1 'done 0
now a ~b ~c ~d
act 0, bytes 2 1: no record of this book' 'record 0: bytes 2 1 are no act' replay "$night" 'a ~b ~c ~d' "$room/seen.shift"
printf '\162\002' >"$room/seen2.shift"
expect 'a look that saw 2, to print' 1 'refused 27 0' 'record 0: bytes 114 2 are no act' shift-text "$room/seen2.shift"
printf 'look a 4 1\n' >"$room/post.txt"
expect 'a post past the book' 1 'done 0
now a ~b ~c ~d
act 0, line 1, look a 4 1: no record of this book' 'the book has settings a to d and posts 1 to 3' replay "$night" 'a ~b ~c ~d' "$room/post.txt"
printf '# one\n\nset b 2 1\n' >"$room/open.txt"
expect 'an act that is not permitted, with its line' 1 'done 0
now a ~b ~c ~d
act 0, line 3, set b 2 1: not permitted where a is on, b off, c off, d off' '' replay "$night" 'a ~b ~c ~d' "$room/open.txt"
printf 'look a 1 1\n' >"$room/blind.txt"
expect 'a look without the right' 1 'done 0
now a ~b ~c ~d
act 0, line 1, look a 1 1: not permitted where a is on, b off, c off, d off' '' replay "$night" 'a ~b ~c ~d' "$room/blind.txt"
printf '\162\001\162\000' >"$room/unlike.shift"
expect 'a look that disagrees, as bytes' 1 'done 1
now a ~b ~c ~d
act 1, look a 2 0: shows 1 where a is on, b off, c off, d off' '' replay "$night" 'a ~b ~c ~d' "$room/unlike.shift"

# lengths: none, the most and one more
: >"$room/empty"
expect 'an empty shift' 0 'done 0
now a ~b ~c ~d' '' replay "$night" 'a ~b ~c ~d' "$room/empty"
expect 'an empty text' 0 '' '' shift "$room/empty" "$room/empty.shift"
holds 'its bytes are none' test -f "$room/empty.shift" -a ! -s "$room/empty.shift"
expect 'the text of no records' 0 '' '' shift-text "$room/empty"
printf '# nothing was done\n\n' >"$room/idle.txt"
expect 'a shift of comments alone' 0 'done 0
now a ~b ~c ~d' '' replay "$night" 'a ~b ~c ~d' "$room/idle.txt"
printf 'B\0' >"$room/most.shift" # set b 2 1
for i in $(seq 20); do cat "$room/most.shift" "$room/most.shift" >"$room/twice" && mv "$room/twice" "$room/most.shift"; done
expect 'a shift of 2,097,152 bytes' 0 'done 1048576
now ~a b ~c ~d' '' replay "$night" '~a ~b ~c ~d' "$room/most.shift"
expect 'its text would be too long' 2 'refused 24 0' 'the text of this shift would be too long: it may have 2,097,152 bytes' shift-text "$room/most.shift"
printf 'B' >>"$room/most.shift"
expect 'a shift of one byte more' 2 'refused 24 0' 'the shift is too long: it may have 2,097,152 bytes' replay "$night" '~a ~b ~c ~d' "$room/most.shift"
expect 'a shift of one byte more, to print' 2 'refused 24 0' 'the shift is too long' shift-text "$room/most.shift"
{ yes 'set b 2 1' | head -n 209715; echo '#'; } >"$room/most.txt"
expect 'a text of 2,097,152 bytes' 0 'done 209715
now ~a b ~c ~d' '' replay "$night" '~a ~b ~c ~d' "$room/most.txt"
expect 'a text of 2,097,152 bytes, to bytes' 0 '' '' shift "$room/most.txt" "$room/long.shift"
holds 'two bytes an act of them' test "$(wc -c <"$room/long.shift")" -eq 419430
./parjolenc shift-text "$room/long.shift" >"$room/long.back"
holds 'and back' cmp -s "$room/long.back" <(grep -v '^#' "$room/most.txt")
echo >>"$room/most.txt"
expect 'a text of one byte more' 2 'refused 24 0' 'the shift is too long' replay "$night" '~a ~b ~c ~d' "$room/most.txt"
expect 'a text of one byte more, to bytes' 2 'refused 24 0' 'the shift is too long' shift "$room/most.txt" "$room/x.shift"
holds 'nothing is made of it' test ! -e "$room/x.shift"
./parjolenc shift-text "$room/long.shift" 2>"$room/said" | head -n 1 >"$room/printed"
holds 'a reader that goes away has its line' test "$(cat "$room/printed")" = 'set b 2 1'
