# ask BOOK QUESTION ..: what a stored book answers. One question gets its whole answer; of several, each gets a line: the
# file's name and the first line of its answer. The status is the highest of theirs.
[ $# -ge 2 ] || trouble 'usage: ./parjolenc ask BOOK QUESTION ..'
named=$1
shift
readable "$named" || exit 3
taken "$named" 4096
book=$file
legs=1

# asked QUESTION: the answer on standard output, what is wrong in words, and `status`.
asked() {
    readable "$1" || { status=3; return; }
    taken "$1" 65536
    run program_ask "$book" "$file"
    asked_hint "$book" "$named" "$file" "$1"
}

if [ $# -eq 1 ]; then
    asked "$1"
    exit "$status"
fi
kept
highest=0
for question in "$@"; do
    asked "$question" >"$side/answer"
    [ "$status" -eq 3 ] || printf '%s %s\n' "$question" "$(head -n 1 "$side/answer")" 2>/dev/null || trouble 'standard output cannot be written'
    [ "$status" -le "$highest" ] || highest=$status
done
exit "$highest"
