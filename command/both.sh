# both SHEET, both BOOK QUESTION: the answer of both finders, in one line and without a plan. The two are programs by
# themselves; that they never differ is proved, and here it is seen. A sheet that is refused is put to the first alone.
[ $# -eq 1 ] || [ $# -eq 2 ] || trouble 'usage: ./parjolenc both SHEET, or ./parjolenc both BOOK QUESTION'
kept

# beside NAME PROGRAM WORDS..: runs a program, and keeps what it prints in the side folder under that name.
beside() {
    local into=$side/$1
    shift
    : 2>/dev/null >"$into" || trouble "no room in the temporary folder $side"
    run "$@" >"$into"
    [ "$status" -ne 3 ] || trouble "no answer could be kept in the temporary folder $side, or the files could not be read"
}

# printed LINE: a line on standard output.
printed() {
    printf '%s\n' "$1" 2>/dev/null || trouble 'standard output cannot be written'
}

# compared BOOK QUESTION: the plain finder's answer is put beside the first finder's, and both are said, or that they differ.
compared() {
    local before=$status first plain
    beside plain program_plain "$1" "$2"
    first=$(head -n 1 "$side/answer")
    plain=$(cat "$side/plain")
    [ "$status" -eq "$before" ] && [ "$plain" = "$first" ] ||
        trouble "the two finders differ, which is proved not to be: '$first' and '$plain'"
    if [ "$status" -eq 2 ]; then printed "$plain"; else printed "both: $plain"; fi
}

if [ $# -eq 1 ]; then
    name=$1
    [ "$1" != - ] || name='standard input'
    [ "$1" = - ] || readable "$1" || exit 3
    taken "$1" 32768
    sheet=$file
    beside answer parjolenc <"$sheet"
    if [ "$status" -eq 2 ]; then
        printed "$(cat "$side/answer")"
        hint sheet "$sheet" "$name"
        exit 2
    fi
    first=$status
    # a sheet that is not refused is rules up to its line `team`, and a question from there on
    sed '/^team /,$d' <"$sheet" >"$side/rules" && sed -n '/^team /,$p' <"$sheet" >"$side/question" ||
        trouble "no room in the temporary folder $side"
    run program_book "$side/rules" "$side/book"
    [ "$status" -eq 0 ] || trouble "the rules of $name make no book"
    status=$first
    compared "$side/book" "$side/question"
    empty_hint "$sheet" "$name"
else
    readable "$1" || exit 3
    readable "$2" || exit 3
    taken "$1" 4096
    book=$file
    taken "$2" 65536
    if LC_ALL=C grep -a -q -x then "$file"; then
        # a second leg is for `ask` alone: the plain finder refuses its line `then`, or what comes before it
        beside plain program_plain "$book" "$file"
        printed "$(cat "$side/plain")"
    else
        beside answer program_ask "$book" "$file"
        compared "$book" "$file"
    fi
    asked_hint "$book" "$1" "$file" "$2"
fi
exit "$status"
