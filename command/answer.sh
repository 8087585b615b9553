# answer SHEET: the sheet program. `-` is standard input.
words 1 $# 'answer SHEET'
name=$1
[ "$1" != - ] || name='standard input'
[ "$1" = - ] || readable "$1" || exit 3
taken "$1" 32768
run parjolenc <"$file"
hint sheet "$file" "$name"
empty_hint "$file" "$name"
exit "$status"
