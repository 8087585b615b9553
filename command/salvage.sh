# salvage DAMAGED BOOK: a damaged book back on its feet. BOOK is made, and never overwritten; what was closed is named.
words 2 $# 'salvage DAMAGED BOOK'
readable "$1" || exit 3
fresh "$2" book
taken "$1" 4096
trap '' XFSZ # a file that grows past a limit is a failed write, and not the program's end
kept
: 2>/dev/null >"$side/line" || trouble "no room in the temporary folder $side"
made "$2" program_salvage "$file" >"$side/line"
[ "$status" -ne 2 ] || book_hint "$file" "$1"
cat "$side/line" 2>/dev/null || { say 'standard output cannot be written'; status=3; }
case $status-$(head -c 6 "$side/line") in
3-*) [ ! -e "$2" ] || say "$2 was made; to see what was closed, salvage $1 once more, under another name" ;;
0-closed) say "'reach' with $2 holds of the book before the damage too, if all the damage was found; 'cannot', and an act that is not permitted, may come of what is closed" ;;
esac
exit "$status"
