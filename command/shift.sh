# shift TEXT SHIFT: the bytes of a shift from its text. SHIFT is made, and never overwritten.
words 2 $# 'shift TEXT SHIFT'
readable "$1" || exit 3
fresh "$2" shift
taken "$1" 2097152
trap '' XFSZ # a file that grows past a limit is a failed write, and not the program's end
made "$2" program_shift "$file"
case $status-$(shift_form "$file") in
2-bytes) say "$1: this is no text; './parjolenc shift-text' prints the text of a shift's bytes" ;;
2-*) shift_hint "$file" "$1" ;;
esac
exit "$status"
