# shift-text SHIFT: the text of a shift. One that is text already is printed as it reads, without comments and empty lines.
words 1 $# 'shift-text SHIFT'
readable "$1" || exit 3
taken "$1" 2097152
trap '' PIPE # a reader that goes away is a failed write, and not the program's end
run program_shift_text "$file"
shift_hint "$file" "$1"
exit "$status"
