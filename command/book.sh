# book RULES BOOK: a book from rules text. BOOK is made, and never overwritten.
words 2 $# 'book RULES BOOK'
readable "$1" || exit 3
fresh "$2" book
taken "$1" 65536
trap '' XFSZ # a file that grows past a limit is a failed write, and not the program's end
made "$2" program_book "$file"
hint rules "$file" "$1"
exit "$status"
