# replay BOOK START SHIFT: a recorded shift, text or bytes, run against a book from the settings that START says.
[ $# -eq 3 ] || trouble "usage: ./parjolenc replay BOOK START SHIFT, START in quotes: 'a ~b c ~d'"
[ -e "$3" ] || [ ! -f "$2" ] || trouble "$3: there is no such file; START comes before SHIFT"
for each in "$1" "$3"; do readable "$each" || exit 3; done
taken "$1" 4096
book=$file
taken "$3" 2097152
recorded=$file
trap '' PIPE # a reader that goes away is a failed write, and not the program's end
run program_replay "$book" "$2" "$recorded"

# unnamed LETTERS NAMED: the letters that are not named.
unnamed() {
    local i letter
    for ((i = 0; i < ${#1}; i++)); do
        letter=${1:i:1}
        case $2 in *"$letter"*) ;; *) printf ' %s' "$letter" ;; esac
    done
}

# start_fault LETTERS START: the first thing that is wrong with START, for a book with these settings.
start_fault() {
    local words word letter named=
    case " $2 " in
    '  ') echo 'START is empty' && return ;;
    ' now '*) echo "START begins with 'now': leave that word out" && return ;;
    *'  '*) echo 'START has a space too many: its words are split by one' && return ;;
    esac
    IFS=' ' read -r -d '' -a words < <(printf '%s ' "$2")
    for word in "${words[@]}"; do
        letter=${word#\~}
        case $letter in
        [$1]) case $named in *"$letter"*) echo "START names $letter twice" && return ;; esac ;;
        [a-g]) echo "START names $letter, which the book has not" && return ;;
        [A-G]) echo "START has ${word@Q}, and settings are small letters" && return ;;
        *) echo "START has ${word@Q}, which is no setting" && return ;;
        esac
        named=$named$letter
    done
    echo "START does not name$(unnamed "$1" "$named")"
}

# sized: what a sound book has, by its first two bytes: the letters of its settings, the same in words, and its posts.
sized() {
    local settings
    read -r settings posts < <(od -An -tu1 -N2 <"$book")
    letters=abcdefg
    letters=${letters:0:settings}
    case $letters in ?) has="setting $letters" ;; *) has="settings a to ${letters: -1}" ;; esac
}

# past_hint NAME: where a record is an act, and none of this book's, what the book has.
past_hint() {
    case $(sed -n 4p <<<"$said") in
    *', bytes '*) ;;
    *': no record of this book') sized && say "$1: the book has $has and posts 1 to $posts" ;;
    esac
}

case $(tail -n 1 <<<"$said") in
book) book_hint "$book" "$1" ;;
start) sized && say "$(start_fault "$letters" "$2"); the book has $has" ;;
shift)
    shift_hint "$recorded" "$3"
    past_hint "$3"
    ;;
esac
exit "$status"
