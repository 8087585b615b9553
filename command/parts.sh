# Sourced by ../parjolenc: what its words share. `home` is the repository, or a folder with the same command/ and
# target/bin/ in it.

# trouble WORDS..: says what is wrong with the words, the files or the disk.
trouble() {
    say "$*"
    exit 3
}

# words DUE GOT USAGE: as many words as are due.
words() {
    [ "$1" -eq "$2" ] || trouble "usage: ./parjolenc $3"
}

# say WORDS..: a line on standard error.
say() {
    printf 'parjolenc: %s\n' "$*" >&2
}

# readable FILE: a file that can be read, and no folder; else what is wrong is said.
readable() {
    if [ "$1" = - ]; then
        say "-: only 'answer' and 'both SHEET' take standard input so; give a file, or /dev/stdin"
    elif [ ! -e "$1" ]; then
        say "$1: there is no such file, or its folder may not be entered"
    elif [ -d "$1" ]; then
        say "$1: this is a folder"
    elif [ ! -r "$1" ]; then
        say "$1: no permission to read it"
    else
        return 0
    fi
    return 1
}

# fresh FILE WHAT: a name under which a file can be made.
fresh() {
    [ -n "$1" ] || trouble "the name of the $2 is empty"
    [ "$1" != - ] || trouble "-: the $2 is made as a file; give its name"
    [ ! -d "$1" ] || trouble "$1 is a folder; give the name of a new file"
    [ ! -e "$1" ] && [ ! -L "$1" ] || trouble "$1 is there already, and is not overwritten; choose another name"
    case $1 in */*) [ -d "${1%/*}/" ] || trouble "the folder ${1%/*} is not there: make it first" ;; esac
}

# kept: a folder of its own for what a call writes on the side.
kept() {
    [ -z "$side" ] || return 0
    trap '[ -z "$side" ] || rm -rf "$side"' EXIT
    side=$(mktemp -d 2>/dev/null) || trouble "no temporary folder can be made${TMPDIR:+ in $TMPDIR, which TMPDIR names}"
}

# named NAME: a name that is UTF-8. The programs open a file under no other.
utf8=$'^([\1-\177]|[\302-\337][\200-\277]|\340[\240-\277][\200-\277]|[\341-\354\356\357][\200-\277]{2}|\355[\200-\237][\200-\277]|\360[\220-\277][\200-\277]{2}|[\361-\363][\200-\277]{3}|\364[\200-\217][\200-\277]{2})*$'
named() {
    [[ $1 =~ $utf8 ]]
}

# taken FILE MOST: a file that can be read twice, in `file`: FILE itself, or where that is no regular file (a pipe, a
# device, `-` for standard input), as much of it as MOST bytes and one more, copied. Where its name is not UTF-8 it is opened here.
taken() {
    local opened
    file=$1
    if [ "$1" = - ] || [ ! -f "$1" ]; then
        kept
        file=$(mktemp "$side/XXXXXX") || trouble "no room in the temporary folder $side"
        if [ "$1" = - ]; then
            head -c "$(($2 + 1))" >"$file" || trouble 'standard input cannot be read'
        else
            head -c "$(($2 + 1))" <"$1" >"$file" || trouble "$1: it cannot be read"
        fi
    fi
    named "$file" || { exec {opened}<"$file" && file=/dev/fd/$opened; } || trouble "$1: it cannot be read"
}

# start PROGRAM WORDS..: a program that the kit has built. They are for x86-64: another processor needs the kit's
# emulator.
start() {
    local program=$home/target/bin/$1
    shift
    case $(uname -m) in
    x86_64) "$program" "$@" ;;
    *) "$home/tests/x86/start" "$program" "$@" ;;
    esac
}

# run PROGRAM WORDS..: runs a program. `said` is what it said on descriptor 3, and `status` what came of it.
run() {
    [ ! -d "$home/crates" ] || "$home/command/build" "$1" || exit 3
    [ -e "$home/target/bin/$1" ] || trouble "$home/target/bin/$1 is not there"
    [ -x "$home/target/bin/$1" ] || trouble "$home/target/bin/$1 may not be run: chmod +x it"
    said=
    { said=$(start "$@" 3>&1 >&4 4>&-); } 4>&1
    status=${said%%$'\n'*}
    case $status in
    [0-3]) ;;
    *) trouble "the program $1 ended without saying what came of it" ;;
    esac
}

# made NEW PROGRAM WORDS..: runs a program whose last word is the file NEW that it makes. Where that name is not UTF-8 the
# program makes a file in the side folder, and NEW is a copy of it.
made() {
    local new=$1
    shift
    if named "$new"; then
        run "$@" "$new"
        return
    fi
    kept
    run "$@" "$side/made"
    [ "$status" -ne 0 ] || copied "$side/made" "$new" || status=3
}

# copied FILE NEW: makes the file NEW with the bytes of FILE. One that is there is not overwritten, and a failed write leaves none.
copied() (
    set -o noclobber
    exec 5>"$2" || exit 1
    cat <"$1" >&5 || { rm -f -- "$2"; exit 1; }
)

# hint KIND FILE NAME [WORDS..]: after a fault in a text, a line on standard error that says in words what is wrong and where, as
# far as the text shows it. WORDS are settings of hints.awk.
hint() {
    local kind=$1 file=$2 name=$3 answer own number line place unended=0
    shift 3
    answer=$(sed -n 2p <<<"$said")
    own=$(sed -n 3p <<<"$said")
    [ -n "$own" ] || return 0
    read -r _ number line <<<"$answer"
    read -r _ _ place <<<"$own"
    if [ "$(head -c 512 <"$file" | tr -d '\0' | wc -c)" -ne "$(head -c 512 <"$file" | wc -c)" ]; then
        say "$name: this is a book or another file that is no text, where a $kind is due"
        return 0
    fi
    [ "$(tail -c 1 <"$file" | od -An -tu1 | tr -d ' ')" = 10 ] || unended=1
    awk -v kind="$kind" -v name="$name" -v number="$number" -v line="$line" -v place="$place" -v unended="$unended" "$@" \
        -f "$home/command/hints.awk" <"$file" >&2
}

# whose: which of its texts the program says is at fault.
whose() {
    sed -n 4p <<<"$said"
}

# is_text FILE: what a text in the place of a book is.
is_text() {
    local word
    read -r word _ < <(head -c 4096 <"$1" | grep -a -v -e '^#' -e '^$' | head -n 1 | tr -d '\0')
    case $word in
    team) echo ', and this is a question' ;;
    size)
        if head -c 32768 <"$1" | grep -a -q '^team '; then
            echo ", and this is a sheet: give it alone, to 'answer' or 'both'"
        else
            echo ", and these are rules: './parjolenc book' makes a book of them"
        fi
        ;;
    reach | cannot) echo ', and this is an answer' ;;
    look | set) echo ', and this is a shift' ;;
    esac
}

# of_setting BLOCK: which setting's block it is, in words.
of_setting() {
    local letters=abcdefg
    echo ", that of setting ${letters:$1 - 1:1},"
}

# bytes_of FILE: how many bytes it has, in words, as far as a book goes.
bytes_of() {
    local count
    count=$(head -c 4097 <"$1" | wc -c)
    [ "$count" -le 4096 ] && echo "$count bytes" || echo 'more than 4,096 bytes'
}

# no_head BOOK: what is wrong with the head of a book of whole blocks: whether the file has another length than it says.
no_head() {
    local n blocks
    n=$(od -An -tu1 -N1 <"$1" | tr -d ' ')
    blocks=$(($(head -c 4097 <"$1" | wc -c) / 512 - 1))
    if [ "$n" -ne "$blocks" ] && [ "$n" -ge 1 ] && [ "$n" -le 7 ]; then
        echo "its head says $n settings, and the blocks of $blocks follow: the file is cut off, more was added, or the head is damaged"
    else
        echo 'its head block is damaged'
    fi
}

# book_hint BOOK NAME: what is wrong with a book that is refused, and what can be done.
book_hint() {
    local number place again='make the book again from its rules'
    read -r _ number place < <(sed -n 2p <<<"$said")
    case $number-$place in
    6-*) say "$2: this is no book: a book has 2 to 8 blocks of 512 bytes, and this has $(bytes_of "$1")$(is_text "$1")" ;;
    7-0) say "$2: block 0, the head, is damaged: its check is wrong; it cannot be salvaged: $again" ;;
    8-*) say "$2: $(no_head "$1"); $again" ;;
    30-*) say "$2: $(no_head "$1"), so that nothing can be salvaged: $again" ;;
    7-*) say "$2: block $place$(of_setting "$place") is damaged: its check is wrong; './parjolenc salvage $2 NEW' closes what is damaged, or $again" ;;
    9-*) say "$2: block $place$(of_setting "$place") has a bit that must be zero; './parjolenc salvage $2 NEW' closes what is damaged, or $again" ;;
    esac
}

# question_hint BOOK QUESTION NAME: what is wrong with a question that is put to a book, whose first two bytes are its size. `legs` is 1
# where a question may have a second leg.
legs=0
question_hint() {
    local n m
    read -r n m < <(od -An -tu1 -N2 <"$1")
    hint question "$2" "$3" -v n="$n" -v m="$m" -v legs="$legs"
}

# empty_hint FILE NAME [WORDS..]: after an answer, a line on standard error where the question asks nothing. WORDS are settings
# of empty.awk.
empty_hint() {
    local file=$1 name=$2
    shift 2
    [ "$status" -gt 1 ] || awk -v name="$name" "$@" -f "$home/command/empty.awk" <"$file" >&2 2>/dev/null
}

# asked_hint BOOK NAME QUESTION NAME: after what a program said of a question that is put to a book, what is wrong with the one of them
# that is at fault, or that nothing is asked.
asked_hint() {
    case $(whose) in
    book) book_hint "$1" "$2" ;;
    question) question_hint "$1" "$3" "$4" ;;
    *) empty_hint "$3" "$4" -v n="$(od -An -tu1 -N1 <"$1" | tr -d ' ')" -v able="$(able "$1" 1)" -v setters="$(able "$1" 17)" ;;
    esac
}

# able BOOK FROM: the digits of the posts that have a right that can hold. A setting's block has 16 rows of 32 bytes, and the first
# eight are its posts' tables: to look, and from byte 17 on to set. FROM is 1 for any right, and 17 for a right to set.
able() {
    od -An -v -tu1 -w32 -j512 <"$1" | awk -v from="$2" '
        (NR - 1) % 16 < 8 { for (i = from; i <= NF; i++) if ($i) post[(NR - 1) % 16 + 1] = 1 }
        END { for (q in post) printf "%s", q }'
}

# shift_form FILE: what a shift's file looks like: `text` by how it begins, `other` where it has signs, blanks and line ends alone, and
# else `bytes`. No record's second byte is such a sign.
shift_form() {
    case $(head -c 5 <"$1" | tr -d '\0') in
    'look ' | 'set '* | '# '*) echo text ;;
    *) [ "$(head -c 512 <"$1" | tr -d '\11\12\15\40-\176\200-\377' | wc -c)" -eq 0 ] && echo other || echo bytes ;;
    esac
}

# long_hint FILE NAME: a shift that is too long, as it stands or as text.
long_hint() {
    if [ "$(head -c 2097153 <"$1" | wc -c)" -gt 2097152 ]; then
        say "$2: the shift is too long: it may have 2,097,152 bytes"
    else
        say "$2: the text of this shift would be too long: it may have 2,097,152 bytes"
    fi
}

# record_hint FILE NAME INDEX: two bytes of a shift that are no record of any book.
record_hint() {
    local act seen
    read -r act seen < <(od -An -tu1 -j "$((2 * $3))" -N2 <"$1")
    [ "$act" -ge 1 ] && [ "$act" -le 168 ] && [ "$seen" -le "$((act > 112))" ] ||
        say "$2, record $3: bytes $act $seen are no act, 1 to 168, and what was seen: 0 or 1, and 0 for a set"
}

# shift_hint FILE NAME: what is wrong with a shift, text or bytes, by the refusal that the program says last but one.
shift_hint() {
    local number place
    read -r _ number place < <(tail -n 2 <<<"$said" | head -n 1)
    case $number-$(shift_form "$1") in
    22-*) hint shift "$1" "$2" ;;
    24-*) long_hint "$1" "$2" ;;
    2[67]-other) say "$2: this is taken for bytes: the text of a shift begins with 'look ', 'set ' or '# '$(is_text "$1")" ;;
    26-bytes) say "$2: the shift has an odd number of bytes, and a record has two" ;;
    27-bytes) record_hint "$1" "$2" "$place" ;;
    esac
}
