# check BOOK QUESTION PLAN: whether a plan, as it is printed, is one that works.
words 3 $# 'check BOOK QUESTION PLAN'
for each in "$@"; do readable "$each" || exit 3; done
taken "$1" 4096
book=$file
taken "$2" 65536
question=$file
taken "$3" 524288
plan=$file
run program_check "$book" "$question" "$plan"

# rule_of LINE: the right that a plan's line stands under, as a rules text names it.
rule_of() {
    local kind setting post
    read -r _ kind setting post _ <<<"$1"
    if [ "$kind" = look ]; then kind=read; else kind=write; fi
    printf '%s' "$kind $setting $post"
}

# closed RIGHT: whether the book's table of a right, as `rule_of` names it, is 16 zeros. A setting's block stands after the head and
# the settings before it; a post has 32 bytes of it, 16 to look and 16 to set.
closed() {
    local kind setting post before at
    read -r kind setting post <<<"$1"
    before=abcdefg
    before=${before%%"$setting"*}
    at=$((512 * (1 + ${#before}) + 32 * (post - 1)))
    [ "$kind" = read ] || at=$((at + 16))
    [ "$(tail -c "+$((at + 1))" <"$book" | head -c 16 | LC_ALL=C tr -d '\0' | wc -c)" -eq 0 ]
}

# false_rule RIGHT: how a rule that is surely false is false.
false_rule() {
    if closed "$1"; then printf '%s' "'$1' is closed in this book, at all settings"; else printf '%s' "the rule of '$1' is surely false there"; fi
}

# denied TEXT SECOND: why the act in a plan's line is not permitted, by the second number of 18.
denied() {
    local right
    right=$(rule_of "$1")
    case $2 in
    0) printf '%s' "'$1': the setting is already known there, and a plan does not look at it again" ;;
    1) printf '%s' "'$1': $(false_rule "$right")" ;;
    2) printf '%s' "'$1': nobody in the team knows there whether the rule of '$right' holds" ;;
    3) printf '%s' "'$1': the setting is held, and no plan sets it" ;;
    *) printf '%s' "'$1' is not permitted there" ;;
    esac
}

# plan_hint NAME: the fault that the plan check found, with the line of the plan that it is in. Byte i stands in line i + 2.
plan_hint() {
    local number place second line
    read -r _ number place second < <(sed -n 2p <<<"$said")
    line=$((place + 2))
    case $number in
    16) say "$1: the plan has more than 32,640 lines of acts and stops" ;;
    17) say "$1, line $line: '$(sed -n "${line}p" <"$plan")' names no act of this book and team" ;;
    18) say "$1, line $line: $(denied "$(sed -n "${line}p" <"$plan")" "$second")" ;;
    19) say "$1, line $line: the plan stops where the goal is not settled" ;;
    20) say "$1, line $line: the plan ends too soon" ;;
    21) say "$1, line $line: the plan was whole before this line" ;;
    32) say "$1, line $line: '$(sed -n "${line}p" <"$plan")': the team knows that the setting has this value there, so the set changes nothing: leave the line out" ;;
    *) hint plan "$plan" "$1" ;;
    esac
}

case $(whose) in
book) book_hint "$book" "$1" ;;
question) question_hint "$book" "$question" "$2" ;;
plan) plan_hint "$3" ;;
esac
exit "$status"
