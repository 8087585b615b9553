# both: every sheet and every question of books/ by both finders, refusals as `answer` and `ask` print them, statuses and words.
for sheet in sheets/*.sheet; do
    first=$(head -n 1 "${sheet%.sheet}.expected")
    case $first in
    reach*) expect "both $sheet" 0 "both: $first" '' both "$sheet" ;;
    cannot) expect "both $sheet" 1 "both: $first" '' both "$sheet" ;;
    *) expect "both $sheet" 2 "$first" "$sheet" both "$sheet" ;;
    esac
done
for rules in books/*.rules; do
    name=$(basename "$rules" .rules)
    for question in books/"$name"/*.question; do
        first=$(head -n 1 "${question%.question}.expected")
        case $first in reach*) status=0 ;; *) status=1 ;; esac
        if then=$(grep -n -x then "$question"); then
            expect "both $question: one leg alone" 2 "refused 22 ${then%%:*}" "line ${then%%:*}: a second leg is for './parjolenc ask' alone" both "$room/$name.book" "$question"
        else
            expect "both $question" "$status" "both: $first" '' both "$room/$name.book" "$question"
        fi
    done
done
expect 'both without words' 3 '' 'usage: ./parjolenc both SHEET' both
expect 'both of three words' 3 '' 'usage: ./parjolenc both SHEET' both a b c
expect 'both of a sheet that is not there' 3 '' 'no-such.sheet' both "$room/no-such.sheet"
printf 'team 9\nknown\nmake a\n' >"$room/nine.question"
expect 'both of a question that is refused' 2 'refused 22 1' 'nine.question, line 1' both "$room/night.book" "$room/nine.question"
head -c 511 "$room/night.book" >"$room/short.book"
expect 'both of a book that is none' 2 'refused 6 0' 'this is no book' both "$room/short.book" books/night/both.question
input=sheets/night.sheet
expect 'both of standard input' 0 'both: reach 4' '' both -
expect 'both of a device' 0 'both: reach 4' '' both /dev/stdin
input=/dev/null
expect 'both of a book from standard input' 3 '' "only 'answer' and 'both SHEET' take standard input" both - books/night/both.question
./parjolenc both sheets/night.sheet >/dev/full 2>"$room/said"
holds 'both to a full device: the status' test $? -eq 3
holds 'both to a full device: it is said' grep -q 'standard output cannot be written' "$room/said"

# a program in the place of the plain finder that says something else is complained of; one that is in trouble is not
# odd NAME STATUS SAID PRINTED TOLD: the stand-in prints PRINTED and says TOLD on descriptor 3
odd() {
    printf '#!/bin/sh\nprintf "%s"\necho %s >&3\n' "$4" "$5" >"$room/odd/target/bin/program_plain"
    "$room/odd/parjolenc" both "$room/night.book" books/night/both.question >"$room/printed" 2>"$room/said"
    holds "$1: the status" test $? -eq "$2"
    holds "$1: it is said" test "$(cat "$room/said")" = "$3"
    holds "$1: nothing is printed" test ! -s "$room/printed"
}
case $(uname -m) in
x86_64)
    mkdir -p "$room/odd/target" && cp -r parjolenc command "$room/odd/" && cp -r target/bin "$room/odd/target/"
    odd 'another height' 3 "parjolenc: the two finders differ, which is proved not to be: 'reach 4' and 'reach 9'" 'reach 9\\n' 0
    odd 'another status' 3 "parjolenc: the two finders differ, which is proved not to be: 'reach 4' and 'cannot'" 'cannot\\n' 1
    printf '#!/bin/sh\necho 3 >&3\n' >"$room/odd/target/bin/program_plain"
    "$room/odd/parjolenc" both "$room/night.book" books/night/both.question >"$room/printed" 2>"$room/said"
    holds 'a plain finder in trouble: the status' test $? -eq 3
    holds 'a plain finder in trouble: no difference is said' grep -q 'no answer could be kept' "$room/said"
    ;;
esac
TMPDIR=$room/none ./parjolenc both sheets/night.sheet >"$room/printed" 2>"$room/said"
holds 'both without a temporary folder: the status' test $? -eq 3
holds 'both without a temporary folder: it is said' grep -q 'which TMPDIR names' "$room/said"
mkdir "$room/mine" && echo mine >"$room/mine/answer"
holds 'a variable from outside is not taken' test "$(side=$room/mine status=0 ./parjolenc both sheets/night.sheet 2>&1)" = 'both: reach 4'
holds 'and what it names is left alone' test "$(cat "$room/mine/answer")" = mine
expect 'a sheet for a book' 2 'refused 6 0' 'this is a sheet: give it alone' both sheets/night.sheet books/night/both.question
