# book, ask and check: the examples of books/ (its shifts are in 7-shifts.sh), statuses, troubles with files, and hints.
for rules in books/*.rules; do
    name=$(basename "$rules" .rules)
    book=$room/$name.book
    expect "book of $name" 0 '' '' book "$rules" "$book"
    for question in books/"$name"/*.question; do
        expected=${question%.question}.expected
        case $(head -n 1 "$expected") in reach*) status=0 ;; *) status=1 ;; esac
        expect "ask $question" "$status" "$(cat "$expected")" '' ask "$book" "$question"
        [ "$status" -eq 0 ] || continue
        cp "$expected" "$room/plan"
        if then=$(grep -n -x then "$question"); then
            # a second leg is for `ask` alone; the plan is one of the first leg's too
            expect "check $question: one leg alone" 2 "refused 22 ${then%%:*}" 'a second leg is for' check "$book" "$question" "$room/plan"
            sed '/^then$/,$d' "$question" >"$room/leg.question"
            expect "check $question: the first leg's plan" 0 yes '' check "$book" "$room/leg.question" "$room/plan"
        else
            expect "check $question: its own plan" 0 yes '' check "$book" "$question" "$room/plan"
        fi
    done
    for plan in books/"$name"/*.plan; do
        [ -e "$plan" ] || continue
        question=${plan%-*}.question
        expect "check $plan" 1 "$(cat "${plan%.plan}.expected")" "$plan, line" check "$book" "$question" "$plan"
    done
done
night=$room/night.book
expect 'several questions: a table, and the highest status' 1 "$(for q in books/night/*.question; do echo "$q $(head -n 1 "${q%.question}.expected")"; done)" '' \
    ask "$night" books/night/*.question
expect 'several questions, one of them missing' 3 "books/night/both.question reach 4" 'nofile: there is no such file' ask "$night" "$room/nofile" books/night/both.question
expect 'several questions, one of them refused' 2 "$room/bad.question refused 22 1
books/night/both.question reach 4" "bad.question, line 1: due here is 'team POST" ask "$night" "$(printf 'make a\n' >"$room/bad.question"; echo "$room/bad.question")" books/night/both.question

# a look that no rule states is open, and a book that was made when it was closed means what it meant
printf 'team 1\nknown ~c ~d\nmake 1\nask b\n' >"$room/mode.question"
expect 'a look that is not stated' 0 'reach 1
0 look b 1
1 stop
1 stop' '' ask "$night" "$room/mode.question"
expect 'a stored book, with that look closed' 1 'cannot' '' ask crates/program_ask/data/night.book "$room/mode.question"

expect 'a set of a held setting' 1 'refused 18 4 3' "line 6: '1 set a 2 0': the setting is held, and no plan sets it" \
    check "$night" books/night/sunday.question books/night/sunday-pocket.plan

# two legs
printf 'team 2\nknown\nthen\nteam 1\nmake d\n' >"$room/early.question"
expect 'then too early' 2 'refused 22 3' "line 3: 'then' stands after a whole first leg; due here is 'held SETTING ..' or 'make FORMULA'" ask "$night" "$room/early.question"
printf 'team 2\nknown\nmake 1\nthen\nteam 1\nknown\nmake d\n' >"$room/again.question"
expect 'known in a second leg' 2 'refused 22 6' "line 6: what is known and held is said in the first leg, for both; due here is 'make FORMULA'" ask "$night" "$room/again.question"
printf 'team 2\nknown\nmake 1\nthen\nteam 1\nmake d\nthen\n' >"$room/thrice.question"
expect 'a third leg' 2 'refused 22 7' "line 7: line 4 is 'then' already" ask "$night" "$room/thrice.question"
printf 'team 2\nknown\nmake 1\nthen\n# night\n' >"$room/short.question"
expect 'a second leg that does not come' 2 'refused 22 6' "the text ends here; due is 'team POST ..' of the second leg" ask "$night" "$room/short.question"
printf 'team 2\nknown\nmake 1\nthen\nteam 1\nmake a&~a\n' >"$room/never.question"
expect 'a second leg that asks what cannot be' 1 cannot 'second leg: the make formula is never true' ask "$night" "$room/never.question"

# a book is made, and never overwritten
cp "$night" "$room/kept"
expect 'a book that is there' 3 '' 'is there already' book books/night.rules "$room/kept"
holds 'it is as it was' cmp -s "$night" "$room/kept"
printf 'size 2 2\nread a 1 a&\n' >"$room/bad.rules"
expect 'rules that are refused' 2 'refused 4 2' 'bad.rules, line 2: column 12: the formula ends too soon' book "$room/bad.rules" "$room/bad.book"
holds 'no book is made of them' test ! -e "$room/bad.book"
expect 'a folder that is not there' 3 '' 'nofolder is not there: make it first' book books/night.rules "$room/nofolder/book"
expect 'rules that are not there' 3 '' 'there is no such file' book "$room/nofile" "$room/x.book"
expect 'one word for two' 3 '' 'usage: ./parjolenc book RULES BOOK' book books/night.rules
if [ "$(uname -m)" = x86_64 ]; then
    # a file may have 1,024 bytes here: the write of a book fails in its midst
    (ulimit -f 1; ./parjolenc book books/night.rules "$room/cut.book" >/dev/null 2>"$room/said")
    holds 'a write that fails: the status' test $? -eq 3
    holds 'a write that fails leaves no book' test ! -e "$room/cut.book"
fi

# rules and questions: passed-over lines are counted
printf '# one\n\nsize 2 1\n# four\nread a 1 1\nteam 1\n' >"$room/team.rules"
expect 'a team line in rules' 2 'refused 22 6' "due here is 'read SETTING POST FORMULA'" book "$room/team.rules" "$room/x.book"
printf '# one\nteam 1 2\n\nknown ~c ~d\nread a 1 1\n' >"$room/read.question"
expect 'a read line in a question' 2 'refused 22 5' 'a question has no rights' ask "$night" "$room/read.question"
printf 'team 1 4\n' >"$room/post.question"
expect 'a post past the book' 2 'refused 22 1' 'post 4 is past the size, which has 3' ask "$night" "$room/post.question"
printf 'team 1\nknown\nmake a|e\n' >"$room/letter.question"
expect 'a letter past the book' 2 'refused 3 3' 'column 8: setting e is past the size: the last of 4 is d' ask "$night" "$room/letter.question"
printf 'team 1\nknown\nmake a\n# end' >"$room/open.question"
expect 'a last comment without its end' 2 'refused 22 4' 'no byte 10' ask "$night" "$room/open.question"

# books that are none
expect 'a text for a book' 2 'refused 6 0' 'these are rules' ask books/night.rules books/night/both.question
{ head -c 600 "$night"; printf '\001'; tail -c +602 "$night"; } >"$room/damaged.book"
expect 'a damaged book' 2 'refused 7 1' 'block 1, that of setting a, is damaged' ask "$room/damaged.book" books/night/both.question
expect 'a folder for a book' 3 '' 'this is a folder' ask "$room" books/night/both.question

# plans
printf 'reach 4\n0 look a 2\n1 dance\n' >"$room/dance.plan"
expect 'a plan with a stray line' 2 'refused 22 3' "dance.plan, line 3: due here is a plan's line" check "$night" books/night/both.question "$room/dance.plan"
printf 'reach 0\n' >"$room/empty.plan"
expect 'a plan of nothing' 1 'refused 20 0' 'the plan ends too soon' check "$night" books/night/both.question "$room/empty.plan"
{ cat books/night/both.expected; echo '0 stop'; } >"$room/long.plan"
expect 'a plan with a line too many' 1 'refused 21 8' 'line 10: the plan was whole before this line' check "$night" books/night/both.question "$room/long.plan"
expect 'why 18: already known' 1 'refused 18 1 0' "line 3: '1 look a 2': the setting is already known there" check "$night" books/night/both.question books/night/both-again.plan
expect 'why 18: surely false' 1 'refused 18 4 1' "line 6: '1 set b 2 1': the rule of 'write b 2' is surely false there" check "$night" books/night/both.question books/night/both-barred.plan
expect 'why 18: not known' 1 'refused 18 0 2' "line 2: '0 set b 2 1': nobody in the team knows there whether the rule of 'write b 2' holds" check "$night" books/night/both.question books/night/both-guess.plan
expect 'a set that changes nothing' 1 'refused 32 6' "line 8: '3 set b 2 1': the team knows that the setting has this value there, so the set changes nothing: leave the line out" \
    check "$night" books/night/both.question books/night/both-needless.plan
sed '8d' books/night/both-needless.plan >"$room/needed.plan"
expect 'the same plan with it left out' 0 yes '' check "$night" books/night/both.question "$room/needed.plan"
printf 'reach 1\n0 set d 1 0\n1 stop\n' >"$room/idle-closed.plan"
expect 'a set that changes nothing, and whose rule nobody knows to hold' 1 'refused 18 0 2' 'nobody in the team knows there' check "$night" books/night/both.question "$room/idle-closed.plan"
printf 'reach 1\n0 set a 1 1\n1 stop\n' >"$room/closed.plan"
expect 'why 18: a right that nobody stated' 1 'refused 18 0 1' "line 2: '0 set a 1 1': 'write a 1' is closed in this book, at all settings" check "$night" books/night/both.question "$room/closed.plan"
printf 'reach 1\n0 look a 1\n1 stop\n' >"$room/look.plan"
expect 'why 18: a look that is closed' 1 'refused 18 0 1' "'read a 1' is closed in this book" check "$night" books/night/both.question "$room/look.plan"
# the table of `a`, of two settings, is byte 10 and zeros
printf 'size 2 1\nwrite b 1 a\n' >"$room/ten.rules"
expect 'a book with a table of byte 10' 0 '' '' book "$room/ten.rules" "$room/ten.book"
printf 'team 1\nknown ~a\nmake b\n' >"$room/ten.question"
printf 'reach 1\n0 set b 1 1\n1 stop\n' >"$room/ten.plan"
expect 'why 18: a rule that is false there and not everywhere' 1 'refused 18 0 1' "the rule of 'write b 1' is surely false there" check "$room/ten.book" "$room/ten.question" "$room/ten.plan"
printf '# mine\nreach 0\n0 stop\n' >"$room/comment.plan"
expect 'a comment in a plan' 2 'refused 22 1' 'a plan has no comments' check "$night" books/night/both.question "$room/comment.plan"
printf 'reach 1\n0 set d 3 1\n1 stop\n' >"$room/outside.plan"
expect 'a plan by a post outside the team' 1 'refused 17 0' 'names no act of this book and team' check "$night" books/night/both.question "$room/outside.plan"
expect 'two words for three' 3 '' 'usage: ./parjolenc check BOOK QUESTION PLAN' check "$night" books/night/both.question
