# Odd files and places: standard output that is closed, pipes and devices, names with signs in them, files that are no text.
./parjolenc ask "$room/night.book" books/night/both.question >&- 2>"$room/said"
holds 'standard output is closed: the status' test $? -eq 3
holds 'standard output is closed: it is said' grep -q 'standard output is closed' "$room/said"
input=books/night/both.question
expect 'a question from a device' 0 "$(cat books/night/both.expected)" '' ask "$room/night.book" /dev/stdin
input=/dev/null
expect 'a sheet without an end' 2 'refused 24 0' 'no text' answer /dev/zero
mkdir "$room/n=3" && cp books/night/both.question "$room/n=3/-q=1 x"
expect 'a name with signs and a space' 0 "$(cat books/night/both.expected)" '' ask "$room/night.book" "$room/n=3/-q=1 x"
odd=$room/$'\377 odd'
if : 2>/dev/null >"$odd"; then
    cp books/night/both.question "$odd"
    expect 'a name that is not UTF-8' 0 "$(cat books/night/both.expected)" '' ask "$room/night.book" "$odd"
    expect 'a file made under such a name' 0 '' '' book books/night.rules "$odd.book"
    holds 'it has the same bytes' cmp -s "$room/night.book" "$odd.book"
    expect 'it is not overwritten either' 3 '' 'is there already' book books/night.rules "$odd.book"
fi
expect 'a book for a question' 2 'refused 22 1' 'this is a book' ask "$room/night.book" "$room/night.book"
expect 'a question for a book' 2 'refused 6 0' 'this is a question' ask books/night/both.question "$room/night.book"
expect 'a plan for a question' 2 'refused 22 1' 'the order is BOOK QUESTION PLAN' check "$room/night.book" books/night/both.expected books/night/both.question
expect 'cannot for a plan' 2 'refused 22 1' "'cannot' has no plan" check "$room/night.book" books/night/both.question books/night/setter.expected
expect 'standard input where a file is due' 3 '' "only 'answer' and 'both SHEET' take standard input" ask "$room/night.book" -
printf 'team 1,2\n' >"$room/comma.question"
expect 'a comma between posts' 2 'refused 22 1' "'1,2' is no post" ask "$room/night.book" "$room/comma.question"
printf 'read a 1 1\n' >"$room/nosize.rules"
expect 'rules without a size' 2 'refused 22 1' "due here is 'size N M'" book "$room/nosize.rules" "$room/x.book"
holds 'started by sh' test "$(sh ./parjolenc answer sheets/p7.sheet 2>&1)" = cannot
