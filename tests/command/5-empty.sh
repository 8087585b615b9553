# A hint where the question is empty, and none where it is not.
# noted NAME STATUS PRINTED HINT TEXT: a sheet with this text (for printf) is answered so, with the hint.
noted() {
    printf "$5" >"$room/sheet"
    expect "empty: $1" "$2" "$3" "$4" answer "$room/sheet"
}
noted 'never true' 1 'cannot' 'never true' 'size 2 2\nwrite a 1 1\nteam 1\nknown\nmake a&(b|0)&~a\n'
noted 'always true' 0 'reach 0
0 stop' 'always true and nothing is asked' 'size 2 2\nwrite a 1 1\nteam 1\nknown\nmake a|~a\n'
noted 'always true, with something to learn' 0 'reach 1
0 look a 1
1 stop
1 stop' 'the make formula is always true$' 'size 2 2\nread a 1 1\nteam 1\nknown\nmake b|~b\nask a\n'
noted 'make 1 with something to learn is none' 1 'cannot' '' 'size 2 2\nread a 1 0\nwrite b 1 1\nteam 1\nknown\nmake 1\nask a\n'
noted 'a team without rights' 1 'cannot' 'no post of the team has a right that' 'size 2 2\nread a 1 0\nread b 1 a&~a\nwrite a 2 1\nwrite b 1 b&~b\nteam 1\nknown\nmake a\n'
noted 'a look that is not stated is a right' 1 'cannot' '' 'size 2 2\nread a 1 0\nteam 1\nknown\nmake 1\nask a\n'
noted 'a team that may only look' 1 'cannot' 'no post of the team has a right to set' 'size 2 2\nwrite a 2 1\nwrite b 1 b&~b\nteam 1\nknown\nmake a\n'
noted 'a team that may only look, and is to' 0 'reach 1
0 look a 1
1 stop
1 stop' '' 'size 2 2\nteam 1\nknown\nmake 1\nask a\n'
printf 'team 1\nknown\nmake 1\n' >"$room/nothing.question"
expect 'empty: nothing is asked of a book' 0 'reach 0
0 stop' 'nothing is asked' ask "$room/night.book" "$room/nothing.question"
printf 'size 2 3\nread a 1 0\nread b 1 0\nwrite a 2 1\n' >"$room/two.rules"
expect 'empty: a book for it' 0 '' '' book "$room/two.rules" "$room/two.book"
printf 'team 1\nknown\nmake a\n' >"$room/idle.question"
expect 'empty: a team without rights in a book' 1 'cannot' 'no post of the team has a right that' ask "$room/two.book" "$room/idle.question"
printf 'team 1 3\nknown\nmake a\n' >"$room/looking.question"
expect 'empty: a team that may only look, in a book' 1 'cannot' 'no post of the team has a right to set' ask "$room/two.book" "$room/looking.question"
printf 'team 2\nknown\nmake a\n' >"$room/setting.question"
expect 'empty: no hint for a post of the same book that may set' 0 'reach 1
0 set a 2 1
1 stop' '' ask "$room/two.book" "$room/setting.question"
