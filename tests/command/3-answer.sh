# answer: a status for each answer, troubles, and hints after a refusal.
expect 'reach' 0 "$(cat sheets/night.expected)" '' answer sheets/night.sheet
expect 'cannot' 1 'cannot' '' answer sheets/night-mended.sheet
expect 'refused' 2 'refused 4 8' 'line 8: column 13: the formula ends too soon' answer sheets/refused-4-half-a-formula.sheet
expect 'a missing file' 3 '' 'nofile: there is no such file' answer "$room/nofile"
expect 'a folder' 3 '' 'this is a folder' answer "$room"
if [ "$(id -u)" -ne 0 ]; then
    cp sheets/p6.sheet "$room/locked" && chmod 0 "$room/locked"
    expect 'no permission' 3 '' 'no permission' answer "$room/locked"
else
    echo 'passed over: no permission to read (root reads everything)'
fi
input=sheets/night.sheet
expect 'standard input' 0 "$(cat sheets/night.expected)" '' answer -
input=/dev/null
expect 'empty standard input' 2 'refused 22 1' 'the text is empty' answer -
if [ -c /dev/full ]; then
    ./parjolenc answer sheets/night.sheet >/dev/full 2>"$room/said"
    holds 'a full disk: the status' test $? -eq 3
    holds 'a full disk: it is said' grep -q 'standard output: ' "$room/said"
fi

# hinted NAME TEXT REFUSED HINT: a sheet with this text (for printf) is refused so, and the hint has these words.
hinted() {
    printf "$2" >"$room/sheet"
    expect "hint: $1" 2 "$3" "$4" answer "$room/sheet"
}
hinted 'carriage returns' 'size 2 2\r\nteam 1\r\n' 'refused 22 1' 'carriage return'
hinted 'a byte order mark' '\357\273\277size 2 2\n' 'refused 22 1' 'byte order mark'
hinted 'a tab' 'size 2 2\nteam\t1\n' 'refused 22 2' 'a tab in column 5'
hinted 'no last newline' 'size 2 2\nteam 1\nknown\nmake a' 'refused 22 4' 'no byte 10'
hinted 'an empty line at the end' 'size 2 2\nteam 1\nknown\nmake 1\n\n' 'refused 22 5' 'an empty line at the end'
hinted 'capitals' 'SIZE 2 2\n' 'refused 22 1' "capitals: the word is 'size'"
hinted 'a capital in a formula' 'size 2 2\nread a 1 a&B\n' 'refused 2 2' 'column 12: capital B'
hinted 'a letter past the size' 'size 2 2\nread c 1 a\n' 'refused 22 2' 'setting c is past the size: the last of 2 is b'
hinted 'a digit past the size' 'size 2 2\nteam 3\n' 'refused 22 2' 'post 3 is past the size, which has 2'
hinted 'a letter past the size in a formula' 'size 2 2\nread a 1 a|c\n' 'refused 3 2' 'column 12: setting c is past the size'
hinted 'a held setting with ~' 'size 2 2\nteam 1\nknown\nheld ~a\nmake a\n' 'refused 22 4' 'a held setting is named without ~'
hinted 'a second held' 'size 2 2\nteam 1\nknown\nheld a\nheld b\nmake a\n' 'refused 22 5' "line 4 is 'held' already"
hinted 'held before known' 'size 2 2\nteam 1\nheld a\nknown\nmake a\n' 'refused 22 3' "'held' stands directly after 'known'"
hinted 'a held setting past the size' 'size 2 2\nteam 1\nknown\nheld c\nmake a\n' 'refused 22 4' 'setting c is past the size'
hinted 'a held setting twice' 'size 2 2\nteam 1\nknown\nheld a b a\nmake a\n' 'refused 23 4' 'setting a is named twice'
hinted 'the line that was due' 'size 2 2\nteam 1\nmake a\n' 'refused 22 3' "due here is 'known'"
hinted 'a text that ends early' 'size 2 2\nteam 1\n' 'refused 22 3' "the text ends here; due is 'known'"
hinted 'a right stated twice' 'size 2 2\nread a 1 1\nwrite a 1 1\nread a 1 0\n' 'refused 23 4' 'stated in line 2 already'
hinted 'a post named twice' 'size 2 2\nteam 1 2 1\n' 'refused 23 2' 'post 1 is named twice'
hinted 'a comment in a sheet' '# mine\nsize 2 2\n' 'refused 22 1' 'no comments'
hinted 'six settings' 'size 6 2\n' 'refused 25 1' 'up to 5 settings'
