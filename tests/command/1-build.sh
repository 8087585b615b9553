# The build: a program that is missing is built again; a file that is touched and not changed builds nothing; without rt on the
# path a built program runs.
for program in parjolenc program_book program_ask program_plain program_check program_salvage program_replay program_shift program_shift_text; do
    holds "$program is there, or is built" command/build "$program" 2>/dev/null
done
rm -f target/bin/parjolenc
expect 'a program that was removed is built again, with a line a crate' 0 "$(cat sheets/p6.expected)" '^[0-9]* of [0-9]* parjolenc$' answer sheets/p6.sheet
touch crates/ground/src/lib.rt
expect 'a touched file builds nothing' 0 "$(cat sheets/p6.expected)" '' answer sheets/p6.sheet
expect 'and is not looked at again' 0 "$(cat sheets/p6.expected)" '' answer sheets/p6.sheet
case $(uname -m) in
x86_64)
    bare=$room/bare
    mkdir "$bare"
    for tool in bash env dirname readlink cat head tail sed awk od tr rm mktemp find uname wc grep sha256sum sort xargs; do
        ln -s "$(type -P "$tool")" "$bare/$tool"
    done
    holds 'a built program needs nothing of the toolchain on the path' \
        test "$(PATH=$bare ./parjolenc answer sheets/p6.sheet 2>&1)" = "$(cat sheets/p6.expected)"
    mkdir "$room/taken" && cp -r parjolenc command "$room/taken/" && mkdir -p "$room/taken/target" && cp -r target/bin "$room/taken/target/"
    holds 'the command, command/ and target/bin go to a machine without the kit' \
        test "$(PATH=$bare "$room/taken/parjolenc" answer sheets/p6.sheet 2>&1)" = "$(cat sheets/p6.expected)"
    ;;
esac
ln -s "$PWD/parjolenc" "$room/link"
holds 'a symbolic link to the command works' test "$("$room/link" answer sheets/p6.sheet 2>&1)" = "$(cat sheets/p6.expected)"
