# help: what there is.
cat "$home/command/help.txt" || exit 3
