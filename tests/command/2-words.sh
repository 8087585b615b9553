# Words: none, unknown ones, too many; help.
expect 'no word' 3 '' 'answer SHEET'
expect 'help' 0 "$(cat command/help.txt)" '' help
expect '--help' 0 "$(cat command/help.txt)" '' --help
expect 'an unknown word' 3 '' "no word 'anser'" anser sheets/p6.sheet
expect 'two sheets' 3 '' 'usage: ./parjolenc answer SHEET' answer sheets/p6.sheet sheets/p7.sheet
expect 'no sheet' 3 '' 'usage: ./parjolenc answer SHEET' answer
