# hints.awk: what is wrong with a text that was refused, in words and with its place, as far as the text shows it. Help, and
# no promise: the proved line on standard output says what is so. Settings: kind (sheet, rules, question, plan or shift), name (the
# file's), number and line of the answer, place (the refusal's own: of a formula the byte, from 0), unended (1 where the text's
# last byte is no newline); n and m where a book has the size; legs (1 where a question may have a second leg).

# hint TEXT: the one line, and the end.
function hint(text) {
    printf "parjolenc: %s%s: %s\n", name, (line > 0 ? ", line " line : ""), text
    exit
}

# the sign of the last setting, and the digit of the last post
function letter(i) { return substr("abcdefg", i, 1) }

# shown C: a byte as a person sees it.
function shown(c,   i) {
    if (c == " ") return "a space"
    if (c == "\t") return "a tab"
    if (c == "\r") return "a carriage return"
    if (c ~ /[!-~]/) return "'" c "'"
    return "a byte that is no sign of ASCII"
}

# passed TEXT: a line that rules, questions and shifts pass over.
function passed(text) { return (kind == "rules" || kind == "question" || kind == "shift") && (text == "" || text ~ /^#/) }

# word TEXT: the first word of a line.
function word(text) { return text ~ / / ? substr(text, 1, index(text, " ") - 1) : text }

# front TEXT: where the formula of a line begins, counted from 1; 0 where the line has none.
function front(text) {
    if (text ~ /^make /) return 6
    if (text ~ /^ask /) return 5
    if (text ~ /^read [a-g] [1-8] /) return 10
    if (text ~ /^write [a-g] [1-8] /) return 11
    return 0
}

# due: the lines that may stand where the fault is, by those before it.
function due(   w) {
    w = kind == "question" ? "" : last
    if (kind == "shift") return "an act, 'look SETTING POST SEEN' or 'set SETTING POST VALUE', or a line that begins with #"
    if (kind == "plan") return line == 1 ? "'reach H'" : "a plan's line, 'DEPTH stop', 'DEPTH look P G' or 'DEPTH set P G V'"
    if (kind == "question" && last == "") return "'team POST ..'"
    if (last == "") return "'size N M', N from 1 to " (kind == "sheet" ? 5 : 7) " and M from 1 to 8"
    if (last == "size" || last == "read" || last == "write")
        return kind == "rules" ? "'read SETTING POST FORMULA' or 'write SETTING POST FORMULA', or the end" : "'read SETTING POST FORMULA', 'write SETTING POST FORMULA' or 'team POST ..'"
    if (last == "then") return "'team POST ..' of the second leg"
    if (last == "team" && then) return "'make FORMULA'"
    if (last == "team") return "'known', with settings or alone"
    if (last == "known") return "'held SETTING ..' or 'make FORMULA'"
    if (last == "held") return "'make FORMULA'"
    if (legs && !then) return asks < 4 ? "'ask FORMULA', 'then', or the end" : "'then' or the end, after four 'ask' lines"
    return asks < 4 ? "'ask FORMULA', or the end" : "the end, after four 'ask' lines"
}

# twice TEXT: the first name that a line has twice.
function twice(text,   i, count, names, seen, sign) {
    count = split(text, names, " ")
    for (i = 2; i <= count; i++) {
        sign = names[i]
        sub(/^~/, "", sign)
        if (sign in seen) return sign
        seen[sign] = 1
    }
    return ""
}

# past TEXT: the first sign outside a formula that is past the size, in words.
function past(text,   i, count, names, sign) {
    if (n == "") return ""
    if (text ~ /^(read|write) /) {
        split(text, names, " ")
        if (names[2] ~ /^[a-g]$/ && index("abcdefg", names[2]) > n) return "setting " names[2] " is past the size: the last of " n " is " letter(n)
        if (names[3] ~ /^[1-9]$/ && names[3] > m) return "post " names[3] " is past the size, which has " m
    }
    if (text ~ /^(team|known|held) /) {
        count = split(text, names, " ")
        for (i = 2; i <= count; i++) {
            sign = names[i]
            if (text ~ /^team / && sign ~ /^[1-9]$/ && sign > m) return "post " sign " is past the size, which has " m
            sub(/^~/, "", sign)
            if (text ~ /^(known|held) / && sign ~ /^[a-g]$/ && index("abcdefg", sign) > n) return "setting " sign " is past the size: the last of " n " is " letter(n)
        }
    }
    return ""
}

# wrong TEXT: the first piece of a line, whose first word may be due, that is not as it must be.
function wrong(text,   i, count, names) {
    count = split(text, names, " ")
    if (text ~ /^(read|write) / && names[2] ~ /^[1-8]$/ && names[3] ~ /^[a-g]$/) return "the setting comes first, then the post"
    if (text ~ /^(read|write) [a-g] [1-8]$/) return "the formula is missing"
    if (text ~ /^(read|write) / && names[2] !~ /^[a-g]$/) return "'" names[2] "' is no setting"
    if (text ~ /^(read|write) / && names[3] !~ /^[1-8]$/) return "'" names[3] "' is no post"
    if (text == "team") return "a team has at least one post"
    if (text ~ /^team /) for (i = 2; i <= count; i++) if (names[i] !~ /^[1-8]$/) return "'" names[i] "' is no post"
    if (text ~ /^known /) for (i = 2; i <= count; i++) if (names[i] !~ /^~?[a-g]$/) return "'" names[i] "' is no setting"
    if (text ~ /^held /) for (i = 2; i <= count; i++) {
        if (names[i] ~ /^~[a-g]$/) return "a held setting is named without ~, whatever its value is"
        if (names[i] !~ /^[a-g]$/) return "'" names[i] "' is no setting"
    }
    if (word(text) == "then" && kind == "question") {
        if (text != "then") return "'then' stands alone in its line"
        if (then) return "line " then " is 'then' already: a question has two legs at most"
        if (!legs) return "a second leg is for './parjolenc ask' alone"
        return "'then' stands after a whole first leg"
    }
    if (word(text) == "then") return "a second leg is for questions to a book alone, with './parjolenc ask'"
    if (word(text) ~ /^(known|held)$/ && then) return "what is known and held is said in the first leg, for both"
    if (word(text) == "held" && held) return "line " held " is 'held' already: all held settings stand in one line"
    if (word(text) == "held" && kind != "rules" && last != "known") return "'held' stands directly after 'known'"
    if (text == "make" || text == "ask") return "the formula is missing"
    return ""
}

# strange TEXT: the first piece of a shift's line that is not as it must be.
function strange(text,   count, names) {
    count = split(text, names, " ")
    if (names[1] ~ /^(reach|cannot|stop)$/ || text ~ /^[0-9]+ (look|set|stop)/) return "this is a plan's line; an act of a shift has no depth in front"
    if (names[1] ~ /^(size|read|write)$/) return "this is a line of rules"
    if (names[1] ~ /^(team|known|held|make|ask|then)$/) return "this is a line of a question"
    if (names[1] !~ /^(look|set)$/) return ""
    if (names[2] ~ /^[1-8]$/ && names[3] ~ /^[a-g]$/) return "the setting comes first, then the post"
    if (names[2] ~ /^[A-G]$/) return "settings are small letters"
    if (names[2] !~ /^[a-g]$/) return "'" names[2] "' is no setting, a to g"
    if (names[3] !~ /^[1-8]$/) return "'" names[3] "' is no post, 1 to 8"
    if (count == 3) return names[1] == "look" ? "what was seen is missing" : "the value is missing"
    if (names[4] !~ /^[01]$/) return "'" names[4] "' is neither 0 nor 1"
    return count > 4 ? "words after the act" : ""
}

# malformed: 22, at a line of the text or one past it.
function malformed(   text, at, what) {
    if (kind == "question" && line <= lines && all[line] ~ /^reach [0-9]/) hint("this is a plan, where a question is due; the order is BOOK QUESTION PLAN")
    if (kind == "plan" && line == 1 && all[1] == "cannot") hint("the answer 'cannot' has no plan")
    if (kind == "plan" && line == 1 && word(all[1]) == "team") hint("this is a question, where a plan is due; the order is BOOK QUESTION PLAN")
    if (line > lines) {
        if (lines == 0) hint("the text is empty; due is " due())
        hint("the text ends here; due is " due())
    }
    text = all[line]
    if (line == 1 && text ~ /^\357\273\277/) hint("the file begins with a byte order mark; save it without one")
    if (text ~ /\r$/) hint("the line ends in a carriage return; lines end in byte 10 alone")
    if (text == "" && line == lines) hint("an empty line at the end")
    if (text == "") hint("an empty line; due is " due())
    at = index(text, "\t")
    if (at > 0) hint("a tab in column " at ", where words are split by one space")
    if (unended && line == lines) hint("the last line has no byte 10 at its end")
    if ((kind == "sheet" || kind == "plan") && text ~ /^#/) hint("a " kind " has no comments; rules, questions and shifts may have lines that begin with #")
    small = tolower(word(text))
    if (small ~ (kind == "shift" ? "^(look|set)$" : "^(size|read|write|team|known|held|make|ask|then|reach)$") && word(text) != small) {
        if (small == "then" && !legs && kind != "rules") hint("a second leg is for questions to a book alone, with './parjolenc ask'")
        if (small ~ /^(known|held)$/ && then) hint("what is known and held is said in the first leg, for both")
        hint("capitals: the word is '" small "'")
    }
    if (text ~ /^ /) hint("a space before the first word")
    at = front(text) == 0 ? match(text, /  /) : 0
    if (at > 0) hint("two spaces in column " at ", where words are split by one")
    if (front(text) == 0 && text ~ / $/) hint("a space at the end of the line")
    what = past(text)
    if (what != "") hint(what)
    if (text ~ /^(read|write|team|known|held) .*[A-G]/ && front(text) == 0) hint("capitals: settings are small letters")
    if (word(text) == "size" && kind == "question") hint("a question has no 'size' line: the book has the size")
    if (text ~ /^(read|write) / && kind == "question") hint("a question has no rights: the book has them")
    what = kind == "shift" ? strange(text) : wrong(text)
    hint((what == "" ? "" : what "; ") "due here is " due())
}

# formula: 1 to 5, with the column in the line.
function formula(   text, at, c) {
    text = all[line]
    at = front(text) + place
    c = substr(text, at, 1)
    if (number == 1 && length(text) < front(text)) hint("the formula is empty")
    if (number == 1) hint("the formula has " length(text) - front(text) + 1 " bytes; it may have 255")
    if (number == 2 && c ~ /[A-G]/) hint("column " at ": capital " c "; settings are small letters")
    if (number == 2) hint("column " at ": " shown(c) ", which no formula has")
    if (number == 3) hint("column " at ": setting " c " is past the size" (n > 0 ? ": the last of " n " is " letter(n) : ""))
    if (number == 4 && at > length(text)) hint("column " at ": the formula ends too soon")
    if (number == 4) hint("column " at ": " shown(c) " cannot stand here in a formula")
    hint("the formula is refused")
}

# named_twice: 23.
function named_twice(   text, key, i) {
    text = all[line]
    if (text ~ /^(read|write) /) {
        key = substr(text, 1, front(text) - 1)
        for (i = 1; i < line; i++) if (substr(all[i], 1, length(key)) == key) hint("this right is stated in line " i " already")
    }
    hint((text ~ /^team/ ? "post " : "setting ") twice(text) " is named twice")
}

{ all[NR] = $0 }

END {
    lines = NR
    for (i = 1; i < line && i <= lines; i++) {
        if (passed(all[i])) continue
        last = word(all[i])
        if (last == "ask") asks++
        if (last == "held") held = i
        if (last == "then") { then = i; asks = 0 }
        if (last == "size") { split(all[i], words, " "); n = words[2]; m = words[3] }
    }
    if (number == 22) malformed()
    if (number == 23) named_twice()
    if (number == 24) hint("the text is too long: it may have " (kind == "sheet" ? "32,768" : kind == "plan" ? "524,288" : "65,536") " bytes")
    if (number == 25) hint("a sheet has up to 5 settings; a book has up to 7: ask it with './parjolenc book' and 'ask'")
    if (number >= 1 && number <= 5) formula()
}
