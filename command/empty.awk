# empty.awk: whether a question that was answered asks nothing: a make formula that is never or always true, or a team none of whose
# posts has a right, or a right to set, that can ever hold. Help, and no promise. The text is a sheet or a question without a fault.
# Settings: name (the file's); where a book has the rules, n, able and setters: the digits of the posts with a right that can hold,
# and of those with such a right to set. Each leg of a question is judged by itself.

function hint(text) { printf "parjolenc: %s: %s%s\n", name, leg, text }

# truth(V): the truth of the formula `text` from byte `at` on, where setting i is bit i of V: a sum, a product, a unit.
function sum(v,   t) {
    t = product(v)
    while (substr(text, at, 1) == "|") { at++; if (product(v)) t = 1 }
    return t
}
function product(v,   t) {
    t = unit(v)
    while (substr(text, at, 1) == "&") { at++; if (!unit(v)) t = 0 }
    return t
}
function unit(v,   c, t) {
    c = substr(text, at++, 1)
    if (c == "~") return !unit(v)
    if (c == "(") { t = sum(v); at++; return t }
    if (c == "0" || c == "1") return c + 0
    return int(v / 2 ^ (index("abcdefg", c) - 1)) % 2
}

# counted F: at how many of the 2^n valuations it is true.
function counted(F,   v, count) {
    text = F
    count = 0
    for (v = 0; v < 2 ^ n; v++) { at = 1; count += sum(v) }
    return count
}

$1 == "size" { n = $2; sheet = 1 }
$1 == "read" { looks[$3]++; if (index(able, $3) == 0 && counted($4) > 0) able = able $3 }
$1 == "write" { if (index(setters, $3) == 0 && counted($4) > 0) { able = able $3; setters = setters $3 } }
$1 == "team" { for (i = 2; i <= NF; i++) team[$i] = 1 }
$1 == "make" { make = $2 }
$1 == "ask" { asks++ }

# judged FIRST: what is empty of a leg; where it is the FIRST of two, a make formula that is always true may ask for more than nothing.
function judged(first,   true_at, post, acts, sets) {
    true_at = counted(make)
    if (true_at == 0) hint("the make formula is never true, so no team can make it so")
    if (true_at == 2 ^ n && !asks && !first) hint("the make formula is always true and nothing is asked, so " (leg == "" ? "there is nothing to do" : "the answer is that of the first leg alone"))
    else if (true_at == 2 ^ n && make != "1") hint("the make formula is always true")
    for (post in team) {
        if (index(able, post) || (sheet && looks[post] < n)) acts = 1 # a look that is not stated is open
        if (index(setters, post)) sets = 1
    }
    if (!acts) hint("no post of the team has a right that can ever hold, so the team can do nothing")
    else if (!sets && true_at > 0 && true_at < 2 ^ n) hint("no post of the team has a right to set that can ever hold, so the team can look and change nothing")
}

$0 == "then" {
    leg = "first leg: "
    judged(1)
    leg = "second leg: "
    for (i in team) delete team[i]
    asks = 0
}

END { judged(0) }
