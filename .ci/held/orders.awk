# What API says that a function refuses with is what the orders of RULES say (orders.txt says which): the same numbers, and the words header
# and body, in the same order; "those of `desk::open`" stands for the order of that function, and words in brackets are free. The row cites
# a rule that says so. A function that has no order has "-" there. Inputs, by the variable of: the rules (rules.awk), orders.txt, API.

function said(what) { print FILENAME ":" FNR ": " what; wrong++ }

of == "rules" { split($0, part, "\t"); text[part[2]] = part[3]; next }
of == "orders" {
    if (/^#/) next
    name = substr($1, 1, length($1) - 1)
    sentences[name] = $0
    sub(/^[^ ]* /, "", sentences[name])
    if (match(sentences[name], / but [0-9 ]+$/)) {
        never[name] = substr(sentences[name], RSTART + 4) " "
        sentences[name] = substr(sentences[name], 1, RSTART - 1)
    }
    next
}

# The numbers and words of an order in a text, each with a blank behind it, but for some.
function ordered(words, without,    list, token) {
    gsub(/[A-Z][0-9]+/, "", words)
    while (match(words, /[0-9]+|header|body/)) {
        token = substr(words, RSTART, RLENGTH)
        if (!index(without, " " token " ")) list = list token " "
        words = substr(words, RSTART + RLENGTH)
    }
    return list
}

# The order in a sentence of a rule, by its first words. That of a header has a name.
function order_in(rule, beginning, without,    words) {
    if (rule == "R39") return "header "
    words = substr(text[rule], index(text[rule], beginning))
    if (!index(text[rule], beginning)) said(rule " has no sentence that begins with " beginning)
    if (index(words, ". ")) words = substr(words, 1, index(words, ". "))
    return ordered(words, without)
}

# The order that is due for a function.
function due(name,    part, count, k, rule, list) {
    count = split(sentences[name], part, ", ")
    for (k = 1; k <= count; k++) {
        rule = part[k]
        sub(/ .*/, "", rule)
        sub(/^[^ ]* /, "", part[k])
        if (cell[5] ~ (" " rule "[, ]")) cited = 1
        list = list order_in(rule, part[k], never[name])
    }
    return list
}

# What stands in a row, with its order in the place of a function that it names.
function stated(words,    part) {
    gsub(/\([^)]*\)/, "", words)
    return split(words, part, "`") == 3 ? due(part[2]) ordered(part[3], "") : ordered(words, "")
}

/^## / { crate = $2 }
!/^\| `/ || split($0, cell, "|") != 7 { next }
{
    split(cell[2], part, "`")
    name = crate "::" part[2]
    sub(/\(.*/, "", name)
    seen[name]
    cited = 0
}
!(name in sentences) { if (cell[4] !~ /^ -(;.*)? $/) said(name " refuses with" cell[4] "by no order of RULES"); next }
{ expected = due(name) }
stated(cell[4]) != expected { said(name " refuses with " expected "by RULES") }
!cited { said("the row of " name " cites none of " sentences[name]) }
END {
    for (name in sentences) if (!(name in seen)) said("has no row for " name ", which refuses")
    exit wrong > 0
}
