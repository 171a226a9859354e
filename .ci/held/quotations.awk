# Every quotation is its source's own words. In a comment, also in one behind code, what stands in double quotes is of the rule that is
# cited last before it, or of one of several cited together ("R42, R43:"); where none is cited, it is of some rule, of a demand or request
# as PROMISES quotes it, or of TRIAL or CASES. On a page what follows a rule's number in the same sentence (`R46: ".."`) is a quotation of
# it, and nothing else is. ".." stands for words left out; blanks and line breaks are equal. Inputs, by the variable of: the rules
# (rules.awk), PROMISES, other pages that are quoted, and the texts.

function clean(words) {
    gsub(/[`*]/, "", words)
    gsub(/[ \t]+/, " ", words)
    gsub(/^ | $/, "", words)
    return words
}

of == "rules" { split($0, part, "\t"); text[part[2]] = part[3]; next }
of == "PROMISES" {
    if (/^> / || /^\*\*.*\?\*\*$/) { sub(/^> /, ""); text["demands"] = text["demands"] " " clean($0) }
    next
}
of == "quoted" { text[FILENAME] = text[FILENAME] " " clean($0); next }

# Whether the pieces of a quotation stand in a text, one behind the other.
function stands_in(said, rest,    piece, count, k, at) {
    count = split(said, piece, / ?\.\. ?/)
    for (k = 1; k <= count; k++) {
        at = index(rest, piece[k])
        if (!at) return 0
        rest = substr(rest, at + length(piece[k]))
    }
    return 1
}

function stands_anywhere(said,    source) {
    for (source in text) if (stands_in(said, text[source])) return 1
    return 0
}

function stands_in_cited(said, cited,    rule, count, k) {
    count = split(cited, rule, /[^A-Z0-9]+/)
    for (k = 1; k <= count; k++) if (rule[k] in text && stands_in(said, text[rule[k]])) return 1
    return 0
}

function hold(said, cited) {
    quotations++
    if (cited == "" ? stands_anywhere(said) : stands_in_cited(said, cited)) return
    print file ":" first ": not the words of " (cited == "" ? "any source" : cited) ": \"" said "\""
    wrong++
}

# The rules that are cited last in some words, as in "R42, R43"; "" for none.
function cited_in(words,    found) {
    found = ""
    while (match(words, /(^|[^A-Za-z0-9])[MFOPRT][0-9]+((,| and| to) [MFOPRT][0-9]+)*/)) {
        found = substr(words, RSTART, RLENGTH)
        words = substr(words, RSTART + RLENGTH)
    }
    gsub(/^[^A-Z]/, "", found)
    return found
}

# A comment or paragraph is by turns words and quotations.
function flush(    part, count, k, cited, found) {
    count = split(block, part, "\"")
    cited = ""
    for (k = 1; k < count; k += 2) {
        if (page && (sub(/.*\. /, "", part[k]) || part[k - 1] ~ /\.$/)) cited = ""
        found = cited_in(part[k])
        if (found != "") cited = found
        if (!page || cited != "") hold(clean(part[k + 1]), cited)
    }
    block = ""
}

function add(words) {
    if (block == "") { first = FNR; file = FILENAME }
    block = block " " words
}

FNR == 1 { flush(); page = FILENAME ~ /\.md$/ }
page && (/^$/ || /^(- |#|\|)/) { flush() }
page { add($0); next }
sub(/^ *(--|\/\/)/, "") { add($0); next }
{ flush() }
match($0, /[^ ] +(--|\/\/) /) { add(substr($0, RSTART + RLENGTH)); flush() }
END { flush(); print quotations + 0 >tally; exit wrong > 0 }
