# README has at most 200 lines, and the limits in its table are those of RULES: "eight lanes" beside "refused with 12" stands in a rule
# that R12 cites; a row without a number of refusal has a number that some rule has. On every page the number before a constant in
# brackets, as in "5,120 bytes (`Block::ROOM`)", is what the constant is. Inputs, by the variable of: the rules (rules.awk), the public
# names (public.awk), README, and all pages.

function said(line, what) { print file ":" line ": " what; wrong++ }

of == "rules" { split($0, part, "\t"); text[part[2]] = part[3]; all = all " " part[3]; next }
of == "public" {
    split($0, part, "\t")
    if (part[3] == "constant") is[part[5]] = part[6]
    next
}

# Whether a rule that the row of a number cites has these words.
function limited(number, words,    rest) {
    rest = text["R" number]
    while (match(rest, /[A-Z][0-9]+/)) {
        if (index(text[substr(rest, RSTART, RLENGTH)], words)) return 1
        rest = substr(rest, RSTART + RLENGTH)
    }
    return 0
}

function hold_limit(limit, beyond,    word) {
    if (match(beyond, /refused with [0-9]+/)) {
        split(limit, word, " ")
        if (!limited(substr(beyond, RSTART + 13, RLENGTH - 13), word[1] " " word[2])) said(FNR, "not a limit of RULES:" limit)
    }
    else if (!match(limit, /[0-9][0-9,]+/) || !index(all, substr(limit, RSTART, RLENGTH))) said(FNR, "not a limit of RULES:" limit)
}

FNR == 1 { end_paragraph(); file = FILENAME }
of == "README" && /^\| limit / { here = 1 }
of == "README" && /^$/ { here = 0 }
of == "README" && here && !/^\| limit |^\|---/ { split($0, cell, "|"); hold_limit(cell[2], cell[3]) }
of == "README" { if (FNR == 201) said(201, "README has more than 200 lines"); next }

# What an expression of numbers and constants comes to: a sum of products.
function worth(expression,    term, terms, factor, factors, k, n, sum, product) {
    terms = split(expression, term, " \\+ ")
    for (k = 1; k <= terms; k++) {
        product = 1
        factors = split(term[k], factor, " \\* ")
        for (n = 1; n <= factors; n++) {
            if (factor[n] ~ /^[0-9]/) gsub(/_/, "", factor[n])
            product *= factor[n] in is ? worth(is[factor[n]]) : factor[n]
        }
        sum += product
    }
    return sum
}

function end_paragraph(    number, name) {
    while (match(paragraph, /[0-9][0-9,]*[^0-9`]*\(`[A-Za-z]+::[A-Z_]+`\)/)) {
        number = name = substr(paragraph, RSTART, RLENGTH)
        paragraph = substr(paragraph, RSTART + RLENGTH)
        gsub(/^[^`]*`|`.*$/, "", name)
        sub(/[^0-9,].*/, "", number)
        gsub(/,/, "", number)
        if (name in is && worth(is[name]) != number) said(first, name " is " worth(is[name]))
    }
    paragraph = ""
}

/^$/ || /^(- |[0-9]+\. |\||#)/ { end_paragraph() }
{ if (paragraph == "") first = FNR; paragraph = paragraph " " $0 }
END { end_paragraph(); exit wrong > 0 }
