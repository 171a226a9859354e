# The rules of RULES: a line "KIND<tab>RULE<tab>TEXT" for each, KIND being number for a row of the table of refusals and rule for all
# others. TEXT has no asterisks and backticks, and one blank for each run of blanks and line breaks.

function clean(words) {
    gsub(/[`*]/, "", words)
    gsub(/[ \t]+/, " ", words)
    gsub(/^ | $/, "", words)
    return words
}

function end_rule() {
    if (rule != "") print kind "\t" rule "\t" clean(text)
    rule = ""
}

/^#/ || /^```/ || /^[A-Z]/ { end_rule() }
/^- \*\*[A-Z][0-9]+\*\* / { end_rule(); kind = "rule"; rule = clean($2); text = substr($0, index($0, "** ") + 3); next }
/^\| \*\*[0-9]+\*\* / { split($0, cell, "|"); kind = "number"; rule = "R" clean(cell[2]); text = cell[3]; end_rule(); next }
rule != "" { text = text " " $0 }
END { end_rule() }
