# The numbers of refusal. REFUSALS has one heading "**12: .. ** (`Refusal::NO_SUCH_LANE`, R12, ..)" for each number of RULES, below a
# section that names it ("## 12 to 19: .."), and no other; constant and rule are those of the number. In API the number before a constant
# of Refusal is its own. What shop says of a number are the first words of RULES, without brackets; and what REPLAY
# says that it says. Inputs, by the variable of: the rules (rules.awk), the public names (public.awk), REFUSALS, API,
# the code of shop, REPLAY.

function said(what) { print FILENAME ":" FNR ": " what; wrong++ }

of == "rules" {
    split($0, part, "\t")
    gsub(/ \([^)]*\)/, "", part[3])
    if (part[1] == "number") meaning[substr(part[2], 2)] = part[3]
    next
}
of == "public" {
    split($0, part, "\t")
    if (part[3] == "constant" && part[5] ~ /^Refusal::/) value[part[5]] = part[6]
    next
}

# ---- REFUSALS: the numbers of a section, and the headings below it
of == "REFUSALS" && /^## / {
    split("", here)
    count = split($0, part, /[ ,:]+/)
    for (k = 2; k <= count && part[k] ~ /^([0-9]+|to|and)$/; k++)
        if (part[k] ~ /[0-9]/) for (n = part[k - 1] == "to" ? part[k - 2] + 1 : part[k]; n <= part[k] + 0; n++) here[n + 0]
}
of == "REFUSALS" && /^\*\*[0-9]+: / {
    number = substr($1, 3) + 0
    split($0, part, "`")
    if (!(number in meaning)) said("there is no number " number)
    if (number in told) said(number " has two headings")
    if (!(number in here)) said(number " stands in another section")
    if (value[part[2]] != number) said(part[2] " is not " number)
    if (part[3] !~ ("^, R" number "[,)]")) said("the rule of " number " is R" number)
    told[number]
}
of == "REFUSALS" { next }

of == "API" {
    count = /^\| `Refusal`/ ? split($0, part, "`") : 0
    for (k = 4; k < count; k += 2) {
        number = part[k - 1]
        gsub(/[^0-9]/, "", number)
        if (value["Refusal::" part[k]] != number) said("Refusal::" part[k] " is not " number)
    }
    next
}

# ---- shop: "NUMBER => say(b"WORDS")", also over several lines
function hold_words(number, words) {
    if (words == "" || index(meaning[number], words) != 1) said("not the words of R" number ": " words)
}

FNR == 1 { number = "" }
of == "shop" && match($0, /^ *(Refusal::[A-Z_]+|[0-9]+) => say\(/) { number = $1 in value ? value[$1] : $1; shown[number] }
of == "shop" && number != "" && match($0, /b".*"/) { hold_words(number, substr($0, RSTART + 2, RLENGTH - 3)); number = "" }
of == "REPLAY" && match($0, /`shop: refused [0-9]+: [^`]*`/) {
    words = substr($0, RSTART + 15, RLENGTH - 16)
    hold_words(words + 0, substr(words, index(words, ":") + 2))
}
END {
    for (n in meaning) if (!(n in told)) { print "docs/REFUSALS.md: has no heading for " n; wrong++ }
    for (n in meaning) if (!(n in shown)) { print "crates/shop/src/refusals.rt: says nothing of " n; wrong++ }
    exit wrong > 0
}
