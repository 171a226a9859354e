# Every rule of RULES stands in a heading of MAP ("### M1 to M4, M9: .."), and no others; in one, but for those that the variable twice
# names. First come the rules (rules.awk).
NR == FNR { split($0, part, "\t"); rule[part[2]]; next }

function said(what) { print FILENAME ":" FNR ": " what; wrong++ }

function stands(name) {
    if (name in mapped && index(" " twice " ", " " name " ") == 0) said(name " stands in two headings")
    mapped[name]
}

/^### / {
    heading = $0
    sub(/:.*/, "", heading)
    count = split(heading, part, /[ ,]+/)
    for (k = 2; k <= count; k++) {
        if (part[k] == "to") continue
        letter = substr(part[k], 1, 1)
        last = substr(part[k], 2) + 0
        for (n = part[k - 1] == "to" ? substr(part[k - 2], 2) + 1 : last; n <= last; n++) stands(letter n)
        if (!(part[k] in rule)) said("there is no rule " part[k])
    }
}
END {
    for (name in rule) if (!(name in mapped)) { print FILENAME ": no entry has rule " name; wrong++ }
    exit wrong > 0
}
