# A law that MAP names under one rule's heading alone, and that is none of the promises, speaks of what stands there: its statement has a
# name that the entry has as definition or second writing. The variable but names a law that has no definition in its statement. Inputs, by
# the variable of: what MAP says (map.awk), the files of laws.
BEGIN { FS = "\t" }

of == "claims" && $3 == "name" && $6 ~ /^(definition|second)$/ { named[$7, $5] }
of == "claims" && $3 == "name" && $6 == "law" && $7 != "" && $5 != but && $4 !~ /^crates\/promises\// {
    law[++laws] = $4 SUBSEP $5
    line[laws] = $1 ":" $2
    name_of[laws] = $5
    heading[laws] = $7
    if (!(($4, $5, $7) in counted)) headings[$4, $5]++
    counted[$4, $5, $7]
}
of == "claims" { next }

# A statement goes from its name to where the proof begins.
FNR == 1 { name = "" }
match($0, /^ *((pub|abbrev|unfoldable) )*[^ (){}]+ :( |$)/) {
    name = substr($0, 1, RLENGTH)
    sub(/ :.*$/, "", name)
    sub(/^.* /, "", name)
    statement[FILENAME, name] = substr($0, RLENGTH)
    next
}
name != "" {
    split($0, word, " ")
    if (/^ *$/ || word[1] == "unfolding" || word[1] == name) name = ""
    else statement[FILENAME, name] = statement[FILENAME, name] " " $0
}

function speaks(k,    word, count, n) {
    count = split(statement[law[k]], word, /[^A-Za-z0-9_-]+/)
    for (n = 1; n <= count; n++) if ((heading[k], word[n]) in named) return 1
    return 0
}

END {
    for (k = 1; k <= laws; k++) if (headings[law[k]] == 1 && !speaks(k)) {
        print line[k] ": " name_of[k] " speaks of no definition that stands in its entry"
        wrong++
    }
    exit wrong > 0
}
