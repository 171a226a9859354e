# Every rule that a page names is one of RULES. And of a function that MAP names, API cites a rule of a heading under which MAP has it.
# Inputs, by the variable of: the rules (rules.awk), MAP, API, and all pages. F0 is a byte, and so is what stands in backticks or in a
# block.

function said(what) { print FILENAME ":" FNR ": " what; wrong++ }

# The rules in a text, with those between the two of "M1 to M4", as a list with a blank before and behind each.
function cited(text,    list, rule, last, n) {
    list = " "
    last = 0
    while (match(text, /[MFOPRT][0-9]+/)) {
        rule = substr(text, RSTART, RLENGTH)
        for (n = substr(text, 1, RSTART - 1) == " to " ? last + 1 : substr(rule, 2) + 0; n < substr(rule, 2) + 0; n++)
            list = list substr(rule, 1, 1) n " "
        last = substr(rule, 2) + 0
        list = list rule " "
        text = substr(text, RSTART + RLENGTH)
    }
    return list
}

of == "rules" { split($0, part, "\t"); rule[part[2]]; next }

of == "MAP" && /^#/ { heading = $0; sub(/:.*/, "", heading); heading = /^### / ? cited(heading) : "" }
of == "MAP" {
    count = split($0, part, "`")
    for (k = 2; k < count; k += 2) if (heading != "" && part[k] ~ /::/) under[part[k]] = under[part[k]] heading
    next
}

# Whether two lists have a rule in common.
function meet(a, b,    part, count, k) {
    count = split(a, part, " ")
    for (k = 1; k <= count; k++) if (index(b, " " part[k] " ")) return 1
    return 0
}

of == "API" && /^## / { crate = $2 }
of == "API" {
    if (!/^\| `/ || split($0, cell, "|") != 7) next
    split(cell[2], part, "`")
    sub(/\(.*/, "", part[2])
    name = (crate "::" part[2]) in under ? crate "::" part[2] : part[2]
    if (name in under && !meet(cited(cell[5]), under[name])) said("of " name " MAP has the rules" under[name])
    next
}

FNR == 1 { fenced = 0 }
/^```/ { fenced = !fenced }
fenced || /^    / { next }
{
    gsub(/`[^`]*`/, "")
    while (match($0, /(^|[^A-Za-z0-9])[MFOPRT][0-9]+([^A-Za-z0-9]|$)/)) {
        name = substr($0, RSTART, RLENGTH)
        gsub(/[^A-Z0-9]/, "", name)
        if (name != "F0" && !(name in rule)) said("there is no rule " name)
        $0 = substr($0, RSTART + RLENGTH - 1)
    }
}
END { exit wrong > 0 }
