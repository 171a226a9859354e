# MAP's picture has an arrow from a crate to one that it uses, but where others lead there already; and its table names every crate. README
# names every crate once: a program in a line `./run NAME`, another in its table. First comes crates.txt, then MAP, then README.

function said(page, what) { print page ": " what; wrong++ }

NR == FNR {
    if (/^#/ || !/:/) next
    from = substr($1, 1, length($1) - 1)
    crate[from]
    for (k = 2; k <= NF; k++) uses[from, ++count[from]] = $k
    next
}
FNR == 1 { here = 0 }
/^## / { here = /^## The (crates|programs)/ }
here && / --> / { arrow[$1, $3] }
here && /^    \.\/run / { told[$2]++ }
here && /^\| `/ {
    split($0, cell, "|")
    n = split(cell[2], part, "`")
    for (k = 2; k < n; k += 2) if (FILENAME ~ /README/) told[part[k]]++; else named[part[k]]
}

# Whether a crate leads to another over one that it uses.
function over(a, b,    k) {
    for (k = 1; k <= count[a]; k++) if (leads(uses[a, k], b)) return 1
    return 0
}
function leads(a, b,    k) {
    for (k = 1; k <= count[a]; k++) if (uses[a, k] == b || leads(uses[a, k], b)) return 1
    return 0
}

function drawn(pair,    part) { split(pair, part, SUBSEP); return part[1] " --> " part[2] }

END {
    for (a in crate) {
        if (!(a in named)) said("docs/MAP.md", "the table of crates lacks " a)
        if (told[a] != 1) said("README.md", "names crate " a " " told[a] + 0 " times")
        for (k = 1; k <= count[a]; k++) {
            b = uses[a, k]
            if (b in crate && !over(a, b)) due[a, b]
        }
    }
    for (pair in due) if (!(pair in arrow)) said("docs/MAP.md", "the picture lacks " drawn(pair))
    for (pair in arrow) if (!(pair in due)) said("docs/MAP.md", "the picture has " drawn(pair) ", which crates.txt does not say")
    for (a in named) if (!(a in crate)) said("docs/MAP.md", "the table of crates has " a ", which is none")
    for (a in told) if (!(a in crate)) said("README.md", "names crate " a ", which is none")
    exit wrong > 0
}
