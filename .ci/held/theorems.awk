# Where API names theorems beside a function, one of them at least speaks of what the function's contract says: its statement has a
# definition that the contract cites. That a desk is valid counts for nothing, since nearly all of them say that, and neither does what std
# defines, such as a list's length or Ok. Inputs, by the variable of: the code of the libraries, the promises, API.

function said(what) { print FILENAME ":" FNR ": " what; wrong++ }

# The words of a text, of those that the contracts of a file may cite, or all.
function words_in(text, from,    word, count, k, list) {
    count = split(text, word, /[^A-Za-z0-9_-]+/)
    for (k = 1; k <= count; k++) if (word[k] != "" && (from == "" || (from, word[k]) in cites)) list = list " " word[k]
    return list " "
}

FNR == 1 { type = name = ""; split(FILENAME, path, "/"); file = path[4]; sub(/\.(rt|antt)$/, "", file) }

# ---- contracts: what is imported from definitions and stands behind the first ensures, up to the function's body
of == "code" && /^ghost use .*specs\..*\.\{/ && !/^ghost use Rattle\.std\./ {
    sub(/^[^{]*\{/, "")
    count = split($0, part, /[^A-Za-z0-9_-]+/)
    for (k = 1; k <= count; k++) if (part[k] !~ /^Valid/) cites[FILENAME, part[k]]
    next
}
of == "code" && sub(/^impl(<[^>]*>)? /, "") { sub(/^.* for /, ""); sub(/[^A-Za-z0-9_].*/, ""); type = $0 "::" }
of == "code" && /^}/ { type = "" }
of == "code" && /^ *pub fn / {
    name = $3
    sub(/[^A-Za-z0-9_].*/, "", name)
    name = path[2] "::" (file == "lib" ? "" : file "::") type name
}
of == "code" && /^ *\{$/ { name = "" }
of == "code" { if (name != "" && /^ *ensures /) contract[name] = contract[name] words_in($0, FILENAME); next }

# ---- statements: up to where the proof begins
of == "promises" && match($0, /^ *pub [^ ]+ :/) {
    name = substr($0, 1, RLENGTH - 2)
    sub(/^ *pub /, "", name)
    statement[file, name] = words_in(substr($0, RLENGTH), "")
    next
}
of == "promises" {
    if (name != "" && (/^$/ || /^ *unfolding / || index($0, name " ") && $1 == name)) name = ""
    if (name != "") statement[file, name] = statement[file, name] words_in($0, "")
    next
}

# Whether a statement has a word of a contract.
function speaks(theorem, name,    word, count, k) {
    count = split(contract[name], word, " ")
    for (k = 1; k <= count; k++) if (index(statement[theorem], " " word[k] " ")) return 1
    return 0
}

/^## / { crate = $2 }
!/^\| `/ || split($0, cell, "|") != 7 { next }
{
    split(cell[2], part, "`")
    name = crate "::" part[2]
    sub(/\(.*/, "", name)
    open = others = spoken = 0
    count = split(cell[6], part, "`")
    for (k = 2; k < count; k += 2) {
        open += gsub(/\(/, "", part[k - 1]) - gsub(/\)/, "", part[k - 1])
        if (!open) file = part[k]
        else if (file != "OneAnswer") { others++; spoken += speaks(file SUBSEP part[k], name) }
    }
    if (others && !spoken) said("none of the theorems beside " name " speaks of what its contract says")
}
END { exit wrong > 0 }
