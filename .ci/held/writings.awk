# What the table of the two writings in PROMISES says of the sources, as claims (names.awk says what a claim is). A row has the first
# writing, the second, and laws that hold the two together, as `File` (`name`, `name`); each column has its own folder of the crate,
# unless the cell names one before a colon. That of the first column is the crate's of the rows below, too.

function claim(what, where, name) { print FILENAME "\t" FNR "\t" what "\t" where "\t" name }

# A folder before a colon.
function go_to(path, column) {
    folder = path
    if (column == 3) { crate = path; sub(/\/.*/, "", crate) }
    claim("file", "crates/" path)
}

function read_cell(text, column,    part, count, k, open, file) {
    folder = crate "/" (column == 3 ? "specs" : column == 4 ? "specs/believed" : "proofs")
    count = split(text, part, "`")
    for (k = 2; k < count; k += 2) {
        open += gsub(/\(/, "", part[k - 1]) - gsub(/\)/, "", part[k - 1])
        if (part[k + 1] ~ /^:/) { go_to(part[k], column); continue }
        if (!open) file = "crates/" (part[k] ~ /\// ? part[k] : folder "/" part[k]) ".antt"
        claim(open ? "name" : "file", file, open ? part[k] : "")
    }
}

/^## / { here = /written twice/ }
here && /^\|/ { split($0, cell, "|"); for (column = 3; column <= 5; column++) read_cell(cell[column], column) }
