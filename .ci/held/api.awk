# What API says of the sources. With names=1, its functions, types and constants, for complete.awk: a line
# "WHAT<tab>CRATE<tab>NAME<tab>LINE<tab>SIGNATURE<tab>ROW" for each, ROW being the row of OneAnswer that stands beside a function. Else, as
# claims (names.awk says what a claim is): the rules, the functions that a line refers to (`desk::open`), and the theorems of the last
# column, `File` (`theorem`, `theorem`), a file of the promises.

function claim(what, where, name) { print FILENAME "\t" FNR "\t" what "\t" where "\t" name }

function entry(what, name, signature, row) { print what "\t" crate "\t" name "\t" FNR "\t" signature "\t" row }

# The constants in a text, of a type (`Type::`) or of the crate itself.
function constants(text, type,    part, count, k) {
    count = split(text, part, "`")
    for (k = 2; k < count; k += 2) if (part[k] ~ /^([a-z_]+::)?[A-Z][A-Z_]+$/) entry("constant", type part[k])
}

function functions(text,    part, count, k) {
    count = split(text, part, "`")
    for (k = 2; k < count; k += 2) if (part[k] ~ /::/) claim("function", "", part[k])
}

function rules(text) {
    while (match(text, /[A-Z][0-9]+/)) {
        claim("name", "docs/RULES.md", substr(text, RSTART, RLENGTH))
        text = substr(text, RSTART + RLENGTH)
    }
}

function theorems(text,    part, count, k, open, file) {
    count = split(text, part, "`")
    for (k = 2; k < count; k += 2) {
        open += gsub(/\(/, "", part[k - 1]) - gsub(/\)/, "", part[k - 1])
        if (!open) file = "crates/promises/proofs/" part[k] ".antt"
        claim(open ? "name" : "file", file, open ? part[k] : "")
    }
}

function row_of(text) { return sub(/^.*`OneAnswer` \(`/, "", text) && sub(/`\).*$/, "", text) ? text : "" }

/^## / { crate = $2; next }
!/^\| `/ { if (crate != "" && names) constants($0, ""); next }
{
    cells = split($0, cell, "|")
    split(cell[2], part, "`")
    signature = name = part[2]
    sub(/\(.*/, "", name)
}
names && cells == 5 { entry("type", name, signature); constants(cell[3], name "::") }
names && cells == 7 { entry("function", name, signature, row_of(cell[6])) }
names { next }
cells == 5 { rules(cell[4]) }
cells == 7 { functions(cell[3] cell[4]); rules(cell[5]); theorems(cell[6]) }
