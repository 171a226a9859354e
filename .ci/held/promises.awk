# What PROMISES says of the sources, as claims (names.awk says what a claim is). A name stands in a file that its heading names, or in the
# one that is named beside it: `name`, `name` (`File.antt`), `File.antt` (`name`), `name` of `File.antt`; a bare file is one of the
# promises. A token `crate/label` of the tables of wrong programs is a must-fail edit. The table of the two writings is read by
# writings.awk.

function claim(line, what, where, name) { print FILENAME "\t" line "\t" what "\t" where "\t" name }

function rooted(path) { return path ~ /^(crates|docs)\// ? path : "crates/" path }

function file_of(token) { return token ~ /\// ? rooted(token) : "crates/promises/proofs/" token }

function is_file(k) { return token[k] ~ /\.antt$/ || token[k] ~ /^(crates\/)?[a-z_]+\/(specs|proofs)/ }

# Where the name that is token k stands: behind the run of names that it belongs to, before it, or in the heading's files.
function place_of(k,    last) {
    for (last = k; behind[last] ~ /^(,| and|, and|;) ?$/ && !is_file(last + 1); last++) continue
    if (behind[last] ~ /^ (\(|of )$/ && is_file(last + 1)) return file_of(token[last + 1])
    return bracketed != "" ? bracketed : heading
}

# A name of a folder is a file of it.
function name_claim(k,    where) {
    where = place_of(k)
    if (where == "") claim(line[k], "file", "crates/" token[k])
    else if (where ~ /\.antt( |$)/) claim(line[k], "name", where, token[k])
    else claim(line[k], "file", where "/" token[k] ".antt")
}

# Names in the brackets behind a file are of that file.
function follow_brackets(k) {
    if (behind[k - 1] ~ /\)/) bracketed = ""
    if (behind[k - 1] == " (" && is_file(k - 1)) bracketed = file_of(token[k - 1])
}

function take(k,    part) {
    follow_brackets(k)
    if (token[k] ~ /[ =]|^(specs|proofs|src)\/|(CRATE|LABEL)/) return    # code, a folder of any crate, any name
    if (token[k] ~ /\.md$/) claim(line[k], "file", "docs/" token[k])
    else if (token[k] ~ /^[a-z_]+\/[a-z0-9_]+$/ && part_of == "edits") {
        split(token[k], part, "/")
        claim(line[k], "edit", "crates/" part[1], part[2])
    }
    else if (is_file(k)) claim(line[k], "file", file_of(token[k]))
    else name_claim(k)
}

function flush(    k) {
    bracketed = ""
    for (k = 1; k <= tokens; k++) take(k)
    tokens = 0
    split("", behind)
}

function read_line(text,    part, count, k) {
    count = split(text, part, "`")
    behind[tokens] = behind[tokens] " " part[1]
    gsub(/ +/, " ", behind[tokens])
    for (k = 2; k < count; k += 2) {
        token[++tokens] = part[k]
        line[tokens] = FNR
        behind[tokens] = part[k + 1]
    }
}

/^## / {
    flush()
    heading = ""
    part_of = /written twice/ ? "writings" : /^## Wrong programs/ ? "edits" : ""
    count = split($0, part, "`")
    for (k = 2; k < count; k += 2) heading = heading (k > 2 ? " " : "") file_of(part[k])
    for (k = 2; k < count; k += 2) claim(FNR, "file", file_of(part[k]))
    next
}
/^\|/ && part_of == "writings" { next }
/^$/ || /^- / || /^\|/ { flush() }
{ read_line($0) }
END { flush() }
