# What MAP says of the sources, as claims (names.awk says what a claim is). An entry of MAP is
#     - law: `File.antt` (`name`, `name`), words `Other.antt` (`name`); `DemandTwo` (`name`)
# A file stands in the folder that the section's head names for this kind of entry, or that stands before it with a colon; names in brackets
# stand in the file before them. Words between the names are free.

function claim(what, where, name) {
    if (where !~ /^(crates|docs)\//) where = "crates/" where
    print FILENAME "\t" FNR "\t" what "\t" where "\t" name "\t" kind "\t" heading
}

function folder() { return here != "" ? here : home[kind] }

function first_part(path) { sub(/\/.*/, "", path); return path }

# The folders of a section, from the paragraph at its head.
function head(before, token) {
    if (before ~ /Definitions stand in $/) home["definition"] = token
    if (before ~ /second writing in $/) home["second"] = token
    if (before ~ /laws in $/) home["law"] = token
    if (before ~ /code in $/) home["code"] = token
}

# Edits go from the word to the next semicolon. They are of the crate that is named last, as in "in desk `label`", or of the definition's.
function edit(before, token) {
    gsub(/ +/, " ", before)
    if (before ~ /;/) edits = 0
    if (before ~ /(^|[ ;])edits? (in [a-z_]+ )?$/) { edits = 1; owner = origin }
    if (edits && match(before, /in [a-z_]+ $/)) owner = substr(before, RSTART + 3, RLENGTH - 4)
    if (edits) claim("edit", owner, token)
    return edits
}

function file_named(token) {
    file = token ~ /\// ? token : folder() "/" token
    claim("file", file)
}

# A name that stands in no brackets.
function single(token) {
    if (token ~ /::/) claim("function", "", token)
    else if (token ~ /^[A-Z]/) file_named("promises/proofs/" token ".antt")
    else if (kind == "code") claim("name", folder(), token)
    else claim("file", token)
}

function take(before, token, after) {
    if (token ~ /^(CRATE\/|NAME\.)/) return    # any name
    if (kind == "test" && edit(before, token)) return
    if (kind == "") head(before, token)
    if (token ~ /\.txt$/) claim("file", "vectors/data/" token)
    else if (token ~ /\.md$/) claim("file", "docs/" token)
    else if (token ~ /\.[a-z]+$/) file_named(token)
    else if (token ~ /\//) {
        claim("file", token)
        if (after ~ /^:/) here = token
        if (after ~ /^:/ && kind == "definition") origin = first_part(token)
    }
    else if (depth > 0) claim("name", file, token)
    else single(token)
}

# How many brackets are open, behind a text.
function brackets(text) { depth += gsub(/\(/, "", text) - gsub(/\)/, "", text) }

function entry(name) { kind = name; here = file = carried = ""; depth = edits = 0 }

/^```/ { fenced = !fenced; next }
fenced { next }
/^## / { split("", home) }
/^#/ { heading = /^### / ? FNR : "" }
/^#/ || /^$/ { entry(""); origin = first_part(home["definition"]); if (/^#/) next }
/^- [a-z]+: / { entry(substr($2, 1, length($2) - 1)) }
{
    count = split($0, part, "`")
    for (k = 1; k <= count; k += 2) {
        brackets(part[k])
        if (k < count) take((k == 1 ? carried : "") part[k], part[k + 1], part[k + 2])
    }
    carried = part[count] " "
}
