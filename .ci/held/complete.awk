# Every public function, type and constant stands in API, once, a function with the names of its parameters; API names no others. Every
# public function has a row in Ends and in OneAnswer that is named after it, and API names that of OneAnswer beside it. Inputs, by the
# variable of: the public names (public.awk), the rows (rows.awk), API's names (api.awk). The variable apart names the functions that have
# no rows.
BEGIN { FS = "\t" }
NR == 1 {
    words = split(apart, word, " ")
    for (k = 1; k <= words; k++) excepted[word[k]]
}

function said(where, what) { print where ": " what; wrong++ }

of == "public" {
    name[++names] = $4 "::" $5
    where[names] = $1 ":" $2
    what[names] = $3
    signature[names] = $6
    next
}
of == "rows" { row[$1, $2] = $3; next }
{
    entry = $2 "::" $3
    if (entry in api) said("docs/API.md:" $4, entry " stands there twice")
    api[entry] = "docs/API.md:" $4
    written[entry] = $5
    beside[entry] = $6
}

# Whether a row is named after its function: its name ends with the function's and how the rows of its file end.
function named_after(row, function_name, ending) {
    sub(/^.*::/, "", function_name)
    gsub(/_/, "-", function_name)
    return row ~ ("(^|-)" function_name "-" ending "$")
}

function hold_row(k, file, ending) {
    if (!((file, name[k]) in row)) said(where[k], name[k] " has no row in " file ".antt")
    else if (!named_after(row[file, name[k]], name[k], ending))
        said(where[k], "the row of " name[k] " in " file ".antt is not named after it")
}

# What API has of a function: its parameters, and its row of OneAnswer.
function hold_function(k,    due) {
    if (!(name[k] in api)) return
    due = ("OneAnswer", name[k]) in row ? row["OneAnswer", name[k]] : ""
    if (written[name[k]] != signature[k]) said(api[name[k]], name[k] " is " signature[k])
    if (beside[name[k]] != due) said(api[name[k]], "the row of " name[k] " in OneAnswer.antt is " due)
}

END {
    for (k = 1; k <= names; k++) {
        listed[name[k]]
        if (!(name[k] in api)) said(where[k], name[k] " does not stand in docs/API.md")
        if (what[k] != "function") continue
        hold_function(k)
        if (name[k] in excepted) continue
        hold_row(k, "Ends", "ends")
        hold_row(k, "OneAnswer", "one")
    }
    for (entry in api) if (!(entry in listed)) said(api[entry], entry " is no public function, type or constant")
    for (entry in excepted) if (!(entry in listed)) said(".ci/pages", "there is no " entry ", which needs no row")
    print names + 0 >tally
    exit wrong > 0
}
