# Every word in backticks on a page is something that there is: a file or folder, or the end of its path; a crate or a must-fail edit; what
# the sources define; a parameter of a public function; a word of a case, which lines and answers of scripts are made of; or one of the
# words of the language and the system that the variable others has. In `./run NAME` NAME is a program; in a type with others in it, as
# `Result<usize, Refusal>`, each name is one of these. Passed over are words without a letter, what else has a blank in it, names that stand
# for any (NAME, HEX, *), and what is built (target/). Inputs, by the variable of: the files there are, what they define (facts.awk), the
# public names (public.awk), the cases, and the pages.
NR == 1 { count = split(others, part, " "); for (k = 1; k <= count; k++) known[part[k]] }

# A path is known by each of its ends.
function know_path(path) {
    known[path]
    while (sub(/^[^\/]*\//, "", path)) known[path]
}

of == "files" {
    if (match($0, /\/must-fail\/[^\/]+\.edit$/)) {
        split($0, part, "/")
        edit = part[4]
        sub(/\.edit$/, "", edit)
        known[edit]
        known[part[2] "/" edit]
    }
    if (/\/src\/main\.rt$/) { split($0, part, "/"); program[part[2]] }
    path = $0
    while (path != "") { if (path in known) break; know_path(path); if (!sub(/\/[^\/]*$/, "", path)) break }
    sub(/\.antt$/, "")
    know_path($0)
    next
}
of == "facts" {
    split($0, part, "\t")
    known[part[2]]
    split(part[1], at, "/")
    file = at[4]
    sub(/\.rt$/, "", file)
    if (at[3] == "src") { known[at[2] "::" part[2]]; known[at[2] "::" file "::" part[2]]; known[file "::" part[2]] }
    if (sub(/^.*::/, "", part[2])) known[part[2]]
    next
}
of == "public" {
    split($0, part, "\t")
    if (part[3] != "function" || !sub(/^[^(]*\(/, "", part[6])) next
    count = split(part[6], at, /[, )]+/)
    for (k = 1; k <= count; k++) known[at[k]]
    next
}
of == "cases" { for (k = 1; k <= NF; k++) known[$k]; next }

# Whether each name in a type is known, but for those of a parameter, as T.
function type_holds(words,    part, count, k) {
    count = split(words, part, /[^A-Za-z0-9_:]+/)
    for (k = 1; k <= count; k++) if (part[k] !~ /^[A-Z]?$/ && !(part[k] in known)) return 0
    return 1
}

function holds(word) {
    if (word ~ /^\.\/run [a-z]/) { split(word, at, " "); return at[2] in program }
    if (word ~ /^[A-Za-z_:]+<.*>$/) return type_holds(word)
    if (word ~ /[ *&]/ || word !~ /[A-Za-z]/ || word ~ /^[A-Z]+$/ || word ~ /NAME|CRATE|LABEL|FUNCTION|^target\//) return 1
    sub(/\(.*\)$/, "", word)
    gsub(/^\.\/|\/$/, "", word)
    sub(/^r\./, "", word)
    return word in known
}

function end_paragraph(    part, count, k) {
    count = split(paragraph, part, "`")
    for (k = 2; k < count; k += 2) {
        words++
        if (!holds(part[k])) { print file ":" first ": there is no `" part[k] "`"; wrong++ }
    }
    paragraph = ""
}

FNR == 1 { end_paragraph(); file = FILENAME; fenced = 0 }
/^```/ { fenced = !fenced }
/^$/ || /^(- |[0-9]+\. |\||#|```|    )/ { end_paragraph() }
fenced || /^(```|    )/ { next }
{ if (paragraph == "") first = FNR; paragraph = paragraph (paragraph == "" ? "" : " ") $0 }
END { end_paragraph(); print words + 0 >tally; exit wrong > 0 }
