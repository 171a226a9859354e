# What the sources define: a line "FILE<tab>NAME" for each definition, field and constructor of a file of laws or definitions (.antt), for
# each function, type and constant of a file of code (.rt), a method as NAME and as Type::NAME, a field or variant as Type::NAME, and for
# each rule of RULES.
FNR == 1 { code = FILENAME ~ /\.rt$/; rules = FILENAME ~ /\.md$/; type = owner = "" }

function fact(name) { print FILENAME "\t" name }

function first_word(line) { sub(/[^A-Za-z0-9_].*/, "", line); return line }

rules && match($0, /^- \*\*[A-Z][0-9]+/) { fact(substr($0, 5, RLENGTH - 4)) }
rules && match($0, /^\| \*\*[0-9]+/) { fact("R" substr($0, 5, RLENGTH - 4)) }
rules { next }

# Names before a colon, behind the words that say what kind of definition it is.
!code && match($0, / :( |$)/) {
    head = substr($0, 1, RSTART - 1)
    sub(/^ */, "", head)
    while (sub(/^(pub|abbrev|unfoldable) /, "", head)) continue
    if (head ~ /^(let|use|module|--) / || head ~ /[(){}=]|→|λ/ && head !~ /^(data|record) /) next
    count = split(head, word, " ")
    if (word[1] ~ /^(data|record)$/) { fact(word[2]); next }
    for (k = 1; k <= count; k++) fact(word[k])
}

code && /^}/ { type = owner = "" }
code && owner != "" && match($0, /^    (pub |pub\(crate\) |ghost )?[A-Za-z]/) { fact(owner "::" first_word(substr($0, RSTART + RLENGTH - 1))) }
code && sub(/^impl(<[^>]*>)? /, "") { sub(/^.* for /, ""); type = first_word($0) }
code && /^(pub |pub\(crate\) )?(struct|enum) .*\{$/ { owner = $0; sub(/^.*(struct|enum) /, "", owner); owner = first_word(owner) }
code && sub(/^ *(pub |pub\(crate\) )?(fn|struct|enum|const) /, "") {
    fact(first_word($0))
    if (type != "") fact(type "::" first_word($0))
}
