# Holds the claims of the pages to the sources. Inputs, by the variable of: the files there are, what they define ("FILE<tab>NAME"), and the
# claims, "PAGE<tab>LINE<tab>WHAT<tab>WHERE<tab>NAME":
#     file      WHERE is a file or a folder
#     name      WHERE, one file or several, defines NAME, or NAME is a crate
#     function  a crate has the function NAME, `crate::function` or `Type::method`
#     edit      the crate WHERE has the must-fail edit NAME
BEGIN { FS = "\t" }

of == "files" {
    while ($0 != "") { there[$0]; if (!sub(/\/[^\/]*$/, "")) break }
    next
}
of == "facts" {
    defined[$1, $2]
    if ($1 ~ /\/src\//) function_of[$2]
    if ($1 ~ /^crates\/[a-z_]*\/src\/lib\.rt$/) { split($1, part, "/"); function_of[part[2] "::" $2] }
    next
}

function defines(files, name,    file, count, k) {
    count = split(files, file, " ")
    for (k = 1; k <= count; k++) if ((file[k], name) in defined) return 1
    return 0
}

function holds() {
    if ($3 == "file") return $4 in there
    if ($3 == "name") return defines($4, $5) || ("crates/" $5) in there
    if ($3 == "function") return $5 in function_of
    return ($4 "/must-fail/" $5 ".edit") in there
}

function said() {
    if ($3 == "file") return "there is no " $4
    if ($3 == "name") return $4 " does not define " $5
    if ($3 == "function") return "there is no function " $5
    return "there is no edit " $4 "/must-fail/" $5 ".edit"
}

{ held++ }
!holds() { print $1 ":" $2 ": " said(); wrong++ }
END { print held + 0 >tally; exit wrong > 0 }
