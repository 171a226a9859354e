# The public functions, types and constants of the libraries: a line "FILE<tab>LINE<tab>WHAT<tab>CRATE<tab>NAME<tab>MORE" for each, WHAT
# being function, type or constant, NAME with its module and type before it (`answers::refused`, `Lane::idle`), MORE the name with those of
# the parameters behind it, or a constant's value. A module is public where the crate's lib.rt says so; lib.rt comes before the crate's
# other files.

function item(what, name, more) {
    name = module (type == "" ? "" : type "::") name
    print FILENAME "\t" begun "\t" what "\t" crate "\t" name "\t" (what == "constant" ? more : name more)
}

function value(line) { sub(/^[^=]*= */, "", line); sub(/;.*$/, "", line); return line }

# The names of the parameters of a function's head, up to the bracket that closes them. What stands in brackets of a type names none.
function parameters(head,    part, count, k, sign, depth, names, list) {
    gsub(/->/, "", head)
    while (gsub(/<[^<>]*>/, "", head)) continue
    sub(/^[^(]*\(/, "", head)
    for (k = 1; depth >= 0 && k <= length(head); k++) {
        sign = substr(head, k, 1)
        if (sign ~ /[[(]/) depth++
        else if (sign ~ /[])]/) depth--
        else if (depth == 0) names = names sign
    }
    count = split(names, part, ",")
    for (k = 1; k <= count; k++) {
        gsub(/:.*|^ *mut | /, "", part[k])
        if (part[k] != "") list = list (list == "" ? "" : ", ") part[k]
    }
    return "(" list ")"
}

function word(line) { sub(/[^A-Za-z0-9_].*/, "", line); return line }

FNR == 1 {
    split(FILENAME, part, "/")
    crate = part[2]
    module = part[4]
    sub(/\.rt$/, "", module)
    shown = module == "lib" || (crate, module) in public
    module = module == "lib" ? "" : module "::"
    type = ""
}
/^pub mod / { public[crate, word($3)] }
sub(/^impl(<[^>]*>)? /, "") { sub(/^.* for /, ""); type = word($0) }
/^}/ { type = "" }
shown && /^ *pub fn / { head = ""; begun = FNR; name = word($3); reading = 1 }
reading { head = head " " $0 }
reading && /\)( ->.*)?( \{)?$/ { sub(/ \{$/, "", head); item("function", name, parameters(head)); reading = 0 }
shown && /^pub (struct|enum) / { begun = FNR; item("type", word($3), "") }
shown && /^ *pub const / { begun = FNR; item("constant", word($3), value($0)) }
