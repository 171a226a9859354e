# The files of cases are just those that vectors' args and the table of CASES name, and vectors' stdout has the number of their answers.
# Inputs, by the variable of: the files there are, args, stdout, CASES, and the files of cases themselves.

function said(what) { print what; wrong++ }

of == "files" { if (sub(/^crates\/vectors\/data\//, "")) there[$0]; next }
of == "args" { played[$0]; next }
of == "stdout" { if (/ answers, /) stored = $1; next }
of == "CASES" {
    if (!/^\| [a-z, .-]*\.txt /) next
    split($0, cell, "|")
    count = split(cell[2], name, /[ ,]+/)
    for (k = 2; k < count; k++) told[name[k]]
    next
}
FNR == 1 { answered = 0 }
/^= / { if (!answered) answers++ }
{ answered = /^= / }
END {
    for (file in there) {
        if (!(file in played)) said("crates/vectors/args: does not name " file)
        if (!(file in told)) said("docs/CASES.md: does not name " file)
    }
    for (file in played) if (!(file in there)) said("crates/vectors/args: there is no " file)
    for (file in told) if (!(file in there)) said("docs/CASES.md: there is no " file)
    if (stored != answers) said("crates/vectors/stdout: the cases have " answers " answers")
    exit wrong > 0
}
