# An answer of a reader or a replay that a page names in its text (`refused 22 at 9`, `end 43 refused 23`, `= absent`) is one that some case
# has. First come the cases (casebook.awk), then the pages.
NR == FNR { if (sub(/^answer\t/, "")) answer[$0]; next }

function end_paragraph(    part, count, k) {
    count = split(paragraph, part, "`")
    for (k = 2; k < count; k += 2)
        if (sub(/^= /, "", part[k]) && part[k] != "" || part[k] ~ /^(refused [0-9]+( at [0-9]+)?|end [0-9]+ (ok|refused [0-9]+))$/)
            if (!(part[k] in answer)) { print file ":" first ": no case answers `" part[k] "`"; wrong++ }
    paragraph = ""
}

FNR == 1 { end_paragraph(); file = FILENAME }
/^$/ || /^(- |\|)/ { end_paragraph() }
/^(    |```|$)/ { next }
{ if (paragraph == "") first = FNR; paragraph = paragraph (paragraph == "" ? "" : " ") $0 }
END { end_paragraph(); exit wrong > 0 }
