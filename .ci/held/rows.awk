# The rows of Ends and OneAnswer: a line "FILE<tab>FUNCTION<tab>ROW" for each. A row is
#     pub ROW : .. crate.module.Type.function.Statement ..
# up to a blank line or to one that is not indented; Reads may stand in place of Statement.

function end_row(    words, k, path) {
    gsub(/[()]/, " ", row)
    gsub(/«|»/, "", row)
    split(row, words, " ")
    for (k in words) if (match(words[k], /\.(Statement|Reads)\./)) {
        path = substr(words[k], 1, RSTART - 1)
        gsub(/\./, "::", path)
        print file "\t" path "\t" words[2]
    }
    row = ""
}

FNR == 1 { file = FILENAME; gsub(/^.*\/|\.antt$/, "", file) }
/^pub / { if (row != "") end_row(); row = $0; next }
/^ / && row != "" { row = row " " $0; next }
row != "" { end_row() }
END { if (row != "") end_row() }
