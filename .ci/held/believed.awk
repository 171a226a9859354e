# What PROMISES says of the second writing: in which crates it stands, and how many lines it has without imports, comments and blank lines;
# README says how many lines, too. First come its files.

function said(page, what) { print page ": the second writing " what; wrong++ }

FNR == 1 && FILENAME ~ /\/believed\// { split(FILENAME, part, "/"); crate[part[2]] }
FILENAME ~ /\/believed\// { if (!/^ *--|^use |^$/) lines++; next }

FILENAME ~ /README/ { readme = readme " " $0; next }
/^- \*\*/ { told = /^- \*\*The second writing/ }
told { text = text " " $0 }
END {
    for (name in crate) if (!index(text, "`" name "`")) said("docs/PROMISES.md", "stands in " name " too")
    if (!index(text, " " lines " lines without imports")) said("docs/PROMISES.md", "has " lines " lines")
    if (!index(readme, " " lines " lines, their second writing")) said("README.md", "has " lines " lines")
    exit wrong > 0
}
