# Every must-fail edit stands in PROMISES and in MAP. First come the files there are, then the claims of the pages.
NR == FNR { if (/^crates\/[^\/]+\/must-fail\//) edit[$0]; next }
{ split($0, claim, "\t") }
claim[3] == "edit" { stands[claim[1], claim[4] "/must-fail/" claim[5] ".edit"] }

function hold(page, file) { if (!((page, file) in stands)) { print file ": stands in no table of " page; wrong++ } }

END {
    for (file in edit) { hold("docs/PROMISES.md", file); hold("docs/MAP.md", file) }
    exit wrong > 0
}
