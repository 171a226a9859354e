# The blocks of pages, for examples.awk: a line "PAGE<tab>LINE<tab>KIND<tab>ABOVE<tab>TEXT" for each. KIND is fence for what stands
# between ``` lines, and indent for lines that begin with four blanks, which TEXT is without; ABOVE is the paragraph before the block,
# empty where another block stands there. \001 stands for a line's end in TEXT.

function end_block() {
    if (begun) print page "\t" begun "\t" kind "\t" above "\t" text
    if (begun) above = ""
    begun = 0
    text = ""
}

function add(line) {
    if (!begun) { begun = FNR; kind = fenced ? "fence" : "indent" }
    text = text line "\001"
}

FNR == 1 { end_block(); page = FILENAME; fenced = 0; above = "" }
/^```/ && !fenced { end_block(); fenced = 1; next }
/^```/ { end_block(); fenced = 0; next }
fenced { add($0); next }
/^    / { add(substr($0, 5)); next }
{ end_block() }
/^$/ { ended = 1; next }
{ above = (ended ? "" : above " ") $0; ended = 0 }
END { end_block() }
