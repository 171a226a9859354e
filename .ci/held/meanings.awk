# A number of refusal says what it is. On every page but RULES, what stands in brackets behind a number, "12 (no such lane)", has the words
# that are listed here for it; and "refused with 12" has such brackets, or says "where ..", the first time in a paragraph.
BEGIN {
    count = split("short/soon|long|left over/long|length digit|unknown field|digit|twice|tag|deep|objects|room|no such lane|not idle|" \
        "lane is idle|phase|limits/block number|sale|full|open|check|due/desk writes|no length of|belong", meant, "|")
    for (k = 1; k <= count; k++) gsub("/", "|", meant[k])
}

function said(what) { print file ":" first ": " what; wrong++ }

# The numbers with brackets behind them, of those that refusals have.
function hold_brackets(text,    number, words) {
    while (match(text, /(^|[ (])[1-9][0-9]? \([a-z]/)) {
        number = words = substr(text, RSTART, RLENGTH)
        gsub(/[^0-9]/, "", number)
        words = text = substr(text, RSTART + RLENGTH - 1)
        sub(/\).*/, "", words)
        if (number in meant && words !~ meant[number]) said(number " is not (" words ")")
    }
}

function hold_refused(text,    number, seen) {
    split("", seen)
    while (match(text, /refused with [0-9]+/)) {
        number = substr(text, RSTART + 13, RLENGTH - 13)
        text = substr(text, RSTART + RLENGTH)
        if (number in meant && !(number in seen) && text !~ /^ (\(|(exactly )?where )/)
            said("refused with " number " says not what that is")
        seen[number]
    }
}

function end_paragraph() {
    hold_brackets(paragraph)
    hold_refused(paragraph)
    paragraph = ""
}

FNR == 1 { end_paragraph(); file = FILENAME; fenced = 0 }
FILENAME ~ /RULES/ { next }
/^```/ { fenced = !fenced }
/^$/ || /^(- |[0-9]+\. |\||#|```|    )/ { end_paragraph() }
fenced || /^(```|    )/ { next }
{ if (paragraph == "") first = FNR; sub(/^ +/, ""); paragraph = paragraph (paragraph == "" ? "" : " ") $0 }
END { end_paragraph(); exit wrong > 0 }
