# The cases of vectors, for examples.awk and answers.awk: a line "answer<tab>ANSWER" for every answer; and for each case of a page's own
# file page-NAME.txt, a group of lines that are no mere comment, lines "case<tab>NAME<tab>FILE:LINE<tab>TEXT" by which an example can be
# known: its whole text, its script and all answers behind "=", and, of a tape that is replayed, the answers of its last line. \001 stands
# for a line's end in TEXT.

function known_by(key) {
    gsub(/\n/, "\001", key)
    print "case\t" name "\t" file ":" begun "\t" key
}

function end_case() {
    if (script ~ /(^|\n)[^#\n]/) {
        known_by(text)
        known_by(script "=" answers)
        if (last ~ /^replay-tape /) known_by("replay-tape=" own)
    }
    text = script = answers = own = last = ""
}

FNR == 1 {
    end_case()
    file = name = FILENAME
    gsub(/^.*(\/|page-)|\.txt$/, "", name)
    of_page = FILENAME ~ /page-/
}
/^= / { print "answer\t" substr($0, 3) }
!of_page { next }
/^$/ { end_case(); next }
{
    if (text == "") begun = FNR
    text = text $0 "\n"
    if (sub(/^= /, "")) { answers = answers $0 "\n"; own = own $0 "\n" }
    else { script = script $0 "\n"; last = $0; own = "" }
}
END { end_case() }
