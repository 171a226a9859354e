# Every block of README, TRIAL, REFUSALS, REPLAY and CASES that is no example (examples.awk) is one of these:
# - lines that each begin with a command and go on with what it does: the program or file that it names is there; `xxd -s BYTE`, below
#   `end PLACE refused`, has the byte of that place of a tape;
# - below "It prints:" what shop prints;
# - code, which stands line by line, but for its indentation, in shop on README, in replay on REPLAY.
# Inputs, by the variable of: the files there are, the code of shop and replay, what shop prints, and the blocks.

function said(what) { print page ":" line ": " what; wrong++ }

of == "files" { there[$0]; next }
of == "code" { split(FILENAME, part, "/"); sub(/^ +/, ""); code[part[2]] = code[part[2]] $0 "\001"; next }
of == "prints" { prints = prints $0 "\001"; next }

# The byte of a tape's file at a place of its payload.
function byte_of(place) { return 512 * int(place / 504) + 6 + place % 504 }

# Whether a line is a command that can be given.
function given(row,    word, place) {
    split(row, word, " ")
    if (match(row, /<[a-z][^ ]*/) && !(substr(row, RSTART + 1, RLENGTH - 1) in there)) return 0
    if (word[1] == "./run") return ("crates/" word[2] "/src/main.rt") in there
    if (word[1] == "bash") return word[2] in there
    if (word[1] ~ /^\.\/[a-z]+$/) return (substr(word[1], 3)) in there
    if (word[1] != "xxd" || !match(above, /`end [0-9]+ refused/)) return 0
    place = substr(above, RSTART + 5, RLENGTH - 13)
    return word[3] == byte_of(place) && index(above, " byte " word[3] ":")
}

function commands(text,    row, count, k) {
    count = split(text, row, "\001")
    for (k = 1; k < count; k++) if (!(row[k] ~ /^  / && k > 1) && !given(row[k])) return 0
    return 1
}

function bare(text) { text = "\001" text; gsub(/\001 +/, "\001", text); return substr(text, 2) }

function hold(text,    crate) {
    crate = page == "README.md" ? "shop" : page == "docs/REPLAY.md" ? "replay" : ""
    if (above == "It prints:") { if (text != prints) said("not what shop prints") }
    else if (commands(text)) return
    else if (crate == "") said("no check knows this block")
    else if (!index("\001" code[crate], "\001" bare(text)))
        said("not the code of " crate ": " bare(substr(text, 1, index(text, "\001") - 1)))
}

{ split($0, part, "\t"); page = part[1]; line = part[2]; above = part[4]; blocks++; hold(part[5]) }
END { print blocks + 0 >tally; exit wrong > 0 }
