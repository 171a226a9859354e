# Every example of a page is a case of its own file, page-NAME.txt, and every case there an example of the page. An example is
# - what stands between ``` lines, on CASES a case, on TRIAL a script with each answer indented below its line;
# - a command, and as the next block what it prints: `printf 'LINE\n' | ./run trial`, and the case has that line; `printf '\x06..' | ./run
#   lister`, and it has `list` with these bytes; `./run replay <FILE`, and it ends with `replay-tape`.
# A message drawn above a command, in a row `byte`, is the one that it reads. Inputs, by the variable of: the cases (casebook.awk), the
# blocks of the pages (blocks.awk). The blocks that are none of this go to the file that the variable rest names, for code.awk.
BEGIN { FS = "\t" }

function said(what) { print page ":" line ": " what; wrong++ }

of == "cases" { if ($1 == "case") { where[$2, $4] = $3; cases[$3] } next }

function example(key) {
    examples++
    if (drawn != "" && key !~ ("^[a-z]+ " drawn "\001")) said("the message of this example is not the one drawn above it")
    drawn = ""
    if ((name, key) in where) used[where[name, key]]
    else said("no case of crates/vectors/data/page-" name ".txt is the example that begins here")
}

# A script with its answers, as a case has them. A block of a tape may leave out the zeros of its filling.
function answered(text,    row, count, k, part, zeros, all) {
    count = split(text, row, "\001")
    for (zeros = "0"; length(zeros) < 1024;) zeros = zeros zeros
    for (k = 1; k < count; k++) {
        if (sub(/^    /, "= ", row[k]) && row[k] ~ /^= [0-9A-F]+\.\.[0-9A-F]+$/) {
            split(row[k], part, /\.\./)
            row[k] = part[1] substr(zeros, 1, 1026 - length(part[1] part[2])) part[2]
        }
        all = all row[k] "\001"
    }
    return all
}

# What a command plays, as the lines of a case; "" where it is none.
function played(text) {
    if (text == "./run replay <FILE\001") return "replay-tape"
    if (text !~ /^printf '[^\001']*' \| \.\/run (trial|lister)\001$/) return ""
    if (text ~ /lister\001$/) { gsub(/^printf '|\\x|' .*/, "", text); return "list " text "\001" }
    gsub(/^printf '|' .*/, "", text)
    gsub(/\\n/, "\001", text)
    return text
}

# A command has the next block below it.
function end_command() { if (command != "") said("no block below the command says what it prints"); command = "" }

function end_page() {
    end_command()
    if (drawn != "") said("no example reads the message that is drawn above")
    drawn = ""
}

page != $1 {
    end_page()
    page = name = $1
    gsub(/^.*\/|\.md$/, "", name)
    name = tolower(name)
}
$4 != "" { end_command() }
{ line = $2 }
$3 == "fence" && name ~ /^(trial|cases)$/ { example(answered($5)); next }
command != "" { example(command "=" $5); command = ""; next }
(command = played($5)) != "" { next }
match($5, /\001byte [ 0-9A-F]*\001/) { drawn = substr($5, RSTART + 5, RLENGTH - 6); gsub(/ /, "", drawn); next }
{ print >rest }
END {
    end_page()
    for (place in cases) if (!(place in used)) { print place ": no example of the page is this case"; wrong++ }
    print examples + 0 >tally
    exit wrong > 0
}
