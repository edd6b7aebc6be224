# Cuts a script after each of its bytes, and says what has to come of each cut.
#
#   awk -v room=DIRECTORY -v ending=LF|CRLF -f cuts.awk first-path.cuts
#
# For each number of bytes N from 0 on it writes the script's first N bytes to the file cut.N, what
# a run of them writes to output.N, the journal of the lines that they complete to journal.N, and
# to standard output N and the exit status. A CR that no LF follows is no text.

BEGIN {
    FS = "|"
    split("TooLong NotAscii UnknownWord BadLiteral BadNumber MissingOption", titles, " ")
    cut("", "", 0)
}

function put(name, text) {
    name = room "/" name "." length(script piece_so_far)
    printf "%s", text > name
    close(name)
}

# The script ends with this piece of a line, which has this fault, or else is whole and prints this.
function cut(piece, text, fault) {
    piece_so_far = piece
    put("cut", script piece)
    put("journal", journal)
    if (fault) put("output", journal "LINE " lines + 1 " FAULT " fault " " titles[fault] "\n")
    else put("output", journal text "LISTING\n" listing)
    print length(script piece), fault ? 1 : 0
}

$1 == "cut" {
    for (at = 1; at <= length($3); at++) {
        place++
        fault_at[place] = $2
        line = line substr($3, at, 1)
    }
}
$1 == "prints" { printed = printed $2 "\n" }
$1 == "lists" { listed = listed $2 "\n" }
$1 == "end" {
    for (at = 1; at < place; at++) cut(substr(line, 1, at), "", fault_at[at])
    listing = listed
    cut(line, printed, fault_at[place])
    if (ending == "CRLF") {
        line = line "\r"
        cut(line, "", 2)
    }
    script = script line "\n"
    journal = journal printed
    lines++
    cut("", "", 0)
    place = 0
    line = printed = listed = ""
}
