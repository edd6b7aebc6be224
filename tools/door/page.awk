# Makes a page of the manual, section 5, of docs/LANGUAGE.md: headings, paragraphs, lists, blocks
# and tables. In a table each row is an item: the first cell, and the others behind it.

# Some text for troff: without links, code in bold, no emphasis.
function shown(text,    out, in_code, at, part) {
    while (match(text, /\[[^][]*\]\([^)]*\)/)) {
        part = substr(text, RSTART + 1, index(substr(text, RSTART), "](") - 2)
        text = substr(text, 1, RSTART - 1) part substr(text, RSTART + RLENGTH)
    }
    gsub(/\\/, "\\e", text)
    gsub(/-/, "\\-", text)
    do {
        at = index(text, "`")
        part = at ? substr(text, 1, at - 1) : text
        if (!in_code) gsub(/\*/, "", part)
        out = out part (at ? (in_code ? "\\fR" : "\\fB") : "")
        in_code = !in_code
        text = substr(text, at + 1)
    } while (at)
    return out ~ /^[.\047]/ ? "\\&" out : out
}

# Takes the cells of a row of a table apart, and returns how many they are.
function take_cells(line, cells,    count, each) {
    count = split(substr(line, 2, length(line) - 2), cells, "|")
    for (each = 1; each <= count; each++) gsub(/^ +| +$/, "", cells[each])
    return count
}

# A row of a table: the first cell with the short ones beside it, and what stands behind. If the
# first is empty, the row goes on with the one before.
function row(line,    cells, count, each, title, behind) {
    count = take_cells(line, cells)
    title = cells[1]
    for (each = 2; each < count && length(cells[each]) < 5; each++)
        if (cells[each] != "") title = title " " cells[each]
    print title == "" ? ".IP" : ".TP\n" shown(title)
    for (; each <= count; each++) {
        if (behind++) print ".br"
        print (heads[each] == "Example" ? "e.g. " : "") shown(cells[each])
    }
}

# Prints the paragraph so far. Its lines are one, since a link may stand on two of them.
function end_paragraph() {
    if (paragraph != "") print shown(paragraph)
    paragraph = ""
}

BEGIN {
    print ".TH CICSRUN 5"
    print ".SH NAME"
    print "cicsrun \\- the language of a script, and the lines that a run prints"
}
/^```|^#|^\||^- |^$/ { end_paragraph() }
/^```/ {
    print in_block ? ".fi" : ".PP\n.nf"
    in_block = !in_block
    next
}
in_block {
    gsub(/\\/, "\\e")
    gsub(/-/, "\\-")
    print /^[.']/ ? "\\&" $0 : $0
    next
}
/^# / { print ".SH DESCRIPTION"; next }
/^## / { print ".SH " toupper(shown(substr($0, 4))); next }
/^### / { print ".SS " shown(substr($0, 5)); next }
/^\|[-|]+$/ { next }
/^\|/ && !in_table {
    take_cells($0, heads)
    in_table = 1
    next
}
/^\|/ { row($0); next }
/^$/ { in_table = 0; print ".PP"; next }
/^- / { print ".IP \\(bu 2"; sub(/^- /, "") }
{ sub(/^ +/, ""); paragraph = paragraph (paragraph == "" ? "" : " ") $0 }
END {
    end_paragraph()
    print ".SH SEE ALSO\n.BR cicsrun (1)"
    print ".PP\nRULES, PROMISES, USING, WORDS and the examples are files of the repository."
}
