# Puts reads of each kind between the lines of a script that tools/serial/scripts.awk has made, by
# chance: run it with -v seed=N. In one script of three keys have quotes, in another one they have
# bytes without a character.

# A number from 0 on below n. Each product is below 2^53, so every awk has it exactly.
function pick(n) {
    state = state * 16807 % 2147483647
    return int(state / 2147483647 * n)
}

# A literal of these characters, of which some are those of a key.
function literal(text, start, count,   i, c, out) {
    if (seed % 3 == 0)
        return "'" text "'"
    for (i = 1; i <= length(text); i++) {
        c = substr(text, i, 1)
        is_key = i > start && i <= start + count
        if (seed % 3 == 1)
            out = out (is_key && c == "1" ? "''" : c)
        else
            out = out (c == "z" ? "A9" : is_key && c == "2" ? "FF" : "F" c)
    }
    return (seed % 3 == 1 ? "'" : "X'") out "'"
}

# A line with the literal behind an option put anew.
function anew(line, option, start, count,   text) {
    if (!match(line, " " option "\\('[0-9z]*'\\)"))
        return line
    text = substr(line, RSTART + length(option) + 3, RLENGTH - length(option) - 5)
    return substr(line, 1, RSTART + length(option) + 1) literal(text, start, count) \
        substr(line, RSTART + RLENGTH - 1)
}

function on_file(line) {
    line = anew(line, "RIDFLD", 0, 2)
    return anew(line, "FROM", line ~ /FILE\('B'\)/ ? 2 : 0, 2)
}

function read_line(   name, key, kind) {
    name = "FILE('" substr("AABBU", pick(5) + 1, 1) "')"
    key = pick(3) pick(3)
    kind = pick(9)
    if (kind < 2)
        return "READ " name " RIDFLD('" key "')" (kind ? " LENGTH(3)" : "")
    if (kind < 3)
        return "READ " name " RIDFLD('" key "') GTEQ"
    if (kind < 4)
        return "READ " name " RIDFLD('" pick(3) "') KEYLENGTH(1) GENERIC LENGTH(4)"
    if (kind < 5)
        return "STARTBR " name " RIDFLD('" pick(2) "0')"
    if (kind < 7)
        return (pick(3) ? "READNEXT " : "READPREV ") name (pick(2) ? " LENGTH(2)" : "")
    return "READQ TS QUEUE('" substr("RRS", pick(3) + 1, 1) pick(3) "')" \
        (pick(2) ? " ITEM(" 1 + pick(3) ")" : " NEXT") (pick(2) ? " LENGTH(2)" : "")
}

BEGIN { state = (seed * 69621 + 2) % 2147483647 }

/^ATTACH/ { tasks++ }

{ print ($0 ~ /FILE\(/ ? on_file($0) : $0) }

/EXEC CICS/ {
    while (pick(2))
        print on_file("T" 1 + pick(tasks) " EXEC CICS " read_line() " RESP(0)")
}
