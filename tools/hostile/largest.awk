# Writes one of the largest scripts, or one of the largest things that a script may have, and what
# a run of it writes.
#
#   awk -v called=NAME -v script=FILE -v output=FILE [-v count=N] -f largest.awk
#
# NAME is one of these. Those of 16 MiB are filled up with blank lines to 16,777,216 bytes.
#
#   records      records of 32,767 bytes, in characters, hexadecimal and quotes, loaded, written,
#                replaced and read
#   keys         keys of 255 bytes, one of them at the end of a record of 32,767, written, read,
#                browsed and deleted
#   enqueues     one value is enqueued 65,535 times, and once more, and dequeued as often while a
#                task waits for it
#   items        a queue of 32,767 items, and one more
#   lines        lines of 70,000 bytes: blanks between two tokens, a comment, a number, literals;
#                and one of 70,001
#   files        16 MiB of definitions of files
#   queues       16 MiB of definitions of transient data queues
#   loads        16 MiB of records that are loaded into one file, in no order
#   attaches     16 MiB of tasks that are attached
#   values       16 MiB of ENQ, each of another value
#   short        16 MiB of commands with a literal of one byte each
#   long         16 MiB of records that are loaded, each a literal of 32,767 bytes
#   hexadecimal  16 MiB of items that are written, each a literal of 32,767 bytes in hexadecimal
#   waits        N tasks that wait for one value, which its owner then releases
#   own-waits    N tasks that wait for a value each, all of which one task then releases
#   prefixes     N definitions of prefixes of temporary storage queues
#   reads        N times two tasks of which one reads a record, the other one updates it, and the
#                first one does so too. What reads saw and missed is written

function say(line) {
    bytes += length(line) + 1
    print line > script
}

function comes(line) {
    print line > output
}

# A command of task T1, and the line that it prints.
function tell(command, answer) {
    say("T1 EXEC CICS " command)
    comes("T1 " answer)
}

function attach(label) {
    say("ATTACH " label " TRANSID('SIZE')")
    comes(label " ATTACHED 'SIZE'")
}

function has_room(line) {
    return bytes + length(line) + 1 <= 16777216
}

function fill() {
    while (has_room("")) say("")
}

function repeat(text, number, whole) {
    while (number > 0) {
        if (number % 2) whole = whole text
        text = text text
        number = int(number / 2)
    }
    return whole
}

function digits(number) {
    return sprintf("%07d", number)
}

function records(characters, replaced, whole, quotes) {
    characters = "'0001" repeat("a", 32763) "'"
    replaced = "X'F0F0F0F1" repeat("00", 32763) "'"
    whole = "0002" repeat("b", 32763)
    quotes = "'0003" repeat("''", 32763) "'"
    say("DEFINE FILE('BIG') KEYLENGTH(4) RECOVERABLE")
    say("DEFINE TDQUEUE('BIG') LOGICAL")
    say("LOAD FILE('BIG') FROM(" characters ")")
    say("LOAD TDQUEUE('BIG') FROM(" characters ")")
    attach("T1")
    tell("READ FILE('BIG') RIDFLD('0001') UPDATE", "NORMAL 0 DATA " characters)
    tell("REWRITE FILE('BIG') FROM(" replaced ")", "NORMAL 0")
    tell("READ FILE('BIG') RIDFLD('0001')", "NORMAL 0 DATA " replaced)
    tell("WRITE FILE('BIG') RIDFLD('0002') FROM('" whole "x') RESP(R)", "LENGERR 22")
    tell("WRITE FILE('BIG') RIDFLD('0002') FROM('" whole "x') LENGTH(32767)", "NORMAL 0")
    tell("WRITE FILE('BIG') RIDFLD('0003') FROM(" quotes ")", "NORMAL 0")
    tell("READ FILE('BIG') RIDFLD('0003') LENGTH(32767)", "NORMAL 0 DATA " quotes)
    tell("WRITEQ TS QUEUE('BIG') FROM(" quotes ")", "NORMAL 0 ITEM 1")
    tell("READQ TS QUEUE('BIG')", "NORMAL 0 ITEM 1 DATA " quotes)
    tell("READQ TD QUEUE('BIG')", "NORMAL 0 DATA " characters)
    tell("WRITEQ TD QUEUE('BIG') FROM(" quotes ")", "NORMAL 0")
    comes("LISTING")
    comes("FILE 'BIG' RECOVERABLE RECORDS 3")
    comes("  " replaced)
    comes("  '" whole "'")
    comes("  " quotes)
    comes("TSQUEUE 'BIG' UNRECOVERABLE ITEMS 1")
    comes("  " quotes)
    comes("TDQUEUE 'BIG' LOGICAL RECORDS 1")
    comes("  " quotes)
    comes("TASK T1 OPEN")
}

function keys(low, high, last) {
    low = repeat("k", 254) "a"
    high = repeat("k", 254) "b"
    last = repeat("r", 32512) low
    say("DEFINE FILE('KEY') KEYLENGTH(255) RECOVERABLE")
    say("DEFINE FILE('LAST') KEYLENGTH(255) KEYOFFSET(32512) UNRECOVERABLE")
    attach("T1")
    tell("WRITE FILE('KEY') RIDFLD('" high "') FROM('" high "')", "NORMAL 0")
    tell("WRITE FILE('KEY') RIDFLD('" low "') FROM('" low "')", "NORMAL 0")
    tell("READ FILE('KEY') RIDFLD('" low "') KEYLENGTH(255) UPDATE", "NORMAL 0 DATA '" low "'")
    tell("STARTBR FILE('KEY') RIDFLD('" low "')", "NORMAL 0")
    tell("READNEXT FILE('KEY')", "NORMAL 0 KEY '" low "' DATA '" low "'")
    tell("READNEXT FILE('KEY')", "NORMAL 0 KEY '" high "' DATA '" high "'")
    tell("READ FILE('KEY') RIDFLD('" low "k') RESP(R)", "INVREQ 16")
    tell("DELETE FILE('KEY') RIDFLD('" substr(low, 1, 254) "') GENERIC", "NORMAL 0 NUMREC 2")
    tell("WRITE FILE('LAST') RIDFLD('" low "') FROM('" last "')", "NORMAL 0")
    tell("READ FILE('LAST') RIDFLD('" low "')", "NORMAL 0 DATA '" last "'")
    tell("SYNCPOINT ROLLBACK", "NORMAL 0")
    comes("LISTING")
    comes("FILE 'KEY' RECOVERABLE RECORDS 0")
    comes("FILE 'LAST' UNRECOVERABLE RECORDS 1")
    comes("  '" last "'")
    comes("TASK T1 IDLE")
}

function enqueues(number) {
    attach("T1")
    attach("T2")
    for (number = 1; number <= 65535; number++) tell("ENQ RESOURCE('VALUE') LENGTH(5)", "NORMAL 0")
    tell("ENQ RESOURCE('VALUE') LENGTH(5) RESP(R)", "INVREQ 16")
    say("T2 EXEC CICS ENQ RESOURCE('VALUE') LENGTH(5)")
    comes("T2 WAITING T1")
    for (number = 1; number <= 65535; number++) tell("DEQ RESOURCE('VALUE') LENGTH(5)", "NORMAL 0")
    comes("T2 WOKEN NORMAL 0")
    comes("LISTING")
    comes("TASK T1 OPEN")
    comes("TASK T2 OPEN")
}

function items(number) {
    say("DEFINE TSPREFIX('I')")
    attach("T1")
    for (number = 1; number <= 32767; number++) {
        tell("WRITEQ TS QUEUE('ITEMS') FROM('" number "')", "NORMAL 0 ITEM " number)
    }
    tell("WRITEQ TS QUEUE('ITEMS') FROM('32768') RESP(R)", "ITEMERR 26")
    tell("READQ TS QUEUE('ITEMS') ITEM(32767)", "NORMAL 0 ITEM 32767 DATA '32767'")
    tell("READQ TS QUEUE('ITEMS') RESP(R)", "ITEMERR 26")
    comes("LISTING")
    comes("TSQUEUE 'ITEMS' RECOVERABLE ITEMS 32767")
    for (number = 1; number <= 32767; number++) comes("  '" number "'")
    comes("TASK T1 OPEN")
}

# A line of 70,000 bytes: this front and this back, and between them this text as often as it takes.
function longest(front, text, back) {
    return front repeat(text, (70000 - length(front back)) / length(text)) back
}

function lines(front) {
    front = "T1 EXEC CICS WRITEQ TS QUEUE('A') FROM('"
    say(longest("CLOCK", " ", "1"))
    comes("CLOCK 1")
    say(longest("*", "'", ""))
    say(longest("CLOCK ", "0", "2"))
    comes("CLOCK 2")
    attach("T1")
    say(longest(front, "a", "') RESP(R)"))
    comes("T1 LENGERR 22")
    say(longest(front, "''", "') LENGTH(1)"))
    comes("T1 NORMAL 0 ITEM 1")
    say(longest(front, "a", "')") " ")
    comes("LINE 7 FAULT 1 TooLong")
}

# Says the lines of a load of 16 MiB, the line of each number from 0 on as far as there is room:
# how many they are.
function say_all(number) {
    for (number = 0; has_room(line_of(number)); number++) say(line_of(number))
    fill()
    return number
}

function line_of(number) {
    if (called == "files") return "DEFINE FILE('F" digits(number) "') KEYLENGTH(1) UNRECOVERABLE"
    if (called == "queues") return "DEFINE TDQUEUE('" name_of(number) "') NONE"
    if (called == "loads") return "LOAD FILE('LOAD') FROM('" digits(shuffled(number)) "')"
    if (called == "attaches") return "ATTACH T" digits(number) " TRANSID('SIZE')"
    if (called == "values") return "T1 EXEC CICS ENQ RESOURCE('" digits(number) "') LENGTH(7)"
    if (called == "short") return "T1 EXEC CICS DEQ RESOURCE('A') LENGTH(1)"
    if (called == "long") return "LOAD FILE('LONG') FROM('" digits(number) long "')"
    return "T1 EXEC CICS WRITEQ TS QUEUE('HEX') FROM(" hexadecimal ")"
}

# The same line once for each of so many.
function come_all(count, line) {
    while (count-- > 0) comes(line)
}

function files(count, number) {
    count = say_all()
    comes("LISTING")
    for (number = 0; number < count; number++)
        comes("FILE 'F" digits(number) "' UNRECOVERABLE RECORDS 0")
}

# The name of four characters that has this number, in the order of names, in which letters stand
# before digits.
function name_of(number, name, at) {
    for (at = 1; at <= 4; at++) {
        name = substr("ABCDEFGHIJKLMNOPQRSTUVWXYZ0123456789", number % 36 + 1, 1) name
        number = int(number / 36)
    }
    return name
}

function queues(count, number) {
    count = say_all()
    comes("LISTING")
    for (number = 0; number < count; number++) comes("TDQUEUE '" name_of(number) "' NONE RECORDS 0")
}

# The numbers from 0 to 493,432 in no order, each once: 493,433 is prime. So many lines have room.
function shuffled(number) {
    return (number * 170003) % 493433
}

function loads(count, number) {
    say("DEFINE FILE('LOAD') KEYLENGTH(7) RECOVERABLE")
    for (number = 0; number < 493433; number++) say(line_of(number))
    fill()
    comes("LISTING")
    comes("FILE 'LOAD' RECOVERABLE RECORDS 493433")
    for (number = 0; number < 493433; number++) comes("  '" digits(number) "'")
}

function attaches(count, number) {
    count = say_all()
    for (number = 0; number < count; number++) comes("T" digits(number) " ATTACHED 'SIZE'")
    comes("LISTING")
    for (number = 0; number < count; number++) comes("TASK T" digits(number) " IDLE")
}

function values() {
    attach("T1")
    come_all(say_all(), "T1 NORMAL 0")
    comes("LISTING")
    comes("TASK T1 OPEN")
}

function short_literals() {
    attach("T1")
    come_all(say_all(), "T1 NORMAL 0")
    comes("LISTING")
    comes("TASK T1 IDLE")
}

function long_literals(count, number) {
    long = repeat("l", 32760)
    say("DEFINE FILE('LONG') KEYLENGTH(7) RECOVERABLE")
    count = say_all()
    comes("LISTING")
    comes("FILE 'LONG' RECOVERABLE RECORDS " count)
    for (number = 0; number < count; number++) comes("  '" digits(number) long "'")
}

function hexadecimal_literals(count, number) {
    hexadecimal = "x'" repeat("0f", 32767) "'"
    attach("T1")
    count = say_all()
    for (number = 1; number <= count; number++) comes("T1 NORMAL 0 ITEM " number)
    comes("LISTING")
    comes("TSQUEUE 'HEX' UNRECOVERABLE ITEMS " count)
    come_all(count, "  " toupper(hexadecimal))
    comes("TASK T1 OPEN")
}

function enqueue(label, number) {
    say(label " EXEC CICS ENQ RESOURCE('" digits(number) "') LENGTH(7)")
}

# Task T0 enqueues on so many values, for which so many tasks then wait in turn.
function waits(held, number) {
    attach("T0")
    for (number = 1; number <= count; number++) attach("T" number)
    for (number = 0; number < held; number++) enqueue("T0", number)
    come_all(held, "T0 NORMAL 0")
    for (number = 1; number <= count; number++) {
        enqueue("T" number, number % held)
        comes("T" number " WAITING T0")
    }
    say("T0 EXEC CICS RETURN")
    comes("T0 ENDED")
    for (number = 1; number <= held; number++) comes("T" number " WOKEN NORMAL 0")
    comes("LISTING")
    for (number = 1; number <= count; number++)
        comes("TASK T" number " " (number <= held ? "OPEN" : "WAITING"))
}

function prefixes(number) {
    for (number = 0; number < count; number++) say("DEFINE TSPREFIX('P" digits(number) "')")
    comes("LISTING")
}

# A command on the record of a number, and what it is answered.
function on_record(task, command, answer) {
    say(task " EXEC CICS " command)
    comes(task " NORMAL 0" answer)
    at++
}

function update(task, record, before, after) {
    on_record(task, "READ FILE('ACCT') RIDFLD('" record "') UPDATE",
        " DATA '" record " " before "'")
    on_record(task, "REWRITE FILE('ACCT') FROM('" record " " after "')", "")
    say(task " EXEC CICS RETURN")
    comes(task " ENDED")
    return at++
}

function reads(most, number, record, task, other, looked, changed, missed) {
    most = 1000
    say("DEFINE FILE('ACCT') KEYLENGTH(7) RECOVERABLE")
    for (number = 0; number < most; number++)
        say("LOAD FILE('ACCT') FROM('" digits(number) " 0')")
    at = most + 1
    for (number = 0; number < count; number++) {
        record = digits(number % most)
        task = "A" number
        other = "B" number
        attach(task)
        attach(other)
        at += 2
        on_record(task, "READ FILE('ACCT') RIDFLD('" record "')",
            " DATA '" record " " 2 * int(number / most) "'")
        looked = at
        changed = update(other, record, 2 * int(number / most), 2 * int(number / most) + 1)
        missed[number] = "LOST UPDATE LINE " looked " " task " MISSED LINE " changed " " other \
            " AND LINE " update(task, record, 2 * int(number / most) + 1,
                2 * int(number / most) + 2) " " task " REPLACED LINE " changed " " other
    }
    comes("READS")
    for (number = 0; number < count; number++) comes(missed[number])
}

BEGIN {
    if (called == "records") records()
    else if (called == "keys") keys()
    else if (called == "enqueues") enqueues()
    else if (called == "items") items()
    else if (called == "lines") lines()
    else if (called == "files") files()
    else if (called == "queues") queues()
    else if (called == "loads") loads()
    else if (called == "attaches") attaches()
    else if (called == "values") values()
    else if (called == "short") short_literals()
    else if (called == "long") long_literals()
    else if (called == "hexadecimal") hexadecimal_literals()
    else if (called == "waits") waits(1)
    else if (called == "own-waits") waits(count)
    else if (called == "prefixes") prefixes()
    else if (called == "reads") reads()
    else {
        print "no such load: " called > "/dev/stderr"
        exit 1
    }
}
