# Makes a script of interleaved tasks, by chance: run it with -v seed=N. The same seed makes the
# same script, whichever awk runs it.
#
# Two recoverable files and one that isn't, temporary storage queues with a recoverable prefix and
# without, a LOGICAL, a PHYSICAL and an unrecovered transient data queue. From three to eight
# tasks, half of them with a time limit, issue every kind of updating command on a few keys and
# queues, so that they wait for each other, are answered each way and time out. Units commit, are
# backed out, abend, and some stay open.

# A number from 0 on below n. Each product is below 2^53, so every awk has it exactly.
function pick(n) {
    state = state * 16807 % 2147483647
    return int(state / 2147483647 * n)
}

function key() { return sprintf("%d%d", pick(3), pick(3)) }

function file() { return substr("AAABBU", pick(6) + 1, 1) }

function text() { return sprintf("%03d", pick(1000)) }

function ts_queue() { return substr("RRS", pick(3) + 1, 1) pick(3) }

function td_queue() { return substr("LLLPN", pick(5) + 1, 1) }

function say(task, command) { print "T" task " EXEC CICS " command " RESP(0)" }

# A record of a file: the key stands first, but in file B after two more bytes.
function record(name, k) { return name == "B" ? "zz" k text() : k text() }

function on_file(task,   name, k, chance) {
    name = file()
    k = key()
    chance = pick(10)
    if (chance < 3) {
        read_key[task, name] = k
        say(task, "READ FILE('" name "') RIDFLD('" k "') UPDATE" (pick(6) ? "" : " LENGTH(2)"))
    } else if (chance < 6 && (task, name) in read_key) {
        k = read_key[task, name]
        delete read_key[task, name]
        say(task, pick(3) ? "REWRITE FILE('" name "') FROM('" record(name, k) "')" : \
            "DELETE FILE('" name "')")
    } else if (chance < 8)
        say(task, "WRITE FILE('" name "') RIDFLD('" k "') FROM('" record(name, k) "')")
    else if (chance < 9)
        say(task, pick(2) ? "DELETE FILE('" name "') RIDFLD('" k "')" : "UNLOCK FILE('" name "')")
    else
        say(task, "DELETE FILE('" name "') RIDFLD('" pick(3) "') KEYLENGTH(1) GENERIC NUMREC(N)")
}

function on_queue(task,   chance) {
    chance = pick(8)
    if (chance < 2)
        say(task, "WRITEQ TS QUEUE('" ts_queue() "') FROM('" text() "')")
    else if (chance < 3)
        say(task, "WRITEQ TS QUEUE('" ts_queue() "') FROM('" text() "') ITEM(" 1 + pick(3) \
            ") REWRITE")
    else if (chance < 4)
        say(task, pick(2) ? "DELETEQ TS QUEUE('" ts_queue() "')" : \
            "READQ TS QUEUE('" ts_queue() "') NEXT")
    else if (chance < 6)
        say(task, "WRITEQ TD QUEUE('" td_queue() "') FROM('" text() "')")
    else if (chance < 7 || pick(3))
        say(task, "READQ TD QUEUE('" td_queue() "')" (pick(2) ? " NOSUSPEND" : ""))
    else
        say(task, "DELETEQ TD QUEUE('" td_queue() "')")
}

function ends(task,   chance) {
    chance = pick(12)
    if (chance < 7)
        say(task, "SYNCPOINT")
    else if (chance < 10)
        say(task, "SYNCPOINT ROLLBACK")
    else if (chance < 11)
        print "T" task " EXEC CICS RETURN"
    else
        print "T" task " EXEC CICS ABEND ABCODE('OOPS')"
}

BEGIN {
    # Seeds that are neighbours give scripts that aren't alike.
    state = (seed * 69621 + 1) % 2147483647
    pick(2)
    pick(2)
    print "DEFINE FILE('A') KEYLENGTH(2) RECOVERABLE"
    print "DEFINE FILE('B') KEYLENGTH(2) KEYOFFSET(2) RECORDSIZE(40) RECOVERABLE"
    print "DEFINE FILE('U') KEYLENGTH(2) UNRECOVERABLE"
    print "DEFINE TSPREFIX('R')"
    print "DEFINE TDQUEUE('L') LOGICAL"
    print "DEFINE TDQUEUE('P') PHYSICAL"
    print "DEFINE TDQUEUE('N') NONE"
    for (i = 0; i < 3; i++) {
        print "LOAD FILE('A') FROM('" i i text() "')"
        print "LOAD FILE('B') FROM('zz" i "1" text() "')"
        print "LOAD FILE('U') FROM('" i "2" text() "')"
        print "LOAD TDQUEUE('L') FROM('" text() "')"
    }
    tasks = 3 + pick(6)
    for (task = 1; task <= tasks; task++)
        print "ATTACH T" task " TRANSID('RAND')" (pick(2) ? " DTIMOUT(" 5 + pick(20) ")" : "")
    commands = 20 + pick(60)
    for (i = 0; i < commands; i++) {
        task = 1 + pick(tasks)
        chance = pick(20)
        if (chance < 9)
            on_file(task)
        else if (chance < 15)
            on_queue(task)
        else if (chance < 19)
            ends(task)
        else
            print "CLOCK " (clock += pick(10))
    }
}
