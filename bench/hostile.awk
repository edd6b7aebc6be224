# Writes a script that is made against the program: what it has much of is looked through, or kept.
#
#   awk -v called=NAME -v count=N -f lines.awk -f hostile.awk
#
# The same NAME and N give the same script on every machine. Those whose names begin with
# `colliding` read N names that colliding.c prints. NAME is one of these:
#
#   prefix-definitions  N prefixes of temporary storage queues are defined
#   prefixed-items      N items are written to queues that no one of N prefixes covers
#   files               N files are defined, and one record is written to each
#   queues              N transient data queues are defined, and one record is written to each
#   emptied-reads       N reads pass over N records that an open unit has deleted
#   emptied-browses     the same by a browse to and fro
#   emptied-deletes     N generic deletes over N records that their own unit has deleted
#   open-reads          one unit reads for update in N files
#   browses             one task has a browse in each of N files
#   unlocked-waits      N tasks wait for one that rewrites N times in an unrecoverable file
#   chain               each of N tasks waits for the one before it
#   circle              each of N tasks waits for the next, and the last for the first: a deadlock
#   circles             N tasks in deadlocks of two
#   one-queue           N tasks wait for one transient data queue, that is written to N times
#   held-prefixes       one unit owns N prefixes of keys
#   long-prefix         N keys of 255 bytes are written beside a prefix that is owned
#   long-keys           a key of 200 bytes behind 32,000 like bytes is read N times
#   cut-reads           a record of 32,000 bytes is read as one byte, and rolled back, N times
#   unlocked-reads      a record of 32,000 bytes is read for update and unlocked, N times
#   queue-rollbacks     a queue of N items (32,000 at most) is deleted and rolled back N times
#   data-rollbacks      a transient data queue of N records is deleted and rolled back N times
#   shutdown            N tasks own a value each, and wait, when the region shuts down
#   clocks              N tasks wait with a time-out, and the clock is moved N times
#   one-cell            one record is read and then updated by each of N tasks
#   whole-browses       N reads of a browse to the end of N records, and N updates beside it
#   skews               N tasks read two records each, and update the one that another read
#   turns               N tasks run N turns, one after the other
#   one-task            one task of N lines
#   loaded              two tasks of three lines each, and N loaded records
#   colliding-labels    N tasks are attached, and the hashes of their labels collide
#   colliding-waits     the same, and all wait
#   colliding-queues    N temporary storage queues are written to, and the hashes of their names
#                       collide
#   physical-reads      a PHYSICAL queue of N records is read to its end
#   crossed-values      a unit enqueues on two values and releases them in the same order, N times
#   generic-waits       a generic delete waits for N tasks, that end one after the other
#   one-moment          N tasks time out at once
#   released-chain      N tasks in a chain of waits, that end from its front
#   rewritten-items     one item of a recoverable queue is rewritten N times, and rolled back
#   cut-items           an item of 32,000 bytes is read as one byte N times
#   resets              a browse in a file of N records is reset N times
#   written-back        N records are written with falling keys, deleted with rising ones, and
#                       rolled back
#   prefix-owners       N tasks own a prefix of keys each, and another writes beside them N times
#   emptied-ends        N reads of a file's last record: behind it an open unit deleted N records

function prefixes(number) {
    for (number = 0; number < count; number++)
        print "DEFINE TSPREFIX('" sprintf("%07d", number) "A')"
}

function prefixed_items(number) {
    prefixes()
    attach("T")
    for (number = 0; number < count; number++)
        say("T", "WRITEQ TS QUEUE('Q" number % 50 "') FROM('x')")
}

function files(number) {
    for (number = 0; number < count; number++) define(name_of(number), 1, "RECOVERABLE")
    attach("T")
    for (number = 0; number < count; number++)
        say("T", "WRITE FILE('" name_of(number) "') RIDFLD('a') FROM('a')")
}

function queues(number) {
    for (number = 0; number < count; number++)
        print "DEFINE TDQUEUE('" letters(number) "') LOGICAL"
    attach("T")
    for (number = 0; number < count; number++)
        say("T", "WRITEQ TD QUEUE('" letters(number) "') FROM('r')")
}

function emptied(number) {
    records(count + 1)
    attach("T")
    attach("U")
    for (number = 2; number <= count; number++) on_record("T", "DELETE", number)
}

function emptied_reads(number) {
    emptied()
    for (number = 0; number < count; number++) on_record("U", "READ", 2, " GTEQ")
}

function emptied_browses(number) {
    emptied()
    on_record("U", "STARTBR", 1)
    for (number = 0; number < count; number += 4) {
        say("U", "READNEXT FILE('FILE')")
        say("U", "READNEXT FILE('FILE')")
        say("U", "READPREV FILE('FILE')")
        say("U", "READPREV FILE('FILE')")
    }
}

function emptied_deletes(number) {
    records(count)
    attach("T")
    for (number = 0; number < count; number++)
        say("T", "DELETE FILE('FILE') RIDFLD('0') GENERIC RESP(R)")
}

function in_each_file(command, number) {
    for (number = 0; number < count; number++) {
        define(name_of(number), 1, "RECOVERABLE")
        load(name_of(number), "a")
    }
    attach("T")
    for (number = count - 1; number >= 0; number--) {
        if (command == "STARTBR")
            say("T", "STARTBR FILE('" name_of(number) "') RIDFLD('a')")
        else
            say("T", "READ FILE('" name_of(number) "') RIDFLD('a') UPDATE")
    }
}

function unlocked_waits(number) {
    define("FREE", 1, "UNRECOVERABLE")
    load("FREE", "a")
    attach("H")
    for (number = 0; number < count; number++) value("H", "ENQ", number)
    for (number = 0; number < count; number++) {
        attach("W" number)
        value("W" number, "ENQ", number)
    }
    for (number = 0; number < count; number++) {
        say("H", "READ FILE('FREE') RIDFLD('a') UPDATE")
        say("H", "REWRITE FILE('FREE') FROM('a')")
    }
}

# Each task owns the value of its number, and waits for the owner of another.
function rings(kind, number) {
    for (number = 0; number < count; number++) {
        attach("C" number)
        value("C" number, "ENQ", number)
    }
    for (number = 0; number < count; number++) {
        if (kind == "circles") value("C" number, "ENQ", number % 2 ? number - 1 : number + 1)
        else if (kind == "circle") value("C" number, "ENQ", (number + 1) % count)
        else if (number > 0) value("C" number, "ENQ", number - 1)
    }
}

function one_queue(number) {
    print "DEFINE TDQUEUE('WORK') LOGICAL"
    attach("W")
    say("W", "WRITEQ TD QUEUE('WORK') FROM('x')")
    for (number = 0; number < count; number++) {
        attach("R" number)
        say("R" number, "READQ TD QUEUE('WORK')")
    }
    for (number = 0; number < count; number++) {
        say("W", "SYNCPOINT")
        say("W", "WRITEQ TD QUEUE('WORK') FROM('x')")
    }
}

function held_prefixes(number) {
    records(0)
    attach("T")
    for (number = 0; number < count; number++)
        say("T", "DELETE FILE('FILE') RIDFLD('" sprintf("%07d", number) "') GENERIC RESP(R)")
    for (number = 0; number < count; number++)
        say("T", "DELETE FILE('FILE') RIDFLD('0') GENERIC RESP(R)")
}

function long_prefix(number, text, name) {
    text = long(247)
    define("FILE", 255, "RECOVERABLE")
    attach("T")
    attach("U")
    say("T", "DELETE FILE('FILE') RIDFLD('zz') GENERIC RESP(R)")
    for (number = 0; number < count; number++) {
        name = text key(number)
        say("U", "WRITE FILE('FILE') RIDFLD('" name "') FROM('" name "')")
    }
}

function long_keys(number, name) {
    name = long(199) "b"
    print "DEFINE FILE('FILE') KEYLENGTH(200) KEYOFFSET(32000) RECOVERABLE"
    attach("T")
    say("T", "WRITE FILE('FILE') RIDFLD('" name "') FROM('" long(32000) name "')")
    for (number = 0; number < count; number++) {
        say("T", "READ FILE('FILE') RIDFLD('" name "') UPDATE LENGTH(1) RESP(R)")
        say("T", "UNLOCK FILE('FILE')")
    }
}

function cut_reads(number) {
    print "DEFINE TDQUEUE('WORK') LOGICAL"
    print "LOAD TDQUEUE('WORK') FROM('" long(32000) "')"
    attach("T")
    for (number = 0; number < count; number++) {
        say("T", "READQ TD QUEUE('WORK') LENGTH(1) RESP(R)")
        say("T", "SYNCPOINT ROLLBACK")
    }
}

function unlocked_reads(number) {
    define("FILE", 1, "RECOVERABLE")
    load("FILE", long(32000))
    attach("T")
    for (number = 0; number < count; number++) {
        say("T", "READ FILE('FILE') RIDFLD('a') LENGTH(1) RESP(R) UPDATE")
        say("T", "UNLOCK FILE('FILE')")
    }
}

function rolled_back(kind, number, queue) {
    queue = kind " QUEUE('WORK')"
    print kind == "TS" ? "DEFINE TSPREFIX('WORK')" : "DEFINE TDQUEUE('WORK') LOGICAL"
    attach("T")
    for (number = 0; number < count && number < 32000; number++)
        say("T", "WRITEQ " queue " FROM('x')")
    say("T", "SYNCPOINT")
    for (number = 0; number < count; number++) {
        say("T", "DELETEQ " queue)
        say("T", "SYNCPOINT ROLLBACK")
    }
}

function shutdown(number) {
    attach("H")
    value("H", "ENQ", 0)
    for (number = 1; number <= count; number++) {
        attach("T" number)
        value("T" number, "ENQ", number)
        value("T" number, "ENQ", 0)
    }
    print "SHUTDOWN IMMEDIATE"
}

function clocks(number) {
    attach("H")
    value("H", "ENQ", 0)
    for (number = 1; number <= count; number++) {
        attach("T" number, 999999)
        value("T" number, "ENQ", 0)
    }
    for (number = 0; number < count; number++) print "CLOCK " number
}

function rewrite(label, number) {
    on_record(label, "READ", number, " UPDATE RESP(R)")
    say(label, "REWRITE FILE('FILE') FROM('" key(number) "') RESP(R)")
}

function one_cell(number) {
    records(1)
    for (number = 0; number < count; number++) {
        attach("T" number)
        on_record("T" number, "READ", 1)
    }
    for (number = 0; number < count; number++) {
        rewrite("T" number, 1)
        say("T" number, "RETURN")
    }
}

function whole_browses(number) {
    records(count)
    attach("B")
    attach("U")
    on_record("B", "STARTBR", 1)
    for (number = 1; number <= count; number++) {
        say("B", "READNEXT FILE('FILE')")
        rewrite("U", number)
    }
    say("U", "SYNCPOINT")
    say("B", "RETURN")
}

function skews(number) {
    records(count + 1)
    for (number = 1; number <= count; number++) {
        attach("T" number)
        on_record("T" number, "READ", number)
        on_record("T" number, "READ", number + 1)
    }
    for (number = 1; number <= count; number++) rewrite("T" number, number)
    for (number = 1; number <= count; number++) say("T" number, "RETURN")
}

function turns(number) {
    records(count)
    for (number = 1; number <= count; number++) {
        attach("T" number)
        rewrite("T" number, number)
        say("T" number, "RETURN")
    }
}

function one_task(number) {
    records(1)
    attach("T")
    for (number = 1; number <= count; number++) on_record("T", "READ", 1)
}

function loaded(number) {
    records(count)
    for (number = 1; number <= 2; number++) {
        attach("T" number)
        rewrite("T" number, number)
        say("T" number, "RETURN")
    }
}

function colliding_labels(waits, number, label) {
    attach("T")
    if (waits) value("T", "ENQ", 0)
    for (number = 0; number < count; number++) {
        label = next_name()
        attach(label)
        if (waits) value(label, "ENQ", 0)
    }
}

function colliding_queues(number) {
    attach("T")
    for (number = 0; number < count; number++)
        say("T", "WRITEQ TS QUEUE('" next_name() "') FROM('x')")
}

function physical_reads(number) {
    print "DEFINE TDQUEUE('WORK') PHYSICAL"
    attach("T")
    for (number = 0; number < count; number++) say("T", "WRITEQ TD QUEUE('WORK') FROM('x')")
    for (number = 0; number < count; number++) say("T", "READQ TD QUEUE('WORK')")
}

function crossed_values(number) {
    attach("T")
    attach("U")
    value("U", "ENQ", 0)
    for (number = 1; number <= count; number++) {
        value("T", "ENQ", 2 * number)
        value("T", "ENQ", 2 * number + 1)
        value("T", "DEQ", 2 * number)
        value("T", "DEQ", 2 * number + 1)
    }
}

function generic_waits(number) {
    records(count)
    attach("W")
    for (number = 1; number <= count; number++) {
        attach("T" number)
        on_record("T" number, "READ", number, " UPDATE")
    }
    say("W", "DELETE FILE('FILE') RIDFLD('0') GENERIC")
    for (number = 1; number <= count; number++) say("T" number, "RETURN")
}

function one_moment(number) {
    attach("H")
    value("H", "ENQ", 0)
    for (number = 1; number <= count; number++) {
        attach("T" number, 1)
        value("T" number, "ENQ", 0)
    }
    print "CLOCK 1"
}

function released_chain(number) {
    rings("chain")
    for (number = 0; number < count; number++) say("C" number, "RETURN")
}

function rewritten_items(number) {
    print "DEFINE TSPREFIX('WORK')"
    attach("T")
    say("T", "WRITEQ TS QUEUE('WORK') FROM('x')")
    for (number = 0; number < count; number++)
        say("T", "WRITEQ TS QUEUE('WORK') FROM('" number "') ITEM(1) REWRITE")
    say("T", "SYNCPOINT ROLLBACK")
}

function cut_items(number) {
    attach("T")
    say("T", "WRITEQ TS QUEUE('WORK') FROM('" long(32000) "')")
    for (number = 0; number < count; number++)
        say("T", "READQ TS QUEUE('WORK') ITEM(1) LENGTH(1) RESP(R)")
}

function resets(number) {
    records(count)
    attach("T")
    on_record("T", "STARTBR", 1)
    for (number = 0; number < count; number++)
        on_record("T", "RESETBR", (number * 7919) % count + 1)
}

function written_back(number) {
    records(0)
    attach("T")
    for (number = count; number > 0; number--)
        on_record("T", "WRITE", number, " FROM('" key(number) "')")
    for (number = 1; number <= count; number++) on_record("T", "DELETE", number)
    say("T", "SYNCPOINT ROLLBACK")
}

function prefix_owners(number) {
    records(0)
    attach("U")
    for (number = 0; number < count; number++) {
        attach("T" number)
        say("T" number, "DELETE FILE('FILE') RIDFLD('" sprintf("%07d", number) "') GENERIC RESP(R)")
    }
    for (number = 0; number < count; number++)
        on_record("U", "WRITE", 10 * count + number, " FROM('" key(10 * count + number) "')")
}

function emptied_ends(number) {
    records(count)
    attach("T")
    attach("U")
    for (number = 2; number <= count; number++) on_record("T", "DELETE", number)
    for (number = 0; number < count; number++) {
        say("U", "STARTBR FILE('FILE') RIDFLD(X'FFFFFFFFFFFFFFFF')")
        say("U", "READPREV FILE('FILE')")
        say("U", "ENDBR FILE('FILE')")
    }
}

BEGIN {
    if (called == "prefix-definitions") prefixes()
    else if (called == "prefixed-items") prefixed_items()
    else if (called == "files") files()
    else if (called == "queues") queues()
    else if (called == "emptied-reads") emptied_reads()
    else if (called == "emptied-browses") emptied_browses()
    else if (called == "emptied-deletes") emptied_deletes()
    else if (called == "open-reads") in_each_file("READ")
    else if (called == "browses") in_each_file("STARTBR")
    else if (called == "unlocked-waits") unlocked_waits()
    else if (called ~ /^(chain|circle|circles)$/) rings(called)
    else if (called == "one-queue") one_queue()
    else if (called == "held-prefixes") held_prefixes()
    else if (called == "long-prefix") long_prefix()
    else if (called == "long-keys") long_keys()
    else if (called == "cut-reads") cut_reads()
    else if (called == "unlocked-reads") unlocked_reads()
    else if (called == "queue-rollbacks") rolled_back("TS")
    else if (called == "data-rollbacks") rolled_back("TD")
    else if (called == "shutdown") shutdown()
    else if (called == "clocks") clocks()
    else if (called == "one-cell") one_cell()
    else if (called == "whole-browses") whole_browses()
    else if (called == "skews") skews()
    else if (called == "turns") turns()
    else if (called == "one-task") one_task()
    else if (called == "loaded") loaded()
    else if (called ~ /^colliding-(labels|waits)$/) colliding_labels(called ~ /waits/)
    else if (called == "colliding-queues") colliding_queues()
    else if (called == "physical-reads") physical_reads()
    else if (called == "crossed-values") crossed_values()
    else if (called == "generic-waits") generic_waits()
    else if (called == "one-moment") one_moment()
    else if (called == "released-chain") released_chain()
    else if (called == "rewritten-items") rewritten_items()
    else if (called == "cut-items") cut_items()
    else if (called == "resets") resets()
    else if (called == "written-back") written_back()
    else if (called == "prefix-owners") prefix_owners()
    else if (called == "emptied-ends") emptied_ends()
    else no_such()
}
