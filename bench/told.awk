# Writes a script that is made against what is told of a run, or shown of it.
#
#   awk -v called=NAME -v count=N -f lines.awk -f told.awk
#
# The same NAME and N give the same script on every machine. NAME is one of these:
#
#   undefined-files   N reads in files that aren't defined, beside N that are
#   undefined-queues  the same of transient data queues
#   meant-queues      N items are written to temporary storage queues that have the names of N
#                     transient data queues
#   unattached        N commands of tasks that were never attached, beside N that were
#   conditions        N conditions that a task handles
#   abends            N tasks abend by a condition each
#   faulty-words      faulty lines, of N words in all
#   faulty-texts      faulty lines, of N quotes in all
#   faulty-lines      N short faulty lines
#   open-reads-shown  N reads of records that an open unit has changed
#   long-records      N reads of a record of 1,000 bytes
#   many-lanes        N tasks change a record each, in turn

function undefined_files(number) {
    for (number = 0; number < count; number++) define(name_of(number), 1, "RECOVERABLE")
    attach("T")
    for (number = 0; number < count; number++)
        say("T", "READ FILE('G" substr(name_of(number), 2) "') RIDFLD('a') RESP(R)")
}

function undefined_queues(number) {
    for (number = 0; number < count; number++)
        print "DEFINE TDQUEUE('" letters(number) "') LOGICAL"
    attach("T")
    for (number = 0; number < count; number++) say("T", "READQ TD QUEUE('" number % 10 "') RESP(R)")
}

function meant_queues(number) {
    for (number = 0; number < count; number++)
        print "DEFINE TDQUEUE('" letters(number) "') LOGICAL"
    attach("T")
    for (number = 0; number < count; number++)
        say("T", "WRITEQ QUEUE('" letters(number) "') FROM('x')")
}

function unattached(number) {
    for (number = 0; number < count; number++) attach(name_of(number))
    for (number = 0; number < count; number++) say("G" substr(name_of(number), 2), "SYNCPOINT")
}

function conditions(number) {
    records(0)
    attach("T")
    for (number = 0; number < count; number++) on_record("T", "READ", number, " RESP(R)")
}

function abends(number) {
    records(0)
    for (number = 0; number < count; number++) {
        attach("T" number)
        on_record("T" number, "READ", number)
    }
}

# Lines that begin so and have so many words in all, as many on each as it has room for.
function faulty(front, word, most, number, at, text) {
    most = int((70000 - length(front)) / length(word))
    for (number = 0; number < count; number += most) {
        text = front
        for (at = number; at < count && at < number + most; at++) text = text word
        print text
    }
}

function faulty_lines(number) {
    for (number = 0; number < count; number++) say("T", "REDA FILE('FILE') RIDFLD('" number "')")
}

function open_reads_shown(number) {
    records(1)
    attach("T")
    attach("U")
    for (number = 0; number < count; number++) {
        on_record("T", "READ", 1, " UPDATE")
        say("T", "REWRITE FILE('FILE') FROM('" key(1) "')")
        on_record("U", "READ", 1)
    }
}

function long_records(number) {
    define("FILE", 1, "RECOVERABLE")
    load("FILE", long(1000))
    attach("T")
    for (number = 0; number < count; number++) say("T", "READ FILE('FILE') RIDFLD('a')")
}

function many_lanes(number) {
    records(count)
    for (number = 1; number <= count; number++) attach("T" number)
    for (number = 1; number <= count; number++) on_record("T" number, "DELETE", number)
}

BEGIN {
    if (called == "undefined-files") undefined_files()
    else if (called == "undefined-queues") undefined_queues()
    else if (called == "meant-queues") meant_queues()
    else if (called == "unattached") unattached()
    else if (called == "conditions") conditions()
    else if (called == "abends") abends()
    else if (called == "faulty-words") faulty("T EXEC CICS READ", " A", 0)
    else if (called == "faulty-texts") faulty("T EXEC CICS READ FILE(", "''", 0)
    else if (called == "faulty-lines") faulty_lines()
    else if (called == "open-reads-shown") open_reads_shown()
    else if (called == "long-records") long_records()
    else if (called == "many-lanes") many_lanes()
    else no_such()
}
