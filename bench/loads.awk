# Writes the script of one load to standard output.
#
#   awk -v called=NAME -v count=N -f loads.awk
#
# NAME is one of the names below, each with what N counts. The same NAME and N give the same script
# on every machine.
#
#   attach       N tasks are attached and return
#   ascending    N records are written with rising keys, a SYNCPOINT after every hundred
#   descending   the same with falling keys
#   scattered    the same with keys in no order
#   updates      N updates of 10,000 records by 100 tasks in turn: READ UPDATE, REWRITE, SYNCPOINT
#   rollback     N records are written by one unit of work and rolled back
#   browse       N reads in browses over 10,000 records
#   generic      N generic deletes of three records each
#   storage      N items are written to 100 temporary storage queues, and read by NEXT
#   data         N records are written to a transient data queue, and read
#   values       N values are enqueued on, and dequeued
#   one-record   N tasks wait for one record, and get it one after the other
#   own-records  N tasks wait for a record each, which one unit holds
#   own-values   N tasks wait for a value each, which one unit releases one by one
#   time-outs    N tasks wait for one record until each one's time is over, a second apart
#   readers      N tasks read a transient data queue each before another task has committed what it
#                wrote there

# The next of a row of numbers from 0 to limit - 1 in no order.
function scattered(limit) {
    seed = (seed * 16807) % 2147483647
    return seed % limit
}

function key(number) {
    return sprintf("%07d", number)
}

function say(label, command) {
    print label " EXEC CICS " command
}

function attach(label, limit) {
    print "ATTACH " label " TRANSID('LOAD')" (limit ? " DTIMOUT(" limit ")" : "")
}

function write(label, number) {
    say(label, "WRITE FILE('ACCT') RIDFLD('" key(number) "') FROM('" key(number) " AMOUNT 100')")
}

function read_for_update(label, number) {
    say(label, "READ FILE('ACCT') RIDFLD('" key(number) "') UPDATE INTO(RECORD)")
}

# Records 1 to most stand in the file from the start.
function load_records(most, number) {
    for (number = 1; number <= most; number++) {
        print "LOAD FILE('ACCT') FROM('" key(number) " AMOUNT 100')"
    }
}

function write_all(order, number) {
    attach("T1")
    for (number = 1; number <= count; number++) {
        if (order == "ascending") write("T1", number)
        else if (order == "descending") write("T1", count - number)
        else write("T1", (number * 4999999) % 9999991)
        if (number % 100 == 0) say("T1", "SYNCPOINT")
    }
}

function update_all(number, label) {
    load_records(10000)
    for (number = 1; number <= 100; number++) attach("T" number)
    for (number = 1; number <= count; number++) {
        label = "T" (number % 100 + 1)
        read_for_update(label, scattered(10000) + 1)
        say(label, "REWRITE FILE('ACCT') FROM('" key(seed % 10000 + 1) " AMOUNT " number % 1000 \
            "') RESP(R)")
        say(label, "SYNCPOINT")
    }
}

function browse_all(number) {
    load_records(10000)
    attach("T1")
    for (number = 0; number < count; number++) {
        if (number % 1000 == 0) {
            if (number) say("T1", "ENDBR FILE('ACCT')")
            say("T1", "STARTBR FILE('ACCT') RIDFLD('" key(scattered(9000)) "')")
        }
        say("T1", "READNEXT FILE('ACCT') RIDFLD(KEY) INTO(RECORD)")
    }
}

function delete_generic(number) {
    attach("T1")
    for (number = 1; number <= 3 * count; number++)
        write("T1", 10 * int((number - 1) / 3) + number % 3)
    say("T1", "SYNCPOINT")
    for (number = 0; number < count; number++) {
        say("T1", "DELETE FILE('ACCT') RIDFLD('" substr(key(10 * number), 1, 6) \
            "') KEYLENGTH(6) GENERIC NUMREC(N)")
        if (number % 100 == 99) say("T1", "SYNCPOINT")
    }
}

function use_storage(number, queue) {
    attach("T1")
    for (number = 0; number < count; number++) {
        say("T1", "WRITEQ TS QUEUE('Q" number % 100 "') FROM('ITEM " number "')")
        if (number % 100 == 99) say("T1", "SYNCPOINT")
    }
    for (number = 0; number < count; number++)
        say("T1", "READQ TS QUEUE('Q" number % 100 "') INTO(ITEM) NEXT")
}

function use_data(number) {
    attach("T1")
    for (number = 0; number < count; number++) {
        say("T1", "WRITEQ TD QUEUE('WORK') FROM('RECORD " number "')")
        if (number % 100 == 99) say("T1", "SYNCPOINT")
    }
    say("T1", "SYNCPOINT")
    for (number = 0; number < count; number++) {
        say("T1", "READQ TD QUEUE('WORK') INTO(RECORD)")
        if (number % 100 == 99) say("T1", "SYNCPOINT")
    }
}

function value_command(label, verb, number) {
    say(label, verb " RESOURCE('VALUE" key(number) "') LENGTH(12)")
}

function use_values(number) {
    attach("T1")
    for (number = 0; number < count; number++) value_command("T1", "ENQ", number)
    for (number = 0; number < count; number++) value_command("T1", "DEQ", number)
}

function attach_all(limited, number) {
    attach("HOLDER")
    for (number = 1; number <= count; number++) attach("T" number, limited ? number : 0)
}

function wait_for_one(number) {
    load_records(1)
    attach_all(0)
    read_for_update("HOLDER", 1)
    for (number = 1; number <= count; number++) read_for_update("T" number, 1)
    say("HOLDER", "RETURN")
    for (number = 1; number <= count; number++) say("T" number, "RETURN")
}

function wait_for_own_records(number) {
    attach_all(0)
    for (number = 1; number <= count; number++) write("HOLDER", number)
    for (number = 1; number <= count; number++) read_for_update("T" number, number)
    say("HOLDER", "RETURN")
}

function wait_for_own_values(number) {
    attach_all(0)
    for (number = 1; number <= count; number++) value_command("HOLDER", "ENQ", number)
    for (number = 1; number <= count; number++) value_command("T" number, "ENQ", number)
    for (number = 1; number <= count; number++) value_command("HOLDER", "DEQ", number)
}

function wait_too_long(number) {
    load_records(1)
    attach_all(1)
    read_for_update("HOLDER", 1)
    for (number = 1; number <= count; number++) read_for_update("T" number, 1)
    for (number = 1; number <= count; number++) print "CLOCK " number
}

function wait_to_read(number) {
    attach_all(0)
    for (number = 1; number <= count; number++)
        say("HOLDER", "WRITEQ TD QUEUE('" sprintf("%04d", number) "') FROM('RECORD')")
    for (number = 1; number <= count; number++)
        say("T" number, "READQ TD QUEUE('" sprintf("%04d", number) "') INTO(RECORD)")
    say("HOLDER", "RETURN")
}

function roll_back(number) {
    attach("T1")
    for (number = 1; number <= count; number++) write("T1", number)
    say("T1", "SYNCPOINT ROLLBACK")
}

function only_attach(number) {
    for (number = 1; number <= count; number++) {
        attach("T" number)
        say("T" number, "RETURN")
    }
}

BEGIN {
    seed = 1
    print "DEFINE FILE('ACCT') KEYLENGTH(7) RECOVERABLE"
    print "DEFINE TSPREFIX('Q')"
    if (called == "readers") {
        for (number = 1; number <= count; number++)
            print "DEFINE TDQUEUE('" sprintf("%04d", number) "') LOGICAL"
    } else {
        print "DEFINE TDQUEUE('WORK') LOGICAL"
    }
    if (called == "attach") only_attach()
    else if (called == "ascending" || called == "descending" || called == "scattered") write_all(called)
    else if (called == "updates") update_all()
    else if (called == "rollback") roll_back()
    else if (called == "browse") browse_all()
    else if (called == "generic") delete_generic()
    else if (called == "storage") use_storage()
    else if (called == "data") use_data()
    else if (called == "values") use_values()
    else if (called == "one-record") wait_for_one()
    else if (called == "own-records") wait_for_own_records()
    else if (called == "own-values") wait_for_own_values()
    else if (called == "time-outs") wait_too_long()
    else if (called == "readers") wait_to_read()
    else {
        print "no such load: " called > "/dev/stderr"
        exit 1
    }
}
