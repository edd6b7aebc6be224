# Lines of scripts, for hostile.awk and told.awk.

function say(label, command) {
    print label " EXEC CICS " command
}

function attach(label, limit) {
    print "ATTACH " label " TRANSID('LOAD')" (limit ? " DTIMOUT(" limit ")" : "")
}

function key(number) {
    return sprintf("%08d", number)
}

function letters(number, text, digits) {
    digits = "ABCDEFGHIJKLMNOPQRSTUVWXYZ0123456789"
    for (text = ""; length(text) < 4; number = int(number / 36))
        text = substr(digits, number % 36 + 1, 1) text
    return text
}

function define(name, length_of_key, recovery) {
    print "DEFINE FILE('" name "') KEYLENGTH(" length_of_key ") " recovery
}

function load(name, record) {
    print "LOAD FILE('" name "') FROM('" record "')"
}

function value(label, verb, number) {
    say(label, verb " RESOURCE('" key(number) "') LENGTH(8)")
}

function on_record(label, verb, number, options) {
    say(label, verb " FILE('FILE') RIDFLD('" key(number) "')" options)
}

function records(most, number) {
    define("FILE", 8, "RECOVERABLE")
    for (number = 1; number <= most; number++) load("FILE", key(number))
}

function long(bytes, text) {
    for (text = "a"; length(text) < bytes; text = text text);
    return substr(text, 1, bytes)
}

# The name of the file or the queue with this number.
function name_of(number) {
    return sprintf("F%07d", number)
}

# The next name of standard input, that colliding.c printed.
function next_name(name) {
    getline name
    return name
}

function no_such() {
    print "no such script: " called > "/dev/stderr"
    exit 1
}
