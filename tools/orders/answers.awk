# Makes of a run the TASK and LINE lines that a report on orders has of its ending. The first file
# is the script of the report, the second what a run with --with-script prints: a run of that
# script with -v whole=1, else one of an ending's script, which has the same lines in another order.
# Lines that a run refuses are left out. A task that waits is told without the task that it waits
# for.

# The lines of each task behind its ATTACH line.
FNR == NR {
    if (toupper($1) == "ATTACH") attached[toupper($2)] = 1
    else if (toupper($1) in attached) lines[toupper($1), ++count[toupper($1)]] = FNR
    next
}

/^>/ {
    task = toupper($2)
    number = whole ? ++read : lines[task, ++given[task]]
    next
}

$1 == "LISTING" { is_over = 1 }
is_over { if ($1 == "TASK") stands[$2] = $3; next }
$2 == "ATTACHED" { tasks[++all] = $1; stood[$1] = 1; next }
$2 == "REFUSED" || !($1 in attached) { next }
$2 == "WAITING" { waits[$1] = number; next }

{
    task = $1
    line = task in waits ? waits[task] : number
    delete waits[task]
    sub(/^[^ ]+ (WOKEN )?/, "")
    print "LINE " line " " task " " $0
    if ($1 == "ENDED") ends[task] = $1
    if ($1 == "ABEND") ends[task] = $1 " " $2
}

END {
    for (i = 1; i <= all; i++) {
        task = tasks[i]
        how = task in ends ? ends[task] : task in stands ? stands[task] : "SHUTDOWN"
        print "TASK " task " " how (how == "WAITING" ? " LINE " waits[task] : "")
    }
    # A report attaches first of all also those that come after a SHUTDOWN.
    for (task in attached) if (!(task in stood)) print "TASK " task " SHUTDOWN"
}
