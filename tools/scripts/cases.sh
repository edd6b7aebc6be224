# The runs that bin/test makes: a row in $room/list for each, with | between its parts: number,
# title, status, the file of what it prints, how that is compared, and the file of what it says.
# Its standard input is $room/cases/NUMBER, its options are in NUMBER.args, one a line.

count=0
scripts=0
mkdir -p "$room/cases" "$room/wanted"
: > "$room/wanted/nothing"
: > "$room/list"
echo 'cicsrun: endings that differ only in what tasks were answered count as one;' \
    '--told tells them apart' > "$room/untold"

# Adds a run: its script, the row's parts but the number, and the options.
add_case() {
    count=$((count + 1))
    number=$(printf '%04d' "$count")
    cp -- "$1" "$room/cases/$number" || exit 1
    echo "$number|$2|$3|$4|$5|$6" >> "$room/list"
    shift 6
    [ $# = 0 ] || printf '%s\n' "$@" > "$room/cases/$number.args"
}

# Whether a run with --strict of a journal finds something amiss: a refusal, an abend by a
# condition or a time-out, a task that still waits, or reads that saw or missed what wasn't
# committed.
is_amiss() {
    grep -Eq -e '^[^ ]+ (WOKEN )?(REFUSED [0-9]|ABEND (AKCS$|[A-Z]{4} [A-Z]+ [0-9]+$))' \
        -e '^TASK [^ ]+ WAITING$' -e '^DIRTY READ .* (BACKED OUT|OPEN)$' \
        -e '^(LOST UPDATE|READ SKEW|WRITE SKEW) ' "$1"
}

# Prints what a strict run says of the findings in what --reads prints.
found_lines() {
    awk 'function step(at) { return "line " $(at + 1) " of " $(at + 2) }
        !/^(DIRTY READ|LOST UPDATE|READ SKEW|WRITE SKEW) / || / COMMITTED$/ { next }
        ++found > 64 { next }
        {
            did = tolower($6)
            rest = ", and " step(11) " " tolower($14) " " step(15)
            if (/ BACKED OUT$/) rest = ", which was backed out"
            if (/ OPEN$/) rest = ", which is still open"
            print "cicsrun: line " $4 ": " $1 " " $2 ": " $5 " " did " " step(7) rest
        }
        END { if (found > 64) print "cicsrun: and " (found - 64) " more" }' "$1"
}

# The runs of one script, by the files beside it.
add_script() {
    base=${1%.cics}
    title=${base#"$root/"}
    said=/dev/null
    [ ! -f "$base.said" ] || said=$base.said
    if [ -f "$base.journal" ]; then
        add_case "$1" "$title" 0 "$base.journal" same "$said"
        strict=0
        ! is_amiss "$base.journal" || strict=5
        strict_said=$said
        [ ! -f "$base.strict" ] || strict_said=$base.strict
        add_case "$1" "$title --strict" "$strict" "$base.journal" same "$strict_said" --strict
        [ ! -f "$base.why" ] ||
            add_case "$1" "$title --why" 0 "$base.journal" same "$base.why" --why
        add_case "$1" "$title --with-script" 0 "$base.journal" unshown "$said" --with-script
    fi
    if [ -f "$base.fault" ]; then
        of_fault=advice
        [ ! -f "$base.said" ] || of_fault=$said
        add_case "$1" "$title" 1 "$base.fault" same "$of_fault"
        add_case "$1" "$title --with-script" 1 "$base.fault" unshown "$of_fault" --with-script
        # A picture and a page tell of the faulty line alone.
        if [ -f "$base.said" ]; then
            of_fault=$room/wanted/fault-of-$count
            tail -n 3 "$base.said" > "$of_fault"
        fi
        add_case "$1" "$title --picture" 1 "$base.fault" last "$of_fault" --picture
        add_case "$1" "$title --page" 1 "$base.fault" step "$of_fault" --page
    fi
    if [ -f "$base.replay" ]; then
        add_case "$1" "$title --replay" 0 "$base.replay" same "$said" --replay
        add_case "$1" "$title --replay --with-script" 0 "$base.replay" unshown "$said" --replay \
            --with-script
    fi
    checked=/dev/null
    [ ! -f "$base.checked" ] || checked=$base.checked
    [ ! -f "$base.journal" ] ||
        add_case "$1" "$title --check" 0 "$room/wanted/nothing" same "$checked" --check
    if [ -f "$base.fault" ] && [ -f "$base.said" ] && [ ! -f "$base.checked" ]; then
        checked=$room/wanted/check-of-$count
        { tail -n 3 "$base.said" && echo 'cicsrun: 1 line is at fault'; } > "$checked"
    fi
    [ ! -f "$base.fault" ] || [ "$checked" = /dev/null ] ||
        add_case "$1" "$title --check" 1 "$room/wanted/nothing" same "$checked" --check
    [ ! -f "$base.shown" ] ||
        add_case "$1" "$title --with-script" 0 "$base.shown" same "$said" --with-script
    [ ! -f "$base.serial" ] ||
        add_case "$1" "$title --serial" 0 "$base.serial" same /dev/null --serial
    if [ -f "$base.reads" ]; then
        add_case "$1" "$title --reads" 0 "$base.reads" same "$said" --reads
        strict=0
        ! is_amiss "$base.reads" || strict=5
        strict_said=$room/wanted/reads-$count
        {
            if [ -f "$base.strict" ]; then cat -- "$base.strict"; else cat -- "$said"; fi
            found_lines "$base.reads"
        } > "$strict_said"
        add_case "$1" "$title --reads --strict" "$strict" "$base.reads" same "$strict_said" \
            --reads --strict
    fi
    [ ! -f "$base.svg" ] ||
        add_case "$1" "$title --picture" 0 "$base.svg" same /dev/null --picture
    [ ! -f "$base.html" ] ||
        add_case "$1" "$title --page" 0 "$base.html" same /dev/null --page
    [ ! -f "$base.page" ] ||
        add_case "$1" "$title --page" 0 "$base.page" data /dev/null --page
    [ ! -f "$base.orders" ] ||
        add_case "$1" "$title --orders --told" 0 "$base.orders" same /dev/null --orders --told
    [ ! -f "$base.report" ] || add_report "$1"
    scripts=$((scripts + 1))
}

# The report on the orders of a script's lines, with the options beside it.
add_report() {
    words=
    [ ! -f "$base.args" ] || words=$(cat -- "$base.args")
    status=0
    ! grep -q '^LINE [0-9]* \(FAULT\|DEFINE\) ' "$base.report" || status=1
    case "$status $words" in
    1* | *--told* | *--ending*) ;;
    *) said=$room/untold ;;
    esac
    # shellcheck disable=SC2086 # words are options
    add_case "$1" "$title --orders $words" "$status" "$base.report" same "$said" --orders $words
    ! grep -Eq '^ENDING .*( SERIAL 0| DEADLOCK)( |$)' "$base.report" || status=5
    strict_said=$room/wanted/strict-$count
    {
        cat -- "$said"
        awk '/^ENDING .* DEADLOCK( |$)/ { print "cicsrun: ending " $2 " is a deadlock"; exit }
            /^ENDING .* SERIAL 0( |$)/ { print "cicsrun: ending " $2 " has no serial order"; exit }
            ' "$base.report"
    } > "$strict_said"
    # shellcheck disable=SC2086
    add_case "$1" "$title --orders --strict $words" "$status" "$base.report" same \
        "$strict_said" --orders --strict $words
}

# A run for each faulty line.
add_faults() {
    row=0
    while IFS='|' read -r fault line; do
        row=$((row + 1))
        case $fault in '#'*) continue ;; esac
        printf '%s' "$line" > "$room/script"
        echo "LINE 1 FAULT $fault" > "$room/wanted/fault-$row"
        add_case "$room/script" "scripts/lines/faults, line $row" 1 "$room/wanted/fault-$row" same \
            advice
        scripts=$((scripts + 1))
    done < "$root/scripts/lines/faults"
}

# What is said of the script's last line: its column, the message, the line as it is shown, and a
# caret in that column. Of a wider line 100 columns are shown, 70 of them up to the caret, or more
# near the line's end.
advice() {
    bytes=$(tail -n 1 "$room/script" | tr -d '\n' | wc -c)
    most=$(((bytes > $1 ? bytes : $1) - 100))
    start=$(($1 - 70 < most ? $1 - 70 : most))
    [ "$start" -gt 0 ] || start=0
    printf 'cicsrun: line %s, column %s: %s\n' "$(wc -l < "$room/script")" "$1" "$2"
    tail -n 1 "$room/script" | tr '\t' ' ' | tr -c ' -~\n' '?' |
        cut -c"$((start + 1))-$((start + 100))"
    printf '%*s\n' "$(($1 - start))" '^'
}

# The runs of a script whose last line is faulty, and of the script as the message mends it.
add_advice() {
    row=0
    while IFS='|' read -r column message text mended; do
        row=$((row + 1))
        case $column in '#'*) continue ;; esac
        title="scripts/told/advice, line $row"
        printf '%b\n' "$text" > "$room/script"
        advice "$column" "$message" > "$room/wanted/advice-$row"
        add_case "$room/script" "$title" 1 "$(wc -l < "$room/script" | tr -d ' ')" fault \
            "$room/wanted/advice-$row"
        scripts=$((scripts + 1))
        [ -n "$mended" ] || continue
        printf '%b\n' "$mended" > "$room/script"
        add_case "$room/script" "$title, mended" 0 "$room/wanted/nothing" same mended --check
    done < "$root/scripts/told/advice"
    printf '%70001s\n' '' > "$room/script"
    echo 'cicsrun: line 1: a line has at most 70,000 bytes' > "$room/wanted/advice-long"
    add_case "$room/script" 'a line of 70,001 bytes' 1 1 fault "$room/wanted/advice-long"
}

# An item that is longer than one may be.
add_long_item() {
    printf "ATTACH T1 TRANSID('AAAA')\nT1 EXEC CICS WRITEQ TS QUEUE('PAD') FROM('%32768s')\n" '' \
        > "$room/script"
    printf '%s\n' "T1 ATTACHED 'AAAA'" 'T1 ABEND AEIV LENGERR 22' LISTING > "$room/wanted/long-item"
    echo 'cicsrun: line 2: LENGERR: what is written has 32768 bytes, not 1 to 32767' \
        > "$room/wanted/long-item-said"
    add_case "$room/script" 'an item of 32,768 bytes' 0 "$room/wanted/long-item" same \
        "$room/wanted/long-item-said"
}

# The run of a script that a document shows beside what it prints: the document, and with what the
# right column begins. Options follow.
add_shown() {
    shown=$room/wanted/shown-$count
    : > "$room/script"
    awk -v start="$2" -v script="$room/script" '
        !column && (column = index($0, start)) && /^the script / { next }
        column && /^ *```/ { exit }
        column {
            line = substr($0, 1, column - 1)
            gsub(/^ +| +$/, "", line)
            if (line != "") print line > script
            line = substr($0, column)
            if (line != "") print line
        }' "$root/$1" > "$shown"
    [ -s "$room/script" ] && [ -s "$shown" ] || stop "$1 shows no script beside what it prints"
    title="the script in $1"
    shift 2
    add_case "$room/script" "$title" 0 "$shown" same /dev/null "$@"
    scripts=$((scripts + 1))
}

# Whether a script has one of these names, or none is given.
is_asked() {
    title=${1%.cics}
    shift
    [ $# -gt 0 ] || return 0
    for name; do
        case $title in */"$name") return 0 ;; esac
    done
    return 1
}

# All runs, or those of the scripts of these names.
make_cases() {
    for script in "$root"/scripts/*/*.cics "$root"/scripts/told/*/*.cics \
        "$root"/examples/*.cics; do
        ! is_asked "$script" "$@" || add_script "$script"
    done
    [ $# -eq 0 ] || return 0
    add_faults
    add_advice
    add_long_item
    add_shown README.md 'what cicsrun prints'
    add_shown docs/RULES.md "T1 ATTACHED 'AAAA'" --no-list
    add_shown docs/USING.md 'what cicsrun prints' --no-list
}
