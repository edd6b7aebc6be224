# How bin/test makes the runs of $room/list, and how it compares what came: $room/came/NUMBER has
# what a run printed, NUMBER.said what it said, NUMBER.status its status.

accepted=0
trying=
trap 'end_try; rm -rf -- "$room"' EXIT
trap 'exit 130' INT TERM HUP
mkdir -p "$room/came"

# Makes each run by the program that was taken, as many side by side as there are processors. The
# runs of orders take longest, so they are the first.
run_all() {
    rm -rf -- "$room/came" && mkdir "$room/came" || stop 'no folder for the runs'
    { grep -e ' --orders' "$room/list"; grep -v -e ' --orders' "$room/list"; } | cut -d '|' -f 1 |
        xargs -n 1 -P "$(nproc)" sh "$root/tools/scripts/one.sh" "$program" "$room"
}

# Makes each run again, and reads a byte at a time.
read_by_bytes() {
    cc -O2 -Wall -Wextra -Werror -shared -fPIC -o "$room/streams" \
        "$root/tools/hostile/streams.c" || stop 'streams.c was not built'
    cat > "$room/by-bytes" << END
#!/bin/sh
LD_PRELOAD='$room/streams' STREAMS_READ_MOST=1 exec '$program' "\$@"
END
    chmod +x "$room/by-bytes"
    program=$room/by-bytes run_all
}

# Prints a script whose orders it takes hours to follow.
endless() {
    awk 'BEGIN {
        for (task = 1; task <= 8; task++) print "ATTACH T" task " TRANSID(\047MOVE\047)"
        for (row = 1; row <= 8; row++) for (task = 1; task <= 8; task++)
            print "T" task " EXEC CICS WRITEQ TS QUEUE(\047Q" task "\047) FROM(\047" row "\047)"
    }'
}

# Begins to compile the program by rt try, with checks. rt try itself needs two seconds for each
# run. So it makes one alone, of a script that takes hours, and its program is copied meanwhile.
begin_try() {
    command -v rt > /dev/null || stop 'rt, the command of the Rattle toolchain, is not on the PATH'
    mkdir "$room/try" "$room/endless"
    endless > "$room/endless/1"
    echo --orders > "$room/endless/1.args"
    (cd -- "$root/crates/cicsrun" && TMPDIR=$room/try exec rt try --steps 1 --seconds 60 \
        --cases "$room/endless") > /dev/null 2> "$room/reported" &
    trying=$!
}

# Ends rt try, and what it runs, if it runs.
end_try() {
    [ -n "$trying" ] || return 0
    kill "$trying" 2> /dev/null
    wait "$trying"
    trying=
}

# Takes the program that begin_try compiles. It is whole when its run has a file for what it prints.
take_tried() {
    until begun=$(find "$room/try" -name stdout) && [ -n "$begun" ]; do
        kill -0 "$trying" 2> /dev/null || {
            tail -n 20 "$room/reported" >&2
            stop 'rt try gave no program, and says why above'
        }
        sleep 1
    done
    program=$room/tried
    cp -- "${begun%stdout}program" "$program" || stop 'the program of rt try was not copied'
    end_try
}

# Prints a file, with LF at its end.
ended() {
    cat -- "$1" && { [ ! -s "$1" ] || [ -z "$(tail -c 1 -- "$1")" ] || echo; }
}

# Prints the data of a page, or, with a second argument, what stands around it.
page_data() {
    awk -v "around=${2-}" '/^<title>/ { inside = 1 } /^<template>$/ { inside = 0 }
        around == "" ? inside : !inside' "$1"
}

# Compares what a run printed with the file $wanted, by the row's way: all of it, all but the lines
# of the script, the data of a page, the end of a picture or of a page's lines with the fault, or
# the fault of the last line. What stands around the data has to be that of a whole page.
is_printed() {
    case $way in
    none) return 0 ;;
    fault)
        tail -n 1 "$came" | grep -Eq -e "^LINE $wanted (FAULT|DEFINE) [1-9] [A-Za-z]+\$"
        return
        ;;
    last)
        grep -q -e ">$(tail -n 1 "$wanted")</text></g></svg>\$" "$came"
        return
        ;;
    step)
        grep -A 3 -F -x -e "<samp>$(tail -n 1 "$wanted")</samp>" "$came" | tr '\n' ' ' |
            grep -q -e '</samp> </div></li> </ol> <template> $'
        return
        ;;
    unshown) sed '/^> /d' "$came" > "$room/unshown" && came=$room/unshown ;;
    data)
        page_data "$root/examples/deadlock.html" around > "$room/left"
        page_data "$came" around > "$room/right"
        cmp -s "$room/left" "$room/right" || return
        page_data "$came" > "$room/data" && came=$room/data
        ;;
    esac
    # (most are the same to the byte, and this is the quick look)
    cmp -s "$wanted" "$came" ||
        { ended "$wanted" > "$room/left" && ended "$came" > "$room/right" &&
            cmp -s "$room/left" "$room/right"; }
}

# Compares what a run said on standard error: that of the file, a message on a faulty line, or of a
# mended line no more than that a label or a name of it isn't there.
is_said() {
    case $told in
    advice)
        read -r line < "$came.said" && [ "$line" != "${line#cicsrun: line }" ] &&
            [ "$(wc -l < "$came.said")" -le 3 ]
        ;;
    mended) ! grep -v -e ' was never attached$' -e " isn't defined\$" "$came.said" > /dev/null ;;
    *)
        [ -e "$told" ] || told=/dev/null
        cmp -s "$told" "$came.said"
        ;;
    esac
}

# Writes what a run printed and said in place of what stands beside its script.
accept_run() {
    case $way:$wanted in
    same:"$room"/*) ;;
    same:* | data:*)
        [ "$way" = same ] || { page_data "$came" > "$room/data" && came=$room/data; }
        ! [ -s "$wanted" ] || [ -z "$(tail -c 1 -- "$wanted")" ] || chop=1
        cmp -s "$came" "$wanted" || {
            if [ -n "${chop-}" ]; then
                printf '%s' "$(cat -- "$came")" > "$wanted"
            else
                cp -- "$came" "$wanted"
            fi
            accepted=$((accepted + 1))
        }
        chop=
        ;;
    esac
    case $told in
    advice | mended | /dev/null | "$room"/*) ;;
    *) cmp -s "$came.said" "$told" || {
        if [ -s "$came.said" ]; then cp -- "$came.said" "$told"; else rm -- "$told"; fi
        accepted=$((accepted + 1))
    } ;;
    esac
}

# Whether a run ended, printed and said what it has to.
is_as_wanted() {
    came=$whole
    [ "$came_status" = "$status" ] && is_printed && came=$whole && is_said
}

# Shows how a run differs.
show_difference() {
    fail "$title"
    [ "$came_status" = "$status" ] || echo "  ended with status $came_status, wanted $status" >&2
    came=$whole
    is_printed || case $way in
    same | unshown | data) diff -u -L wanted -L came "$room/left" "$room/right" >&2 ;;
    *) tail -n 3 "$came" >&2 ;;
    esac
    came=$whole
    is_said || case $told in
    advice) cat -- "$came.said" >&2 ;;
    *) diff -u -L 'wanted on standard error' -L came "$told" "$came.said" >&2 ;;
    esac
}

# Compares all runs, and shows each that differs. Accepted is only what stands in a file beside the
# script, and no other status.
compare_all() {
    while IFS='|' read -r number title status wanted way told; do
        came=$room/came/$number
        [ -f "$came" ] || : > "$came"
        [ -f "$came.said" ] || : > "$came.said"
        came_status=none
        [ ! -f "$came.status" ] || read -r came_status < "$came.status"
        whole=$came
        ! is_as_wanted || continue
        if [ -n "$accept" ] && [ "$came_status" = "$status" ]; then
            came=$whole
            accept_run
            ! is_as_wanted || continue
        fi
        show_difference
    done < "$room/list"
}
