# What tools/growth/run and the scripts of bench share: scripts of loads, and what a run of them
# takes. The caller has set $root, the repository's top, and sourced tools/parts.sh.

growth=$root/tools/growth
bench=$root/bench
script=$room/script

# Builds what counts memory, and what prints names that collide.
build_counters() {
    cc -O2 -Wall -Wextra -Werror -shared -fPIC -o "$room/count" "$growth/count.c" ||
        stop 'count.c was not built'
    cc -O2 -Wall -Wextra -Werror -o "$room/colliding" "$bench/colliding.c" ||
        stop 'colliding.c was not built'
}

# Prints the rows of bench/hostile, each as LOAD:COUNT:OPTION, or with the small count if so asked.
rows() {
    awk -v "is_small=${1+1}" '
        !/^#/ { print $1 ":" (is_small ? $3 : $2) ":" $4 }' "$bench/hostile"
}

# Takes apart a row LOAD:COUNT:OPTION, of which the last two may be left out.
take_row() {
    IFS=: read -r load count option <<- END
	$1
	END
    option=${option:---no-list}
    name=$load
    [ "$option" = --no-list ] || name="$load $option"
}

# Writes the script of $load with so many.
make_script() {
    case $load in colliding*) "$room/colliding" "$1" ;; esac > "$room/names"
    set -- -v "called=$load" -v "count=$1" -f
    if grep -q "^#   $load " "$bench/hostile.awk"; then
        set -- "$@" "$bench/lines.awk" -f "$bench/hostile.awk"
    elif grep -q "^#   $load " "$bench/told.awk"; then
        set -- "$@" "$bench/lines.awk" -f "$bench/told.awk"
    else
        set -- "$@" "$bench/loads.awk"
    fi
    awk "$@" < "$room/names" > "$script" || exit 1
}

# Runs the program with $option on the script: how many requests for memory it makes, and how many
# bytes it has at most.
count_memory() {
    rm -f -- "$room/counts"
    LD_PRELOAD=$room/count COUNT_REPORT=$room/counts "$program" "$option" < "$script" \
        > /dev/null 2> "$room/complaint"
    status=$?
    requests=0
    memory=0
    [ ! -e "$room/counts" ] || read -r requests memory < "$room/counts"
}

# Whether that run ended as it has to.
is_fine() {
    [ "$status" = 0 ] || [ "$option $status" = '--check 1' ]
}

# Runs the program with $option under valgrind: how many instructions it takes, 0 if it is ended
# because they are too many.
count_instructions() {
    instructions=$(timeout 300 valgrind --tool=cachegrind --cache-sim=no \
        --cachegrind-out-file=/dev/null "$program" "$option" < "$script" 2>&1 > /dev/null |
        awk '/ I +refs:/ { gsub(/,/, "", $NF); count = $NF } END { printf "%.0f", count }')
}

# The same of a script of nothing, with $option: $no_requests, $no_memory and $no_instructions.
count_nothing() {
    [ "$option" != "${nothing_of-}" ] || return 0
    nothing_of=$option
    : > "$script"
    count_memory
    no_requests=$requests
    no_memory=$memory
    [ -z "$counts_instructions" ] || count_instructions
    no_instructions=$instructions
}

# Prints the power of the count with which a number grows: that of a script of nothing, of some
# count, and of twice that.
power() {
    awk -v "none=$1" -v "once=$2" -v "twice=$3" 'BEGIN {
        if (once <= none || twice <= none) print "-"
        else printf "%.2f\n", log((twice - none) / (once - none)) / log(2)
    }'
}
