# What bin/cicsrun, bin/build, bin/install-cicsrun and .ci/run share. The caller has set $root, the
# repository's top.

program=$root/crates/cicsrun/out/cicsrun
# The checksum of the sources from which $program was proved and built.
built_from=$root/crates/cicsrun/out/built-from
toolchain='rt, the command of the Rattle toolchain'

# Ends the script with one line on standard error: the exit status, and the line.
stop() {
    echo "cicsrun: $2" >&2
    exit "$1"
}

# Ends the script with what its first comment says: the exit status.
usage() {
    sed -n '2,/^set/s/^# \{0,1\}//p' -- "$0"
    exit "$1"
}

# Ends the script with its usage if the first argument asks for help.
answer_help() {
    case ${1-} in
    -h | --help) usage 0 ;;
    esac
}

# Prints the crates that the program stands on, each after those that it stands on itself, and
# the program last.
crates() {
    awk -F: '
        function visit(name,    below, count, each) {
            if (!(name in stands_on) || (name in seen)) return
            seen[name]
            count = split(stands_on[name], below, " ")
            for (each = 1; each <= count; each++) visit(below[each])
            print name
        }
        { stands_on[$1] = $2 }
        END { visit("cicsrun") }' "$root/crates.txt"
}

# Prints a checksum of all that the program is proved and built from.
sources() (
    cd -- "$root" || exit
    {
        echo crates.txt
        for crate in $(crates); do
            find "crates/$crate/src" "crates/$crate/specs" "crates/$crate/proofs" -type f \
                2> /dev/null
        done
    } | LC_ALL=C sort | xargs sha256sum | sha256sum | cut -c1-64
)

# Whether the program stands there, built from these very sources.
is_built() {
    [ -x "$program" ] && [ -r "$built_from" ] && [ "$(cat -- "$built_from")" = "$(sources)" ]
}
