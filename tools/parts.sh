# What the tools share. The caller has set $root, the repository's top, and $tool, its own name.

# The program that they try.
program=$root/crates/cicsrun/out/cicsrun
room=$(mktemp -d) || exit 1
trap 'rm -rf -- "$room"' EXIT
failures=0
LC_ALL=C
export LC_ALL

# Says what failed, in one line, and continues.
fail() {
    echo "$tool: $*" >&2
    failures=$((failures + 1))
}

# Ends the tool with 1, and one line that says why.
stop() {
    echo "$tool: $*" >&2
    exit 1
}

# Ends the tool: with 1 if anything failed, or else with one line of what it did.
finish() {
    [ "$failures" = 0 ] || stop "$failures failed"
    echo "$tool: ok, $*"
}

# Takes PROGRAM, the first argument, in place of the built one, and stops if it isn't there.
take_program() {
    program=${1:-$program}
    [ -x "$program" ] || stop "$program is not built"
}
