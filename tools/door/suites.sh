# How tools/door/run tries bin/cicsrun-test, and what bin/test says of a program that prints
# something else.

# A folder of scripts: nothing is recorded, all is recorded, a journal and a status differ, and what
# is no run is never recorded.
suites() {
    mkdir -p -- "$room/a suite/bin" "$room/a suite/none" || exit 1
    cp -- "$root/bin/cicsrun-test" "$room/a suite/bin" || exit 1
    ln -s -- "$(readlink -f -- "$program")" "$room/a suite/bin/cicsrun" || exit 1
    suite="$room/a suite/bin/cicsrun-test"
    cd -- "$room/a suite" && mkdir s || exit 1
    echo 'ATTACH T1 TRANSID(%TEST%)' | tr % "'" > s/attach.cics
    echo 'CLOCK x' > s/fault.cics
    printf -- '--no-list --strict' > s/refused.args
    echo 'CLOCK 5
CLOCK 4' > s/refused.cics
    attached="T1 ATTACHED 'TEST'
+LISTING
+TASK T1 IDLE
+exit status 0"
    try 'scripts without journals' "$suite" s
    wants 1 "s/attach.cics: no attach.journal: read what came, and record it with --accept
@@ -0,0 +1,4 @@
+$attached
s/fault.cics: no fault.journal: read what came, and record it with --accept
@@ -0,0 +1,2 @@
+LINE 1 FAULT 5 BadNumber
+exit status 1
$(bin/cicsrun s/fault.cics 2>&1 > /dev/null)
s/refused.cics: no refused.journal: read what came, and record it with --accept
@@ -0,0 +1,3 @@
+CLOCK 5
+CLOCK REFUSED 6 ClockBack
+exit status 5
s/refused.cics:2: CLOCK doesn't go back
cicsrun-test: 0 of 3 as recorded" ''
    try '--accept' "$suite" --accept s
    wants 0 's/attach.cics: recorded, exit status 0
s/fault.cics: recorded, exit status 1
s/refused.cics: recorded, exit status 5
cicsrun-test: 3 of 3 as recorded' ''
    [ "$(cat s/*.status | tr '\n' ' ')" = '1 5 ' ] || differs "the statuses are $(cat s/*.status)"
    as_recorded='s/fault.cics: as recorded, exit status 1
s/refused.cics: as recorded, exit status 5
cicsrun-test: 3 of 3 as recorded'
    try 'scripts as recorded' "$suite" s
    wants 0 "$as_recorded" ''
    rm s/fault.status
    echo '  and more' >> s/attach.journal
    echo 4 > s/refused.status
    echo 'CLOCK 6' >> s/refused.journal
    try 'a journal and a status that differ, and both' "$suite" s
    wants 1 "s/attach.journal: - is recorded, + came
@@ -1,5 +1,4 @@
 T1 ATTACHED 'TEST'
 LISTING
 TASK T1 IDLE
-  and more
 exit status 0
s/fault.status: - is recorded, + came
@@ -1,2 +1,2 @@
 LINE 1 FAULT 5 BadNumber
-exit status 0
+exit status 1
$(bin/cicsrun s/fault.cics 2>&1 > /dev/null)
s/refused.journal, s/refused.status: - is recorded, + came
@@ -1,4 +1,3 @@
 CLOCK 5
 CLOCK REFUSED 6 ClockBack
-CLOCK 6
-exit status 4
+exit status 5
s/refused.cics:2: CLOCK doesn't go back
cicsrun-test: 0 of 3 as recorded" ''
    echo 5 > s/refused.status
    echo --bad > s/refused.args
    try 'an option that cicsrun lacks' "$suite" --accept s
    [ "$status" = 1 ] && [ "$(cat s/refused.status)" = 5 ] && grep -q "'--bad'" "$room/out" ||
        differs "status $status: $(cat -- "$room/out")"
    wants_suite_usage
    odd_journals
    cd / || exit 1
}

# A journal whose script is gone, and one that is a folder.
odd_journals() {
    rm s/fault.* s/refused.*
    cp s/attach.cics s/other.cics
    mv s/attach.cics s/none.cics
    mkdir s/none.journal
    try '--accept of odd journals' "$suite" --accept s
    wants 1 's/none.journal is a folder
s/other.cics: recorded, exit status 0
s/attach.journal has no script
cicsrun-test: 1 of 3 as recorded' ''
    [ -z "$(ls -A s/none.journal)" ] || differs 'it wrote into the folder'
    try 'odd journals' "$suite" s
    wants 1 's/none.journal is a folder
s/attach.journal has no script
cicsrun-test: 1 of 3 as recorded' ''
}

# Fails unless bin/cicsrun-test refuses bad arguments, and prints its help.
wants_suite_usage() {
    while IFS='|' read -r words refusal; do
        try "bin/cicsrun-test with '$words'" "$suite" $words
        wants 2 '' "cicsrun-test: $refusal; try 'cicsrun-test --help'"
    done << 'END'
|name one folder of scripts
--accept|name one folder of scripts
--foo s|name one folder of scripts
s s|name one folder of scripts
s --accept|options stand before the folder
--accept s --help|options stand before the folder
--foo|--foo is no option
nosuch|nosuch is no folder
--accept s/fault.journal|s/fault.journal is no folder
s/fault.cics|s/fault.cics is a script: name its folder
END
    try 'a folder without scripts' "$suite" none
    wants 2 '' 'cicsrun-test: no script NAME.cics is in none'
    try 'the help of bin/cicsrun-test' "$suite" --help
    wants 0 "$(sed -n '2,/^set/s/^# \{0,1\}//p' "$root/bin/cicsrun-test")" ''
}

# Three scripts, of which one has no listing, with what bin/test needs, and with a program that has
# another word in its listing.
make_copy() {
    mkdir -p -- "$copy/bin" "$copy/tools" "$copy/crates/cicsrun/out" || exit 1
    cp -- "$root/bin/test" "$copy/bin" || exit 1
    cp -R -- "$root/tools/parts.sh" "$root/tools/scripts" "$copy/tools" || exit 1
    for each in $names; do
        mkdir -p -- "$copy/scripts/${each%/*}" || exit 1
        cp -- "$root/scripts/$each".* "$copy/scripts/${each%/*}" || exit 1
    done
    cp -R -- "$copy/scripts" "$room/scripts" || exit 1
    cat > "$copy/crates/cicsrun/out/cicsrun" << END
#!/bin/sh
'$(readlink -f -- "$program")' "\$@" > "\$0.\$\$"
status=\$?
sed 's/^LISTING\$/LISTED/' "\$0.\$\$" && rm -- "\$0.\$\$"
exit "\$status"
END
    chmod +x -- "$copy/crates/cicsrun/out/cicsrun" || exit 1
}

# Fails unless bin/test passes on three scripts, and first writes this text.
wants_passed() {
    [ "$status" = 0 ] && [ ! -s "$room/said" ] &&
        [ "$(sed 's/ok, [0-9]* runs/ok/' "$room/out")" = "${1}test: ok of 3 scripts" ] ||
        differs "status $status, it wrote: $(cat -- "$room/out" "$room/said")"
}

# bin/test names each script whose listing differs. --accept writes that word beside them, and
# nothing else.
acceptance() {
    copy="$room/a copy"
    names='told/handled queues/ts-shared lines/definition-too-late'
    make_copy
    try 'bin/test, and a word of the listing differs' "$copy/bin/test" --built $names
    named=$(sed -n 's/^test: \(scripts[^ ]*\).*/\1/p' "$room/said" | sort -u | tr '\n' ' ')
    [ "$status $named" = '1 scripts/queues/ts-shared scripts/told/handled ' ] ||
        differs "status $status, it named $named"
    try 'bin/test --accept' "$copy/bin/test" --built --accept $names
    wants_passed 'test: 2 files written: look at git diff
'
    try 'bin/test behind --accept' "$copy/bin/test" --built $names
    wants_passed ''
    [ "$(diff -r "$room/scripts" "$copy/scripts" | grep -v '^diff \|^[0-9]*c[0-9]*$')" = '< LISTING
---
> LISTED
< LISTING
---
> LISTED' ] || differs "the scripts differ: $(diff -r "$room/scripts" "$copy/scripts")"
}
