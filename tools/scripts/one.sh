# Makes one run of bin/test, by `sh one.sh PROGRAM ROOM NUMBER`. ROOM/came/NUMBER has what it
# printed, NUMBER.said what it said, NUMBER.status its status.
program=$1
room=$2
number=$3
came=$room/came/$number
set --
[ ! -f "$room/cases/$number.args" ] || while read -r word; do
    set -- "$@" "$word"
done < "$room/cases/$number.args"
"$program" "$@" < "$room/cases/$number" > "$came" 2> "$came.said"
echo "$?" > "$came.status"
