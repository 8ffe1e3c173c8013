#!/bin/sh
# The program's statuses and what it prints, from outside: 0, 1 and 2, also where a file, a folder or the
# output is no good. The argument is the program; else it is the one that ./hidreport runs.
set -eu
export LC_ALL=C

top=$(cd "$(dirname "$0")/../.." && pwd)
crate="$top/crates/hidreport_main"
mouse="$crate/data/mouse.rdesc"
report="$crate/data/mouse.report"
scratch=$(mktemp -d)
trap 'rm -rf "$scratch"' EXIT

[ $# -gt 0 ] || make -s -C "$top" run-hidreport
program=${1-$top/build/run/hidreport}
if [ ! -x "$program" ]; then
    echo "statuses: no program $program" >&2
    exit 2
fi

usage='usage: hidreport items FILE | values FILE REPORT | values-within LIMIT FILE REPORT | '
usage="${usage}values-globals FILE REPORT | values-globals-within LIMIT FILE REPORT | rebuild FILE"
passed=0

# What is shown, the status and the one line that are wanted, and the words; the output is $scratch/out where it isn't told.
shows() {
    name=$1
    wanted=$2
    line=$3
    shift 3
    status=0
    "$program" "$@" > "$scratch/out" 2> "$scratch/errors" < "$report" || status=$?
    printf '%s\n' "$line" > "$scratch/wanted"
    judge "$name" "$wanted" "$scratch/wanted" "$scratch/out"
}

judge() {
    if [ "$status" != "$2" ] || ! cmp -s "$3" "$4" || [ -s "$scratch/errors" ]; then
        echo "statuses: $1: status $status in place of $2, and the output:" >&2
        cat "$4" "$scratch/errors" >&2
        exit 1
    fi
    passed=$((passed + 1))
}

# The same where the output takes nothing: only the status tells.
fails_to_write() {
    name=$1
    shift
    : > "$scratch/none"
    if [ -c /dev/full ]; then
        status=0
        "$program" "$@" > /dev/full 2> "$scratch/errors" || status=$?
        judge "$name on a full device" 2 "$scratch/none" "$scratch/none"
    fi
    status=0
    "$program" "$@" >&- 2> "$scratch/errors" || status=$?
    judge "$name with a closed output" 2 "$scratch/none" "$scratch/none"
}

cd "$scratch"
: > empty
printf '\005' > cut
printf '\005\001' > page
printf '\304\374' > reserved
mkdir folder

status=0
"$program" values "$mouse" "$report" > out 2> errors || status=$?
judge 'values' 0 "$crate/stdout" out
shows 'a refused descriptor' 1 'refused: invalid data at offset 0: Insufficient data' values cut "$report"
shows 'an empty descriptor' 1 'refused: invalid data at offset 0: Empty report descriptor' values empty "$report"
shows 'no report' 1 'refused: no report' values "$mouse" empty
status=0
"$program" values-within 2 "$mouse" "$report" > out 2> errors || status=$?
judge 'values within a limit' 0 "$crate/stdout" out
shows 'values past a limit' 1 'refused: budget exceeded at offset 14' values-within 001 "$mouse" "$report"
shows 'a limit with a sign' 2 "$usage" values-within +5 "$mouse" "$report"
shows 'an empty limit' 2 "$usage" values-within '' "$mouse" "$report"
shows 'a limit past all numbers' 2 "$usage" values-within 18446744073709551616 "$mouse" "$report"
shows 'a limit alone' 2 "$usage" values-within 5 "$mouse"
status=0
"$program" values-globals "$mouse" "$report" > out 2> errors || status=$?
judge 'values where a Push keeps globals' 0 "$crate/stdout" out
shows 'a refused descriptor where a Push keeps globals' 1 'refused: invalid data at offset 0: Insufficient data' values-globals cut "$report"
shows 'values where a Push keeps globals, of one file' 2 "$usage" values-globals "$mouse"
# A usage that was used up inside a Push comes back where locals are kept, and doesn't where globals alone are.
printf '\005\001\011\060\025\000\045\177\165\010\225\001\244\201\002\264\201\002' > used
shows 'values where the readings differ' 0 'report -- 16
0..8 variable 00010030 5
8..16 variable 00010030 251' values used "$report"
shows 'the same where a Push keeps globals' 1 'refused: invalid data at offset 16: Missing Usages for main item' values-globals used "$report"
shows 'both, within a limit' 1 'refused: budget exceeded at offset 13' values-globals-within 0 used "$report"
shows 'both, within enough' 1 'refused: invalid data at offset 16: Missing Usages for main item' values-globals-within 2 used "$report"
shows 'both, without a limit' 2 "$usage" values-globals-within used "$report"
shows 'the same within a limit' 0 'report -- 16
0..8 variable 00010030 5
8..16 variable 00010030 251' values-within 2 used "$report"
shows 'a limit of 0' 1 'refused: budget exceeded at offset 14' values-within 0 "$mouse" "$report"
shows 'a limit of 0 and no field' 1 'refused: no report' values-within 0 page "$report"
shows 'one file for both' 0 'report -- 16
0..8 variable 00010030 5
8..16 variable 00010031 1' values "$mouse" "$mouse"
shows 'a file without a name' 2 'fault: open' values '' "$report"
shows 'a report without a name' 2 'fault: open' values "$mouse" ''
shows 'an empty word behind others' 2 "$usage" values "$mouse" "$report" ''
shows 'an empty word before others' 2 "$usage" '' values "$mouse" "$report"
shows 'an empty word in place of a command' 2 "$usage" '' "$mouse" "$report"
shows 'items' 0 '0 05 01 UsagePage' items page
shows 'items of a refused descriptor' 1 'refused: invalid data at offset 0: Insufficient data' items cut
shows 'items of no bytes' 1 'refused: invalid data at offset 0: Insufficient data' items empty
shows 'rebuild' 0 '05 01 15 81 25 7f 75 08 95 02 09 30 09 31 81 02' rebuild "$mouse"
shows 'rebuild of what is never kept' 0 '' rebuild reserved
shows 'rebuild of a refused descriptor' 1 'refused: invalid data at offset 0: Insufficient data' rebuild cut
shows 'no words' 2 "$usage"
shows 'items of nothing' 2 "$usage" items
shows 'items of two files' 2 "$usage" items "$mouse" "$report"
shows 'rebuild of nothing' 2 "$usage" rebuild
shows 'rebuild of two files' 2 "$usage" rebuild "$mouse" "$report"
shows 'a word too few' 2 "$usage" values "$mouse"
shows 'a word too many' 2 "$usage" values "$mouse" "$report" "$report"
shows 'an unknown word' 2 "$usage" value "$mouse" "$report"
shows 'another case' 2 "$usage" VALUES "$mouse" "$report"
shows 'a word for help' 2 "$usage" --help
shows 'a missing descriptor' 2 'fault: open' values missing "$report"
shows 'a missing report' 2 'fault: open' values "$mouse" missing
shows 'items of a missing file' 2 'fault: open' items missing
shows 'rebuild of a missing file' 2 'fault: open' rebuild missing
shows 'items of a folder' 2 'fault: read' items folder
shows 'wrong words before missing files' 2 "$usage" values missing missing missing
shows 'a folder for a descriptor' 2 'fault: read' values folder "$report"
shows 'a folder for a report' 2 'fault: read' values "$mouse" folder
shows 'a descriptor without end, within a limit' 2 'fault: read' values-within 65536 /dev/zero "$report"
shows 'the same where a Push keeps globals' 2 'fault: read' values-globals-within 65536 /dev/zero "$report"
shows 'a report without end, within a limit' 2 'fault: read' values-within 65536 "$mouse" /dev/zero
shows 'the same where a Push keeps globals' 2 'fault: read' values-globals-within 65536 "$mouse" /dev/zero
head -c 65536 /dev/zero | tr '\0' '\304' > reserved_items
shows 'as many bytes as are read of a descriptor' 1 'refused: no report' values-within 0 reserved_items "$report"
shows 'no file named -, though there is an input' 2 'fault: open' values "$mouse" -
cp "$report" ./-
status=0
"$program" values "$mouse" - > out 2> errors < empty || status=$?
judge 'a file named -' 0 "$crate/stdout" out
fails_to_write 'values' values "$mouse" "$report"
fails_to_write 'items' items "$mouse"
fails_to_write 'rebuild' rebuild "$mouse"
fails_to_write 'a refusal' values cut "$report"
fails_to_write 'wrong words' values
fails_to_write 'a missing file' values missing "$report"
echo "statuses: $passed as they should be"
