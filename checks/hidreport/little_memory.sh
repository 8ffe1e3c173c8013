#!/bin/sh
# Two short descriptors that ask for much are answered within seconds and 100 MB: one of 2^32 - 1
# fields is refused for want of memory, and one of collections over 2^24 usages, in which no field
# lies, has no reports. Within a limit of 65,536 files are answered in 64 MB and a second: those
# that ask for much, 64 KB of one item, ones of more than 1 MiB, and ones without end. `items` and
# `rebuild` of 64 KB are, too.
# The argument, if any, is the program to look at; else the one that ./hidreport runs.
set -eu
export LC_ALL=C

top=$(cd "$(dirname "$0")/../.." && pwd)
program=${1:-"$top/build/run/hidreport"}
if [ ! -x "$program" ]; then
    echo "little_memory: no program $program" >&2
    exit 2
fi
scratch=$(mktemp -d)
answers=0
trap 'rm -rf "$scratch"' EXIT
printf '\001' > "$scratch/report"

# The kilobytes, the status and the line that are wanted, and the words.
answers() {
    kilobytes=$1
    wanted=$2
    printf '%s\n' "$3" > "$scratch/wanted"
    shift 3
    answers=$((answers + 1))
    status=0
    (ulimit -v "$kilobytes" && timeout "$seconds" "$program" "$@") > "$scratch/out" 2>&1 || status=$?
    if [ "$status" -ne "$wanted" ] || ! cmp -s "$scratch/wanted" "$scratch/out"; then
        echo "little_memory: $* ended with $status and:" >&2
        cat "$scratch/out" >&2
        exit 1
    fi
}

printf '\005\001\011\060\165\001\227\377\377\377\377\201\002' > "$scratch/fields"
printf '\005\001\033\000\000\000\000\053\377\377\377\000' > "$scratch/collections"
n=0
while [ "$n" -lt 1020 ]; do
    printf '\244\241\000\264'
    n=$((n + 1))
done >> "$scratch/collections"

# A file of so many times what is printed.
again() {
    name=$1
    times=$2
    n=0
    while [ "$n" -lt "$times" ]; do
        printf "$3"
        n=$((n + 1))
    done > "$scratch/$name"
}

head -c 65536 /dev/zero | tr '\0' '\244' > "$scratch/pushes"
head -c 1048577 /dev/zero | tr '\0' '\244' > "$scratch/long"
head -c 65536 /dev/zero > "$scratch/zeros"
again usages 32768 '\011\060'
again opened 32768 '\241\000'
again global_in_push 32768 '\244\024'
again ended_in_push 13107 '\244\011\060\261\002'
# Usages, and a feature in each of many segments behind them, in which all are in force.
again many_usages 16380 '\011\060'
again many_segments 8190 '\244\261\002\264'
{
    printf '\005\001\165\001\225\001'
    cat "$scratch/many_usages" "$scratch/many_segments"
} > "$scratch/segments"
again long_items 16384 '\376\001\000\000'
# A real pen whose first count, 95 at 18, is the header 97 of four bytes.
pen="$top/crates/hidreport_main/data/pen.rdesc"
{ head -c 18 "$pen"; printf '\227'; tail -c +20 "$pen"; } > "$scratch/pen"
mkfifo "$scratch/fifo"

case $program in
    /*) ;;
    *) program=$PWD/$program ;;
esac
cd "$scratch"
seconds=5
answers 100000 2 'fault: memory' values fields report
answers 100000 1 'refused: no report' values collections report
seconds=1
for command in values-within values-globals-within; do
    answers 64000 1 'refused: budget exceeded at offset 11' "$command" 65536 fields report
    answers 64000 1 'refused: budget exceeded at offset 13' "$command" 65536 collections report
    answers 64000 1 'refused: budget exceeded at offset 44' "$command" 65536 pen report
    for file in pushes usages opened global_in_push ended_in_push long_items; do
        answers 64000 1 'refused: no report' "$command" 65536 "$file" report
    done
    answers 64000 1 'refused: invalid data at offset 0: Invalid data: Invalid item tag 0b000000' \
        "$command" 65536 zeros report
    for file in long /dev/zero; do
        answers 64000 2 'fault: read' "$command" 65536 "$file" report
        answers 64000 2 'fault: read' "$command" 65536 pushes "$file"
    done
done
answers 64000 1 'refused: no report' values-within 65536 segments report
answers 64000 1 'refused: invalid data at offset 0: Invalid data: Invalid item tag 0b000000' items zeros
answers 64000 1 'refused: invalid data at offset 0: Invalid data: Invalid item tag 0b000000' rebuild zeros
answers 64000 0 "$(awk 'BEGIN { while (n < 65536) print n++ " a4 Push" }')" items pushes
timeout 10 cat /dev/zero > fifo 2> /dev/null &
answers 64000 2 'fault: read' values-globals-within 65536 fifo report
wait
echo "little memory: $answers answers"
