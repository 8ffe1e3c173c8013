#!/bin/bash
# No command of `hid` takes more than 64 MB and a second of processor time, whatever it reads: 13 bytes
# that announce 2^32 - 1 fields, elements or bytes, 64 KB of one item or of one line of each form, a
# megabyte of them, reports and lines without an end. What is too much is refused in words, by its own
# bounds: never for want of memory. And no control character of an input reaches the terminal.
# The argument, if any, is the program to look at; else the one that ./hid runs.
set -euo pipefail
export LC_ALL=C

top=$(cd "$(dirname "$0")/../.." && pwd)
program=$(readlink -f "${1:-$top/build/run/hid}")
[ -x "$program" ] || {
    echo "hid_hostile: no program $program" >&2
    exit 2
}
kilobytes=64000
seconds=1
# The most that is written: what is shown of a field, an item or a byte is at most so long.
most=$((128 * 1024 * 1024))
scratch=$(mktemp -d)
trap 'rm -rf "$scratch"' EXIT
cd "$scratch"
runs=0
faults=0

fault() {
    echo "hid_hostile: $*"
    faults=$((faults + 1))
}

# Runs the program; its status has to be 0 or 1.
run() {
    local status=0
    runs=$((runs + 1))
    (
        ulimit -v "$kilobytes" -t "$seconds"
        exec timeout -k 1 20 "$program" "$@"
    ) > output 2> errors < "${input:-/dev/null}" || status=$?
    [ "$status" -le 1 ] || fault "$* ends with $status: $(head -c 200 errors)"
    ! grep -qi 'memory' errors || fault "$* wants memory"
    [ "$(stat -c %s output)" -le "$most" ] || fault "$* writes $(stat -c %s output) bytes"
}

# The same, and what it says on standard error has to have these words.
says() {
    local wanted=$1
    shift
    run "$@"
    grep -qF -- "$wanted" errors || fault "$* doesn't say '$wanted', but: $(tail -n 2 errors | head -c 300)"
}

# Files of so many bytes, in which what is printed stands again and again.
again() {
    printf -- "$3" > piece
    while [ "$(stat -c %s piece)" -lt "$2" ]; do
        cat piece piece > pieces
        mv pieces piece
    done
    head -c "$2" piece > "$1"
}

# What announces much in few bytes.
printf '\005\001\011\060\165\010\227\377\377\377\377\201\000' > elements
printf '\005\001\011\060\165\001\227\377\377\377\377\201\002' > fields
printf '\005\001\011\060\165\001\227\000\000\002\000\201\002' > many_fields
printf '\165\040\227\377\377\377\037\201\001\005\001\011\060\165\010\225\001\201\002' > padding
printf '\165\040\227\377\377\377\037\261\001' > feature
{
    printf '\005\001\033\000\000\000\000\053\377\377\377\000'
    for ((n = 0; n < 1020; n++)); do printf '\244\241\000\264'; done
} > collections
{
    printf '\005\001\031\000\052\377\177\025\000\046\377\177\165\020\225\001'
    for ((n = 0; n < 100; n++)); do printf '\201\000'; done
} > ranges
{
    printf '\005\014\011\001\241\001\025\000\045\377'
    for ((n = 0; n < 4000; n++)); do printf '\011\342'; done
    printf '\165\010\225\010\201\000\300'
} > usages_of_array
{
    for ((n = 0; n < 4000; n++)); do printf '\241\000'; done
    printf '\005\001\011\060\165\001\225\010\201\002'
} > deep
{
    printf '\005\001'
    for ((n = 1; n < 255; n++)); do printf "\\205\\$(printf %03o "$n")\\011\\060\\165\\010\\225\\377\\201\\002"; done
} > reports
cp "$top/crates/hid/data/mouse.hex" mouse

# 64 KB of one item, and of what reads as none.
length=65536
again zeros $length '\000'
again pushes $length '\244'
again opened $length '\241\000'
again usages $length '\011\060'
again pages $length '\005\001'
again designators $length '\071\001'
again global_in_push $length '\244\024'
again ended_in_push $length '\244\011\060\261\002'
again long_items $length '\376\001\000\000'
again inputs $length '\201\001'
# 64 KB of one line of each form.
again hex_lines $length '0\n'
again hex_words $length 'a100'
again recorder_reports $length 'E: 0 0\n'
again recorder_devices $length 'D: 1\nR: 0\nN: x\n'
again recorder_names $length 'N: \n'
again dump_heads $length '1:1:1:STREAM 1\n'
again dump_devices $length '1:1:1:DESCRIPTOR\n 00\n'
again source_arrays $length 'a={0};\n'
again source_numbers $length 'a={0,\n'
again source_remarks $length '/*\n'
again blanks $length '\n'
again marks $length '05:01:'
again offset_lines $length '0000 00\n'
again offset_heads $length '00000000: 00\n'
again log_names $length 'kernel: [ 1.0] : 00000000: 00\n'
again log_colons $length 'aaaaaaaa: '
od -A x -t x1z -v zeros > dumped
od -A x -t x1 -v zeros | sed '$d; s/^\(......\) /[   12.345678] rdesc: 00\1: /' > logged
od -A d -t x1 -v pushes > dumped_pushes
again python_lists $length '[0],\n'
again python_numbers $length '[0,\n'
again python_strings $length "b'\\\\x00'\\n"
again libinput_nodes $length '- node: /dev/input/event0\n  hid: [\n    5, 1\n  ]\n'
again libinput_numbers $length '  hid: [ 5,\n'
again lsusb_items $length '            Item(Main  ): Input, data= [ 0x00 ] 0\n'
again debugfs_lines $length '05 01\nINPUT[INPUT]\n'
again source_branches $length 'a={0};\n#if A||!B\n#endif\n'
again source_reports 65250 'TUD_HID_REPORT_DESC_MOUSE(),\n'
again strings 65529 '"\\x05\\1"\n'
{
    echo 'char a[] ='
    cat strings
    echo ';'
} > source_strings
{
    for ((n = 0; n < 2500; n++)); do echo "#define A$n 1"; done
    echo 'a[] = {'
    for ((n = 0; n < 2500; n++)); do echo "A$n,"; done
    echo '};'
} > source_names
{
    for ((n = 0; n < 4000; n++)); do printf 'D: %d\nR: 0\n' "$n"; done
} > recorder_many
# Fields that begin blocks again and again, and none that ends.
{
    echo '05 01 75 01 95 01'
    for ((n = 0; n < 16000; n++)); do echo "09 3$((n * n % 1009 % 3)) 81 02"; done
} > nearly_blocks
# Reports that differ in their last field alone.
{
    echo '05 01 75 01 95 fc'
    for ((n = 1; n < 256; n++)); do
        printf '85 %02x 19 00 29 fb 81 02 09 %02x 09 00 09 00 09 00 81 02\n' "$n" "$n"
    done
} > nearly_reports
# Captures: requests without an answer, and blocks of nothing.
capture_head='\324\303\262\241\2\0\4\0\0\0\0\0\0\0\0\0\377\377\0\0\334\0\0\0'
requests() {
    printf "$capture_head"
    for ((n = 0; n < $1; n++)); do
        printf '\0\0\0\0\0\0\0\0\100\0\0\0\100\0\0\0'
        printf "\\$(printf %o $((n % 256)))\\$(printf %o $((n / 256)))"
        printf '\0\0\0\0\0\0S\2\200\3\1\0\0<\0\0\0\0\0\0\0\0\0\0\0\0\0\0\0\0\0\0\0\0\0\0\0\0'
        printf '\201\6\0"\0\0\100\0\0\0\0\0\0\0\0\0\0\0\0\0\0\0\0\0'
    done
}
requests 800 > capture_requests
again capture_blocks 65532 '\5\0\0\0\14\0\0\0\14\0\0\0'
printf '\n\r\r\n\34\0\0\0M<+\32\1\0\0\0\377\377\377\377\377\377\377\377\34\0\0\0' |
    cat - capture_blocks > capture_section
# A megabyte.
again long 1048576 '\244'
again long_text 1048576 'a4 '

shapes='elements fields many_fields padding feature collections ranges usages_of_array deep reports
zeros pushes opened usages pages designators global_in_push ended_in_push long_items inputs
hex_lines hex_words recorder_reports recorder_devices recorder_names dump_heads dump_devices
source_arrays source_numbers source_remarks source_branches source_reports source_strings source_names blanks recorder_many long long_text marks offset_lines
offset_heads dumped dumped_pushes log_names log_colons logged python_lists python_numbers python_strings libinput_nodes
libinput_numbers lsusb_items debugfs_lines nearly_blocks nearly_reports capture_requests
capture_section'

head -c 64 zeros > report
for shape in $shapes; do
    for command in decode fields check map; do
        run "$command" "$shape"
    done
    for host in linux windows; do
        run check --for "$host" "$shape"
        run check --json --for "$host" "$shape"
    done
    run fields --linux "$shape"
    run fields --json --linux "$shape"
    run fields --all "$shape"
    run fields --width 40 "$shape"
    run map --width 40 "$shape"
    for command in decode fields check diff; do
        run "$command" --json "$shape" $([ "$command" != diff ] || echo mouse)
    done
    run map --svg "$shape"
    run page "$shape"
    run page "$shape" report
    run page mouse "$shape"
    run page "$shape" "$shape"
    run diff "$shape" "$shape"
    run diff mouse "$shape"
    run diff --items "$shape" "$shape"
    run diff --items mouse "$shape"
    run set "$shape" - X=1
    run set --names "$shape" -
    run --as standard fields "$shape"
    run --as linux decode "$shape"
    for to in hex c rust bytes recording kernel zephyr tinyusb lufa hid-bpf libinput webhid; do
        run convert --to "$to" "$shape"
    done
    for to in c rust python javascript; do
        run struct --to "$to" "$shape"
    done
    run --as standard struct "$shape"
    for words in '' --json --down --times --linux '--linux --json'; do
        run values $words "$shape" report
        run values $words mouse "$shape"
    done
    for words in '' --json --raw --changes --linux '--linux --json'; do
        run record $words "$shape" report
        # What a stream holds is shown however long it is.
        [ "${shape#long}" != "$shape" ] || run record $words mouse "$shape"
    done
    run compile "$shape"
    run uhid "$shape"
done

# Collections of WebHID as JSON: many, deep ones, and one with many usages.
listed='"inputReports":[],"outputReports":[],"featureReports":[]}'
{
    printf '[{"usagePage":1,"usage":2,"type":1,"children":['
    for ((n = 0; n < 580; n++)); do printf '{"usagePage":1,"usage":2,"type":1,"children":[],%s,' "$listed"; done
    printf '{"usagePage":1,"usage":2,"type":1,"children":[],%s],%s]' "$listed" "$listed"
} > many_collections
{
    printf '['
    for ((n = 0; n < 60; n++)); do printf '{"usagePage":1,"usage":2,"type":1,"children":['; done
    for ((n = 0; n < 60; n++)); do printf '],%s' "$listed"; done
    printf ']'
} > deep_collections
sed "s/\"usages\": \[\]/\"usages\": [$(yes 1, | head -n 15000 | tr -d '\n')1]/" \
    "$top/crates/hid/data/mouse.collections" > many_usages
for shape in many_collections deep_collections many_usages; do
    for command in decode fields check convert 'convert --to webhid'; do
        run $command --form webhid "$shape"
    done
done

# As many items as are paired, and more.
again first_items 4000 '\011\060\011\061\011\062'
again second_items 4000 '\011\061\011\060\011\063'
run diff --items --form bytes first_items second_items
[ "$(grep -c '^+' output)" -lt 2000 ] || fault 'diff --items pairs none of 2000 items'
says 'hid: the items between those that are the same are too many to pair' diff --items --form bytes usages pages

# What lies behind a report's bytes is said once.
printf '\005' > report
for words in '' --json --down; do
    run --as standard values $words elements report
    [ "$(wc -l < errors)" -le 4 ] || fault "values $words of an endless array says $(wc -l < errors) lines"
done
run --as standard record elements report

# A great report isn't made; one that comes in pieces is put together once.
says 'more than 65536' --as standard set padding - X=1
says 'more than 65536' --as standard set --direction feature feature -
printf '\005\001\011\060\165\010\225\001\201\002\165\040\227\000\011\075\000\201\001' > great
head -c 16000001 /dev/zero > great_report
kilobytes=256000 run --as standard record great great_report
[ "$(wc -l < output)" -eq 1 ] || fault "a report of 16 MB is shown in $(wc -l < output) lines"

# Nor are structs of great reports, or of many members.
says 'more than 65536' --as standard struct padding
printf '\005\011\031\001\052\001\100\025\000\045\001\165\001\226\001\100\201\002' > many_members
says 'more than 16384' --as standard struct --form bytes many_members
printf '\005\011\031\001\052\000\100\025\000\045\001\165\001\226\000\100\201\002' > most_members
for to in c rust python javascript; do
    run --as standard struct --to "$to" --form bytes most_members
    [ "$(stat -c %s output)" -gt 6000000 ] || fault "struct --to $to of 16384 members writes less"
done

# What WebHID lists again in each collection.
again listed_items 60000 '\011\060\201\002'
printf '\005\001\241\001\165\001\225\001' | cat - listed_items > listed
says 'bytes of JSON' convert --to webhid --form bytes listed

# A report that turns many volumes, none of them too far.
printf '\005\014\011\001\241\001\026\000\200\046\377\177\165\020\226\360\037\011\340\201\006' > volumes
printf '\025\000\045\001\165\001\225\001\011\342\201\002\165\007\201\003\300' >> volumes
again turned 16353 '\000\020'
for words in '' --json; do
    says 'turned by more than' values --linux $words --form bytes --report-form bytes volumes turned
    says 'turned by more than' record --linux $words --form bytes --report-form bytes volumes turned
done

# A line without an end, and an input without one.
again endless $((2 * 1048576)) '01 05 fb '
says 'longer than 1 MiB' record --report-form hex mouse endless
says 'without a line' record mouse endless

# Captures of more requests, endpoints and interfaces than are kept. Of each device 128 endpoints are
# told: a request for its configuration, and the answer of 914 bytes.
requests 4097 > many_requests
says 'more than 4096 requests have no answer' decode many_requests
{
    printf "$capture_head"
    for ((n = 1; n < 34; n++)); do
        device="\\$(printf %o "$n")"
        printf '\0\0\0\0\0\0\0\0\100\0\0\0\100\0\0\0\0\0\0\0\0\0\0\0'
        printf "S\\2\\200$device"'\1\0\0<\0\0\0\0\0\0\0\0\0\0\0\0\0\0\0\0\0\0\0\0\0\0\0\0'
        printf '\200\6\0\2\0\0\377\377\0\0\0\0\0\0\0\0\0\0\0\0\0\0\0\0'
        printf '\0\0\0\0\0\0\0\0\322\3\0\0\322\3\0\0\0\0\0\0\0\0\0\0'
        printf "C\\2\\200$device"'\1\0-\0\0\0\0\0\0\0\0\0\0\0\0\0\0\0\0\0\222\3\0\0\222\3\0\0'
        printf '\0\0\0\0\0\0\0\0\0\0\0\0\0\0\0\0\0\0\0\0\0\0\0\0'
        printf '\11\2\222\3\1\1\0\200\62\11\4\0\0\1\3\0\0\0'
        for ((k = 128; k < 256; k++)); do
            printf "\\7\\5\\$(printf %o "$k")"'\3\10\0\1'
        done
    done
} > many_endpoints
says 'more than 4096 endpoints' decode many_endpoints
again many_blocks 81940 '\1\0\0\0\24\0\0\0\334\0\0\0\0\0\4\0\24\0\0\0'
printf '\n\r\r\n\34\0\0\0M<+\32\1\0\0\0\377\377\377\377\377\377\377\377\34\0\0\0' |
    cat - many_blocks > many_interfaces
says 'more than 4096 interfaces' decode many_interfaces
kilobytes=400000 seconds=3 input=/dev/zero
says 'longer than 64 MiB' decode -
kilobytes=64000 seconds=1 input=/dev/null

# Nothing of an input reaches the terminal that is no letter there.
mark=$(printf '\342\200\256')
printf 'D: 0\nR: 0\nN: a %s b\nD: 1\nR: 0\n' "$mark" > named
printf 'Usage Page (Generic \033[31m Desktop)\n' > escaping
printf 'Usage Page (Generic %s Desktop)\n' "$mark" > turning
printf 'E: \033[2J 3 01 05 fb\n' > escaping_time
printf 'E: 0%s0 3 01 05 fb\n' "$mark" > turning_time
# An escape, a character that turns a line's direction, one of C1, or DEL.
has_control() {
    grep -qP '\x1b|\xe2\x80[\xaa-\xae]|\xc2[\x80-\x9f]|\x7f'
}
for spoilt in 'a\033b' "a${mark}b" 'a\302\233b' 'a\177b'; do
    printf "$spoilt" | has_control || fault "a control character would not be noticed: $spoilt"
done
silent() {
    run "$@"
    ! cat output errors | has_control || fault "$* lets a control character through"
}
silent fields named
silent page --device 0 named
silent compile escaping
silent compile turning
silent page mouse turning_time
for words in '' --json --raw; do
    silent record $words --report-form recorder mouse escaping_time
    silent record $words mouse turning_time
done
silent fields "$(printf 'no\033[31mfile')"

[ "$faults" -eq 0 ] || {
    echo "hid_hostile: $faults of $runs runs go wrong"
    exit 1
}
echo "hid_hostile: $runs runs, each within $((kilobytes / 1000)) MB and $seconds second"
