#!/bin/bash
# What `hid decode` writes is compiled to the same bytes (checks/hid/compiled.py): of each descriptor of the
# tree (checks/hid/descriptors.sh), refused ones too. What `hid convert` writes of them is the same bytes
# to others (checks/hid/written.py), what `hid fields` folds is what it shows line by line
# (checks/hid/fields.py), what `hid uhid` writes is events (checks/hid/uhid.sh). Then what no stored run
# shows (checks/hid/runs.py): a stream's times, and refusals for which it takes more than a file. Its
# argument is the program; else it is the one that ./hid runs.
set -eu
export LC_ALL=C

top=$(cd "$(dirname "$0")/../.." && pwd)
program=${1:-$top/build/run/hid}
[ -x "$program" ] || {
    echo "hid_texts: no program $program" >&2
    exit 2
}
scratch=$(mktemp -d)
trap 'rm -rf "$scratch"' EXIT

bash "$top/checks/hid/uhid.sh" "$program"

# hid-recorder's lines of a stream, whose time is its own.
raw=$(echo 05 | "$program" record --raw "$top/crates/hid/data/axis.bytes" - 2> /dev/null |
    sed 's/^E: 000000\.[0-9]\{6\} /E: TIME /')
[ "$raw" = 'D: 0
R: 14 05 01 09 30 15 81 25 7f 75 08 95 01 81 02
N: unknown
I: 3 0000 0000
E: TIME 1 05' ] || {
    echo "hid_texts: a stream is recorded as $raw" >&2
    exit 1
}

# A stream's times are seconds with six digits behind the point, since it was begun.
{ echo 05; sleep 1.2; echo 06; } | "$program" record --times "$top/crates/hid/data/axis.bytes" - 2> /dev/null |
    awk '
        $2 !~ /^[0-9][0-9][0-9][0-9][0-9][0-9]\.[0-9][0-9][0-9][0-9][0-9][0-9]$/ { is_odd = 1 }
        { is_odd = is_odd || $1 != NR || $3 != "X=" (NR + 4) || $2 < (NR == 1 ? 0 : 0.6) || $2 > 60 }
        END { exit is_odd || NR != 2 }' || {
    echo 'hid_texts: the times of a stream are other than those at which its lines came' >&2
    exit 1
}

# Into a pipe lines are whole, whatever is exported.
for command in fields map; do
    [ "$(COLUMNS=60 "$program" "$command" "$top/crates/hid/data/keyboard.hex")" = \
        "$("$program" "$command" "$top/crates/hid/data/keyboard.hex")" ] || {
        echo "hid_texts: COLUMNS bounds the lines of $command in a pipe" >&2
        exit 1
    }
done

# A map of 4,101 rows: the first 4,096, and all where that is asked for. Of 4,097 one is left out.
rows='05 01 09 30 75 08 96 04 10 81 02 75 08 95 01 81 01'
row='05 01 09 30 75 08 96 00 10 81 02 75 08 95 01 81 01'
[ "$(echo "$rows" | "$program" map - 2> /dev/null | tail -n 1)" = '5 more rows: --all shows them' ] &&
    [ "$(echo "$rows" | "$program" map --all - 2> /dev/null | wc -l)" -eq 4103 ] &&
    [ "$(echo "$row" | "$program" map - 2> /dev/null | tail -n 1)" = '1 more row: --all shows it' ] &&
    echo "$row" | "$program" map --svg - 2> /dev/null | grep -q '>1 more row: --all shows it<' &&
    [ "$(echo "$row" | "$program" map --svg --all - 2> /dev/null | grep -c '<rect x=')" -eq 4097 ] || {
    echo 'hid_texts: a map of 4,101 or 4,097 rows has others' >&2
    exit 1
}

# The rows of all reports are counted together.
rows='05 01 09 30 75 08 96 34 08 81 02 09 30 91 02'
[ "$(echo "$rows" | "$program" map - 2> /dev/null | tail -n 1)" = '104 more rows: --all shows them' ] || {
    echo 'hid_texts: a map of two reports of 2,100 rows has others' >&2
    exit 1
}

# Macros stand 60 deep in one another; where there are more collections, bytes stand.
nested() {
    { printf 'a1 00 %.0s' $(seq "$1"); printf 'c0 %.0s' $(seq "$1"); } |
        "$program" convert --to hid-bpf - 2> /dev/null | grep -c 'CollectionPhysical(' || true
}
[ "$(nested 60)-$(nested 61)" = 60-0 ] || {
    echo 'hid_texts: macros stand in one another to another depth' >&2
    exit 1
}

# A block of 64 lines is folded, one of 65 isn't; a report is looked for among 16 of its size.
lines_of_fields() {
    echo "$1" | "$program" fields - 2> /dev/null | wc -l
}
twice() {
    echo "05 09 15 00 25 01 75 01 95 $1 19 01 29 $1 81 02 19 01 29 $1 81 02"
}
others() {
    printf '05 01 75 08 95 01'
    printf ' 85 %02x 09 %02x 81 02' $(for it in $(seq "$1"); do echo "$it" $((it + 47)); done) 99 48
}
counts="$(lines_of_fields "$(twice 40)") $(lines_of_fields "$(twice 41)")"
counts="$counts $(lines_of_fields "$(others 16)") $(lines_of_fields "$(others 17)")"
[ "$counts" = '66 131 32 36' ] || {
    echo "hid_texts: blocks and reports are folded to $counts lines" >&2
    exit 1
}

# What no stored run shows: an input that is too long, too little memory, a device that is full.
refused() {
    [ "$1" = "$2" ] || {
        echo "hid_texts: '$1' in place of '$2'" >&2
        exit 1
    }
}
refused "$(head -c 67108864 /dev/zero | "$program" decode --form bytes - 2>&1)" \
    'hid: -: longer than 64 MiB'
refused "$(
    ulimit -v 65536
    yes ab | tr -d '\n' | tr ab '\005\001' | head -c 8388608 | "$program" decode --form bytes - 2>&1
)" 'hid: -: longer than 65536 bytes: say --limit 8388608'
for limit in 1 131072; do
    refused "$(head -c 65537 /dev/zero | "$program" convert --limit "$limit" --form bytes - 2>&1 > /dev/null)" \
        'hid: -: longer than 65536 bytes: say --limit 131073'
done
refused "$(head -c 65537 /dev/zero | "$program" convert --limit 131073 --form bytes - 2>&1 > /dev/null)" ''
refused "$(head -c 131074 /dev/zero | "$program" convert --limit 131073 --form bytes - 2>&1 > /dev/null)" \
    'hid: -: longer than 131073 bytes: say --limit 131074'
refused "$(head -c 65536 /dev/zero | "$program" convert --form bytes - 2>&1 > /dev/null)" ''
case $(ulimit -v 32768 && head -c 60000000 /dev/zero | tr '\0' '\n' | "$program" compile - 2>&1) in
    'hid: -: '*memory*) ;;
    *) refused 'too little memory' 'said with its input' ;;
esac
refused "$(echo 0501 | "$program" convert --form hex - 2>&1 > /dev/full)" \
    'hid: -: standard output: No space left on device (os error 28)'

refused "$(yes c0 | head -n 65537 | "$program" compile - 2>&1 > /dev/null)" \
    'hid: -: longer than 65536 bytes: say --limit 131073'

# Of five bytes one is no letter: they are bytes; of six they may be text.
refused "$(printf '\5AAA\n' | "$program" convert --verbose - 2>&1 | tr '\n' ' ')" 'hid: -: read as bytes 05 41 41 41 0a '
refused "$(printf '\5AAAA\n' | "$program" convert - 2>&1)" "hid: -: is text but for 1 of 6 bytes, the first at \
offset 0; or as --form or --report-form bytes"

refused "$(printf '\376\377\0000\0005' | "$program" convert - 2>&1)" \
    'hid: -: is text in UTF-16, and is read in UTF-8; or as --form or --report-form bytes'

# The most devices of an input, and one more; the longest descriptor that is read.
devices() {
    { echo 'R: 2 05 01'; seq -f 'D: %.0f' 1 "$1"; } | "$program" convert --device 0 - 2>&1 | tail -n 1
}
refused "$(devices 255)-$(devices 256)" '05 01-hid: -: line 257: more than 256 devices'
refused "$(yes ab | tr -d '\n' | tr ab '\005\001' | head -c 65536 | "$program" fields --form bytes - 2>&1)" \
    'hid: -: no item makes a field, so there is no report'

# The most members of structs, and one more.
members() {
    echo "05 09 19 01 2a $1 15 00 25 01 75 01 96 $1 81 02" | "$program" struct --as standard - 2>&1 > /dev/null | tail -n 1
}
refused "$(members '00 40')-$(members '01 40')" \
    '-hid: -: the structs have 16385 members, more than 16384'

# A number has the smallest type that holds its bits, in JavaScript 32 are no BigInt; a name's words
# are parted where it has a capital, too.
struct_of() {
    echo "$wide" | "$program" struct --to "$1" - 2> /dev/null
}
wide='05 07 09 e0 15 00 26 ff 7f 75 10 95 01 81 02 09 e1 27 ff ff ff 7f 75 20 81 02'
refused "$(struct_of c | grep -oE '[a-z0-9_]+ keyboard_[a-z_]+;' | tr '\n' ' ')" \
    'uint16_t keyboard_left_control; uint32_t keyboard_left_shift; '
refused "$(struct_of javascript | grep -E '^    [a-z_]+ = ' | tr '\n' ' ')" \
    '    keyboard_left_control = 0;     keyboard_left_shift = 0; '

# Items of 1,024 bytes of JSON, each in 64 collections: 64 of them are 4 MiB, the most there is.
listed_items() {
    {
        echo 05 01 75 08 95 01 26 ff 7f
        printf 'a1 00 %.0s' $(seq 64)
        for it in $(seq "$1"); do
            printf '09 30 %.0s' $(seq 82)
            echo 81 02
        done
    } | "$program" convert --to webhid - 2>&1 > "$scratch/listed" | tail -n 1
}
refused "$(listed_items 64)" ''
refused "$(grep -o '^{"is.*"physicalMaximum":0}' "$scratch/listed" | grep -cE '^.{1023}$')" 4096
refused "$(listed_items 65)" \
    'hid: -: items that each collection around them lists have more than 4194304 bytes of JSON'

# Bytes are a capture where its mark and its version are there; a word less, and they are bytes.
capture_of() {
    printf "$1" | "$program" convert --verbose - 2>&1 | head -n 1
}
refused "$(capture_of '\324\303\262\241\2\0\4\0')" 'hid: -: the capture is cut short'
refused "$(capture_of '\324\303\262\241\2\0\5\0')" 'hid: -: read as bytes'
refused "$(capture_of '\n\r\r\n\0\0\0\0M<+\32')" 'hid: -: the block at byte 0 is cut short'
refused "$(capture_of '\n\r\r\n\0\0\0\0M<+\33')" 'hid: -: read as bytes'

# A stream in pieces that end within a line, within a character or behind an empty line is what it is
# whole: its form, too.
streamed() {
    local wanted=$1
    shift
    refused "$(
        for piece; do
            printf '%b' "$piece"
            sleep 0.1
        done | "$program" record --verbose "$top/crates/hid/data/axis.bytes" - 2>&1 | tail -n +2
    )" "$(printf '%b' "$wanted")"
}
streamed 'hid: -: read as hex text\nX=5\nX=6' '0' '5\n06\n'
streamed 'hid: -: read as hex text\nX=5\nX=6' '\n' '# \0342\0202' '\0254\n05' '\n06'
streamed 'hid: -: read as bytes\nX=35\nX=10\nX=1' '#' '\n' '\0001'
streamed 'hid: -: read as bytes\nX=-30\nX=-126\nX=10' '\0342' '\0202' '\n'

# A report of bytes in two pieces, and a line without its end.
refused "$({ printf '\1\5'; sleep 0.1; printf '\373\0\0\0'; } |
    "$program" record --report-form bytes "$top/crates/hid/data/mouse.hex" - 2> /dev/null | grep -o ' X=.*')" \
    "$(printf ' X=5 Y=-5\n X=0 Y=0')"
refused "$(printf '05\n06' | "$program" record "$top/crates/hid/data/axis.bytes" - 2> /dev/null)" "$(printf 'X=5\nX=6')"

# What a line takes is given back behind it: of 500,000 no more stands in 64 MB than of one.
refused "$(
    ulimit -v 64000
    yes 05 | head -n 500000 | "$program" record "$top/crates/hid/data/axis.bytes" - 2>&1 | tail -n 1
)" 'X=5'

# Colour where the environment forces it, and none where it wants none; a name that isn't UTF-8.
coloured() {
    env "$@" "$program" decode "$top/crates/hid/data/axis.bytes" 2> /dev/null | grep -c "$(printf '\033')" || true
}
refused "$(coloured CLICOLOR_FORCE=1)-$(coloured CLICOLOR_FORCE=0)-$(coloured CLICOLOR_FORCE=1 NO_COLOR=1)" '7-0-0'
refused "$(coloured CLICOLOR_FORCE=1 NO_COLOR=)-$(coloured CLICOLOR_FORCE=)" '7-0'
refused "$(CLICOLOR_FORCE=1 "$program" decode --color never "$top/crates/hid/data/axis.bytes" 2> /dev/null |
    grep -c "$(printf '\033')" || true)" 0
refused "$("$program" decode "$(printf 'a\351.hex')" 2>&1)" \
    "hid: a word isn't UTF-8; a file with such a name is read as - (hid .. - < FILE)"
echo 75 08 > "$scratch/$(printf 'a\351.hex')"
refused "$("$program" convert --verbose /dev/fd/7 7< "$scratch/$(printf 'a\351.hex')" 2>&1)" \
    "$(printf 'hid: /dev/fd/7: read as hex text\n75 08')"

# Pictures of reports that are 1,500 pixels high stand below each other; a row more, and beside: of
# so many bytes the second one has, each with a row, the title and the numbers above, a gap below.
columns_of() {
    {
        echo '05 01 09 02 a1 01 15 00 25 7f 75 08 09 30 95 1c 81 02 09 30'
        printf '95 %02x 91 02 c0\n' "$1"
    } | "$program" map --svg - 2> /dev/null | grep -c '<g' || true
}
refused "$(columns_of 29)-$(columns_of 30)" '1-2'

# What takes longest comes last.
bash "$top/checks/hid/descriptors.sh" > "$scratch/descriptors"

if command -v python3 > /dev/null; then
    python3 "$top/checks/hid/compiled.py" "$program" < "$scratch/descriptors"
    cut -d ' ' -f 1 "$scratch/descriptors" | python3 "$top/checks/hid/written.py" "$program"
    cut -d ' ' -f 1 "$scratch/descriptors" | python3 "$top/checks/hid/fields.py" "$program"
    python3 "$top/compare/usbmon.py" --check
else
    echo 'hid_texts: no `python3` on the path, so what is decoded, converted and folded is not tried'
fi
