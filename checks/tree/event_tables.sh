#!/bin/bash
# Writes the tables of hidreport_linux from crates/hidreport_linux/data/events.txt, which a person
# edits: src/name_table.rt and src/code_table.rt. With --check it writes nothing, and fails where one
# of them is stale. First it compares events.txt with a second source (event_facts.sh).
set -euo pipefail
bash "$(dirname "$0")/event_facts.sh"
cd "$(dirname "$0")/../../crates/hidreport_linux"
export LC_ALL=C
fresh=$(mktemp -d)
trap 'rm -rf "$fresh"' EXIT
mkdir "$fresh/src"

awk -v names="$fresh/src/name_table.rt" -v rows_file="$fresh/src/code_table.rt" '
BEGIN {
    kinds["KEY"] = "Key"; kinds["REL"] = "Relative"; kinds["ABS"] = "Absolute"
    kinds["MSC"] = "Other"; kinds["LED"] = "Led"
}
function fault(text) { print "events.txt:" NR ": " text > "/dev/stderr"; bad = 1 }
function number(digits,   i, n) {
    n = 0
    for (i = 1; i <= length(digits); i++)
        n = n * 16 + index("0123456789ABCDEF", substr(digits, i, 1)) - 1
    return n
}
# The names of a type from one number on, as many as are said; "" where a number has none.
function table(type, word, from, count,   i, line, name) {
    print "\n#[rattlefmt::skip]" > names
    print "pub(crate) static " word ": [&str; " count "] = [" > names
    line = "   "
    for (i = from; i < from + count; i++) {
        name = " \"" said[type, i] "\","
        if (length(line name) > 100) { print line > names; line = "   " }
        line = line name
    }
    print line "\n];" > names
}
/^#/ || /^$/ { next }
/^(KEY|REL|ABS|MSC|LED) [0-9A-F][0-9A-F][0-9A-F] [A-Z0-9_]+$/ {
    if (($1, number($2)) in said || $3 in codes) fault("a code twice")
    said[$1, number($2)] = $3; codes[$3] = $2; types[$3] = $1
    next
}
/^usage [0-9A-F][0-9A-F][0-9A-F][0-9A-F] [0-9A-F][0-9A-F][0-9A-F][0-9A-F] [A-Z0-9_]+ (own|shared)$/ {
    if (!($4 in codes)) fault("a name of no code")
    if (number($2 $3) <= last) fault("a usage that does not rise")
    last = number($2 $3)
    rows[++count] = sprintf("    CodeRow { usage: 0x%06x, event_type: EventType::%s, number: 0x%x, " \
        "is_shared: %s },", last, kinds[types[$4]], number(codes[$4]),
        $5 == "shared" ? "true" : "false")
    next
}
{ fault("a line that is neither a code nor a usage") }
END {
    print "//! The names of event codes, by their numbers." > names
    print "// Written by checks/tree/event_tables.sh from data/events.txt: edit that." > names
    table("KEY", "LOW_KEYS", 0, 256)
    table("KEY", "MIDDLE_KEYS", 256, 256)
    table("KEY", "HIGH_KEYS", 512, 256)
    table("REL", "MOTIONS", 0, 16)
    table("ABS", "AXES", 0, 64)
    table("MSC", "OTHERS", 0, 8)
    table("LED", "LAMPS", 0, 16)
    print "//! The usages that have one code wherever they lie." > rows_file
    print "// Written by checks/tree/event_tables.sh from data/events.txt: edit that." > rows_file
    print "use crate::code_rows::CodeRow;\nuse crate::event_code::EventType;\n\n#[rattlefmt::skip]" > rows_file
    print "pub(crate) static CODE_ROWS: [CodeRow; " count "] = [" > rows_file
    for (i = 1; i <= count; i++) print rows[i] > rows_file
    print "];" > rows_file
    exit bad
}' data/events.txt

for file in src/name_table.rt src/code_table.rt; do
    if [ "${1-}" = --check ]; then
        if ! cmp -s "$fresh/$file" "$file"; then
            echo "event_tables: crates/hidreport_linux/$file is stale" >&2
            exit 1
        fi
    else
        cp "$fresh/$file" "$file"
    fi
done
