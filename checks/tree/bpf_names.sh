#!/bin/bash
# Writes crates/hid_macros/src/bpf_names.rt, the names that Linux's hid_report_helpers.h (of
# udev-hid-bpf) gives pages and usages, from crates/hidreport_usages/data/usages.txt by that header's
# rules: a name's letters, digits and `_`, with Plus for + and a word for a first digit, of variant
# types and exponents up to the colon. With --check it writes nothing, and fails where that file is
# stale. compare/bpf_names.py compares the names with the header's.
set -euo pipefail
cd "$(dirname "$0")/../../crates"
export LC_ALL=C
fresh=$(mktemp -d)
trap 'rm -rf "$fresh"' EXIT

# A row for each page: its number, its name, what its usages' names begin with, and these behind
# their numbers.
awk '
BEGIN {
    split("Zero One Two Three Four Five Six Seven Eight Nine", digits, " ")
    # What usages begin with, where it is not the first letters of the words of the page.
    own["07"] = "KK"; own["08"] = "LED"; own["11"] = "SC"; own["12"] = "EHT"; own["82"] = "VESAVC"
    own["03"] = "VRC"; own["F1D0"] = "FIDOA"
    # Pages that the header does not have, and usages that it spells otherwise or not in ASCII.
    none["92"]; other["0100AA"] = ""
    other["0C029B"] = "ACDisributeHorizontally"; other["840063"] = "VoltagOutOfRange"
    other["85008B"] = "Rechargable"; other["820056"] = ""; other["820058"] = ""
}
function plain(name) {
    sub(/ \[[A-Za-z\/]+\]$/, "", name)
    if (name ~ /^(VT_|Exponent )/) sub(/:.*/, "", name)
    gsub(/\+/, "Plus", name)
    gsub(/[^A-Za-z0-9_]/, "", name)
    if (name ~ /^[0-9]/) name = digits[substr(name, 1, 1) + 1] substr(name, 2)
    return name
}
# The first letters of words, or the first three letters of one.
function begin_of(name,   words, count, i, letters) {
    count = split(name, words, /[ \/]/)
    if (count == 1) return substr(name, 1, 3)
    for (i = 1; i <= count; i++) letters = letters substr(words[i], 1, 1)
    return letters
}
/^#/ || /^$/ { next }
/^[0-9A-F]+ / {
    page = $1; is_known = !(page in none); name = substr($0, length($1) + 2)
    sub(/ \[[A-Za-z\/]+\]$/, "", name)
    if (is_known) printf "%s%s\t%s\t%s\t", (any++ ? "\n" : ""), tolower(page), plain(name),
        page in own ? own[page] : begin_of(name)
    next
}
is_known {
    key = page $1; name = key in other ? other[key] : plain(substr($0, 8))
    if (name != "") printf " %s%s", tolower($1), name
}
END { print "" }' hidreport_usages/data/usages.txt > "$fresh/rows"

count=$(wc -l < "$fresh/rows")
{
    echo "//! The names of pages and usages in Linux's \`hid_report_helpers.h\`, of udev-hid-bpf."
    echo '// Written by checks/tree/bpf_names.sh from hidreport_usages/data/usages.txt: edit these.'
    echo
    echo '/// The pages: their numbers, their names, and what the names of their usages begin with.'
    echo '#[rattlefmt::skip]'
    echo "pub static PAGES: [(u16, &str, &str); $count] = ["
    awk -F '\t' '{ printf "    (0x%s, \"%s\", \"%s\"),\n", $1, $2, $3 }' "$fresh/rows"
    echo '];'
    echo
    echo '/// The usages of a page, each behind a space: four digits of its number, and its name.'
    echo "pub fn usages_on(page: u16) -> &'static str {"
    echo '    match page {'
    awk -F '\t' '$4 != "" { printf "        0x%s => USAGES_%s,\n", $1, toupper($1) }' "$fresh/rows"
    echo '        _ => "",'
    echo '    }'
    echo '}'
    while IFS=$'\t' read -r page name begin usages; do
        [ -n "$usages" ] || continue
        echo
        echo '#[rattlefmt::skip]'
        echo "static USAGES_${page^^}: &str = \"\\"
        fold -w 90 <<< "$usages" | sed 's/^ /\\x20/; s/ $/\\x20/; $!s/$/\\/; $s/$/";/'
    done < "$fresh/rows"
} > "$fresh/bpf_names.rt"

if [ "${1-}" != --check ]; then
    cp "$fresh/bpf_names.rt" hid_macros/src/bpf_names.rt
elif ! cmp -s "$fresh/bpf_names.rt" hid_macros/src/bpf_names.rt; then
    echo 'bpf_names: crates/hid_macros/src/bpf_names.rt is stale: checks/tree/bpf_names.sh writes it' >&2
    exit 1
fi
