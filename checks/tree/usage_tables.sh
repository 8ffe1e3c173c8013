#!/bin/bash
# Writes the tables of names of hidreport_usages from crates/hidreport_usages/data/usages.txt, which
# a person edits: src/usage_table.rt, src/page_table.rt, src/type_table.rt, specs/UsageRows.antt,
# specs/PageRows.antt and proofs/Ranks.antt. With --check it writes nothing, and fails where one of
# them is stale.
set -euo pipefail
cd "$(dirname "$0")/../../crates/hidreport_usages"
export LC_ALL=C
fresh=$(mktemp -d)
trap 'rm -rf "$fresh"' EXIT
mkdir "$fresh/src" "$fresh/specs" "$fresh/proofs"

# The rows of both tables, a number and its name each, with a tab between, and those of the types;
# faults are told.
awk -v pages="$fresh/pages" -v usages="$fresh/usages" -v types="$fresh/types" '
BEGIN {
    last_page = -1
    split("CA CL CP DF MC NAry OOC OSC RTC SF Sel UM US", none, " ")
    for (i in none) holds[none[i]] = "false"
    split("DV LC SV", some, " ")
    for (i in some) holds[some[i]] = "true"
}
function fault(text) { print "usages.txt:" NR ": " text > "/dev/stderr"; bad = 1 }
function number(digits,   i, n) {
    n = 0
    for (i = 1; i <= length(digits); i++)
        n = n * 16 + index("0123456789ABCDEF", substr(digits, i, 1)) - 1
    return n
}
# Whether a usage of the types that stand behind the name holds a value: one of them does.
function held(text,   words, i, n, holds_value) {
    if (text !~ / \[[A-Za-z\/]+\]$/) return ""
    sub(/^.* \[/, "", text); sub(/\]$/, "", text)
    n = split(text, words, "/"); holds_value = "false"
    for (i = 1; i <= n; i++) {
        if (!(words[i] in holds)) fault("a type that there is not")
        if (holds[words[i]] == "true") holds_value = "true"
    }
    return holds_value
}
# A row of types, joined to the one before where it goes on there.
function typed(first, last_of_it, holds_value) {
    if (holds_value == said_value && first == said_last + 1) { said_last = last_of_it; return }
    if (said_value != "") print said_first "\t" said_last "\t" said_value > types
    said_first = first; said_last = last_of_it; said_value = holds_value
}
function name(from) {
    sub(/ \[[A-Za-z\/]+\]$/, "", from)
    if (from !~ /^[!-~]+( [!-~]+)*$/ || from ~ /["\\]/) fault("a name that is no plain text")
    return from
}
/^#/ || /^$/ { next }
/^[0-9A-F]+ / {
    page = number($1); last = 0; said = name(substr($0, length($1) + 2))
    if (page <= last_page) fault("a page that does not rise")
    if (said in page_names) fault("a name of two pages")
    page_names[said]; last_page = page
    digits = tolower($1)
    print "0x" digits "\t" said > pages
    if (held($0) != "") typed(page * 65536, page * 65536 + 65535, held($0))
    next
}
/^  [0-9A-F][0-9A-F][0-9A-F][0-9A-F] / {
    id = number($1); said = name(substr($0, 8))
    if (id <= last) fault("a usage that does not rise")
    if ((page, said) in names) fault("a name of two usages of a page")
    names[page, said]; last = id
    print "0x" digits tolower($1) "\t" said > usages
    if (held($0) != "") typed(page * 65536 + id, page * 65536 + id, held($0))
    next
}
{ fault("a line that is neither a page nor a usage") }
END { typed(-1, -1, ""); exit bad }' data/usages.txt

# The places of a table in the order of names, rows of one name in the order of numbers.
places_by_name() {
    awk -F '\t' '{ print $2 "\t" NR - 1 }' "$1" | sort -t "$(printf '\t')" -k1,1 -k2,2n | cut -f 2
}

# rows_of MARK COLUMNS: numbers, each with a mark of so many columns behind it, as many in each line as
# have room in 100 columns where all are as wide as the widest.
rows_of() {
    awk -v mark="$1" -v columns="$2" '
    { numbers[NR] = $1; if (length($1) > widest) widest = length($1) }
    END {
        most = int((100 - 3) / (widest + columns + 1))
        for (i = 1; i <= NR; i++)
            printf "%s%s%s", (i % most != 1 ? " " : i > 1 ? "\n    " : "    "), numbers[i], mark
    }'
}

# Numbers as the elements of an array, or of a list.
elements() {
    rows_of , 1
    echo
}
listed() {
    rows_of ' ∷' 2
    echo ' []'
}

# table WORD WHAT ROWS FILE: the code of one table.
table() {
    local count letters
    count=$(wc -l < "$3")
    {
        echo "//! The table of $2."
        echo '// Written by checks/tree/usage_tables.sh from data/usages.txt: edit that.'
        echo
        echo '#[rattlefmt::skip]'
        echo "pub(crate) static $1_NUMBERS: [u32; $count] = ["
        cut -f 1 "$3" | elements
        echo '];'
        echo
        echo '#[rattlefmt::skip]'
        echo "pub(crate) static $1_ENDS: [u16; $((count + 1))] = ["
        awk -F '\t' 'BEGIN { print 0 } { end += length($2); print end }' "$3" | elements
        echo '];'
        echo
        echo '#[rattlefmt::skip]'
        echo "pub(crate) static $1_PLACES: [u16; $count] = ["
        places_by_name "$3" | elements
        echo '];'
        echo
        echo '#[rattlefmt::skip]'
        echo "pub(crate) static $1_TEXT: &str = \"\\"
        awk -F '\t' '{ printf "%s", $2 }' "$3" | fold -w 90 |
            sed 's/^ /\\x20/; s/ $/\\x20/; $!s/$/\\/; $s/$/";/'
        echo
    } > "$4"
    letters=$(awk -F '\t' '{ end += length($2) } END { print end }' "$3")
    [ "$letters" -lt 65536 ] || { echo "usages.txt: the names of $2 are too long" >&2; exit 1; }
}

# rows WORD WHAT ROWS FILE: the table as definitions see it.
rows() {
    {
        echo "-- The table of $2."
        echo '-- Written by checks/tree/usage_tables.sh from data/usages.txt: edit that.'
        echo 'use Rattle.std.specs.Prelude.{List, [], ◌∷◌, codes}'
        echo 'use Rattle.hidreport_usages.specs.Rows.{Row}'
        echo
        echo "unfoldable pub $1_rows : List Row"
        echo "$1_rows ="
        awk -F '\t' '{ printf "    (%s, codes \"%s\")\n    ∷ ", $1, $2 } END { print "[]" }' "$3" |
            sed 's/^    ∷     /    ∷ /'
    } > "$4"
}

# ranks WORD ROWS: where each row stands in the order of names.
ranks() {
    echo
    echo "unfoldable pub $1_ranks : List ℕ"
    echo "$1_ranks ="
    places_by_name "$2" | awk '{ print $1 "\t" NR - 1 }' | sort -n | cut -f 2 | listed
}

# type_table ROWS FILE: which usages hold values.
type_table() {
    {
        echo '//! Which usages hold values, by their types.'
        echo '// Written by checks/tree/usage_tables.sh from data/usages.txt: edit that.'
        echo 'use crate::usage_type::TypedUsages;'
        echo
        echo '#[rattlefmt::skip]'
        echo "pub(crate) static TYPED_USAGES: [TypedUsages; $(wc -l < "$1")] = ["
        awk -F '\t' '{ printf "    TypedUsages { first: 0x%06x, last: 0x%06x, holds_value: %s },\n",
            $1, $2, $3 }' "$1"
        echo '];'
    } > "$2"
}

table USAGE 'usages' "$fresh/usages" "$fresh/src/usage_table.rt"
table PAGE 'usage pages' "$fresh/pages" "$fresh/src/page_table.rt"
type_table "$fresh/types" "$fresh/src/type_table.rt"
rows usage 'usages: the page in the upper 16 bits' "$fresh/usages" "$fresh/specs/UsageRows.antt"
rows page 'usage pages' "$fresh/pages" "$fresh/specs/PageRows.antt"
{
    echo '-- Where each row stands in the order of names. Written by checks/tree/usage_tables.sh.'
    echo 'use Rattle.std.specs.Prelude.{ℕ, List, [], ◌∷◌}'
    ranks usage "$fresh/usages"
    ranks page "$fresh/pages"
} > "$fresh/proofs/Ranks.antt"

for file in src/usage_table.rt src/page_table.rt src/type_table.rt specs/UsageRows.antt \
    specs/PageRows.antt proofs/Ranks.antt; do
    if [ "${1-}" = --check ]; then
        if ! cmp -s "$fresh/$file" "$file"; then
            echo "usage_tables: crates/hidreport_usages/$file is stale" >&2
            exit 1
        fi
    else
        cp "$fresh/$file" "$file"
    fi
done
bash ../../checks/tree/event_tables.sh "$@"
