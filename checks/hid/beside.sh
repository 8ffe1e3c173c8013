#!/bin/bash
# What `hid decode` says is set beside what another program shows of the same bytes, item by item:
# `tshark` (compare/tshark.txt) or `lsusb` (compare/lsusb.txt), which is the first argument. Where
# their words differ, both stand in compare/tshark_differences.txt or lsusb_differences.txt below the
# reason. Nothing but `hid` is run. The second argument is that program; else it is the one that
# ./hid built.
set -eu
export LC_ALL=C

top=$(cd "$(dirname "$0")/../.." && pwd)
other=${1:-tshark}
self=beside_$other
shown=$top/compare/$other.txt
differences=$top/compare/${other}_differences.txt
program=${2:-$top/build/run/hid}
[ -f "$shown" ] || {
    echo "beside: there is no $shown" >&2
    exit 2
}
[ -x "$program" ] || {
    echo "$self: no program $program" >&2
    exit 2
}
scratch=$(mktemp -d)
trap 'rm -rf "$scratch"' EXIT

# What the program says of each descriptor; where one is refused, the status is 1.
sed -n 's/^descriptor //p' "$shown" > "$scratch/descriptors"
while read -r digits; do
    echo "descriptor $digits"
    ended=0
    echo "$digits" | "$program" decode --form hex - 2> "$scratch/errors" || ended=$?
    [ "$ended" -le 1 ] || {
        echo "$self: the status is $ended for $digits" >&2
        cat "$scratch/errors" >&2
        exit 1
    }
done < "$scratch/descriptors" > "$scratch/ours"

LC_ALL=C awk '
function complain(text) {
    if (++faults <= 40)
        print self ": " text > "/dev/stderr"
}

# The number that bytes such as "38 02" write, the first the lowest.
function number_of(bytes,    i, value) {
    value = 0
    for (i = length(bytes) - 1; i > 0; i -= 3)
        value = value * 256 + 16 * digit(bytes, i) + digit(bytes, i + 1)
    return value
}

# How many numbers so many bytes can write.
function limit(bytes,    i, value) {
    value = 1
    for (i = 1; i < length(bytes); i += 3)
        value *= 256
    return value
}

function digit(text, at) {
    return index(DIGITS, substr(text, at, 1)) - 1
}

# Hexadecimal digits, at least so many. (printf has no numbers of 32 bits in each awk.)
function hexadecimal(value, width,    text, low) {
    text = ""
    while (value > 0 || width > 0) {
        low = value % 16
        text = substr(DIGITS, low + 1, 1) text
        value = (value - low) / 16
        width--
    }
    return text
}

function put(text, mark, value,    at) {
    while ((at = index(text, mark)) > 0)
        text = substr(text, 1, at - 1) value substr(text, at + length(mark))
    return text
}

# A text of the differences, with what the bytes of an item say in place of its marks.
function filled(text, bytes,    data, value) {
    if (index(text, "{") == 0)
        return text
    data = substr(bytes, 4)
    value = number_of(data)
    text = put(text, "{d}", sprintf("%.0f", value))
    text = put(text, "{s}", sprintf("%.0f", value - (data ~ /[89a-f].$/ ? limit(data) : 0)))
    text = put(text, "{xx}", hexadecimal(value, 2))
    text = put(text, "{xxxx}", hexadecimal(value, 4))
    text = put(text, "{XXXX}", toupper(hexadecimal(value, 4)))
    text = put(text, "{tag}", digit(bytes, 1))
    gsub(/ /, "", data)
    return put(text, "{data}", data)
}

# The row that has both texts and one of these places, of which each has a line break behind it
# where a row without a place will do, too.
function row_of(places, theirs, ours, bytes,    i, number, list) {
    number = split(places, list, "\n")
    for (i = 1; i <= number; i++)
        if ((list[i], theirs, ours) in exact)
            return exact[list[i], theirs, ours]
    for (i = 1; i <= marked; i++)
        if (index("\n" places "\n", "\n" where[pattern[i]] "\n") &&
            filled(left[pattern[i]], bytes) == theirs && filled(right[pattern[i]], bytes) == ours)
            return pattern[i]
    return 0
}

# The row by which an item that is told in these words there has other words here.
function row_with_others(places, theirs, bytes,    i, number, list) {
    number = split(places, list, "\n")
    for (i = 1; i <= number; i++)
        if ((list[i], theirs) in others_of)
            return others_of[list[i], theirs]
    for (i = 1; i <= marked; i++)
        if (index("\n" places "\n", "\n" where[pattern[i]] "\n") &&
            filled(left[pattern[i]], bytes) == theirs && filled(right[pattern[i]], bytes) != theirs)
            return pattern[i]
    return 0
}

function take(row) {
    times[row]++
    others++
    reasons_met[reason[row]] = 1
}

# The name of an item, before its parenthesis.
function name_of(text) {
    sub(/ [(=].*/, "", text)
    return text
}

# What `hid decode` said of a descriptor: offset_of, bytes_of, words_of, depth_of.
function read_ours(digits,    i, line, text, own, at) {
    count = 0
    at = 0
    fault_at = -1
    for (i = 1; i <= lines_of[digits]; i++) {
        line = said[digits, i]
        if (match(line, /^ *[0-9]+! /)) {
            if (line + 0 > fault_at)
                fault_at = line + 0
            continue
        }
        # Behind a fault stand the bytes that are no item.
        if (fault_at >= 0 && line + 0 >= fault_at && line ~ /^ *[0-9]+:( [0-9a-f][0-9a-f])+$/)
            continue
        if (!match(line, /^ *[0-9]+: ([0-9a-f][0-9a-f] )+/)) {
            complain(title ": this is no item: " line)
            continue
        }
        count++
        offset_of[count] = line + 0
        own = substr(line, 1, RLENGTH)
        text = substr(line, RLENGTH + 1)
        sub(/^ *[0-9]+: /, "", own)
        sub(/ $/, "", own)
        bytes_of[count] = own
        # Short bytes are filled up to 15 letters.
        if (length(own) < 15)
            text = substr(text, 16 - length(own))
        match(text, /^ */)
        depth_of[count] = RLENGTH / 2
        words_of[count] = substr(text, RLENGTH + 1)
        gsub(/ /, "", own)
        if (offset_of[count] != at || substr(digits, 2 * at + 1, length(own)) != own)
            complain(title ": other bytes stand at " at " than in: " line)
        at += length(own) / 2
    }
    if (2 * at != length(digits) && fault_at != at)
        complain(title ": nothing is said of what stands at " at)
}

# An item that one of both alone has. It stands in the differences with its place.
function alone(offset, theirs, ours,    row) {
    items++
    row = row_of(title " " offset, theirs, ours, "")
    if (row)
        take(row)
    else
        complain(title " " offset " | " theirs " | " ours)
}

# An item that both have.
function compare(their, our,    theirs, ours, inside, depth, row, bytes, places) {
    theirs = their_words[their]
    ours = words_of[our]
    items++
    # TShark shows the end of a collection inside of it; lsusb shows no depths.
    inside = ours == "End Collection" && open > 0
    depth = self == "beside_tshark" ? open : 0
    if (their_depth[their] != depth || depth_of[our] != open - inside)
        complain(title " " offset_of[our] ": in " open " collections the depths are " \
            their_depth[their] " and " depth_of[our])
    if (name_of(ours) == "Collection")
        open++
    else if (inside)
        open--

    bytes = bytes_of[our]
    places = page " " bytes "\n" page "\n"
    row = row_of(places, theirs, ours, bytes)
    if (theirs == ours && !row_with_others(places, theirs, bytes))
        same++
    else if (theirs != ours && row)
        take(row)
    else
        complain(title " " offset_of[our] ": " page " " bytes " | " theirs " | " ours)
    if (name_of(ours) == "Usage Page") {
        page = ours
        sub(/^Usage Page \(/, "", page)
        sub(/\)$/, "", page)
    } else if (ours == "Push")
        kept[++pushed] = page
    else if (ours == "Pop" && pushed > 0)
        page = kept[pushed--]
}

function compare_all(    their, our) {
    if (descriptor == "")
        return
    descriptors++
    open = 0
    page = "0x0000"
    pushed = 0
    read_ours(descriptor)
    their = 1
    our = 1
    while (their <= their_count || our <= count)
        if (our > count || their <= their_count && their_offset[their] < offset_of[our]) {
            alone(their_offset[their], their_words[their], "-")
            their++
        } else if (their > their_count || their_offset[their] > offset_of[our]) {
            alone(offset_of[our], "-", words_of[our])
            our++
        } else
            compare(their++, our++)
    descriptor = ""
}

BEGIN { DIGITS = "0123456789abcdef" }

# The differences: below a reason, rows THEIRS | OURS or PLACE | THEIRS | OURS. Where the words of a
# row are told there, those of the other side have to be told here.
FILENAME == differences && /^#/ { if (!is_reason) reasons++; is_reason = 1; next }
FILENAME == differences {
    is_reason = 0
    fields = split($0, part, " [|] ")
    if (fields < 2)
        next
    rows++
    where[rows] = fields > 2 ? part[1] : ""
    left[rows] = part[fields - 1]
    right[rows] = part[fields]
    reason[rows] = reasons
    line_of[rows] = FNR
    if (index($0, "{")) {
        pattern[++marked] = rows
    } else if ((where[rows], left[rows], right[rows]) in exact)
        complain("differences, line " FNR ": it stands twice")
    else {
        exact[where[rows], left[rows], right[rows]] = rows
        others_of[where[rows], left[rows]] = rows
    }
    next
}

FILENAME == ours && /^descriptor / { digits = $2; lines_of[digits] = 0; next }
FILENAME == ours { said[digits, ++lines_of[digits]] = $0; next }

/^## / { compare_all(); title = substr($0, 4) }
/^descriptor / { descriptor = $2; their_count = 0 }
/^ *[0-9]+: / {
    their_offset[++their_count] = $1 + 0
    text = $0
    sub(/^ *[0-9]+: /, "", text)
    match(text, /^ */)
    their_depth[their_count] = RLENGTH / 2
    their_words[their_count] = substr(text, RLENGTH + 1)
}

END {
    compare_all()
    for (i = 1; i <= rows; i++)
        if (!times[i])
            complain("differences, line " line_of[i] ": it occurs nowhere: " left[i] " | " right[i])
    if (descriptors < 40)
        complain("only " descriptors + 0 " descriptors")
    if (faults > 40)
        print self ": and " faults - 40 " more" > "/dev/stderr"
    if (faults)
        exit 1
    met = 0
    for (i in reasons_met)
        met++
    printf "%s: %d descriptors, %d items: ", self, descriptors, items
    printf "%d in the same words, %d in others, for %d reasons\n", same, others, met
}' self="$self" differences="$differences" ours="$scratch/ours" \
    "$differences" "$scratch/ours" "$shown"
