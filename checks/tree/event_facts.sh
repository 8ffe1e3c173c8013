#!/bin/bash
# Compares crates/hidreport_linux/data/events.txt with a second source, kernel.txt beside it, which
# compare/linux_facts.py reads in the kernel's sources: each code has its number, each number that has a
# name one, each usage its code, and no usage is left out but those that go by a rule. Where the header
# linux/input-event-codes.h is installed, the codes that it has have the same numbers. Three spoilt rows
# are noticed.
set -euo pipefail
cd "$(dirname "$0")/../../crates/hidreport_linux/data"
export LC_ALL=C
header=/usr/include/linux/input-event-codes.h
scratch=$(mktemp -d)
trap 'rm -rf "$scratch"' EXIT

# The names and numbers of a header, as kernel.txt has them.
numbers_of() {
    awk '$1 == "#define" && $2 ~ /^(KEY|BTN|REL|ABS|MSC|LED)_/ { print $2, $3 }' "$1"
}

# What differs between rows and facts; of a header (`part`) nothing is said but the numbers that it has.
differences() {
    awk -v part="${3-}" '
    function number(digits,   i, n) {
        n = 0
        digits = toupper(digits)
        for (i = 1; i <= length(digits); i++)
            n = n * 16 + index("0123456789ABCDEF", substr(digits, i, 1)) - 1
        return n
    }
    function value(word) {
        if (word in numbers) return numbers[word]
        return word ~ /^0x/ ? number(substr(word, 3)) : word + 0
    }
    function type(name) {
        sub(/_.*/, "", name)
        return name == "BTN" ? "KEY" : name
    }
    /^#/ || /^$/ { next }
    FNR == NR && $1 == "usage" { facts[$2 " " $3] = value($4) " " $5; next }
    FNR == NR {
        numbers[$1] = value($2)
        if ($1 !~ /_(MAX|CNT|RESERVED)$/ || $1 == "KEY_BRIGHTNESS_MAX")
            named[type($1) " " numbers[$1]] = $1
        next
    }
    $1 == "usage" {
        if (!part && facts[$2 " " $3] != value($4) " " $5) print "the usage " $2 " " $3 ": " $4 " " $5
        delete facts[$2 " " $3]
        next
    }
    {
        if (part ? ($3 in numbers && numbers[$3] != number($2)) : numbers[$3] != number($2))
            print "the code " $3 ": " $2
        delete named[$1 " " number($2)]
    }
    END {
        if (part) exit
        for (code in named) print "a code without a row: " named[code]
        split("000C 00E0,000C 0238,000D 0030,000D 0045", rules, ",")
        for (i in rules) delete facts[rules[i]]
        for (usage in facts) print "a usage without a row: " usage
    }' "$1" "$2"
}

fault() {
    echo "event_facts: $*" >&2
    exit 1
}

found=$(differences kernel.txt events.txt)
[ -z "$found" ] || fault "events.txt and kernel.txt differ:" "$found"
if [ -e "$header" ]; then
    numbers_of "$header" > "$scratch/header.txt"
    found=$(differences "$scratch/header.txt" events.txt part)
    [ -z "$found" ] || fault "events.txt and $header differ:" "$found"
fi
for spoilt in 's/^KEY 01E KEY_A$/KEY 01D KEY_A/' 's/^usage 0007 0004 KEY_A /usage 0007 0004 KEY_B /' \
    '/^usage 0008 0001 /d'; do
    sed "$spoilt" events.txt > "$scratch/events.txt"
    cmp -s events.txt "$scratch/events.txt" && fault "no row is spoilt by $spoilt"
    [ -n "$(differences kernel.txt "$scratch/events.txt")" ] || fault "a spoilt row isn't seen: $spoilt"
done
