#!/bin/bash
# The descriptors that the cases (tests/hidreport_cases/data) ask about, and those of
# bench/descriptors: each in a line, behind it 1 where its case says that it is refused, 0 where it
# says what is read, by a Push that keeps all and the standard's usages; else -. Bytes that are
# written as a number of times are left out.
set -eu
export LC_ALL=C

top=$(cd "$(dirname "$0")/../.." && pwd)
{
    awk '
        function asks(bytes, status) {
            gsub(/ /, "", bytes)
            if (bytes !~ /^([0-9a-f][0-9a-f])+$/) return
            if (!(bytes in said) || said[bytes] == "-") said[bytes] = status
        }
        within { asks(within, /^  refused/ ? 1 : 0); within = "" }
        /^(parse|shape) / { within = $0; sub(/^[a-z]* /, "", within) }
        /^(parse-globals|host-usages|list|rebuild|many) / { sub(/^[a-z-]* /, ""); asks($0, "-") }
        /^(parse|many)-within / { sub(/^[a-z-]* [0-9]+ /, ""); asks($0, "-") }
        /^(repair|alike) / {
            sub(/^repair [^\/]*\/|^alike /, "")
            split($0, both, "/")
            for (it in both) asks(both[it], "-")
        }
        END { for (bytes in said) print bytes, said[bytes] }' \
        "$top"/tests/hidreport_cases/data/*.txt
    for file in "$top"/bench/descriptors/*.txt; do
        echo "$(sed 's/#.*//' "$file" | tr -d ' \n')" 0
    done
} | LC_ALL=C sort -u
