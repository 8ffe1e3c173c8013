#!/bin/bash
# What programs that are linked with the shared library take for granted: c/soname.txt has the soname, and
# of include/hidreport.h each struct, each function and each constant, as compiled programs hold them. They
# are those of the header and of the Makefile. Without --check it writes that file: what is new is added;
# where one of the older ones is gone or another it refuses, unless the Makefile has another soname.
# (A constant that is new stays out of no program's way; HIDREPORT_VERSION says itself what it is.)
set -euo pipefail
export LC_ALL=C
cd "$(dirname "$0")/../.."
noted=c/soname.txt

# The header's declarations, one in a line, without comments.
declared() {
    sed -n 's/^soname = /soname /p' Makefile
    awk '
        { text = text $0 "\n" }
        END {
            while ((start = index(text, "/*"))) {
                rest = substr(text, start + 2)
                text = substr(text, 1, start - 1) " " substr(rest, index(rest, "*/") + 2)
            }
            gsub(/\\\n/, " ", text)
            count = split(text, lines, "\n")
            text = ""
            for (i = 1; i <= count; i++) {
                line = lines[i]
                gsub(/[ \t]+/, " ", line)
                if (line ~ /^ ?#/) {
                    if (line ~ /^#define HIDREPORT_/ && line !~ /_VERSION|DEFAULTS|_H$/) print line
                } else if (line !~ /^extern "C" \{$/) text = text " " line
            }
            gsub(/[ \t]+/, " ", text)
            while (match(text, /^ *[^;{]*(\{[^}]*\})? ?;/)) {
                line = substr(text, 1, RLENGTH)
                text = substr(text, RLENGTH + 1)
                sub(/^ +/, "", line)
                if (line ~ /^enum /) {
                    sub(/^[^{]*\{ */, "", line)
                    sub(/ *\} ?;$/, "", line)
                    many = split(line, constants, /, */)
                    for (j = 1; j <= many; j++) if (constants[j] != "") print constants[j]
                } else print line
            }
        }' include/hidreport.h
}

wrong() {
    echo "soname: $1" >&2
    exit 1
}
now=$(mktemp)
trap 'rm -f "$now"' EXIT
declared > "$now"
count=$(wc -l < "$now")
[ "$count" -ge 100 ] || wrong "only $count declarations are read"
gone=$(grep -vxFf "$now" "$noted" || true)
if [ "${1-}" != --check ]; then
    [ -z "$gone" ] || [ "$(head -n 1 "$noted")" != "$(head -n 1 "$now")" ] ||
        wrong "the Makefile wants another soname, since the header hasn't any more:"$'\n'"$gone"
    cp "$now" "$noted"
fi
cmp -s "$noted" "$now" || {
    diff "$noted" "$now" >&2 || true
    wrong 'c/soname.txt has other declarations than the header: checks/tree/soname.sh writes it'
}
echo "soname: $count declarations as programs hold them"
