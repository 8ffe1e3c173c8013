#!/bin/bash
# said.sh LOG: what the gate's scripts said has each line of checks/said.txt, whose numbers are exact: a
# script that asks fewer questions than it did, or none, is noticed. A row may begin with [TOOL]: its line
# is wanted where that is on the path, with [fresh] where generated/ is made of these sources. It sees last
# that each row's loss would be noticed.
set -euo pipefail
export LC_ALL=C
log=$1
rows=$(dirname "$0")/../said.txt
stale=$(sh "$(dirname "$0")/../../tools/program.sh" fresh) || true

# Whether all that a row asks for is there.
is_there() {
    local tool
    for tool; do
        case $tool in
            fresh) [ -z "$stale" ] || return 1 ;;
            *) command -v "$tool" > /dev/null || return 1 ;;
        esac
    done
}

# The lines that are wanted here.
wanted() {
    local line tools
    while IFS= read -r line; do
        case $line in
            '#'* | '') ;;
            '['*)
                tools=${line%%]*}
                # shellcheck disable=SC2086
                ! is_there ${tools#\[} || echo "${line#*\] }"
                ;;
            *) echo "$line" ;;
        esac
    done < "$rows"
}

# The wanted lines that a log doesn't have.
lacking() {
    wanted | while IFS= read -r line; do
        grep -qxF -e "$line" "$1" || echo "$line"
    done
}

lacks=$(lacking "$log")
[ -z "$lacks" ] || {
    sed 's/^/said: the gate did not say: /' <<< "$lacks" >&2
    exit 1
}
spoilt=$(mktemp)
trap 'rm -f "$spoilt"' EXIT
count=0
while IFS= read -r line; do
    count=$((count + 1))
    grep -vxF -e "$line" "$log" > "$spoilt" || true
    [ "$(lacking "$spoilt")" = "$line" ] || {
        echo "said: the loss of a line isn't noticed: $line" >&2
        exit 1
    }
done < <(wanted)
[ "$count" -ge 20 ] || {
    echo "said: checks/said.txt has $count lines alone" >&2
    exit 1
}
echo "said: $count closing lines of scripts are as stored"
