#!/bin/bash
# tools.sh install | untried
# What the gate tries besides `rt` stands in tools.txt beside this. `install` asks Debian's apt-get, as
# root, for what is missing; where it may not, or can't, that stays missing. `untried` says of each row
# what wasn't tried for want of it, loudly, and its status is then 1 where CI is `true`.
set -euo pipefail
export LC_ALL=C
rows=$(dirname "$0")/tools.txt

# The rows whose command is not on the path.
missing() {
    local command package use
    while IFS='|' read -r command package use; do
        case $command in '#'* | '') continue ;; esac
        command -v "${command// /}" > /dev/null || echo "${command// /}|${package// /}|${use# }"
    done < "$rows"
}

install_missing() {
    local packages
    packages=$(missing | cut -d '|' -f 2 | sort -u)
    [ -n "$packages" ] || return 0
    if [ "$(id -u)" -ne 0 ] || ! command -v apt-get > /dev/null; then
        return 0
    fi
    export DEBIAN_FRONTEND=noninteractive
    local patience=(-o Acquire::Retries=1 -o Acquire::http::Timeout=20 -o DPkg::Lock::Timeout=120)
    apt-get update -qq "${patience[@]}" > /dev/null 2>&1 || return 0
    # One by one, so that one that isn't there keeps no other out.
    for package in $packages; do
        echo "tools: installing $package"
        apt-get install -y -qq "${patience[@]}" "$package" > /dev/null 2>&1 || true
    done
}

tell_untried() {
    local left
    left=$(missing)
    if [ -z "$left" ]; then
        echo "tools: all $(grep -c '^[^#]' "$rows") are there, so nothing is left untried"
        return 0
    fi
    sed 's/^\([^|]*\)|\([^|]*\)|\(.*\)$/UNTRIED: \3: no `\1` on the path (package \2)/' <<< "$left"
    [ "${CI:-}" != true ]
}

case $#:${1-} in
    1:install) install_missing ;;
    1:untried) tell_untried ;;
    *)
        echo 'usage: tools.sh install | untried' >&2
        exit 2
        ;;
esac
