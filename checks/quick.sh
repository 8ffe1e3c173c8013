#!/bin/bash
# A contributor's loop of minutes: formats all sources, looks at the tree's rules, builds every program
# and the crates of tests/ without a proof, runs them all, and compares what is printed with what is
# stored. Its status is 0 where all is as it should be. It proves nothing: that is the gate's.
set -u
export LC_ALL=C
top=$(cd "$(dirname "$0")/.." && pwd)
cd "$top"
. checks/common/needs.sh
need_rt quick
scratch=$(mktemp -d)
trap 'rm -rf "$scratch"' EXIT
export top scratch

# Runs a program on the words, data and input beside it, and compares what it prints.
try_program() {
    cd "$top/crates/$1" || return 1
    words=() data=() input=/dev/null
    [ ! -f args ] || mapfile -t words < args
    [ ! -f stdin ] || input=stdin
    for file in data/*; do
        [ ! -f "$file" ] || data+=(--data "${file#data/}=$file")
    done
    rt try --seconds 300 "${data[@]}" -- "${words[@]}" \
        < "$input" > "$scratch/$1.stdout" 2> "$scratch/$1.said" || return 1
    diff "$scratch/$1.stdout" stdout >> "$scratch/$1.said"
}

# Tells in a line how the cases, the tests, a crate's program or the stored runs of `hid` went, and
# where they went wrong all that was said.
try_one() {
    begun=$SECONDS
    case $1 in
        hid) python3 "$top/checks/hid/runs.py" > "$scratch/$1.said" 2>&1 ;;
        cases | tests) bash "$top/checks/library/tests.sh" "$1" > "$scratch/$1.said" 2>&1 ;;
        *) try_program "$1" ;;
    esac
    ended=$?
    if [ "$ended" -eq 0 ]; then
        echo "$1: as it should be ($((SECONDS - begun)) s)"
    else
        echo "$1: NOT as it should be"
        tail -n 40 "$scratch/$1.said"
    fi
    return "$ended"
}
export -f try_program try_one

for crate in crates/*; do
    (cd "$crate" && rt fmt) > /dev/null || exit 1
done
# Those of no crate of crates/ end otherwise than in .rt (checks/tree/rules.sh).
find checks tests -name '*.source' | while read -r source; do
    cp "$source" "$scratch/source.rt"
    rattle fmt --write "$scratch/source.rt" > /dev/null || exit 1
    cmp -s "$scratch/source.rt" "$source" || cp "$scratch/source.rt" "$source"
done || exit 1
bash checks/tree.sh || exit 1

# What takes longest begins first.
tried=(hid cases tests)
for folder in crates/*; do
    [ ! -f "$folder/src/main.rt" ] || [ "$folder" = crates/hid ] || tried+=("${folder##*/}")
done
printf '%s\n' "${tried[@]}" | xargs -P "$(nproc)" -I CRATE bash -c 'try_one CRATE' || exit 1
echo "quick: all as it should be ($SECONDS s)"
