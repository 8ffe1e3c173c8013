#!/bin/bash
# What the proofs and the cases have to notice, planted one by one in a copy, which is removed:
# - `laws`: a law with a part left out or turned (checks/mutations/planted/laws.txt). A copy of the law's file
#   stands in for it, in the row of hidreport_definitions that is named: proved of the copy as it is,
#   the row has to be refused of the planted one. Some ten seconds each.
# - `meanings`: code that does otherwise, as if its definition said so too, so that no proof would
#   tell (checks/mutations/planted/meanings.txt). The cases, built without a proof, or the tests have to tell.
#   Some 40 seconds each.
# Its arguments are these words, both without any; `laws 3` begins with the third. Laws are tried over the
# libraries that `rt ci` has left (proved.py). It is run before a version gets its number. Its status is 0
# where all are noticed.
set -eu
export LC_ALL=C

top=$(cd "$(dirname "$0")/../.." && pwd)
. "$top/checks/common/needs.sh"
. "$top/checks/common/tests.sh"
need_rt planted
scratch=$(mktemp -d)
trap 'rm -rf "$scratch"' EXIT
noticed=0
others=0

tell() {
    others=$((others + 1))
    echo "    $1"
}

# Puts the text $3 in place of $2, which has to stand once in the file $1.
plant() {
    python3 - "$1" "$2" "$3" << 'SOURCE'
import pathlib, sys
file, old, new = sys.argv[1:]
path = pathlib.Path(file)
text = path.read_text(encoding="utf-8")
if text.count(old) != 1:
    sys.exit(1)
path.unlink()
path.write_text(text.replace(old, new), encoding="utf-8")
SOURCE
}

# Checks one row, over the libraries that `rt ci` has left; a line of the end says whether it is proved.
row_is_proved() {
    (cd "$scratch/laws" && "${words[@]}" --only "$1") > "$scratch/said" 2>&1
    grep -q '^only=1 proved=1' "$scratch/said"
}

# Begins a row anew, with a copy of the law in the place of the law.
stand_in() {
    local crate="$scratch/laws" folder
    rm -rf "${crate:?}"
    mkdir "$crate"
    cp -r "$top/crates/hidreport_definitions"/{src,specs,proofs} "$crate"
    for folder in hidreport hidreport_fields hidreport_lists hidreport_items hidreport_types; do
        if [ -f "$top/crates/$folder/specs/$1.antt" ]; then
            cp "$top/crates/$folder/specs/$1.antt" "$crate/specs/Planted.antt"
        fi
    done
    grep -rl --include='*.rt' --include='*.antt' "Rattle\.hidreport\.specs\.$1\." "$crate/src" \
        "$crate/specs" "$crate/proofs" | xargs -r sed -i \
        "s/Rattle\.hidreport\.specs\.$1\./Rattle.hidreport_definitions.specs.Planted./"
    echo 'pub mod Planted' >> "$crate/specs/Lib.antt"
}

try_law() {
    local crate="$scratch/laws"
    stand_in "$law"
    if ! grep -qxF "$law $row" "$scratch/proved"; then
        row_is_proved "$row" || {
            tell "$number: $row isn't proved of a copy of $law"
            return
        }
        echo "$law $row" >> "$scratch/proved"
    fi
    plant "$crate/specs/Planted.antt" "$old" "$new" || {
        tell "$number: its text doesn't stand once in $law"
        return
    }
    if row_is_proved "$row"; then
        tell "$number: $row is proved, though $law says '$new'"
    elif grep -q '^\./specs/Planted.antt.*error' "$scratch/said"; then
        tell "$number: $law can't be read with '$new'"
    elif ! grep -q "::${row##*::}: \(not proved\|no proof\)" "$scratch/said"; then
        tell "$number: $row wasn't judged: $(tail -n 1 "$scratch/said")"
    else
        noticed=$((noticed + 1))
    fi
}

try_laws() {
    local words
    mapfile -t words < <(python3 "$top/checks/mutations/proved.py" hidreport_definitions)
    : > "$scratch/proved"
    number=0
    while read -r word text; do
        case $word in
            law:) law=$text ;;
            old:) old=$text ;;
            new:) new=$text ;;
            row:)
                row=$text
                number=$((number + 1))
                [ "$number" -lt "$first" ] || try_law < /dev/null
                ;;
        esac
    done < "$top/checks/mutations/planted/laws.txt"
    echo "planted: $noticed laws noticed, $others not"
}

# Whether the cases of a file, or the tests of a module, go as they should.
goes_well() {
    local crates="$scratch/meanings/crates"
    if [ "$asked" = tests ]; then
        (cd "$crates/hidreport_tests" && rt try --test --seconds 200) > "$scratch/said" 2>&1
        return
    fi
    bash "$top/checks/common/unproved.sh" hidreport_cases "$scratch/cases" "$scratch/meanings" ||
        return 2
    (cd "$crates/hidreport_cases/data" && "$scratch/cases" "$asked") > "$scratch/said" 2>&1
}

try_meaning() {
    local ended=0
    cp "$top/crates/$file" "$scratch/kept"
    plant "$scratch/meanings/crates/$file" "$old" "$new" || {
        tell "$number: its text doesn't stand once in $file"
        return
    }
    rm -f "$scratch/cases"
    goes_well || ended=$?
    if [ "$ended" -eq 0 ]; then
        tell "$number: $asked says nothing, though $file has '$new'"
    elif grep -q ' answered otherwise\|test result: FAILED' "$scratch/said"; then
        noticed=$((noticed + 1))
    else
        tell "$number: not tried: $(grep -m 1 error "$scratch/said" "$scratch/cases.said")"
    fi
    cp "$scratch/kept" "$scratch/meanings/crates/$file"
}

try_meanings() {
    local before=$noticed missed=$others
    make_tree_with_tests "$scratch/meanings"
    number=0
    while read -r word text; do
        case $word in
            file:) file=$text ;;
            old:) old=$text ;;
            new:) new=$text ;;
            asked:)
                asked=$text
                number=$((number + 1))
                [ "$number" -lt "$first" ] || try_meaning < /dev/null
                ;;
        esac
    done < "$top/checks/mutations/planted/meanings.txt"
    echo "planted: $((noticed - before)) meanings noticed, $((others - missed)) not"
}

first=1
case ${2:-} in
    [1-9]*) first=$2 ;;
esac
case ${1:-both} in
    laws) try_laws ;;
    meanings) try_meanings ;;
    both) try_laws && try_meanings ;;
    *)
        echo "planted: no such word: $1" >&2
        exit 2
        ;;
esac
[ "$others" -eq 0 ]
