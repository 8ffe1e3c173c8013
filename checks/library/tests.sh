#!/bin/bash
# The crates of tests/, which nobody proves: they are built without a proof, and stop where a check as
# they run fails (an index, a sum, an access to memory).
#   tests.sh [--keep FILE]     all of both, which have to reach each branch of the library's code
#                              (checks/mutations/reached.py); the program that asks the cases is kept
#                              as FILE
#   tests.sh cases [FILE..]    asks all cases of tests/hidreport_cases/data and compares what the program
#                              prints with tests/hidreport_cases/stdout; or prints what it says of
#                              these files of cases alone
#   tests.sh tests [WORD..]    runs all tests of tests/hidreport_tests, which have to be those that
#                              stand in its file stdout; or those alone that have a WORD in their
#                              names, as names:: or builder::said_to_be_off_is_as_unsaid
# Some two minutes, half of them for each. The status is 0 where all go as they should.
set -euo pipefail
export LC_ALL=C

top=$(cd "$(dirname "$0")/../.." && pwd)
. "$top/checks/common/needs.sh"
. "$top/checks/common/tests.sh"
need_rt tests
scratch=$(mktemp -d)
trap 'rm -rf "$scratch"' EXIT
cases=$top/tests/hidreport_cases
tests=$scratch/tree/crates/hidreport_tests/src
failed=0

wrong() {
    echo "tests: $1"
    failed=1
}

build_cases() {
    bash "$top/checks/common/unproved.sh" hidreport_cases "$1" "$scratch/tree" || {
        tail -n 20 "$1.said" >&2
        echo 'tests: hidreport_cases is not built' >&2
        exit 1
    }
}

# All cases; the file is where the program lies, and stays.
ask_all() {
    local words ended=0
    build_cases "$1"
    mapfile -t words < "$cases/args"
    (cd "$cases/data" && "$1" "${words[@]}") > "$scratch/printed" 2> "$scratch/errors" || ended=$?
    [ "$ended" -eq 0 ] || wrong "hidreport_cases ends with status $ended"
    diff "$scratch/printed" "$cases/stdout" > "$scratch/differing" ||
        wrong 'hidreport_cases prints otherwise than tests/hidreport_cases/stdout has it'
    [ "$failed" -eq 0 ] || head -n 60 "$scratch/errors" "$scratch/differing"
    [ "$failed" -ne 0 ] || echo "tests: the questions of ${#words[@]} files are answered as they should"
}

ask_files() {
    build_cases "$scratch/cases"
    for file; do
        (cd "$(dirname "$file")" && "$scratch/cases" "$(basename "$file")") || failed=1
    done
}

# Leaves those tests alone whose names have one of the words: the others go, with what stands above.
choose() {
    local file
    for file in "$tests"/*.rt; do
        awk -v module="$(basename "$file" .rt)" -v words="$*" '
            function is_chosen(name,    n) {
                for (n = 1; n <= count; n++) if (index(name, word[n])) return 1
                return 0
            }
            BEGIN { count = split(words, word, " ") }
            left { left = !/^}/; next }
            /^\/\/\/|^#\[/ { held = held $0 "\n"; is_test = is_test || /^#\[test\]$/; next }
            { left = is_test && !is_chosen(module "::" substr($0, 4, index($0, "(") - 4)) }
            !left { printf "%s%s\n", held, $0 }
            { held = ""; is_test = 0 }' "$file" > "$scratch/chosen"
        cp "$scratch/chosen" "$file"
    done
}

# Runs them; what rt says is in $scratch/said.
run_tests() {
    bash "$top/checks/common/unproved.sh" --kit "$scratch/kit"
    (cd "$tests/.." && "$scratch/kit/bin/rt" try --test --seconds 300) > "$scratch/said" 2>&1 || failed=1
    grep '^test ' "$scratch/said" > "$scratch/ran" || true
}

run_all_tests() {
    local stored=$top/tests/hidreport_tests/stdout written
    written=$(cat "$tests"/*.rt | grep -c '^#\[test\]$')
    [ "$written" -eq "$(grep -c '^test .*\.\.\. ok$' "$stored")" ] ||
        wrong "the sources have $written tests, tests/hidreport_tests/stdout has other than so many"
    run_tests
    diff "$scratch/ran" "$stored" > "$scratch/differing" ||
        wrong 'other tests run, or otherwise, than tests/hidreport_tests/stdout has it'
    if [ "$failed" -eq 0 ]; then
        echo "tests: all $written tests pass"
    else
        cat "$scratch/differing"
        grep -v '^test .*\.\.\. ok$' "$scratch/said" | tail -n 40
    fi
}

# Cases and tests, and which branches they reach; the file is where the program lies, and stays.
run_all() {
    local reached=$top/checks/mutations/reached.py
    export RT_ALLOW_C=1
    # Programs run as nobody, and note there what they reach.
    chmod 755 "$scratch"
    python3 "$reached" mark "$scratch/tree" "$scratch/marks"
    ask_all "$1"
    run_all_tests
    [ "$failed" -eq 0 ] || return 0
    python3 "$reached" judge "$scratch/marks" && python3 "$reached" --spoil "$scratch/marks" || failed=1
}

make_tree_with_tests "$scratch/tree"
case ${1-}:$# in
    :0) run_all "$scratch/cases" ;;
    --keep:2) run_all "$2" ;;
    cases:1) ask_all "$scratch/cases" ;;
    cases:*) shift && ask_files "$@" ;;
    tests:1) run_all_tests ;;
    tests:*)
        shift
        choose "$@"
        run_tests
        cat "$scratch/said"
        ;;
    *)
        sed -n '4,12s/^# //p' "$0" >&2
        exit 2
        ;;
esac
exit "$failed"
