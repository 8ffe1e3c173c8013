#!/bin/sh
# Calls that take memory, over worked descriptors and items (refused_memory/memory.source), and runs
# of the program's commands (refused_memory/runs.source): each of their allocations is refused in
# turn, and each answers as with ample memory, or want of memory; where none is refused, as with ample
# memory. There is a test for each allocation, which first makes as many others as bring it to the
# number that is refused in every test, so that all run at once.
# Proves nothing, takes about two minutes, and leaves nothing behind.
# Its argument, if any, is the repository to look at.
set -eu
export LC_ALL=C

. "$(dirname "$0")/../common/needs.sh"
. "$(dirname "$0")/../common/probe.sh"
need_rt refused_memory
repository=${1:-$(dirname "$0")/../..}
make_probe refused_memory "$repository" hidreport_types hidreport_items hidreport_lists hidreport_fields hidreport hidreport_linux hidreport_events hidreport_transfer hidreport_program

# More allocations than the calls make together, and than the runs do.
all=1100
of_runs=100

# The tests of a module that has a function `count_refused`, and of how many allocations.
write_refusals() {
    cat << SOURCE
use crate::$1::count_refused;
use std::alloc::Global;
use std::process::Abort;
use std::test::Fail;

const ALL: usize = $all;

fn are_made(alloc: Global, count: usize) -> bool {
    (0..count).all(|_| Vec::from_slice(alloc, b"\0").is_ok())
}

/// The calls with their nth allocation refused, where that with the number ALL is.
fn refuse<R: Abort + AllocGlobal>(rt: &R, n: usize) -> Result<(), Fail> {
    assert!(rt; are_made(rt.alloc(), ALL - n));
    match count_refused(rt, rt.alloc()) {
        0 => Ok(()),
        1 => Err(Fail::from("want of memory")),
        _ => panic!(rt; "two calls want memory"),
    }
}

#[test]
fn fewer_than_all(rt: HostRuntime) -> Result<(), Fail> {
    refuse(&rt, ALL)?;
    assert!(rt; !are_made(rt.alloc(), ALL));
    Ok(())
}
SOURCE
    n=1
    while [ "$n" -lt "$2" ]; do
        echo
        echo '#[test]'
        echo "fn refused_$n(rt: HostRuntime) -> Result<(), Fail> {"
        echo "    refuse(&rt, $n)"
        echo '}'
        n=$((n + 1))
    done
}

# What the tests of a module of refusals say: its name, what its calls are, and of how many allocations.
judge() {
    echo "$said" | grep -q "^test $1::fewer_than_all \.\.\. ok" ||
        echo "$said" | fail "the $2 make $3 allocations or more, or don't compile"
    echo "$said" | grep -q "^test $1::refused_$(($3 - 1)) \.\.\. ok" ||
        echo "$said" | fail "the $2 make $(($3 - 1)) allocations or more"
    failed=$(echo "$said" | grep -c "^test $1::.*\.\.\. FAILED") || true
    last=$(echo "$said" | sed -n "s/^test $1::refused_\([0-9]*\) \.\.\. FAILED.*/\1/p" | sort -n | tail -n 1)
    [ "$failed" -gt 0 ] || echo "$said" | fail "none of the $2 is refused memory"
    echo "refused memory, $2: $last allocations, $failed of them answered by want of memory, the others as where it is ample"
}

# The sources of the calls and the runs: those that memory.source names are modules below it.
sources="$(dirname "$0")/refused_memory"
mkdir "$scratch/crates/probe/src/memory"
for source in "$sources"/*.source; do
    part=$(basename "$source" .source)
    case $part in
        memory | mouse | runs) ;;
        *) part=memory/$part ;;
    esac
    cp "$source" "$scratch/crates/probe/src/$part.rt"
done
cat > "$probe" << SOURCE
#![tactic(auto)]

#[cfg(test)]
mod memory;
#[cfg(test)]
mod mouse;
#[cfg(test)]
mod refused_calls;
#[cfg(test)]
mod refused_runs;
#[cfg(test)]
mod runs;
SOURCE
write_refusals memory "$all" > "$scratch/crates/probe/src/refused_calls.rt"
write_refusals runs "$of_runs" > "$scratch/crates/probe/src/refused_runs.rt"
said=$(cd "$scratch/crates/probe" && "$rt" try --test --fail-alloc "$all" 2>&1) || true
# Every test that fails wants memory, and nothing else.
failed=$(echo "$said" | grep -c '^test .*\.\.\. FAILED') || true
wanting=$(echo "$said" | grep -c 'error: "want of memory"') || true
[ "$failed" -eq "$wanting" ] ||
    echo "$said" | fail 'a call answers neither as with ample memory nor want of memory'
judge refused_calls calls "$all"
judge refused_runs runs "$of_runs"
