#!/bin/sh
# Allocations, counted by refusing one of them: a list of a thousand items is made with at most 64,
# and each call of those below, which are said to take no memory, takes none.
# There is a test for each allocation, which first makes as many others as bring it to the number that
# is refused in every test, so that all run at once.
# Proves nothing, takes about half a minute, and leaves nothing behind.
# Its argument, if any, is the repository to look at.
set -eu
export LC_ALL=C

. "$(dirname "$0")/../common/needs.sh"
. "$(dirname "$0")/../common/probe.sh"
need_rt item_allocations
make_probe item_allocations "${1:-$(dirname "$0")/../..}" \
    hidreport_types hidreport_items hidreport_lists hidreport_fields hidreport

# More allocations than the descriptor of the calls takes, or a list of items may.
all=65

cat > "$probe" << 'SOURCE'
#![tactic(auto)]

#[cfg(test)]
mod calls;
#[cfg(test)]
mod items;
#[cfg(test)]
mod refusals;
SOURCE

# Calls by their names, and whether each answers what it is to answer: of descriptors and fields.
for part in calls items; do
    cp "$(dirname "$0")/item_allocations/$part.source" "$scratch/crates/probe/src/$part.rt"
done

# The same of items.

# A test for each allocation up to $all: that one is refused, by others that are made before. Where
# it is the descriptor's the test fails so. Where it is the first behind the descriptor's, none of
# the calls may make it.
{
    cat << SOURCE
use crate::calls::{self, DESCRIPTOR};
use crate::items;
use hidreport::ReportDescriptor;
use hidreport_lists::ReportDescriptorItems;
use std::alloc::Global;
use std::test::Fail;

const ALL: usize = $all;

fn are_made(alloc: Global, count: usize) -> bool {
    (0..count).all(|_| Vec::from_slice(alloc, b"\0").is_ok())
}

fn refuse(alloc: Global, n: usize) -> Result<(), Fail> {
    if !are_made(alloc, ALL - n) {
        return Err(Fail::from("another allocation is refused"));
    }
    let Ok(descriptor) = ReportDescriptor::try_from(alloc, DESCRIPTOR) else {
        return Err(Fail::from("want of memory"));
    };
    if let Some(name) = calls::wrong_call(alloc, &descriptor).or(items::wrong_call(alloc)) {
        return Err(Fail::from(name));
    }
    if are_made(alloc, ALL) {
        return Err(Fail::from("a call takes memory, and answers without it"));
    }
    Ok(())
}

fn list(alloc: Global, n: usize) -> Result<(), Fail> {
    if !are_made(alloc, ALL - n) {
        return Err(Fail::from("another allocation is refused"));
    }
    let items = ReportDescriptorItems::try_from(alloc, &[0xa4; 1000])?;
    if items.as_slice().len() != 1000 {
        return Err(Fail::from("another list"));
    }
    Ok(())
}
SOURCE
    for n in 1 2 4 8 16 32 65; do
        echo
        echo '#[test]'
        echo "fn list_$n(rt: HostRuntime) -> Result<(), Fail> {"
        echo "    list(rt.alloc(), $n)"
        echo '}'
    done
    n=1
    while [ "$n" -le "$all" ]; do
        echo
        echo '#[test]'
        echo "fn refused_$n(rt: HostRuntime) -> Result<(), Fail> {"
        echo "    refuse(rt.alloc(), $n)"
        echo '}'
        n=$((n + 1))
    done
} > "$scratch/crates/probe/src/refusals.rt"

said=$(cd "$scratch/crates/probe" && "$rt" try --test --fail-alloc "$all" 2>&1) || true
echo "$said" | grep -q '^test refusals::list_1 \.\.\. FAILED' && echo "$said" | grep -q 'error: OutOfMemory' ||
    echo "$said" | fail 'the first allocation is not refused'
echo "$said" | grep -q "^test refusals::refused_$all \.\.\. ok" ||
    echo "$said" | fail 'a call takes memory, or is answered otherwise'
of_descriptor=$(echo "$said" | grep -c 'error: "want of memory"') || true
failed=$(echo "$said" | grep -c '^test refusals::refused_.* \.\.\. FAILED') || true
[ "$of_descriptor" -gt 0 ] && [ "$of_descriptor" -eq "$failed" ] ||
    echo "$said" | fail 'a call takes memory, or is answered otherwise'
calls=$(grep -c '^        ("' "$scratch/crates/probe/src/calls.rt")
calls=$((calls + $(grep -c '^        ("' "$scratch/crates/probe/src/items.rt")))

for refused in 2 4 8 16 32 65; do
    if echo "$said" | grep -q "^test refusals::list_$refused \.\.\. ok"; then
        echo "a list of a thousand items: fewer than $refused allocations; $calls calls: none"
        exit 0
    fi
done
echo "$said" | fail 'a list of a thousand items takes more than 64 allocations'
