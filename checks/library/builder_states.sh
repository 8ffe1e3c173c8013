#!/bin/sh
# A builder of descriptors has each call in just the states of the table below, and the call leads to the state that stands there; of
# eighteen states and five calls no other pair compiles. Proves nothing, takes about a minute, and leaves nothing behind.
# Its argument, if any, is the repository to look at.
set -eu
export LC_ALL=C

. "$(dirname "$0")/../common/needs.sh"
. "$(dirname "$0")/../common/probe.sh"
need_rt builder_states
make_probe builder_states "${1:-$(dirname "$0")/../..}" hidreport_types hidreport_items hidreport_lists

# A state on each line, and what open_collection, close_collection, push, pop and build answer there: a builder in another state,
# the bytes, or '-' where there is no such call. The compiler prints at most twenty errors, so the table has parts.
first_part='Toplevel C1 - ToplevelPush - bytes
C1 C2 Toplevel C1Push - -
C2 C3 C1 C2Push - -
C3 C4 C2 C3Push - -
C4 C5 C3 C4Push - -
C5 C6 C4 C5Push - -
C6 C7 C5 C6Push - -
C7 C8 C6 C7Push - -
C8 - C7 C8Push - -'
second_part='ToplevelPush - - - Toplevel -
C1Push - - - C1 -
C2Push - - - C2 -
C3Push - - - C3 -
C4Push - - - C4 -'
third_part='C5Push - - - C5 -
C6Push - - - C6 -
C7Push - - - C7 -
C8Push - - - C8 -'

# A source that builds a descriptor and tests it; functions are added to it, each on a line of its own.
begin() {
    cat > "$probe" << SOURCE
#![tactic(auto)]

use hidreport_items::{CollectionItem, HidError};
use hidreport_lists::*;
use std::test::Fail;

#[test]
fn nothing_is_built(rt: HostRuntime) -> Result<(), Fail> {
    assert!(rt; ReportDescriptorBuilder::new(rt.alloc()).build()?.is_empty());
    Ok(())
}
SOURCE
    : > "$wanted"
}

# A call in a state, where it isn't there: the trait that it needs, the call, the state.
add_refused() {
    echo "pub fn $1_in_$3(b: ReportDescriptorBuilder<ReportDescriptorBuilder$3>) { let _ = b.$2; }" >> "$probe"
    want_refusal "ReportDescriptorBuilder$3" "$1"
}

# The same where it is there, and what it answers.
add_accepted() {
    answered=Vec\<u8\>
    [ "$4" = bytes ] || answered="ReportDescriptorBuilder<ReportDescriptorBuilder$4>"
    echo "pub fn $1_in_$3(b: ReportDescriptorBuilder<ReportDescriptorBuilder$3>) -> Result<$answered, HidError> { b.$2 }" >> "$probe"
}

# Adds the call where the part that is tried, 'refused' or 'accepted', has it.
add() {
    if [ "$4" = - ]; then
        [ "$tried" = accepted ] || add_refused "$@"
    else
        [ "$tried" = refused ] || add_accepted "$@"
    fi
}

add_each() {
    while read -r state inner outer pushed popped built; do
        add MayOpen 'open_collection(CollectionItem::Physical)' "$state" "$inner"
        add MayClose 'close_collection()' "$state" "$outer"
        add MayPush 'push()' "$state" "$pushed"
        add MayPop 'pop()' "$state" "$popped"
        add MayBuild 'build()' "$state" "$built"
    done << STATES
$1
STATES
}

refused() {
    tried=refused
    begin
    add_each "$1"
    expect_refusals 'a call in another state is not refused, or something else is'
    echo "$(wc -l < "$wanted") calls in other states: refused"
}

accepted() {
    tried=accepted
    begin
    add_each "$first_part"
    add_each "$second_part"
    add_each "$third_part"
    expect_success 'a call in a state that has it is not accepted'
    echo "$(grep -c '^pub fn' "$probe") calls in their states: accepted"
}

refused "$first_part"
refused "$second_part"
refused "$third_part"
accepted
