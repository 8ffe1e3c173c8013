#!/bin/sh
# Each flag of an item builder is set at most once: behind either setter of a flag neither of them
# compiles, and both setters of each other flag do, and turn on what they say.
# Proves nothing, takes about half a minute, and leaves nothing behind.
# Its argument, if any, is the repository to look at.
set -eu
export LC_ALL=C

. "$(dirname "$0")/../common/needs.sh"
. "$(dirname "$0")/../common/probe.sh"
need_rt second_setting
make_probe second_setting "${1:-$(dirname "$0")/../..}" hidreport_types hidreport_items

# A flag on each line, lowest first: the setter that turns it on and the state that it makes, and the
# same that leave it off. The compiler prints at most twenty errors, so the nine are in two parts.
first_part='constant IBConstant data IBData
variable IBVariable array IBArray
relative IBRelative absolute IBAbsolute
wrap IBWrap nowrap IBNoWrap
nonlinear IBNonLinear linear IBLinear'
second_part='no_preferred_state IBNoPreferred preferred_state IBPreferred
null IBNull no_null IBNoNull
volatile IBVolatile non_volatile IBNonVolatile
buffered_bytes IBBuffered bitfield IBBitfield'

# A source of functions, each on a line of its own, which build an item by two setters.
begin() {
    cat > "$probe" << SOURCE
#![tactic(auto)]

use hidreport_items::{ItemBuilder, OutputItem};

SOURCE
    : > "$wanted"
}

add() {
    echo "pub fn $1_$2() -> OutputItem { ItemBuilder::new().$1().$2().output() }" >> "$probe"
}

# A source is only looked at where there is a test.
add_a_test() {
    cat >> "$probe" << SOURCE
#[test]
fn an_item_is_built(rt: HostRuntime) {
    assert!(rt; ItemBuilder::new().output() == OutputItem::default());
}

SOURCE
}

# The function that was added last is refused, since something was said of the flag before.
refuse() {
    want_refusal "$1" IBUnsaid
}

# Behind each of the two setters of a flag both are refused, for no other reason.
refused() {
    begin
    add_a_test
    while read -r on is_on off is_off; do
        add "$on" "$on" && refuse "$is_on"
        add "$on" "$off" && refuse "$is_on"
        add "$off" "$on" && refuse "$is_off"
        add "$off" "$off" && refuse "$is_off"
    done << FLAGS
$1
FLAGS
    expect_refusals 'a second setting is not refused, or something else is'
    echo "$(wc -l < "$wanted") second settings: refused"
}

# Two setters of two flags compile in this order. What they turn on is noted as a row.
accept() {
    add "$1" "$2"
    echo "        ($1_$2(), $3)," >> "$scratch/rows"
}

# Behind each setter those of every other flag compile, and the item has just the flags that were
# turned on. A flag's number is its bit (6.2.2.5).
accepted() {
    begin
    flags="$first_part
$second_part"
    first=1
    echo "$flags" | while read -r on _ off _; do
        second=1
        echo "$flags" | while read -r on_too _ off_too _; do
            if [ "$on" != "$on_too" ]; then
                accept "$on" "$on_too" "$((first + second))"
                accept "$on" "$off_too" "$first"
                accept "$off" "$on_too" "$second"
                accept "$off" "$off_too" 0
            fi
            second=$((second * 2))
        done
        first=$((first * 2))
    done
    cat >> "$probe" << SOURCE

#[test]
fn flags_are_those_that_are_said(rt: HostRuntime) -> Result<(), std::test::Fail> {
    let rows: [(OutputItem, u16); $(wc -l < "$scratch/rows")] = [
$(cat "$scratch/rows")
    ];
    for (item, flags) in rows {
        let [low, high] = flags.to_le_bytes();
        assert_eq!(rt; item, OutputItem::try_from(rt.alloc(), &[0x92, low, high])?);
    }
    Ok(())
}
SOURCE
    expect_success 'a first setting is not accepted, or turns on something else'
    echo "$(grep -c '^pub fn' "$probe") settings of two flags: accepted, each with its own bits"
}

refused "$first_part"
refused "$second_part"
accepted
