#!/usr/bin/env python3
"""Compares crates/hidreport_usages/data/usages.txt with the list of usages that Linux prints in its
debug files (drivers/hid/hid-debug.c of 6.12 or later, its argument), number by number: each usage
that one of both alone has, and each name that differs by more than spaces, marks and what stands
behind a colon. Its status is 0 where nothing is printed but what stands in DIFFERENCES below."""
import os
import re
import sys

TOP = os.path.dirname(os.path.dirname(os.path.abspath(__file__)))
OURS = os.path.join(TOP, "crates/hidreport_usages/data/usages.txt")
# Pages whose usages are numbered without end are rules here; usage 0 has no name.
RULES = (0x09, 0x0A, 0x81, 0xFFFF)
# Slips of spelling there, a mark that is lost there, and a usage of a later table here.
DIFFERENCES = {
    (0x0C, 0x029B): "ACDisributeHorizontally",
    (0x20, 0x090F): "VT_VECTORVT_UI1",
    (0x84, 0x0063): "VoltagOutOfRange",
    (0x85, 0x008B): "Rechargable",
    (0x01, 0x00AA): None,
}


def letters(name):
    return re.sub("[^a-z0-9]", "", name.lower())


def theirs(path):
    names = {}
    row = re.compile(r"\s*\{ (0x[0-9a-f]+), (0x[0-9a-f]+), \"([^\"]*)\" \}")
    with open(path, encoding="utf-8") as file:
        for page, usage, name in (match.groups() for match in map(row.match, file) if match):
            if int(page, 16) not in RULES and int(usage, 16):
                names.setdefault((int(page, 16), int(usage, 16)), name)
    return names


def ours():
    names, page = {}, 0
    with open(OURS, encoding="utf-8") as file:
        for line in file:
            if match := re.match("([0-9A-F]{2,4}) ", line):
                page = int(match[1], 16)
            elif match := re.match(r"  ([0-9A-F]{4}) (.*?)(?: \[[A-Za-z/]*\])?$", line):
                names[page, int(match[1], 16)] = match[2]
    return names


def main():
    here, there = ours(), theirs(sys.argv[1])
    differing = 0
    for number in sorted(here.keys() | there.keys()):
        own, other = here.get(number), there.get(number)
        same = own and other and letters(other) in (letters(own), letters(own.split(":")[0]))
        if not same and not (number in DIFFERENCES and DIFFERENCES[number] == other):
            print(f"{number[0]:04x} {number[1]:04x}: {own} here, {other} there")
            differing += 1
    print(f"{len(here)} usages here, {len(there)} there, {differing} differ")
    sys.exit(1 if differing or len(there) < 2000 else 0)


main()
