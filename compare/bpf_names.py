#!/usr/bin/env python3
"""bpf_names.py HEADER: compares the names that `hid` knows of pages and usages with those of Linux's
drivers/hid/bpf/progs/hid_report_helpers.h, of udev-hid-bpf. It prints each macro that only one of
them has, or that has another number; its status is 0 where they are the same."""
import re
import sys

TABLE = 'crates/hid_macros/src/bpf_names.rt'


def of_header(path):
    """The macros of the header: their names, each with its number and how wide that is."""
    macros = {}
    with open(path, encoding='utf-8') as file:
        for line in file:
            row = re.match(r'#define (Usage(?:Page)?_\S+)\s+Usage(?:Page)?_i(\d+)\(0x([0-9a-f]+)\)$',
                           line.strip())
            if row:
                macros[row[1]] = (int(row[3], 16), int(row[2]))
    return macros


def of_table(path):
    """The macros that `hid` knows."""
    macros = {}
    with open(path, encoding='utf-8') as file:
        text = file.read().replace('\\\n', '').replace('\\x20', ' ')
    usages_on = dict(re.findall(r'USAGES_(\w+): &str = "([^"]*)"', text))
    for page, name, begin in re.findall(r'\(0x(\w+), "(\w+)", "(\w+)"\)', text):
        macros[f'UsagePage_{name}'] = (int(page, 16), 8 if len(page) == 2 else 16)
        for usage in usages_on.get(page.upper(), '').split():
            number = int(usage[:4], 16)
            macros[f'Usage_{begin}_{usage[4:]}'] = (number, 8 if number < 255 else 16)
    return macros


def main():
    theirs, ours = of_header(sys.argv[1]), of_table(TABLE)
    for name in sorted(theirs.keys() | ours.keys()):
        if theirs.get(name) != ours.get(name):
            print(f'{name}: {theirs.get(name)} there, {ours.get(name)} here')
    same = sum(theirs.get(name) == number for name, number in ours.items())
    print(f'bpf_names: {same} names are the same, of {len(theirs)} there and {len(ours)} here')
    sys.exit(same != len(theirs) or same != len(ours))


if __name__ == '__main__':
    main()
