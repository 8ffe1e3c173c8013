#!/usr/bin/env python3
"""Prints tests/hidreport_cases/data/host_usages.txt: the usages of each field as hosts read them, by
a model of how Linux's hid-core finds them (drivers/hid/hid-core.c: hid_add_usage, complete_usage,
hid_concatenate_last_usage_page, hid_parser_local, hid_add_field), which knows nothing of this
library's code. Three things are as the library has them: an item's usages have no greatest number
(hid-core stops at 12,288), a maximum below its minimum names none, and Delimiters that aren't
closed or nested are passed over. With the word `devices` it prints host_usages_of_devices.txt: the
same of the descriptors in compare/devices.txt, with `all` those of all other files of cases."""
import glob
import itertools
import os
import re
import sys

TOP = os.path.dirname(os.path.dirname(os.path.abspath(__file__)))
DATA_FILES = os.path.join(TOP, "tests/hidreport_cases/data")
SIZES = [0, 1, 2, 4]
DIRECTIONS = {0x80: "input", 0x90: "output", 0xB0: "feature"}


class Refused(Exception):
    pass


def read_items(raw):
    """Each item: its offset, its header without the size, its data; none where one can't be read."""
    items, at = [], 0
    while at < len(raw):
        head = raw[at]
        if head == 0xFE:
            size = 3 + (raw[at + 1] if at + 1 < len(raw) else 0)
        else:
            size = 1 + SIZES[head & 3]
        if len(raw) < at + size:
            return None
        prefix, data = head & 0xFC, raw[at + 1:at + size]
        if head != 0xFE and head >> 2 & 3 != 3:
            needs = prefix in DIRECTIONS or prefix in (0x74, 0x84, 0x94) or head >> 2 & 3 == 2
            if needs and not data:
                return None
            if head >> 2 & 3 == 0 and prefix not in (0x80, 0x90, 0xA0, 0xB0, 0xC0):
                return None
            items.append((at, prefix, data))
        at += size
    return items


class LocalUsages:
    """hid-core's `local`: numbers with the sizes of their items, until a main item."""

    def __init__(self):
        self.usage, self.size, self.minimum, self.branch = [], [], 0, 0

    def add(self, number, size, page):
        self.usage.append((number & 0xFFFF) | page << 16 if size <= 2 else number)
        self.size.append(size)

    def take(self, prefix, data, page):
        number = int.from_bytes(data, "little")
        if prefix == 0xA8:
            self.branch += number != 0
        elif self.branch > 1:
            return
        elif prefix == 0x08:
            self.add(number, len(data), page)
        elif prefix == 0x18:
            self.minimum = number
        elif prefix == 0x28:
            # The item itself says no more than its number.
            size = 2 if number < 65536 else 4
            for n in range(self.minimum, number + 1):
                self.add(n, size, page)

    def concatenated(self, page):
        usage = list(self.usage)
        for i in range(len(usage) - 1, -1, -1):
            if self.size[i] > 2:
                continue
            if usage[i] >> 16 == page:
                break
            usage[i] = (usage[i] & 0xFFFF) | page << 16
        return usage


def reports_of(raw):
    """Each direction's reports, by their ids, each a list of the usages of fields."""
    items = read_items(raw)
    if items is None or not raw:
        return None
    reports = {"input": {}, "output": {}, "feature": {}}
    values, stack, local, depth = {}, [], LocalUsages(), 0
    for at, prefix, data in items:
        kind = prefix >> 2 & 3
        page = values.get(0x04, 0)
        if kind == 2:
            local.take(prefix, data, page)
        elif prefix == 0xA4:
            stack.append(dict(values))
        elif prefix == 0xB4:
            if not stack:
                raise Refused(f"refused at {at}: Too many Pops, not enough Pushes")
            values = stack.pop()
        elif kind == 1:
            cut = 0xFFFF if prefix == 0x04 else 0xFF if prefix == 0x84 else 0xFFFFFFFF
            values[prefix] = int.from_bytes(data, "little") & cut
        else:
            if prefix == 0xA0:
                depth += 1
            elif prefix == 0xC0:
                if not depth:
                    raise Refused(f"refused at {at}: Too many EndCollection")
                depth -= 1
            else:
                add_fields(reports[DIRECTIONS[prefix]], at, data, values, local.concatenated(page))
            local = LocalUsages()
    return reports


def add_fields(reports, at, data, values, usages):
    size, count = values.get(0x74, 0), values.get(0x94, 0)
    if size == 0 or count == 0:
        return
    key = values.get(0x84, next(iter(reports), None))
    if data[0] & 1:
        fields = ["-"]
    elif not usages:
        raise Refused(f"refused at {at}: Missing Usages for main item")
    elif data[0] & 2:
        fields = [f"{usages[min(c, len(usages) - 1)]:08x}" for c in range(count)]
    else:
        fields = ["[" + " ".join(runs(usages)) + "]"]
    reports.setdefault(key, []).extend(fields)


def runs(usages):
    """Usages, those that count up as their first and last."""
    first = 0
    for k in range(1, len(usages) + 1):
        if k == len(usages) or usages[k] != usages[k - 1] + 1:
            last = f"..{usages[k - 1]:08x}" if k - first > 1 else ""
            yield f"{usages[first]:08x}{last}"
            first = k


def tell(digits, raw):
    print(f"host-usages {digits}")
    try:
        reports = reports_of(raw)
    except Refused as refused:
        print(f"  {refused}")
        return
    if not any(reports.values()):
        print("  no reports")
    for direction, lists in reports.items():
        for key, fields in lists.items():
            name = "" if key is None else f" id {key}"
            print(f"  {direction}{name}: {' '.join(repeated(fields))}")


def repeated(fields):
    """Fields, those that are alike and follow each other as one with their number."""
    for text, group in itertools.groupby(fields):
        count = len(list(group))
        yield text if count == 1 else f"{text}*{count}"


CASES = [
    ("A usage lies on the page in force where it stands.", [
        "0509 0901 0902 050c 0a2402 2501 7501 9503 8102", "0501 0930 0509 0901 7508 9502 8102",
        "0509 1901 2902 050c 0a2402 2501 7501 9503 8102", "0507 09e0 0508 0901 7501 9502 9102"]),
    ("The page at the main item is that of those behind the last that lies on it.", [
        "0501 0930 0509 7508 9501 8102", "0501 0930 0931 0509 7508 9502 8102",
        "0509 0901 0501 0930 0509 0902 0903 7508 9504 8102", "0509 0901 0501 0930 0509 7508 9502 8102",
        "0501 0930 0509 0901 0501 7508 9502 8102", "0501 1930 2932 0509 7508 9503 8102"]),
    ("A usage of four bytes keeps its own page, and is passed over where the last one is looked for.", [
        "0501 0b02000900 7508 9501 8102", "0501 0930 0509 0b31000100 7508 9502 8102",
        "0501 0930 0509 0b01000900 7508 9502 8102", "0b30000000 0501 7508 9501 8102",
        "0509 0901 0501 0b30000100 7508 9502 8102"]),
    ("Single usages and ranges count together, in their order.", [
        "0509 0905 1901 2903 7501 9504 8102", "0509 1901 2903 0905 7501 9504 8102",
        "0509 1901 2902 1905 2906 7501 9504 8102", "0509 1901 2902 2904 7501 9506 8102",
        "0507 0900 19e0 29e1 7508 9502 8100", "0507 1904 2906 0900 7508 9501 8100"]),
    ("A maximum without a minimum counts from 0.", [
        "0501 2905 7501 9505 8102", "0509 2903 1905 2906 7501 9506 8102", "0501 29 05 7508 9501 8100",
        "050c 2aff03 7510 9501 8100"]),
    ("A minimum alone names none, nor does one above its maximum.", [
        "0509 1901 7501 9501 8102", "0509 1901 0902 7501 9501 8102", "0509 1905 2902 7501 9501 8102",
        "0509 1905 2902 0907 7501 9502 8102", "0509 1901 2901 7501 9502 8102", "0509 1902 2901 a101"]),
    ("Usages are on page 0 where none is in force.", [
        "0930 7508 9501 8102", "0930 0501 7508 9501 8102", "1901 2902 7501 9502 8102", "0930 a101"]),
    ("A range of four bytes may go over a page's end.", [
        "1bfeff0100 2b01000200 7508 9501 8100", "1bfeff0100 2b01000200 7508 9504 8102",
        "1b01000900 2b03000900 7508 9501 8100", "0501 1901 2b02000900 7508 9501 8102"]),
    ("Of sets between Delimiters the first counts.", [
        "0501 a901 0930 a900 a901 0931 a900 7508 9501 8102",
        "0501 0932 a901 0930 a900 a901 0931 a900 7508 9502 8102",
        "0501 a901 0930 0931 a900 a901 0932 a900 0933 7508 9502 8102",
        "0501 a901 1930 2931 a900 a901 1901 a900 7508 9502 8102", "a900 0501 0930 7508 9501 8102",
        "0501 a902 0930 a900 a903 0931 a900 7508 9502 8102"]),
    ("Where there are fewer usages than fields the last is used again; an array has them all.", [
        "0501 0930 0931 7508 9503 8102", "0501 0930 0509 0901 7508 9503 8102",
        "0501 0930 0509 0901 7508 9503 8100", "0509 1901 290a 050c 09e9 7501 9505 8102"]),
    ("Locals end with each main item, whatever Push and Pop do.", [
        "0501 0930 a4 0509 0901 b4 7508 9502 8102", "0501 0930 7508 9501 a4 8102 b4 0931 8102",
        "0501 0902 a101 0930 7508 9501 8102 c0", "0501 0930 a100 7508 9501 0931 8102 c0",
        "0509 0901 c4 0b02000100 0501 7508 9502 8102"]),
    ("Constant items have no usages, and a data item without one is refused.", [
        "0501 0930 7508 9501 8101", "7508 9501 8102", "0501 1930 7508 9501 8102", "a4 b4 b4", "c0"]),
    ("More than eight local items.", [
        "0509 " + " ".join(f"09{n:02x}" for n in range(1, 13)) + " 2501 7501 950e 8102",
        "0509 " + " ".join(f"09{n:02x}" for n in range(1, 10)) + " 2501 7501 9503 8102",
        "0509 " + " ".join(f"09{n:02x}" for n in range(1, 9)) + " 2501 7501 950a 8102",
        "0509 " + " ".join(f"19{n:02x} 29{n + 1:02x}" for n in range(1, 21, 2)) + " 7501 9518 8102",
        "0501 " + " ".join(f"09{n:02x}" for n in range(1, 12)) + " 0509 7501 950b 8102"]),
    ("A range with a page of its own, in an array; an empty range holds no move of the page back.", [
        "1b30000100 2b31000100 1500 2501 7508 9501 8100", "0501 0930 0509 1905 2902 7508 9501 8102",
        "0501 0930 0509 1905 2905 7508 9502 8102"]),
    ("Nine usages in the first of two sets.", [
        "0501 a901 " + " ".join(f"09{n:02x}" for n in range(0x30, 0x39))
        + " a900 a901 0901 a900 7508 9509 8102"]),
]


def bytes_of(text):
    out = b""
    for word in text.split():
        often, _, digits = word.rpartition("*")
        out += b"" if word == "-" else bytes.fromhex(digits) * int(often or 1)
    return out


def print_own():
    print("# Usages as hosts read them.\n# compare/host_usages.py wrote this file.\n")
    for comment, questions in CASES:
        print(f"# {comment}")
        for text in questions:
            tell(text, bytes.fromhex(text.replace(" ", "")))
        print()


def print_devices():
    print("# Usages as hosts read them, of the descriptors of devices.")
    print("# compare/host_usages.py wrote this file.\n")
    for line in open(os.path.join(TOP, "compare/devices.txt")):
        if line.strip() and not line.startswith("#"):
            raw = bytes.fromhex(line.split(":")[-1].replace(" ", ""))
            tell(raw.hex(), raw)


def print_all():
    seen = set()
    for name in sorted(glob.glob(DATA_FILES + "/*.txt")):
        for question in open(name):
            found = re.match(r"(parse|shape|parse-globals) (.*)$", question)
            raw = bytes_of(found[2]) if found else b""
            if raw and len(raw) < 4096 and raw not in seen and read_items(raw) is not None:
                seen.add(raw)
                small = all(len(d) < 3 or p not in (0x94, 0x28, 0x18)
                            for _, p, d in read_items(raw))
                if small:
                    tell(raw.hex(), raw)


if __name__ == "__main__":
    {"devices": print_devices, "all": print_all}.get("".join(sys.argv[1:]), print_own)()
