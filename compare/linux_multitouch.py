#!/usr/bin/env python3
"""Which event codes Linux gives devices that hid-multitouch or hid-sensor-hub takes, asked of its own functions
(compare/hid_multitouch).

    linux_multitouch.py SOURCES record                print compare/linux_multitouch.txt anew
    linux_multitouch.py SOURCES ask DESCRIPTOR        print the answer to a descriptor, as JSON
    linux_multitouch.py compare HID [SOURCES [COUNT]] compare `HID fields --linux --json` with
                                                      linux_multitouch.txt, or with answers to COUNT descriptors
                                                      by chance (3000); then spoil answers
    linux_multitouch.py read                          read linux_multitouch.txt, and say how much it has

SOURCES is the folder of a kernel's sources, or the word `debian`, as hid_multitouch/build.sh has it.
"""
import collections
import json
import multiprocessing
import os
import random
import subprocess
import sys
import tempfile

import linux_events
from linux_input import (FEATURE, OUTPUT, VARIABLE, EXPONENT, ID, PHYSICAL_HIGH, PHYSICAL_LOW,
                         UNIT, application, collection, constant, devices, field, item)
from linux_readings import bytes_of_line, short_hex

HERE = os.path.dirname(os.path.abspath(__file__))
FILE = os.path.join(HERE, "linux_multitouch.txt")
SEED, COUNT = 1, 3_000
# What linux_multitouch.txt may have: lines by chance, characters, and characters of a line by chance.
RECORDED, MOST, LONGEST = 600, 300_000, 900
DRIVERS = {"multitouch": "hid-multitouch", "multitouch win 8": "hid-multitouch", "sensor hub": "hid-sensor-hub"}

HEAD = """\
# Which event codes Linux gives usages of devices that hid-multitouch or hid-sensor-hub takes: what its own
# functions answered (compare/hid_multitouch, Debian's linux-source-6.12 6.12.117-1~deb12u1). Printed by
# compare/linux_multitouch.py.
#
# A line for each descriptor: GROUP DESCRIPTOR = FIELD | FIELD .., of input reports, then of output reports.
# GROUP is what hid-core's scan finds, `-` for its spaces. Of bytes `XX*N` are the bytes XX N times, and `+`
# joins parts. A FIELD is DIRECTION ID BIT SIZE USAGE:ANSWER .., BIT that of its first element behind the id's
# byte. USAGE is one of hexadecimal digits, with `*N` behind it where N in a row have the same answer. ANSWER is
# the codes, joined by `+`: TYPE.NUMBER, an axis with /MINIMUM/MAXIMUM/FUZZ/FLAT/RESOLUTION; or `-` for none.
"""

EV_KEY, EV_ABS, EV_MSC, EV_LED = 1, 3, 4, 0x11
BITS = {1: "key", 2: "rel", 4: "msc", 0x11: "led"}
X, Y, PRESSURE, SLOT, MINOR, ORIENTATION, TOOL_TYPE = 0x35, 0x36, 0x3A, 0x2F, 0x31, 0x34, 0x37
TRACKING_ID, POINTER = 0x39, {X: 0x00, Y: 0x01, PRESSURE: 0x18}
CONTACT_ID = "000d0051"


class Judge:
    """The functions of hid-core, hid-input, hid-multitouch and the input core, built from a kernel's sources."""

    def __init__(self, sources, folder):
        subprocess.run(["bash", os.path.join(HERE, "hid_multitouch/build.sh"), sources, folder], check=True)
        self.program = os.path.join(folder, "ask_multitouch")

    def answers(self, raws):
        lines = "".join(raw.hex() + "\n" for raw in raws)
        said = subprocess.run([self.program], input=lines.encode(), stdout=subprocess.PIPE,
                              check=True).stdout.decode().splitlines()
        if len(said) != len(raws):
            raise SystemExit(f"{len(said)} answers to {len(raws)} questions")
        return [json.loads(line) for line in said]


# What the answers of the kernel's functions say of a usage, as rows.

def axis_of(device, number):
    """The axis of a device, or None where it has none of this number."""
    return next((tuple(one[1:]) for one in device["abs"] if one[0] == number), None)


def has(device, kind, code):
    if kind == EV_ABS:
        return axis_of(device, code) is not None
    return code in device.get(BITS.get(kind), [])


def code_of(device, kind, code):
    return (kind, code, axis_of(device, code) if kind == EV_ABS else None)


def is_turned(fields, index):
    """Whether a usage of the device gives an orientation for itself."""
    return any(one[2] == [[EV_ABS, ORIENTATION]] and one[3] == index for some in fields for one in some["usages"])


def is_pointer(device, number):
    """Whether the device also stands for a pointer (INPUT_MT_POINTER, _DIRECT) with such an axis."""
    return device["flags"] & 3 and axis_of(device, POINTER[number])


def codes_of(answer, devices, some, usage):
    """The codes that a usage has: those that hid-multitouch gave it, with what stands for them beside in the
    end; a slot for a contact; or the one that hid-input gave it, where the device has it."""
    number, said, noted, index, kind, code = usage
    device = devices.get(index)
    if device is None or said is not None and said < 0:
        return ()
    if said and not noted and number == CONTACT_ID:
        noted = [[EV_ABS, SLOT]]
    if noted == [[EV_ABS, MINOR], [EV_ABS, ORIENTATION]] and is_turned(answer["fields"], index):
        noted = noted[:1]
    if said and noted:
        first = noted[0][1] if noted[0][0] == EV_ABS else None
        found = [code_of(device, *one) for one in noted]
        if first == SLOT:
            found.append((EV_ABS, TRACKING_ID, None))
        elif first == MINOR and len(found) == 1 and not is_turned(answer["fields"], index):
            found.append((EV_ABS, ORIENTATION, None))
        elif first in POINTER and len(found) == 1 and is_pointer(device, first):
            found.append((EV_ABS, POINTER[first], None))
        return tuple(one if k == 0 else one[:2] + (None,) for k, one in enumerate(found))
    if kind and has(device, kind, code):
        return (code_of(device, kind, code),)
    return ()


Row = collections.namedtuple("Row", "group raw fields")


def row_of_answer(raw, answer):
    """The row of an answer: a list of (direction, id, bit, size, [(usage, codes), ..])."""
    if "driver" not in answer:
        return Row("refused" if "refused" in answer else "stopped", raw, [])
    devices = {one["index"]: one for one in answer["devices"]} if answer["connected"] else {}
    fields = []
    for some in answer["fields"]:
        rows = [(int(one[0], 16), codes_of(answer, devices, some, one)) for one in some["usages"]]
        fields.append((some["type"], some["id"], some["offset"], some["size"], some["flags"], some["count"], rows))
    return Row(answer["driver"], raw, fields)


def code_text(code):
    kind, number, axis = code
    return f"{kind:x}.{number:x}" + ("/" + "/".join(map(str, axis)) if axis else "")


def code_row(text):
    word, *axis = text.split("/")
    kind, number = word.split(".")
    return int(kind, 16), int(number, 16), tuple(map(int, axis)) if axis else None


def field_text(some):
    direction, number, bit, size, flags, count, usages = some
    words, at = [], 0
    while at < len(usages):
        end = at
        while end < len(usages) and usages[end] == usages[at]:
            end += 1
        usage, codes = usages[at]
        times = f"*{end - at}" if end > at + 1 else ""
        words.append(f"{usage:x}{times}:" + ("+".join(map(code_text, codes)) or "-"))
        at = end
    return " ".join([direction[0], str(number), str(bit), str(size), f"{flags:x}", str(count), *words])


def field_row(text):
    direction, number, bit, size, flags, count, *words = text.split(" ")
    usages = []
    for word in words:
        usage, _, said = word.partition(":")
        usage, _, times = usage.partition("*")
        codes = () if said == "-" else tuple(map(code_row, said.split("+")))
        usages += [(int(usage, 16), codes)] * int(times or 1)
    return ({"i": "input", "o": "output"}[direction], int(number), int(bit), int(size), int(flags, 16),
            int(count), usages)


def line_of(row):
    return " ".join([row.group.replace(" ", "-"), short_hex(row.raw), "="]) + "".join(
        (" | " if k else " ") + field_text(some) for k, some in enumerate(row.fields))


def row_of(line):
    asked, _, said = line.partition(" =")
    group, raw = asked.split(" ")
    return Row(group.replace("-", " "), bytes_of_line(raw),
               [field_row(text) for text in said.strip().split(" | ")] if said else [])


def checked(row):
    line = line_of(row)
    if row_of(line) != row:
        raise SystemExit(f"the line doesn't say all of the answer: {line}")
    return line


def rows_of_file():
    with open(FILE) as file:
        return [row_of(line) for line in file.read().splitlines() if line and not line.startswith("#")]


def rows(judge, raws):
    return [row_of_answer(raw, answer) for raw, answer in zip(raws, judge.answers(raws))]


# What `HID fields --linux --json` says.

TYPES = {"EV_KEY": 1, "EV_REL": 2, "EV_ABS": 3, "EV_MSC": 4, "EV_LED": 0x11}
NUMBERS = {name: key for key, name in linux_events.NAMES.items()}


def codes_said(answer):
    """The codes that an answer says, as rows have them."""
    if "code" not in answer:
        return ()
    kind = answer["event_type"]
    if answer.get("name") != linux_events.NAMES.get((kind, answer["code"])):
        raise ValueError(f"{answer} has another name")
    axis = answer.get("axis")
    axis = axis and tuple(axis[k] for k in ("minimum", "maximum", "fuzz", "flat", "resolution"))
    beside = [NUMBERS[name] for name in answer.get("beside", [])]
    return ((TYPES[kind], answer["code"], axis), *((TYPES[one], number, None) for one, number in beside))


def said_by(program, raw):
    """What the program says: for each (direction, id, first bit, or None behind the elements) its usages."""
    fields, messages = linux_events.said_of(program, raw, [])
    if fields is None:
        return None, messages
    said = []
    for one in fields:
        if one["direction"].lower() == "feature" or one["kind"] == "padding":
            continue
        usages = [(usage, codes_said(answer)) for answer in one["linux"] or []
                  for usage in range(answer["first"], answer["last"] + 1)]
        said.append((one["direction"].lower(), one["report"] or 0, one.get("start"), usages))
    return said, messages


def wanted_of(row):
    """What it has to say, by the fields of the kernel: a variable field is one for each element."""
    found = []
    has_ids = any(some[1] for some in row.fields)
    for direction, number, bit, size, flags, count, usages in row.fields:
        if flags & 1 or not size * count or not usages:
            continue
        first = bit + (8 if has_ids else 0)
        if flags & 2:
            found += [(direction, number, first + size * k, [usages[k]]) for k in range(count)]
            if usages[count:]:
                found.append((direction, number, None, usages[count:]))
        else:
            found.append((direction, number, first, usages))
    return found


def has_same_usages(own, theirs):
    """An array may have its last usage more than once, for its elements, which is said once."""
    while len(theirs) > len(own) and theirs[-1] == theirs[-2]:
        theirs = theirs[:-1]
    return own == theirs


def fault_of(row, said):
    wanted = wanted_of(row)
    # Beside events of hid-input's own other codes stand, which linux_events.py compares.
    if len(said) != len(wanted):
        return f"{len(said)} fields, and Linux has {len(wanted)}"
    for own, theirs in zip(said, wanted):
        if own[:3] != theirs[:3]:
            return f"{own}, and Linux {theirs}"
        own_usages = [(usage, plain(codes)) for usage, codes in own[3]]
        if not has_same_usages(own_usages, theirs[3]):
            return f"{own}, and Linux {theirs}"
    return ""


def plain(codes):
    """The codes of a usage without those that hid-input has beside its own, which the kernel doesn't name."""
    if codes and (codes[0][0] != EV_ABS or not SLOT <= codes[0][1] <= 0x3D):
        return codes[:1]
    return codes


def compare_one(question):
    program, row = question
    try:
        said, messages = said_by(program, row.raw)
    except (ValueError, KeyError, IndexError, subprocess.TimeoutExpired) as fault:
        return row, None, "", f"no answer that can be read: {fault!r}"
    if row.group in ("refused", "stopped"):
        return row, None, "refused by Linux", "" if said is None or "codes aren't known" in messages else "it is taken"
    if said is None:
        return row, None, "refused by hid", "" if "Linux refuses it" not in messages else messages
    if "codes aren't known" in messages:
        return row, None, "not known", "codes" if any(codes for one in said for _, codes in one[3]) else ""
    return row, said, "", fault_of(row, said)


def spoilt(said):
    """The answers with one spoilt, of each kind of number."""
    for at, (direction, number, bit, usages) in enumerate(said):
        place = next((k for k, (_, codes) in enumerate(usages) if codes and codes[0][2] and codes[0][1] >= SLOT), None)
        if place is None:
            continue
        usage, codes = usages[place]
        kind, code, axis = codes[0]

        def other(*codes):
            changed = [*usages[:place], (usage, codes), *usages[place + 1:]]
            return [*said[:at], (direction, number, bit, changed), *said[at + 1:]]

        yield "code", other((kind, code ^ 1, axis), *codes[1:])
        yield "no code", other()
        yield "a code more", other(*codes, (3, 0x3E, None))
        for k, name in enumerate(("minimum", "maximum", "fuzz", "flat", "resolution")):
            yield name, other((kind, code, (*axis[:k], axis[k] + 1, *axis[k + 1:])), *codes[1:])
        yield "a missing field", said[:-1]
        break
    beside = next(((at, k) for at, one in enumerate(said) for k, (_, codes) in enumerate(one[3])
                   if len(plain(codes)) > 1), None)
    if beside:
        at, k = beside
        direction, number, bit, usages = said[at]
        changed = [*usages[:k], (usages[k][0], usages[k][1][:1]), *usages[k + 1:]]
        yield "beside", [*said[:at], (direction, number, bit, changed), *said[at + 1:]]
    none = next(((at, k) for at, one in enumerate(said) for k, (_, codes) in enumerate(one[3]) if not codes), None)
    if none:
        at, k = none
        direction, number, bit, usages = said[at]
        changed = [*usages[:k], (usages[k][0], ((1, 0x100, None),)), *usages[k + 1:]]
        yield "a code where none is", [*said[:at], (direction, number, bit, changed), *said[at + 1:]]


def compare(program, some):
    """Compares all rows; 0 where all is the same, and where each spoilt answer is noticed."""
    counts, unnoticed = collections.Counter(), collections.Counter()
    with multiprocessing.Pool(int(os.environ.get("JOBS", "2"))) as pool:
        for row, said, kind, fault in pool.imap(compare_one, [(program, row) for row in some], 8):
            counts[row.group] += 1
            if kind:
                counts[kind] += 1
            if fault:
                counts["faults"] += 1
                print(f"{row.group} {short_hex(row.raw)}: {fault}")
                continue
            if kind:
                continue
            counts["usages"] += sum(len(one[3]) for one in said)
            counts["codes"] += sum(bool(codes) for one in said for _, codes in one[3])
            for name, other in spoilt(said):
                counts["spoilt"] += 1
                unnoticed[name] += not fault_of(row, other)
    print("linux_multitouch:", ", ".join(f"{name}: {count}" for name, count in sorted(counts.items())))
    for name in (name for name, count in unnoticed.items() if count):
        print(f"spoilt and not noticed: {name}")
    return counts["faults"] != 0 or not counts["codes"] or not counts["spoilt"] or any(unnoticed.values())


# Descriptors by chance, around each rule.

SCREEN, PAD, PEN, DIAL = 0xD0004, 0xD0005, 0xD0002, 0x1000E
FINGER = 0xD0022


def unit(code, exponent, low, high):
    return item(UNIT, code) + item(EXPONENT, exponent) + item(PHYSICAL_LOW, low, 2) + item(PHYSICAL_HIGH, high, 2)


class Made:
    """Descriptors with touch reports, and others beside."""

    def __init__(self, seed):
        self.random = random.Random(seed)

    def one_of(self, words):
        return words[self.random.randrange(len(words))]

    def rarely(self, times):
        return self.random.randrange(times) == 0

    def measure(self):
        return self.one_of((b"", unit(0x11, 0x0E, 0, 2000), unit(0x13, 0x0E, 0, 1000), unit(0x14, 0, 0, 360),
                            unit(0x11, 0x0F, 0, 300), item(UNIT, 0), unit(0x12, 0x0D, -10, 900)))

    def contact(self):
        """The fields of a contact."""
        bits = [0xD0042, 0xD0032, 0xD0047, 0xD0033, 0xD0037]
        switches = [0xD0042] * (not self.rarely(9)) + [one for one in bits[1:] if self.rarely(3)]
        self.random.shuffle(switches)
        parts = [field([one], 1, 1, 0, 1) for one in switches]
        if not self.rarely(12):
            flags = VARIABLE if not self.rarely(20) else self.one_of((0, 3))
            parts.append(field([0xD0051], self.one_of((4, 8)), 1, 0, self.one_of((10, 15, 5)), flags))
        both = self.rarely(3)
        for one in 0x10030, 0x10031:
            if self.rarely(12):
                continue
            named = self.one_of(([one, one], [one], [one, one])) if both else [one]
            parts.append(self.measure() + field(named, 16, 2 if both else 1, self.one_of((0, 0, -100)),
                                                self.one_of((4095, 32767, 1023))))
        for one in 0xD0048, 0xD0049, 0xD0030, 0xD003F:
            if self.rarely(2):
                low, high = self.one_of(((0, 255), (0, 127), (1, 5), (-127, 127), (0, 0)))
                parts.append(self.measure() + field([one], 8, 1, low, high if one != 0xD003F else self.one_of((
                    100, 127, 63, 3, -1 if low < -1 else 4))))
        if self.rarely(4):
            parts.append(field([self.one_of((0xD005B, 0xD003D, 0xFF000001, 0x10032, 0xD0054, 0xFF01_0002, 0x20001,
                                             0xD0055, 0xD0022, 0xD0038, 0xD0020, 0x70004))],
                               8, 1, 0, 100))
        if self.rarely(5):
            self.random.shuffle(parts)
        return parts

    def fingers(self, app):
        count = self.one_of((1, 1, 2, 3, 5))
        one = self.contact()
        fingers = []
        for _ in range(count):
            own = one if not self.rarely(4) else self.contact()
            kind = self.one_of((2, 2, 2, 2, 2, 0))
            number = self.one_of((FINGER, FINGER, FINGER, FINGER, 0xD0020, 0xD0001))
            fingers.append(collection(kind, number, *own) if not self.rarely(15) else b"".join(own))
        return fingers

    def rest(self, app):
        """What stands beside the contacts."""
        parts = []
        if self.rarely(2):
            parts.append(field([0xD0056], 16, 1, 0, 65535))
        if not self.rarely(3):
            parts.append(field([0xD0054], 8, 1, 0, 10))
        if self.rarely(3) or app in (PAD, DIAL):
            first = self.one_of((1, 1, 1, 2, 0, 0x1EF, 0x1F0, 0x1F1, 0x201))
            count = self.one_of((1, 1, 2, 3))
            parts.append(field((0x90000 + first, 0x90000 + first + count - 1), 1, count, 0, 1)
                         + constant(8 - count))
        if self.rarely(6):
            parts.append(field((0x80001, 0x80003), 1, 3, 0, 1, VARIABLE, OUTPUT)
                         + item(0x74, 5) + item(0x94, 1) + item(OUTPUT, 1))
        self.random.shuffle(parts)
        return parts

    def touch(self, numbers):
        app = self.one_of((SCREEN, SCREEN, SCREEN, PAD, PAD, PAD, PEN, DIAL, 0xD0001, 0x10002, 0x10006, 0x1000C, 0xD0003))
        parts = [item(ID, next(numbers))] if numbers else []
        fingers, rest = self.fingers(app), self.rest(app)
        parts += rest + fingers if self.rarely(8) else fingers + rest
        if numbers and self.rarely(4):
            # Another report of the same application.
            parts += [item(ID, next(numbers)), *(self.fingers(app) if self.rarely(2) else self.single())]
        if self.rarely(2):
            ident = [item(ID, next(numbers))] if numbers and not self.rarely(3) else []
            most = self.one_of((5, 10, 0, 250, 251, 15, 1, 2, 255))
            parts += ident + [field([0xD0055], 8, self.one_of((1, 1, 1, 2)), 0, most, VARIABLE, FEATURE)]
        if numbers and not self.rarely(2):
            kind = self.random.randrange(6)
            head = [item(ID, next(numbers))]
            if kind < 3:
                head.append(field([0xFF0000C5], 8, 256, 0, 255, VARIABLE, FEATURE))
            elif kind == 3:
                head.append(field([0xFF0000C6], 8, 1, 0, 255, VARIABLE, FEATURE))
            elif kind == 4:
                head.append(field([0xFF0000C5], 8, self.one_of((255, 1)), 0, 255, VARIABLE, FEATURE))
            else:
                head.append(field([0xFF0000C6, 0xFF0000C5], 8, self.one_of((2, 256)), 0, 255, VARIABLE, FEATURE))
            parts += head
        return application(app, *parts)

    def single(self):
        """A pen or a single touch, of hid-input's own."""
        parts = [field([one], 1, 1, 0, 1) for one in (0xD0042, 0xD0032, 0xD003C, 0xD0044, 0xD0045) if self.rarely(2)]
        parts.append(field([0x10030, 0x10031], 16, 2, 0, 4095))
        if self.rarely(3):
            parts.append(field((0x90001, 0x90003), 1, 3, 0, 1))
        return [collection(self.one_of((0, 2)), self.one_of((0xD0020, FINGER)), *parts)]

    def other(self, numbers):
        parts = [item(ID, next(numbers))] if numbers else []
        app, own = self.one_of((
            (0x10002, [field((0x90001, 0x90003), 1, 3, 0, 1), constant(5), field([0x10030, 0x10031, 0x10038], 8, 3,
                                                                                 -127, 127, 6)]),
            (0x10006, [field((0x700E0, 0x700E7), 1, 8, 0, 1), field((0x70000, 0x70065), 8, 2, 0, 101, 0),
                       field((0x80001, 0x80003), 1, 3, 0, 1, VARIABLE, OUTPUT)]),
            (0xC0001, [field([0xC00E9, 0xC00EA], 1, 2, 0, 1)]),
            (0x10080, [field([0x10081, 0x10082], 1, 2, 0, 1)]),
            (0x1000C, [field([0x100C6], 1, 1, 0, 1)]),
            (PEN, self.single()), (0xFF000001, [field([0xFF000002], 8, 1, 0, 255)]),
            (0xD0001, self.single()), (0x10005, [field([0x10030, 0x10031], 8, 2, 0, 255)])))
        return application(app, *parts, *own)

    def whole(self):
        numbers = iter(range(1, 256)) if not self.rarely(5) else None
        parts = [self.touch(numbers)]
        for _ in range(self.one_of((0, 0, 0, 1, 2)) if numbers else 0):
            parts.append(self.other(numbers) if not self.rarely(4) else self.touch(numbers))
        if self.rarely(3):
            self.random.shuffle(parts)
        return b"".join(parts)

    def sensor(self):
        numbers = iter(range(1, 256))
        parts = [collection(self.one_of((0, 1)), 0x200073, item(ID, next(numbers)), field([0x200453], 16, 1, 0, 100))]
        parts += [self.other(numbers) for _ in range(self.one_of((0, 1, 2)))]
        self.random.shuffle(parts)
        return b"".join(parts)


def made(seed, count):
    """So many descriptors by chance, each once."""
    makers, found = Made(seed), {}
    while len(found) < count:
        found.setdefault(makers.sensor() if makers.rarely(12) else makers.whole(), None)
    return list(found)


def recorded(judge):
    """The lines of the file: of each device that one of the drivers takes, and by chance."""
    known = [row for row in rows(judge, devices()) if row.group in DRIVERS]
    lines = [checked(row) for row in known]
    room = MOST - len(HEAD) - sum(len(line) + 1 for line in lines)
    taken = 0
    for row in rows(judge, made(SEED, 8 * RECORDED)):
        line = checked(row)
        if row.group in DRIVERS and len(line) <= LONGEST and taken < RECORDED and len(line) < room:
            lines.append(line)
            room -= len(line) + 1
            taken += 1
    return lines


def main(words):
    if words == ["read"]:
        some = rows_of_file()
        print(f"{len(some)} descriptors, {sum(len(one[-1]) for row in some for one in row.fields)} usages")
        return 0
    if words[:1] == ["compare"] and len(words) == 2:
        return compare(words[1], rows_of_file())
    if len(words) < 2:
        raise SystemExit(__doc__)
    with tempfile.TemporaryDirectory() as folder:
        judge = Judge(words[2] if words[0] == "compare" else words[0], folder)
        if words[0] == "compare":
            count = int(words[3]) if len(words) > 3 else COUNT
            return compare(words[1], [row for row in rows(judge, devices() + made(SEED, count))
                                      if row.group in DRIVERS])
        if words[1] == "record":
            print(HEAD, *recorded(judge), sep="\n")
        else:
            print(json.dumps(judge.answers([bytes.fromhex(words[2])])[0]))
    return 0


if __name__ == "__main__":
    sys.exit(main(sys.argv[1:]))
