#!/usr/bin/env python3
"""Which input events Linux sends for reports, asked of its own functions (compare/hid_input).

    linux_input.py SOURCES made [SEED] [COUNT]   prints questions with answers: of each device in devices.txt,
                                                 those that show a rule each, and of COUNT descriptors by
                                                 chance; 1 and 1500 unless said
    linux_input.py SOURCES record                prints compare/linux_input.txt anew
    linux_input.py SOURCES ask WORD ..           prints the answer to a descriptor and reports, as JSON
    linux_input.py compare HID [SOURCES]         compares `HID values --linux --json` with linux_input.txt, or
                                                 with the answers to the made questions; then spoils answers
    linux_input.py read                          reads linux_input.txt, and says how much it has

SOURCES is the folder of a kernel's sources, or the word `debian`, as hid_input/build.sh has it.
"""
import collections
import itertools
import json
import multiprocessing
import os
import random
import subprocess
import sys
import tempfile

import linux_events
from linux_readings import bytes_of_line, short_hex

HERE = os.path.dirname(os.path.abspath(__file__))
FILE = os.path.join(HERE, "linux_input.txt")
SEED, COUNT = 1, 1_500
# What linux_input.txt may have: lines by chance, characters, and characters of a line by chance.
RECORDED, MOST, LONGEST = 1_000, 700_000, 450

HEAD = """\
# Which input events Linux sends for reports: what its own functions answered, as hid-generic drives
# devices (compare/hid_input, Debian's linux-source-6.12 6.12.117-1~deb12u1). Printed by
# compare/linux_input.py.
#
# A line for each descriptor:
#
#   GROUP DEVICES DESCRIPTOR REPORT .. = EVENTS | EVENTS ..
#
# GROUP is `refused`, with nothing behind the `=`; `generic`, or what hid-core's scan finds else, `-`
# for its spaces: the events are those of hid-generic then, too. DEVICES are the input devices,
# INDEX:APPLICATION joined by commas, or `-` where hid-input takes none; a device without codes is
# left out, its index isn't used again. Of bytes `XX*N` are the bytes XX N times, and `+` joins parts.
# A report has its id first, where there are ids.
#
# EVENTS are those of a report, as handlers of input devices get them: DEVICE:TYPE:CODE:VALUE, in
# decimal digits, behind each other; `-` where there are none, `x` where hid-core refuses the report,
# and `!` where the kernel was stopped by a division, and behind that.
"""


def item(head, number=0, size=None):
    """An item with a number, in the fewest bytes that hold it with a sign."""
    if size is None:
        size = 1 if -128 <= number < 128 else 2 if -32768 <= number < 32768 else 4
    code = {0: 0, 1: 1, 2: 2, 4: 3}[size]
    return bytes([head | code]) + (number % 2**(8 * size)).to_bytes(size, "little")


PAGE, LOW, HIGH, PHYSICAL_LOW, PHYSICAL_HIGH, EXPONENT, UNIT = 0x04, 0x14, 0x24, 0x34, 0x44, 0x54, 0x64
SIZE, ID, COUNTED, USAGE, FIRST, LAST = 0x74, 0x84, 0x94, 0x08, 0x18, 0x28
INPUT, OUTPUT, FEATURE, OPEN, END = 0x80, 0x90, 0xB0, 0xA0, b"\xc0"
VARIABLE, RELATIVE, NULL_STATE, BUFFERED = 2, 4, 0x40, 0x100


def unsigned(head, number):
    """An item with a number, in the fewest bytes that hold it without a sign."""
    return item(head, number, 1 if number < 256 else 2 if number < 65536 else 4)


def usages_of(numbers, heads=(USAGE,)):
    """Usages, by short items behind their Usage Page where they have one page, else with their pages."""
    heads = itertools.cycle(heads)
    if len({one >> 16 for one in numbers}) == 1:
        return unsigned(PAGE, numbers[0] >> 16) + b"".join(
            unsigned(next(heads), one & 0xFFFF) for one in numbers)
    return b"".join(item(next(heads), one, 4) for one in numbers)


def bounds(low, high):
    return item(LOW, low) + item(HIGH, high)


def collection(kind, number, *parts):
    return usages_of([number]) + item(OPEN, kind) + b"".join(parts) + END


def application(number, *parts):
    return collection(1, number, *parts)


def field(usages, size, count, low, high, flags=VARIABLE, head=INPUT):
    """A main item; the usages are numbers, or a range (FIRST, LAST) as a tuple."""
    named = usages_of(usages, (FIRST, LAST) if isinstance(usages, tuple) else (USAGE,))
    return named + bounds(low, high) + item(SIZE, size) + item(COUNTED, count) + item(head, flags)


def constant(size, count=1):
    return item(SIZE, size) + item(COUNTED, count) + item(INPUT, 1)


class Made:
    """Descriptors by chance: each of the methods in KINDS makes those of a branch of hid-input."""

    def __init__(self, seed):
        self.random = random.Random(seed)

    def one_of(self, words):
        return words[self.random.randrange(len(words))]

    def rarely(self, times):
        return self.random.randrange(times) == 0

    def some(self, words, least=1):
        """At least so many of the words, by chance, in an order by chance."""
        words = list(words)
        self.random.shuffle(words)
        return words[:self.random.randrange(least, len(words) + 1)]

    def flags(self, *more):
        found = VARIABLE
        for flag in more:
            found |= self.one_of((0, flag))
        return found | (BUFFERED if self.rarely(12) else 0)

    def padded(self, *parts):
        """The parts, filled up to whole bytes or not."""
        return b"".join(parts) + (constant(self.random.randrange(1, 8)) if self.rarely(2) else b"")

    def hats(self):
        low, high = self.one_of(((0, 7), (0, 7), (1, 8), (1, 8), (0, 3), (1, 4), (0, 8), (0, 15), (-1, 6),
                                 (0, 0), (0, 315), (0, 35999), (0, 65535), (-4, 3), (5, 5), (0, 1), (1, 127)))
        size = self.one_of((4, 4, 8)) if high < 16 and low >= -8 else 8 if high < 128 else \
            16 if high < 32768 else 32
        hat = field([0x10039] * self.one_of((1, 1, 1, 2)), size, self.one_of((1, 1, 1, 2)), low, high,
                    self.flags(NULL_STATE, NULL_STATE) | (RELATIVE if self.rarely(12) else 0))
        if self.rarely(10):
            hat = field([0x10039], 4, 1, low, high, 0)
        axes = field([0x10030, 0x10031], 8, 2, -127, 127) if self.rarely(2) else b""
        buttons = field((0x90001, 0x90004), 1, 4, 0, 1) if self.rarely(2) else b""
        return application(self.one_of((0x10004, 0x10005, 0x10002, 0x10008)),
                           *self.some([self.padded(hat), axes, self.padded(buttons), self.directions()]
                                      if self.rarely(4) else [hat, self.padded(buttons), axes], 2))

    def directions(self):
        pads = self.some((0x10090, 0x10091, 0x10092, 0x10093))
        how = self.random.randrange(4)
        if how == 0:
            return b"".join(field([one], 1, 1, 0, 1, self.flags(BUFFERED)) for one in pads)
        if how == 1:
            return field(pads, 4, self.one_of((1, 2)), self.one_of((0, 1)), len(pads), 0)
        return field(pads, self.one_of((1, 1, 2)), len(pads), 0, 1, self.flags(RELATIVE))

    def pad(self):
        return application(self.one_of((0x10005, 0x10004, 0x10002)), self.padded(self.directions()),
                           self.directions() if self.rarely(3) else b"",
                           field([0x10039], 4, 1, 0, 7, 0x42) if self.rarely(4) else b"",
                           field((0x90001, 0x90003), 1, 3, 0, 1) if self.rarely(2) else b"")

    def multiplier(self):
        low, high = self.one_of(((0, 1), (0, 1), (0, 1), (0, 3), (-1, 1), (1, 1), (0, -1)))
        physical = self.one_of(((1, 2), (1, 4), (1, 8), (1, 16), (1, 120), (1, 255), (1, 256), (0, 0),
                                (-1, -4), (1, -8), (1, 128), (0, 5), (1, 127), (1, 7), (1, 250)))
        if (low, high) == (0, -1):
            low, high = -1, 0
        return item(PHYSICAL_LOW, physical[0]) + item(PHYSICAL_HIGH, physical[1]) + field(
            [0x10048] * self.one_of((1, 1, 1, 1, 2)), self.one_of((2, 2, 4, 8)), self.one_of((1, 1, 1, 1, 2)),
            low, high, VARIABLE, FEATURE) + item(PHYSICAL_LOW, 0) + item(PHYSICAL_HIGH, 0) + (
            field([0x10049], 4, 1, 0, 1, VARIABLE, FEATURE) if self.rarely(5) else b"")

    def wheel(self, number=None):
        number = number or self.one_of((0x10038, 0x10038, 0xC0238))
        low, high, size = self.one_of(((-127, 127, 8), (-127, 127, 8), (-1, 1, 2), (-32767, 32767, 16),
                                       (0, 255, 8), (0, 0, 8), (-2047, 2047, 12),
                                       (-2147483647, 2147483647, 32)))
        return field([number] * self.one_of((1, 1, 1, 2)), size, self.one_of((1, 1, 1, 2)), low, high,
                     self.one_of((6, 6, 6, 6, 6, 2, 0x46, 0x106)))

    def wheels(self):
        how = self.random.randrange(7)
        both = [self.multiplier(), self.wheel()]
        if how == 0:
            parts = [self.wheel()]
        elif how == 1:
            parts = [collection(2, 0x10002, *self.some(both, 2))]
        elif how == 2:
            parts = self.some(both, 2)
        elif how == 3:
            parts = [collection(2, 0x10002, self.multiplier(), collection(self.one_of((0, 2, 3)), 0x10001,
                                                                          self.wheel()))]
        elif how == 4:
            parts = [collection(2, 0x10002, self.multiplier(), self.wheel(0x10038)),
                     collection(2, 0x10002, self.multiplier(), self.wheel(0xC0238))]
        elif how == 5:
            parts = [collection(2, 0x10002, collection(self.one_of((0, 2)), 0x10001, self.multiplier()),
                                self.wheel()), self.multiplier() if self.rarely(3) else b""]
        else:
            parts = [collection(0, 0x10001, collection(2, 0x10002, self.multiplier(), self.wheel(0x10038),
                                                       self.wheel(0xC0238)))]
        # hid-core is to find one device, whose reports have an id or none.
        mouse = field((0x90001, 0x90003), 8, 3, 0, 1) if self.rarely(2) else b""
        more = field([0x10030, 0x10031], 8, 2, -127, 127, 6) if self.rarely(2) else b""
        whole = [item(ID, 1) if self.rarely(3) else b"", mouse, more, *parts]
        if self.rarely(8):
            return b"".join(parts) + application(0x10002, field([0x10030], 8, 1, -127, 127, 6))
        return application(0x10002, *whole)

    def volumes(self):
        low, high = self.one_of(((-5, 5), (-1, 1), (-20, 20), (0, 10), (-40, 40), (1, 3), (0, 0)))
        volume = field([0xC00E0] + ([0xC00E9] if self.rarely(4) else []), 8, self.one_of((1, 1, 2)), low,
                       high, self.one_of((6, 6, 6, 2, 0x46, 4)))
        keys = field([0xC00E9, 0xC00EA, 0xC00E2], 1, 3, 0, 1, self.flags(RELATIVE)) if self.rarely(2) else b""
        return application(self.one_of((0xC0001, 0x10006)), *self.some([volume, self.padded(keys)], 2))

    SWITCHES = (0xD0032, 0xD0032, 0xD0042, 0xD0042, 0xD003C, 0xD003C, 0xD0045, 0xD0045, 0xD0044, 0xD005A,
                0xD0033, 0xD0043, 0xD0046)

    def pen_fields(self, switches):
        found = [field([one], self.one_of((1, 1, 1, 1, 2)), 1, 0, 1,
                       self.flags(NULL_STATE if self.rarely(3) else 0))
                 for one in switches]
        if self.rarely(3) and len(switches) > 1:
            found = [field(switches, 1, len(switches), 0, 1)]
        return found

    def pens(self):
        switches = list(dict.fromkeys(self.some(self.SWITCHES, 2)))
        parts = self.pen_fields(switches)
        if not self.rarely(3):
            top = self.one_of((255, 1023, 7, 127))
            parts.append(field([0xD0030], 16 if top > 255 else 8, 1, self.one_of((0, 0, 0, 1, -3)),
                               top, self.flags(NULL_STATE)))
        if not self.rarely(3):
            parts.append(field([0x10030, 0x10031], 16, 2, 0, 4095, self.flags(NULL_STATE)))
        if self.rarely(3):
            parts.append(field([0xD003D, 0xD003E], 8, 2, -60, 60))
        if self.rarely(4):
            parts.append(field([0xD005B], 32, 1, 0, 0x7FFFFFFF))
        if self.rarely(5):
            parts.append(field([0x10032], 8, 1, 0, 63))
        self.random.shuffle(parts)
        inner = self.one_of((0xD0020, 0xD0020, 0xD0020, 0xD0021, 0xD0022, 0xD0002, None))
        whole = [collection(self.one_of((0, 0, 0, 2)), inner, *parts)] if inner else parts
        if self.rarely(4):
            # A second report of the same device.
            whole = [item(ID, 1), *whole, item(ID, 2), collection(0, 0xD0020, *self.pen_fields(
                self.some((0xD0032, 0xD0042, 0xD0045, 0xD003C)))), constant(4)]
        return application(self.one_of((0xD0002, 0xD0002, 0xD0002, 0xD0001, 0xD0004, 0xD0005)), *whole)

    def erasers(self):
        """Pens with the switches of tools alone, in each order."""
        orders = itertools.permutations((0xD0032, 0xD0042, 0xD003C, 0xD0045), self.one_of((2, 3, 4)))
        switches = self.one_of(list(orders))
        return application(0xD0002, collection(0, 0xD0020, *self.pen_fields(switches), field(
            [0xD0030], 8, 1, 0, 64) if self.rarely(3) else constant(8)))

    AXES = (0x10030, 0x10031, 0x10032, 0x10033, 0x10034, 0x10035, 0x10036, 0x10037, 0x10038, 0x200BA, 0x200BB,
            0x200C4, 0x200C5, 0x200C8, 0xC00E0)

    def axes(self):
        parts = []
        for one in self.some(self.AXES, 1)[:5]:
            low, high = self.one_of(((0, 255), (-127, 127), (1, 10), (-10, -1), (0, 0), (5, 5), (0, 1),
                                     (-1, 1), (10, 200), (0, 15), (-8, 7), (0, 65535), (-32768, 32767)))
            size = self.one_of((8, 8, 16)) if -128 <= low and high < 256 else 16
            flags = self.flags(NULL_STATE, NULL_STATE)
            if self.rarely(4) and one != 0xC00E0:
                flags |= RELATIVE
            parts.append(field([one], size, 1, low, high, flags))
        return application(self.one_of((0x10002, 0x10001, 0x10004, 0x10005, 0x10008, 0xD0001)), *parts)

    KEYS = (0x70004, 0x70005, 0x70028, 0x70032, 0x70031, 0x700E1, 0x90001, 0x90002, 0x90003, 0xC00E9, 0xC00CD,
            0xC0192, 0x10081, 0x10082, 0x100A9, 0x100B5, 0xB002F, 0xB00B1, 0x1003D, 0x1009B, 0x70000, 0x70101)

    def wide_keys(self):
        low, high = self.one_of(((0, 1), (0, 1), (0, 3), (-1, 1), (0, 5), (0, 0), (1, 2), (-2, 5), (0, 2)))
        size = self.one_of((2, 3, 4, 8))
        keys = self.some(self.KEYS, 1)[:self.random.randrange(1, 5)]
        return application(self.one_of((0x10006, 0x10002, 0xC0001, 0x10005)),
                           field(keys, size, len(keys), low, high,
                                 self.flags(RELATIVE, NULL_STATE, BUFFERED)))

    def relative_keys(self):
        keys = self.some(self.KEYS, 2)[:6]
        return application(self.one_of((0x10006, 0xC0001)), self.padded(field(
            keys, self.one_of((1, 1, 2)), len(keys), 0, 1, VARIABLE | RELATIVE | self.one_of((0, BUFFERED)))))

    def arrays(self):
        how = self.random.randrange(5)
        flags = self.one_of((0, 0, 0, RELATIVE, NULL_STATE, BUFFERED))
        count = self.one_of((1, 2, 3, 6))
        if how == 0:
            keys = field((0x70000, 0x70065), 8, count, 0, 101, flags)
        elif how == 1:
            keys = field((0x70001, 0x70010), 8, count, 1, 16, flags)
        elif how == 2:
            some = self.some(self.KEYS, 2)
            first = self.one_of((0, 1, -3))
            keys = field(some, 8, count, first, first + len(some) - self.one_of((1, 1, 2, 0)), flags)
        elif how == 3:
            keys = field((0xC0000, 0xC03FF), 16, self.one_of((1, 2)), 0, 0x3FF, flags)
        else:
            keys = field([0x10081, 0x10082, 0x10083], 2, 1, 1, 3, flags)
        modifiers = field((0x700E0, 0x700E7), 1, 8, 0, 1) if self.rarely(2) else b""
        return application(self.one_of((0x10006, 0x10006, 0xC0001, 0x10080)), modifiers, keys)

    def lamps(self):
        kept = self.some((0x80001, 0x80002, 0x80003, 0x80009, 0x8004B, 0x80019, 0x80027, 0x80010))
        inputs = field(kept, 1, len(kept), 0, 1, self.flags(RELATIVE, BUFFERED))
        outputs = field((0x80001, 0x80005), 1, 5, 0, 1, VARIABLE, OUTPUT)
        keys = field((0x70004, 0x70007), 1, 4, 0, 1)
        return application(0x10006, *self.some([self.padded(inputs), outputs, keys], 2))

    def several(self):
        """Some applications, each with reports of its own, or in one report."""
        makers = [lambda: (0x10006, field((0x700E0, 0x700E7), 1, 8, 0, 1),
                           field((0x70000, 0x70065), 8, 2, 0, 101, 0)),
                  lambda: (0x10002, field((0x90001, 0x90003), 1, 3, 0, 1), constant(5),
                           field([0x10030, 0x10031, 0x10038], 8, 3, -127, 127, 6)),
                  lambda: (0xC0001, field((0xC0000, 0xC03FF), 16, 1, 0, 0x3FF, 0)),
                  lambda: (0x10080, field([0x10081, 0x10082], 1, 2, 0, 1), constant(6)),
                  lambda: (0x10005, field([0x10030, 0x10031], 8, 2, 0, 255)),
                  lambda: (0xFF000001, field([0xFF000002], 8, 1, 0, 255)),
                  lambda: (0x10004, field([0x80001], 8, 1, 0, 1, 2, OUTPUT)),
                  lambda: (0x10001, constant(8)),
                  lambda: (0xD0002, field([0xD0032, 0xD0042], 4, 2, 0, 1))]
        self.last_id, self.has_ids = 0, not self.rarely(4)
        found = b""
        for make in self.some(makers, 2)[:4]:
            number, *parts = make()
            found += application(number, *self.numbered(), *parts)
        return found

    def numbered(self):
        if not self.has_ids:
            return []
        if not self.rarely(6) or not self.last_id:
            self.last_id += 1
        return [item(ID, self.last_id)]

    def sticks(self):
        top = self.one_of((255, 1023, 1023, 4095, 65535))
        low = self.one_of((0, 0, -top // 2))
        high = top if low == 0 else top // 2
        size = 8 if top == 255 else 16
        axes = self.some((0x10030, 0x10031, 0x10032, 0x10035, 0x10036), 1)
        count = self.one_of((4, 12, 16, 20, 40))
        return application(self.one_of((0x10004, 0x10005)), field(axes, size, len(axes), low, high,
                                                                 self.flags(NULL_STATE)),
                           self.padded(field((0x90001, 0x90000 + count), 1, count, 0, 1)))

    def full(self):
        """More events in a report than a packet holds."""
        how = self.random.randrange(4)
        count = self.one_of((7, 8, 9, 12, 20, 40))
        if how == 0:
            return application(0x10006, field((0x70004, 0x70003 + count), 1, count, 0, 1))
        if how == 1:
            return application(0x10002, field((0x90001, 0x90000 + min(count, 16)), 1, min(count, 16), 0, 1),
                               field([0x10030, 0x10031], 8, 2, -127, 127, 6))
        if how == 2:
            return application(0x10005, field(list(self.AXES[:8]), 8, 8, 0, 255),
                               field((0x90001, 0x90000 + count), 1, count, 0, 1))
        return application(0x10006, field((0x70000, 0x70065), 8, self.one_of((6, 10, 14)), 0, 101, 0))

    def odd(self):
        """Fields of no bits and of many, constant ones, values past the usages, usages past the values."""
        makers = [lambda: field([0x10030], 0, 1, 0, 1), lambda: field([0x10031], 8, 0, 0, 1),
                  lambda: field([0x10032], 40, 1, -127, 127), lambda: field([0x10033], 33, 1, 0, 0x7FFFFFFF),
                  lambda: field([0x10034], 32, 1, -2147483648, 2147483647),
                  lambda: constant(self.one_of((1, 7, 8, 40))),
                  lambda: field([0x10035], 8, 1, 0, 255, 3), lambda: field((0x90001, 0x90003), 1, 6, 0, 1),
                  lambda: field((0x90004, 0x90009), 1, 3, 0, 1), lambda: field([0x10036], 8, 3, 0, 100),
                  lambda: field([0x70004, 0x70005], 8, 2, 0, 5, 0),
                  lambda: field([0x90001, 0x90001], 1, 2, 0, 1),
                  lambda: field((0x90005, 0x90006), 1, 2, 0, 1, BUFFERED | VARIABLE),
                  lambda: item(SIZE, 5) + item(COUNTED, 1) + item(INPUT, 2)]
        return application(self.one_of((0x10002, 0x10004, 0x10006)),
                           *(make() for make in self.some(makers, 2)[:6]))

    def radios(self):
        return application(self.one_of((0x1000C, 0x1000C, 0x10006)), self.padded(field(
            [0x100C6], self.one_of((1, 1, 2)), self.one_of((1, 1, 2)), 0, 1, self.flags(RELATIVE, BUFFERED))),
            field([0x80001], 1, 1, 0, 1, 2, OUTPUT) if self.rarely(2) else b"")

    def many_axes(self):
        parts = [field([0x10030, 0x10031, 0x10032], 16, 3, -500, 500, self.one_of((2, 6, 2, 6)))]
        if self.rarely(2):
            parts.append(field([0x10033, 0x10034, 0x10035], 16, 3, -350, 350, self.one_of((2, 6))))
        parts.append(field((0x90001, 0x90008), 1, 8, 0, 1))
        return application(self.one_of((0x1000E, 0x10008)), *parts) + (application(
            0x10002, field([0x10030], 8, 1, -127, 127, 6)) if self.rarely(3) else b"")

    def macros(self):
        last = self.one_of((4, 31, 36))
        flags = self.one_of((2, 2, 6))
        buttons = field((0x90001, 0x90000 + last), 1, last, 0, 1, flags) if self.rarely(2) else field(
            (0x90001, 0x90000 + last), 8, 2, 1, last, 0)
        return application(0xC0001, collection(
            self.one_of((4, 4, 4, 2)), self.one_of((0xC0003, 0xC0003, 0xC0004)), self.padded(buttons)))

    OTHERS = (0xF0083, 0xF007F, 0xF00A4, 0xF0021, 0x900020, 0x900021, 0x60020, 0x850065, 0x850044,
              0x850066, 0xFF010021, 0xFF7F0001, 0xFF000001, 0xFF430001, 0x400001, 0x400002, 0x200073,
              0xD0047, 0xD0048, 0xD0051, 0x140001, 0x90000, 0x9FFFF, 0x90300, 0x1003E, 0x100B1, 0x10094,
              0x10080, 0x1003A, 0x1003B, 0xC0000, 0xC0036, 0xC0400, 0x20001, 0xB0020, 0x8002B, 0xD003B)

    def others(self):
        parts = []
        for one in self.some(self.OTHERS, 1)[:5]:
            size = self.one_of((1, 1, 8, 8, 4))
            parts.append(field([one], size, 1, 0, 2**size - 1, self.flags(RELATIVE, NULL_STATE)))
        return application(self.one_of((0x10002, 0x10006, 0x10005, 0xC0001)), *parts, self.padded())

    def contacts(self):
        """Slots, whose values come in the order of the slots."""
        def contact(order):
            parts = {"t": field([0xD0042], 1, 1, 0, 1), "r": field([0xD0032], 1, 1, 0, 1), "c": constant(6),
                     "i": field([0xD0051], 8, 1, 0, 9), "p": field([0xD0030], 8, 1, 0, 255),
                     "x": field([0x10030, 0x10031], 8, 2, 0, 255)}
            return collection(self.one_of((2, 2, 0)), 0xD0022, *(parts[one] for one in order))
        order = self.some("trcipx", 3)
        contacts = [contact(order) for _ in range(self.one_of((1, 2)))]
        return application(self.one_of((0xD0004, 0xD0005)), *contacts,
                           field([0xD0054], 8, 1, 0, 5) if self.rarely(2) else b"")

    def mixed(self):
        """Parts of the others, one behind the other."""
        makers = (self.wheels, self.hats, self.pens, self.arrays, self.axes, self.wide_keys, self.odd,
                  self.lamps)
        return self.one_of(makers)() + self.one_of(makers)()

    def physicals(self):
        """Buttons whose codes hang on the innermost Physical collection, and any keys."""
        inner = self.one_of((0x10001, 0x10002, 0x10004, 0x10005, 0x10006, 0xD0020))
        return application(self.one_of((0x10008, 0x10006, 0xD0001, 0xC0001, 0x10007)), collection(
            self.one_of((0, 0, 0, 2)), inner, self.padded(field((0x90001, 0x90004), 1, 4, 0, 1)),
            field([0x10030], 8, 1, 0, 255) if self.rarely(3) else b""))

    def any_keys(self):
        """Usages of pages that have codes for many."""
        first, last = self.one_of((
            (0x70000, 0x700FF), (0xC0000, 0xC02FF), (0xC0000, 0xC02FF), (0x10080, 0x100BF),
            (0x80000, 0x8004F), (0xB00B0, 0xB00BF), (0xD0030, 0xD005F), (0xFF010020, 0xFF010090),
            (0xFF7F0000, 0xFF7F0005), (0x900020, 0x900022), (0x10030, 0x1003F), (0x90001, 0x90060),
            (0x200BA, 0x200C8)))
        usages = [first + self.random.randrange(last - first + 1) for _ in range(self.one_of((1, 4, 6)))]
        size = self.one_of((1, 1, 1, 8))
        return application(self.one_of((0x10006, 0xC0001, 0x10002, 0x10080, 0x10005)), field(
            usages, size, len(usages), 0, 2**size - 1, self.flags(RELATIVE)) if not self.rarely(4) else field(
                usages, 8, 2, 1, len(usages), 0))

    def refusals(self):
        """What isn't taken, or taken by no input device."""
        return self.one_of((b"\xa1", b"\x81\x02",
                            application(0x10006, item(LOW, 2) + item(HIGH, 1) + item(INPUT, 2)),
                            application(0x10020, field([0x10030], 8, 1, 0, 9)),
                            collection(2, 0x10006, field([0x70004], 8, 1, 0, 1)),
                            application(0x10006, constant(8)), application(0x10002, constant(8), field(
                                [0x70001], 8, 1, 0, 1, 0)),
                            application(0x840004, field([0x850066], 8, 1, 0, 100)),
                            collection(0, 0x10002, field([0x10030], 8, 1, -9, 9, 6)),
                            application(0x200001, field([0x200201], 8, 1, 0, 5))))


KINDS = (Made.hats, Made.hats, Made.pad, Made.wheels, Made.wheels, Made.volumes, Made.pens, Made.pens,
         Made.pens, Made.erasers, Made.axes, Made.axes, Made.wide_keys, Made.relative_keys, Made.arrays,
         Made.arrays, Made.lamps, Made.several, Made.several, Made.sticks, Made.full, Made.full, Made.odd,
         Made.odd, Made.radios, Made.many_axes, Made.macros, Made.others, Made.contacts, Made.mixed,
         Made.physicals, Made.any_keys, Made.any_keys, Made.refusals)


class Reports:
    """Reports of a descriptor: mostly the one before with a value changed."""

    def __init__(self, seed, raw):
        self.random = random.Random(f"{seed} {raw.hex()}")
        try:
            self.reports = linux_events.Parser(raw).reports["input"]
        except linux_events.Refused:
            self.reports = {}
        self.last = {number: bytearray(self.size(number)) for number in self.reports}

    def one_of(self, words):
        return words[self.random.randrange(len(words))]

    def size(self, number):
        return (self.reports[number]["size"] + 7) // 8

    def set(self, number, start, size, value):
        """Sets the bits of a value in the report of this id."""
        data = self.last[number]
        if size == 0:
            return
        whole = int.from_bytes(data, "little")
        whole &= ~((2**size - 1) << start)
        self.last[number] = bytearray((whole | value % 2**size << start).to_bytes(len(data), "little"))

    def get(self, number, start, size, is_signed):
        value = int.from_bytes(self.last[number], "little") >> start & (2**size - 1)
        return value - 2**size if is_signed and size and value >> (size - 1) else value

    def value(self, main, old):
        low, high = main.lmin, main.lmax
        if not main.flags & 2:
            usages = max(len(main.own), 1)
            if 0x70001 in main.own and self.one_of((True, *[False] * 20)):
                return low + main.own.index(0x70001)
            return self.one_of((0, low + self.random.randrange(usages), low + self.random.randrange(usages),
                                low + self.random.randrange(min(usages, 8)), low, high, high + 1, low - 1,
                                old))
        span = max(high - low, 0)
        if main.size >= 30 and self.random.randrange(8) == 0:
            # Times 120 it is -2147483648 in 32 bits.
            return 0x10000000
        return self.one_of((0, 1, 0, 1, low, high, low - 1, high + 1,
                            low + (span >> 3), low + (span >> 3) + 1,
                            low + self.random.randrange(span + 1), low + self.random.randrange(span + 1),
                            old + self.one_of((-9, -5, -3, -2, -1, 1, 2, 3, 5, 9)),
                            self.random.getrandbits(32),
                            self.one_of((-1, 2, 3, 5, -120, 40, 120))))

    def change(self, number, every=False):
        """A value of each field, or of one, becomes another; of a field, mostly, all its values."""
        fields = [main for main in self.reports[number]["fields"]
                  if main.size * main.count and not main.flags & 1]
        if not fields:
            return
        for main in fields if every else [self.one_of(fields)]:
            places = range(min(main.count, 200))
            for place in places if every else [self.one_of(places)]:
                start = main.offset + place * main.size
                old = self.get(number, start, main.size, main.lmin < 0)
                self.set(number, start, main.size, self.value(main, old))

    def roll_over(self, number):
        """Each value of an array is ErrorRollOver, if there is such."""
        for main in self.reports[number]["fields"]:
            if not main.flags & 3 and 0x70001 in main.own:
                value = main.lmin + main.own.index(0x70001)
                for place in range(main.count):
                    self.set(number, main.offset + place * main.size, main.size, value)

    def bound(self, number, which):
        for main in self.reports[number]["fields"]:
            value = (0, 1, main.lmin, main.lmax, main.lmin - 1, main.lmax + 1)[which]
            for place in range(min(main.count, 200)):
                self.set(number, main.offset + place * main.size, main.size, value)

    def tame(self, number, most):
        """No relative volume has more than so many steps."""
        for main in self.reports[number]["fields"]:
            if not main.flags & 4 or 0xC00E0 not in main.own:
                continue
            for place in range(main.count):
                start = main.offset + place * main.size
                old = self.get(number, start, main.size, main.lmin < 0)
                value = min(max(old, main.lmin), main.lmax) if main.lmin < main.lmax else old
                if abs(value) > most:
                    self.set(number, start, main.size, value % most)

    def bytes(self, number, most):
        self.tame(number, most)
        return (bytes([number]) if number else b"") + bytes(self.last[number])

    def listed(self, number, count, most=40):
        """So many reports of this id: those at the bounds first, then some by chance."""
        size = self.size(number)
        # All zero, each field at a bound, all ones.
        starts = [0, 3, *self.random.sample((1, 2, 4, 5), 4)][:max(count // 3, 1)]
        for which in starts:
            self.bound(number, which)
            yield self.bytes(number, most)
        done = len(starts)
        while done < count:
            how = self.random.randrange(12)
            if how == 0:
                self.last[number] = bytearray(self.random.randbytes(size))
            elif how == 1:
                self.change(number, True)
            elif how == 2:
                self.last[number] = bytearray(self.one_of((b"\0", b"\xff")) * size)
            elif how == 3:
                self.roll_over(number)
            elif how != 4:
                for _ in range(self.one_of((1, 1, 1, 2, 3))):
                    self.change(number)
            # `how` 4: the report before, once more.
            yield self.bytes(number, most)
            done += 1

    def faulty(self):
        """Reports that are cut short, too long, or of an id that there isn't."""
        numbers = list(self.reports)
        if not numbers:
            return [b"\0", b"\1\2\3"]
        number = self.one_of(numbers)
        whole = self.bytes(number, 5)
        found = [whole + self.one_of((b"\0", b"\xff", b"\1\2\3\4"))]
        if len(whole) > 1:
            found.append(whole[:-1])
        if number:
            found.append(bytes([self.one_of([one for one in range(256) if one not in numbers])]) + whole[1:])
        return found

    def all(self, count, least=1):
        """So many reports, over all ids; of each id at least so many."""
        numbers = [number for number in self.reports if self.size(number)]
        lists = [list(self.listed(number, max(least, count // max(len(numbers), 1)))) for number in numbers]
        if len(lists) > 1 and self.one_of((True, False)):
            # Of each id one after the other.
            found = [one for some in itertools.zip_longest(*lists) for one in some if one is not None]
        else:
            found = list(itertools.chain(*lists))
        faulty = [one for one in self.faulty() if one]
        for one in faulty:
            found.insert(self.random.randrange(len(found) + 1), one)
        return found


def sequence(text):
    """Reports in hexadecimal digits, behind spaces."""
    return [bytes.fromhex(word) for word in text.split()]


def pen_sequences():
    """A pen's switches in each order, as it comes near, touches, is turned round and goes; then by chance."""
    for count in 4, 3, 2:
        for order in itertools.permutations(("near", "tip", "invert", "eraser"), count):
            usages = dict(near=0xD0032, tip=0xD0042, invert=0xD003C, eraser=0xD0045)
            for pressure in (False, True) if count < 4 else (False,):
                raw = application(0xD0002, collection(
                    0, 0xD0020, *(field([usages[one]], 1, 1, 0, 1) for one in order), constant(8 - count),
                    field([0xD0030], 8, 1, 0, 64) if pressure else b""))
                steps = ("near", "near tip", "near", "", "near invert", "near invert eraser", "near invert",
                         "near", "", "invert eraser", "near eraser", "eraser", "tip", "near tip",
                         "tip invert", "")
                yield raw, [bytes([sum(1 << place for place, one in enumerate(order) if one in step.split())])
                            + (bytes([9 if "tip" in step or "eraser" in step else 8]) if pressure else b"")
                            for step in steps]


def fixed():
    """Questions whose answers show a rule each."""
    every = [bytes([value]) for value in range(16)]
    for low, high in ((0, 7), (1, 8), (0, 3), (1, 4), (0, 5), (0, 15), (2, 15), (-8, 7), (-1, 6)):
        for flags in 2, 0x42, 6:
            yield application(0x10004, field([0x10039], 4, 1, low, high, flags), constant(4)), every
    # Just below the bounds of more than eight directions it points up.
    yield application(0x10004, field([0x10039], 8, 1, 1, 16)), sequence("05 00 05 01 11 10 12")
    two = field([0x10039, 0x10039], 4, 2, 0, 7, 0x42)
    yield application(0x10005, two), sequence("ff 0f f0 88 12 21 70 07 08")
    yield (application(0x10005, field([0x10039], 16, 1, 0, 35999, 0x42)),
           sequence("0000 9411 2823 9f8c a08c ffff"))
    yield (application(0x10005, field([0x10039], 32, 1, 0, 65535, 0x42)),
           sequence("00000000 01000000 ffff0000 00000100"))
    for order in ([0x10090, 0x10091, 0x10092, 0x10093], [0x10093, 0x10090], [0x10092]):
        yield application(0x10005, field(order, 1, len(order), 0, 1), constant(8 - len(order))), every
        apart = b"".join(field([one], 1, 1, 0, 1) for one in order)
        yield application(0x10005, apart, constant(8 - len(order))), every
        yield application(0x10005, field(order, 4, 1, 1, len(order), 0), constant(4)), every[:6]
    # Wheels: the sum of what is less than a click wraps at 16 bits; at the last one the kernel is stopped.
    steps = sequence("0100 0100 ffff 1101 1201 1301 ff7f 0080 0180 0000")
    yield application(0x10002, field([0x10038], 16, 1, -32767, 32767, 6)), steps
    for low, high, count in ((1, 2, 1), (1, 8, 1), (1, 120, 1), (1, 7, 1), (1, 128, 1), (1, 255, 1),
                             (-1, -8, 1), (1, 8, 2), (0, 256, 1)):
        multiplier = item(PHYSICAL_LOW, low) + item(PHYSICAL_HIGH, high) + field(
            [0x10048], 4, count, 0, 1, 2, FEATURE) + item(PHYSICAL_LOW, 0) + item(PHYSICAL_HIGH, 0)
        wheel, pan = (field([one], 8, 1, -127, 127, 6) for one in (0x10038, 0xC0238))
        some = sequence("0100 0300 0001 00ff 7f80 0505 f0f0")
        yield application(0x10002, collection(2, 0x10002, multiplier, wheel), pan), some
        yield application(0x10002, multiplier, wheel, pan), some
        yield application(0x10002, collection(0, 0x10001, collection(2, 0x10002, multiplier, wheel,
                                                                     pan))), some
        yield application(0x10002, collection(2, 0x10002, multiplier), wheel, pan), some
        apart = collection(2, 0x10002, multiplier, wheel)
        yield apart + application(0x10002, field([0x90001], 8, 1, 0, 1)), sequence("0100 0801 f800")
        wide = field([0x10038], 32, 1, -2147483647, 2147483647, 6)
        yield application(0x10002, multiplier, wide), sequence("01000000 ffffffff 00000010 01000000")
    # A relative volume has steps only where the device has other keys.
    mute = field([0xC00E2], 8, 1, 0, 1)
    for flags in 6, 2, 0x46, 4:
        for low, high in ((-5, 5), (0, 0), (0, 5)):
            volume = field([0xC00E0], 8, 1, low, high, flags)
            if low < high:
                yield application(0xC0001, volume), sequence("00 01 01 02 ff fd 05 06 00")
            steps = "0000 0100 0101 0201 0500 0600" + (" ff01 fd00" if low < 0 else "")
            yield application(0xC0001, volume, mute), sequence(steps)
    # A keyboard: a key comes, another, ErrorRollOver, both go; a key twice; a modifier.
    boot = application(0x10006, field((0x700E0, 0x700E7), 1, 8, 0, 1), constant(8), field(
        (0x80001, 0x80005), 1, 5, 0, 1, 2, OUTPUT), field((0x70000, 0x70065), 8, 6, 0, 101, 0))
    yield boot, sequence("0000000000000000 0000040000000000 0000040500000000 0000050400000000 "
                         "0000010101010101 0200050600000000 0000000000000000 0000040404000000 "
                         "0000000400000000 0000313200000000 0000000000000000 00000465ff660000 "
                         "0000000000000000 0000040506070809 00000a0b0c0d0e0f")
    for flags in 2, 6, 0x102, 0x42:
        for low, high in ((0, 1), (0, 3), (-1, 1), (0, 0), (0, 5)):
            yield (application(0x10006, field([0x70004], 8, 1, low, high, flags)),
                   sequence("00 01 01 02 02 05 ff 00 01 03 00"))
    yield application(0x10006, field([0x70031, 0x70032, 0x70064], 1, 3, 0, 1), constant(5)), every[:8]
    for flags in 2, 6, 0x102:
        yield (application(0x10006, field((0x80001, 0x80003), 1, 3, 0, 1, flags), constant(5)),
               every[:8] + every[6:8])
    # What is out of bounds is kept as it came, and compared with what is within them.
    yield (application(0xD0002, field([0xD005B], 16, 1, 0, 255), field([0xD0042], 8, 1, 0, 1)),
           sequence("2c0100 2c0100 ff0000 ff0000 000001 000002"))
    yield (application(0x10004, field([0x10030], 8, 1, 0, 100, 0x42), field([0x90001], 8, 1, 0, 1, 0x42)),
           sequence("3201 f005 3201 0000 f0f0 0001"))
    # As many keys as a packet holds, one less and one more.
    for count in range(3, 11):
        yield application(0x10006, field((0x70004, 0x70003 + count), 1, count, 0, 1), constant(16 - count)), [
            (2**count - 1).to_bytes(2, "little"), b"\0\0", b"\1\0"]
    axes = field([0x10030, 0x10031, 0x10032], 8, 3, 0, 255)
    for count in range(5, 10):
        buttons = field((0x90001, 0x90000 + count), 1, count, 0, 1)
        yield application(0x10005, axes, buttons, constant(16 - count)), [
            b"\1\2\3" + (2**count - 1).to_bytes(2, "little"), b"\1\2\3\0\0", b"\2\3\4\1\0"]
    # Sticks, whose axes have a fuzz of 3: small steps are kept back, or averaged.
    values = (0, 500, 501, 502, 503, 505, 508, 514, 513, 511, 505, 1023, 1030, 1020)
    yield application(0x10004, field([0x10030], 16, 1, 0, 1023)), [
        value.to_bytes(2, "little") for value in values]
    yield application(0x1000C, field([0x100C6], 1, 1, 0, 1), constant(7)), sequence("00 01 01 00 01 00")
    yield from pen_sequences()


def devices():
    """The descriptors of devices.txt, each once."""
    with open(os.path.join(HERE, "devices.txt")) as file:
        lines = [line for line in file.read().splitlines() if line.strip() and not line.startswith("#")]
    return list(dict.fromkeys(bytes.fromhex(line.split(":")[-1].replace(" ", "")) for line in lines))


def made(seed, count):
    """So many descriptors by chance, each once, of each kind in turn."""
    makers, found = Made(seed), {}
    for turn in itertools.count():
        if len(found) >= count or turn > 50 * count:
            return list(found)
        raw = KINDS[turn % len(KINDS)](makers)
        found.setdefault(raw, None)


def questions(seed, count):
    """Descriptors with their reports: of devices, those that are fixed, and by chance."""
    for raw in devices():
        reports = Reports(seed, raw)
        yield raw, reports.all(12 * len(reports.reports), 12)
    yield from fixed()
    for raw in made(seed, count):
        yield raw, Reports(seed, raw).all(20)


class Judge:
    """The functions of hid-core, hid-input and the input core, built from the sources of a kernel."""

    def __init__(self, sources, folder):
        subprocess.run(["bash", os.path.join(HERE, "hid_input/build.sh"), sources, folder], check=True)
        self.program = os.path.join(folder, "ask_input")

    def answers(self, asked):
        """The answer to each (descriptor, reports)."""
        lines = "".join(" ".join([raw.hex(), *(one.hex() for one in reports)]) + "\n"
                        for raw, reports in asked)
        said = subprocess.run([self.program], input=lines.encode(), stdout=subprocess.PIPE,
                              check=True).stdout.decode().splitlines()
        if len(said) != len(asked):
            raise SystemExit(f"{len(said)} answers to {len(asked)} questions")
        return [json.loads(line) for line in said]


Row = collections.namedtuple("Row", "group devices raw reports events")


def row_of_answer(raw, reports, answer):
    """The row: `events` has for each report a list of (device, type, code, value), None or "stopped"."""
    if "driver" not in answer:
        return Row("refused" if "refused" in answer else "stopped", [], raw, reports, [])
    events = [[tuple(one) for one in some] if isinstance(some, list) else some for some in answer["events"]]
    return Row(answer["driver"], [tuple(one) for one in answer["devices"]], raw, reports, events)


def line_of(row):
    """The line of a row in linux_input.txt."""
    words = [row.group.replace(" ", "-"), ",".join(f"{index}:{usage}" for index, usage in row.devices) or "-",
             short_hex(row.raw), *map(short_hex, row.reports), "="]
    texts = ["x" if some is None else "!" if some == "stopped" else
             " ".join(":".join(map(str, one)) for one in some) or "-" for some in row.events]
    return " ".join(words) + (" " + " | ".join(texts) if texts else "")


def row_of(line):
    """The row of a line."""
    asked, _, said = line.partition(" =")
    group, listed, raw, *reports = asked.split(" ")
    named = [tuple(one.split(":")) for one in listed.split(",")] if listed != "-" else []
    events = []
    for text in said.strip().split(" | ") if said else []:
        events.append({"x": None, "!": "stopped", "-": []}[text] if text in "x!-" else
                      [tuple(map(int, word.split(":"))) for word in text.split(" ")])
    return Row(group.replace("-", " "), [(int(index), usage) for index, usage in named], bytes_of_line(raw),
               [bytes_of_line(one) for one in reports], events)


def rows_of_file():
    with open(FILE) as file:
        return [row_of(line) for line in file.read().splitlines() if line and not line.startswith("#")]


def rows(judge, asked):
    asked = list(asked)
    return [row_of_answer(raw, reports, answer)
            for (raw, reports), answer in zip(asked, judge.answers(asked))]


def checked(row):
    """The line of a row, which says all of it."""
    line = line_of(row)
    if row_of(line) != row:
        raise SystemExit(f"the line doesn't say all of the answer: {line}")
    return line


def counts_of(some):
    """How much rows have."""
    reports = sum(len(row.reports) for row in some)
    events = sum(len(one) for row in some for one in row.events if isinstance(one, list))
    refused = sum(one is None for row in some for one in row.events)
    return f"{len(some)} descriptors, {reports} reports ({refused} refused), {events} events"


def shape_of(events):
    """Reports of one shape show the same: which codes, in which order, and the values' signs."""
    if not isinstance(events, list):
        return events
    return tuple((device, kind, code, (value > 0) - (value < 0)) for device, kind, code, value in events)


def chosen(row, count):
    """So many reports of a row, in their order: those that show something else first."""
    seen, first, rest = set(), [], []
    for place, events in enumerate(row.events):
        (rest if shape_of(events) in seen else first).append(place)
        seen.add(shape_of(events))
    # One that is refused is enough.
    refused = [place for place in first + rest if row.events[place] is None]
    listed = [place for place in first + rest if place not in refused[1:]]
    return [row.reports[place] for place in sorted(listed[:count])]


def recorded(judge):
    """The lines of the file: of each device, those that are fixed, and by chance, of each kind in turn."""
    def asked_again(some, count):
        return rows(judge, [(row.raw, chosen(row, count)) for row in rows(judge, some)])

    known = asked_again([(raw, Reports(SEED, raw).all(12, 1)) for raw in devices()], 5)
    lines = [checked(row) for row in known + rows(judge, fixed())]
    room, taken, chance = MOST - len(HEAD) - sum(len(line) + 1 for line in lines), 0, made(SEED, 3 * RECORDED)
    for row in asked_again([(raw, Reports(SEED, raw).all(20)) for raw in chance], 6):
        line = checked(row)
        if len(line) <= LONGEST and taken < RECORDED and len(line) < room:
            lines.append(line)
            room -= len(line) + 1
            taken += 1
    return lines


# What `HID values --linux --json` says of a report.

def events_of_words(said):
    """The events that an object of JSON says of a report, as rows have them; None where it says none."""
    if said.get("events") is None:
        return None
    for one in said["events"]:
        name = linux_events.NAMES.get((one["type"], one["code"]))
        if one["type"] != "EV_SYN" and one.get("name") != name:
            raise ValueError(f"{one} has another name than {name}")
    return [(one["device"], TYPES[one["type"]], one["code"], one["value"]) for one in said["events"]]


TYPES = {"EV_SYN": 0, "EV_KEY": 1, "EV_REL": 2, "EV_ABS": 3, "EV_MSC": 4, "EV_SW": 5, "EV_LED": 0x11,
         "EV_SND": 0x12, "EV_REP": 0x14, "EV_FF": 0x15, "EV_PWR": 0x16}


def said_by(program, row):
    """What the program says of each report of a row, None where it says nothing of it; and its messages."""
    with tempfile.NamedTemporaryFile() as file:
        file.write(row.raw)
        file.flush()
        lines = "".join(one.hex() + "\n" for one in row.reports)
        run = subprocess.run([program, "values", "--linux", "--json", "--form", "bytes", "--report-form",
                              "hex", file.name, "-"], input=lines.encode(), capture_output=True, timeout=120)
    # Each report has its number, from 1 on.
    said = [None] * len(row.reports)
    for line in run.stdout.decode().splitlines():
        one = json.loads(line)
        said[one["number"] - 1] = events_of_words(one)
    return said, run.stderr.decode()


def fault_of(row, said):
    """What is otherwise in what the program says, or nothing; a report that Linux refuses has no events."""
    if len(said) != len(row.events):
        return f"{len(said)} answers to {len(row.events)} reports" if row.events else ""
    for place, (own, theirs) in enumerate(zip(said, row.events)):
        if theirs == "stopped":
            return ""
        if (own or None) != (theirs or None):
            pairs = itertools.zip_longest(own or [], theirs or [])
            at = next(at for at, (one, other) in enumerate(pairs) if one != other)
            return (f"report {place + 1} {row.reports[place].hex()}: event {at + 1} of {own}, "
                    f"and Linux {theirs}")
    return ""


# How the program refuses a device, by what it is then counted as.
REFUSALS = {"driven otherwise": "takes the device and has events of its own",
            "not known": "it isn't known how Linux reads the descriptor"}


def kind_of(row, said, messages):
    """How a row is counted: by a refusal of its device; another than its own is a fault."""
    found = [kind for kind, words in REFUSALS.items() if words in messages]
    if found and any(said):
        return "events of a device that is refused"
    is_driven = row.group.startswith(("multitouch", "sensor hub"))
    if "not known" not in found and is_driven != ("driven otherwise" in found):
        return "another driver has events of its own, which isn't said" if is_driven else "no other driver has them"
    return found[0] if found else ""


def compare_one(question):
    """A row, what the program says of it, how it is counted where its device is refused, and a fault."""
    program, row = question
    try:
        said, messages = said_by(program, row)
    except (ValueError, KeyError, IndexError, subprocess.TimeoutExpired) as fault:
        return row, None, "", f"no answer that can be read: {fault!r}"
    if row.group == "refused":
        return row, said, "", fault_of(row, said) or ("" if messages else "nothing is said")
    kind = kind_of(row, said, messages)
    if kind and kind not in REFUSALS:
        return row, said, "", kind
    return row, said, kind, "" if kind else fault_of(row, said)


def spoilt(said):
    """The answers to reports, with one spoilt; for each kind of number, where there is an event."""
    places = [place for place, some in enumerate(said) if some]
    if not places:
        return
    place = places[0]
    first = said[place][0]
    for at, name in enumerate(("device", "type", "code", "value")):
        other = (*first[:at], first[at] + 1, *first[at + 1:])
        yield name, [*said[:place], [other, *said[place][1:]], *said[place + 1:]]
    yield "a missing event", [*said[:place], said[place][1:], *said[place + 1:]]
    yield "an extra event", [*said[:place], [first, *said[place]], *said[place + 1:]]
    yield "order", [*said[:place], said[place][::-1], *said[place + 1:]]
    yield "a missing report", said[:-1]


def compare(program, some):
    """Compares all rows; 0 where all is the same, and where each spoilt answer is noticed."""
    counts, unnoticed = collections.Counter(), collections.Counter()
    with multiprocessing.Pool(2) as pool:
        for row, said, kind, fault in pool.imap(compare_one, [(program, row) for row in some], 8):
            counts["descriptors"] += 1
            if kind:
                counts[kind] += 1
                continue
            counts["reports"] += len(row.events)
            counts["events"] += sum(len(one) for one in row.events if isinstance(one, list))
            if fault:
                counts["faults"] += 1
                counts[f"faults of {row.group}"] += 1
                print(f"{row.group} {short_hex(row.raw)}: {fault}")
                continue
            for name, other in spoilt(said) if said and "stopped" not in row.events else []:
                if other != said:
                    counts["spoilt"] += 1
                    unnoticed[name] += not fault_of(row, other)
    print("linux_input:", ", ".join(f"{name}: {count}" for name, count in sorted(counts.items())))
    for name in (name for name, count in unnoticed.items() if count):
        print(f"spoilt and not noticed: {name}")
    return counts["faults"] != 0 or not counts["events"] or not counts["spoilt"] or any(unnoticed.values())


def main(words):
    if words == ["read"]:
        print(counts_of(rows_of_file()))
        return 0
    if words[:1] == ["compare"] and len(words) == 2:
        return compare(words[1], rows_of_file())
    if len(words) < 2:
        raise SystemExit(__doc__)
    with tempfile.TemporaryDirectory() as folder:
        judge = Judge(words[2] if words[0] == "compare" else words[0], folder)
        if words[0] == "compare":
            return compare(words[1], rows(judge, questions(SEED, COUNT)))
        if words[1] == "made":
            seed, count = [int(word) for word in words[2:]] + [SEED, COUNT][len(words) - 2:]
            print(*map(checked, rows(judge, questions(seed, count))), sep="\n")
        elif words[1] == "record":
            print(HEAD, *recorded(judge), sep="\n")
        else:
            raw, *reports = [bytes.fromhex(word) for word in words[2:]]
            print(json.dumps(judge.answers([(raw, reports)])[0]))
    return 0


if __name__ == "__main__":
    sys.exit(main(sys.argv[1:]))
