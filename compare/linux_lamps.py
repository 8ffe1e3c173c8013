#!/usr/bin/env python3
"""Which output reports Linux writes where a program sets lamps, asked of its own functions (compare/hid_input).

    linux_lamps.py SOURCES record            prints compare/linux_lamps.txt anew
    linux_lamps.py compare HID [SOURCES]     compares `HID set --linux` with linux_lamps.txt, or with the answers
                                             to five times as many made questions; then spoils each answer

SOURCES is the folder of a kernel's sources, or the word `debian`, as hid_input/build.sh has it.
"""
import collections
import os
import random
import subprocess
import sys
import tempfile

import linux_events
from linux_input import FIRST, HERE, ID, INPUT, LAST, OUTPUT, Judge, application, bounds, constant, devices, \
    field, item
from linux_readings import bytes_of_line, short_hex

FILE = os.path.join(HERE, "linux_lamps.txt")
SEED, COUNT = 7, 120
LED = 0x11
# The lamps of the page LED that hid-input knows, and two that it doesn't.
KNOWN = [0x80001, 0x80002, 0x80003, 0x80004, 0x80005, 0x80027, 0x80019, 0x8004B, 0x80009, 0x8002A, 0x80020]

HEAD = """\
# Which output reports Linux writes where a program sets lamps of a device: what its own functions answered,
# as hid-generic drives devices (compare/hid_input, Debian's linux-source-6.12 6.12.117-1~deb12u1). Printed
# by compare/linux_lamps.py.
#
# A line for each descriptor:
#
#   GROUP DESCRIPTOR DEVICE:CODE:VALUE .. = WRITTEN ..
#
# GROUP is `generic`, or another driver that hid-core's scan finds. The input device at an index is told
# EV_LED with a code and a value, and SYN_REPORT. WRITTEN is the report's bytes, its id first; `-` where
# nothing is written, `x` where the input device isn't there or hasn't this lamp.
"""

Row = collections.namedtuple("Row", "group raw settings written")


class Made:
    """Descriptors by chance, with lamps in output reports, and elsewhere."""

    def __init__(self, seed):
        self.random = random.Random(seed)

    def lamps(self, head):
        """A main item with lamps: bits, or wider values, with a sign or without; more usages or fewer."""
        one = self.random
        count = one.choice((1, 1, 2, 3, 3, 5))
        usages = [one.choice(KNOWN) for _ in range(one.choice((count, count, count, 1, count + 1)))]
        if one.randrange(3) == 0:
            usages = (0x80001, 0x80000 + count)
        size = one.choice((1, 1, 1, 2, 7, 8, 8, 16, 32, 33))
        low = one.choice((0, 0, -1)) if size > 1 else 0
        return field(usages, size, count, low, 1, one.choice((2, 2, 2, 6, 0)), head)

    def output(self):
        return self.lamps(OUTPUT) if self.random.randrange(5) else \
            field([0xFF000001], 8, self.random.choice((1, 2)), 0, 1, 2, OUTPUT)

    def padding(self):
        return item(0x74, self.random.choice((1, 3, 5, 8))) + item(0x94, 1) + item(OUTPUT, 1)

    def report(self, number):
        parts = [item(ID, number)] if number else []
        for _ in range(self.random.choice((1, 1, 2, 3))):
            parts.append(self.random.choice((self.output, self.output, self.padding))())
        if self.random.randrange(4) == 0:
            parts.append(self.lamps(INPUT))
        return b"".join(parts)

    def descriptor(self):
        usages = [self.random.choice((0x10006, 0x10006, 0x10002, 0xC0001)) for _ in range(
            self.random.choice((1, 1, 1, 2)))]
        numbers = self.random.sample(range(1, 256), 4) if self.random.randrange(2) else [0]
        made = []
        for usage in usages:
            own = [numbers.pop() for _ in range(min(len(numbers), self.random.choice((1, 1, 2))))] or [0]
            keys = field((0x70004, 0x70005), 1, 2, 0, 1) + constant(6)
            made.append(application(usage, *(self.report(number) for number in own), keys))
        return b"".join(made)


def asked(judge, seed, count):
    """Descriptors, each with lamps that its input devices have, and some that they haven't."""
    one, makers = random.Random(seed), Made(seed)
    raws = devices() + list(dict.fromkeys(makers.descriptor() for _ in range(count)))
    every = [f"led:{device}:{code}:1" for device in range(3) for code in range(17)]
    for raw, answer in zip(raws, judge.asked([(raw, every) for raw in raws])):
        if not answer.get("driver"):
            continue
        known = [word for word, events in zip(every, answer["events"]) if events]
        if not known:
            continue
        words = [word.rsplit(":", 1)[0] + f":{value}" for value in
                 (1, 0, 1, one.choice((2, 255, 256, -1, -128, 2**31 - 1, -2**31)), 0, 1)
                 for word in one.sample(known, min(len(known), 3))]
        yield raw, words[:one.choice((4, 8, 12))]
        yield raw, [one.choice([word for word in every if word not in known])]


class Lamps(Judge):
    def asked(self, questions):
        """The answer to each (descriptor, words)."""
        lines = "".join(" ".join([raw.hex(), *words]) + "\n" for raw, words in questions)
        said = subprocess.run([self.program], input=lines.encode(), stdout=subprocess.PIPE,
                              check=True).stdout.decode().splitlines()
        if len(said) != len(questions):
            raise SystemExit(f"{len(said)} answers to {len(questions)} questions")
        return [linux_events.json.loads(line) for line in said]

    def rows(self, seed, count):
        questions = list(asked(self, seed, count))
        for (raw, words), answer in zip(questions, self.asked(questions)):
            yield Row(answer["driver"], raw, [tuple(map(int, word.split(":")[1:])) for word in words],
                      written_of(words, answer))


def written_of(words, answer):
    """What is written behind each; None where the input device hasn't the lamp, which nothing lights."""
    lit, found = {}, []
    for word, events, written in zip(words, answer["events"], answer["written"]):
        device, code, value = map(int, word.split(":")[1:])
        was = lit.get((device, code), False)
        if events is None or not events and was != (value != 0):
            found.append(None)
            continue
        lit[device, code] = value != 0
        found.append(written or "")
    return found


def line_of(row):
    words = [row.group.replace(" ", "-"), short_hex(row.raw), *(":".join(map(str, one)) for one in row.settings)]
    return " ".join(words + ["="] + ["x" if one is None else one or "-" for one in row.written])


def row_of(line):
    asked_, _, said = line.partition(" = ")
    group, raw, *settings = asked_.split(" ")
    return Row(group.replace("-", " "), bytes_of_line(raw),
               [tuple(map(int, one.split(":"))) for one in settings],
               [None if one == "x" else one.replace("-", "") for one in said.split(" ")])


def recorded(judge):
    for row in judge.rows(SEED, COUNT):
        if row_of(line_of(row)) != row:
            raise SystemExit(f"the line doesn't say all of the answer: {line_of(row)}")
        yield line_of(row)


def rows_of_file():
    with open(FILE) as file:
        return [row_of(line) for line in file.read().splitlines() if line and not line.startswith("#")]


def said_by(program, row):
    """What the program says: the lines that it writes, its messages, and its status."""
    words = [f"{device}:{linux_events.NAMES.get(('EV_LED', code), 'LED_?')}={value}"
             for device, code, value in row.settings]
    with tempfile.NamedTemporaryFile() as file:
        file.write(row.raw)
        file.flush()
        run = subprocess.run([program, "set", "--linux", "--form", "bytes", file.name, "-", *words],
                             capture_output=True, timeout=60)
    lines = [line.replace(" ", "") for line in run.stdout.decode().splitlines()]
    return lines, run.stderr.decode(), run.returncode


def kind_of(row, said):
    """How a row is counted, and what is otherwise."""
    lines, messages, status = said
    if row.group != "generic":
        is_told = "takes the device and has events of its own" in messages and status == 1 and not lines
        return "driven otherwise", "" if is_told else "another driver takes it, which isn't said"
    if None in row.written:
        is_told = status == 1 and not lines and ("has no such lamp" in messages or "no lamp of Linux" in messages)
        return "no such lamp", "" if is_told else "a lamp is taken that isn't there"
    wanted = [one for one in row.written if one]
    if status or lines != wanted or messages.count("nothing is written") != row.written.count(""):
        return "reports", f"{lines} with {status}, and Linux {row.written}: {messages}"
    return "reports", ""


def spoilt(said):
    """The answer with a byte, a line or a status that is another."""
    lines, messages, status = said
    if lines:
        yield [f"{int(lines[0], 16) ^ 1:0{len(lines[0])}x}", *lines[1:]], messages, status
        yield lines[1:], messages, status
        yield [*lines, lines[0]], messages, status
    yield lines, "", 2 - status
    yield ["00"] + lines, messages, status


def compare(program, rows):
    counts, faults, unnoticed = collections.Counter(), 0, 0
    for row in rows:
        said = said_by(program, row)
        kind, fault = kind_of(row, said)
        counts["descriptors"] += 1
        counts[kind] += len([one for one in row.written if one]) if kind == "reports" else 1
        if fault:
            faults += 1
            print(f"{line_of(row)}: {fault}")
            continue
        for other in spoilt(said):
            counts["spoilt"] += 1
            unnoticed += not kind_of(row, other)[1]
    print("linux_lamps:", ", ".join(f"{name}: {count}" for name, count in sorted(counts.items())))
    if unnoticed:
        print(f"linux_lamps: {unnoticed} spoilt answers were not noticed")
    return int(bool(faults or unnoticed or not counts["reports"]))


def main(words):
    if words[:1] == ["compare"] and len(words) == 2:
        return compare(words[1], rows_of_file())
    if len(words) not in (2, 3):
        raise SystemExit(__doc__)
    with tempfile.TemporaryDirectory() as folder:
        judge = Lamps(words[2] if words[0] == "compare" else words[0], folder)
        if words[0] == "compare":
            return compare(words[1], judge.rows(SEED + 1, 5 * COUNT))
        print(HEAD, *recorded(judge), sep="\n")
    return 0


if __name__ == "__main__":
    sys.exit(main(sys.argv[1:]))
