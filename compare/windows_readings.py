#!/usr/bin/env python3
"""How Windows reads report descriptors, as far as Wine's hidparse.sys says (compare/hidparse).

    windows_readings.py SOURCES [ask]        prints compare/windows_readings.txt anew
    windows_readings.py SOURCES made         prints the answers to all descriptors of the tree and all made ones
    windows_readings.py SOURCES HEX ..       prints the answers to these descriptors, as JSON
    windows_readings.py compare HID          compares what HID says with windows_readings.txt
    windows_readings.py compare HID SOURCES  compares it with Wine, over all that `made` asks
    windows_readings.py recordings HID SOURCES FOLDER
                                             compares both with what Windows itself said of the devices in FOLDER,
                                             as windows_usages.py has it

SOURCES is the folder of Wine's sources, or the word `debian`, as hidparse/build.sh has it. HID is the program.
The made descriptors are those below at the boundary of each rule, and some by chance, always the same ones.

What `compare` does: Wine's answer has to be the model's in windows_model.py. What `HID check --for windows`
refuses has to be what hidpddi.h names, by the model; where Wine refuses otherwise, the refusal is the reason. The
fields of `HID fields`, by both readings, have to be Wine's, but where rules of Wine are exchanged: those without
which they wouldn't be are the reasons. A difference without a reason is a failure. Answers of each kind are spoilt,
which has to be noticed.
"""
import collections
import glob
import itertools
import json
import multiprocessing
import os
import re
import subprocess
import sys
import tempfile

import linux_events
import linux_readings
import windows_model
import windows_usages
from linux_readings import bytes_of_line, short_hex
from windows_model import Pddi, Reading, rows_of_parts

HERE = os.path.dirname(os.path.abspath(__file__))
RECORDED = os.path.join(HERE, "windows_readings.txt")
SEED, MADE = 1000, 3_000
# The most characters of the file, and of a line that is recorded of a descriptor by chance or of the tree.
MOST, LONGEST = 390_000, 700

HEAD = """\
# How Wine's hidparse.sys reads report descriptors: what its parser answered
# (compare/hidparse, Debian's wine 10.0~repack-6). Printed by compare/windows_readings.py.
#
# A line for each descriptor: its bytes, of which `XX*N` are the bytes XX N times and `+` joins parts, or `-` if
# it has none; then
#
#   refused OFFSET REASON
#       with HIDP_STATUS_INTERNAL_ERROR, at the item of this offset.
#   taken; PART; PART ..
#       a part is one of
#       said OFFSET MESSAGE         what else is said, in order
#       c USAGE INPUT OUTPUT FEATURE     an outermost collection, with the bytes of its longest reports
#       n TYPE USAGE PARENT         a collection in it, in order, with its PARENT's number; the first is itself
#       input|output|feature ID BIT SIZE COUNT BITS FLAGS PAGE LEAST MOST MINIMUM MAXIMUM [w MINIMUM MAXIMUM]
#         [u UNIT] [e EXPONENT] [z NULL] [l COLLECTION]    values, with their first BIT; each report has a byte for
#         an id there. BITS are those of the item, FLAGS Wine's. LEAST and MOST are the usages. MINIMUM and MAXIMUM
#         are kept of no button; of an array MINIMUM is its maximum, and NULL its minimum. w: the physical bounds,
#         where one isn't 0; u, e, z, l: where they aren't 0.
#       r ID COLLECTION INPUT OUTPUT FEATURE     a report's bytes; the COLLECTION from 1
#
# OFFSET, BIT, SIZE, COUNT, bounds and bytes are decimal, and so are ID, TYPE, COLLECTION and PARENT; usages, BITS,
# FLAGS and UNIT are hexadecimal. REASON and MESSAGE are words of hidparse/ask.c for Wine's messages.
"""

# Descriptors at the boundaries of rules; XX*N are the bytes XX, N times. Names stand for some bytes: M and K open a
# mouse and a keyboard, X is a byte of data with a usage, P one of padding, G what data wants but a usage, E an end.
NAMES = {"M": "05010902a101", "K": "05010906a101", "X": "09301500257f750895018102", "P": "750895018101",
         "G": "1500257f75089501", "E": "c0", "I1": "8501", "I2": "8502"}
BOUNDARIES = """\
# collections
00*0; M X E; M X; M E; M E E; M X E E; E M X E; E E M X E; E M K X E E; M E M E; M; 0501a101 X E
05010902 0906a101 X E; 050119022902a101 X E; 0501 19022903a101 X E; 0501a901 0902 0906a8 a101 X E
M 0930a100 X E E; M 0930a100 X E; 0902a101 X E; M a100*30 X c0*30 E; M a100*31 X c0*31 E; M a100*32 X c0*32 E
M X E K; M X E X; X M X E; G 810105 01; M X E c4; 0902 0501 a101 X E; M X E 09; M X E 0a30; M X E 0b3000; 09
M X 09 E; M 0a30 E; M X E fe; a1; 05010902 a1; M X c1; M X E c1; M X E c100; 05010900 a101 X E; 05010902a100 X E
05010902a102 X E; 05010902a0 X E; 05010902a180 X E; 05010902a2 0102 X E
# ids
M I1 X E; I1 M X E; M 8500 X E; M 84 X E; M 85ff X E; M 860001 X E; M 860101 X E; M X I1 X E; M I1 X 8500 X E
M I1 X I2 X E; M I1 X E K I1 X E; M I1 X E K I2 X E; M I1 X E K X E; M X E K I1 X E; M X E K X E; M I1 X E K E
M E K I1 X E; M I1 E K X E; M I1 X 0931 9102 E; M I1 X 0931 b102 E K I1 0930 b102 E; M a4 I1 X b4 X E
a4 M I1 X b4 E; M I1 X E X; M I1 P E K P E; M 0930 a102 I1 X E E; M I1 a4 X E b4 K X E; M I1 X E I2 K X E
M I1 X E K I2 0930 G 8102 c0 06 00ff 0901a101 8503 X E
# what stays behind an outermost collection
M G 0930 8102 E K 0931 8102 E; M G 0930 8102 E 0906a101 0931 8102 E; a4 M X E b4 K X E; M a4 X E K X b4 E
M 75109502 P E K 09308102 E; M I1 G 09308102 E 0906a101 I2 09318102 E; M X 751095028101 E K X E
M 0509 G 190129088102 E 05010906a101 190129088102 E
# data
M G 8102 E; M G 8101 E; M G 8103 E; M G 8100 E; M G 80 E; M 0930 80 E; M 0930 G 820101 E; M 0930 G 83020000 00 E
M 0930 G 9102 E; M 0930 G b102 E; M 0930 G 9102 b102 E; G 8102; 0930 G 8102 M E; M E 0930 G 8102
M 0930 7508 8102 E; M 0930 9501 8102 E; M 0930 0931 G 8102 E; M 093009310932 G 8102 E
M 0930093109320933 G 8102 E; M 093009310932 150025017501 95028102 P E; M 0930 1500257f 75089503 8102 E
M 09300931 1500257f 75089503 8102 E; M 0930 G 8106 E; M 0930 G 8142 E; M 0930 G 8178 E
M 0930 1500257f 75009501 8102 E; M 0930 1500257f 75089500 8102 E; M 0930 1500257f 7408 9400 8102 X E
M X 94 8101 P E; M 94 8101 E; M 0930 1500257f 75209501 8102 E; M 0930 1500257f 75219501 8102 E
M 0930 1500257f 75409501 8102 E; M 0930 1500257f 76ff009501 8102 E; M 0930 1500257f 7600019501 8102 E
M 0930 1500257f 7701000100 9501 8102 E; M 0930 1500257f 7508 97010001008100 E
M 0930 1500257f 7508 96ff03 8102 E; M 0930 1500257f 760020 950a 8102 09318102 E
# alignment
M 0930 1500 2501 75019501 8102 E; M 0930 1500 2501 75019508 8102 E; M 0930 1500257f 75079501 8102 E
M 0930 1500257f 75079501 8102 75018101 E; M 0930 1500257f 750c9501 8102 0931 8102 E
M 0930 1500257f 750c9501 8102 E; M I1 0930 1500257f 75049501 8102 I2 09318102 75048101 E
M X 0930 75049501 9102 E; M X 0930 75049502 b102 E; M X 0931 b102 75018101 E
# Delimiters
M G a901 0930 0931 a900 8102 E; M G a901 0930 0931 a8 8100 E; M G a901 0930 8102 E; M G a901 a900 8102 E
M G a900 0930 8102 E; M G a901 a901 0930 a900 a900 8102 E; M G a901 7508 0930 a900 8102 E
M G a901 05090901 a900 8102 E; M G 0930 a901 0931 a900 8102 E; M G a901 19012903 a900 8102 E
M G a901 0930 a900 a901 0931 a900 8102 E; M G a9020930a900 8102 E; M a901 0930 E; M a8 X E; M X E a901
# Push and Pop
a4 M X E; M a4 X b4 E; M b4 X E; b4 M X E; M X E b4; M a4*31 X E; M a4*32 X E; M a4*33 X E; M a4*48 X b4*48 E
M a4*49 X E; M a4*4 X b4*4 E; M a4*4 X b4*5 E; M G a4 0930 b4 8102 E; M G 0930 a4 b4 8102 E
M G 0930 a4 0931 b4 9502 8102 E; M a4 0509 b4 X E; M G a4 8501 b4 0930 8102 E; M G a4 15ff b4 0930 8102 E
M a500 X b4 E; M X a4 74 b4 X E
# bounds
M 1500 25ff 0930 75089501 8102 E; M 1500 26ff00 0930 75089501 8102 E; M 15ff 25ff 0930 75089501 8102 E
M 25ff 1500 0930 75089501 8102 E; M 25ff 15ff 0930 75089501 8102 E; M 14 24 0930 75089501 8102 E
M 1580 257f 0930 75089501 8102 E; M 1500 26ffff 0930 75109501 8102 E
M 1700000080 27ffffff7f 0930 75209501 8102 E; M 1500 27ffffffff 0930 75209501 8102 E
M 15ff 2501 0930 75029501 8100 E; M 15ff 25fe 0930 75089501 8100 E; M 1500 2501 0930 75019501 8102 E
M 15ff 2500 0930 75019501 8102 E; M 160080 26ff7f 0930 75109501 8100 E; M 35ff 45ff X E
M 3500 4501 6511 550e X E; M 0930 75089501 8102 E; M 1501 2580 0930 75089501 8100 E
M 1500 2580 0930 75089502 8100 E; M 1502 2501 0930 75089501 8102 E
# usages and their pages
M G 0509 0901 8102 E; M G 0930 0509 8102 E; M G 0509 0901 0501 0930 8102 E
M 0509 1901 2903 1500 2501 7501 9503 8102 75058101 E; M 1500 2501 7501 9508 0509 1901 2908 0501 8102 E
M 1500 2501 7501 9508 1901 0509 2908 8102 E; M G 0b30000100 8102 E; M G 0b01000900 8102 E; M G 0b30000000 8102 E
M G 0b00000900 8102 E; M G 0701000900 0901 8102 E; M G 0901 0701000900 8102 E; M G 04 0930 8102 E
0902a101 G 09308102 E; M G 08 8102 E; M G 0a3000 8102 E; M G 0affff 8102 E; M G 0bffffffff 8102 E
M G 0930 0509 00 8102 E; M G 0930 00 0931 8102 E; M G 0930 8002 E; M 1500 2501 7501 9508 0509 1901 2903 8102 E
M 1500 2501 7501 9502 0509 1901 2908 8102 E; M 1500 2501 7501 9508 0509 1901 8102 E
M 1500 2501 7501 9508 0509 2908 8102 E; M 1500 2501 7501 9508 0509 1908 2901 8102 E
M 1500 2501 7501 9508 0509 2908 1901 8102 E; M 1500 2501 7501 9508 0509 0901 0902 0903 8102 E
M 1500 2501 7501 9508 0509 0901 1902 2908 8102 E; M 1500 2501 7501 9508 0509 1901 2904 0905 8102 E
M 1500 2501 7501 9508 0509 1901 2904 1905 2908 8102 E; M 1500 2501 7501 9508 1b01000900 2b08000900 8102 E
M 1500 2501 7501 9508 1b01000900 2908 8102 E; M 1500 2501 7501 9508 0509 1901 2b08000900 8102 E
M 1500 2501 7501 9508 0501 1b01000900 2b08000c00 8102 E; M 1500 2501 7501 9508 0509 1900 2907 8102 E
M 1501 2508 7504 9502 0509 1901 2908 8100 E; M 1501 2503 7508 9501 0509 0901 0902 0903 8100 E
M 1501 2503 7508 9501 0509 0901 0903 0902 8100 E; M 1500 25ff 7508 9506 0507 1900 29ff 8100 E
M 1500 26ff00 7508 9506 0507 1900 2aff00 8100 E; M 1501 2503 7508 9501 0509 0901 050c 0ae200 0509 0902 8100 E
M 1500 257f 7508 9501 0930*30 8100 E; M 1500 257f 7508 9501 0930*31 8100 E; M 1500 257f 7508 9501 0930*32 8100 E
M 1500 257f 7508 9501 0930*255 8100 E; M 1500 257f 7508 9501 0930*256 8100 E
M 1500 257f 7508 951f 0930*31 8102 E; M X*20 1500 257f 7508 9508 0930*20 8102 E
M X*20 1500257f 7508 951c 0930*28 8102 E; M X*20 1500257f 7508 951c 0930*27 8102 E; M X*40 E; M X*60 E
M 7508 9501 1b0000ffff 2bffffffff 8100 E; M G 1930 0931 8102 E
# long items and reserved ones
fe00 00 M X E; fe0200 0930 M X E; M fe0000 X E; M fe0110c0 X E; M fe02 00 a4 b4 X E; fe M X E; M f000 X E
c4 M X E; M c4 X E; M d500 X E; M 0c X E; M 10 X E; M 00 X E; M 0930 G 10 8102 E; M 09306800 G 8102 E
M 0930 b800 G 8102 E; M 0930 1c00 G 8102 E; M 7000 X E; M d0 X E; M f400 X E; M fc X E; M 3901 4901 5902 X E
M 7901 8901 9902 X E; M 8901 7901 X E; M 4901 3901 X E
"""


def boundaries():
    lines = [line for line in BOUNDARIES.splitlines() if not line.startswith("#")]
    found = []
    for one in (one for line in lines for one in line.split(";") if one.strip()):
        words = (word.partition("*") for word in one.split())
        found.append(bytes.fromhex("".join(NAMES.get(word, word) * int(times or 1) for word, _, times in words)))
    return list(dict.fromkeys(found))


class Chance(linux_readings.Chance):
    """Descriptors by chance, of up to three outermost collections."""

    def device(self, odd):
        """Each `odd`th item, if it isn't 0, is an odd one."""
        self.pushed, self.minimum = 0, 0
        has_ids, tops = self.rarely(2), self.one_of((1, 1, 1, 2, 2, 3))
        found = b""
        for number in range(1, tops + 1):
            found += (b"" if self.rarely(6) else self.page()) + (b"" if self.rarely(12) else self.usage())
            found += self.id() if self.rarely(15) else b""
            found += self.item(0xA0, 1)
            self.depth = 1
            found += self.item(0x84, number if not self.rarely(8) else 1) if has_ids and not self.rarely(10) else b""
            found += self.inside(odd)
            found += b"\xc0" * (self.depth if not self.rarely(20) else self.one_of((0, self.depth + 1)))
        return found + (self.data_with_usages() if self.rarely(25) else b"")

    def inside(self, odd):
        """What stands in an outermost collection: most reports end at a byte."""
        found = self.bounds() + self.size() + self.count() if not self.rarely(6) else b""
        for _ in range(self.random.randrange(1, 8)):
            if odd and self.rarely(odd):
                found += self.odd()
            elif self.rarely(8):
                found += self.item(0x84, self.one_of((1, 2, 3, 4, 255)))
            else:
                found += self.one_of(STEPS)(self)
        return found + self.data_with_usages()

    def size(self):
        return self.item(0x74, self.one_of((1, 2, 4, 7, 8, 8, 8, 8, 8, 16, 16, 32, 33, 64, 0, 255)))

    def count(self):
        return self.item(0x94, self.one_of((1, 1, 1, 2, 3, 5, 8, 8, 0, 16, 200)))

    def open_or_end(self):
        if self.depth > 1 and self.rarely(2):
            self.depth -= 1
            return b"\xc0"
        return self.usage() + self.collection()


STEPS = [step for step in linux_readings.STEPS if step is not linux_readings.Chance.id
         and step is not linux_readings.Chance.open_or_end and step is not linux_readings.Chance.size
         and step is not linux_readings.Chance.count] + [Chance.size, Chance.count, Chance.open_or_end]


class Judge:
    """Wine's parser, built from its sources."""

    def __init__(self, sources, folder):
        subprocess.run(["bash", os.path.join(HERE, "hidparse/build.sh"), sources, folder], check=True)
        self.program = os.path.join(folder, "ask")

    def answers(self, descriptors):
        said = subprocess.run([self.program], input="".join(one.hex() + "\n" for one in descriptors).encode(),
                              stdout=subprocess.PIPE, check=True).stdout.decode().splitlines()
        if len(said) != len(descriptors):
            raise SystemExit(f"{len(said)} answers to {len(descriptors)} descriptors")
        return [json.loads(line) for line in said]


def has_room(raw):
    """Whether Wine can count the bytes of its parts, past which it writes over them, and values aren't many."""
    count = sum(one.globals["count"] for one in Reading(raw, windows_model.LINUX).entries)
    return count <= windows_model.MANY and all(len(top["parts"]) <= windows_model.ROOM
                                               for top in Reading(raw).collections)


def asked():
    """The descriptors at the boundaries, those of the tree, and those by chance; each once."""
    edges = boundaries()
    tree = [one for one in linux_events.descriptors() if one not in set(edges) and has_room(one)]
    known = [one for one in tree if 4 <= len(one) <= 200]
    chance, seen, made = Chance(SEED, known), {*edges, *tree}, []
    while len(made) < MADE - len(edges):
        one = chance.descriptor()
        if one not in seen and has_room(one):
            seen.add(one)
            made.append(one)
    return edges, tree, made


# The lines of the file.

def part_words(part):
    """The words of a part."""
    kind, number, bit, size, count, bits, flags, page, least, most, *rest = part
    low, high, physical_low, physical_high, unit, exponent, null, link = rest
    words = [kind, number, bit, size, count, *(f"{one:x}" for one in (bits, flags, page, least, most)), low, high]
    if physical_low or physical_high:
        words += ["w", physical_low, physical_high]
    words += ["u", f"{unit % 2**32:x}"] if unit else []
    for key, value in ("e", exponent), ("z", null), ("l", link):
        words += [key, value] if value else []
    return " ".join(map(str, words))


def line_of(raw, answer):
    """The line of a descriptor and its answer."""
    if "refused" in answer:
        if answer["refused"] != "HIDP_STATUS_INTERNAL_ERROR":
            raise SystemExit(f"another status: {answer}")
        return f"{short_hex(raw)} refused {answer['offset']} {answer['reason']}"
    parts = [f"{short_hex(raw)} taken"]
    parts += [f"said {offset} {text}" for text, offset in answer["said"]]
    for top in answer["collections"]:
        parts.append(" ".join(map(str, ("c", top["usage"], *top["lengths"]))))
        parts += [f"n {kind} {usage} {parent}" for kind, usage, parent in top["nodes"]]
        parts += [part_words(part) for part in top["parts"]]
    parts += [" ".join(map(str, ("r", *report))) for report in answer["reports"]]
    return "; ".join(parts)


def part_of_words(words):
    """A part, of its words."""
    kind, rest = words[0], words[12:]
    numbers = [int(word, 16 if 5 <= place <= 9 else 10) for place, word in enumerate(words[1:12], 1)]
    more = {"w": [0, 0], "u": 0, "e": 0, "z": 0, "l": 0}
    while rest:
        key, value, *rest = rest
        if key == "w":
            more[key] = [int(value), int(rest.pop(0))]
        else:
            more[key] = int(value, 16 if key == "u" else 10)
    unit = more["u"] - (2**32 if more["u"] >= 2**31 else 0)
    return [kind, *numbers, *more["w"], unit, more["e"], more["z"], more["l"]]


def row_of(line):
    """A line of the file: the descriptor's bytes, and the answer as hidparse/ask.c has it."""
    head, *parts = line.split("; ")
    digits, kind, *words = head.split(" ")
    if kind == "refused":
        return bytes_of_line(digits), {"refused": "HIDP_STATUS_INTERNAL_ERROR", "reason": " ".join(words[1:]),
                                       "offset": int(words[0])}
    answer = {"said": [], "collections": [], "reports": []}
    for part in parts:
        key, *words = part.split(" ")
        if key == "said":
            answer["said"].append([" ".join(words[1:]), int(words[0])])
        elif key == "c":
            answer["collections"].append({"usage": words[0], "lengths": list(map(int, words[1:])), "nodes": [],
                                          "parts": []})
        elif key == "n":
            answer["collections"][-1]["nodes"].append([int(words[0]), words[1], int(words[2])])
        elif key == "r":
            answer["reports"].append(list(map(int, words)))
        else:
            answer["collections"][-1]["parts"].append(part_of_words([key, *words]))
    return bytes_of_line(digits), answer


def rows_of_file():
    """The descriptors of windows_readings.txt with their answers."""
    with open(RECORDED) as file:
        return [row_of(line) for line in file.read().splitlines() if line and not line.startswith("#")]


def said_again(raw, answer):
    """The line of a descriptor and its answer, which says all of them."""
    line = line_of(raw, answer)
    if row_of(line) != (raw, answer):
        raise SystemExit(f"the line doesn't say all of the answer: {line}")
    return line


def class_of(raw, answer):
    """Answers of the same class show the same: what was refused, or what is there."""
    named = tuple(sorted(Pddi(raw).found))
    if "refused" in answer:
        return "refused", answer["reason"], named
    parts = [part for top in answer["collections"] for part in top["parts"]]
    return ("taken", named, tuple(sorted({text for text, _ in answer["said"]})), min(len(answer["collections"]), 3),
            len({part[0] for part in parts}), min(len(answer["reports"]), 2), any(part[6] & 1 for part in parts),
            any(part[6] & 0x10 for part in parts), any(part[10] < 0 for part in parts),
            any(part[3] > 32 for part in parts), b"\xa4" in raw)


def spread(rows, count):
    """So many rows: of each class in turn the next one."""
    classes = {}
    for raw, answer in rows:
        classes.setdefault(class_of(raw, answer), []).append((raw, answer))
    found, turn = [], 0
    while len(found) < count and any(turn < len(rows) for rows in classes.values()):
        found += [rows[turn] for rows in classes.values() if turn < len(rows)]
        turn += 1
    return found[:count]


def recorded(judge):
    """The lines of the file: all at the boundaries, and of the others those that aren't long."""
    edges, tree, made = asked()
    lines = [said_again(*row) for row in zip(edges, judge.answers(edges))]
    room = MOST - len(HEAD) - sum(len(line) + 1 for line in lines)
    for some, share in (tree, room // 5), (made, room - room // 5):
        rows = [row for row in zip(some, judge.answers(some)) if len(line_of(*row)) <= LONGEST]
        for row in spread(rows, len(rows)):
            line = said_again(*row)
            if len(line) < share:
                share -= len(line) + 1
                lines.append(line)
    return lines


# What HID says.

def ask(program, words, raw):
    """What the program says of a descriptor: objects, and its messages."""
    run = subprocess.run([program, *words, "--form", "bytes", "--json", "--limit", "4000000", "-"], input=raw,
                         capture_output=True, check=False, close_fds=False, timeout=120)
    return [json.loads(line) for line in run.stdout.decode().splitlines()], run.stderr.decode()


def refusals_of(objects):
    """The refusals that `check --for windows` tells: (name, offset); of reports without an offset."""
    found = []
    for it in objects:
        if it.get("source") == "Windows' hidpddi.h":
            found.append((it["odd"].partition("HIDP_GETCOLDESC_")[2].partition(":")[0], it.get("offset")))
    return sorted(found, key=str)


def fields_of(objects):
    """The fields as windows_model has them: of one bit no bounds."""
    found = []
    for it in objects:
        if it["kind"] == "padding":
            continue
        if "usage_range" in it:
            first, last = it["usage_range"]
            # By the standard's letter a range goes on at 0 of its page.
            usages = ((first, last),) if first <= last else ((first, first | 0xFFFF), (last & ~0xFFFF, last))
        else:
            usages = windows_model.runs_of((one["usage"] if isinstance(one, dict) else one,) * 2
                                           for one in it.get("usages") or [it["usage"]])
        bounds = it["logical_minimum"] or 0, it["logical_maximum"] or 0
        if it["kind"] == "variable" and it["end"] - it["start"] == 1:
            bounds = None
        found.append((it["direction"], it["report"], it["start"], it["end"], it["kind"], bounds, usages))
    return sorted(found, key=str)


# Why Wine refuses what hidpddi.h doesn't name, by Wine's reasons.
WINE_ALONE = {
    "delimiter": "it reads no sets of usages",
    "pop": "hidpddi.h has no name for a Pop without a Push",
    "many usages": "it has room for 255 usages of an item",
    "many values": "its list of parts grows by a half, and no further at once",
}
# Why Wine takes what hidpddi.h names.
HIDPDDI_ALONE = {
    "ITEM_UNKNOWN": "it passes over unknown items",
    "UNEXP_END_COLLECTION": "behind an End Collection too many it finds no outermost collection, and takes that",
    "MAIN_ITEM_NO_USAGE": "it keeps such data with the usage 0",
    "TOP_COLLECTION_USAGE": "it takes the first usage, or 0",
    "REPORT_ID": "a report id may stand anywhere",
    "BAD_REPORT_ID_VALUE": "0 is the id of reports without one",
    "NO_REPORT_ID": "each outermost collection has reports of its own",
    "DEFAULT_ID_ERROR": "reports without an id may lie beside others",
    "NO_DATA": "it takes a descriptor without a collection",
    "INVALID_MAIN_ITEM": "it keeps data before an outermost collection as its, and reads none behind the last",
    "BYTE_ALLIGN": "it rounds a report up to bytes",
    "NO_CLOSE_DELIMITER": "it looks at no Delimiter behind the last outermost collection",
    "UNSUPPORTED": "it looks at no Delimiter behind the last outermost collection",
}

READINGS = {"linux": windows_model.LINUX, "standard": windows_model.STANDARD}


class Wanted:
    """What is wanted of a descriptor: by the model of Wine, by both readings, and by hidpddi.h."""

    def __init__(self, raw):
        self.raw, model = raw, Reading(raw)
        self.answer = json.loads(json.dumps(model.answer()))
        self.rows = model.rows()
        self.turned = {reading: self.rows_by(turned) for reading, turned in READINGS.items()}
        bits = Reading(raw, windows_model.BITS)
        self.unaligned = 0 if bits.refused else sum(place % 8 != 0 for place in bits.places.values())
        self.named = sorted(Pddi(raw).found.items())

    def rows_by(self, turned):
        """The fields with these of Wine's rules exchanged; None where there are none."""
        other = Reading(self.raw, frozenset(turned))
        return None if other.refused else other.rows()

    def reasons(self, reading):
        """Wine's rules that are exchanged where the reading has other fields, each of which it takes."""
        turned = set(READINGS[reading])
        for rule in sorted(turned):
            if self.rows_by(turned - {rule}) == self.turned[reading]:
                turned.discard(rule)
        found = turned - {f"{reading} usages"}
        return found | (Reading(self.raw, frozenset(turned)).notes() if found != turned else set())


def fault_of_wine(wanted, answer):
    """Whether Wine's answer, or its fields, aren't the model's."""
    if wanted.answer != answer:
        return f"Wine's answer isn't the model's: {answer}, {wanted.answer}"
    parts = [part for top in answer.get("collections", []) for part in top["parts"]]
    if "refused" not in answer and sorted(rows_of_parts(parts), key=str) != wanted.rows:
        return "the model's fields aren't those of its parts"
    return ""


def fault_of_check(wanted, told, is_read):
    """Whether the refusals told aren't those that hidpddi.h names; of reports only where HID reads them."""
    named = sorted([*wanted.named, *[("BYTE_ALLIGN", None)] * (wanted.unaligned if is_read else 0)], key=str)
    return "" if told == named else f"check tells {told}, hidpddi.h {named}"


def verdict_of(answer, told):
    """How the refusals stand to Wine's, by the one told first, and whether there is a reason."""
    first = min(told, key=lambda one: (one[1] is None, one[1] or 0, one[0]))[0] if told else None
    if "refused" not in answer:
        return (f"by hidpddi.h {first}", first in HIDPDDI_ALONE) if told else ("by none", True)
    return ("by both", True) if told else (f"by Wine {answer['reason']}", answer["reason"] in WINE_ALONE)


def kind_of(wanted, reading, rows, said):
    """How a reading's fields stand to Wine's; "no reason" is a fault."""
    if not rows and "refuse" in said:
        return "refused by it"
    if "may read it otherwise" in said or "leaves out" in said:
        return "not sure"
    if "refused" in wanted.answer:
        return "refused by Wine"
    if rows == wanted.rows:
        return "the same"
    return "otherwise" if rows == wanted.turned[reading] else "no reason"


def spoilt_answers(answer):
    """Wine's answer with one number or word spoilt, for each kind of them."""
    def other(*path):
        copy = json.loads(json.dumps(answer))
        *path, last = path
        place = copy
        for key in path:
            place = place[key]
        place[last] = "?"
        return copy

    if "refused" in answer:
        for name in answer:
            yield name, other(name)
        yield "taken", {"said": [], "collections": [], "reports": []}
        return
    yield "refused", {"refused": "HIDP_STATUS_INTERNAL_ERROR", "reason": "pop", "offset": 0}
    yield "said more", {**answer, "said": [*answer["said"], ["pop", 0]]}
    for at in range(2) if answer["said"] else ():
        yield f"word {at} said", other("said", 0, at)
    for at in range(5) if answer["reports"] else ():
        yield f"report's word {at}", other("reports", 0, at)
    for top in answer["collections"][:1]:
        yield "collection", {**answer, "collections": answer["collections"][1:]}
        yield "collection's usage", other("collections", 0, "usage")
        for at in range(3):
            yield f"length {at}", other("collections", 0, "lengths", at)
            yield f"node's word {at}", other("collections", 0, "nodes", 0, at)
        for at in range(18) if top["parts"] else ():
            yield f"part's word {at}", other("collections", 0, "parts", 0, at)


def spoilt_told(told):
    """Refusals of which one is spoilt, for each kind."""
    yield "a refusal more", [*told, ("OTHER", 1)]
    if told:
        yield "a refusal less", told[1:]
        yield "a name", [("OTHER", told[0][1]), *told[1:]]
        yield "an offset", [(told[0][0], -1), *told[1:]]


def spoilt_rows(rows):
    """Fields with one number of one of them spoilt, for each kind of number."""
    yield "extra field", [("input", None, 0, 8, "variable", (0, 255), ((0, 0),)), *rows]
    if not rows:
        return
    first = rows[0]
    yield "missing field", rows[1:]
    for at, name in enumerate(("direction", "report", "start", "end", "kind", "bounds", "usages")):
        if at in (0, 4):
            others = ["?"]
        elif at == 1:
            others = [9 if first[1] is None else None]
        elif at in (2, 3):
            others = [first[at] + 1]
        else:
            spans = first[at] if at == 6 else (first[5],) if first[5] else ()
            others = [((low + 1, high), *spans[1:]) for low, high in spans[:1]]
            others += [((low, high + 1), *spans[1:]) for low, high in spans[:1]]
            others = others if at == 6 else [one for one, in others]
        for other in others:
            yield name, [(*first[:at], other, *first[at + 1:]), *rows[1:]]


def compare_one(question):
    """What is counted of a descriptor, and faults."""
    program, raw, answer = question
    counts, wanted = collections.Counter({"descriptors": 1}), Wanted(raw)
    objects = ask(program, ["check", "--for", "windows"], raw)[0]
    told, is_read = refusals_of(objects), all(one.get("rule") != "HID001" for one in objects)
    asked_of = {reading: ask(program, ["fields", "--as", reading], raw) for reading in READINGS}
    rows = {reading: fields_of(objects) for reading, (objects, _) in asked_of.items()}
    faults = [fault_of_wine(wanted, answer), fault_of_check(wanted, told, is_read)]
    verdict, has_reason = verdict_of(answer, told)
    counts["refused", verdict] += 1
    faults += [] if has_reason else [f"refused {verdict}: no reason"]
    spoilt = [(f"Wine's {name}", not fault_of_wine(wanted, other)) for name, other in spoilt_answers(answer)]
    spoilt += [("a reason of Wine alone", verdict_of({"refused": "", "reason": "?"}, [])[1]),
               ("a name of check alone", verdict_of({}, [("?", 0)])[1])]
    spoilt += [(f"{name} of check", not fault_of_check(wanted, other, is_read)) for name, other in spoilt_told(told)]
    for reading, (_, said) in asked_of.items():
        kind = kind_of(wanted, reading, rows[reading], said)
        counts[reading, kind] += 1
        if kind == "no reason":
            faults.append(f"as {reading}: {rows[reading]}, and Wine {wanted.rows}, {wanted.turned[reading]}")
        if kind == "otherwise":
            reasons = wanted.reasons(reading)
            counts.update((reading, f"({reason})") for reason in reasons)
            faults += [reason for reason in reasons if "without a reason" in reason]
        if kind in ("the same", "otherwise"):
            spoilt += [(f"{name} as {reading}", kind_of(wanted, reading, other, said) != "no reason")
                       for name, other in spoilt_rows(rows[reading]) if other != wanted.rows]
    counts["spoilt"] += len(spoilt)
    faults = [fault for fault in faults if fault]
    return raw, counts, faults or [f"spoilt and not noticed: {name}" for name, is_missed in spoilt if is_missed]


def compare(program, some):
    """Compares all; 0 where each difference has its reason and each spoilt answer is noticed."""
    total, bad = collections.Counter(), 0
    with multiprocessing.Pool(2) as pool:
        for raw, counts, faults in pool.imap(compare_one, [(program, *row) for row in some], 8):
            total.update(counts)
            for fault in faults:
                print(f"windows_readings: {short_hex(raw)}: {fault[:1200]}")
            bad += bool(faults)
    for first in ("refused", *READINGS):
        listed = sorted((key[1], count) for key, count in total.items() if key[0] == first)
        print(f"windows_readings: {first}:", ", ".join(f"{name} {count}" for name, count in listed))
    print(f"windows_readings: {total['descriptors']} descriptors, {bad} with a difference without a reason, "
          f"{total['spoilt']} spoilt answers")
    return bad != 0 or not total["spoilt"] or not total["descriptors"]


# What Windows itself said of devices.

def part_of_windows(kind, part):
    """A part that Windows lists, as Wine's are."""
    flags = sum(flag for name, flag in (
        ("IsMultipleItemsForArray", windows_model.MORE), ("IsPadding", windows_model.CONSTANT),
        ("IsButtonCap", windows_model.BUTTON), ("IsAbsolute", windows_model.ABSOLUTE), ("IsRange", windows_model.RANGE),
        ("IsStringRange", windows_model.STRINGS), ("IsDesignatorRange", windows_model.DESIGNATORS)) if part[name])
    usages = [part["Range.UsageMin"], part["Range.UsageMax"]] if part["IsRange"] else [part["NotRange.Usage"]] * 2
    # A button has its bounds in the place of the null value and the minimum.
    if part["IsButtonCap"]:
        bounds, null = [part["Button.LogicalMax"], 0, 0, 0], part["Button.LogicalMin"]
    else:
        bounds = [part[f"NotButton.{name}"] for name in ("LogicalMin", "LogicalMax", "PhysicalMin", "PhysicalMax")]
        null = part["NotButton.HasNull"]
    return [kind, part["ReportID"], part["BytePosition"] * 8 + part["BitPosition"], part["BitSize"],
            part["ReportCount"], part["BitField"], flags, part["UsagePage"], *usages, *bounds, part["Units"],
            part["UnitsExp"], null, part["LinkCollection"]]


def collection_of_windows(path):
    """An outermost collection that Windows lists, as Wine's are."""
    with open(path, encoding="latin1") as file:
        text = file.read()
    nodes = re.findall(r"LinkCollectionArray\[\d+\]->(LinkUsage|LinkUsagePage|Parent|CollectionType) *= (\S+)", text)
    nodes = [dict((name, int(number, 0)) for name, number in nodes[at:at + 4]) for at in range(0, len(nodes), 4)]
    nodes = [[one["CollectionType"], f"{one['LinkUsagePage']:04x}{one['LinkUsage']:04x}", one["Parent"]]
             for one in nodes]
    return {"usage": "".join(re.search(rf"pp_data->{name} *= 0x(\S+)", text)[1].lower()
                             for name in ("UsagePage", "Usage")),
            "lengths": [int(number) for number in re.findall(r"ReportByteLength *= (\d+)", text)], "nodes": nodes,
            "parts": [part_of_windows(*one) for one in windows_usages.found_by_windows(path)]}


def recordings(folder):
    """The devices: a name, the whole descriptor, and Windows' outermost collections. A file has one of these; its
    path says of which device, and the how manieth it is."""
    devices = {}
    for path in sorted(glob.glob(os.path.join(folder, "*.pp_data"))):
        beside = path[:-len(".pp_data")] + "_real.rpt_desc"
        if os.path.exists(beside):
            text = open(path, encoding="latin1").read()
            device = re.search(r'dev->path *= "[^#]*#([^#]*)#', text)[1].lower()
            place = re.search(r"&col(\d+)", device)
            devices.setdefault(re.sub(r"&col\d+", "", device), []).append(
                (int(place[1]) if place else 1, windows_usages.descriptor_in(beside), collection_of_windows(path)))
    for name, tops in devices.items():
        tops.sort(key=lambda top: top[0])
        if [place for place, *_ in tops] != list(range(1, len(tops) + 1)):
            raise SystemExit(f"{name}: not all of its outermost collections are there")
        yield name, b"".join(raw for _, raw, _ in tops), [top for *_, top in tops]


def faults_of_recording(model, wanted):
    """What differs, but parts without data."""
    if model.refused or len(model.collections) != len(wanted):
        return [(model.refused or len(model.collections), f"{len(wanted)} outermost collections")]
    found = []
    for own, theirs in zip(model.collections, wanted):
        parts = [part for part in own["parts"] if not part[6] & windows_model.CONSTANT]
        found += [(key, own[key], theirs[key]) for key in ("usage", "lengths", "nodes") if own[key] != theirs[key]]
        found += [pair for pair in itertools.zip_longest(parts, theirs["parts"]) if pair[0] != pair[1]]
    return found


def spoilt_recordings(wanted):
    """Windows' outermost collections with a number or word of the first one spoilt, for each kind of them."""
    for key in ("usage", "lengths", "nodes", "parts"):
        for at in range(len(wanted[0][key][0]) if key in ("nodes", "parts") else 1) if wanted[0][key] else ():
            copy = json.loads(json.dumps(wanted))
            if key in ("nodes", "parts"):
                copy[0][key][0][at] = "?"
            else:
                copy[0][key] = "?"
            yield f"{key} {at}", copy


def compare_recordings(folder, judge, program):
    """Compares Windows with Wine, with the model where rules are Windows', and with HID; says of which rules it
    tells."""
    counts, faults, rules = collections.Counter(), [], set()
    for name, raw, wanted in recordings(folder):
        parts = [part for top in wanted for part in top["parts"]]
        rows = sorted(rows_of_parts(parts), key=str)
        counts.update(devices=1, collections=len(wanted), parts=len(parts), fields=len(rows))
        faults += filter(None, [fault_of_wine(Wanted(raw), judge.answers([raw])[0])])
        others = faults_of_recording(Reading(raw), wanted)
        counts["devices otherwise in Wine"] += bool(others)
        print(*(f"{name}: Wine {one}, Windows {theirs}"[:300] for one, theirs in (pair[-2:] for pair in others[:2])),
              sep="\n", end="\n" if others else "")
        model = Reading(raw, windows_model.WINDOWS)
        faults += [f"{name}: by Windows' rules: {one}" for one in faults_of_recording(model, wanted)]
        rules |= {rule for rule in windows_model.RULES
                  if faults_of_recording(Reading(raw, windows_model.WINDOWS ^ {rule}), wanted)}
        for what, other in spoilt_recordings(wanted):
            counts["spoilt"] += 1
            faults += [] if faults_of_recording(model, other) else [f"spoilt and not noticed: {what}"]
        faults += [f"{name}: {one}" for one in refusals_of(ask(program, ["check", "--for", "windows"], raw)[0])]
        for reading in READINGS:
            own = fields_of(ask(program, ["fields", "--as", reading], raw)[0])
            others = [one for one in own if one not in rows]
            counts[f"fields otherwise as {reading}"] += len(others)
            print(*(f"{name} as {reading}: {one}" for one in others[:1]), sep="\n", end="\n" if others else "")
            faults += [] if len(own) == len(rows) else [f"{name} as {reading}: {len(own)} fields"]
    print(*faults, sep="\n", end="\n" if faults else "")
    print("windows_readings: recordings tell of these rules:", ", ".join(sorted(rules)))
    print("windows_readings: recordings:", ", ".join(f"{name}: {count}" for name, count in sorted(counts.items())))
    return bool(faults) or not counts["parts"]


def main(words):
    os.environ["LC_ALL"] = "C"
    if words[:1] == ["compare"] and len(words) == 2:
        return compare(words[1], rows_of_file())
    if len(words) < {"compare": 3, "recordings": 4}.get((words or [""])[0], 1):
        raise SystemExit(__doc__)
    with tempfile.TemporaryDirectory() as folder:
        judge = Judge(words[2] if words[0] in ("compare", "recordings") else words[0], folder)
        if words[0] == "recordings":
            return compare_recordings(words[3], judge, words[1])
        if words[0] == "compare":
            some = [one for part in asked() for one in part]
            return compare(words[1], list(zip(some, judge.answers(some))))
        if words[1:] in ([], ["ask"]):
            print(HEAD, *recorded(judge), sep="\n")
        elif words[1:] == ["made"]:
            some = [one for part in asked() for one in part]
            print(*(line_of(*row) for row in zip(some, judge.answers(some))), sep="\n")
        else:
            print(*(json.dumps(one) for one in judge.answers([bytes.fromhex(word) for word in words[1:]])), sep="\n")
    return 0


if __name__ == "__main__":
    sys.exit(main(sys.argv[1:]))
