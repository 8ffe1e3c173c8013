#!/usr/bin/env python3
"""How Linux's hid-core reads report descriptors, asked of hid-core's own functions (compare/hid_core).

    linux_readings.py SOURCES [ask]        prints compare/linux_readings.txt anew
    linux_readings.py SOURCES made         prints the answers to all descriptors of the tree and all made ones
    linux_readings.py SOURCES HEX ..       prints the answers to these descriptors, as JSON
    linux_readings.py model                compares the model in linux_events.py with linux_readings.txt

SOURCES is the folder of a kernel's sources, or the word `debian`, as hid_core/build.sh has it. The made
descriptors are those below at the boundary of each rule, and 10,000 by chance, always the same ones.
"""
import json
import os
import random
import re
import subprocess
import sys
import tempfile

import linux_events

HERE = os.path.dirname(os.path.abspath(__file__))
SEED, BY_CHANCE, RECORDED = 612, 10_000, 2_000
# The most characters of a line that is recorded of a descriptor by chance or of the tree.
LONGEST = 900

HEAD = """\
# How Linux's hid-core reads report descriptors: what its own functions answered
# (compare/hid_core, Debian's linux-source-6.12 6.12.117-1~deb12u1). Printed by compare/linux_readings.py.
#
# A line for each descriptor: its bytes, of which `XX*N` are the bytes XX N times and `+` joins parts, or `-` if
# it has none; then
#
#   refused ITEM OFFSET GROUP MESSAGE
#       the number of the item that was refused, from 0, and its offset; at the end of the descriptor
#       the number of all items and the size.
#   stopped ITEM OFFSET GROUP
#       hid-core divides -2147483648 by -1 at the end of the descriptor.
#   taken GROUP; PART; PART ..
#       a part is one of
#       said ITEM TIMES MESSAGE     a warning, with the item that brought it first
#       c TYPE USAGE PARENT         a collection, in order; the PARENT's number, or -1
#       input|output|feature ID APPLICATION BITS      a report; behind it its fields:
#       f OFFSET SIZE COUNT FLAGS MINIMUM MAXIMUM USAGES.. [w MINIMUM MAXIMUM] [e EXPONENT] [u UNIT]
#         [a APPLICATION] [p PHYSICAL] [l LOGICAL]    FLAGS and UNIT in hexadecimal digits. w: the physical
#         bounds, where one isn't 0; e, u: where they aren't 0; a, p, l: the usages of the innermost open
#         collections of each type, a where it isn't the report's, p and l where they aren't 0. The usages
#         are in order, of eight digits: FIRST..LAST, each one more than the one before, USAGE*TIMES or USAGE,
#         from the left, each of these runs as long as it goes; behind each stands @COLLECTION (0 for a usage
#         outside any collection), and xN where the wheels' multiplier isn't 1.
#       = [TIMES]                   fields like the last one, each behind the one before
#
# GROUP is `generic`, or what hid-core's scan finds else, `-` for its spaces. Inputs come first, then outputs
# and features, each in the order in which hid-core registered them. All numbers are decimal, but usages,
# FLAGS and UNIT. The transport's buffer is hid-core's own, of 16384 bytes.
"""

# Descriptors at the boundaries of hid-core's rules; XX*N are the bytes XX, N times.
BOUNDARIES = """\
# what can't be fetched, and long items
00*0; 81; 8100; 80; 82; 8200; 820000; 83; 83000000; 8300000000; fe; fe00; fe0000; fe0100; fe010000; f0; f00000
f40000; f80000; ff0000; 80fe0000; fd0000; 80fe; 0501; 05; 06 01; 07 010000; 0901fe0000
# collections
a0; a0c0; a0a0c0; a0c0c0; c0; c100; a100c0; a101c100; a2 0001 c0; a2 0102 c0; a3 04030201 c0
a0*20 c0*20; a0*20 c0*19; a0*20 c0*21; a0 c0 a0 c0; a1ff c0; 0901 0902 a101 c0; 1905 2909 a101 c0; 1905 a101 c0
0905a101 0902 c0 80; 0905a101 c0 0902 80; 0905a101c0a1000902 80c0; 0905a1010901a1000902a10180c0090380c0c0
0905a101 0906a100 0907a102 0908a1ff 75089501 0901 8102 c0c0c0c0; 0905a101 0906a101 0907 80 c0 0908 80 c0
0905a100 0906a100 0907a102 0908a102 0909 80 c0 0909 80 c0 0909 80 c0 0909 80 c0 0909 80; a100 0901 80 c0 0901 80
# Delimiters
a901; a90180; a901a8; a901a900; a0a901; a901a0c0; a8; a900; a901a901; a901a8a901a8; a901a8a8; a90180a8; a9ffa8
aa0000; aa0001a8; a90180 a901 80; 0501 a901 0901 0902 a8 a901 0903 a8 0904 9505 7508 80
0501 0901 a901 0902 a8 0903 a901 0904 a8 0905 80; 0501 a901 0901 80 0902 a8; 0501 a901 0901 80 0902 80
0501 a901 1901 a8 a901 2905 a8 80; 0501 a901 1901 a8 2905 80; 0501 a901 a8 a901 1905 a8 2906 0907 80
0501 a901 0901 a8 a901 0902 a8 a101 c0; 0501 a901 0901 a8 00 a901 0902 a8 80; a901 0901 a8 a901*1 a8 a901 a8 0902 80
# Push and Pop
a4*4; a4*5; b4; a4b4; a4b4b4; a4*4 b4*4; a4*4 b4 a4; a4*4 b4 a4 a4; a4*4 b4*5; a500 b500; a47508b4 9501 0901 80
a4 7508 9501 0901 b4 80; a4 7508 9501 0901 80 b4 0902 80; 8501 a4 8502 0901 80 b4 0902 80; a4 8502 b4 0901 80
0501 a4 0509 b4 0930 80; 0501 0930 a4 0509 b4 80; 1581 257f a4 1500 b4 25ff 0901 80; a4 0901 b4 0902 80
5507 6511 35ff 4501 a4 54 64 34 44 b4 0901 80; a4 1901 b4 2905 80; a901 a4 b4 a8 0901 80
# sizes, counts and ids
7500 0901 80; 74 0901 80; 7501; 75ff; 760001; 760101; 77000100 00; 7700010000; 7701010000; 77ffffffff; 76 00ff
9500 0901 80; 94 0901 80; 960030; 960130; 9700300000; 9701300000; 97ffffffff; 9700000100
84; 8500; 8501; 85ff; 860000; 86ff00; 860001; 87ff000000; 8700010000; 8700000080; 850100
0901 7508 9501 80; 0901 760001 9501 80; 0901 7520 9502 80; 0901 7521 9502 80; 0901 76 0001 95 02 90
0901 9508 74 80; 0901 9508 7400 80; 0901 94 7501 80; 0901 960030 74 80; 2a0030 960030 74 80; 75089501800901 80
8501 0901 7508 9501 80 8502 0901 b0 8501 80 90; 0901 7508 9501 80 8502 0901 80; 8502 0901 80 8501 0902 80
85ff 0901 80 8501 0902 90 85fe 0903 b0 85ff 0904 80; 8501 80 a101 0901 80 c0; 0901a101 8501 80 c0 0902 a101 0901 80 c0
# unknown items
c4; d4; e4; c500; f40000; 00; 10; 20; 30; 40; 50; 60; 70; d0; e0; 0901 00 80; 0901 d0 80; 0901 7000 80
0c; 0d00; 1c 2c; ec; 0901 0c 80; 0901 0d00 ed00 80; 38 48 58 68 78 88 98; b8 c8 d8 e8; 0901 3901 4901 5901 80
0901 6901 7901 8901 9901 b901 c901 d901 e901 80; 0901 1c00 80; 00*100; a9010ca8; 09010e000080
# bounds
15018080; 150180; 150024 80; 1501 2501 80; 1502 2501 80; 15ff25fe80; 15ff25ff80; 15ff80; 158180; 150180 80
150025ff 0901 9501 7508 80; 25ff15ff 0901 80; 25ff15ff25ff 0901 80; 15ff25ff1500 0901 80; 1500 26ffff 0901 80
1500 27ffffffff 0901 80; 1700000080 27ffffff7f 0901 80; 17ffffff7f 27ffffffff 0901 80; 17ffffff7f 27feffff7f 80
1701000000 2400 80; 16ff00 26fe00 80; 16ff00 26ff00 0901 80; 15ff 2400 0901 80; 14 24 0901 80; 1600ff 2500 0901 80
3500 45ff 0901 80; 35ff 45ff 0901 80; 45ff 35ff 0901 80; 3505 4501 0901 80; 36ffff 46ffff 0901 80; 35 01 34 45ff 0901 80
3700000080 47ffffff7f 0901 80; 15ff 25fe 0901 00 80; 150580; 1505 2505 9501 75 08 80; 1501 2502 81 01
# units
5500 0901 80; 5501 0901 80; 5507 0901 80; 5508 0901 80; 550f 0901 80; 5510 0901 80; 557f 0901 80; 55f8 0901 80
55ff 0901 80; 5580 0901 80; 560f00 0901 80; 560800 0901 80; 56ff00 0901 80; 56f8ff 0901 80; 5708000000 0901 80
5708000080 0901 80; 57ffffffff 0901 80; 54 0901 80; 6511 0901 80; 66ffff 0901 80; 67ffffffff 0901 80; 64 0901 80
# usages and their pages
0930 80; 0501 0930 80; 0930 0501 80; 0501 0930 0509 80; 0501 0930 0509 0901 80; 0509 0901 0501 0930 0509 80
0509 0901 0501 0930 0509 0902 0501 80; 0509 0b30000100 0501 0930 0509 80; 0509 0901 0b02000100 0501 80
0509 0901 0b02000900 0509 80; 0701000100 0930 80; 0701000100 0930 0501 80; 0930 0701000100 80; 07ffffffff 0930 80
0501 0b30000900 80; 0501 0b30000000 80; 0501 0b30000000 0931 0509 80; 04 0930 80; 0501 04 0930 80; 0501 0930 04 80
0501 08 80; 0501 0a3000 80; 0501 0affff 80; 0501 0bffffffff 80; 0b30000100 0509 80; 06ffff 09ff 80; 0600ff 0901 80
0990 80 0a0900 80; 0509 0901 9503 7501 80; 0509 0901 0902 0903 9502 7501 80; 0901 8101 0901 8103 7508 9501 8101 8103
0901 82ffff; 0901 83ffffffff; 0901 82 0001; 80; 8102; 90; b0; 0901 80 90 b0; 0501 0930 a101 0931 0509 c0
0501 a101 0930 0509 a102 c0 80 c0; 0501 0930 0509 00 80; 0501 0930 0509 0d00 80
# ranges
1901 80; 2905 80; 28 80; 18 28 80; 0509 2903 80; 0509 1901 2903 80; 0509 1901 2903 2905 80; 0509 1903 2903 80
0509 1903 2904 0907 1901 2902 80; 0509 1903 2901 80; 0509 08 1903 2901 80; 0509 0808 1903 2901 80; 1900 2900 80
0509 0808 1903 28 80; 0509 080808 1903 28 80; 0509 1903 9501 80; 0509 1901 0501 2903 80; 0509 1901 2903 0501 80
0501 1b01000900 2903 9503 80; 0501 1901 2b03000000 80; 0509 1901 2b03000900 80; 0509 1b01000900 2b03000900 80
0509 1b01000900 2b03000900 0501 80; 0509 1b01000900 2b03000a00 80; 0509 1b01000900 2a0300 80; 0509 1aff7f 2a0080 80
0509 1aff00 2900 80; 0509 1afeff 2b01000100 80; 0509 1afeff 2aff00 80; 0509 1901 1903 2905 80; 0509 2905 1903 80
0509 1affff 2901 80; 1bffffffff2bffffffff; 1bfeffffff2bfeffffff 80; 1bfeffffff2bffffffff 80; 2bffffffff 80; 2bfeffffff 80
1b01d0ffff2901 80; 1b01d0ffff28 80; 1b00d0ffff28 80; 1bffcfffff28 80; 1b02d0ffff2902 80; 1b02d0ffff2901 80
1b01f0ffff2901 80; 1b00e0ffff2bffffff7f 80; 1b00000080 2bffffff7f 80; 1b00000080 28 80; 1b0000ff7f 28 80
# 12,288 usages
2aff2f 80; 2a0030 80; 2aff2f; 2a0030; 2aff2f 08; 2aff2f 0980; 2a0030 08; 2afe2f 0901 80; 2afe2f 0901 0901 80; 2afe2f 2901 80
2afe2f 28 80; 2afe2f 1901 2901 80; 2afe2f 1901 2902 80; 2aff2f 28; 2aff2f 1901 2901; 2aff2f 1901 28 80
2aff2f 1902 2902 80; 2aff2f 1902 28 80; 2aff2f 19ff 2901 80; 2aff2f 1901 2902 80; 2aff2f 80 08 80; 2aff2f a9010908a8
1901 2a0030 80; 1901 2a0130 80; 1901 2a0030 08 80; 0509 1901 2a0030 0501 80; 0509 2aff1f 2aff0f 80; 0509 2aff1f 2a0010 80
0509 2aff1f 2aff0f 08; 2aff2f 960030 80; 0901 960030 80; 0901 960130 80; 08*12288 80; 08*12289 80; 0b01000900*3 2aff2f 80
a901 2aff2f a8 a901 0801 a8 80; a901 2aff2f a8 08; a901a8a901 2aff2f08a8 80; 2aff2f a101 2aff2f 80 c0; 2affff 80; 26ffff 0a0100 2affff 80
# too long, too many fields
751896551580; 7537964f0980; 760001960002 80; 76000196ff01 80 75f8 9501 80; 76000196ff01 80 75f9 9501 80
76000196ff01 80 75f8 9501 90 80; 8501 76000196ff01 80 75f8 9501 80; 8501 76000196ff01 80 8502 75f9 9501 80
8501 76000196ff01 80 75f8 9501 80 75 01 80; 7501 96f82f 80*10 7501 961c1f 80; 7501 96f82f 80*10 9649 1f 80
760001 960030 80; 751896551580 7501 9501 90; 751896551580 74 80; 751896551580 7501 94 80; 751896551580 7501 9501 80
0880*256; 0880*257; 0880*257 0890; 0880*256 80; 75089501 0880*257 0b30000100 0880; a0 0880*257; a0 0880*257 c0; 08 80*258
8501 0880*256 8502 0880; 0880*255 0901 80; 75ff 9502 0880*257; 76000196ff01 80 74 0880*300
# groups
050d 0951 80; 050d 0951 8101; 050d 0951 8103; 050d 0951 90; 050d 0951 b0; 0951 050d 80; 050d 194f 2955 80; 0b51000d00 80
050d 0951 80 0520 a100 c0; 0520 a100 c0 050d 0951 80; 0520 a100 c0; 0520 a101 c0; 0520 a102 c0; 0520 a1ff c0; 0720000100 a100 c0
06d1ff 0901 a101 c0; 06d1ff 0902 a101 c0; 06d1ff 1901 2903 a102 c0; 0bd10001ff a102 c0; 06d1ff 0901 a102 050d 0951 80 c0
050d 0951 80 0600ff 09c5 960001 7508 b0; 050d 0951 80 0600ff 09c6 9501 7508 b0; 050d 0951 80 0600ff 09c6 9501 7508 90
050d 0951 80 0600ff 09c5 95ff 7508 b0; 0600ff 09c5 960001 7508 b1 01; 050d 0951 80 0600ff 09c6 9502 7508 b0
0600ff 09c5 960001 7508 b0 050d 0951 80; 050d0951 00 80; 050d a901a8a901 0951 a8 80
# resolution multipliers
05010902a1010902a1020948150025013501450475029501b10209381581257f350045007508 8106c005010930 8106c0
05010902a101 0948 15002501 35014504 7502 9501 b102 0938 1581257f 35004500 7508 8106 c0
05010902a101 0948 15002501 36ff004504 7502 9501 b102 0938 1581257f 35004500 7508 8106 c0
05010902a101 0948 15002501 3600014504 7502 9501 b102 0938 1581257f 35004500 7508 8106 c0
05010902a101 0948 15002501 35074504 7502 94 b102 0938 1581257f 35004500 7508 9501 8106 c0
05010902a101 0948 15812501 35074509 7502 9501 b102 0938 1581257f 35004500 7508 9501 8106 c0
05010902a101 0948 1501 2501 3507 7502 9501 b102 0938 7508 8106 c0; 05010902a101 0948 3504 54 5501 b0 0938 7508 9501 80 c0
05010902a101 0948 3504 9501 b0 0938 7508 80 c0; 05010902a102 0948 15002501 3504 9501 b0 0938 7508 80 c0
05010902a101 0930 0948 15812501 3504 9502 b0 0902a102 0938 7508 80 c0 0938 80 c0
05010902a101 a102 a100 0948 15812501 3504 9501 b0 c0 a104 0938 7508 80 c0 c0 0938 80 c0
05010902a101 0948 1581 2501 3504 9501 b0 8501 0938 7508 80 8502 0930 80 c0; 0501 0948 15812501 3504 9501 b0 0938 80
05010902a101 0948 1700000080 27ffffff7f 3501 4504 7502 9501 b102 c0; 05010948 1700000080 27ffffff7f 9501 b0
05010948 1701000080 27ffffff7f 9501 b0; 05010948 1700000080 27ffffff7f 94 b0; 05010948 1700000080 27ffffff7f 9501 80
"""


def bytes_of(text):
    """A descriptor of BOUNDARIES: XX*N are the bytes XX, N times."""
    digits = ""
    for word in text.split():
        one, _, times = word.partition("*")
        digits += one * int(times or 1)
    return bytes.fromhex(digits)


def boundaries():
    lines = [line for line in BOUNDARIES.splitlines() if not line.startswith("#")]
    return [bytes_of(one) for line in lines for one in line.split(";") if one.strip()]


class Chance:
    """Descriptors by chance."""

    GENERIC = (0x30, 0x31, 0x38, 0x48, 1, 2, 6)
    PAGES = (1, 1, 7, 8, 9, 9, 0xC, 0xD, 0x20, 0xFF00, 0xFFD1)

    def __init__(self, seed, known):
        self.random = random.Random(seed)
        self.known = known

    def one_of(self, words):
        return words[self.random.randrange(len(words))]

    def rarely(self, times):
        return self.random.randrange(times) == 0

    def item(self, head, number=0, size=None):
        """An item with a number; in the fewest bytes that hold it, or rarely in more."""
        if size is None:
            size = 1 if -128 <= number < 256 else 2 if -32768 <= number < 65536 else 4
            if self.rarely(12):
                size = self.one_of([one for one in (1, 2, 4) if one >= size])
            if number == 0 and self.rarely(8):
                size = 0
        code = {0: 0, 1: 1, 2: 2, 4: 3}[size]
        return bytes([head | code]) + (number % 2**(8 * size)).to_bytes(size, "little")

    def descriptor(self):
        kind = self.random.randrange(20)
        if kind < 2:
            return self.noise()
        if kind < 4:
            return self.turned()
        return self.device(self.one_of((0, 0, 60, 20, 8)))

    def noise(self):
        """Items of any header."""
        found = b""
        for _ in range(self.random.randrange(1, 14)):
            head = self.random.randrange(256) if self.rarely(2) else self.one_of(
                (0x05, 0x09, 0x0B, 0x15, 0x25, 0x19, 0x29, 0x75, 0x95, 0x81, 0x91, 0xB1, 0xA1, 0xC0, 0xA9))
            size = (0, 1, 2, 4)[head & 3]
            found += bytes([head]) + bytes(self.one_of((0, 1, 1, 2, 3, 8, 0xFF, self.random.randrange(256)))
                                           if i == 0 else self.one_of((0, 0, 0, 1, 9, 0xFF))
                                           for i in range(size))
        return found[:-1] if self.rarely(20) else found

    def turned(self):
        """A descriptor of the tree with some bytes turned, left out or put in."""
        found = bytearray(self.one_of(self.known))
        for _ in range(self.random.randrange(1, 4)):
            at = self.random.randrange(len(found) + 1)
            how = self.random.randrange(6)
            if how == 0:
                del found[at:at + self.random.randrange(1, 4)]
            elif how == 1 and self.rarely(3):
                del found[at:]
            elif how == 2:
                found[at:at] = self.one_of((b"\xa4", b"\xb4", b"\xa9\x01", b"\xa8", b"\x09\x01", b"\x05\x09", b"\xc0",
                                            b"\x29\x03", b"\x15\x00", b"\x95\x02", b"\x80"))
            elif how == 3 and at < len(found):
                found[at] ^= 1 << self.random.randrange(8)
            elif at < len(found):
                found[at] = self.one_of((0, 1, 0x7F, 0x80, 0xFF, self.random.randrange(256)))
        return bytes(found)

    def device(self, odd):
        """Collections, globals, usages and data items; each `odd`th item, if it isn't 0, is an odd one."""
        self.depth, self.pushed, self.minimum = 0, 0, 0
        found = b""
        if self.rarely(2):
            found += self.page() + self.item(8, self.one_of(self.GENERIC)) + self.collection()
        if not self.rarely(4):
            found += self.page() + self.size() + self.count()
        for _ in range(self.random.randrange(1, 16)):
            if odd and self.rarely(odd):
                found += self.odd()
            else:
                found += self.one_of(STEPS)(self)
        if not self.rarely(8):
            found += self.data_with_usages()
        if not self.rarely(12):
            found += b"\xc0" * self.depth
        return found

    def page(self):
        return self.item(0x04, self.one_of(self.PAGES))

    def bounds(self):
        low = self.one_of((0, 0, 0, 1, -1, -127, -128, -32768, 5))
        high = self.one_of((1, 1, 127, 255, 0x7FFF, 0xFFFF, 101))
        first, second = self.item(0x14, low), self.item(0x24, max(low, high))
        self.minimum = low
        return second + first if self.rarely(15) else first if self.rarely(20) else first + second

    def physical(self):
        return self.item(0x34, self.one_of((0, 0, 1, -1, -180, 5))) + self.item(
            0x44, self.one_of((0, 255, 315, 4, 0xFFFF, -1)))

    def unit(self):
        return self.item(0x54, self.one_of((0, 1, 7, 8, 0xE, 0xF, -1, -3, 0x10))) + self.item(
            0x64, self.one_of((0, 0x11, 0x14, 0x1001, 0xF011, 0xFFFF0000)))

    def size(self):
        return self.item(0x74, self.one_of((1, 1, 2, 4, 8, 8, 8, 16, 32, 33, 64, 0, 255, 256)))

    def count(self):
        return self.item(0x94, self.one_of((1, 1, 1, 2, 3, 5, 6, 8, 0, 16, 255, 256, 1000)))

    def id(self):
        return self.item(0x84, self.one_of((1, 1, 2, 3, 255, 254)))

    def push_or_pop(self):
        if self.pushed and self.rarely(2):
            self.pushed -= 1
            return b"\xb4"
        if self.pushed == 4:
            return b""
        self.pushed += 1
        return b"\xa4"

    def collection(self):
        self.depth += 1
        return self.item(0xA0, self.one_of((0, 1, 1, 2, 2, 3, 4, 5, 6, 0x80, 0xFF)))

    def usage(self):
        if self.rarely(6):
            return self.item(0x08, self.one_of(self.PAGES) << 16 | self.random.randrange(1, 6), 4)
        return self.item(0x08, self.one_of(self.GENERIC))

    def range_of_usages(self):
        first = self.one_of((0, 1, 1, 1, 4, 0xE0, 0x30))
        last = first + self.one_of((0, 1, 2, 2, 7, 100, 255))
        if self.rarely(8):
            page = self.one_of(self.PAGES) << 16
            return self.item(0x18, page | first, 4) + self.item(0x28, page | last, 4)
        low, high = self.item(0x18, first), self.item(0x28, last)
        if self.rarely(12):
            return self.one_of((high, low, low + self.page() + high, high + low, low + high + high))
        return low + high

    def usages(self):
        return b"".join(self.one_of((self.usage, self.usage, self.range_of_usages))()
                        for _ in range(self.one_of((1, 1, 1, 2, 3))))

    def data(self):
        return self.item(self.one_of((0x80, 0x80, 0x80, 0x90, 0xB0)), self.one_of((2, 2, 2, 0, 1, 3, 6, 0x42, 0x100)))

    def data_with_usages(self):
        return self.usages() + (self.page() if self.rarely(6) else b"") + self.data()

    def open_or_end(self):
        if self.depth and self.rarely(2):
            self.depth -= 1
            return b"\xc0"
        return self.usage() + self.collection()

    def sets(self):
        """Delimiters as they should be."""
        one = b"".join(b"\xa9\x01" + self.usages() + self.item(0xA8, 0) for _ in range(self.one_of((1, 2, 2, 3))))
        return (self.usage() if self.rarely(3) else b"") + one + (self.usage() if self.rarely(3) else b"")

    def multiplier(self):
        return b"\x05\x01\x09\x48" + self.bounds() + self.physical() + b"\x75\x02\x95\x01\xb1\x02"

    def odd(self):
        return self.one_of((
            lambda: self.item(0xA8, self.one_of((0, 1, 1))),
            lambda: self.item(0x28, self.one_of((12287, 12288, 12286, 12289, 65535, 0xFFFFFFFF))),
            lambda: self.item(0x18, self.one_of((1, 5, 300, 0xFFFFFFF0, 0x90001))) + self.item(
                0x28, self.one_of((0, 1, 3, 0x90003, 0x10, 12288))),
            lambda: self.item(0x74, self.one_of((256, 257, 300, 0x10000, -1))),
            lambda: self.item(0x94, self.one_of((12288, 12289, 5461, 511, -1, 0x10000))),
            lambda: self.item(0x84, self.one_of((0, 255, 256, -1, 1))),
            lambda: self.item(0x14, self.one_of((2, 300, 0x7FFFFFFF, -2147483648))),
            lambda: self.item(0x24, self.one_of((-1, -2, 0, 255, 0x7FFFFFFF, -2147483648))),
            lambda: self.item(0x04, self.one_of((0x10001, 0x10009, 0xFFFFFFFF, 0, 0xFFFF))),
            lambda: self.one_of((b"\xa4", b"\xb4", b"\xa4" * 4, b"\xa4" * 5)),
            lambda: self.one_of((b"\xc0", self.item(0xA0, 1))),
            lambda: self.item(self.one_of((0x00, 0x10, 0x40, 0x70, 0xD0, 0xE0)), self.random.randrange(3)),
            lambda: self.item(self.one_of((0xC4, 0xD4, 0xE4)), 1),
            lambda: self.item(self.one_of((0x38, 0x48, 0x58, 0x68, 0x78, 0x88, 0x98, 0xB8, 0xE8)), 1),
            lambda: self.item(self.one_of((0x0C, 0x1C, 0x8C, 0xEC)), self.random.randrange(3)),
            lambda: self.one_of((b"\xfe\x00\x00", b"\xfe\x01\x10\x00", b"\xf4\x00\x09", b"\xfe\x09")),
            lambda: bytes([self.random.randrange(256)]),
            lambda: b"\x09\x01\x80" * self.one_of((2, 3)),
            lambda: b"\x74" + b"\x08\x80" * self.one_of((255, 256, 257)) if self.rarely(8) else b"\x95\x01",
            self.multiplier, self.sets, self.sets))()


STEPS = (Chance.page, Chance.bounds, Chance.size, Chance.size, Chance.count, Chance.count, Chance.id,
         Chance.open_or_end, Chance.open_or_end, Chance.data_with_usages, Chance.data_with_usages,
         Chance.data_with_usages, Chance.usages, Chance.data, Chance.physical, Chance.unit, Chance.push_or_pop)


class Judge:
    """hid-core's functions, built from the sources of a kernel."""

    def __init__(self, sources, folder):
        subprocess.run(["bash", os.path.join(HERE, "hid_core/build.sh"), sources, folder], check=True)
        self.program = os.path.join(folder, "ask")

    def answers(self, descriptors):
        said = subprocess.run([self.program], input="".join(one.hex() + "\n" for one in descriptors).encode(),
                              stdout=subprocess.PIPE, check=True).stdout.decode().splitlines()
        if len(said) != len(descriptors):
            raise SystemExit(f"{len(said)} answers to {len(descriptors)} descriptors")
        return [json.loads(line) for line in said]


def short_hex(raw):
    """The bytes of a descriptor; what stands in it many times, one behind the other, is said once."""
    digits = raw.hex()
    parts, at = [], 0
    for match in re.finditer(r"((?:..){1,5}?)\1{19,}", digits):
        if match.start() % 2 or match.start() < at:
            continue
        parts += [digits[at:match.start()]] if at < match.start() else []
        parts.append(f"{match[1]}*{len(match[0]) // len(match[1])}")
        at = match.end()
    parts += [digits[at:]] if at < len(digits) else []
    return "+".join(parts) or "-"


def field_words(field, application):
    words = [field["size"], field["count"], f"{field['flags']:x}", *field["logical"], *field["usages"]]
    if any(field["physical"]):
        words += ["w", *field["physical"]]
    if field["exponent"]:
        words += ["e", field["exponent"]]
    if field["unit"]:
        words += ["u", f"{field['unit']:x}"]
    if field["application"] != application:
        words += ["a", field["application"]]
    for key in "physical", "logical":
        if int(field[key + "_usage"], 16):
            words += [key[0], field[key + "_usage"]]
    return " ".join(map(str, words))


def report_parts(report):
    """A report, and its fields; those like the one before, right behind it, are counted."""
    yield f"{report['type']} {report['id']} {report['application']} {report['bits']}"
    last, behind, times = None, None, 0
    for field in report["fields"]:
        words = field_words(field, report["application"])
        if words == last and field["offset"] == behind:
            times += 1
        else:
            if times:
                yield "=" if times == 1 else f"= {times}"
            times = 0
            yield f"f {field['offset']} {words}"
        last, behind = words, field["offset"] + field["size"] * field["count"]
    if times:
        yield "=" if times == 1 else f"= {times}"


def line_of(raw, answer):
    """The line of a descriptor and its answer."""
    group = answer["group"].replace(" ", "-")
    if "refused" in answer:
        message = answer.get("debug", answer["refused"])
        return f"{short_hex(raw)} refused {answer['item']} {answer['offset']} {group} {message}"
    if "stopped" in answer:
        return f"{short_hex(raw)} stopped {answer['item']} {answer['offset']} {group}"
    parts = [f"{short_hex(raw)} taken {group}"]
    parts += [f"said {item} {times} {text}" for text, item, times in answer["warned"]]
    parts += [f"c {kind} {usage} {parent}" for kind, usage, _, parent in answer["collections"]]
    for report in answer["reports"]:
        parts += report_parts(report)
    return "; ".join(parts)


def bytes_of_line(text):
    """The bytes that a line begins with (short_hex)."""
    parts = [part.partition("*") for part in text.split("+")] if text != "-" else []
    return b"".join(bytes.fromhex(one) * int(times or 1) for one, _, times in parts)


def usages_of(runs):
    """Each usage of a field's runs, with its collection and the wheels' multiplier."""
    for run in runs:
        usage, collection = run.split("@")
        collection, _, multiplier = collection.partition("x")
        first, _, last = usage.partition("..")
        first, _, times = first.partition("*")
        end = int(last, 16) if last else int(first, 16)
        for number in list(range(int(first, 16), end + 1)) * int(times or 1):
            yield number, int(collection), int(multiplier or 1)


def field_of_words(words, application):
    """A field, of the words behind `f`."""
    numbers = [int(word, 16 if place == 3 else 10) for place, word in enumerate(words[:6])]
    field = dict(zip(("offset", "size", "count", "flags"), numbers), logical=numbers[4:], physical=[0, 0],
                 exponent=0, unit=0, application=application, physical_usage="0" * 8, logical_usage="0" * 8)
    field["usages"] = [word for word in words if "@" in word]
    field["maxusage"] = sum(1 for _ in usages_of(field["usages"]))
    rest = words[6 + len(field["usages"]):]
    while rest:
        key, value, *rest = rest
        if key == "w":
            field["physical"] = [int(value), int(rest.pop(0))]
        elif key in "eu":
            field["exponent" if key == "e" else "unit"] = int(value, 10 if key == "e" else 16)
        else:
            field[{"a": "application", "p": "physical_usage", "l": "logical_usage"}[key]] = value
    return field


def row_of(line):
    """A line of the file: the descriptor's bytes, and the answer as hid_core/ask.c has it."""
    head, *parts = line.split("; ")
    digits, kind, *words = head.split(" ")
    if kind != "taken":
        answer = dict(item=int(words[0]), offset=int(words[1]), group=words[2].replace("-", " "))
        answer[kind] = " ".join(words[3:])
        return bytes_of_line(digits), answer
    answer = dict(group=words[0].replace("-", " "), warned=[], collections=[], reports=[])
    for part in parts:
        key, *words = part.split(" ")
        if key == "said":
            answer["warned"].append([" ".join(words[2:]), int(words[0]), int(words[1])])
        elif key == "c":
            parent = int(words[2])
            level = answer["collections"][parent][2] + 1 if parent >= 0 else 0
            answer["collections"].append([int(words[0]), words[1], level, parent])
        elif key == "f":
            report = answer["reports"][-1]
            report["fields"].append(field_of_words(words, report["application"]))
        elif key == "=":
            fields = answer["reports"][-1]["fields"]
            for _ in range(int(words[0]) if words else 1):
                last = fields[-1]
                fields.append({**last, "offset": last["offset"] + last["size"] * last["count"]})
        else:
            answer["reports"].append(dict(type=key, id=int(words[0]), application=words[1], bits=int(words[2]),
                                          fields=[]))
    answer["applications"] = sum(kind == 1 for kind, *_ in answer["collections"])
    return bytes_of_line(digits), answer


def rows_of_file():
    """The descriptors of linux_readings.txt with their answers."""
    with open(os.path.join(HERE, "linux_readings.txt")) as file:
        return [row_of(line) for line in file.read().splitlines() if line and not line.startswith("#")]


def said_again(raw, answer):
    """The line of a descriptor and its answer, which says all of them."""
    line = line_of(raw, answer)
    wanted = dict(answer)
    if "refused" in wanted:
        wanted["refused"] = wanted.pop("debug", wanted["refused"])
    elif "stopped" in wanted:
        wanted["stopped"] = ""
    if row_of(line) != (raw, wanted):
        raise SystemExit(f"the line doesn't say all of the answer: {line}")
    return line


def class_of(raw, answer):
    """Answers of the same class show the same: what was refused, or what is there."""
    if "refused" in answer:
        return "refused", re.sub(r"-?\b(0x)?[0-9a-f]*\d[0-9a-f]*\b", "N", answer["refused"])
    if "stopped" in answer:
        return ("stopped",)
    fields = [field for report in answer["reports"] for field in report["fields"]]
    usages = [one for field in fields for one in field["usages"]]
    return ("taken", answer["group"], tuple(sorted(re.sub(r"\d+", "N", text) for text, _, _ in answer["warned"])),
            min(len(answer["collections"]), 2), len({r["type"] for r in answer["reports"]}),
            min(len(answer["reports"]), 3), min(len(fields), 3), any("*" in one for one in usages),
            any(".." in one for one in usages), any("x" in one for one in usages), any(f["flags"] & 1 for f in fields),
            any(f["maxusage"] > f["count"] for f in fields), any(f["size"] > 32 for f in fields),
            any(f["logical"][0] < 0 for f in fields), any(f["physical"][1] for f in fields), b"\xa9\x01" in raw,
            b"\xa4" in raw)


def spread(rows, count):
    """So many rows: of each class in turn the next one."""
    classes = {}
    for raw, answer in rows:
        classes.setdefault(class_of(raw, answer), []).append((raw, answer))
    found, turn = [], 0
    while len(found) < count and any(turn < len(rows) for rows in classes.values()):
        found += [rows[turn] for rows in classes.values() if turn < len(rows)]
        turn += 1
    return found[:count]


def asked():
    """The descriptors at the boundaries, those of the tree, and those by chance; each once."""
    edges = list(dict.fromkeys(boundaries()))
    tree = [one for one in linux_events.descriptors() if one not in set(edges)]
    known = [one for one in tree if 4 <= len(one) <= 200]
    chance, seen, made = Chance(SEED, known), {*edges, *tree}, []
    while len(made) < BY_CHANCE:
        one = chance.descriptor()
        if one not in seen:
            seen.add(one)
            made.append(one)
    return edges, tree, made


def recorded(judge):
    """The lines of the file: all at the boundaries, and of the others those that aren't long."""
    edges, tree, made = asked()
    lines = [said_again(*row) for row in zip(edges, judge.answers(edges))]
    for some, share in (tree, 300), (made, RECORDED - 300 - len(edges)):
        rows = [row for row in zip(some, judge.answers(some)) if len(line_of(*row)) <= LONGEST]
        # Of those that are refused there are few kinds, so a third of the places is theirs.
        refused = spread([row for row in rows if "refused" in row[1]], share // 3)
        taken = spread([row for row in rows if "refused" not in row[1]], share - len(refused))
        lines += [said_again(*row) for row in refused + taken]
    return lines


DRIVERS = {"multitouch": "hid-multitouch", "multitouch win 8": "hid-multitouch", "sensor hub": "hid-sensor-hub"}


def shown(answer):
    """What the model says, too, of an answer: the driver, and each field with its report."""
    fields = [(report["type"], report["id"], int(report["application"], 16), field["offset"], field["size"],
               field["count"], field["flags"], *field["logical"], *field["physical"], field["unit"],
               field["exponent"], *(int(field[key], 16) for key in ("application", "physical_usage", "logical_usage")),
               [usage for usage, _, _ in usages_of(field["usages"])])
              for report in answer["reports"] for field in report["fields"]]
    return DRIVERS.get(answer["group"], ""), fields


def shown_by_model(raw):
    """The same of the model; None where it refuses the descriptor."""
    try:
        parser = linux_events.Parser(raw)
    except linux_events.Refused:
        return None
    fields = [(direction, number, report["application"], main.offset, main.size, main.count, main.flags,
               main.lmin, main.lmax, main.pmin, main.pmax, main.unit, main.exponent, main.application,
               main.physical, main.logical, main.own + main.own[-1:] * (main.count - len(main.own)))
              for direction, reports in parser.reports.items()
              for number, report in reports.items() for main in report["fields"]]
    return parser.driver, fields


def compare_model():
    """Whether the model in linux_events.py answers otherwise than hid-core did."""
    rows, faults = rows_of_file(), 0
    for raw, answer in rows:
        if "stopped" in answer:
            continue
        if shown_by_model(raw) != (None if "refused" in answer else shown(answer)):
            faults += 1
            print(f"{short_hex(raw)}: the model answers otherwise")
    print(f"{len(rows)} answers of hid-core, of which the model has {faults} otherwise")
    return faults != 0 or len(rows) != RECORDED


def main(words):
    if not words:
        raise SystemExit(__doc__)
    if words == ["model"]:
        raise SystemExit(compare_model())
    with tempfile.TemporaryDirectory() as folder:
        judge = Judge(words[0], folder)
        if words[1:] in ([], ["ask"]):
            print(HEAD, *recorded(judge), sep="\n")
        elif words[1:] == ["made"]:
            some = [one for part in asked() for one in part]
            print(*(line_of(*row) for row in zip(some, judge.answers(some))), sep="\n")
        else:
            print(*(json.dumps(one) for one in judge.answers([bytes.fromhex(word) for word in words[1:]])), sep="\n")


if __name__ == "__main__":
    main(sys.argv[1:])
