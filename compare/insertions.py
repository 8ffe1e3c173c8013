"""Writes cases of values that are written into reports' bytes.

By the definition alone, on whole numbers, without this library: the bytes of a report are one
number, the first byte the lowest; the field's bits in it become those of the value modulo 2 to the
width. `python3 compare/insertions.py` prints tests/hidreport_cases/data/insertions.txt, the same
each time.
"""

import random

DICE = random.Random(20260425)


def hexadecimal(data):
    return data.hex() if data else "-"


def put(data, first, width, values):
    """The bytes with these values side by side from bit `first` on, `width` bits each."""
    number = int.from_bytes(data, "little")
    for index, value in enumerate(values):
        place = first + index * width
        mask = (1 << width) - 1
        number = number & ~(mask << place) | (value & mask) << place
    return number.to_bytes(len(data), "little")


def bounds(width, signed):
    return (-(1 << width - 1), (1 << width - 1) - 1) if signed else (0, (1 << width) - 1)


def refusal(data, first, end, count, signed, report_id, values, width):
    """Why values aren't written: the id, the range of bits, then the values."""
    if report_id is not None:
        if not data:
            return "outside"
        if data[0] != report_id:
            return "another"
    if values or count:
        if width < 1 or width > 32 or end > 8 * len(data):
            return "outside"
    if report_id is not None and first < 8:
        return "outside"
    low, high = bounds(width, signed) if width else (0, 0)
    if any(value < low or value > high for value in values):
        return "doesn't fit"
    return None


def insert(field, first, end, minimum, value, data, report_id=None):
    """A variable field's case."""
    width = max(end - first, 0)
    why = refusal(data, first, end, 1, minimum < 0, report_id, [value], width)
    answer = why or hexadecimal(put(data, first, width, [value]))
    print(f"insert {field} {first}..{end} 0 {minimum} / {value} / {hexadecimal(data)}")
    print(f"  {answer}")


def insert_all(field, first, end, count, minimum, values, data, report_id=None):
    """An array's case."""
    width = max(end - first, 0) // count if count else 0
    why = "wrong count" if len(values) != count else refusal(
        data, first, first + width * count, count, minimum < 0, report_id, values, width)
    answer = why or hexadecimal(put(data, first, width, values))
    numbers = " ".join(map(str, values)) or "-"
    print(f"insert {field} {first}..{end} {count} {minimum} / {numbers} / {hexadecimal(data)}")
    print(f"  {answer}")


def insert_one(field, first, end, count, minimum, index, value, data, report_id=None):
    """The case of one element of an array."""
    width = max(end - first, 0) // count if count else 0
    place = first + width * index
    why = "outside" if index >= count else refusal(
        data, place, place + width, 1, minimum < 0, report_id, [value], width)
    answer = why or hexadecimal(put(data, place, width, [value]))
    print(f"insert-one {field} {first}..{end} {count} {minimum} / {index} {value} /"
          f" {hexadecimal(data)}")
    print(f"  {answer}")


def some_bytes(count):
    return bytes(DICE.randrange(256) for _ in range(count))


def some_value(width, signed):
    low, high = bounds(width, signed)
    return DICE.choice([low, high, DICE.randint(low, high), DICE.randint(low, high)])


def title(text):
    print(f"\n# {text}")


def parse(text):
    print(text)


PLAIN = """parse 0501 7504 9501 8101 7520 0930 8102
  input 36 bits 5 bytes
    constant 0..4 () #0
    variable 4..36 00010030 unsigned 0..0 rwnpzb #1"""

WITH_ID = """parse 0501 8505 7508 9501 0930 8102
  input id 5 16 bits 2 bytes
    variable 8..16 00010030 unsigned 0..0 rwnpzb #0"""

ARRAY = """parse 0501 7508 9501 0930 15ff 2507 8100
  input 8 bits 1 bytes
    array 0..8 count 1 (00010030) signed -1..7 rwnpzb #0"""

ARRAY_WITH_ID = """parse 0501 8505 7508 9502 0930 15ff 2507 8100
  input id 5 24 bits 3 bytes
    array 8..24 count 2 (00010030) signed -1..7 rwnpzb #0"""


def plain_fields():
    print("# Written by compare/insertions.py, by the definition alone.")
    title("Each width at each place in a byte, unsigned and signed, with a byte on both sides.")
    parse(PLAIN)
    for signed in (False, True):
        for width in range(1, 33):
            for place in range(8):
                first = 8 + place
                data = some_bytes((first + width + 7) // 8 + 1)
                insert(1, first, first + width, -1 if signed else 0, some_value(width, signed), data)
    title("The first bits and the last, with nothing around them.")
    parse(PLAIN)
    for width in range(1, 33):
        count = (width + 7) // 8
        insert(1, 0, width, 0, some_value(width, False), some_bytes(count))
        insert(1, 8 * count - width, 8 * count, -1, some_value(width, True), some_bytes(count))
    title("Values next to those that so many bits hold.")
    parse(PLAIN)
    for width in (1, 2, 7, 8, 9, 15, 16, 17, 31, 32):
        for signed in (False, True):
            low, high = bounds(width, signed)
            for value in (low, low - 1, high, high + 1):
                insert(1, 5, 5 + width, -1 if signed else 0, value, some_bytes(6))
    for value in (-(1 << 63), (1 << 63) - 1, 1 << 32, -(1 << 32)):
        insert(1, 0, 32, 0, value, some_bytes(4))
        insert(1, 0, 32, -1, value, some_bytes(4))


def odd_ranges():
    title("Bytes too short by one, ranges that are empty, reversed or too wide.")
    parse(PLAIN)
    for width in (1, 8, 12, 25, 32):
        for first in (0, 7, 8, 15):
            data = some_bytes((first + width + 7) // 8)
            insert(1, first, first + width, 0, 1, data)
            insert(1, first, first + width, 0, 1, data[:-1])
            insert(1, first, first + width, -1, 1 << width, data[:-1])
    for first, end in ((8, 8), (0, 0), (9, 8), (16, 0), (0, 33), (7, 40), (1, 34), (0, 64)):
        insert(1, first, end, 0, 0, some_bytes(8))
        insert(1, first, end, -1, -1, some_bytes(8))
    insert(1, 0, (1 << 64) - 1, 0, 0, some_bytes(8))
    insert(1, (1 << 64) - 2, (1 << 64) - 1, 0, 0, some_bytes(8))
    insert(1, 0, 1, 0, 0, b"")


def ids():
    title("An id that is right, another one, and none; a range that begins in the id's byte.")
    parse(WITH_ID)
    for data in (b"\x05\x00", b"\x05\xff", b"\x04\xff", b"\x05", b"", b"\x00\x05", b"\x05\x80\xff"):
        for value in (0, 171, 255, 256, -1):
            insert(0, 8, 16, 0, value, data, 5)
    for first, end in ((0, 8), (7, 8), (4, 12), (7, 20), (8, 9), (9, 16), (8, 8), (8, 41)):
        insert(0, first, end, 0, 1, b"\x05\xaa\xbb\xcc\xdd\xee", 5)
        insert(0, first, end, 0, 1, b"\x06\xaa\xbb\xcc\xdd\xee", 5)


def arrays():
    title("Arrays with no, one and many elements, and with bits left over.")
    parse(ARRAY)
    for first, end, count in ((0, 8, 1), (0, 8, 2), (3, 11, 2), (1, 8, 2), (5, 16, 3), (0, 32, 8),
                              (4, 36, 4), (7, 40, 5), (0, 96, 3), (2, 34, 1), (0, 31, 30),
                              (0, 8, 0), (8, 8, 1), (8, 4, 2), (0, 3, 8), (0, 99, 3)):
        width = max(end - first, 0) // count if count else 0
        for minimum in (0, -1):
            values = [some_value(width, minimum < 0) if width else 0 for _ in range(count)]
            data = some_bytes((max(first, end) + 7) // 8 + 1)
            insert_all(0, first, end, count, minimum, values, data)
            insert_all(0, first, end, count, minimum, values + [0], data)
            insert_all(0, first, end, count, minimum, values, data[:-2])
            if count:
                insert_all(0, first, end, count, minimum, values[:-1], data)
                insert_all(0, first, end, count, minimum, values[:-1] + [1 << width], data)
                for index in sorted({0, count // 2, count - 1}):
                    insert_one(0, first, end, count, minimum, index, values[index], data)
                insert_one(0, first, end, count, minimum, count - 1, -(1 << 33), data)
            insert_one(0, first, end, count, minimum, count, 0, data)
    insert_one(0, 0, 8, 2, 0, (1 << 64) - 1, 0, b"\xff\xff")


def arrays_with_an_id():
    title("The same of a report with an id.")
    parse(ARRAY_WITH_ID)
    for data in (b"\x05\x00\xff", b"\x05\xff\x00\xaa", b"\x04\xff\x00", b"\x05\xff", b""):
        insert_all(0, 8, 24, 2, -1, [-1, 7], data, 5)
        insert_all(0, 8, 24, 2, -1, [-1], data, 5)
        insert_all(0, 8, 24, 2, -1, [-1, 128], data, 5)
        insert_one(0, 8, 24, 2, -1, 0, -128, data, 5)
        insert_one(0, 8, 24, 2, -1, 1, 127, data, 5)
        insert_one(0, 8, 24, 2, -1, 2, 127, data, 5)
        insert_all(0, 8, 24, 0, -1, [], data, 5)
        insert_all(0, 0, 24, 3, -1, [5, 1, 1], data, 5)
        insert_one(0, 0, 24, 3, -1, 0, 5, data, 5)
        insert_one(0, 0, 24, 3, -1, 1, 5, data, 5)
        insert_one(0, 4, 20, 2, -1, 0, 5, data, 5)
        insert_one(0, 4, 20, 2, -1, 1, 5, data, 5)


plain_fields()
odd_ranges()
ids()
arrays()
arrays_with_an_id()
