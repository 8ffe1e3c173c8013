"""Writes cases of values that are scaled.

By the standard's formulas alone (Section 6.2.2.7), on exact fractions, without this library:
resolution = (logical maximum - logical minimum) / (physical maximum - physical minimum), and a
value is a count of such steps above the logical minimum. `python3 compare/scaling.py` prints
tests/hidreport_cases/data/scaling.txt.
"""

from fractions import Fraction


def item(prefix, value):
    """A short item with a signed number, in as few bytes as hold it."""
    for code, size in ((1, 1), (2, 2), (3, 4)):
        if -(1 << 8 * size - 1) <= value < 1 << 8 * size - 1:
            return bytes([prefix | code]) + value.to_bytes(size, "little", signed=True)
    raise ValueError(value)


def told(value, low, high):
    """A number over the count of steps; `none` where there are no steps."""
    return "none" if value is None else f"{value * (high - low)}/{high - low}"


def physical(value, low, high, first, last):
    if low >= high:
        return None
    if first in (None, 0) and last in (None, 0):
        return Fraction(value)
    first, last = first or 0, last or 0
    if first == last:
        return Fraction(first)
    resolution = Fraction(high - low, last - first)
    return first + (value - low) / resolution


def normalized(value, low, high):
    if low >= high:
        return None
    middle = Fraction(low + high, 2)
    return (value - middle) / (high - middle)


def case(remark, low, high, first, last, values):
    data = bytes.fromhex("05010930")
    data += item(0x14, low) + item(0x24, high)
    data += item(0x34, first) if first is not None else b""
    data += item(0x44, last) if last is not None else b""
    data += bytes.fromhex("752095018102")
    print(f"# {remark}")
    print(f"scaled {data.hex()} / " + " ".join(str(value) for value in values))
    for value in values:
        meant = told(physical(value, low, high, first, last), low, high)
        between = told(normalized(value, low, high), low, high)
        print(f"  {value}: physical {meant} normalized {between}")
    print()


LEAST, MOST = -(1 << 31), (1 << 31) - 1

print("# Written by compare/scaling.py, by the standard's formulas alone.")
print()
case("The standard's mouse of 400 counts an inch: a count is 25 ten-thousandths.",
     -127, 127, -3175, 3175, [0, 1, -1, 127, -127])
case("Without physical bounds a value stands for itself.", 0, 1023, None, None, [0, 1, 512, 1023])
case("Physical bounds of 0 are none.", -10, 10, 0, 0, [-10, 3, 10])
case("Only the maximum is said: the minimum is 0.", 0, 255, None, 360, [0, 128, 255])
case("Only the minimum is said: the maximum is 0.", 0, 255, -90, None, [0, 128, 255])
case("A maximum of 0 below a minimum that is said.", 0, 10, 100, 0, [0, 3, 10])
case("Equal physical bounds that aren't 0.", 0, 4, 7, 7, [0, 1, 4])
case("Values beyond the bounds lie on the same line.", 0, 100, 0, 50, [-20, 200, 101])
case("Equal logical bounds say nothing.", 5, 5, 0, 50, [5, 6])
case("A maximum below the minimum says nothing.", 0, -1, 0, 50, [0, -1])
case("A range of one step.", 0, 1, 0, 1, [0, 1])
case("The greatest bounds and the greatest values.", LEAST, MOST, LEAST, MOST,
     [LEAST, 0, MOST, -(1 << 63), (1 << 63) - 1])
case("The same with the physical bounds the other way round.", LEAST, MOST, MOST, LEAST,
     [LEAST, 0, MOST, -(1 << 63), (1 << 63) - 1])
