#!/usr/bin/env python3
"""Prints tests/hidreport_cases/data/repairs.txt: descriptors that hosts accept, and what is made of
them, by a model of how Linux's hid-core reads items (drivers/hid/hid-core.c: fetch_item,
hid_parser_main, hid_parser_global, hid_parser_local, hid_add_field, hid_open_report), which knows
nothing of this library's code. With the word `refused` it prints repairs_of_refused.txt: the same of
each descriptor in the other files that is refused, and with `counts` how many those are."""
import glob
import os
import re
import sys
from collections import Counter

from host_usages import LocalUsages

DATA_FILES = os.path.join(os.path.dirname(os.path.dirname(os.path.abspath(__file__))),
                          "tests/hidreport_cases/data")
SIZES = [0, 1, 2, 4]
GLOBALS = {0x04: "page", 0x14: "logical minimum", 0x24: "logical maximum",
           0x34: "physical minimum", 0x44: "physical maximum", 0x54: "exponent", 0x64: "unit",
           0x74: "size", 0x84: "id", 0x94: "count", 0xA4: "push", 0xB4: "pop"}
DATA = {0x80: "input", 0x90: "output", 0xB0: "feature"}
NEEDS_DATA = (0x74, 0x84, 0x94)


class Refused(Exception):
    pass


def signed(data):
    return int.from_bytes(data, "little", signed=True)


def header_and_data(raw):
    return raw[0] & 0xFC, raw[1:]


def cut(raw, leave_out):
    """hid-core's items: [offset, what stood, what stands, why]; what can't be fetched is refused."""
    items, at = [], 0
    while at < len(raw):
        head = raw[at]
        if head == 0xFE:
            size = 3 + (raw[at + 1] if at + 1 < len(raw) else 0)
        else:
            size = 1 + SIZES[head & 3]
        stood = raw[at:at + size]
        if len(stood) < size:
            if not leave_out:
                raise Refused(f"refused at {at}: Insufficient data")
            items.append([at, raw[at:], None, "cut short"])
            break
        kind = head >> 2 & 3
        prefix = head & 0xFC
        if kind == 0 and prefix not in (0x80, 0x90, 0xA0, 0xB0, 0xC0):
            items.append([at, stood, None, "unknown main item"])
        elif len(stood) == 1 and (prefix in DATA or prefix in NEEDS_DATA or kind == 2):
            items.append([at, stood, bytes([prefix + 1, 0]), "no data"])
        else:
            items.append([at, stood, stood, None])
        at += size
    return items


def drop_locals(items):
    """The local items that an unknown main item makes hid-core forget."""
    forgets = False
    for item in reversed(items):
        kind = item[1][0] >> 2 & 3
        if item[3] == "unknown main item":
            forgets = True
        elif item[2] is not None and kind == 0:
            forgets = False
        elif item[2] is not None and kind == 2 and forgets:
            item[2], item[3] = None, "local of an unknown main item"


class State:
    def __init__(self, keeps_locals, by_standard):
        self.values, self.locals, self.stack = {}, [], []
        self.keeps_locals, self.by_standard, self.depth, self.listed = keeps_locals, by_standard, [], 0
        self.ends = {}

    def usages(self):
        """The usages in force: a list, or the text of a fault."""
        if not self.by_standard:
            named = LocalUsages()
            for prefix, number, size, page in self.locals:
                named.take(prefix, number.to_bytes(size, "little"), page)
            return named.concatenated(self.values.get("page", 0))
        return self.standard_usages()

    def standard_usages(self):
        minima = [v for p, v, *_ in self.locals if p == 0x18]
        maxima = [v for p, v, *_ in self.locals if p == 0x28]
        page = self.values.get("page")
        if minima:
            if not maxima:
                return "Missing UsageMaximum in locals"
            if page is None:
                return "Missing UsagePage in globals"
            return list(range(minima[-1], maxima[-1] + 1))
        singles = [(v, n) for p, v, n, _ in self.locals if p == 0x08]
        if page is None and any(n < 4 for v, n in singles):
            return "Missing UsagePage in globals"
        return singles


def mend(raw, words):
    options = dict(w.split("=") for w in words if "=" in w)
    if "longest" in options and len(raw) > int(options["longest"]):
        raise Refused(f"refused at {options['longest']}: budget")
    items = cut(raw, "cut-short" in words)
    drop_locals(items)
    state = State("all" in words, "standard" in words)
    limit = int(options["within"]) if "within" in options else None
    for item in items:
        if item[2] is not None:
            walk(state, item, "unsigned" in words, limit)
    out = b"".join(item[2] or b"" for item in items)
    if not out:
        raise Refused("refused at 0: Empty report descriptor")
    if "longest" in options and len(out) > int(options["longest"]):
        raise Refused(f"refused at {options['longest']}: budget")
    return out, [item for item in items if item[3]]


def walk(state, item, unsigned, limit):
    at, stood, stands, why = item
    prefix, data = header_and_data(stands)
    kind = stands[0] >> 2 & 3
    if stands[0] == 0xFE or kind == 3:
        return
    if kind == 2:
        page = state.values.get("page", 0) & 0xFFFF
        state.locals.append((prefix, int.from_bytes(data, "little"), len(data), page))
        return
    if kind == 1:
        name = GLOBALS.get(prefix)
        if name == "push":
            state.stack.append((dict(state.values), list(state.locals)))
        elif name == "pop":
            if not state.stack:
                raise Refused(f"refused at {at}: Too many Pops, not enough Pushes")
            values, old = state.stack.pop()
            state.values = values
            if state.keeps_locals:
                state.locals = old
        elif name in ("logical maximum", "physical maximum"):
            low = state.values.get(name.replace("maximum", "minimum"), 0)
            number = signed(data) if data else 0
            if unsigned and number < 0 and low >= 0 and len(data) < 4:
                wide = 2 * len(data)
                item[2] = bytes([prefix + (2 if wide == 2 else 3)]) + data + bytes(wide - len(data))
                item[3] = "unsigned maximum"
                number = int.from_bytes(data, "little")
            state.values[name] = number
        elif name in ("logical minimum", "physical minimum", "exponent"):
            state.values[name] = signed(data) if data else 0
        elif name:
            state.values[name] = int.from_bytes(data, "little")
        return
    if prefix == 0xC0:
        if not state.depth:
            raise Refused(f"refused at {at}: Too many EndCollection")
        state.depth.pop()
    elif prefix == 0xA0:
        usages = state.usages()
        if isinstance(usages, str):
            raise Refused(f"refused at {at}: {usages}")
        spend(state, at, limit, 1 + len(usages))
        state.depth.append(1 + len(usages))
    else:
        fields(state, item, limit)
    state.locals = []


def fields(state, item, limit):
    at, stood, stands, why = item
    prefix, data = header_and_data(stands)
    size, count = state.values.get("size", 0), state.values.get("count", 0)
    if size == 0 or count == 0:
        return
    if data[0] & 1:
        grow(state, prefix, size * count)
        spend(state, at, limit, 1)
        return
    usages = state.usages()
    if isinstance(usages, str):
        raise Refused(f"refused at {at}: {usages}")
    if not usages:
        item[2] = stands[:1] + bytes([data[0] | 1]) + data[1:]
        item[3] = "no usage"
        grow(state, prefix, size * count)
        spend(state, at, limit, 1)
        return
    grow(state, prefix, size * count)
    if data[0] & 2:
        spend(state, at, limit, count * (1 + sum(state.depth)))
    else:
        spend(state, at, limit, 1 + len(usages) + sum(state.depth))


def grow(state, direction, bits):
    """The bits of a report, which a number of 64 bits has to count."""
    ends = state.ends.setdefault(direction, {})
    key = state.values.get("id", next(iter(ends), None))
    key = None if key is None else key & 0xFF
    ends[key] = ends.get(key, 0 if key is None else 8) + bits
    if ends[key] >= 1 << 64:
        raise Refused("refused: out of bounds")


def spend(state, at, limit, weight):
    state.listed += weight
    if limit is not None and state.listed > limit:
        raise Refused(f"refused at {at}: budget")


HEAD = "05010902a10109 01a100".replace(" ", "")
CASES = [
    ("What is read stays as it is.", [
        ("as-usual", "05010930750895018102"),
        ("as-usual", "0501090275089501810295038101c0".replace("c0", "")),
        ("as-usual", "a100c0"), ("as-usual", "fe0201aabb"), ("as-usual", "0c"), ("as-usual", "07"[:0] + "0501"),
        ("globals", "a4050109307508950181 02b4".replace(" ", "")),
        ("as-usual", "0501a4093075089501 8102b4".replace(" ", "")),
        ("within=2", "05010930750895018102"), ("longest=10", "05010930750895018102"),
        ("cut-short unsigned", "150025 7f7508950105010930 8102".replace(" ", "")),
    ]),
    ("A data item without its byte has the flags 0: an array, or padding where there is no usage.", [
        ("as-usual", "0507190029017508950180"), ("as-usual", "0507190029017508950190"),
        ("as-usual", "05071900290175089501b0"), ("as-usual", "7508950180"), ("as-usual", "7508950190"),
        ("as-usual", "75089501b0"), ("as-usual", "80"), ("as-usual", "90"), ("as-usual", "b0"),
        ("as-usual", "05010930750895018080"),
    ]),
    ("A report's size, count and id without data are 0.", [
        ("as-usual", "0501093074950181 02".replace(" ", "")), ("as-usual", "05010930750894 8102".replace(" ", "")),
        ("as-usual", "84050109307508950181 02".replace(" ", "")), ("as-usual", "74"), ("as-usual", "84"), ("as-usual", "94"),
    ]),
    ("Local items without data are 0, reserved ones, too.", [
        ("as-usual", "08"), ("as-usual", "18"), ("as-usual", "28"), ("as-usual", "38"), ("as-usual", "48"),
        ("as-usual", "58"), ("as-usual", "68"), ("as-usual", "78"), ("as-usual", "88"), ("as-usual", "98"),
        ("as-usual", "a8"), ("as-usual", "b8"), ("as-usual", "f8"),
        ("as-usual", "05010875089501 8102".replace(" ", "")), ("as-usual", "05091829 087508950181 02".replace(" ", "")),
    ]),
    ("A main item of an unknown tag is left out, with its data.", [
        ("as-usual", "0501093075089501810200"), ("as-usual", "05010930750895018102 0000".replace(" ", "")),
        ("as-usual", "d0a100c0"), ("as-usual", "d101a100c0"), ("as-usual", "e20102a100c0"), ("as-usual", "f301020304a100c0"),
        ("as-usual", "10a100c0"), ("as-usual", "70a100c0"), ("as-usual", "a10060c0"), ("as-usual", "00"), ("as-usual", "0000d0"),
    ]),
    ("With it go the local items that would have been its own.", [
        ("as-usual", "0501093000093175089501 8102".replace(" ", "")), ("as-usual", "05010930007508950181 02".replace(" ", "")),
        ("as-usual", "0501093075089501810209310009 32 8102".replace(" ", "")),
        ("as-usual", "050108007508950109308102"), ("as-usual", "0930a40931b40005010932750895018102"),
        ("globals", "0501a40930b400093175089501 8102".replace(" ", "")), ("as-usual", "0930"), ("as-usual", "050109300093 31"[:0] + "0501093000"),
        ("as-usual", "05010930d00931d0093275089501 8102".replace(" ", "")),
        ("as-usual", "b901d100"), ("as-usual", "b901d100050109307508950181 02".replace(" ", "")),
    ]),
    ("A data item with data and without a usage is padding of the same size.", [
        ("as-usual", "750895018102"), ("as-usual", "750895018100"), ("as-usual", "750895019102"), ("as-usual", "75089501b102"),
        ("as-usual", "75089501820201"), ("as-usual", "750895018302010000"),
        ("as-usual", "750895018300000001"), ("as-usual", "75089501b300010200"), ("as-usual", "75089501b2 8201".replace(" ", "")),
        ("as-usual", "05010930750895018102 8102".replace(" ", "")), ("as-usual", "050919052901750195088102"),
        ("as-usual", "050109307508950181028102 09318102".replace(" ", "")),
        ("as-usual", "0501750895018102a4 0930 8102 b48102".replace(" ", "")), ("globals", "050109 30a475089501b48102 75089501 8102".replace(" ", "")),
        ("as-usual", HEAD + "093009317508950281068102c0c0"),
    ]),
    ("A negative maximum is one without a sign where that is asked for.", [
        ("unsigned", "150025ff0501093075089501 8102".replace(" ", "")), ("unsigned", "25ff"), ("unsigned", "45ff"), ("unsigned", "2680ff"),
        ("unsigned", "46ffff"), ("unsigned", "27ffffffff"), ("unsigned", "158125ff"), ("unsigned", "358145ff"), ("unsigned", "358125ff"),
        ("unsigned", "158145ff"), ("unsigned", "2580"), ("unsigned", "257f"), ("unsigned", "24"), ("unsigned", "25ff1581"),
        ("unsigned", "a4158125ffb425ff"), ("unsigned", "158125ff150025ff"), ("as-usual", "150025ff"), ("unsigned", "2600ff"),
        ("unsigned", "2500"), ("unsigned", "4500"), ("unsigned", "457f"), ("unsigned", "350045ff"),
    ]),
    ("What is cut short is refused, or left out where that is asked for.", [
        ("as-usual", "a100c005"), ("cut-short", "a100c005"), ("cut-short", "a100c026ff"), ("cut-short", "a100c027ffffff"),
        ("cut-short", "a100c0fe"), ("cut-short", "a100c0fe05"), ("cut-short", "a100c0fe0501aabb"), ("as-usual", "a100c0fe0501aabb"),
        ("cut-short", "05010930750895018102 81".replace(" ", "")), ("cut-short", "81"), ("as-usual", "81"), ("cut-short", "09300081"),
    ]),
    ("What hosts read as usages is no padding, and what they don't is.", [
        ("as-usual", "05012905750195058102"), ("standard", "05012905750195058102"),
        ("as-usual", "050919017501950181 02".replace(" ", "")), ("standard", "0509190175019501 8102".replace(" ", "")),
        ("as-usual", "09307508950181 02".replace(" ", "")), ("standard", "09307508950181 02".replace(" ", "")),
        ("as-usual", "0501190175089501810009308102"), ("standard globals", "0501a40930b4750895018102"),
        ("as-usual", "0501a901a900a9010930a900750895018102"), ("standard", "0501a901a900a9010930a900750895018102"),
    ]),
    ("Any other fault stays: the first of grammar, and then the first of meaning.", [
        ("as-usual", "b4"), ("as-usual", "c0"), ("as-usual", "c00026"), ("as-usual", "0501190175089501 8102".replace(" ", "")),
        ("as-usual", "09307508950181 02".replace(" ", "")), ("as-usual", "0019 01a100".replace(" ", "")), ("as-usual", "80c0"),
        ("as-usual", "750895018102b4"), ("as-usual", "7508950181028109"[:0] + "75089501 8102 0930 8102".replace(" ", "")), ("as-usual", "-"),
        ("cut-short", "b405"), ("globals", "0501a4b4b4"),
    ]),
    ("A limit is that of parsing, and that of bytes holds before and behind.", [
        ("within=1", "750895018102"), ("within=0", "750895018102"), ("within=1", "75089501800501 0930 8102".replace(" ", "")),
        ("within=2", "75089501800501 0930 8102".replace(" ", "")), ("longest=5", "7508950180"), ("longest=4", "7508950180"),
        ("longest=6", "7508950180"), ("longest=7", "00000000000501"), ("longest=6", "00000000000501"),
        ("longest=65535", "32768*0501"), ("longest=65536", "32769*0501"), ("longest=131071", "65536*0501"),
    ]),
]


def tell(words, digits, raw):
    """A question with its answer, and the answer's first line."""
    print(f"repair {words} / {digits}")
    try:
        out, changes = mend(raw, words.split())
    except Refused as refused:
        print(f"  {refused}")
        return str(refused)
    print(f"  {out.hex()}")
    for at, stood, stands, why in changes:
        print(f"    {at} {stood.hex()} {stands.hex() if stands else '-'} {why}")
    return "read"


def outcome(words, raw):
    """The answer, for a comparison."""
    try:
        return mend(raw, words.split())
    except Refused as refused:
        return str(refused)


def bytes_of(text):
    out = b""
    for word in text.split():
        often, _, digits = word.rpartition("*")
        out += b"" if word == "-" else bytes.fromhex(digits) * int(often or 1)
    return out


def refused_descriptors():
    """What the other files say is refused for more than its bounds: the bytes and the refusal."""
    seen = set()
    for name in sorted(glob.glob(DATA_FILES + "/*.txt")):
        lines = open(name).read().split("\n")
        for question, answer in zip(lines, lines[1:]):
            found = re.match(r"(parse|shape) (.*)$", question)
            told = re.match(r"  refused at \d+: (.*)$", answer)
            if found and told and told[1] != "budget":
                raw = bytes_of(found[2])
                if raw and raw not in seen:
                    seen.add(raw)
                    yield raw, re.sub("0b[01]+", "..", told[1])


def print_refused():
    print("# Each descriptor of the other files that is refused, and what is made of it.")
    print("# compare/repairs.py wrote this file.\n")
    counts = Counter()
    for raw, refusal in refused_descriptors():
        for words in ("all", "standard"):
            if outcome(words, raw) != outcome("as-usual", raw):
                tell(words, raw.hex(), raw)
        counts[refusal, tell("as-usual", raw.hex(), raw) == "read"] += 1
    return counts


def print_own():
    print("# Descriptors that hosts accept, and what is made of them.")
    print("# compare/repairs.py wrote this file.\n")
    for comment, questions in CASES:
        print(f"# {comment}")
        for words, digits in questions:
            tell(words, digits, bytes_of(digits))
        print()


if sys.argv[1:] == ["refused"]:
    print_refused()
elif sys.argv[1:] == ["counts"]:
    for (refusal, is_read), count in sorted(print_refused().items()):
        print(f"{count:4} {'read' if is_read else 'stays'} {refusal}", file=sys.stderr)
else:
    print_own()
