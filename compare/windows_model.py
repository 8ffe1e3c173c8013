"""A model of how Wine's hidparse.sys reads report descriptors (10.0), which can also read by others' rules, and
of the refusals that Windows' hidpddi.h names. It knows nothing of this library's code.

`Reading(raw)` is Wine's own: `refused` (a reason and an offset), or `said`, `collections` and `reports` as
hidparse/ask.c has them. `Reading(raw, turned)` reads with some of Wine's rules exchanged (RULES): by all of
those of LINUX it has the fields that Linux reads, by those of STANDARD the fields of the standard's letter.
"""

# The rules in which others differ from Wine, with what others do.
RULES = {
    "globals": "globals, and what is pushed, stay in force behind an outermost collection",
    "places": "a report goes on in the next outermost collection",
    "behind": "items behind the last closed outermost collection count",
    "padding": "data without a usage is padding",
    "extra": "usages past the values of a variable item are left out",
    "linux usages": "usages as hosts find them",
    "standard usages": "usages by the standard's letter",
    "unsigned": "a maximum has no sign where the minimum before it has none",
    "wide": "sizes, counts and places have more than 16 bits",
    "room": "usages, collections, pushes and parts have no limit",
    "minimum": "an array's minimum has a sign",
    "long": "an item with the header FE is as long as it says",
    "unknown": "an unknown main item ends the usages before it",
    "first": "data without an id lies in the direction's first report",
    "zero": "the report id 0 is an id",
    "push": "a Push keeps the usages, too",
}
COMMON = frozenset({"globals", "places", "behind", "padding", "extra", "wide", "room", "minimum",
                    "long", "first"})
LINUX = COMMON | {"linux usages", "unsigned", "unknown"}
# Those by which `check` finds the bits of a report.
BITS = COMMON | {"linux usages", "zero"}
# Those that are Windows' by hidapi's recordings.
WINDOWS = frozenset({"globals", "room", "extra"})
STANDARD = COMMON | {"standard usages", "push", "zero"}

KINDS = {0x80: "input", 0x90: "output", 0xB0: "feature"}
GLOBALS = {0x04: "page", 0x14: "lmin", 0x24: "lmax", 0x34: "pmin", 0x44: "pmax", 0x54: "exponent", 0x64: "unit",
           0x74: "size", 0x84: "id", 0x94: "count"}
WIDTHS = {"page": 16, "size": 16, "count": 16, "id": 8}
# Flags of a part.
MORE, CONSTANT, BUTTON, ABSOLUTE, RANGE, STRINGS, DESIGNATORS = 1, 2, 4, 8, 0x10, 0x40, 0x80
# The most parts of an outermost collection whose bytes Wine can count, and the most values that are fields here.
ROOM, MANY = 65_535 // 104, 4_096


class Refused(Exception):
    def __init__(self, reason, offset):
        super().__init__(reason)
        self.answer = (reason, offset)


class Item:
    """An item: its offset, its header without the size, its bytes of data and their number."""

    def __init__(self, offset, header, data):
        self.offset, self.header, self.size = offset, header & 0xFC, len(data)
        self.value = int.from_bytes(data, "little")
        self.signed = int.from_bytes(data, "little", signed=True)


def items_of(raw, has_long):
    """The items, and the offset of one that is cut short, or None; Wine takes one that lacks a byte."""
    room, at, found = raw + bytes(8), 0, []
    while at < len(raw):
        size = (0, 1, 2, 4)[raw[at] & 3]
        if has_long and raw[at] == 0xFE:
            size = 2 + room[at + 1]
        if at + size + has_long > len(raw):
            return found, at
        if not (has_long and raw[at] == 0xFE):
            found.append(Item(at, raw[at], room[at + 1:at + 1 + size]))
        at += size + 1
    return found, found[-1].offset if at > len(raw) else None


class Entry:
    """An Input, Output or Feature: what is in force there, its usages, and where its values begin."""

    def __init__(self, kind, item, reading, start):
        self.kind, self.offset, self.bits, self.start = kind, item.offset, item.value, start
        self.globals, self.link = dict(reading.globals), reading.link
        self.usages, self.named, self.flags = list(reading.usages), list(reading.named), reading.flags
        # The report's id, of which there is none without an item, or where it is 0.
        self.id = self.globals["id"] if self.globals["id"] or "zero" in reading.turned else None

    @property
    def is_variable(self):
        return bool(self.bits & 2)


class Reading:
    def __init__(self, raw, turned=frozenset()):
        self.turned, self.refused, self.said, self.collections, self.entries = turned, None, [], [], []
        self.reports = {}
        try:
            self.read(raw)
        except Refused as refusal:
            self.refused = refusal.answer

    def read(self, raw):
        items, cut = items_of(raw, "long" in self.turned)
        if cut is not None:
            self.said.append(["cut short", cut])
        slices, first, depth = [], 0, 0
        for place, item in enumerate(items):
            depth = (depth + (item.header == 0xA0) - (item.header == 0xC0)) % 2**32
            if item.header == 0xC0 and depth == 0:
                slices.append(items[first:place + 1])
                first = place + 1
        if "behind" in self.turned and first < len(items):
            slices.append(items[first:])
        self.begin()
        self.places, self.firsts = {}, {}
        for some in slices:
            if "globals" not in self.turned:
                self.begin()
            if "places" not in self.turned:
                self.places = {}
            self.read_slice(some)

    def begin(self):
        self.globals = dict.fromkeys(GLOBALS.values(), 0)
        self.globals["id"] = None
        self.pushed = []

    def reset(self):
        self.usages, self.named, self.flags = [], [], 0

    def read_slice(self, items):
        self.reset()
        self.link, self.opened, self.nodes, self.parts = 0, [], [], {kind: [] for kind in KINDS.values()}
        self.top, self.lengths, self.rooms = "00000000", dict.fromkeys(KINDS.values(), 0), {}
        for item in items:
            self.pass_item(item)
        last = items[-1].offset
        self.said += [[word, last] for word, kept in (("not popped", self.pushed), ("not closed", self.opened)) if kept]
        parts = [part for kind in KINDS.values() for part in self.parts[kind]]
        for part in parts:
            sizes = self.reports.setdefault(part[1], [0, 0, 0, 0])
            sizes[0] = len(self.collections) + 1
            which = list(KINDS.values()).index(part[0]) + 1
            sizes[which] = max(sizes[which], (part[2] + part[3] * part[4]) % 2**32)
        self.collections.append({"usage": self.top, "lengths": list(self.lengths.values()), "nodes": self.nodes,
                                 "parts": parts})

    def answer(self):
        """What hidparse/ask.c says."""
        if self.refused:
            return {"refused": "HIDP_STATUS_INTERNAL_ERROR", "reason": self.refused[0], "offset": self.refused[1]}
        reports = [[number, sizes[0], *((size + 7) % 2**32 // 8 % 2**16 for size in sizes[1:])]
                   for number, sizes in sorted(self.reports.items()) if any(sizes[1:])]
        return {"said": self.said, "collections": self.collections, "reports": reports}

    def reserve(self, what, place, word, offset):
        """Room for so many and one more; it grows by a half, and no further at once."""
        room = self.rooms.get(what, 0)
        if place < room or "room" in self.turned:
            return
        self.rooms[what] = room = room * 3 // 2 if room else 32
        if room <= place:
            raise Refused(word, offset)

    def pass_item(self, item):
        header = item.header
        if header in KINDS:
            self.pass_data(KINDS[header], item)
        elif header == 0xA0:
            self.open(item)
        elif header == 0xC0:
            if not self.opened:
                raise Refused("end", item.offset)
            self.link = self.opened.pop()
            self.reset()
        elif header in GLOBALS:
            self.pass_global(GLOBALS[header], item)
        elif header == 0xA4:
            self.reserve("stack", len(self.pushed), "deep stack", item.offset)
            self.pushed.append((dict(self.globals), (list(self.usages), list(self.named), self.flags)))
        elif header == 0xB4:
            if not self.pushed:
                raise Refused("pop", item.offset)
            self.globals, kept = self.pushed.pop()
            if "push" in self.turned:
                self.usages, self.named, self.flags = kept
        elif header == 0xA8:
            if not {"linux usages", "standard usages"} & self.turned:
                raise Refused("delimiter", item.offset)
            self.named.append((header, item.value, item.size, self.globals["page"]))
        elif header & 0x0C == 8 and header != 0x68 and header < 0xA8:
            self.pass_local(item)
        else:
            self.said.append(["unknown", item.offset])
            if header & 0x0C == 0 and "unknown" in self.turned:
                self.reset()

    def pass_global(self, name, item):
        value = item.signed if name in ("lmin", "lmax", "pmin", "pmax", "exponent", "unit") else item.value
        if name == "lmax" and "unsigned" in self.turned and self.globals["lmin"] >= 0:
            value = item.value if item.size < 4 else item.signed
        if name in WIDTHS and not ("wide" in self.turned and name in ("size", "count")):
            value %= 2**WIDTHS[name]
        self.globals[name] = value

    def pass_local(self, item):
        page, usage = (item.value >> 16) or self.globals["page"], item.value & 0xFFFF
        if item.header in (0x08, 0x18, 0x28):
            self.named.append((item.header, item.value, item.size, self.globals["page"]))
        if item.header == 0x08:
            if self.flags & RANGE:
                self.usages = []
            self.usages.append([page, usage, usage])
            self.flags &= ~RANGE
            if len(self.usages) > 255 and "room" not in self.turned:
                raise Refused("many usages", item.offset)
        elif item.header in (0x18, 0x28):
            place = 1 if item.header == 0x18 else 2
            one = list(self.usages[0]) if self.usages else [0, 0, 0]
            if not self.flags & RANGE:
                one[3 - place] = 0
            one[0], one[place] = page, usage
            self.usages = [one]
            self.flags |= RANGE
        else:
            flag = DESIGNATORS if item.header < 0x68 else STRINGS
            self.flags = self.flags & ~flag if item.header in (0x38, 0x78) else self.flags | flag

    def open(self, item):
        self.reserve("stack", len(self.opened), "deep stack", item.offset)
        self.reserve("collections", len(self.nodes), "many collections", item.offset)
        self.opened.append(self.link)
        usage = f"{self.globals['page']:04x}{self.usages[0][1] if self.usages else 0:04x}"
        if not self.nodes:
            self.top = usage
        self.nodes.append([item.value, usage, self.link])
        self.link = len(self.nodes) - 1
        self.reset()

    def pass_data(self, kind, item):
        entry = Entry(kind, item, self, 0)
        size, count = entry.globals["size"], entry.globals["count"]
        if size and count:
            first = self.firsts.setdefault(kind, entry.id)
            if "first" in self.turned and entry.id is None:
                entry.id = first
        key = (kind, entry.id)
        entry.start = self.places.get(key) or 8
        self.places[key] = (entry.start + size * count) % (2**64 if "wide" in self.turned else 2**32)
        self.lengths[kind] = max(self.lengths[kind], (self.places[key] + 7) // 8) % 2**16
        if count:
            self.reserve(kind, len(self.parts[kind]) + max(1, len(entry.usages)), "many values", item.offset)
            self.parts[kind] += parts_of(entry, self.turned)
            self.entries.append(entry)
        self.reset()

    def rows(self):
        """The fields (rows_of): by other rules where some are turned."""
        return sorted((row for entry in self.entries for row in rows_of(entry, self.turned)), key=str)

    def notes(self):
        """Why the usages of its items aren't Linux's, or the standard's letter's."""
        found = set()
        for entry in self.entries:
            if entry.bits & 1 or not entry.globals["size"]:
                continue
            found |= note_of(entry, self.turned)
        return found


def parts_of(entry, turned):
    """The parts of an item, in Wine's order: each usage or range of an array, or of a variable item."""
    spans = entry.usages or [[0, 0, 0]]
    if entry.is_variable and "extra" in turned:
        spans = spans[:entry.globals["count"]]
    its, bits, flags = entry.globals, entry.bits, entry.flags
    start, size, count = entry.start, its["size"], its["count"]
    is_array = not entry.is_variable
    flags |= (0 if bits & 4 else ABSOLUTE) | (CONSTANT if bits & 1 else 0) | (BUTTON if size == 1 or is_array else 0)
    null = its["lmin"] % 2**16 if is_array else int(bool(bits & 0x40))
    bounds = [its["lmin"], its["lmax"], its["pmin"], its["pmax"]]
    if flags & BUTTON:
        bounds = [its["lmax"] if is_array else 0, 0, 0, 0]
    found, place = [], start + size * count
    for number, (page, least, most) in enumerate(reversed(spans)):
        if is_array:
            own, where = count, start
            last = number == len(spans) - 1
            flags = flags & ~MORE if last else flags | MORE
        else:
            own = 1 if number else (count - len(spans) + 1) % 2**16
            place = where = (place - own * size) % 2**32
        bit = where // 8 % 2**16 * 8 + where % 8
        found.append([entry.kind, its["id"] or 0, bit, size, own, bits, flags, page, least, most, *bounds, its["unit"],
                      its["exponent"], null, entry.link])
    return found


def runs_of(spans):
    """Usages as runs: each number one more than the one before; as long as they go, from the left."""
    runs = []
    for first, last in spans:
        if runs and runs[-1][1] + 1 == first:
            runs[-1][1] = last
        else:
            runs.append([first, last])
    return tuple(map(tuple, runs))


def nth(runs, number):
    """A usage of runs, or the last one."""
    for first, last in runs:
        if number <= last - first:
            return first + number
        number -= last - first + 1
    return runs[-1][1]


def row(kind, report, start, size, count, form, bounds, usages):
    """A field: its direction, report or None, bits, kind, bounds (None where Wine keeps none) and usages."""
    start -= 8 if report is None else 0
    return kind, report, start, start + size * count, form, bounds, usages


def rows_of_parts(parts):
    """The fields of Wine's parts; a range that ends before it begins is one usage that is none."""
    found, group = [], []
    for part in parts:
        kind, report, start, size, count, bits, flags, page, least, most, low, high, *_, null, _link = part
        report = report or None
        spans = [(page << 16 | least, page << 16 | most)]
        if bits & 1 or not size or not count:
            continue
        if bits & 2 and count > MANY:
            found.append(row(kind, report, start, size, count, "many", None, tuple(spans)))
            continue
        if bits & 2:
            bounds = None if flags & BUTTON else (low, high)
            for number in range(count):
                usage = (nth(spans, number),) * 2 if least <= most else spans[0]
                found.append(row(kind, report, start + size * number, size, 1, "variable", bounds, (usage,)))
            continue
        group += spans
        if not flags & MORE:
            runs = runs_of(reversed(group))
            found.append(row(kind, report, start, size, count, "array", (null, low), runs))
            group = []
    return found


def rows_of(entry, turned):
    """The fields of an item: of its parts, but where a turned rule has them otherwise."""
    usages = turned_usages(entry, turned)
    size, count = entry.globals["size"], entry.globals["count"]
    spans = [(page << 16 | least, page << 16 | most) for page, least, most in entry.usages]
    if "padding" in turned and not (spans if usages is None else usages):
        return []
    bounds = (entry.globals["lmin"], entry.globals["lmax"])
    if not entry.is_variable and "minimum" not in turned:
        bounds = (bounds[0] % 2**16, bounds[1])
    if usages is None or usages == runs_of(spans):
        is_extra = entry.is_variable and len(spans) > count
        if is_extra and "extra" not in turned or not (
                is_extra or {"wide", "minimum"} & turned or entry.id == 0 or
                (entry.id or None) != (entry.globals["id"] or None)):
            return rows_of_parts(parts_of(entry, turned))
        usages = runs_of(spans)
    if entry.bits & 1 or not size or not count:
        return []
    usages = usages or ((0, 0),)
    if not entry.is_variable:
        return [row(entry.kind, entry.id, entry.start, size, count, "array", bounds, usages)]
    is_reversed = len(usages) == 1 and usages[0][0] > usages[0][1]
    return [row(entry.kind, entry.id, entry.start + size * number, size, 1, "variable", None if size == 1 else bounds,
                usages if is_reversed else ((nth(usages, number),) * 2,)) for number in range(count)]


def turned_usages(entry, turned):
    """The usages by Linux's rule or the standard's letter, as runs; None where they are Wine's."""
    if "linux usages" in turned:
        return linux_usages(entry)
    return standard_usages(entry) if "standard usages" in turned else None


def linux_usages(entry):
    main, spans, least, sets = entry.globals["page"], [], 0, 0
    for header, value, size, page in entry.named:
        if header == 0xA8:
            sets += value != 0
        if header == 0xA8 or sets > 1:
            continue
        if header == 0x18:
            least = value
        elif header == 0x08:
            spans.append([value if size > 2 else page << 16 | value] * 2 + [size > 2])
        elif least <= value:
            own = value > 0xFFFF
            spans.append([least if own else page << 16 | least, value if own else page << 16 | value, own])
    for span in reversed(spans):
        if span[2]:
            continue
        if span[1] >> 16 == main:
            break
        span[:2] = [main << 16 | span[0] & 0xFFFF, main << 16 | span[1] & 0xFFFF]
    return runs_of((first, last) for first, last, _ in spans)


def standard_usages(entry):
    main, least, most, single = entry.globals["page"], None, None, []
    for header, value, size, _ in entry.named:
        if header == 0x18:
            least = value
        elif header == 0x28:
            most = value
        elif header == 0x08:
            whole = value if size > 2 else main << 16 | value
            single.append((whole, whole))
    if least is None:
        return runs_of(single)
    if most is None or most < least:
        return ()
    # The low 16 bits of each number.
    starts = range(least >> 16, (most >> 16) + 1)
    return runs_of((main << 16 | (least & 0xFFFF if start == least >> 16 else 0),
                    main << 16 | (most & 0xFFFF if start == most >> 16 else 0xFFFF)) for start in starts)


# Where the usages of an item may differ, the first that fits.
NOTES = ("a lone bound", "a maximum below its minimum", "a range beside other usages", "a bound with a page",
         "a page behind the usages", "a usage of page 0", "a Delimiter")


def note_of(entry, turned):
    """Why the usages of an item differ from Wine's; nothing where they don't."""
    spans = runs_of((page << 16 | least, page << 16 | most) for page, least, most in entry.usages)
    if turned_usages(entry, turned) in (None, spans):
        return set()
    heads = [header for header, *_ in entry.named]
    ranges = [value for header, value, *_ in entry.named if header in (0x18, 0x28)]
    if 0xA8 in heads:
        return {NOTES[6]}
    if heads.count(0x18) != heads.count(0x28) or 0x28 in heads and heads.index(0x28) < heads.index(0x18):
        return {NOTES[0]}
    if any(low > high for low, high in zip(ranges[::2], ranges[1::2])):
        return {NOTES[1]}
    if len(ranges) > 2 or ranges and 0x08 in heads:
        return {NOTES[2]}
    if any(header in (0x18, 0x28) and size > 2 for header, _, size, _ in entry.named):
        return {NOTES[3]}
    if any(page != entry.globals["page"] for *_, page in entry.named):
        return {NOTES[4]}
    if any(size > 2 and value < 0x10000 for _, value, size, _ in entry.named):
        return {NOTES[5]}
    return {"usages without a reason"}


class Pddi:
    """What Windows refuses by the names of hidpddi.h: {name: the first offset}. BYTE_ALLIGN is not here."""

    def __init__(self, raw):
        self.found, self.depth, self.collections, self.id = {}, 0, 0, 0
        self.pushed, self.owners, self.has_id, self.lacks_id = [], {}, False, False
        self.reset()
        at = 0
        while at < len(raw):
            size = (0, 1, 2, 4)[raw[at] & 3] if raw[at] != 0xFE else 2 + (raw + b"\0\0")[at + 1]
            if at + 1 + size > len(raw):
                break
            if raw[at] != 0xFE:
                self.pass_item(Item(at, raw[at], raw[at + 1:at + 1 + size]))
            at += 1 + size
        if not self.collections:
            self.found["NO_DATA"] = at

    def reset(self):
        self.count, self.least, self.has_sets, self.is_open = 0, 0, False, False

    def refuse(self, name, offset):
        self.found.setdefault(name, offset)

    def pass_item(self, item):
        kind, offset = item.header & 0x0C, item.offset
        if kind == 0x0C:
            self.refuse("ITEM_UNKNOWN", offset)
        elif kind == 0x08:
            self.pass_local(item)
        elif kind == 0x04:
            self.pass_global(item)
        elif item.header in (0xA0, 0xC0, *KINDS):
            self.pass_main(item)
        else:
            self.refuse("ITEM_UNKNOWN", offset)

    def pass_global(self, item):
        if item.header > 0xB4:
            self.refuse("ITEM_UNKNOWN", item.offset)
        if item.header == 0xA4:
            self.pushed.append(self.id)
        if item.header == 0xB4 and self.pushed:
            self.id = self.pushed.pop()
        if item.header == 0x84:
            self.id = item.value & 0xFF
            if not self.depth:
                self.refuse("REPORT_ID", item.offset)
            if not self.id:
                self.refuse("BAD_REPORT_ID_VALUE", item.offset)

    def pass_local(self, item):
        if item.header == 0x08:
            self.count += 1
        elif item.header == 0x18:
            self.least = item.value
        elif item.header == 0x28:
            self.count += max(0, item.value + 1 - self.least)
        elif item.header == 0xA8:
            self.has_sets, self.is_open = True, item.value != 0
        elif item.header == 0x68 or item.header > 0xA8:
            self.refuse("ITEM_UNKNOWN", item.offset)

    def pass_main(self, item):
        offset = item.offset
        if self.is_open:
            self.refuse("NO_CLOSE_DELIMITER", offset)
        if item.header == 0xA0:
            if not self.depth:
                self.collections += 1
                if self.count != 1 and not self.has_sets:
                    self.refuse("TOP_COLLECTION_USAGE", offset)
                if self.lacks_id:
                    self.refuse("DEFAULT_ID_ERROR", offset)
            self.depth += 1
        elif item.header == 0xC0:
            if not self.depth:
                self.refuse("UNEXP_END_COLLECTION", offset)
            self.depth = max(0, self.depth - 1)
        elif not self.depth:
            self.refuse("INVALID_MAIN_ITEM", offset)
        else:
            self.pass_data(item)
        self.reset()

    def pass_data(self, item):
        offset = item.offset
        if not self.count and not item.value & 1:
            self.refuse("MAIN_ITEM_NO_USAGE", offset)
        if self.has_sets and not item.value & 2:
            self.refuse("UNSUPPORTED", offset)
        self.has_id, self.lacks_id = self.has_id or self.id != 0, self.lacks_id or self.id == 0
        if self.has_id and self.lacks_id:
            self.refuse("DEFAULT_ID_ERROR", offset)
        if self.id and self.owners.get(self.id, self.collections) != self.collections:
            self.refuse("NO_REPORT_ID", offset)
        self.owners[self.id] = self.collections
