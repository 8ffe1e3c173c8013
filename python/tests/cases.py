"""Answers the questions of c/cases.txt from Python, one line after the other, as c/cases.c does."""

import re
import sys
from typing import Any, List, Optional

from hidreport import _c

ROOM = 256
STATUSES = ("accepted invalid-data out-of-bounds mismatching-report-id out-of-memory "
            "budget-exceeded unknown-option does-not-fit wrong-count").split()
KINDS = ["variable", "array", "constant"]
COLLECTIONS = ("physical application logical report named-array usage-switch "
               "usage-modifier").split()
REASONS = ["no data", "unknown main item", "local of an unknown main item", "no usage",
           "unsigned maximum", "cut short"]
DIRECTIONS = {"input": 0, "output": 1, "feature": 2}
MENDS = {"default": 0, "cut-short": 1, "unsigned-maxima": 2, "both": 3}
# How many words each kind has before its bytes; others have none.
WORDS = {kind: 2 for kind in ("options collection-usages repair changes value usage report field-for "
                              "value-of physical normalized insert insert-all group-usage "
                              "group-field usage-on-page").split()}
WORDS.update({kind: 1 for kind in (
    "usages-by reports describe find usages collections repair-message values blank field "
    "null-value write front-items groups describe-usages find-usages read read-available usage-name "
    "describe-collections describe-collection-usages "
    "usage-by-name page-name page-by-name collection-name").split()})


def bytes_of(text: str) -> bytes:
    """Bytes are hexadecimal, `-` is none, `9*a4` is one of them nine times."""
    return b"".join(bytes.fromhex(digits) * int(times or 1)
                    for times, digits in re.findall(r"(?:(\d+)\*)?([0-9a-f]{2})", text))


def answer_line(answer: Any) -> str:
    return f"count {answer.count} offset {answer.offset} {STATUSES[answer.status]}"


def measures(m: Any) -> str:
    return (f"  logical {m.logical_minimum}..{m.logical_maximum} physical "
            f"{m.has_physical_minimum:d} {m.physical_minimum}..{m.has_physical_maximum:d} "
            f"{m.physical_maximum} unit {m.has_unit:d} {m.unit:08x} exponent "
            f"{m.has_unit_exponent:d} {m.unit_exponent}")


def flags(g: Any) -> str:
    return " flags " + "".join(f"{getattr(g, name):d}" for name, _ in g._fields_)


def around(of: Any) -> str:
    return (f"collections {of.collections.count} {of.collections.innermost} report "
            f"{of.has_report_id:d} {of.report_id}")


def field_lines(f: Any) -> List[str]:
    u = f.usages
    return [f"#{f.number} {KINDS[f.kind]} bits {f.first_bit}..{f.end_bit} values {f.value_count} "
            f"usages {u.count} {u.first:08x}..{u.last:08x} {u.is_range:d} {around(f)}",
            measures(f.measures) + flags(f.flags)]


def group_lines(g: Any) -> List[str]:
    return [f"{KINDS[g.kind]} bits {g.first_bit}, {g.element_width} each elements "
            f"{g.element_count} fields {g.field_count} usage {g.usage:08x} {around(g)}",
            measures(g.measures) + flags(g.flags)]


def report_line(r: Any) -> str:
    return f"id {r.has_id:d} {r.id} bits {r.size_in_bits} bytes {r.size_in_bytes} fields " \
           f"{r.field_count}"


class Asked:
    """What the last questions gave."""

    def __init__(self) -> None:
        self.options = _c.Options(65536, 0, 0)
        self.fields: List[Any] = []
        self.usages: List[int] = []
        self.report: Optional[Any] = None

    def listed(self, show: Any, name: str, *arguments: Any, room: int = ROOM) -> List[str]:
        answer, found = _c.listed(name, *arguments, room=room)
        self.found = found
        return [answer_line(answer)] + [line for it in found for line in show(it)]

    def text(self, name: str, *arguments: Any, form: str = "text", room: int = ROOM) -> List[str]:
        answer, found = _c.listed(name, *arguments, room=room)
        data = bytes(found)
        return [answer_line(answer), data.decode() if form == "text" else data.hex()]

    def of_fields(self, name: str, *arguments: Any) -> List[str]:
        lines = self.listed(field_lines, name, *arguments)
        self.fields = self.found
        return lines

    def of_usages(self, name: str, *arguments: Any) -> List[str]:
        lines = self.listed(lambda it: [f"{it:08x}"], name, *arguments)
        self.usages = self.found
        return lines

    def answer(self, kind: str, words: List[str], data: bytes, report: bytearray) -> List[str]:
        """The lines that answer a question."""
        of = (data, len(data), self.options)
        sent = (bytes(report), len(report))
        first, second = (words + ["", ""])[:2]
        way = DIRECTIONS.get(first) if first in DIRECTIONS else _number(first)
        if kind == "version":
            return ["as here" if _c.call("version") == _c.VERSION else "not as here"]
        if kind in ("options", "usages-by"):
            return self.choose(kind, first, second)
        if kind == "reports":
            return self.listed(lambda it: [report_line(it)], "reports", *of, way)
        if kind == "report":
            lines = self.listed(lambda it: [report_line(it)], "report_with", *of, way,
                                second != "-", 0 if second == "-" else int(second), room=1)
            self.report = self.found[0] if self.found else _c.Report()
            return lines
        if kind == "blank":
            return self.text("blank", _c.byref(self.report), form="hex", room=_room(first))
        if kind == "describe":
            return self.of_fields("describe", *of, way)
        if kind == "find":
            return self.of_fields("find", *of, way, *sent)
        if kind == "field":
            return self.of_fields("field_numbered", *of, way)
        if kind == "field-for":
            number, usage = second.split("=")
            return self.of_fields("field_for", *of, way, number != "-",
                                  0 if number == "-" else int(number), int(usage, 16))
        if kind == "group-field":
            return self.of_fields("group_field", *of, way, *map(int, second.split("=")))
        if kind == "usages":
            return self.of_usages("usages", *of, way)
        if kind == "describe-usages":
            return self.of_usages("describe_usages", *of, way)
        if kind == "find-usages":
            return self.of_usages("find_usages", *of, way, *sent)
        if kind == "describe-collection-usages":
            return self.of_usages("describe_collection_usages", *of, way)
        if kind == "collection-usages":
            return self.of_usages("collection_usages", *of, way, int(second))
        if kind == "group-usage":
            return self.of_usages("group_usage", *of, way, *map(int, second.split("=")))
        if kind == "groups":
            return self.listed(group_lines, "groups", *of, way)
        if kind in ("collections", "describe-collections"):
            return self.listed(lambda c: [f"#{c.number} {_collection(c.kind)} usages "
                                          f"{c.usage_count} {c.usage:08x}"],
                               kind.replace("-", "_"), *of, way)
        return self.answer_more(kind, first, second, data, report)

    def choose(self, kind: str, first: str, second: str) -> List[str]:
        if kind == "usages-by":
            self.options.usages = {"standard": 0, "hosts": 1, "linux": 2}.get(first, _number(first))
            return []
        limit = {"default": 65536, "none": _c.NO_LIMIT}.get(first)
        push = {"default": 0, "all": 0, "globals": 1}.get(second)
        self.options = _c.Options(_number(first) if limit is None else limit,
                                  _number(second) if push is None else push, 0)
        return []

    def answer_more(self, kind: str, first: str, second: str, data: bytes,
                    report: bytearray) -> List[str]:
        """Of bytes alone, of items, of names."""
        of = (data, len(data), self.options)
        bare = of[:2]
        mends = MENDS[first] if first in MENDS else _number(first)
        if kind == "alike":
            it = _c.call("is_alike", *bare, bytes(report), len(report), self.options)
            return [f"offset {it.offset} {STATUSES[it.status]} of {it.is_of_other:d} alike "
                    f"{it.is_alike:d}"]
        if kind == "message":
            return self.text("message", *of)
        if kind == "refusal":
            answer = _c.listed("describe", *of, 0, room=0)[0]
            return [f"{STATUSES[answer.status]} at {answer.offset}: "
                    f"{_c.text('message', *of)}"]
        if kind in ("items", "front-items"):
            return self.listed(lambda it: [f"offset {it.offset} size {it.size}"],
                               kind.replace("-", "_"), *bare,
                               room=_room(first) if first else ROOM)
        if kind in ("items-message", "item-name", "flag-words"):
            return self.text(kind.replace("-", "_"), *bare)
        if kind == "rebuild":
            return self.text("rebuild", *bare, form="hex")
        if kind == "repair":
            return self.text("repair", *of, mends, form="hex", room=_room(second))
        if kind == "repair-message":
            return self.text("repair_message", *of, mends)
        if kind == "changes":
            return self.listed(lambda c: [f"offset {c.offset} stood {c.stood} stands {c.stands} "
                                          f"{REASONS[c.reason]}"],
                               "changes", *of, mends, room=_room(second))
        if kind in ("usage-name", "page-name"):
            return self.text(kind.replace("-", "_"), int(first, 16))
        if kind == "collection-name":
            return self.text("collection_name", int(first))
        if kind in ("usage-by-name", "page-by-name", "usage-on-page"):
            return self.named(kind, first, second)
        return self.values(kind, first, second, report)

    def named(self, kind: str, first: str, second: str) -> List[str]:
        name = (second or first).replace("_", " ").encode()
        page = (int(first, 16),) if kind == "usage-on-page" else ()
        it = _c.call(kind.replace("-", "_"), *page, name, len(name))
        if kind == "page-by-name":
            return [f"page {it.page:04x} {it.is_there:d}"]
        return [f"usage {it.usage:08x} {it.is_meant:d}"]

    def values(self, kind: str, first: str, second: str, report: bytearray) -> List[str]:
        """Of the fields that were listed last."""
        sent = (bytes(report), len(report))
        if kind in ("read", "read-available", "write"):
            fields = (_c.fields_of(self.fields), len(self.fields))
        else:
            field = _c.byref(self.fields[int(first)])
        usages = (_c.numbers(_c.c_uint32, self.usages), len(self.usages))
        written = (_c.bytes_of(report), len(report))
        if kind in ("read", "read-available"):
            return self.listed(lambda it: [str(it)], kind.replace("-", "_"), *fields, *sent,
                               room=_room(first))
        if kind == "values":
            return self.listed(lambda it: [str(it)], "values", field, *sent)
        if kind == "value":
            it = _c.call("value", field, *sent, int(second))
            return [f"number {it.number} {STATUSES[it.status]}"]
        if kind == "usage":
            it = _c.call("usage_of", field, int(second), *usages)
            return [f"usage {it.usage:08x} {it.is_meant:d}"]
        if kind in ("value-of", "null-value"):
            more = (int(second, 16), *usages) if kind == "value-of" else ()
            it = _c.call(kind.replace("-", "_"), field, *more)
            return [f"value {it.value} {it.is_there:d}"]
        if kind in ("physical", "normalized"):
            it = _c.call(kind, field, int(second))
            return [f"fraction {it.numerator} {it.denominator} {it.is_there:d}"]
        if kind == "insert":
            index, value = map(int, second.split("="))
            status = _c.call("insert", field, *written, index, value)
        elif kind == "insert-all":
            status = _c.call("insert_all", field, *written, *_numbers(second))
        elif kind == "write":
            status = _c.call("write", *fields, *written, *_numbers(first))
        else:
            raise ValueError(f"no question: {kind}")
        return [STATUSES[status], report.hex()]


def _numbers(text: str) -> tuple:
    values = [] if text == "-" else [int(word) for word in text.split(",")]
    return _c.numbers(_c.c_int64, values), len(values)


def _number(text: str) -> int:
    found = re.match(r"\d+", text)
    return int(found[0]) if found else 0


def _room(text: str) -> int:
    return ROOM if text == "enough" else min(int(text), ROOM)


def _collection(kind: int) -> str:
    return COLLECTIONS[kind] if kind < len(COLLECTIONS) else str(kind)


def answers(lines: List[str]) -> List[str]:
    """Each question with its answer below it, two spaces in."""
    asked, shown = Asked(), []
    for line in lines:
        shown.append(line)
        if not line or line.startswith("#"):
            continue
        kind, rest = (line.split(" ", 1) + [""])[:2]
        words = rest.split(" ")[:WORDS.get(kind, 0)]
        left = rest.split(" ", len(words))[len(words):]
        data, _, report = " ".join(left).partition("/")
        answer = asked.answer(kind, words, bytes_of(data), bytearray(bytes_of(report)))
        shown += ["  " + text for text in answer]
    return shown


if __name__ == "__main__":
    print("\n".join(answers(sys.stdin.read().splitlines())))
