"""Report descriptors: what reports they announce, and the reports' fields."""

from enum import IntEnum
from functools import partial
from itertools import islice
from typing import Dict, Iterable, Iterator, List, Optional, Tuple

from . import _c
from .errors import check
from .fields import Collection, Field, Kind, _number
from .options import ParseOptions
from .usages import Usage


class Direction(IntEnum):
    """Which way reports go."""

    INPUT = 0
    OUTPUT = 1
    FEATURE = 2


class Report:
    """A report that a descriptor announces, with its fields in the order of their bits."""

    def __init__(self, of: "_c.Report", direction: Direction, fields: Iterable[Field]) -> None:
        self._report = of
        self.direction = direction
        #: Its id, if it has one; its first byte is then that.
        self.report_id: Optional[int] = of.id if of.has_id else None
        #: Its size, the byte of the id counted.
        self.size_in_bits: int = of.size_in_bits
        self.size_in_bytes: int = of.size_in_bytes
        self.fields = tuple(fields)
        self._fields = _c.fields_of([field._field for field in self.fields])

    def blank(self) -> bytearray:
        """Its bytes without values: the id, where it has one, and zeros."""
        answer, data = _c.listed("blank", _c.byref(self._report), room=self.size_in_bytes)
        check(answer.status)
        return bytearray(data)

    def read(self, report: bytes) -> List[int]:
        """The values of all fields in a report's bytes, in order; padding has none."""
        answer, values = _c.listed("read", self._fields, len(self._fields), bytes(report),
                                   len(report))
        check(answer.status)
        return list(values)

    def read_available(self, report: bytes) -> List[int]:
        """The same up to the first value that isn't there, as of a report that is cut short."""
        answer, values = _c.listed("read_available", self._fields, len(self._fields),
                                   bytes(report), len(report))
        check(answer.status)
        return list(values)

    def write(self, report: bytearray, values: Iterable[int]) -> None:
        """Writes the values of all fields, in order, or none where one is refused."""
        numbers = _c.numbers(_c.c_int64, [_number(value) for value in values])
        check(_c.call("write", self._fields, len(self._fields), _c.bytes_of(report), len(report),
                      numbers, len(numbers)))

    def values(self, report: bytes) -> Iterator[Tuple[Field, List[int]]]:
        """Each field but padding, with its values in a report's bytes."""
        numbers = iter(self.read(report))
        for field in self.fields:
            if field.kind is not Kind.CONSTANT:
                yield field, list(islice(numbers, field.value_count))

    def field_for(self, usage: Usage) -> Optional[Field]:
        """The first field with this usage."""
        return next((field for field in self.fields if usage in field.usages), None)

    def __repr__(self) -> str:
        return f"<Report {self.direction.name.lower()} {self.report_id}: {self.size_in_bits} bits>"


class ReportDescriptor:
    """The reports that a descriptor announces."""

    def __init__(self, descriptor: bytes, options: ParseOptions = ParseOptions()) -> None:
        #: The bytes that were read.
        self.bytes = bytes(descriptor)
        self.options = options
        self._collections: Dict[Direction, Dict[int, Tuple[Collection, ...]]] = {}
        self._asked = (self.bytes, len(self.bytes), options._as_c())
        self._reports = {way: self._read(way) for way in Direction}

    def _listed(self, name: str, *more: object, room: int = -1) -> list:
        answer, found = _c.listed(name, *self._asked, *more, room=room)
        if answer.status != 0:
            check(answer.status, answer.offset, _c.text("message", *self._asked))
        return found

    def _read(self, direction: Direction) -> Tuple[Report, ...]:
        reports = self._listed("reports", direction)
        if not reports:
            return ()
        fields = self._listed("describe", direction, room=sum(it.field_count for it in reports))
        count = sum(field.usages.count for field in fields)
        usages = iter(self._listed("describe_usages", direction, room=count))
        around, left = partial(self._around, direction), iter(fields)
        return tuple(Report(report, direction, [
            Field(field, list(islice(usages, field.usages.count)), around)
            for field in islice(left, report.field_count)]) for report in reports)

    def _around(self, direction: Direction, field: "_c.Field") -> Tuple[Collection, ...]:
        """The collections around a field; those around two fields are the same where the innermost
        one is."""
        if field.collections.count == 0:
            return ()
        if direction not in self._collections:
            self._collections[direction] = self._read_collections(direction)
        return self._collections[direction][field.collections.innermost]

    def _read_collections(self, direction: Direction) -> Dict[int, Tuple[Collection, ...]]:
        """The collections around all fields of a direction, by the number of the innermost."""
        listed = iter(self._listed("describe_collections", direction))
        usages = iter(self._listed("describe_collection_usages", direction))
        known: Dict[int, Collection] = {}
        around: Dict[int, Tuple[Collection, ...]] = {}
        for field in (it._field for report in self._reports[direction] for it in report.fields):
            own = []
            for it in islice(listed, field.collections.count):
                named = tuple(map(Usage.from_number, islice(usages, it.usage_count)))
                own.append(known.setdefault(it.number, Collection(it.number, it.kind, named)))
            if own:
                around.setdefault(own[-1].id, tuple(own))
        return around

    @property
    def input_reports(self) -> Tuple[Report, ...]:
        """The input reports, in the order of their first fields."""
        return self._reports[Direction.INPUT]

    @property
    def output_reports(self) -> Tuple[Report, ...]:
        """The output reports, likewise."""
        return self._reports[Direction.OUTPUT]

    @property
    def feature_reports(self) -> Tuple[Report, ...]:
        """The feature reports, likewise."""
        return self._reports[Direction.FEATURE]

    def reports(self, direction: Direction) -> Tuple[Report, ...]:
        """The reports of a direction."""
        return self._reports[direction]

    def find_report(self, direction: Direction, report: bytes) -> Optional[Report]:
        """The report of a direction that these bytes are of: the only one without an id, or the one
        whose id is the first byte."""
        reports = self._reports[direction]
        if not report or not reports:
            return None
        if reports[0].report_id is None:
            return reports[0]
        return next((it for it in reports if it.report_id == report[0]), None)

    def find_input_report(self, report: bytes) -> Optional[Report]:
        """The input report that these bytes are of."""
        return self.find_report(Direction.INPUT, report)

    def find_output_report(self, report: bytes) -> Optional[Report]:
        """The output report that these bytes are of."""
        return self.find_report(Direction.OUTPUT, report)

    def find_feature_report(self, report: bytes) -> Optional[Report]:
        """The feature report that these bytes are of."""
        return self.find_report(Direction.FEATURE, report)

    def is_alike(self, other: "ReportDescriptor") -> bool:
        """Whether another descriptor, read by the same options, announces the same."""
        found = _c.call("is_alike", self.bytes, len(self.bytes), other.bytes, len(other.bytes),
                        self.options._as_c())
        check(found.status, found.offset)
        return found.is_alike
