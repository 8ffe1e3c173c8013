"""Fields of a report: what they are, and their values."""

from dataclasses import dataclass
from enum import IntEnum
from fractions import Fraction
from typing import Callable, Iterable, List, Optional, Sequence, Tuple

from . import _c
from .errors import check
from .usages import Usage


class Kind(IntEnum):
    """What an item's fields are (Section 6.2.2.5)."""

    VARIABLE = 0
    ARRAY = 1
    CONSTANT = 2


@dataclass(frozen=True)
class Flags:
    """The flags of a field's item, all off for padding (Section 6.2.2.5)."""

    is_relative: bool
    wraps: bool
    is_nonlinear: bool
    has_no_preferred_state: bool
    has_null_state: bool
    is_buffered_bytes: bool
    is_volatile: bool


@dataclass(frozen=True)
class Collection:
    """A collection around a field: its number in the descriptor, its kind and its usages."""

    id: int
    kind: int
    usages: Tuple[Usage, ...]

    @property
    def kind_name(self) -> Optional[str]:
        """The standard's name of the kind (Section 6.2.2.6)."""
        return _c.text("collection_name", self.kind) or None


def _fraction(found: "_c.Fraction") -> Optional[Fraction]:
    return Fraction(found.numerator, found.denominator) if found.is_there else None


class Field:
    """A field of a report: a variable, an array or padding. Nothing of it changes."""

    def __init__(self, of: "_c.Field", usages: Sequence[int],
                 around: Callable[["_c.Field"], Tuple[Collection, ...]]) -> None:
        self._field = of
        self._around = around
        self._usages = _c.numbers(_c.c_uint32, usages)
        measures = of.measures
        #: Its number, counted over the descriptor.
        self.id: int = of.number
        self.kind = Kind(of.kind)
        #: Its bits in the report, the byte of the id counted.
        self.bits = range(of.first_bit, of.end_bit)
        #: How many values it has: none of padding.
        self.value_count: int = of.value_count
        #: One, or those that an array's values choose among.
        self.usages = tuple(map(Usage.from_number, usages))
        #: Whether a minimum and a maximum gave them.
        self.is_usage_range: bool = of.usages.is_range
        #: The id that a report begins with to be read, if any.
        self.report_id: Optional[int] = of.report_id if of.has_report_id else None
        self.logical_minimum: int = measures.logical_minimum
        self.logical_maximum: int = measures.logical_maximum
        self.physical_minimum = _given(measures, "physical_minimum")
        self.physical_maximum = _given(measures, "physical_maximum")
        self.unit = _given(measures, "unit")
        self.unit_exponent = _given(measures, "unit_exponent")
        self.flags = Flags(*(getattr(of.flags, name) for name, _ in _c.Flags._fields_))

    @property
    def collections(self) -> Tuple[Collection, ...]:
        """The collections it lies in, outermost first; none of padding."""
        return self._around(self._field)

    @property
    def usage(self) -> Optional[Usage]:
        """A variable field's usage."""
        return self.usages[0] if self.kind is Kind.VARIABLE and self.usages else None

    @property
    def is_signed(self) -> bool:
        """Whether its values have a sign: where the logical minimum is below 0."""
        return self.logical_minimum < 0

    def extract_one(self, report: bytes, index: int = 0) -> int:
        """One of its values in a report's bytes."""
        found = _c.call("value", _c.byref(self._field), bytes(report), len(report), index)
        check(found.status)
        return found.number

    def extract(self, report: bytes) -> List[int]:
        """All its values in a report's bytes, in order."""
        answer, values = _c.listed("values", _c.byref(self._field), bytes(report), len(report))
        check(answer.status)
        return list(values)

    def insert_one(self, report: bytearray, value: int, index: int = 0) -> None:
        """Writes one of its values; no other bit of the report changes."""
        check(_c.call("insert", _c.byref(self._field), _c.bytes_of(report), len(report), index,
                      _number(value)))

    def insert(self, report: bytearray, values: Iterable[int]) -> None:
        """Writes all its values, in order, or none where one is refused."""
        numbers = _c.numbers(_c.c_int64, [_number(value) for value in values])
        check(_c.call("insert_all", _c.byref(self._field), _c.bytes_of(report), len(report),
                      numbers, len(numbers)))

    def usage_of(self, value: int) -> Optional[Usage]:
        """The usage that a value of an array stands for; none as where no key is held."""
        found = _c.call("usage_of", _c.byref(self._field), value, self._usages, len(self._usages))
        return Usage.from_number(found.usage) if found.is_meant else None

    def value_of(self, usage: Usage) -> Optional[int]:
        """The value of an array that stands for a usage."""
        found = _c.call("value_of", _c.byref(self._field), int(usage), self._usages,
                        len(self._usages))
        return found.value if found.is_there else None

    @property
    def null_value(self) -> Optional[int]:
        """A value of an array that stands for no usage."""
        found = _c.call("null_value", _c.byref(self._field))
        return found.value if found.is_there else None

    def physical(self, value: int) -> Optional[Fraction]:
        """What a value of a variable field stands for, in its unit times ten to its exponent."""
        return _fraction(_c.call("physical", _c.byref(self._field), value))

    def normalized(self, value: int) -> Optional[Fraction]:
        """The same between -1, the logical minimum, and 1, the logical maximum."""
        return _fraction(_c.call("normalized", _c.byref(self._field), value))

    def __repr__(self) -> str:
        return f"<Field {self.id}: {self.kind.name.lower()}, bits {self.bits.start}.." \
               f"{self.bits.stop}>"


def _given(measures: "_c.Measures", name: str) -> Optional[int]:
    return getattr(measures, name) if getattr(measures, f"has_{name}") else None


def _number(value: int) -> int:
    """A number as the library takes it: one that 64 bits don't hold fits no field."""
    return value if -2**63 <= value < 2**63 else 2**63 - 1
