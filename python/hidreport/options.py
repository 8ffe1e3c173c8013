"""How descriptors are read and repaired."""

from dataclasses import dataclass
from enum import IntEnum, IntFlag
from typing import Optional

from . import _c


class Push(IntEnum):
    """What a Push keeps for its Pop (Section 6.2.2.7)."""

    #: Global and local items, as the Rust crate has it.
    ALL = 0
    #: Global items alone, as Linux has it.
    GLOBALS = 1


class UsagesBy(IntEnum):
    """By which rule an item finds its usages (Section 6.2.2.8)."""

    #: By the letter of the standard, as the Rust crate has it.
    STANDARD = 0
    #: As hosts read them, by Linux's rules.
    HOSTS = 1
    #: All as Linux reads it: what it takes is mended first, what it refuses is refused.
    LINUX = 2


class Mends(IntFlag):
    """What a repair mends besides."""

    DEFAULT = 0
    #: An item that is cut short is left out, with all bytes from there on; Linux refuses it.
    CUT_SHORT = 1
    #: A maximum that was meant unsigned is written so; Linux always reads it so.
    UNSIGNED_MAXIMA = 2


@dataclass(frozen=True)
class ParseOptions:
    """How a descriptor is read. The limit is how much it may list: 65,536 unless another is given,
    and none where it is None; a few bytes can announce 2**32 fields."""

    limit: Optional[int] = 65536
    push: Push = Push.ALL
    usages: UsagesBy = UsagesBy.STANDARD

    def _as_c(self) -> "_c.Options":
        limit = _c.NO_LIMIT if self.limit is None else min(self.limit, _c.NO_LIMIT)
        return _c.Options(limit, int(self.push), int(self.usages))


#: As Linux finds usages and keeps a Push: for a repair, and for reading what it writes.
HOSTS = ParseOptions(push=Push.GLOBALS, usages=UsagesBy.HOSTS)

#: What a Linux machine reads, for remappers, recorders and tests of devices.
LINUX = ParseOptions(push=Push.GLOBALS, usages=UsagesBy.LINUX)
