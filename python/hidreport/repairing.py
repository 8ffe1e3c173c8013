"""Descriptors that hosts accept, made ones that are read."""

from dataclasses import dataclass
from enum import IntEnum
from typing import List, Tuple

from . import _c
from .errors import check
from .options import HOSTS, Mends, ParseOptions


class Reason(IntEnum):
    """Why a repair changes something."""

    NO_DATA = 0
    UNKNOWN_MAIN_ITEM = 1
    ENDED_LOCAL = 2
    NO_USAGE = 3
    UNSIGNED_MAXIMUM = 4
    CUT_SHORT = 5


@dataclass(frozen=True)
class Change:
    """What stands elsewhere in the repaired descriptor: where it stood, how many bytes it had, how
    many stand there now, and why."""

    offset: int
    stood: int
    stands: int
    reason: Reason


def repair(descriptor: bytes, options: ParseOptions = HOSTS,
           mends: Mends = Mends.DEFAULT) -> Tuple[bytes, List[Change]]:
    """A descriptor that these options read, and what was changed for it: of one that hosts accept
    what Linux reads."""
    data = bytes(descriptor)
    asked = (data, len(data), options._as_c(), int(mends))
    answer, repaired = _c.listed("repair", *asked)
    if answer.status != 0:
        check(answer.status, answer.offset, _c.text("repair_message", *asked))
    answer, changes = _c.listed("changes", *asked)
    check(answer.status, answer.offset)
    return bytes(repaired), [Change(it.offset, it.stood, it.stands, Reason(it.reason))
                             for it in changes]
