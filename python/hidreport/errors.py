"""Why there is no answer: a class for each refusal of the library."""

from typing import Dict, Type


class HidReportError(ValueError):
    """The library refuses what it was asked; the subclass says why."""


class InvalidData(HidReportError):
    """An item of the descriptor can't be read, or has no meaning where it stands."""

    def __init__(self, offset: int, message: str) -> None:
        super().__init__(f"invalid data at offset {offset}: {message}")
        #: How many bytes stand before the item.
        self.offset = offset
        #: The library's words.
        self.message = message


class OutOfBounds(HidReportError):
    """A count passes what can be counted, or a field lies outside the report's bytes."""


class MismatchingReportId(HidReportError):
    """The report's first byte isn't the id that the field is read by."""


class BudgetExceeded(HidReportError):
    """The descriptor lists more than the limit of the options, or is too long for one."""

    def __init__(self, offset: int) -> None:
        super().__init__(f"budget exceeded at offset {offset}")
        #: How many bytes stand before the item that is too much.
        self.offset = offset


class UnknownOption(HidReportError):
    """An option has no such number."""


class DoesNotFit(HidReportError):
    """So many bits don't hold the number, signed or unsigned as the field is."""


class WrongCount(HidReportError):
    """There are more or fewer numbers than the field has values."""


OUT_OF_MEMORY = 4

_REFUSALS: Dict[int, Type[HidReportError]] = {
    2: OutOfBounds,
    3: MismatchingReportId,
    6: UnknownOption,
    7: DoesNotFit,
    8: WrongCount,
}


def check(status: int, offset: int = 0, message: str = "") -> None:
    """Raises what a status of the library says, if it is a refusal."""
    if status == 0:
        return
    if status == 1:
        raise InvalidData(offset, message)
    if status == OUT_OF_MEMORY:
        raise MemoryError("hidreport: memory was refused")
    if status == 5:
        raise BudgetExceeded(offset)
    raise _REFUSALS[status](f"hidreport: status {status}")
