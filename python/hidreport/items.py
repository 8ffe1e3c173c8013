"""Items of a descriptor (Section 6.2.2.2), and descriptors written anew."""

from dataclasses import dataclass
from typing import List, Optional

from . import _c
from .errors import check


@dataclass(frozen=True)
class Item:
    """An item: how many bytes of the descriptor stand before it, and its own."""

    offset: int
    data: bytes

    @property
    def name(self) -> Optional[str]:
        """The standard's name of the item."""
        return _c.text("item_name", self.data, len(self.data)) or None

    @property
    def flag_words(self) -> Optional[str]:
        """The flags of an Input, Output or Feature, with a comma between two."""
        return _c.text("flag_words", self.data, len(self.data)) or None


def _checked(name: str, data: bytes) -> list:
    answer, found = _c.listed(name, data, len(data))
    if answer.status != 0:
        message = _c.text("items_message", data, len(data))
        check(answer.status, answer.offset, message)
    return found


def items(descriptor: bytes) -> List[Item]:
    """The items of a descriptor, short and long, in order."""
    data = bytes(descriptor)
    return [Item(it.offset, data[it.offset:it.offset + it.size])
            for it in _checked("items", data)]


def front_items(descriptor: bytes) -> List[Item]:
    """The items before the first that can't be read, or all."""
    data = bytes(descriptor)
    return [Item(it.offset, data[it.offset:it.offset + it.size])
            for it in _c.listed("front_items", data, len(data))[1]]


def rebuild(descriptor: bytes) -> bytes:
    """The items in their shortest spelling, without long and reserved ones."""
    return bytes(_checked("rebuild", bytes(descriptor)))
