"""Usages, pages and their names in the HID Usage Tables."""

from dataclasses import dataclass
from typing import Optional

from . import _c


@dataclass(frozen=True, order=True)
class Usage:
    """A usage: its page and its id."""

    page: int
    id: int

    @classmethod
    def from_number(cls, number: int) -> "Usage":
        """The usage with the page in the upper 16 bits."""
        return cls(number >> 16, number & 0xFFFF)

    @classmethod
    def by_name(cls, name: str, page: Optional[int] = None) -> Optional["Usage"]:
        """The usage that has this name, letter for letter, on a page or on the lowest that has it."""
        data = name.encode()
        if page is None:
            found = _c.call("usage_by_name", data, len(data))
        else:
            found = _c.call("usage_on_page", page, data, len(data))
        return cls.from_number(found.usage) if found.is_meant else None

    def __int__(self) -> int:
        return self.page << 16 | self.id

    @property
    def name(self) -> Optional[str]:
        """Its name in the HID Usage Tables."""
        return _c.text("usage_name", int(self)) or None

    @property
    def page_name(self) -> Optional[str]:
        """The name of its page."""
        return page_name(self.page)


def page_name(page: int) -> Optional[str]:
    """The name of a usage page; those of vendors have names by their numbers."""
    return _c.text("page_name", page) or None


def page_by_name(name: str) -> Optional[int]:
    """The usage page that has this name."""
    data = name.encode()
    found = _c.call("page_by_name", data, len(data))
    return found.page if found.is_there else None
