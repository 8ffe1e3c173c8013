"""HID report descriptors read, values taken from reports and written to them (USB HID 1.11).

>>> mouse = ReportDescriptor(bytes.fromhex("0501 1581 257f 7508 9502 0930 0931 8102"))
>>> report = bytes.fromhex("05fb")
>>> for field, values in mouse.find_input_report(report).values(report):
...     print(field.usage.name, *values)
X 5
Y -5
"""

from .descriptor import Direction, Report, ReportDescriptor
from .errors import (BudgetExceeded, DoesNotFit, HidReportError, InvalidData,
                     MismatchingReportId, OutOfBounds, UnknownOption, WrongCount)
from .fields import Collection, Field, Flags, Kind
from .items import Item, front_items, items, rebuild
from .options import HOSTS, LINUX, Mends, ParseOptions, Push, UsagesBy
from .repairing import Change, Reason, repair
from .usages import Usage, page_by_name, page_name

__version__ = "0.6.0-10"

__all__ = [
    "HOSTS", "LINUX", "BudgetExceeded", "Change", "Collection", "Direction", "DoesNotFit", "Field",
    "Flags", "HidReportError", "InvalidData", "Item", "Kind", "Mends", "MismatchingReportId",
    "OutOfBounds", "ParseOptions", "Push", "Reason", "Report", "ReportDescriptor",
    "UnknownOption", "Usage", "UsagesBy", "WrongCount", "front_items", "items", "page_by_name",
    "page_name", "rebuild", "repair",
]
