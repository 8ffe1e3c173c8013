"""The library for C, by the structs and functions of its header, in the header's order."""

import ctypes
import os
from ctypes import (POINTER, Structure, byref, c_bool, c_int32, c_int64, c_size_t, c_uint8,
                    c_uint16, c_uint32)
from pathlib import Path
from typing import Any, Callable, List, Tuple

NO_LIMIT = ctypes.c_size_t(-1).value


class Options(Structure):
    _fields_ = [("limit", c_size_t), ("push", c_uint32), ("usages", c_uint32)]


class Answer(Structure):
    _fields_ = [("count", c_size_t), ("offset", c_size_t), ("status", c_uint32)]


class Usages(Structure):
    _fields_ = [("count", c_size_t), ("first", c_uint32), ("last", c_uint32), ("is_range", c_bool)]


class Measures(Structure):
    _fields_ = [("logical_minimum", c_int32), ("logical_maximum", c_int32),
                ("physical_minimum", c_int32), ("physical_maximum", c_int32),
                ("unit", c_uint32), ("unit_exponent", c_int32),
                ("has_physical_minimum", c_bool), ("has_physical_maximum", c_bool),
                ("has_unit", c_bool), ("has_unit_exponent", c_bool)]


class Collections(Structure):
    _fields_ = [("count", c_size_t), ("innermost", c_uint32)]


class Flags(Structure):
    _fields_ = [(name, c_bool) for name in (
        "is_relative", "wraps", "is_nonlinear", "has_no_preferred_state", "has_null_state",
        "is_buffered_bytes", "is_volatile")]


class Field(Structure):
    _fields_ = [("number", c_uint32), ("kind", c_uint32), ("first_bit", c_size_t),
                ("end_bit", c_size_t), ("value_count", c_size_t), ("usages", Usages),
                ("measures", Measures), ("collections", Collections), ("flags", Flags),
                ("has_report_id", c_bool), ("report_id", c_uint8)]


class Group(Structure):
    _fields_ = [("kind", c_uint32), ("first_bit", c_size_t), ("element_width", c_size_t),
                ("element_count", c_size_t), ("field_count", c_size_t), ("usage", c_uint32),
                ("measures", Measures), ("collections", Collections), ("flags", Flags),
                ("has_report_id", c_bool), ("report_id", c_uint8)]


class Report(Structure):
    _fields_ = [("size_in_bits", c_size_t), ("size_in_bytes", c_size_t), ("field_count", c_size_t),
                ("has_id", c_bool), ("id", c_uint8)]


class Collection(Structure):
    _fields_ = [("number", c_uint32), ("kind", c_uint32), ("usage_count", c_size_t),
                ("usage", c_uint32)]


class Value(Structure):
    _fields_ = [("number", c_int64), ("status", c_uint32)]


class Usage(Structure):
    _fields_ = [("usage", c_uint32), ("is_meant", c_bool)]


class Page(Structure):
    _fields_ = [("page", c_uint16), ("is_there", c_bool)]


class Choice(Structure):
    _fields_ = [("value", c_int64), ("is_there", c_bool)]


class Fraction(Structure):
    _fields_ = [("numerator", c_int64), ("denominator", c_int64), ("is_there", c_bool)]


class Likeness(Structure):
    _fields_ = [("offset", c_size_t), ("status", c_uint32), ("is_of_other", c_bool),
                ("is_alike", c_bool)]


class Item(Structure):
    _fields_ = [("offset", c_size_t), ("size", c_size_t)]


class Change(Structure):
    _fields_ = [("offset", c_size_t), ("stood", c_size_t), ("stands", c_size_t),
                ("reason", c_uint32)]


BYTES = ctypes.c_char_p
TEXT = POINTER(c_uint8)
OF = (BYTES, c_size_t, Options)
IN = OF + (c_uint32,)

# Each function's answer, its arguments, and what it lists, where it lists something.
FUNCTIONS = {
    "version": (c_uint32, (), None),
    "reports": (Answer, IN, Report),
    "describe": (Answer, IN, Field),
    "find": (Answer, IN + (BYTES, c_size_t), Field),
    "groups": (Answer, IN, Group),
    "group_usage": (Answer, IN + (c_size_t, c_size_t), c_uint32),
    "group_field": (Answer, IN + (c_size_t, c_size_t), Field),
    "report_with": (Answer, IN + (c_bool, c_uint8), Report),
    "field_numbered": (Answer, OF + (c_uint32,), Field),
    "field_for": (Answer, IN + (c_bool, c_uint8, c_uint32), Field),
    "usages": (Answer, OF + (c_uint32,), c_uint32),
    "describe_usages": (Answer, IN, c_uint32),
    "find_usages": (Answer, IN + (BYTES, c_size_t), c_uint32),
    "collections": (Answer, OF + (c_uint32,), Collection),
    "collection_usages": (Answer, OF + (c_uint32, c_size_t), c_uint32),
    "describe_collections": (Answer, OF + (c_uint32,), Collection),
    "describe_collection_usages": (Answer, OF + (c_uint32,), c_uint32),
    "is_alike": (Likeness, (BYTES, c_size_t, BYTES, c_size_t, Options), None),
    "message": (Answer, OF, c_uint8),
    "items": (Answer, (BYTES, c_size_t), Item),
    "front_items": (Answer, (BYTES, c_size_t), Item),
    "rebuild": (Answer, (BYTES, c_size_t), c_uint8),
    "items_message": (Answer, (BYTES, c_size_t), c_uint8),
    "repair": (Answer, OF + (c_uint32,), c_uint8),
    "changes": (Answer, OF + (c_uint32,), Change),
    "repair_message": (Answer, OF + (c_uint32,), c_uint8),
    "value": (Value, (POINTER(Field), BYTES, c_size_t, c_size_t), None),
    "values": (Answer, (POINTER(Field), BYTES, c_size_t), c_int64),
    "read": (Answer, (POINTER(Field), c_size_t, BYTES, c_size_t), c_int64),
    "read_available": (Answer, (POINTER(Field), c_size_t, BYTES, c_size_t), c_int64),
    "usage_of": (Usage, (POINTER(Field), c_int64, POINTER(c_uint32), c_size_t), None),
    "value_of": (Choice, (POINTER(Field), c_uint32, POINTER(c_uint32), c_size_t), None),
    "null_value": (Choice, (POINTER(Field),), None),
    "physical": (Fraction, (POINTER(Field), c_int64), None),
    "normalized": (Fraction, (POINTER(Field), c_int64), None),
    "insert": (c_uint32, (POINTER(Field), TEXT, c_size_t, c_size_t, c_int64), None),
    "insert_all": (c_uint32, (POINTER(Field), TEXT, c_size_t, POINTER(c_int64), c_size_t), None),
    "write": (c_uint32, (POINTER(Field), c_size_t, TEXT, c_size_t, POINTER(c_int64), c_size_t),
              None),
    "blank": (Answer, (POINTER(Report),), c_uint8),
    "usage_name": (Answer, (c_uint32,), c_uint8),
    "page_name": (Answer, (c_uint16,), c_uint8),
    "usage_by_name": (Usage, (BYTES, c_size_t), None),
    "usage_on_page": (Usage, (c_uint16, BYTES, c_size_t), None),
    "page_by_name": (Page, (BYTES, c_size_t), None),
    "item_name": (Answer, (BYTES, c_size_t), c_uint8),
    "flag_words": (Answer, (BYTES, c_size_t), c_uint8),
    "collection_name": (Answer, (c_uint32,), c_uint8),
}

# The version whose header this is: the numbers of HIDREPORT_VERSION, as one.
VERSION = 0x0006000a


def _paths() -> List[str]:
    """Where the library may lie: where the environment says, in this package, where `make` puts it
    in the sources, where the system looks."""
    here = Path(__file__).resolve().parent
    named = os.environ.get("HIDREPORT_LIBRARY")
    if named is not None:
        return [named]
    beside = [here / "libhidreport.so", here.parent.parent / "build" / "libhidreport.so"]
    found = [str(path) for path in beside if path.is_file()]
    return found + ["libhidreport.so.0"]


def _load() -> ctypes.CDLL:
    refusals = []
    for path in _paths():
        try:
            library = ctypes.CDLL(path)
        except OSError as error:
            refusals.append(f"{path}: {error}")
            continue
        library.hidreport_version.restype = c_uint32
        version = library.hidreport_version()
        if version == VERSION:
            return library
        refusals.append(f"{path}: version {version:#010x}, not {VERSION:#010x}")
    raise ImportError("no library of hidreport for C (`make` in its sources builds it, and "
                      "HIDREPORT_LIBRARY names it): " + "; ".join(refusals))


_library = _load()


def _declared(name: str) -> Callable[..., Any]:
    answer, arguments, listed = FUNCTIONS[name]
    function = getattr(_library, f"hidreport_{name}")
    function.restype = answer
    more = () if listed is None else (POINTER(listed), c_size_t)
    function.argtypes = list(arguments + more)
    return function


_functions = {name: _declared(name) for name in FUNCTIONS}


def call(name: str, *arguments: Any) -> Any:
    """Calls a function that lists nothing."""
    return _functions[name](*arguments)


def listed(name: str, *arguments: Any, room: int = -1) -> Tuple[Answer, Any]:
    """Calls a function that lists something: its answer, and an array of what there is, or of as
    many as there is room for."""
    function, element = _functions[name], FUNCTIONS[name][2]
    if room >= 0:
        array = (element * room)()
        answer = function(*arguments, array, room)
        return answer, array[:min(answer.count, room)]
    guess = 64
    while True:
        array = (element * guess)()
        answer = function(*arguments, array, guess)
        if answer.count <= guess:
            return answer, array[:answer.count]
        guess = answer.count


def text(name: str, *arguments: Any) -> str:
    """A text that a function writes; empty where there is none."""
    return bytes(listed(name, *arguments)[1]).decode()


def numbers(kind: Any, values: Any) -> Any:
    """An array of numbers, for a function that reads them."""
    return (kind * len(values))(*values)


def fields_of(fields: Any) -> Any:
    """An array of fields side by side."""
    return (Field * len(fields))(*fields)


def bytes_of(data: bytearray) -> Any:
    """A report's bytes, for a function that writes them in place."""
    return (c_uint8 * len(data)).from_buffer(data) if data else None

