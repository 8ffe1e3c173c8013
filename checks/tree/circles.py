#!/usr/bin/env python3
"""Sees that the modules of each crate stand above each other: none uses a module that uses it.

    circles.py

A module uses those that its `use crate::` lines name. PAIRS has the two modules of one thing that may
use each other, with what they are; one that is no circle any more is a fault, too. It sees last that a
circle which is made would be noticed, in a pair and through three modules.
"""

import os
import re
import sys

TOP = os.path.dirname(os.path.dirname(os.path.dirname(os.path.abspath(__file__))))
PAIRS = {
    ("hidreport", "descriptor", "outline"): "a descriptor in fields and in groups",
    ("hidreport_linux", "axis", "resolution"): "an axis and how fine it is",
    ("hidreport_linux", "code_rows", "code_table"): "a table and its rows",
    ("hidreport_usages", "type_table", "usage_type"): "a table and its rows",
    ("hid_forms", "byte_words", "hex_text"): "the words of a line and the line",
    ("hid_page", "left_out", "sheet"): "a sheet and what it leaves out",
}


def paths_of(text):
    """The paths of a `use` of this text, in which braces stand for several."""
    front, brace, rest = text.partition("{")
    if not brace:
        return [text]
    paths, depth, path = [], 0, ""
    for letter in rest[: rest.rindex("}")]:
        depth += {"{": 1, "}": -1}.get(letter, 0)
        if letter == "," and depth == 0:
            paths, path = paths + paths_of(front + path), ""
        else:
            path += letter
    return paths + paths_of(front + path) if path else paths


def uses_of(modules, own, text):
    """The modules that a module's text uses."""
    used = set()
    for line in re.findall(r"^\s*(?:pub(?:\(\w+\))? )?use crate::([^;]*);", text, re.M):
        for path in paths_of(re.sub(r"\s", "", line)):
            words = path.split("::")
            named = ["::".join(words[:n]) for n in range(len(words), 0, -1)]
            used.update([it for it in named if it in modules][:1])
    return used - {own}


def crate_uses(crate):
    """What each module of a crate uses; the root file, which names all, is left out."""
    texts, folder = {}, f"{TOP}/crates/{crate}/src"
    for place, _, files in os.walk(folder):
        for file in files:
            module = os.path.relpath(f"{place}/{file}", folder)[:-3].replace("/", "::")
            if file.endswith(".rt") and module not in ("lib", "main"):
                with open(f"{place}/{file}", encoding="utf-8") as lines:
                    texts[module] = lines.read()
    return {module: uses_of(texts, module, text) for module, text in texts.items()}


def reached(uses, start):
    """The modules that a module uses, or those that it uses, and so on."""
    found, next_ones = set(), set(uses.get(start, ()))
    while next_ones:
        found |= next_ones
        next_ones = {it for one in next_ones for it in uses.get(one, ())} - found
    return found


def circles_in(crate, uses):
    """The pairs of modules that reach each other."""
    all_reached = {module: reached(uses, module) for module in uses}
    return {
        (crate, one, other)
        for one, others in all_reached.items()
        for other in others
        if one < other and one in all_reached.get(other, ())
    }


def main():
    crates = sorted(os.listdir(f"{TOP}/crates"))
    modules, circles = 0, set()
    for crate in crates:
        uses = crate_uses(crate)
        modules += len(uses)
        circles |= circles_in(crate, uses)
    faults = [f"{crate}: {one} and {other} use each other" for crate, one, other in circles - set(PAIRS)]
    faults += [f"{crate}: {one} and {other} are no circle" for crate, one, other in set(PAIRS) - circles]
    made = circles_in("made", {"a": {"b"}, "b": {"a"}, "c": {"d"}, "d": {"e"}, "e": {"c"}, "f": {"a"}})
    if len(made) != 4:
        faults.append("a circle that is made isn't noticed")
    if paths_of("a::{b,c::{d,e},f}") != ["a::b", "a::c::d", "a::c::e", "a::f"]:
        faults.append("the paths of a `use` aren't read")
    for fault in sorted(faults):
        print(f"circles: {fault}")
    if faults:
        return 1
    print(f"circles: {modules} modules stand above each other, but for {len(PAIRS)} pairs")
    return 0


sys.exit(main())
