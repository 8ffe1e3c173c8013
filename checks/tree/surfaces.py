#!/usr/bin/env python3
"""Sees that what a crate of `hid` offers is used: each name that its root file passes on, or that stands
`pub` in its public modules, has to stand in another crate's source.

    surfaces.py

UNNAMED has what others take without a name, with what it is; a name of it that another crate has, or that
is offered no more, is a fault, too. It sees last that a name which nobody uses would be noticed. The
library's own crates offer what programs use, and aren't looked at.
"""

import os
import re
import sys

TOP = os.path.dirname(os.path.dirname(os.path.dirname(os.path.abspath(__file__))))
UNNAMED = {("hid_objects", "AnswerObject"): "what `objects_of` answers"}
KINDS = "fn|struct|enum|static|const|type|trait"


def sources(crate):
    """The files of a crate below src/, by their paths without the ending."""
    found, folder = {}, f"{TOP}/crates/{crate}/src"
    for place, _, files in os.walk(folder):
        for file in files:
            if file.endswith(".rt"):
                path = os.path.relpath(f"{place}/{file}", folder)[:-3]
                with open(f"{place}/{file}", encoding="utf-8") as lines:
                    found[path] = lines.read()
    return found


def offered_by(texts):
    """The names that a crate offers: those of the root file, and of modules that are public up to it."""
    root = texts.get("lib", "")
    modules = set(re.findall(r"^pub mod (\w+);", root, re.M))
    for module in sorted(modules):
        inner = re.findall(r"^pub mod (\w+);", texts.get(module, ""), re.M)
        modules |= {f"{module}/{it}" for it in inner}
    names = set()
    for module in {"lib", *modules}:
        text = texts.get(module, "")
        names |= set(re.findall(rf"^pub (?:const )?(?:{KINDS}) (\w+)", text, re.M))
        for path in re.findall(r"^pub use ([^;]+);", text, re.M):
            names |= set(re.findall(r"\w+", path.partition("{")[2] or path.rsplit("::", 1)[-1]))
    return names


def unused_in(crates):
    """The names that a crate of `hid` offers and no other crate has, and how many are offered."""
    words = {crate: set(re.findall(r"\w+", " ".join(it.values()))) for crate, it in crates.items()}
    unused, count = set(), 0
    for crate, texts in crates.items():
        if not crate.startswith("hid_"):
            continue
        others = set().union(*(it for other, it in words.items() if other != crate))
        names = offered_by(texts)
        count += len(names)
        unused |= {(crate, name) for name in names - others}
    return unused, count


def main():
    crates = {it: sources(it) for it in sorted(os.listdir(f"{TOP}/crates"))}
    unused, count = unused_in(crates)
    faults = [f"{crate}: no other crate uses {name}" for crate, name in unused - set(UNNAMED)]
    faults += [f"{crate}: {name} is used, or is no more" for crate, name in set(UNNAMED) - unused]
    made = {
        "hid_made": {"lib": "pub mod a;\nmod b;\npub use b::{one, two};\n", "a": "pub fn three() {}\n"},
        "other": {"main": "one(three());"},
    }
    if unused_in(made) != ({("hid_made", "two")}, 3):
        faults.append("a name that nobody uses isn't noticed")
    for fault in sorted(faults):
        print(f"surfaces: {fault}")
    if faults:
        return 1
    print(f"surfaces: {count} names that crates of hid offer are used")
    return 0


sys.exit(main())
