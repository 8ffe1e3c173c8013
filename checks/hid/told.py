#!/usr/bin/env python3
"""Each text that `hid` can print stands in a stored run, or is asked for by a script.

    told.py: reads the texts in the sources of hid's crates, and looks for each part between what is
    filled in in the stored runs of crates/hid/data and in the scripts beside this one. What is read and
    never printed, and what no run can reach, stands in told.txt, each for a reason; a row of it that is
    seen after all, or that no source has, is a fault.

That a text without a run and a row without a text are noticed is tried each time.
"""

import pathlib
import re
import sys

HERE = pathlib.Path(__file__).resolve().parent
TOP = HERE.parent.parent
LITERAL = re.compile(r"'(?:[^'\\]|\\.)'|\"((?:[^\"\\]|\\.)*)\"", re.S)
ESCAPES = {"\\n": "\n", '\\"': '"', "\\\\": "\\", "\\'": "'", "\\t": "\t"}
LEAST_LETTERS = 4
PROGRAMS = ("c.rt", "javascript.rt", "python.rt", "rust.rt")
LINUX_WORDS = ("driver.rt", "linux_device.rt", "reasons.rt", "unmapped.rt")


def plain(text):
    """A text with one space for each gap."""
    return re.sub(r"\s+", " ", text)


def parts_of(literal, hole):
    """The parts of a literal that are printed as they stand, between its holes."""
    text = re.sub(r"\\\n\s*", "", literal)
    text = re.sub(r"\\u\{[0-9a-f]+\}", lambda found: chr(int(found[0][3:-1], 16)), text)
    text = re.sub(r"\\.", lambda found: ESCAPES.get(found[0], found[0]), text)
    text = text.replace("{{", "\x01").replace("}}", "\x02")
    for part in re.split(hole, text):
        part = plain(part.replace("\x01", "{").replace("\x02", "}")).strip()
        if len(re.findall("[A-Za-z]", part)) >= LEAST_LETTERS:
            yield part


def texts_in(source, is_program):
    """The parts of all texts of a source, but those of remarks and attributes; those of programs that
    `hid struct` writes have such lines, and words behind `$` for holes."""
    hole = r"\{[^}]*\}"
    if is_program:
        hole = r"\$[A-Za-z]+"
    else:
        source = re.sub(r"^\s*(//|#\[).*$", "", source, flags=re.M)
    for found in LITERAL.finditer(source):
        if found[1] is not None:
            yield from parts_of(found[1], hole)


def is_of_programs(path):
    """Whether a source has the texts of programs that `hid struct` writes."""
    return "hid_struct" in path.parts and path.name in PROGRAMS


def sources():
    """The sources of hid's crates, but the tables of macros and the page's own texts, and what the library
    says of Linux in words."""
    for path in sorted(TOP.glob("crates/hid*/src/**/*.rt")):
        crate = path.relative_to(TOP / "crates").parts[0]
        if crate == "hidreport_linux" and path.name in LINUX_WORDS:
            yield path
        elif not crate.startswith("hidreport") and crate != "hid_macros" and path.name != "shell.rt":
            yield path


def stored():
    """All that the stored runs print, and what the scripts here ask for."""
    lines = []
    for path in sorted(TOP.glob("crates/hid/data/*.txt")):
        for line in path.read_text(errors="replace").splitlines():
            if line[:1] in ("|", "!"):
                lines.append(line[2:])
    for path in sorted(HERE.iterdir()):
        if path.suffix in (".sh", ".py") and path.name != "told.py":
            lines.append(path.read_text())
    return plain("\n".join(lines))


def rows_of(text):
    """The rows of told.txt."""
    return {line for line in text.splitlines() if line and not line.startswith("#")}


def faults(texts, told, rows):
    """What is wrong: texts without a run, rows that are told, rows without a text."""
    found = []
    for path, text in texts:
        if text not in told and text not in rows:
            found.append(f"{path}: no run prints: {text}")
    known = {text for _path, text in texts}
    for row in sorted(rows):
        if row not in known:
            found.append(f"told.txt: no source has: {row}")
        elif row in told:
            found.append(f"told.txt: is printed after all: {row}")
    return found


def check_noticed():
    texts = [("a", "one text"), ("b", "another")]
    tried = [
        (texts, "one text", set()),
        (texts, "one text another", {"nothing has it"}),
        (texts, "one text another", {"another"}),
    ]
    if faults(texts, "one text", {"another"}) or not all(faults(*each) for each in tried):
        sys.exit("told: what is spoilt is not noticed")


def main():
    check_noticed()
    texts = [
        (str(path.relative_to(TOP)), text)
        for path in sources()
        for text in texts_in(path.read_text(), is_of_programs(path))
    ]
    rows = rows_of((HERE / "told.txt").read_text())
    found = faults(texts, stored(), rows)
    for fault in found:
        print(fault)
    print(f"told: {len(texts)} parts of texts, {len(rows)} of them in no run")
    sys.exit(1 if found or not texts else 0)


main()
