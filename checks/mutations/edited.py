"""Edits that the prover must refuse, as the files edits/CRATE.txt have them: a line for each part, an empty
line between two.

    name: what is wrong, in words with _ between        turned: the function, its clause, what is turned
    refused: FUNCTION GOAL, of a wrong body: the function that is refused, and the goal that stays open there
    file: where, from the crate's folder        old: what stands there just once        new: what is put there
    twin: behind `new:`, what the harmless twin has there, if another than the old text

Several pairs of `old:` and `new:` may follow a line `file:`, and several of these each other. Lines of one
kind behind each other are the lines of one text.

    python3 edited.py       says what is wrong with the edits, as files that lack an old text
"""

import os
import re
import sys

from proved import TOP

FOLDER = f"{TOP}/checks/mutations/edits"


def read(path):
    with open(path, encoding="utf-8") as it:
        return it.read()


class Edit:
    """An edit, which may be a wrong body with its twin."""

    def __init__(self, crate, lines):
        self.crate, self.name, self.wanted, self.changes = crate, "", [], []
        self.fault = self.fault_of(lines)
        self.where = f"{crate}/{self.name}"

    def fault_of(self, lines):
        """Reads the lines; says why they are no edit, if they are none."""
        file = turned = last = None
        for line in lines:
            word, _, text = line.partition(":")
            text = text.removeprefix(" ")
            if word == last and word in ("old", "new", "twin"):
                self.changes[-1][word] += "\n" + text
            elif word == "name" and not self.name and re.fullmatch(r"[A-Za-z0-9_]+", text):
                self.name = text
            elif word == "turned" and text and not turned:
                turned = text
            elif word == "refused" and len(text.split()) == 2:
                self.wanted.append(tuple(text.split()))
            elif word == "file" and re.fullmatch(r"src/[a-z0-9_/]+\.rt", text):
                file = text
                if not os.path.isfile(f"{TOP}/crates/{self.crate}/{file}"):
                    return f"there is no {file}"
            elif word == "old" and text and file and last != "old":
                self.changes.append({"file": file, "old": text})
            elif word == "new" and last == "old" or word == "twin" and last == "new":
                self.changes[-1][word] = text
            else:
                return f"it has the line `{line}`"
            last = word
        if not self.name or not turned:
            return "it has no name, or doesn't say what is turned"
        if not self.changes or any(it.get("new", it["old"]) == it["old"] for it in self.changes):
            return "it has no new text for an old one"
        return None

    def functions(self):
        return [function for function, _ in self.wanted]

    def swap(self):
        for it in self.changes:
            it["new"], it["twin"] = it.get("twin", it["old"]), it["new"]

    def has_twin(self):
        return any(it["new"] != it.get("twin", it["new"]) for it in self.changes)

    def apply(self, texts, is_twin=False):
        """The texts of the crate's files with this edit; none where an old text isn't there once."""
        made = dict(texts)
        for it in self.changes:
            file = it["file"]
            if file not in made:
                made[file] = read(f"{TOP}/crates/{self.crate}/{file}")
            if made[file].count(it["old"]) != 1:
                return None
            made[file] = made[file].replace(it["old"], it.get("twin", it["new"]) if is_twin else it["new"])
        return made


def crates_with_edits():
    return [name[: -len(".txt")] for name in sorted(os.listdir(FOLDER))]


def edits_of(crate, kind=Edit):
    """All edits of a crate, also what isn't one."""
    found, names = [], set()
    for block in read(f"{FOLDER}/{crate}.txt").strip("\n").split("\n\n"):
        if lines := [line for line in block.split("\n") if not line.startswith("#")]:
            edit = kind(crate, lines)
            if edit.name in names:
                edit.fault = edit.fault or "another has its name"
            names.add(edit.name)
            found.append(edit)
    return found


def main():
    faults = 0
    for crate in crates_with_edits():
        for edit in edits_of(crate):
            fault = edit.fault
            if not fault and edit.apply({}) is None:
                fault = "an old text of it isn't there just once"
            if fault:
                faults += 1
                print(f"edited: {edit.where}: {fault}")
    sys.exit(1 if faults else 0)


if __name__ == "__main__":
    main()
