#!/usr/bin/env python3
"""Tries every edit that the prover must refuse (edited.py).

    edits.py [--keep FOLDER] [--jobs NUMBER] [CRATE ..]

Each crate is proved as it stands first: of one that isn't, every edit would be refused. Then its edits are
tried together, in as few copies of the crate as may be: each old text has to stand just once in what the
edits before it made, and no two change functions of one name in one file. Refused is an edit where a function
that it changes has goals of its own that stay open: that it calls another which isn't proved is no reason.
What no function that it changes refuses is tried alone, where each function of the crate counts.

Nothing below is proved again: the libraries are those that `rt ci` has left in crates/*/out, or in those of
the tree HIDREPORT_PROVED. --keep takes what FOLDER has of the crates as they stand, or leaves it there; so
many checks run side by side as --jobs says, each takes one to four GB. Its status is 0 where all are edits,
and each was refused.
"""

import argparse
import os
import re
import subprocess
import sys
import tempfile
import threading
import time

from edited import Edit, crates_with_edits, edits_of, read
from proved import TOP, words_for
from wrong_bodies import check

FUNCTION = re.compile(r"^ *(?:pub(?:\([^)]*\))? )?(?:(?:const|unsafe|extern \"C\") )*fn (\w+)", re.M)
# A proof that names what an edit took away says little of the contract.
NAMES = re.compile(r"has no field|is not in scope|has no `|was not admitted")
LIMITS = re.compile(r"antt ran out of|outgrew the memory limit|stopped at the step limit")


class Change(Edit):
    """An edit with the functions that it changes: their modules and names."""

    def __init__(self, crate, lines):
        super().__init__(crate, lines)
        self.touched = set()

    def apply(self, texts, is_twin=False):
        made = super().apply(texts, is_twin)
        for change in self.changes if made else []:
            text = texts.get(change["file"]) or read(f"{TOP}/crates/{self.crate}/{change['file']}")
            at = text.find(change["old"]) + len(change["old"])
            names = [it[1] for it in FUNCTION.finditer(text) if it.end() <= at]
            module = re.sub(r"^src/(lib$)?", "", change["file"][: -len(".rt")]).replace("/", "::")
            self.touched.add((module, names[-1] if names else ""))
        return made


class Copy:
    """A copy of a crate with edits that are tried together."""

    is_twin = False

    def __init__(self, crate):
        self.crate, self.edits, self.texts, self.touched = crate, [], {}, set()

    def takes(self, edit):
        made = edit.apply(self.texts)
        if made is None or made == self.texts or self.touched & edit.touched:
            return False
        self.edits.append(edit)
        self.texts, self.touched = made, self.touched | edit.touched
        return True

    def functions(self):
        return []


def refusals(crate, said):
    """What is open of each function that isn't proved for reasons of its own, and whether it is only names."""
    found, errors = {}, {}
    for line in said.split("\n"):
        if match := re.match(rf"fn {crate}::(\S+): (?!proved)(.*)", line):
            if "did not prove" in match[2] or "it calls" not in match[2]:
                found[match[1]] = match[2]
        elif match := re.match(r"(?:\./)?proofs/(\S+)/\w+\.antt:\d+:\d+: error: (.*)", line):
            errors.setdefault(match[1].replace("/", "::"), []).append(match[2])
    return {
        name: (told, "did not prove" not in told and all(NAMES.search(it) for it in errors.get(name, [""])))
        for name, told in found.items()
    }


def is_of(function, touched):
    """Whether a function, by its path in the crate, is one of a module with a name."""
    module, name = touched
    path = function.split("::")
    inner = path[len(module.split("::")) :] if module else path
    return function.startswith(f"{module}::" if module else "") and path[-1] == name and len(inner) <= 2


class Trial:
    """All edits of a crate."""

    def __init__(self, crate, keep, scratch, lanes):
        self.crate, self.scratch, self.lanes = crate, scratch, lanes
        self.kept = f"{keep}/{crate}"
        self.refused, self.told, self.count = 0, [], 0
        self.words = words_for(crate)

    def tell(self, edit, what):
        self.told.append(f"{edit}: {what}")

    def gather(self):
        """The edits of the crate."""
        edits = edits_of(self.crate, Change)
        self.count = len(edits)
        for edit in edits:
            if edit.fault:
                self.tell(edit.where, f"BAD EDIT: {edit.fault}")
        return [edit for edit in edits if not edit.fault]

    def ask(self, one, name, kept, jobs):
        with self.lanes, tempfile.TemporaryDirectory(dir=self.scratch, prefix=f"{name}-") as room:
            return check(self.words, one, room, kept, jobs)

    def answer(self, one, number):
        """What the prover says of a copy, over what is kept of the crate as it stands."""
        own = f"{self.scratch}/{self.crate}.{number}"
        subprocess.run(["cp", "-al", self.kept, own], check=True)
        said = self.ask(one, f"{self.crate}-{number}", own, 1)
        subprocess.run(["rm", "-rf", own], check=True)
        return said

    def try_together(self, one, number):
        """Tries a copy; gives the edits that no function which they change refused."""
        said = self.answer(one, number)
        open_ones = refusals(self.crate, said) if "\nlogic=not-proved" in said else {}
        left = []
        for edit in one.edits:
            of_it = [why for name, why in open_ones.items() if any(is_of(name, it) for it in edit.touched)]
            if any(not only_names and "could not tell" not in told for told, only_names in of_it):
                self.refused += 1
            else:
                left.append(edit)
        return left

    def try_alone(self, edit, number):
        one = Copy(self.crate)
        if not one.takes(edit):
            self.tell(edit.where, "BAD EDIT: an old text of it isn't there just once, or it changes nothing")
            return
        said = self.answer(one, number)
        last = said.rstrip("\n").rpartition("\n")[2]
        if last.startswith("logic=not-proved"):
            self.refused += 1
            own = refusals(self.crate, said).values()
            if all(only_names for _, only_names in own):
                print(f"    {edit.where}: refused only since a proof names what the edit took away", flush=True)
        elif last.startswith("logic=proved"):
            self.tell(edit.where, "NOT REFUSED: the crate is still proved")
        elif "rattle: no verdict" in said and LIMITS.search(said):
            self.refused += 1
            print(f"    {edit.where}: refused only by a limit of the prover", flush=True)
        else:
            self.tell(edit.where, f"BAD EDIT: it did not reach the prover: {said.strip()[:300]}")

    def run(self):
        edits = self.gather()
        os.makedirs(self.kept, exist_ok=True)
        begun = time.monotonic()
        said = self.ask(Copy(self.crate), self.crate, self.kept, 1)
        if not re.search(r"^logic=proved", said, re.M):
            self.tell(self.crate, f"not proved as it stands: {said.strip()[-300:]}")
            return
        print(f"{self.crate}: proved as it stands ({time.monotonic() - begun:.0f} s)", flush=True)
        copies, left = [], []
        for edit in edits:
            if not any(it.takes(edit) for it in copies):
                new = Copy(self.crate)
                copies.append(new) if new.takes(edit) else left.append(edit)
        threads = [
            threading.Thread(target=lambda it=it: left.extend(self.try_together(*it)))
            for it in zip(copies, range(len(copies)))
        ]
        together(threads)
        together([
            threading.Thread(target=self.try_alone, args=(edit, f"alone-{number}"))
            for number, edit in enumerate(left)
        ])
        print(
            f"{self.crate}: {self.refused} of {self.count} edits refused, in {len(copies)} copies and"
            f" {len(left)} alone",
            flush=True,
        )


def together(threads):
    for it in threads:
        it.start()
    for it in threads:
        it.join()


def size_of(folder):
    return sum(os.path.getsize(f"{here}/{it}") for here, _, files in os.walk(folder) for it in files)


def side_by_side():
    """So many checks as there are processors, each with four GB."""
    with open("/proc/meminfo", encoding="utf-8") as lines:
        free = int(re.search(r"MemAvailable: +(\d+)", lines.read())[1])
    return max(1, min(os.cpu_count(), free // 4_000_000))


def main():
    begun = time.monotonic()
    asked = argparse.ArgumentParser(usage=__doc__)
    asked.add_argument("--keep")
    asked.add_argument("--jobs", type=int, default=side_by_side())
    asked.add_argument("crates", nargs="*")
    asked = asked.parse_args()
    with_edits = crates_with_edits()
    for crate in asked.crates:
        if crate not in with_edits:
            sys.exit(f"edits: no crate `{crate}` has edits")
    size = {it: size_of(f"{TOP}/crates/{it}/proofs") for it in asked.crates or with_edits}
    with tempfile.TemporaryDirectory() as scratch:
        lanes = threading.Semaphore(asked.jobs)
        trials = [
            Trial(crate, asked.keep or f"{scratch}/kept", scratch, lanes)
            for crate in sorted(size, key=size.get, reverse=True)
        ]
        together([threading.Thread(target=it.run) for it in trials])
    told = [line for it in trials for line in it.told]
    for line in told:
        print(f"    {line}")
    spent = os.times().children_user + os.times().children_system
    print(
        f"edits: {sum(it.refused for it in trials)} refused, {len(told)} not"
        f" ({time.monotonic() - begun:.0f} s, {spent:.0f} of processor time)"
    )
    sys.exit(1 if told else 0)


if __name__ == "__main__":
    main()
