#!/usr/bin/env python3
"""Sees that the prover refuses each wrong body that stands for a rule of the standard or a promise of
the library, by the clause that it breaks, and accepts its harmless twin of the same form.

    wrong_bodies.py [--spoil NAME] [CRATE ..]

Wrong bodies are the edits (edited.py) that have a line `refused: FUNCTION GOAL`: the function that the
prover has to refuse, and the goal that has to stay open there, as its line `fn FUNCTION: no proof: ..
`search` did not prove `GOAL`` calls it (a goal's name ends in the name of its clause, where a function has
several).

Edits of a crate are tried together, in as few copies of the crate as may be: each old text has to
stand just once in what the edits before it made, and no two have a function in common. In a copy just
the functions that are named may be refused by goals of their own; a caller of one has no proof for
that reason alone. The twins go together in the same way, and there every function has to be proved.
What is proved of the twins is kept for the edits. Nothing below is proved again: the libraries are
those that `rt ci` has left in crates/*/out, or in those of the tree HIDREPORT_PROVED.

--spoil NAME swaps the wrong body NAME and its twin, which has to be noticed twice. A folder that
WRONG_BODIES_LOG names gets what the prover says of each copy.
"""

import os
import re
import shutil
import subprocess
import sys
import tempfile
import time
from concurrent.futures import ThreadPoolExecutor

from edited import crates_with_edits, edits_of
from proved import TOP, words_for

# So many wrong bodies are tried.
ALL = 24


class Round:
    """Edits, or twins, that are tried together."""

    def __init__(self, crate, is_twin):
        self.crate, self.is_twin, self.edits, self.texts = crate, is_twin, [], {}

    def takes(self, edit):
        """Takes an edit, if it can be tried beside those that are here."""
        olds = {(it["file"], it["old"]) for own in self.edits for it in own.changes}
        if any((it["file"], it["old"]) in olds for it in edit.changes):
            return False
        if not self.is_twin and set(self.functions()) & set(edit.functions()):
            return False
        made = edit.apply(self.texts, self.is_twin)
        if made is None:
            return False
        self.edits.append(edit)
        self.texts = made
        return True

    def functions(self):
        return sorted({it for edit in self.edits for it in edit.functions()})


def rounds_of(crate, edits, is_twin, faults):
    rounds = []
    for edit in edits:
        if not any(it.takes(edit) for it in rounds):
            new = Round(crate, is_twin)
            if new.takes(edit):
                rounds.append(new)
            else:
                faults.append(f"{crate}/{edit.name}: not tried: an old text of it isn't there just once")
    return rounds


def check(words, one, room, kept, jobs):
    """What the prover says of a round, over what is kept in a folder."""
    for part in ("src", "specs", "proofs"):
        if os.path.isdir(f"{TOP}/crates/{one.crate}/{part}"):
            shutil.copytree(f"{TOP}/crates/{one.crate}/{part}", f"{room}/{part}")
    for file, text in one.texts.items():
        with open(f"{room}/{file}", "w", encoding="utf-8") as it:
            it.write(text)
    words = [*words, "--jobs", str(jobs), "--incremental", kept]
    for function in one.functions():
        words += ["--only", function]
    ran = subprocess.run(words, cwd=room, capture_output=True, text=True, errors="replace", check=False)
    return ran.stdout + ran.stderr


def open_goals(crate, said):
    """The goals of its own that each function leaves open; and whether each function is proved."""
    goals, proved = {}, {}
    for line in said.split("\n"):
        if match := re.match(rf"fn {crate}::(\S+): (.*)", line):
            proved[match[1]] = match[2] == "proved"
            if told := re.search(r"did not prove ((?:`[^`]*`(?:, | and )?)+)", match[2]):
                goals.setdefault(match[1], set()).update(re.findall(r"`([^`]*)`", told[1]))
        elif match := re.match(r"(?:\./)?proofs/(\S+)/\w+\.antt:\d+:\d+: error: `([^`]*)`", line):
            goals.setdefault(match[1].replace("/", "::"), set()).add(match[2])
    return goals, proved


def judge(one, said, faults):
    """Says of each edit, or twin, of a round what is wrong with the prover's answer."""
    goals, proved = open_goals(one.crate, said)
    label = "its twin" if one.is_twin else "the wrong body"
    for edit in one.edits:
        where = f"{one.crate}/{edit.name}"
        for function, goal in edit.wanted:
            if function not in proved:
                faults.append(f"{where}: {label} was not tried: nothing is said of {function}")
            elif one.is_twin and not proved[function]:
                faults.append(f"{where}: its twin is refused: {function}: {sorted(goals.get(function, []))}")
            elif not one.is_twin and goal not in goals.get(function, ()):
                told = sorted(goals.get(function, [])) or ("it is proved" if proved[function] else "no goal")
                faults.append(f"{where}: not refused by {goal} of {function}: {told}")
    for function in sorted(set(goals) - set(one.functions())):
        names = ", ".join(it.name for it in one.edits)
        faults.append(f"{one.crate}: {function} is refused, too ({names}): {sorted(goals[function])}")
    if not proved:
        faults.append(f"{one.crate}: no answer: {said.strip()[-400:]}")


def try_crate(crate, edits, scratch, faults):
    """All rounds of a crate: the first of the twins, then the others, over what that one kept."""
    rounds = rounds_of(crate, edits, True, faults) + rounds_of(crate, edits, False, faults)
    if not rounds:
        return
    words, kept = words_for(crate), f"{scratch}/{crate}.kept"
    os.mkdir(kept)

    def one_round(number):
        own = kept
        if number:
            own = f"{kept}.{number}"
            subprocess.run(["cp", "-al", kept, own], check=True)
        room = f"{scratch}/{crate}.{number}"
        os.mkdir(room)
        said = check(words, rounds[number], room, own, 1 if number else 2)
        if log := os.environ.get("WRONG_BODIES_LOG"):
            with open(f"{log}/{crate}.{number}", "w", encoding="utf-8") as it:
                it.write(f"{[it.name for it in rounds[number].edits]}\n{said}")
        judge(rounds[number], said, faults)

    one_round(0)
    if any(it.startswith(f"{crate}: no answer") for it in faults):
        return
    with ThreadPoolExecutor(2) as pool:
        list(pool.map(one_round, range(1, len(rounds))))


def main():
    begun = time.monotonic()
    words, spoilt = sys.argv[1:], None
    if words[:1] == ["--spoil"]:
        spoilt, words = words[1], words[2:]
    edits = {}
    for crate in crates_with_edits():
        if found := [edit for edit in edits_of(crate) if edit.wanted]:
            edits[crate] = found
    faults = []
    every = [it for own in edits.values() for it in own]
    if len(every) != ALL:
        faults.append(f"{len(every)} wrong bodies are there, and not {ALL}")
    for edit in every:
        if edit.fault:
            faults.append(f"{edit.where}: no edit: {edit.fault}")
        elif not edit.has_twin():
            faults.append(f"{edit.where}: it has no twin")
        if edit.name == spoilt:
            edit.swap()
    tried = {crate: own for crate, own in edits.items() if not words or crate in words}
    with tempfile.TemporaryDirectory() as scratch, ThreadPoolExecutor(2) as pool:
        list(pool.map(lambda it: try_crate(*it, scratch, faults), tried.items()))
    for fault in faults:
        print(f"wrong_bodies: {fault}")
    if faults:
        sys.exit(f"wrong_bodies: {len(faults)} faults")
    count = sum(map(len, tried.values()))
    spent = os.times().children_user + os.times().children_system
    print(f"wrong_bodies: {count} are refused, each by its clause, and their twins are proved")
    print(
        f"wrong_bodies: in {time.monotonic() - begun:.0f} s, {spent:.0f} of processor time"
    )


if __name__ == "__main__":
    main()
