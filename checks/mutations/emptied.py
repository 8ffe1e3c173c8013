#!/usr/bin/env python3
"""Sees that no law can be emptied unseen: each part of each law that a public clause cites is emptied,
and a row of hidreport_definitions that begins with the law has to be refused then.

    emptied.py [--false | --spoil part | row | proof | watch]

Laws and parts are read from the specifications (laws.py), rows from the crate (rows.py): no list says
which they are, so a law without a row is noticed. In a copy the law and the laws that say it are
written anew, once as they are and once for each part, with that part empty (trials.py); each row that
has one of them for a premise is a lemma there, with its own proof. Over the laws as they are it has to
be proved, over an emptied one some of these have to be refused. A row that has the law behind its last
arrow doesn't count: an emptied one makes it no less true. Nothing below is proved again: the libraries
are those that `rt ci` has left in crates/*/out, or in those of the tree HIDREPORT_PROVED.

--false also lets it be searched, in eight minutes, whether a row is false then, which is more than that
its proof is refused. --spoil leaves a part as it is, takes the rows of a law away, spoils the proofs of
a law's rows, or takes away what must be refused in each file: each has to be noticed. A file that
EMPTIED_LOG names gets what the prover says.
"""

import os
import re
import subprocess
import sys
import tempfile
import time

from laws import Laws
from proved import TOP, crates_below, libraries, words_for
from rows import functions_of
from trials import Copy, Trial

CRATE = "hidreport_definitions"
# What no one can prove: each file of lemmas has it, so that one which isn't looked at is noticed.
WATCHED = "watched : ◌≡◌ {A = ℕ} 0 1\nwatched = refl\n"
# The law that is spoilt.
SPOILT = "IsScale"


def asked(command, folder):
    """What the prover says of the copy."""
    ran = subprocess.run(
        command, cwd=folder, capture_output=True, text=True, errors="replace", check=False
    )
    if log := os.environ.get("EMPTIED_LOG"):
        with open(log, "w", encoding="utf-8") as it:
            it.write(ran.stdout + ran.stderr)
    return ran.stdout + ran.stderr


def refusals(said):
    """Of each file the lemmas that are refused, and those that hang on one; and the files of laws that
    can't be read."""
    found, unread = {}, set()
    for line in said.split("\n"):
        match = re.match(r"(?:\./)?(specs|proofs)/(\w+)\.antt:\d+:\d+: error: (.*)", line)
        if not match:
            continue
        if match[1] == "specs":
            unread.add(match[2])
        lemmas = found.setdefault(match[2], set())
        if named := re.match(r"`([\w-]+)`: ", match[3]):
            lemmas.add(named[1])
        if hanging := re.search(r"was not checked: (.*)$|were not checked: (.*)$", match[3]):
            lemmas.update(re.findall(r"[\w-]+", hanging[1] or hanging[2]))
    return found, unread


class Judge:
    """What the answers say of the laws."""

    def __init__(self, said):
        self.refused, self.unread = refusals(said)
        self.faults, self.parts, self.false = [], 0, 0

    def proved(self, trial, lemma):
        """The rows of which a lemma is proved."""
        found = set()
        for function, (file, rows) in trial.asked.items():
            refused = self.refused.get(file, set())
            found |= {(function, n) for n in range(len(rows)) if f"{lemma}-{n}" not in refused}
        return found

    def look(self, trial):
        """Each file of lemmas, and each of laws, was looked at."""
        for file, _ in trial.asked.values():
            if "watched" not in self.refused.get(file, ()):
                self.faults.append(f"{trial.law}: {file} was not looked at")
        if any(file.startswith(trial.mark + "_") for file in self.unread):
            self.faults.append(f"{trial.law}: what was made of it can't be read")

    def judge(self, law, whole, trials):
        self.look(whole)
        if not whole.asked:
            self.faults.append(f"{law}: no row begins with it")
            return
        proved = self.proved(whole, "row")
        if not proved:
            self.faults.append(f"{law}: none of its rows is proved of a copy of it")
        for trial in trials:
            self.look(trial)
            self.parts += 1
            refused = proved - self.proved(trial, "row")
            self.false += bool(refused & self.proved(trial, "false"))
            if not refused:
                name, text = trial.part[0], law.said(trial.part)
                self.faults.append(f"{law}: no row is refused where `{name}` doesn't say `{text}`")


def spoil(word, trials, functions):
    """Spoils one of what has to be noticed."""
    for trial in trials:
        if trial.law.name == SPOILT and word == "part" and trial.part:
            trial.is_spoilt = True
            return
    for function in functions:
        of_the_law = [row for row in function.rows if SPOILT in row.premises]
        for row in of_the_law:
            if word == "row":
                function.rows.remove(row)
            elif word == "proof":
                row.below, row.term = "", "tt"


def behind_rows(word):
    """What each file of lemmas has behind its rows."""

    def text(trial, rows):
        found = "" if word == "watch" else WATCHED
        if word == "--false" and trial.part:
            for number, row in enumerate(rows):
                found += f"\nfalse-{number} : ({row.text}) → ⊥\nfalse-{number} = search rules\n"
        return found

    return text


def main():
    begun = time.monotonic()
    word = sys.argv[-1] if sys.argv[1:] else None
    own = libraries()
    laws = Laws(TOP, [it for it in crates_below(CRATE) if it in own])
    functions = functions_of(f"{TOP}/crates/{CRATE}")
    trials = {}
    for law in sorted(laws.cited(), key=repr):
        for part in [None, *law.parts]:
            tried = trials.setdefault(law, [])
            tried.append(Trial(f"L{len(trials)}P{len(tried)}", laws, law, part))
    every = [trial for tried in trials.values() for trial in tried]
    if sys.argv[1:2] == ["--spoil"]:
        spoil(word, every, functions)
    with tempfile.TemporaryDirectory() as scratch:
        copy = Copy(f"{TOP}/crates/{CRATE}", scratch)
        for trial in every:
            trial.write_laws(copy)
            trial.write_rows(copy, functions, behind_rows(word))
        copy.close()
        jobs = ["--jobs", os.environ.get("JOBS", "2")]
        judge = Judge(asked([*words_for(CRATE, names_all=True), *jobs], scratch))
    for law, (whole, *parts) in trials.items():
        judge.judge(law, whole, parts)
    for fault in judge.faults:
        print(f"emptied: {fault}")
    if judge.faults:
        sys.exit(f"emptied: {len(judge.faults)} faults")
    spent = os.times().children_user + os.times().children_system
    print(f"emptied: {judge.parts} parts of {len(trials)} laws, each seen by a row once it is empty")
    if word == "--false":
        print(f"emptied: of {judge.false} of them it's proved that a row is false then")
    print(f"emptied: in {time.monotonic() - begun:.0f} s, {spent:.0f} of processor time")


if __name__ == "__main__":
    main()
