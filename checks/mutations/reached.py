#!/usr/bin/env python3
"""Counts the branches of the library's code, which mirrors its definitions, that nothing reaches.

    reached.py mark TREE KEPT    marks the branches in TREE, a copy with the crates of tests/
    reached.py judge KEPT        says what of them was reached by what has run since
    reached.py                   the same in a copy of its own, with `hid` and hidreport_linux
    reached.py --spoil KEPT      judges spoilt marks and lists, each of which has to be noticed

Each branch begins with a call that marks it in the file KEPT: a function's body, both ways of an `if` and of
a `let .. else`, each arm of a `match`, the body of a loop; not `?`, `&&` and `||`, no arm that is
`unreachable!()`, which is proved, and no function without a body. A branch that nothing reaches is a fault,
unless it stands in unreached.txt, where a line says why; so is a line there of a branch that is reached or
isn't there.

`checks/library/tests.sh` marks the programs that it builds, so in the gate all cases and tests are what
reaches. Alone this takes six minutes, for it builds `hid`, too, which makes its stored runs and reads what
Linux's hid-core and hid-input were asked.
"""

import collections
import os
import sys
import tempfile

from sources import CRATES, TOP, Source, bytes_of, listed, make_tree, put_into, read, run, text_of, write

LISTED = f"{TOP}/checks/mutations/unreached.txt"
# Those whose branches are reached through `hid`, too.
ALL = [*CRATES, "hidreport_linux"]
MARK = "reached::reached({});"

RUST = """//! Which branches are reached.
#![tactic(auto)]

unsafe extern "C" {
    safe fn mark_reached(number: u32);
}

/// Marks a branch as reached.
pub fn reached(number: u32) {
    mark_reached(number);
}
"""
C = """#include <fcntl.h>
#include <stdlib.h>
#include <sys/file.h>
#include <unistd.h>

void mark_reached(unsigned number);

static unsigned char marks[MOST], before[MOST];

/* What was reached is put to what other runs have reached. */
static void keep(void)
{
    int file = open(KEPT, O_RDWR);
    if (file < 0 || flock(file, LOCK_EX) != 0)
        return;
    ssize_t size = pread(file, before, MOST, 0);
    for (ssize_t number = 0; number < size; number++)
        marks[number] |= before[number];
    if (pwrite(file, marks, MOST, 0) != MOST)
        abort();
    close(file);
}

void mark_reached(unsigned number)
{
    static int is_kept;
    if (!is_kept && atexit(keep) == 0)
        is_kept = 1;
    marks[number] = 1;
}
"""

class Marked(Source):
    """A source whose branches get marks."""

    def find(self):
        for fn, start, end in self.functions():
            if end > start + 1:
                self.mark(self.at(start) + 1, "fn", self.at(fn))
                self.block(start + 1, end)

    def mark(self, place, kind, line_of, before="", behind=""):
        """Puts a mark at a place, and counts the branch of the line where `line_of` stands."""
        number = self.first + len(self.found)
        self.found.append((self.file, kind, self.line_at(line_of)))
        self.put(place, before + MARK.format(number) + behind)

    def block(self, n, end):
        """Marks the branches between two places of a body."""
        while n < end:
            word = self.word(n)
            if word == "if":
                n = self.branch_if(n)
                continue
            if word in ("while", "for", "loop") and self.word(n + 1) != "<":
                start = self.brace_behind(n + 1)
                self.block(n + 1, start)
                self.mark(self.at(start) + 1, word, self.at(n))
                self.block(start + 1, self.close[start])
                n = self.close[start] + 1
                continue
            if word == "match":
                n = self.branch_match(n)
                continue
            if word == "else" and self.word(n + 1) == "{":
                # Behind `let`: an `if` has taken its own.
                self.mark(self.at(n + 1) + 1, "let-else", self.at(n))
                self.block(n + 2, self.close[n + 1])
                n = self.close[n + 1] + 1
                if self.word(n) == ";":
                    self.mark(self.at(n) + 1, "let", self.at(n))
                continue
            n += 1

    def branch_if(self, n):
        line_of = self.at(n)
        start = self.brace_behind(n + 1)
        self.block(n + 1, start)
        end = self.close[start]
        self.mark(self.at(start) + 1, "if", line_of)
        self.block(start + 1, end)
        if self.word(end + 1) != "else":
            self.mark(self.at(end) + 1, "if-not", line_of, before=" else { ", behind=" }")
            return end + 1
        if self.word(end + 2) == "if":
            return self.branch_if(end + 2)
        start, end = end + 2, self.close[end + 2]
        self.mark(self.at(start) + 1, "else", line_of)
        self.block(start + 1, end)
        return end + 1

    def branch_match(self, n):
        start = self.brace_behind(n + 1)
        self.block(n + 1, start)
        for pattern, arrow, end in self.arms(start):
            body = arrow + 1
            if self.word(body) == "{":
                self.mark(self.at(body) + 1, "=>", self.at(pattern))
                self.block(body, end)
            elif self.word(body) != "unreachable":
                self.mark(self.at(body), "=>", self.at(pattern), before="{ ", behind=" ")
                self.block(body, end)
                self.put(self.code[end - 1][2], " }")
        return self.close[start] + 1


def mark(tree, kept):
    """Marks the branches in a tree, and begins the file in which they are noted."""
    marked, branches = read(f"{tree}/crates", ALL, Marked)
    own = C.replace("MOST", str(len(branches))).replace("KEPT", f'"{os.path.abspath(kept)}"')
    put_into(tree, marked, ALL, "reached", RUST, own)
    write(kept, "\0" * len(branches))
    # rt runs programs as nobody where it is root.
    os.chmod(kept, 0o666)


def judge(marks, branches, own, counted):
    """What is wrong with the marks, and how many branches are counted and how many not reached."""
    if len(marks) != len(branches):
        return ["the marks aren't of these sources"], 0, 0
    counts = [it[0].split("/")[0] in counted for it in branches]
    missed = [it for it, mark, is_own in zip(branches, marks, counts) if is_own and mark == 0]
    missed = collections.Counter(f"{file}: {line}" for file, _, line in missed)
    own = collections.Counter({it: n for it, n in own.items() if it.split("/")[0] in counted})
    faults = [f"nothing reaches {it}" for it in (missed - own).elements()]
    faults += [f"unreached.txt has what is reached or isn't there: {it}" for it in (own - missed).elements()]
    return faults, sum(counts), missed.total()


def tell(kept, counted):
    """Says what was reached; the status."""
    own, faults = listed(LISTED)
    marks = bytes_of(kept)
    others, count, missed = judge(marks, read(f"{TOP}/crates", ALL, Marked)[1], own, counted)
    for fault in faults + others:
        print(f"reached: {fault}")
    if faults or others:
        return f"reached: {len(faults + others)} faults"
    print(f"reached: {count - missed} of {count} branches of {len(counted)} crates, {missed} are listed with a reason")
    return 0


def spoil(kept, counted):
    """Marks, lists and sources that are spoilt have to be noticed."""
    own, _ = listed(LISTED)
    branches = read(f"{TOP}/crates", ALL, Marked)[1]
    marks = bytes_of(kept)
    reached = next(n for n, it in enumerate(marks) if it)
    without = {it: n for it, n in own.items() if it != next(iter(own))}
    spoilt = {
        "a branch that isn't reached": (marks[:reached] + b"\0" + marks[reached + 1 :], branches, own),
        "a reason less": (marks, branches, collections.Counter(without)),
        "a reason too many": (marks, branches, own + collections.Counter(["hidreport/src/lib.rt: fn none()"])),
        "all branches reached": (b"\1" * len(marks), branches, own),
        "marks of other sources": (marks[1:], branches, own),
    }
    for name, case in spoilt.items():
        if not judge(*case, counted)[0]:
            return f"reached: not noticed: {name}"
    print(f"reached: {len(spoilt)} spoilt ones are noticed")
    return 0


def build(folder, tree, crate):
    """The program of a crate in the tree, without a proof."""
    program = f"{folder}/{crate}"
    done = run(["bash", "checks/common/unproved.sh", crate, program, tree])
    if done.returncode:
        sys.exit(f"reached: {crate} is not built: {text_of(f'{program}.said')[-2000:]}")
    return program


def ask_all(folder, tree):
    """Has the programs answer what there is; their answers are compared elsewhere, here the marks count."""
    cases = build(folder, tree, "hidreport_cases")
    data = f"{TOP}/tests/hidreport_cases"
    run([cases, *text_of(f"{data}/args").split()], f"{data}/data")
    run(["bash", "checks/common/unproved.sh", "--kit", f"{folder}/kit"])
    run([f"{folder}/kit/bin/rt", "try", "--test", "--seconds", "300"], f"{tree}/crates/hidreport_tests")
    hid = build(folder, tree, "hid")
    for script in ("checks/hid/runs.py", "checks/hid/as_linux.py", "compare/linux_events.py"):
        run(["python3", script, hid])


def main(words):
    os.environ["RT_ALLOW_C"] = "1"
    if words[:1] == ["mark"] and len(words) == 3:
        return mark(*words[1:])
    if words[:1] == ["judge"] and len(words) == 2:
        return tell(words[1], CRATES)
    if words[:1] == ["--spoil"] and len(words) == 2:
        return spoil(words[1], CRATES)
    if words:
        return __doc__
    with tempfile.TemporaryDirectory() as folder:
        os.chmod(folder, 0o755)
        tree, kept = f"{folder}/tree", f"{folder}/marks"
        make_tree(tree)
        mark(tree, kept)
        ask_all(folder, tree)
        return tell(kept, ALL)


if __name__ == "__main__":
    sys.exit(main(sys.argv[1:]))
