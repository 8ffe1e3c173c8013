#!/usr/bin/env python3
"""Turns the program `hid` in one small way after another, and sees that a stored run tells, or a script of
checks/hid: so a careless change would be noticed, though no contract says what is printed.

    turned_hid.py [--only WORD] [--keep FOLDER] [--jobs NUMBER] [--write]

Turned is in the bodies of functions of the crates `hid_*` what turned.py turns; each condition of one term,
which then always holds, or never; and each statement that is there for what it does, which then is left
out. All stand in one program behind a switch, the number in the environment's HID_PLANT, which is built
without a proof. Which turns a run gets to is asked first: of a turn only those runs are asked that do, and
then the scripts below that do. What none of them tells stands in unturned_hid.txt, where a line says why,
`3 x` before one that stands for three: that is a fault where it isn't there, and where it is noticed after
all.

--only turns what has WORD in its line, as that stands in unturned_hid.txt: FILE: WHAT: LINE. --keep takes
the program of FOLDER where it is made of these sources, or builds it there; so many as --jobs says are
asked side by side; --write prints what isn't noticed as lines of unturned_hid.txt, each as soon as it is
known. The build takes three minutes, most ways less than a second.
"""

import argparse
import collections
import contextlib
import hashlib
import importlib.util
import os
import re
import resource
import shutil
import signal
import subprocess
import sys
import tempfile
from concurrent.futures import ThreadPoolExecutor

import plants
import turned
from sources import PAIRS, TOP, read, run, switch, text_of, write

LISTED = f"{TOP}/checks/mutations/unturned_hid.txt"
IS = "hid_planted::stands_at({})"
# The scripts that are asked behind the runs, the quickest first, where they look at a plant there. (What
# page.sh looks at isn't asked: it takes a quarter of a minute.)
SCRIPTS = {it: plants.OF_PROGRAM[it] for it in ("uhid", "devices", "rules", "names")}
# How long a run may compute with a turn, a script may take, and how much memory a run may have, in bytes.
SECONDS, SCRIPT_SECONDS, MEMORY = 10, 300, 3 << 30
# What no statement begins with that may be left out.
KEPT = {
    "let", "if", "for", "while", "match", "return", "break", "continue", "loop", "const", "static", "use",
    "fn", "ghost", "unsafe", "else", "bail", "prove",
}


class TurnedHid(turned.Turned):
    """A source of the program, and what is turned in it."""

    def find(self):
        super().find()
        for _, start, end in self.functions():
            for at in range(start + 1, end):
                self.condition(at, end)
                self.statement(at, end)

    def condition(self, at, end):
        """A condition of one term always holds, or never."""
        if self.word(at) not in ("if", "while"):
            return
        last = at + 1
        while last < end and self.word(last) not in ("{", "=>"):
            if self.word(last) in ("let", "&&", "||", "="):
                return
            last = self.behind(last) if self.word(last) in ("(", "[") else last + 1
        for kind, text in (("always", f"|| {IS}"), ("never", f"&& !{IS}")):
            number = self.turn(at, kind)
            self.around(at + 1, last - 1, -1 if kind == "always" else -2, "((", f") {text.format(number)})")

    def statement(self, at, end):
        """A statement whose value nothing takes is left out."""
        if self.word(at - 1) not in ("{", "}", ";") or self.word(at) in KEPT or at in self.patterns:
            return
        if not re.match(r"[A-Za-z_*]", self.word(at)):
            return
        last = at
        while self.word(last) != ";":
            if last >= end or self.word(last) in (",", "}", ":", "=>"):
                return
            last = self.behind(last)
        number = self.turn(at, "statement")
        self.put(self.at(at), f"if !{IS.format(number)} {{ ", (1, -9))
        self.put(self.code[last][2], " }", (0, 9))


def crates():
    """The crates of the program alone."""
    listed = plants.output_of("sh", "tools/program.sh", "crates", "hid").split()
    return [it for it in listed if re.match(r"hid(_|$)", it)]


def build(folder):
    """The program with all turns behind the switch, where it isn't there; and what is turned."""
    turned.IS = IS
    own = crates()
    edited, turns = read(f"{TOP}/crates", own, TurnedHid)
    code = plants.output_of("sh", "tools/program.sh", "code", "hid")
    wanted = hashlib.sha256((code + repr(sorted(edited.items())) + repr(switch("HID_PLANT"))).encode()).hexdigest()
    program, made = f"{folder}/hid", f"{folder}/sum"
    if os.access(program, os.X_OK) and os.path.exists(made) and text_of(made) == wanted:
        return program, turns
    os.makedirs(folder, exist_ok=True)
    tree = f"{folder}/crates_of_hid"
    shutil.rmtree(tree, ignore_errors=True)
    plants.copy_crates(tree, [])
    for file, text in read(f"{tree}/crates", own, TurnedHid)[0].items():
        write(file, text)
    plants.compile_program(folder, tree, program)
    write(made, wanted)
    return program, turns


def bounded():
    resource.setrlimit(resource.RLIMIT_CPU, (SECONDS, SECONDS))
    resource.setrlimit(resource.RLIMIT_AS, (MEMORY, MEMORY))
    resource.setrlimit(resource.RLIMIT_CORE, (0, 0))
    resource.setrlimit(resource.RLIMIT_FSIZE, (1 << 26, 1 << 26))


class Asker:
    """Asks the program that is turned in one way: the stored runs, then the scripts."""

    def __init__(self, program, scratch):
        spec = importlib.util.spec_from_file_location("runs", f"{TOP}/checks/hid/runs.py")
        self.runs = importlib.util.module_from_spec(spec)
        spec.loader.exec_module(self.runs)
        self.stored = self.runs.stored()
        self.runs.split(self.stored)
        self.program, self.scratch = program, scratch
        self.by_run, self.by_script = collections.defaultdict(list), collections.defaultdict(list)

    def goes_otherwise(self, at, number, trace=None):
        """A stored run goes otherwise."""
        own = self.stored[at]
        env = {**os.environ, "HID_PLANT": str(number)}
        if trace:
            env["HID_PLANT_TRACE"] = trace
        how = {"executable": self.program, "cwd": self.runs.DATA, "env": env, "preexec_fn": bounded}
        how.update(input=own.given.encode(), capture_output=True, check=False, timeout=4 * SECONDS)
        try:
            ran = subprocess.run([b"hid", *own.parted], **how)
        except subprocess.TimeoutExpired:
            return True
        status = ran.returncode if ran.returncode >= 0 else 128 - ran.returncode
        return self.runs.shown(ran.stdout, ran.stderr, status) != own.wanted

    def fails(self, script, number, trace=None):
        """A script doesn't pass."""
        env = {**os.environ, "LC_ALL": "C", "HID_PLANT": str(number)}
        if trace:
            env["HID_PLANT_TRACE"] = trace
        command = f"ulimit -t {SCRIPT_SECONDS}; set -o pipefail; " + SCRIPTS[script].replace("HID", self.program)
        how = {"cwd": TOP, "env": env, "stdin": subprocess.DEVNULL, "start_new_session": True}
        tool = subprocess.Popen(["bash", "-c", command], stdout=subprocess.DEVNULL, stderr=subprocess.STDOUT, **how)
        try:
            return tool.wait(SCRIPT_SECONDS) != 0
        except subprocess.TimeoutExpired:
            return True
        finally:
            with contextlib.suppress(ProcessLookupError):
                os.killpg(tool.pid, signal.SIGKILL)
            tool.wait()

    def look(self, pool):
        """Which runs and scripts get to each turn; all pass where nothing is turned."""
        def look_at(asked, own, found):
            trace = f"{self.scratch}/{own}"
            if asked(own, 0, trace):
                sys.exit(f"turned_hid: where nothing is turned {own} goes otherwise")
            numbers = set(text_of(trace).split()) if os.path.exists(trace) else ()
            for number in numbers:
                found[int(number)].append((len(numbers), own))

        list(pool.map(lambda at: look_at(self.goes_otherwise, at, self.by_run), range(len(self.stored))))
        for script in SCRIPTS:
            look_at(self.fails, script, self.by_script)

    def tell(self, number, file):
        runs = (at for _, at in sorted(self.by_run[number]))
        looking = next(it.split() for begin, it in plants.LOOK if f"crates/{file}".startswith(begin))
        scripts = (it for _, it in self.by_script[number] if it in looking)
        return any(self.goes_otherwise(at, number) for at in runs) or any(self.fails(it, number) for it in scripts)


def main():
    parser = argparse.ArgumentParser()
    parser.add_argument("--only", default="")
    parser.add_argument("--keep")
    parser.add_argument("--jobs", type=int, default=len(os.sched_getaffinity(0)))
    parser.add_argument("--write", action="store_true")
    words = parser.parse_args()
    with contextlib.ExitStack() as stack:
        scratch = stack.enter_context(tempfile.TemporaryDirectory())
        program, turns = build(os.path.abspath(words.keep or scratch))
        lines = dict(enumerate((": ".join(it) for it in turns), 1))
        chosen = [number for number, line in lines.items() if words.only in line]
        pool = stack.enter_context(ThreadPoolExecutor(words.jobs))
        asker = Asker(program, scratch)
        asker.look(pool)
        silent = collections.Counter()
        files = [turns[number - 1][0] for number in chosen]
        for number, is_told in zip(chosen, pool.map(asker.tell, chosen, files)):
            if not is_told:
                silent[lines[number]] += 1
                if words.write:
                    print(lines[number], flush=True)
    if words.write:
        return 0
    return turned.compared("turned_hid", LISTED, words.only, len(chosen), silent)


if __name__ == "__main__":
    sys.exit(main())
