#!/usr/bin/env python3
"""Turns the library's code, which mirrors its definitions, in one small way after another, and sees that a
case or a test tells: so a definition that is wrong together with its code would be noticed, too.

    turned.py [--only WORD] [--keep FOLDER] [--jobs NUMBER] [--write]

Turned are, in the bodies of functions of the library's crates: each comparison, whose bound then counts, or
no longer; each term of `&&` and `||`, which then says nothing (left and right of the sign); each number,
which then is one more (the greatest of a type: one less). No patterns and no constants. All stand in one
copy behind a switch, the number in the environment's TURNED; the copies of `hidreport_cases` and of the
tests are built once, without a proof. What no case and no test tells stands in unturned.txt, where a line
says why, `3 x` before one that stands for three: that is a fault where it isn't there, and where it is
noticed after all.

--only turns what has WORD in its line, as that stands in unturned.txt: FILE: WHAT: LINE. --keep takes the
programs of FOLDER where they are made of these sources, or builds them there; so many as --jobs says are
asked side by side; --write prints what isn't noticed as lines of unturned.txt, each as soon as it is known.
The build takes two minutes, each way up to two seconds.
"""

import argparse
import collections
import contextlib
import glob
import hashlib
import os
import re
import resource
import shutil
import signal
import subprocess
import sys
import tempfile
import threading
from concurrent.futures import ThreadPoolExecutor

from sources import (
    CRATES, PAIRS, TOP, Source, listed, make_kit, make_tree, put_into, read, run, switch, text_of, write,
)

LISTED = f"{TOP}/checks/mutations/unturned.txt"
IS = "turned::stands_at({})"
SWITCH = switch("TURNED")
# What ends an operand of a comparison, and of `&&` and `||`.
ENDS = {";", ",", ":", "=", "=>", "if", "while", "return", "match", "in", "else", "&&", "||", "closure", "->"}
GREATEST = (0xFF, 0xFFFF, 0xFFFFFFFF, 2**31 - 1, 2**64 - 1)
NUMBER = re.compile(r"(0x[0-9a-fA-F_]+|0b[01_]+|[0-9][0-9_]*)(u8|u16|u32|u64|u128|usize|i8|i16|i32|i64|i128)?")

# The programs, and how `rt try` builds each; NONE is a folder with an empty case.
PROGRAMS = {
    "hidreport_cases": ["--steps", "1", "--seconds", "60", "--cases", "NONE"],
    "hidreport_tests": ["--test", "--seconds", "300"],
}
# How long a program may compute that is turned, and how much memory it may have, in bytes.
SECONDS, MEMORY = 15, 3 << 30


class Turned(Source):
    """A source, and what is turned in it."""

    def find(self):
        """Turns what is in the bodies of functions."""
        self.patterns = set()
        for _, start, end in self.functions():
            self.pass_patterns(start + 1, end)
            self.body(start + 1, end)

    def is_spaced(self, n):
        """A sign with a space before and behind, as one between two operands has."""
        _, start, end = self.code[n]
        return self.text[start - 1 : start].isspace() and self.text[end : end + 1].isspace()

    def is_of_type(self, n):
        """A number between the brackets of a type, as `::<2>` has."""
        return self.text[: self.at(n)].endswith(b"<")

    def turn(self, n, kind):
        """A number for what is turned at a word."""
        self.found.append((self.file, f"{kind} {self.word(n)}", self.line_at(self.at(n))))
        return self.first + len(self.found)

    def around(self, first, last, rank, before, behind):
        """Puts texts before a word and behind another; those with a greater rank stand nearer."""
        self.put(self.at(first), before, (1, rank))
        self.put(self.code[last][2], behind, (0, -rank))

    def pass_patterns(self, n, end):
        """Notes where patterns stand, arguments of macros, and the ends of closures' parameters."""
        while n < end:
            word = self.word(n)
            if word in ("let", "for", "const", "static"):
                last = n
                while self.word(last) not in ("=", "in", ";"):
                    last += 1
                self.patterns.update(range(n, last))
            elif word == "!" and self.word(n + 1) in PAIRS and self.code[n][1] == self.code[n - 1][2]:
                self.patterns.update(range(n, self.close[n + 1]))
            elif word == "match":
                for pattern, arrow, _ in self.arms(self.brace_behind(n)):
                    self.patterns.update(range(pattern, arrow))
            elif word == "|" and self.word(n - 1) in ("(", ",", "=", "move"):
                last = n + 1
                while self.word(last) != "|":
                    last += 1
                self.patterns.update(range(n, last + 1))
                self.code[last] = ("closure", *self.code[last][1:])
            elif word == "||" and self.word(n - 1) in ("(", ",", "="):
                self.code[n] = ("closure", *self.code[n][1:])
            n += 1

    def left(self, n, ends):
        """The first word of the operand that ends before a word."""
        n -= 1
        while self.word(n) not in ends and self.word(n) not in PAIRS:
            n = self.open[n] - 1 if self.word(n) in PAIRS.values() and self.word(n) != "}" else n - 1
            if self.word(n) == "}":
                break
        return n + 1

    def right(self, n, ends):
        """The last word of the operand that begins behind a word."""
        n += 1
        while self.word(n) not in ends and self.word(n) not in PAIRS.values() and self.word(n) != "{":
            n = self.close[n] + 1 if self.word(n) in ("(", "[") else n + 1
        return n - 1

    def body(self, n, end):
        terms = set()
        for at in range(n, end):
            word = self.word(at)
            if at in self.patterns:
                continue
            if word in ("<", ">", "<=", ">=", "==", "!=") and self.is_spaced(at):
                self.compare(at)
            elif word in ("&&", "||") and self.is_spaced(at):
                self.terms(at, word, terms)
            elif NUMBER.fullmatch(word) and self.word(at - 1) not in (".", ";") and not self.is_of_type(at):
                self.number(at, word)

    def compare(self, at):
        first, last = self.left(at, ENDS), self.right(at, ENDS)
        number = self.turn(at, "bound")
        if self.word(at) in ("==", "!="):
            self.around(first, last, 3, "((", f") != {IS.format(number)})")
            return
        left = self.text[self.at(first) : self.code[at - 1][2]].decode()
        right = self.text[self.at(at + 1) : self.code[last][2]].decode()
        self.around(first, last, 3, "((", f") != ({IS.format(number)} && ({left}) == ({right})))")

    def terms(self, at, word, terms):
        """Both terms beside a sign, each once."""
        ends = ENDS - {"&&"} if word == "||" else ENDS
        rank = 1 if word == "||" else 2
        for side, first, last in (("left", self.left(at, ends), at - 1), ("right", at + 1, self.right(at, ends))):
            if (first, last) in terms or self.is_matched(first):
                continue
            terms.add((first, last))
            number = self.turn(at, side)
            without = f"|| {IS.format(number)}" if word == "&&" else f"&& !{IS.format(number)}"
            self.around(first, last, rank, "((", f") {without})")

    def is_matched(self, first):
        """A term that is matched with a pattern."""
        if self.word(first) == "let":
            return True
        n = first - 1
        while self.word(n) == "=" or n in self.patterns:
            n -= 1
        return n < first - 1 and self.word(n) in ("if", "while", "&&")

    def number(self, at, word):
        digits, suffix = NUMBER.fullmatch(word).groups()
        value = int(digits.replace("_", ""), 0) if not digits.isdigit() else int(digits)
        other = value - 1 if value in GREATEST else value + 1
        text = f"(if {IS.format(self.turn(at, 'number'))} {{ {other}{suffix or ''} }} else {{ {word} }})"
        self.put(self.at(at), text, (1, 9), self.code[at][2])


def sum_of(program, turned):
    """A sum over what a program is made of."""
    made = run(["sh", "tools/program.sh", "code", "hidreport"]).stdout + "".join(SWITCH)
    for file in sorted(glob.glob(f"{TOP}/tests/{program}/src/*.source")):
        made += text_of(file)
    return hashlib.sha256(made.encode() + repr(sorted(turned.items())).encode()).hexdigest()


def build(folder):
    """The programs that ask the cases and run the tests, all turned behind the switch; and what is turned."""
    turned, turns = read(f"{TOP}/crates", CRATES, Turned)
    sums = {program: sum_of(program, turned) for program in PROGRAMS}
    there = {it: text_of(f"{folder}/{it}.sum") for it in PROGRAMS if os.path.exists(f"{folder}/{it}.sum")}
    if there == sums:
        return turns
    os.makedirs(f"{folder}/none", exist_ok=True)
    write(f"{folder}/none/1", "")
    tree = f"{folder}/tree"
    shutil.rmtree(tree, ignore_errors=True)
    make_tree(tree)
    put_into(tree, read(f"{tree}/crates", CRATES, Turned)[0], CRATES, "turned", *SWITCH)
    for program in [it for it in PROGRAMS if there.get(it) != sums[it]]:
        kit = f"{folder}/kit_{program}"
        shutil.rmtree(kit, ignore_errors=True)
        with contextlib.suppress(FileNotFoundError):
            os.unlink(f"{folder}/{program}")
        make_kit(kit, f"{folder}/{program}")
        words = [it.replace("NONE", f"{folder}/none") for it in PROGRAMS[program]]
        env = {**os.environ, "RT_ALLOW_C": "1", "TMPDIR": folder}
        done = run([f"{kit}/bin/rt", "try", *words], f"{tree}/crates/{program}", env=env)
        if not os.path.exists(f"{folder}/{program}"):
            sys.exit(f"turned: {program} isn't built: {done.stdout[-3000:]}{done.stderr[-3000:]}")
        write(f"{folder}/{program}.sum", sums[program])
    return turns


def bounded():
    resource.setrlimit(resource.RLIMIT_CPU, (SECONDS, SECONDS))
    resource.setrlimit(resource.RLIMIT_AS, (MEMORY, MEMORY))
    resource.setrlimit(resource.RLIMIT_CORE, (0, 0))


class Asker:
    """Asks the programs, of which each is turned in one way."""

    def __init__(self, folder):
        self.cases, self.tests = f"{folder}/hidreport_cases", f"{folder}/hidreport_tests"
        at = f"{TOP}/tests/hidreport_cases"
        self.words, self.data, self.wanted = text_of(f"{at}/args").split(), f"{at}/data", text_of(f"{at}/stdout")
        passed = text_of(f"{TOP}/tests/hidreport_tests/stdout")
        self.passed = sorted(line for line in passed.split("\n") if line.startswith("test "))
        self.runner = f"{os.path.dirname(run(['rt', 'doc']).stdout)}/bin/rattle-test"

    def begin(self, words, number):
        env = {**os.environ, "TURNED": str(number)}
        how = {"stdout": subprocess.PIPE, "stderr": subprocess.STDOUT, "text": True, "errors": "replace"}
        return subprocess.Popen(words, cwd=self.data, env=env, start_new_session=True, preexec_fn=bounded, **how)

    def cases_tell(self, number):
        """A case is answered otherwise; the first that is, is enough."""
        started = self.begin([self.cases, *self.words], number)
        timer = threading.Timer(10 * SECONDS, os.killpg, (started.pid, signal.SIGKILL))
        timer.start()
        try:
            said = started.stdout.readline()
            if not self.wanted.startswith(said) or said + started.stdout.read() != self.wanted:
                return True
            return started.wait() != 0
        finally:
            timer.cancel()
            if started.poll() is None:
                os.killpg(started.pid, signal.SIGKILL)
            started.communicate()

    def tests_tell(self, number):
        """A test doesn't pass."""
        started = self.begin([self.runner, "--seconds", str(10 * SECONDS), self.tests], number)
        said, _ = started.communicate()
        return self.passed != sorted(it for it in said.split("\n") if it.startswith("test "))

    def tell(self, number):
        return self.cases_tell(number) or self.tests_tell(number)


def listed_ways(path, only):
    """What a list has of what has the word, each so often as it says, and what is wrong there."""
    lines, faults = listed(path)
    own = collections.Counter()
    for line, times in lines.items():
        count, way = re.fullmatch(r"(?:(\d+) x )?(.*)", line).groups()
        own[way] += times * int(count or 1)
    return collections.Counter({it: n for it, n in own.items() if only in it}), faults


def compared(script, path, only, asked, silent):
    """What nothing tells is what a list has; what a script says of it, or its status 0."""
    own, faults = listed_ways(path, only)
    name = os.path.basename(path)
    faults += [f"nothing tells {it}" for it in (silent - own).elements()]
    faults += [f"{name} has what is noticed or isn't there: {it}" for it in (own - silent).elements()]
    for fault in faults:
        print(f"{script}: {fault}")
    if faults:
        return f"{script}: {len(faults)} faults"
    told = asked - silent.total()
    print(f"{script}: {told} of {asked} ways are noticed, {silent.total()} are listed with a reason")
    return 0


def main():
    parser = argparse.ArgumentParser()
    parser.add_argument("--only", default="")
    parser.add_argument("--keep")
    parser.add_argument("--jobs", type=int, default=len(os.sched_getaffinity(0)))
    parser.add_argument("--write", action="store_true")
    words = parser.parse_args()
    silent = collections.Counter()
    with contextlib.ExitStack() as stack:
        folder = os.path.abspath(words.keep or stack.enter_context(tempfile.TemporaryDirectory()))
        lines = dict(enumerate((": ".join(it) for it in build(folder)), 1))
        asker = Asker(folder)
        if asker.tell(0):
            sys.exit("turned: where nothing is turned a case or a test tells something")
        chosen = [number for number, line in lines.items() if words.only in line]
        with ThreadPoolExecutor(words.jobs) as pool:
            for number, is_told in zip(chosen, pool.map(asker.tell, chosen)):
                if is_told:
                    continue
                silent[lines[number]] += 1
                if words.write:
                    print(lines[number], flush=True)
    if words.write:
        return 0
    return compared("turned", LISTED, words.only, len(chosen), silent)


if __name__ == "__main__":
    sys.exit(main())
