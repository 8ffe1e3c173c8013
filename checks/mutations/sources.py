"""The sources of the library as words, for the scripts that put something into its code in a copy of the
tree: reached.py and turned.py; and switches and kits for programs that have much behind one switch: turned.py
and plants.py."""

import collections
import contextlib
import glob
import json
import os
import subprocess
import sys

TOP = os.path.dirname(os.path.dirname(os.path.dirname(os.path.abspath(__file__))))
# The crates of the library, whose functions mirror definitions.
CRATES = ["hidreport_types", "hidreport_items", "hidreport_lists", "hidreport_fields", "hidreport", "hidreport_usages"]
PAIRS = {"(": ")", "[": "]", "{": "}"}
# What two marks are together.
TOGETHER = ("==", "!=", "<=", ">=", "&&", "||", "=>", "->", "::", "..")


def run(words, folder=None, **how):
    how = {"cwd": folder or TOP, "capture_output": True, "text": True, "errors": "replace", **how}
    return subprocess.run(words, check=False, **how)


def text_of(path):
    with open(path, encoding="utf-8") as it:
        return it.read()


def bytes_of(path):
    with open(path, "rb") as it:
        return it.read()


def write(path, text):
    with open(path, "wb") as it:
        it.write(text if isinstance(text, bytes) else text.encode())


def code_in(files):
    """Of each file the words of its code, each with where it begins and ends; no comments and no clauses."""
    said = run(["rattle", "fmt", "--tokens", *files])
    if said.returncode:
        sys.exit(f"sources: no words of code: {said.stderr}")
    found, in_clause, n = {file: [] for file in files}, False, -1
    for line in said.stdout.split("\n"):
        if line.startswith("file "):
            n += 1
            words = found[files[n]]
            continue
        if not line:
            continue
        _, start, end, kind, text = line.split(" ", 4)
        in_clause = kind != "End" and (in_clause or (kind == "Head" and text == '"{"'))
        if in_clause or kind not in ("Code", "Literal"):
            continue
        word, start, end = json.loads(text), int(start), int(end)
        if words and words[-1][2] == start and words[-1][0] + word in TOGETHER:
            before, start, _ = words.pop()
            word = before + word
        words.append((word, start, end))
    return found


class Source:
    """A source, and what is put into it."""

    def __init__(self, file, text, code, first):
        self.file, self.text, self.code, self.first = file, text, code, first
        self.found, self.edits = [], []
        self.close, self.open = self.find_pairs()

    def word(self, n):
        return self.code[n][0] if 0 <= n < len(self.code) else ""

    def at(self, n):
        return self.code[n][1]

    def find_pairs(self):
        """Of each opening bracket the closing one, and the other way."""
        close, open_now = {}, []
        for n, (word, _, _) in enumerate(self.code):
            if word in PAIRS:
                open_now.append(n)
            elif word in PAIRS.values():
                close[open_now.pop()] = n
        return close, {end: start for start, end in close.items()}

    def line_at(self, place):
        start = self.text.rfind(b"\n", 0, place) + 1
        return self.text[start : self.text.find(b"\n", place)].decode().strip()

    def behind(self, n):
        """What stands behind a word, or behind the bracket that it opens."""
        return self.close[n] + 1 if self.word(n) in PAIRS else n + 1

    def brace_behind(self, n, also=()):
        """The brace of a block behind a condition or a function's head; or one of the other marks."""
        while self.word(n) != "{" and self.word(n) not in also:
            n = self.behind(n)
        return n

    def functions(self):
        """Of each function with a body: where `fn` stands, and the braces of the body."""
        n = 0
        while n < len(self.code):
            if self.word(n) != "fn" or self.word(n - 1) == "const" or self.word(n + 1) == "(":
                n += 1
                continue
            start = self.brace_behind(n, also=(";",))
            if self.word(start) == ";":
                n = start + 1
                continue
            yield n, start, self.close[start]
            n = self.close[start] + 1

    def arms(self, n):
        """Of each arm of the match whose brace is at a word: where its pattern, its `=>` and its body begin,
        and what stands behind the body."""
        n, end = n + 1, self.close[n]
        while n < end:
            pattern = n
            while self.word(n) != "=>":
                n = self.behind(n)
            arrow, n = n, n + 1
            if self.word(n) == "{":
                n = self.close[n] + 1
            else:
                while n < end and self.word(n) != ",":
                    n = self.behind(n)
            yield pattern, arrow, n
            n += self.word(n) == ","

    def put(self, place, text, order=(), end=None):
        """Puts a text at a place, before what is put there with a greater order, or in the place of what
        stands up to an end."""
        self.edits.append((place, order, text, place if end is None else end))

    def edited(self):
        text, last = b"", 0
        for place, _, said, end in sorted(self.edits, key=lambda it: it[:2]):
            text += self.text[last:place] + said.encode()
            last = end
        return text + self.text[last:]


def read(folder, crates, kind):
    """Of each source of the crates in a folder, itself with what is put into it; and all that was found."""
    edited, found, files = {}, [], []
    for crate in crates:
        files += sorted(glob.glob(f"{folder}/{crate}/src/**/*.rt", recursive=True))
    for file, code in code_in(files).items():
        source = kind(os.path.relpath(file, folder), bytes_of(file), code, len(found))
        source.find()
        edited[file] = source.edited()
        found += source.found
    return edited, found


def make_tree(tree):
    """A copy of the tree, with the crates of tests/."""
    how = ["bash", "-c", '. checks/common/tests.sh; make_tree_with_tests "$1"', "", tree]
    run(how, env={**os.environ, "top": TOP})


def put_into(tree, edited, crates, name, rust, c):
    """Puts sources into a tree, whose crates use one more, which has a source and one in C."""
    for file, text in edited.items():
        write(file, text)
    lines = text_of(f"{tree}/crates.txt").split("\n")
    lines = [f"{it} {name}" if it.split(":")[0] in crates else it for it in lines]
    write(f"{tree}/crates.txt", "\n".join([f"{name}:", *lines]))
    for folder, file, text in (("src", "lib.rt", rust), ("c", f"{name}.c", c)):
        os.makedirs(f"{tree}/crates/{name}/{folder}")
        write(f"{tree}/crates/{name}/{folder}/{file}", text)


def listed(path):
    """The lines of a list, how often each stands there, and those without a reason above them."""
    found, faults, reason = [], [], None
    for line in text_of(path).split("\n"):
        if line.startswith("# "):
            reason = line
        elif not line:
            reason = None
        elif reason is None:
            faults.append(f"{os.path.basename(path)} doesn't say why of: {line}")
        else:
            found.append(line)
    return collections.Counter(found), faults


# A switch: a crate whose `stands_at` asks for the number in the environment.
SWITCH = """//! A switch.
#![tactic(auto)]

unsafe extern "C" {
    safe fn switch_is(number: u32) -> bool;
}

/// Whether it stands at this number.
pub fn stands_at(number: u32) -> bool {
    switch_is(number)
}
"""
SWITCH_C = """#include <stdio.h>
#include <stdlib.h>

enum { NUMBERS = 65536 };

_Bool switch_is(unsigned asked);

static unsigned char is_asked[NUMBERS];
static const char *trace;

/* Appends the numbers that were asked for, as a line of the file that VARIABLE_TRACE names. */
static void tell(void)
{
    FILE *file = fopen(trace, "a");

    if (file == NULL)
        return;
    for (unsigned number = 0; number < NUMBERS; number++)
        if (is_asked[number])
            fprintf(file, "%u ", number);
    fputs("\\n", file);
    fclose(file);
}

/* Whether it is the number in the environment; 0 is none. */
_Bool switch_is(unsigned asked)
{
    static int is_known;
    static unsigned number;

    if (!is_known) {
        const char *word = getenv("VARIABLE");

        number = word == NULL ? 0 : (unsigned)atoi(word);
        trace = getenv("VARIABLE_TRACE");
        if (trace != NULL)
            atexit(tell);
        is_known = 1;
    }
    if (trace != NULL && asked < NUMBERS)
        is_asked[asked] = 1;
    return number != 0 && asked == number;
}
"""
CLANG = """#!/bin/bash
words=()
for word; do
    case $word in
        -O0) words+=(-O1) ;;
        -fsanitize=address) ;;
        *) words+=("$word") ;;
    esac
done
# It is llvm-nm, too, by another name.
[[ " $* " != *' --defined-only '* ]] || exec -a llvm-nm '%s' "$@"
exec '%s' "${words[@]}"
"""
LINKER = """#!/bin/bash
'%s' "$@" || exit
words=()
while [ $# -gt 0 ]; do
    case $1 in
        -o) words+=(-o '%s') && shift ;;
        # What AddressSanitizer is linked as.
        --whole-archive) while [ "$1" != --no-whole-archive ]; do shift; done ;;
        *) words+=("$1") ;;
    esac
    shift
done
exec '%s' "${words[@]}"
"""


def switch(variable):
    """The sources of a switch by this variable of the environment."""
    return SWITCH, SWITCH_C.replace("VARIABLE", variable)


def make_kit(folder, kept):
    """A kit whose programs have no AddressSanitizer, so that their memory can be bounded, and are kept."""
    run(["bash", "checks/common/unproved.sh", "--kit", folder])
    tools = f"{os.path.dirname(run(['rt', 'doc']).stdout)}/toolchain/bin"
    clang, linker = f"{tools}/clang", f"{tools}/ld.lld"
    for name, text in (("clang", CLANG % (clang, clang)), ("ld.lld", LINKER % (linker, kept, linker))):
        with contextlib.suppress(FileNotFoundError):
            os.unlink(f"{folder}/toolchain/bin/{name}")
        write(f"{folder}/toolchain/bin/{name}", text)
        os.chmod(f"{folder}/toolchain/bin/{name}", 0o755)
