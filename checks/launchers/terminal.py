#!/usr/bin/env python3
"""How many columns the programs are told of by generated/programs.c, in a pseudo terminal and without.

    terminal.py [HID ..]   asks a small program beside programs.c for COLUMNS; then each HID, linked with
                           it, for fields and a map, whose lines keep to a terminal of 60 columns, and are
                           whole in a pipe, whatever is exported

Its last line says how many answers there were.
"""
import fcntl
import os
import pty
import struct
import subprocess
import sys
import tempfile
import termios

TOP = os.path.dirname(os.path.dirname(os.path.dirname(os.path.abspath(__file__))))
SOURCE = r"""
#include <stddef.h>
#include <stdio.h>
ptrdiff_t rattle_env(const char *name, char *start, size_t room);
int main(void)
{
    char said[64];
    ptrdiff_t length = rattle_env("COLUMNS", said, sizeof said);
    ptrdiff_t other = rattle_env("OTHER", said + 32, 32);
    printf("%d %.*s %.*s\n", (int)length, length < 0 ? 0 : (int)length, said, (int)other, said + 32);
    return 0;
}
"""
# The terminal's columns, what is exported as COLUMNS, and what a program is told.
ROWS = [(60, None, "60"), (60, "", "60"), (60, "x", "60"), (60, "7x", "60"), (60, "-1", "60"),
        (60, "72", "72"), (65535, None, "65535"), (0, None, None), (0, "72", "72"),
        (None, None, None), (None, "72", None)]
FILES = ["mouse.hex", "keyboard.hex", "touchpad.hex", "gamepad.hex"]


def said(words, columns, exported):
    """What a program writes to a terminal of so many columns, or into a pipe."""
    environment = {**os.environ, "OTHER": "other", "NO_COLOR": "1"}
    environment.pop("COLUMNS", None)
    if exported is not None:
        environment["COLUMNS"] = exported
    if columns is None:
        return subprocess.run(words, env=environment, capture_output=True, check=True).stdout.decode()
    own, its = pty.openpty()
    fcntl.ioctl(its, termios.TIOCSWINSZ, struct.pack("HHHH", 24, columns, 0, 0))
    with subprocess.Popen(words, env=environment, stdout=its, stderr=subprocess.DEVNULL) as program:
        os.close(its)
        parts = []
        while True:
            try:
                part = os.read(own, 65536)
            except OSError:
                break
            if not part:
                break
            parts.append(part)
    os.close(own)
    if program.returncode:
        sys.exit(f"terminal: {words}: status {program.returncode}")
    return b"".join(parts).decode().replace("\r\n", "\n")


def wanted(words, columns, exported, answer):
    """Asks a program for COLUMNS."""
    got = said(words, columns, exported)
    text = "-1  other\n" if answer is None else f"{len(answer)} {answer} other\n"
    if got != text:
        sys.exit(f"terminal: of {columns} columns, COLUMNS={exported}: {got!r} in place of {text!r}")


def keeps(hid, words):
    """Asks `hid` for lines in a terminal and into a pipe."""
    words = [hid, *words]
    whole, narrow = said(words, None, None), said(words, 60, None)
    if said(words, None, "60") != whole:
        sys.exit(f"terminal: {words}: a pipe has other lines where COLUMNS is 60")
    if max(map(len, narrow.splitlines())) > 60 or said(words, 999, None) != whole:
        sys.exit(f"terminal: {words}: lines don't keep to the terminal")
    if said(words, 60, "70") == narrow and max(map(len, whole.splitlines())) > 60:
        sys.exit(f"terminal: {words}: COLUMNS=70 isn't heeded in a terminal")


def main(programs):
    answers = 0
    with tempfile.TemporaryDirectory() as scratch:
        with open(f"{scratch}/main.c", "w", encoding="utf-8") as source:
            source.write(SOURCE)
        small = f"{scratch}/small"
        subprocess.run([os.environ.get("CC", "cc"), "-Wl,--wrap=main", "-o", small, source.name,
                        f"{TOP}/generated/programs.c"], check=True)
        for row in ROWS:
            wanted([small], *row)
            answers += 1
    for hid in programs:
        for file in FILES:
            for command in ("fields", "map"):
                keeps(hid, [command, f"{TOP}/crates/hid/data/{file}"])
                answers += 3
    print(f"terminal: {answers} answers")


main(sys.argv[1:])
