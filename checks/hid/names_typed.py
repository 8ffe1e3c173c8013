#!/usr/bin/env python3
"""names_typed.py TYPED SHELL [WORDS ..]: types a line (`\\t` is the key that completes) into a shell with a
line to edit, and says what the command prints: the line that is two hexadecimal digits."""
import os
import pty
import re
import select
import sys
import time


def main(typed, words):
    child, shell = pty.fork()
    if child == 0:
        os.environ["TERM"] = "dumb"
        os.execvp(words[0], words)
    seen = b""

    def read_until(pattern, seconds):
        nonlocal seen
        end = time.time() + seconds
        while time.time() < end and not re.search(pattern, seen):
            if select.select([shell], [], [], 0.2)[0]:
                try:
                    seen += os.read(shell, 65536)
                except OSError:
                    return
    read_until(rb"ready> ", 20)
    for part in re.split(r"(\\t)", typed):
        os.write(shell, b"\t" if part == r"\t" else part.encode())
        time.sleep(1.5 if part == r"\t" else 0.2)
    os.write(shell, b"\r")
    pattern = rb"(?m)^([0-9a-f]{2})\r*$"
    read_until(pattern, 20)
    os.write(shell, b"\rexit\r")
    found = re.search(pattern, seen)
    print(found.group(1).decode() if found else seen.decode(errors="replace"))


main(sys.argv[1], sys.argv[2:])
