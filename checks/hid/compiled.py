#!/usr/bin/env python3
"""What `hid decode` writes is compiled to the same bytes.

    compiled.py PROGRAM: the descriptors are on standard input, in each line the digits of one, behind
    them its wanted status (0 is read, 1 refused, - isn't known).

Each is decoded as the standard has it and as hosts read it. That another status and other bytes are
noticed is tried each time.
"""

import multiprocessing
import subprocess
import sys

STANDARD = ("--as", "standard")
program = None


def ask(words, given):
    ran = subprocess.run(
        [program, *words], input=given, capture_output=True, check=False, close_fds=False
    )
    return ran.returncode, ran.stdout, ran.stderr


def comes_back(text, digits):
    """What is wrong with what a text is compiled to; none where it is these digits, without a word."""
    _status, output, errors = ask(["compile", "--to", "hex", "-"], text)
    got = "".join(output.decode().split())
    if got == digits and not errors:
        return None
    return f"{digits} is compiled to {got}: {errors.decode(errors='replace').strip()}"


def faults_of(line):
    """What is wrong with a descriptor, and whether it is refused."""
    digits, wanted = line.split()
    faults, texts = [], []
    for options in (STANDARD, ()):
        status, text, errors = ask(["decode", "--form", "hex", *options, "-"], digits.encode() + b"\n")
        if status > 1:
            faults.append(f"{digits}: {errors.decode(errors='replace').strip()}")
        if options and wanted != "-" and status != int(wanted):
            faults.append(f"{digits} is decoded with the status {status}")
        if text not in texts:
            texts.append(text)
            fault = comes_back(text, digits)
            faults += [fault] if fault else []
        if options:
            refused = status
    return faults, refused


def check_noticed():
    """Another status and other bytes are noticed."""
    if not faults_of("0501 1")[0] or not comes_back(b"Usage Page (Generic Desktop)\n", "0502"):
        sys.exit("hid_texts: what is spoilt is not noticed")


def main():
    global program
    program = sys.argv[1]
    lines = [line for line in sys.stdin.read().splitlines() if line]
    known = sum(not line.endswith("-") for line in lines)
    if len(lines) < 2700 or known < 2200:
        sys.exit(f"hid_texts: only {len(lines)} descriptors, {known} of them with their status")
    check_noticed()
    with multiprocessing.Pool() as pool:
        looked = pool.map(faults_of, lines, 32)
    faults = [it for own, _refused in looked for it in own]
    for fault in faults[:20]:
        print(f"hid_texts: {fault}", file=sys.stderr)
    if faults:
        sys.exit(f"hid_texts: {len(faults)} descriptors don't come back")
    refused = sum(it for _own, it in looked)
    print(
        f"hid_texts: {len(lines)} descriptors, {refused} refused, decoded and compiled to the same bytes"
    )


if __name__ == "__main__":
    main()
