"""Reading a crate over what is proved below it, so that nothing there is proved again: the libraries are
those that `rt ci` has left in crates/*/out, or in those of the tree HIDREPORT_PROVED.

    python3 proved.py CRATE     the words by which `rattle check` reads CRATE in the current folder, a line
        each, where it may name each crate below it
"""

import os
import re
import subprocess
import sys

TOP = os.path.dirname(os.path.dirname(os.path.dirname(os.path.abspath(__file__))))


def libraries():
    """What each crate uses, by crates.txt."""
    with open(f"{TOP}/crates.txt", encoding="utf-8") as lines:
        return {it[1]: it[2].split() for it in re.finditer(r"^(\w+)[^:#\n]*:(.*)$", lines.read(), re.M)}


def crates_below(crate):
    """The libraries that a crate is built on, of the repository and of the kit."""
    own, found = libraries(), []

    def add(one):
        for name in own.get(one, []):
            found.append(name)
            add(name)

    add(crate)
    return list(dict.fromkeys(found))


def words_for(crate, names_all=False):
    """The words by which `rattle check` reads a crate in the current folder; it names what it uses by
    crates.txt, or all that is below."""
    said = subprocess.run(["rt", "doc"], capture_output=True, text=True, check=True).stdout
    kit = os.path.dirname(said.strip())
    proved = os.environ.get("HIDREPORT_PROVED", TOP)
    own, below = libraries(), crates_below(crate)
    words = [f"{kit}/bin/rattle", "check", "--crate-name", crate, "src/lib.rt"]
    words += ["-L", f"dependency={kit}/rlibs"]
    for name in ["std", *below]:
        folder = f"{proved}/crates/{name}/out/rlib" if name in own else f"{kit}/rlibs"
        if not os.path.isdir(f"{folder}/{name}.rlib"):
            sys.exit(f"{os.path.basename(sys.argv[0])}: no {folder}/{name}.rlib: `rt ci` leaves it")
        if name in own:
            words += ["-L", f"dependency={folder}"]
        if name == "std" or name in own[crate] or names_all and name in own:
            words += ["--extern", f"{name}={folder}/{name}.rlib"]
    words += ["--antt-project", f"{kit}/rattle/logic/antt-project.json"]
    return words + ["--logic-built", f"{kit}/logic_built"]


if __name__ == "__main__":
    print("\n".join(words_for(sys.argv[1], names_all=True)))
