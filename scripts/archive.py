#!/usr/bin/env python3
"""Builds the static library NAME over the libraries that `rt ci` left below it, which hold what it proved: crates/NAME/out/libNAME.a.

`rt lib` takes only what `rt check` and `rt lib` kept, and so proves in a fresh checkout all that `rt ci` has just proved. This calls the
kit's `rattle build` as `rt lib` does, which proves NAME itself and makes the archive only then.
usage: scripts/archive.py NAME   (exit status 3: a library below isn't as `rt ci` leaves it)
"""
import pathlib
import re
import subprocess
import sys

CRATES = pathlib.Path("crates")


def lists():
    """The libraries that crates.txt lists for each crate."""
    lines = re.findall(r"^(\w+)(?: staticlib)?:(.*)$", pathlib.Path("crates.txt").read_text(), re.M)
    return {name: names.split() for name, names in lines}


def below(name, given):
    """All libraries below a crate."""
    found, todo = set(), list(given[name])
    while todo:
        other = todo.pop()
        if other not in found:
            found.add(other)
            todo += given[other]
    return sorted(found)


def rlib(name):
    return CRATES / name / "out" / "rlib" / f"{name}.rlib"


def is_of_ci(name):
    """Whether the library is one that `rt ci` made: other commands stamp theirs."""
    return (rlib(name) / "format").is_file() and not (rlib(name).parent / "stamp").exists()


def command(name, given, kit):
    words = [kit / "bin" / "rattle", "build", "--crate-name", name, "src/lib.rt", "--crate-type", "staticlib"]
    words += ["--extern", f"std={kit}/rlibs/std.rlib", "-L", f"dependency={kit}/rlibs"]
    for other in given[name]:
        words += ["--extern", f"{other}={rlib(other).resolve()}"]
    for other in below(name, given):
        words += ["-L", f"dependency={rlib(other).parent.resolve()}"]
    words += ["--antt-project", kit / "rattle" / "logic" / "antt-project.json", "--logic-built", kit / "logic_built"]
    return words + ["--toolchain", kit / "toolchain", "-o", f"out/lib{name}.a"]


def main(name):
    given = lists()
    if not all(is_of_ci(other) for other in below(name, given)):
        return 3
    kit = pathlib.Path(subprocess.run(["rt", "doc"], check=True, capture_output=True, text=True).stdout.strip()).parent
    folder = CRATES / name
    (folder / "out").mkdir(exist_ok=True)
    return 1 if subprocess.run(command(name, given, kit), cwd=folder).returncode else 0


if __name__ == "__main__":
    sys.exit(main(*sys.argv[1:]))
