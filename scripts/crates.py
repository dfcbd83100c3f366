#!/usr/bin/env python3
"""Writes the dependencies of each crate in crates.txt: the crates that its text names, and those that declare types which its values reach.

A value's type is that of a name in the text, of a field, or of what a called function takes and gives. The order of the lines and the
comments of crates.txt stay; a new crate is added by a line 'NAME:' where it belongs, a static library by 'NAME staticlib:'.
usage: scripts/crates.py [--check]   (--check: only say whether crates.txt is as this script writes it)
"""
import pathlib
import re
import sys

LINE = re.compile(r"^([a-z0-9_]+)((?: staticlib)?:)", re.M)
PATH = re.compile(r"(?<![\w:.])([a-z][a-z0-9_]*)::(\w+)")
ANTT = re.compile(r"Rattle\.([a-z0-9_]+)\.")
USE = re.compile(r"^use ([a-z0-9_]+)::(?:(\w+)|\{([^}]*)\});", re.M)
TYPE = re.compile(r"^(?:pub )?(?:struct|enum) (\w+)\s*(\{.*?^\}|\([^)]*\);)", re.M | re.S)
FUNCTION = re.compile(r"^pub (?:extern \"C\" )?fn (\w+)(?:<[^>]*>)?(\(.*?)(?:^\{|^    (?:requires|ensures)|\{$)", re.M | re.S)


class Crate:
    """What a crate's text says: whom it names, and whose types its own types and functions hold."""

    def __init__(self, folder):
        self.name = folder.name
        source = "\n".join(file.read_text() for file in sorted(folder.glob("src/**/*.rt")))
        source = re.sub(r"//[^\n]*", "", source)
        antt = "\n".join(file.read_text() for file in sorted(folder.glob("**/*.antt")))
        self.calls = set(PATH.findall(re.sub(r"ghost use [^;]*;", "", source)))
        self.named = {crate for crate, _ in self.calls} | set(ANTT.findall(source + antt))
        self.named |= {crate for crate, _, _ in USE.findall(source)}
        imported = {name: crate for crate, one, many in USE.findall(source) for name in re.findall(r"\w+", one + many)}
        self.types = set().union(*(self.crates_in(body, imported) for _, body in TYPE.findall(source)), set())
        self.functions = {name: self.crates_in(head, imported) for name, head in FUNCTION.findall(source)}

    def crates_in(self, text, imported):
        """The crates that declare the types which this text names."""
        return {imported[name] for name in re.findall(r"\b[A-Z]\w*", text) if name in imported} | {crate for crate, _ in PATH.findall(text)}


def needed(crate, crates):
    """The crates that this one is given: those it names, those of its calls' types, and of the fields of all these types."""
    found = set(crate.named) | crate.types
    for other, function in crate.calls:
        if other in crates:
            found |= crates[other].functions.get(function, set())
    todo = list(found)
    while todo:
        other = todo.pop()
        if other in crates:
            new = crates[other].types - found
            found |= new
            todo += new
    return {name for name in found if name in crates and name != crate.name}


def written(text, crates):
    """crates.txt with each line's list as it should be, in the order in which the crates stand."""
    order = [name for name, _ in LINE.findall(text)]
    lines = []
    for line in text.splitlines():
        found = LINE.match(line)
        if found and found.group(1) in crates:
            line = " ".join([found.group()] + sorted(needed(crates[found.group(1)], crates), key=order.index))
        lines.append(line)
    return "\n".join(lines) + "\n"


def main(arguments):
    file = pathlib.Path("crates.txt")
    crates = {folder.name: Crate(folder) for folder in sorted(pathlib.Path("crates").iterdir())}
    text = file.read_text()
    right = written(text, crates)
    if arguments == ["--check"]:
        wrong = [LINE.match(line).group(1) for line, was in zip(right.splitlines(), text.splitlines()) if line != was]
        print(f"crates.txt is out of date: {' '.join(wrong)}" if wrong else "crates.txt is as scripts/crates.py writes it")
        return 1 if wrong else 0
    file.write_text(right)
    return 0


if __name__ == "__main__":
    sys.exit(main(sys.argv[1:]))
