#!/usr/bin/env python3
"""Brings names in back quotes in README.md and docs/ to the spelling that they have in crates/ since the port.

The table is read from the two commits that docs/PORT.md names: in each proof or specs file what stood declared before the kit's port.py
and tools/respell.py ran, beside what stood in its place after them.
usage: tools/respell_docs.py [--dry]   (--dry: only prints what would change)
"""
import pathlib
import re
import subprocess
import sys

from respell import DECLARED, FIELD, TOKEN

SPAN = re.compile(r"`[^`\n]+`")
IMPORTS = re.compile(r"(?:pub |unfoldable )*(?:use|mod|unfolding) ")


def git(*words):
    return subprocess.run(["git", *words], check=True, capture_output=True, text=True).stdout


def declared(text):
    """The names that a file declares, fields and constructors among them, in order."""
    names = []
    for line in text.splitlines():
        if line.startswith("--") or IMPORTS.match(line):
            continue
        found = FIELD.match(line) if line.startswith(" ") else DECLARED.match(line)
        if found:
            names.append(found.groups()[-1])
    return names


def table():
    """The new name of each old one; those of a file whose declarations don't pair are left out."""
    after = re.search(r"^port.py ran in: (\w+)$", pathlib.Path("docs/PORT.md").read_text(encoding="utf-8"), re.M).group(1)
    new = {}
    for path in git("ls-tree", "-r", "--name-only", after, "crates").split():
        if not path.endswith(".antt"):
            continue
        pair = [declared(git("show", f"{commit}:{path}")) for commit in (f"{after}~", after)]
        if len(pair[0]) == len(pair[1]):
            new.update({old: now for old, now in zip(*pair) if old != now})
    return new


def rewritten(text, new):
    return SPAN.sub(lambda span: TOKEN.sub(lambda name: new.get(name.group(), name.group()), span.group()), text)


def main():
    new = table()
    for path in [pathlib.Path("README.md"), *sorted(pathlib.Path("docs").glob("**/*.md"))]:
        text = path.read_text(encoding="utf-8")
        now = rewritten(text, new)
        if path.name != "PORT.md" and now != text:
            print(f"{path}: {sum(a != b for a, b in zip(SPAN.findall(text), SPAN.findall(now)))} names")
            if "--dry" not in sys.argv:
                path.write_text(now, encoding="utf-8")


if __name__ == "__main__":
    main()
