#!/usr/bin/env python3
"""Counts the places of src/ that read like the older language, by the points of docs/DESIGN-PASS.md.

By text alone: what a count finds is a place to look at, and what it can't see is written into the page by hand.
usage: scripts/places.py [--list] [COMMIT]     (without a commit: the files as they stand; --list names each place)
"""
import collections
import pathlib
import re
import subprocess
import sys

NONE = "Nothing|Nobody|Cut|Missing|Unchanged|Stays|Unused"
FAILS = "Refused|Refuse|Wrong|Bad|Malformed"
FINE = "Sound|Accept|Made"
VARIANT = re.compile(rf"^\s+({NONE}|{FAILS}|{FINE})(\(\w+\))?,$")
FUNCTION = re.compile(r"^( *)(?:pub )?fn (\w+).*?\n\1\}\n", re.S | re.M)
REQUIRES = re.compile(r"^\s+requires\s+(?:\w+ )?\{ (.*) \}$", re.M)
LITERAL = r"(?:\d\w*|true|false|\[.*\]|[A-Z]\w*::\w+(?:\(_\)|\(_, _\))?| \{ \.\. \})"
WIDTHS = re.compile(r"\b(?:u8|u16|u32|u64|usize)\b")


def sources(commit):
    """The text of each file of src/, by its path."""
    if not commit:
        return {str(it): it.read_text() for it in sorted(pathlib.Path("crates").glob("*/src/**/*.rt"))}
    names = subprocess.run(["git", "ls-tree", "-r", "--name-only", commit, "crates"], capture_output=True, text=True, check=True).stdout.split()
    return {it: subprocess.run(["git", "show", f"{commit}:{it}"], capture_output=True, text=True, check=True).stdout for it in names if re.fullmatch(r"crates/\w+/src/.*\.rt", it)}


def proofs(commit):
    """The paths of the proofs."""
    if not commit:
        return [str(it) for it in pathlib.Path("crates").glob("*/proofs/**/*.antt")]
    return [it for it in subprocess.run(["git", "ls-tree", "-r", "--name-only", commit, "crates"], capture_output=True, text=True, check=True).stdout.split() if "/proofs/" in it]


def lines_with(pattern, files):
    """The lines in which a pattern stands, comments aside."""
    for path, text in files.items():
        for number, line in enumerate(text.split("\n"), 1):
            if re.search(pattern, line) and not line.lstrip().startswith("//"):
                yield f"{path}:{number}: {line.strip()}"


def comments_with(pattern, files):
    for path, text in files.items():
        for number, line in enumerate(text.split("\n"), 1):
            if line.lstrip().startswith("//") and re.search(pattern, line):
                yield f"{path}:{number}: {line.strip()}"


def enums(files):
    """Enums with a variant that says 'none', 'fails' or 'fine'."""
    for path, text in files.items():
        for name, body in re.findall(r"enum (\w+) \{\n(.*?)\n\}", text, re.S):
            said = [line.strip() for line in body.split("\n") if VARIANT.match(line)]
            if said:
                yield f"{path}: {name}: {' '.join(said)}"


def functions(files):
    for path, text in files.items():
        for it in FUNCTION.finditer(text):
            yield path, it.group(2), it.group(0)


def alike(files):
    """Functions that differ in a type, a number or a constant alone."""
    found = collections.defaultdict(list)
    for path, name, text in functions(files):
        body = text[text.index("\n{\n") if "\n{\n" in text else 0:] if "{" in text else text
        body = re.sub(r"//.*", "", body)
        shape = re.sub(r"\s+", " ", re.sub(r"\b\d[\d_xA-Fa-f]*(?:u\d+|usize)?\b", "N", WIDTHS.sub("T", body)))
        if len(shape) > 12:
            found[shape].append(f"{path}: {name}")
    for shape, names in found.items():
        if len(names) > 1:
            yield " = ".join(names)


def by_hand(files):
    """Functions that are one match from variants to values, and those that widen a number or a flag."""
    for path, name, text in functions(files):
        body = text[text.rindex("\n{\n") + 3:] if "\n{\n" in text else ""
        if re.fullmatch(r"\s*match \w+ \{\n(?:\s+\S.* => " + LITERAL + r",\n)+\s*\}\n\}\n", body):
            yield f"{path}: {name}: one match"
        elif re.fullmatch(r"\s*\w+ as \w+\n\}\n", body) or re.fullmatch(r"\s*if \w+ \{ 1 \} else \{ 0 \}\n\}\n", body):
            yield f"{path}: {name}: one cast"


def facts(files):
    """What three functions or more require of their arguments, word for word."""
    found = collections.Counter()
    for text in files.values():
        for clause in REQUIRES.findall(text):
            found.update(set(part.strip("() ") for part in clause.split(" × ")))
    return [f"{number} functions require {fact}" for fact, number in found.most_common() if number > 2]


def together(files):
    """Four parameters or more that three functions or more take in the same order."""
    found = collections.defaultdict(list)
    for path, name, text in functions(files):
        names = re.findall(r"(?:mut )?(\w+): ", text[text.index("(") + 1 : text.index(")")])
        for k in range(len(names) - 3):
            found[tuple(names[k : k + 4])].append(f"{path}: {name}")
    return [f"{', '.join(names)}: {len(places)} functions" for names, places in found.items() if len(places) > 2]


def counts(commit):
    files = sources(commit)
    every = proofs(commit)
    return {
        "1 enums with a variant for 'none', 'fails' or 'fine'": list(enums(files)),
        "1 a number or a flag that says there is none, as a comment tells": list(comments_with(r"\b0 (?:is none|where|of any|and 0|none)|none at 0|0 is none|1 for it|0 is no", files)),
        "1 tests that only say true or false (`{ false }`, `return false`)": list(lines_with(r"(?:else \{ false \}|^\s*return (?:true|false);$)", files)) + [f"{p}:{n}" for p, t in files.items() for n, (a, b) in enumerate(zip(t.split("\n"), t.split("\n")[1:]), 1) if a.strip() == "} else {" and b.strip() == "false"],
        "2 functions alike but for a type, a size or a constant": list(alike(files)),
        "3 loops that count by hand": list(lines_with(r"^\s*(?:while|loop)\b", files)),
        "4 one match or one cast": list(by_hand(files)),
        "4 fields named twice (`x: x`), values copied out to be handed on": list(lines_with(r"^\s*(\w+): \1,$", files)) + list(lines_with(r"^\s*let (\w+) = \w+\.\1;$", files)),
        "5 facts that three functions or more require": facts(files),
        "5 parameters that travel together": together(files),
        "6 arrays with a length beside": list(lines_with(r"^\s*pub \w+: \[\w+; \w+\],$", files)),
        "8 walks by hand": [it for it in every if it.endswith("/Proof.antt")],
        "8 answers": [it for it in every if it.endswith("/Answers.antt")],
    }


def main(words):
    listed = "--list" in words
    commit = next((it for it in words if it != "--list"), None)
    for what, places in counts(commit).items():
        print(f"{len(places):5}  {what}")
        for it in places if listed else []:
            print(f"       {it}")


if __name__ == "__main__":
    main(sys.argv[1:])
