#!/usr/bin/env python3
"""Brings the names of definitions, lemmas, fields and local facts to snake case: words-fit, wordsFit to words_fit.

Run once, after the kit's port.py, at the top: it reads each .antt file of crates/, and rewrites .antt, .rt and .edit files there.
Names of the source, of the kit and of what the check generates stay. Of two names that fall together in one file, or that two
declarations would share, the lemma takes the ending _holds.
usage: tools/respell.py [--dry]
"""
import collections
import pathlib
import re
import sys

ID = r"[^\W\d][\w'-]*"
TOKEN = re.compile(r"(?<![\w'-])" + ID)
DECLARED = re.compile(r"((?:(?:pub|abbrev|unfoldable|opaque)\s+)*)(?:(record|data)\s+)?(" + ID + r")(?=\s|$|:)")
FIELD = re.compile(r"\s+(?:pub\s+)?(" + ID + r")\s*:(?!:)")
GENERATED = re.compile(r"^(invariant|decreases)-|^Need-|^After-")
BINDERS = re.compile(r"\blet\s+(" + ID + r")|λ\s+([^.λ]*)\.")


def snake(name):
    name = re.sub(r"getD(?![a-z])", "get", name)
    name = re.sub(r"([a-z0-9])([A-Z])", r"\1_\2", name.replace("-", "_"))
    return name.lower()


def old(name):
    return "-" in name or (name[0].islower() and re.search(r"[A-Z]", name) is not None)


def files(pattern):
    return sorted(p for p in pathlib.Path("crates").glob(pattern) if "out" not in p.parts)


def of_the_kit():
    """Names that the files import from other libraries than the repository's crates."""
    own = {p.name for p in pathlib.Path("crates").iterdir()}
    names = set()
    for path in files("*/specs/**/*.antt") + files("*/proofs/**/*.antt"):
        for module, items in re.findall(r"^(?:pub )?use ([^\s{]+?)\.?(?:\{([^}]*)\})?$", path.read_text(encoding="utf-8"), re.M):
            parts = module.split(".")
            if parts[0] != "Rattle" or parts[1] not in own:
                names.update(w for item in items.split(",") for w in item.split() if w != "as")
    return names


def declared():
    """Names that the files declare: at the top, and as fields or constructors; of each kebab name that another declaration shares, the ending."""
    tops, nested, members = set(), set(), set()
    for path in files("*/specs/**/*.antt") + files("*/proofs/**/*.antt"):
        inside = False
        for line in path.read_text(encoding="utf-8").splitlines():
            if not line or line.startswith("--"):
                continue
            if line[0] != " ":
                inside = False
                if line.startswith(("use ", "mod ", "pub mod ", "pub use ")):
                    continue
                found = DECLARED.match(line)
                if found:
                    inside = found.group(2) is not None
                    tops.add(found.group(3))
            else:
                found = FIELD.match(line)
                if found:
                    (members if inside else nested).add(found.group(1))
    foreign = of_the_kit()
    return (tops | nested) - foreign, members - foreign


def respelled(tops, members):
    """The new name of each old one."""
    wanted = {name: snake(name) for name in tops | members if old(name) and not GENERATED.match(name) and not name[0].isupper()}
    wanted.update({name: name.replace("-", "") for name in tops | members if "-" in name and name[0].isupper() and not GENERATED.match(name)})
    taken = collections.defaultdict(set)
    for name in tops:
        taken[wanted.get(name, name)].add(name)
    for new, names in taken.items():
        kebab = sorted(n for n in names if "-" in n)
        others = [n for n in names if "-" not in n]
        if kebab and others:
            for name in kebab:
                wanted[name] = new + "_holds"
        elif len(others) > 1:
            for name in others:
                if old(name):
                    wanted[name] = new + "_is"
    return wanted


def locals_of(text):
    """Local names with a hyphen that no member access has."""
    bound = set()
    for one, many in BINDERS.findall(text):
        bound.update(n for n in [one, *many.split()] if re.fullmatch(ID, n) and "-" in n)
    return {n for n in bound if not re.search(r"\." + re.escape(n) + r"(?![\w'-])", text)}


def rewritten(text, names, comment):
    """The text with its names respelled; in a comment only names with a capital inside, and those in quotes."""
    lines = []
    for line in text.split("\n"):
        code, mark, said = line.partition(comment)
        if line.lstrip().startswith(comment):
            code, mark, said = "", line[: len(line) - len(line.lstrip())] + comment, line.lstrip()[len(comment):]
        code = TOKEN.sub(lambda m: names.get(m.group(), m.group()), code)
        said = TOKEN.sub(lambda m: names.get(m.group(), m.group()) if "-" not in m.group() else m.group(), said)
        said = re.sub(r"`([^`\s]+)`", lambda m: "`" + TOKEN.sub(lambda t: names.get(t.group(), t.group()), m.group(1)) + "`", said)
        lines.append(code + mark + said)
    return "\n".join(lines)


def clash(text, names, comment):
    """Names of one file that would be one."""
    seen = collections.defaultdict(set)
    for line in text.split("\n"):
        for token in TOKEN.findall(line.partition(comment)[0]):
            seen[names.get(token, token)].add(token)
    return {new: tokens for new, tokens in seen.items() if len(tokens) > 1}


def main():
    dry = "--dry" in sys.argv
    tops, members = declared()
    wanted = respelled(tops, members)
    for path in files("*/specs/**/*.antt") + files("*/proofs/**/*.antt") + files("*/src/**/*.rt") + files("*/must-fail/*.edit"):
        text = path.read_text(encoding="utf-8")
        comment = "--" if path.suffix == ".antt" else "//"
        names = dict(wanted)
        if path.suffix == ".antt":
            names.update({n: snake(n) for n in locals_of(text) if n not in names})
        if path.suffix != ".edit":
            for new, tokens in sorted(clash(text, names, comment).items()):
                print(f"{path}: {new}: {' '.join(sorted(tokens))}")
        if not dry:
            path.write_text(rewritten(text, names, comment), encoding="utf-8")
    print(f"{len(wanted)} names")


if __name__ == "__main__":
    main()
