#!/usr/bin/env python3
"""Prints what is measured of the crates, a line a figure. All of it is counted in their text: nothing is proved or built.

Crates of WTP are all but rds and rds_*. How a figure is counted is said at the function that counts it.
usage: scripts/measures.py
"""
import pathlib
import re

import antt
import sweep

CALLS = ("Request", "Answer", "Result", "Abort", "Receive", "Timer", "Fire")
LAYERS = ("base_", "codec_ table_", "row_", "step_", "call_", "c_", "wtp", "law_ case_")
LONG = 400
SPECS = re.compile(r"^(?:unfoldable |pub )*use Rattle\.(\w+)\.specs\.(\w+)", re.M)
DEMAND_3 = ("law_demand_3/specs/*.antt", "law_exported/specs/*.antt")
STATEMENT = ("law_history/specs/Demand.antt", "law_history/specs/Start.antt", "law_exported/specs/Session.antt")
CRATES = pathlib.Path("crates")


def files(pattern):
    return sorted(CRATES.glob(pattern))


def is_rds(crate):
    return crate == "rds" or crate.startswith("rds_")


def lines_of(kind, rds):
    """All lines, empty ones and comments among them, of the files of a kind."""
    return sum(file.read_text().count("\n") for file in files(kind) if is_rds(file.parts[1]) == rds)


def sizes():
    """Code is *.rt below src, definitions are *.antt below specs, proofs *.antt below proofs."""
    for rds, name in ((False, "WTP"), (True, "RDS")):
        code, specs, proofs = (lines_of(kind, rds) for kind in ("*/src/**/*.rt", "*/specs/**/*.antt", "*/proofs/**/*.antt"))
        yield f"{name}, lines of code", code
        yield f"{name}, lines of definitions and statements", specs
        yield f"{name}, lines of proofs", proofs


def listing():
    """Files of definitions or proofs in which, apart from use lines and comments, each of the seven constructors of `Call` stands as a word."""
    found = [file for file in files("*/*/**/*.antt") if set(CALLS) <= set(antt.TOKEN.findall(antt.body(file.read_text())))]
    yield "files that list all seven calls", f"{len(found)} in {len({file.parts[1] for file in found})} crates"


def layer(crate):
    """The number of a crate's layer in README's picture, from below, by its prefix; RDS and what Rattle brings have none."""
    return next((number for number, prefixes in enumerate(LAYERS) if any(crate.startswith(prefix) for prefix in prefixes.split())), None)


def arrows():
    """Pairs of a crate and one that it is given by crates.txt and that stands in a higher layer. Laws and cases stand above all code."""
    found = []
    for name, given in re.findall(r"^(\w+)(?: staticlib)?: (.+)$", pathlib.Path("crates.txt").read_text(), re.M):
        if layer(name) is not None:
            found += [(name, other) for other in given.split() if layer(other) is not None and layer(other) > layer(name)]
    yield "arrows against README's picture", len(found)
    for other in sorted({other for _, other in found}):
        yield f"- to {other}", " ".join(name for name, to in found if to == other)


def long_lines():
    """Characters of a line of a proof; use lines and comments don't count."""
    longest = {file: max(map(len, antt.body(file.read_text()).split("\n"))) for file in files("*/proofs/**/*.antt")}
    yield "longest line of a proof, characters", max(longest.values())
    yield f"files of proofs with a line over {LONG} characters", sum(length > LONG for length in longest.values())


def imports():
    """Names that scripts/sweep.py would take out of use lines, and files that it would change at all."""
    found = [(new != text, counts["imports: names"]) for crate in files("*") for _, text, new, counts in sweep.swept(crate)]
    yield "unused imports", sum(names for _, names in found)
    yield "files to sweep", sum(changed for changed, _ in found)


def edits():
    """A file with `wrong:` lines has one wrong program for each of them, any other is one. scripts/refusals.py counts `refuses:` lines,
    of which each such program has one."""
    texts = [file.read_text() for file in files("*/must-fail/*.edit")]
    yield "edit files", len(texts)
    yield "wrong programs", sum(len(re.findall(r"^wrong: ", text, re.M)) or 1 for text in texts)


def rested_on(patterns):
    """All lines of these files and of the files of definitions that their use lines lead to, one after the other; types that are declared
    in src (`specs.declared`) and what Rattle brings (`Rattle.std`) aren't followed."""
    todo, found = [file for pattern in patterns for file in files(pattern)], {}
    while todo:
        file = todo.pop()
        if file not in found:
            found[file] = file.read_text()
            used = [(CRATES / crate, name) for crate, name in SPECS.findall(found[file]) if name != "declared"]
            todo += [crate / "specs" / f"{name}.antt" for crate, name in used if crate.is_dir()]
    return sum(text.count("\n") for text in found.values())


def demand_3():
    yield "lines that the definitions of law_demand_3 and law_exported rest on", rested_on(DEMAND_3)
    yield "lines that `Session` and `Demand3` alone rest on", rested_on(STATEMENT)


def main():
    for measure in (sizes, listing, arrows, long_lines, imports, edits, demand_3):
        for name, figure in measure():
            print(f"{name}: {figure:,}" if isinstance(figure, int) else f"{name}: {figure}")


if __name__ == "__main__":
    main()
