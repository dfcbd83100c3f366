#!/usr/bin/env python3
"""Takes the packing out of the proof files of crates, in place.

In proofs/**/Proof.antt, the proofs of functions:
  places    comments that only say a place of the source (`-- src/lib.rt:80:9`) go;
  needs     a need that has one clause of one line, and is cited once, as an argument of the proof's last
            declaration, goes there: `returns c = refl` becomes the argument `(λ c. refl)`. Where such
            needs have an `unfolding` line, the last declaration gets it; those with another list stay;
  layout    the arguments of the last declaration are filled into lines; a `search rules` shares its line
            with others, and any other answer has a line of its own, in the order of the code.
In every file below proofs/:
  imports   names that neither the file nor a must-fail edit of it cites go; lines of one module become one line.

What stays as it is: statements, helper lemmas and `module _` sections; needs with a comment of their own,
with a hole, with several lines or clauses, with another `unfolding` list, or cited anywhere else. So where a
need has to keep its name (an inlined answer is refused, or is worth a word), write a comment above it.
A file with a hole keeps the names it imports: goals are printed by them.
A second run changes nothing. Layout is that of `rt fmt`. Prove the crates afterwards: `rt check` in each one's folder.
usage: scripts/sweep.py [--check] [CRATE..]   (without a name: every crate; --check: only says which files, and what in them would go)
"""
import collections
import pathlib
import re
import sys

from antt import TOKEN, cited, code, parse, render

WIDTH = 120
PLACE = re.compile(r"-- src/\S+\.rt:\d+:\d+$")
USE = re.compile(r"use (\S+?)(?:\.\{(.*)\}| as (\S+))?$")
NEED = re.compile(r"(?:\((\S+) : ℕ\) →\s+)?(\S+)\.Need-(\S+)")
SEARCH = re.compile(r"\(λ [^.]*\. search rules\)$")


def arguments_of(text):
    """The arguments of an application, or None where the brackets don't fit."""
    found, depth, start = [], 0, None
    for i, letter in enumerate(text + " "):
        depth += (letter in "({") - (letter in ")}")
        if depth < 0:
            return None
        if letter.isspace() and depth == 0:
            if start is not None:
                found.append(text[start:i])
            start = None
        elif start is None:
            start = i
    return found if depth == 0 else None


def joined(term):
    """A term of several lines in one line."""
    term = re.sub(r"\s*\n\s*", " ", term.strip())
    return re.sub(r"\( ", "(", re.sub(r",? \)", ")", term))


class Last:
    """The last declaration of a function's proof: `tie.close (tie.spec ARGUMENTS)`, or that of a cycle of calls."""

    def __init__(self, decl):
        self.decl, self.args, self.var = decl, None, None
        if len(decl.clauses) != 1 or code(decl.clauses[0]) != "\n".join(decl.clauses[0]):
            return
        clause = re.match(r"\S+ =\s+(.*)$", "\n".join(decl.clauses[0]), re.S)
        term = clause.group(1).strip() if clause else ""
        plain = re.match(r"tie\.close\s+\(\s*tie\.spec\s+(.*)\)$", term, re.S)
        cycle = re.match(r"(close\s+\S+\s+λ (\S+)\.\s+\S+\.spec)\s+(.*)$", term, re.S)
        if plain:
            self.head, self.tail, rest = "tie.close (tie.spec", ")", plain.group(1)
        elif cycle:
            self.head, self.tail, rest = joined(cycle.group(1)), "", cycle.group(3)
            self.var = cycle.group(2)
        else:
            return
        found = arguments_of(rest)
        self.args = found and [joined(argument) for argument in found]

    def citation(self, name):
        """A need as it stands among the arguments."""
        return name if self.var is None else f"({name} {self.var})"

    def has_own_line(self, argument):
        """An answer that isn't a search, and, but for a cycle of calls, any other term in brackets."""
        return argument.startswith("(" if self.var is None else "(λ") and not SEARCH.match(argument)

    def lay_out(self):
        arguments = self.args[:-1] + [self.args[-1] + self.tail]
        whole = f"{self.decl.name} = {self.head} {' '.join(arguments)}"
        if len(whole) <= 100:
            self.decl.clauses = [[whole]]
            return
        lines, line = [], ""
        for bare, argument in zip(self.args, arguments):
            alone = self.has_own_line(bare)
            if alone or line and 4 + len(line) + 1 + len(argument) > WIDTH:
                lines.append(line)
                line = ""
            line = f"{line} {argument}" if line else argument
            if alone:
                lines.append(line)
                line = ""
        lines = ["    " + line for line in [self.head] + lines + [line] if line]
        self.decl.clauses = [[f"{self.decl.name} ="] + lines]


def last_of(items):
    """The last declaration of a function's proof, where the file has one whose arguments are understood."""
    decls = [item for item in items if item.kind == "decl" and item.marks.strip() == "pub" and item.name.endswith("-spec")]
    if len(decls) == 1 and "statement" in decls[0].lines[-1]:
        last = Last(decls[0])
        if last.args:
            return last
    return None


def clause_of(item):
    """(binders, term) of a declaration's one clause, or None where it has several clauses or lines."""
    clause = re.match(r"\S+((?: \S+)*?) =(?: (.*))?$", item.clauses[0][0]) if len(item.clauses) == 1 else None
    if not clause:
        return None
    lines = ([clause.group(2)] if clause.group(2) else []) + [line.strip() for line in item.clauses[0][1:]]
    return (clause.group(1).split(), lines[0]) if len(lines) == 1 else None


def inline_of(item, last):
    """The argument that says what a need's declaration says, or None where it keeps its name."""
    if item.kind != "decl" or item.marks or item.above:
        return None
    need = NEED.match(" ".join(" ".join(item.lines).split()).split(" : ", 1)[1])
    clause = clause_of(item)
    if not need or not clause:
        return None
    binders, term = clause
    if "?" in term.split() or "--" in term.split() or not all(TOKEN.fullmatch(binder) for binder in binders):
        return None
    if last.citation(item.name) not in last.args or bool(need.group(1)) != bool(last.var):
        return None
    if last.var:
        if binders[:1] != [last.var]:
            return None
        binders = binders[1:]
    return f"(λ {' '.join(binders)}. {term})" if binders else f"({term})"


def inlined(items, last):
    """Each need that goes into the last declaration, and its argument, by its citation there; and the unfolding list that they share."""
    uses = collections.Counter()
    for item in items:
        if item.kind in ("decl", "other"):
            uses += cited(code(item.text()))
    found = {}
    for item in items:
        argument = inline_of(item, last)
        if argument and uses[item.name] == cited(code(item.text()))[item.name] + 1:
            found[last.citation(item.name)] = (item, argument)
    lists = collections.Counter(tuple(item.unfolding) for item, _ in found.values() if item.unfolding)
    shared = last.decl.unfolding or (max(lists, key=lists.get) if lists else [])
    found = {name: pair for name, pair in found.items() if not pair[0].unfolding or set(pair[0].unfolding) == set(shared)}
    return found, list(shared)


def sweep_needs(items, counts):
    last = last_of(items)
    if not last:
        return items
    found, shared = inlined(items, last)
    if any(item.unfolding for item, _ in found.values()):
        last.decl.unfolding = shared
    for _, argument in found.values():
        counts["needs: search" if SEARCH.match(argument) else "needs: other"] += 1
    last.args = [found[argument][1] if argument in found else argument for argument in last.args]
    last.lay_out()
    gone = [item for item, _ in found.values()]
    return [item for item in items if item not in gone]


def sweep_places(items, counts):
    def kept(lines):
        left = [line for line in lines if not PLACE.match(line)]
        counts["places"] += len(lines) - len(left)
        return left

    for item in items:
        item.above = kept(item.above)
        if item.kind == "comment":
            item.lines = kept(item.lines)
    return [item for item in items if item.kind != "comment" or item.lines]


class Imports:
    """The use lines of a file, of which those names stay that its text cites."""

    def __init__(self, text, hole, counts):
        self.names, self.hole, self.counts = cited(text), hole, counts
        self.parts = {part for name in self.names for part in name.split("◌")} | set(self.names)
        self.modules = {}  # the line of each module that is listed, and its names

    def used(self, name):
        name = name.split(" as ")[-1].strip("«» ")
        if self.hole or name in self.names:
            return True
        return "◌" in name and any(part in self.parts for part in name.split("◌") if part)

    def stays(self, item):
        """Whether a use line stays; the names in it that aren't used go, and those of a module that was listed before go there."""
        use = USE.match(" ".join(item.lines))
        if not use or item.above:
            return True
        module, listed, alias = use.groups()
        if listed is None:
            kept = self.used(alias or module.split(".")[-1])
            self.counts["imports: lines"] += not kept
            return kept
        names = [name.strip() for name in listed.split(",") if name.strip()]
        kept = [name for name in names if self.used(name)]
        self.counts["imports: names"] += len(names) - len(kept)
        line, had = self.modules.get(module, (item, []))
        if kept:
            had += [name for name in kept if name not in had]
            self.modules[module] = (line, had)
            if line is not item or kept != names:
                line.lines = [f"use {module}.{{{', '.join(had)}}}"]
        self.counts["imports: lines"] += line is not item or not kept
        return line is item and bool(kept)


def sweep_imports(items, counts, also):
    text = also + "\n" + "\n".join(code(item.text()) for item in items if item.kind != "use")
    hole = any(re.search(r"(?<![^\s(,])\?", code(item.text())) for item in items)
    imports = Imports(text, hole, counts)
    return [item for item in items if item.kind != "use" or imports.stays(item)]


def sweep(text, of_function, also):
    """(the text swept, what was taken away by kind). of_function: the file is a Proof.antt; also: text that the imports serve
    besides, which is what must-fail edits put in."""
    counts, items = collections.Counter(), parse(text)
    if render(items) != re.sub(r"\n{3,}", "\n\n", text.rstrip("\n") + "\n"):
        counts["left alone: layout"] += 1
        return text, counts
    if of_function:
        items = sweep_needs(sweep_places(items, counts), counts)
    return render(sweep_imports(items, counts, also)), counts


def edits_of(crate):
    """What the must-fail edits of a crate put into each file of it, by the file's path."""
    new = collections.defaultdict(str)
    for edit in (crate / "must-fail").glob("*.edit"):
        file = None
        for line in edit.read_text().split("\n"):
            if line.startswith("file: "):
                file = crate / line.removeprefix("file: ").strip()
            elif line.startswith("new:"):
                new[file] += line.removeprefix("new:") + "\n"
    return new


def swept(crate):
    """Of each proof file of a crate: its path, its text, the text swept, and what was taken away."""
    edits = edits_of(crate)
    for path in sorted((crate / "proofs").glob("**/*.antt")):
        text = path.read_text()
        yield path, text, *sweep(text, path.name == "Proof.antt", edits[path])


def main(arguments):
    check = arguments[:1] == ["--check"]
    names = arguments[check:] or [folder.name for folder in sorted(pathlib.Path("crates").iterdir())]
    missing = [name for name in names if not pathlib.Path("crates", name).is_dir()]
    if missing:
        print(f"sweep: no crate {' '.join(missing)}")
        return 2
    total, changed, before, after = collections.Counter(), 0, 0, 0
    for name in names:
        for path, text, new, counts in swept(pathlib.Path("crates", name)):
            if counts["left alone: layout"]:
                print(f"{path}: left alone, its layout is not that of rt fmt")
            total += counts
            before, after, changed = before + text.count("\n"), after + new.count("\n"), changed + (new != text)
            if new != text and check:
                print(f"sweep: {path}")
            elif new != text:
                path.write_text(new)
    for kind in sorted(total):
        print(f"{total[kind]:6}  {kind}")
    print(f"{changed} files {'to sweep' if check else 'swept'}, {before} lines -> {after}")
    return 1 if check and changed else 0


if __name__ == "__main__":
    sys.exit(main(sys.argv[1:]))
