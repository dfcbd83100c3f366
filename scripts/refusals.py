#!/usr/bin/env python3
"""Holds each wrong program of the must-fail edits to a refusal of its own.

An edit file costs `rt ci` one check of its crate. Where that is long, one file holds several wrong programs, each begun by
  wrong: NAME          what is wrong, as a file's name would say it
  refuses: FUNCTION    the function whose proof must fail; of a law FILE.antt LEMMA, a file under proofs/ and the lemma in it
`rt ci` says of an edit file only that something in it is refused. So each is tried here too, in a copy of its crate, and the whole of
what `rt check` says of it is read; a wrong program that another of its file hides is then tried alone. A refusal counts where a fact
fails, not where a proof no longer fits the code's shape, names what is gone or rests on what was refused already.
What was found stands in crates/NAME/must-fail/REFUSED.md beside the sum of the texts that were read, the crate's and the edit's: an
edit is tried again once they change.
usage: scripts/refusals.py [--jobs N] [CRATE..]   (without a name: every crate; N crates are tried at a time)
       scripts/refusals.py --recorded             (tries none: judges what is recorded of texts that stand, and wants a record of each edit)
"""
import concurrent.futures
import hashlib
import pathlib
import re
import shutil
import subprocess
import sys
import tempfile

ERROR = re.compile(r"^(?:\./)?proofs/(\S+)\.antt:\d+:\d+: error: (?:`([^`]+)`)?(.*)$", re.M)
VERDICT = re.compile(r"^fn [a-z0-9_]+::(\S+): (not proved|no proof)(.*)$", re.M)
GOALS = re.compile(r"did not prove (.*)$")
SHAPE = ("not checked", "has no field", "has no `", "is not in scope")
CALLEE = ("it calls", "which has no proof")
ANSWERS = ("Proof", "Answers", "Invariants")
PARTS = ("src", "specs", "proofs")
HEAD = "# What refuses each edit\n\nWritten by scripts/refusals.py: the sum of the texts that were read, and what fails for itself, by which goals.\n\n"


def functions_of(folder):
    """The functions whose proofs stand in a folder under proofs/."""
    return folder.replace("/", "::").strip("+").split("+")


def refused_in(log):
    """What the log says is refused for itself, functions and lemmas as 'FILE.antt LEMMA', and the goals of each that fail."""
    refused, unfit = {}, set()
    for place, name, rest in ERROR.findall(log):
        folder, _, file = place.rpartition("/")
        is_function = folder and file in ANSWERS
        for it in functions_of(folder) if is_function else [f"{place}.antt {name}".strip()]:
            if any(words in rest for words in SHAPE):
                unfit.add(it)
            else:
                refused.setdefault(it, set()).update([name] if is_function and name else [])
    for function, _, rest in VERDICT.findall(log):
        if function not in unfit and not any(words in rest for words in CALLEE):
            refused.setdefault(function, set()).update(re.findall(r"`([^`]+)`", "".join(GOALS.findall(rest))))
    return refused


def crates_below(names):
    """The crates of crates.txt that the named ones stand on, with them, and their lines."""
    lines = [line.partition("#")[0].split(":") for line in pathlib.Path("crates.txt").read_text().splitlines()]
    below = {line[0].split()[0]: line[1].split() for line in lines if len(line) == 2}
    found, left = set(), list(names)
    while left:
        name = left.pop()
        if name in below and name not in found:
            found.add(name)
            left += below[name]
    return found, [":".join(line) for line in lines if line[0].split() and line[0].split()[0] in found]


class Copy:
    """A copy of a crate and those below it, in which wrong programs are tried."""

    def __init__(self, crate, room):
        self.crate, self.room = crate, pathlib.Path(room)
        names, lines = crates_below([crate.name])
        (self.room / ".git").mkdir()
        (self.room / "crates.txt").write_text("\n".join(lines) + "\n")
        for name in names:
            for part in PARTS:
                if (crate.parent / name / part).is_dir():
                    shutil.copytree(crate.parent / name / part, self.room / "crates" / name / part)

    def tried(self, edit):
        """What `rt check` says of the crate with an edit's text."""
        here, file, old, was = self.room / "crates" / self.crate.name, None, None, {}
        for line in edit.splitlines():
            word, _, text = line.partition(": ")
            if word == "file":
                file = here / text
                was.setdefault(file, file.read_text())
            elif word == "old":
                old = text
            elif word.rstrip(":") == "new":
                if file.read_text().count(old) != 1:
                    sys.exit(f"refusals: {self.crate.name}: a text of an edit doesn't stand once in {file.relative_to(here)}: {old}")
                file.write_text(file.read_text().replace(old, text))
        said = self.checked()
        for file, text in was.items():
            file.write_text(text)
        return said[1]

    def checked(self):
        """Whether `rt check` proves the crate as it stands in the copy, and what it says."""
        here = self.room / "crates" / self.crate.name
        ran = subprocess.run(["rt", "check"], cwd=here, stdout=subprocess.PIPE, stderr=subprocess.STDOUT, stdin=subprocess.DEVNULL, errors="replace")
        if ran.returncode not in (0, 1):
            sys.exit(f"refusals: {self.crate.name}: the check gave no verdict:\n{ran.stdout}")
        return ran.returncode == 0, ran.stdout


def programs_of(edit):
    """The wrong programs of an edit file, and the proof that each has to refuse, if it is named."""
    programs = [it for it in re.split(r"^(?=wrong: )", edit, flags=re.M) if it.strip()]
    return [(it, *re.findall(r"^refuses: (.+)$", it, re.M)) for it in programs]


def found(copy, name, edit):
    """What refuses an edit: of the whole, and of each wrong program alone that the whole hides."""
    logs = pathlib.Path("target/refusals", copy.crate.name)
    logs.mkdir(parents=True, exist_ok=True)

    def refused(text, to):
        log = copy.tried(text)
        (logs / f"{to}.log").write_text(log)
        return refused_in(log)

    whole, programs = refused(edit, name), programs_of(edit)
    if len(programs) > 1:
        for number, (text, *wanted) in enumerate(programs, 1):
            if not set(wanted) <= set(whole):
                whole.update({it: goals for it, goals in refused(text, f"{name}-{number}").items() if it in wanted})
    return whole


def judge(edit, refused):
    """The number of wrong programs in an edit file, and what is said of those that aren't refused for themselves."""
    wanted = re.findall(r"^refuses: (.+)$", edit, re.M)
    if not wanted:
        return 1, [] if refused else ["no fact of it fails"]
    wrong = [f"{name} is not refused for itself" for name in wanted if name not in refused]
    wrong += [f"{name} stands for two wrong programs" for name in sorted(set(wanted)) if wanted.count(name) > 1]
    return len(wanted), wrong


def sum_of(crate, edit):
    """A sum of an edit and of the crate's texts."""
    sum = hashlib.sha256(edit.encode())
    for part in PARTS:
        for file in sorted((crate / part).rglob("*")):
            if file.is_file():
                sum.update(f"\n{file.relative_to(crate)}\n".encode() + file.read_bytes())
    return sum.hexdigest()[:16]


def written(refused):
    """What refuses an edit, as a line of the record says it."""
    return "; ".join(f"{it} by {', '.join(sorted(goals))}" if goals else it for it, goals in sorted(refused.items()))


def recorded(crate, edits):
    """What was found of a crate's edits before, by name and sum, and the sums of their texts as they stand."""
    record = crate / "must-fail/REFUSED.md"
    said = re.findall(r"^- (\S+) ([0-9a-f]{16}): (.*)$", record.read_text(), re.M) if record.exists() else []
    return {(name, sum): refused for name, sum, refused in said}, {name: sum_of(crate, edit) for name, edit in edits.items()}


def proofs_in(refused):
    """The functions and lemmas of a line of the record."""
    return {it.partition(" by ")[0] for it in refused.split("; ") if it}


def standing(crate, edits):
    """What is recorded of the edits whose texts stand."""
    known, sums = recorded(crate, edits)
    return {name: proofs_in(known[name, sum]) for name, sum in sums.items() if (name, sum) in known}


def refusals_of(crate, edits):
    """What refuses each edit of a crate: as it was found before, while the texts stay, and else as a try of it finds."""
    known, sums = recorded(crate, edits)
    said = len(known)
    new = [name for name, sum in sums.items() if (name, sum) not in known]
    with tempfile.TemporaryDirectory(prefix="refusals-") as room:
        copy = Copy(crate, room) if new else None
        if new and not copy.checked()[0]:
            sys.exit(f"refusals: {crate.name} isn't proved as it stands")
        for name in new:
            print(f"refusals: {crate.name}: trying {name}", flush=True)
            known[name, sums[name]] = written(found(copy, name, edits[name]))
    if new or said != len(sums):
        (crate / "must-fail/REFUSED.md").write_text(HEAD + "".join(f"- {name} {sum}: {known[name, sum]}\n" for name, sum in sums.items()))
    return {name: proofs_in(known[name, sum]) for name, sum in sums.items()}


def main(words):
    jobs = int(words[1]) if words[:1] == ["--jobs"] else 1
    tries = words[:1] != ["--recorded"]
    names = words[2:] if words[:1] == ["--jobs"] else words if tries else []
    edits = {}
    for crate in sorted(pathlib.Path("crates").iterdir()):
        files = sorted((crate / "must-fail").glob("*.edit"))
        if files and (crate.name in names or not names):
            edits[crate] = {file.stem: file.read_text() for file in files}
    programs, checks, bad, left = 0, 0, 0, 0
    with concurrent.futures.ThreadPoolExecutor(jobs) as pool:
        for crate, refusals in zip(edits, pool.map(refusals_of if tries else standing, edits, edits.values())):
            left += len(edits[crate]) - len(refusals)
            for name, edit in edits[crate].items():
                if name not in refusals:
                    continue
                count, wrong = judge(edit, refusals[name])
                programs, checks, bad = programs + count, checks + 1, bad + len(wrong)
                for it in wrong:
                    print(f"refusals: {crate.name}/{name}: {it}")
    print(f"{programs} wrong programs in {checks} checks, {bad} not refused for themselves" + (f"; {left} edits have no record" if left else ""))
    return 1 if bad or left and not tries else 0


if __name__ == "__main__":
    sys.exit(main(sys.argv[1:]))
