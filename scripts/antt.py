"""A proof file as items: comments, use lines, declarations, and anything else whole. Parsed and written again it is the same text,
where its layout is that of `rt fmt`. Used by scripts/sweep.py and scripts/measures.py.
"""
import collections
import re

SIGNATURE = re.compile(r"((?:unfoldable |abbrev |pub |axiom )*)(\S+)(?: \{[^}]*\})? :(?=\s|$)")
TOKEN = re.compile(r'[^\s(){}.;,@"«»]+')
KEYWORDS = ("module", "data", "record", "mutual", "infix", "infixl", "infixr", "open", "ruleset", "mod", "where", "deriving")


class Item:
    """A comment ('comment'), a use line ('use'), a declaration with its clauses ('decl'), or anything else ('other')."""

    def __init__(self, kind, lines, gap):
        self.kind, self.lines = kind, lines
        self.gap = gap  # a blank line stands above
        self.above = []  # the comment directly above
        # of a declaration: its name, the words before it, the names of its unfolding line, its clauses
        self.name, self.marks, self.unfolding, self.clauses = None, "", None, []

    def text(self):
        unfolding = ["unfolding " + " ".join(self.unfolding)] if self.unfolding else []
        return self.above + self.lines + unfolding + [line for clause in self.clauses for line in clause]


class Parser:
    """Takes the entries of a file in their order. A comment waits for what stands below it."""

    def __init__(self):
        self.items, self.waiting, self.waiting_gap = [], [], False

    def alone(self):
        """The comment that waits is an item of its own."""
        if self.waiting:
            self.items.append(Item("comment", self.waiting, self.waiting_gap))
        self.waiting = []

    def comment(self, lines, gap):
        if gap:
            self.alone()
        if not self.waiting:
            self.waiting_gap = gap
        self.waiting = self.waiting + lines

    def add(self, item):
        own = item.kind == "use" and not self.items  # the comment at a file's head is the file's own
        if self.waiting and not item.gap and not own:
            item.above, item.gap = self.waiting, self.waiting_gap
            self.waiting = []
        self.alone()
        self.items.append(item)

    def entry(self, lines, gap):
        word, signature = lines[0].split()[0], SIGNATURE.match(lines[0])
        last = self.items[-1] if self.items and not self.waiting else None
        declared = last is not None and last.kind == "decl"
        if word == "use":
            self.add(Item("use", lines, gap))
        elif declared and word == "unfolding" and not last.clauses:
            last.unfolding = " ".join(lines).split()[1:]
        elif declared and word == last.name and not signature:
            last.clauses.append(lines)
        elif signature and word not in KEYWORDS:
            item = Item("decl", lines, gap)
            item.marks, item.name = signature.groups()
            self.add(item)
        else:
            self.add(Item("other", lines, gap))


def entries(text):
    """The lines of a file, each with those that continue it, and whether a blank line stands above."""
    found, blank = [], False
    for line in text.split("\n"):
        if not line.strip():
            blank = True
            continue
        if found and line[0] in " )":
            found[-1][0].extend([""] * blank + [line])
        else:
            found.append(([line], blank))
        blank = False
    return found


def parse(text):
    """The items of a file, in order."""
    parser = Parser()
    for lines, gap in entries(text):
        if lines[0].startswith("--"):
            parser.comment(lines, gap)
        else:
            parser.entry(lines, gap)
    parser.alone()
    return parser.items


def render(items):
    """The text of a file."""
    lines, before = [], None
    for item in items:
        after_head = before == "use" and item.kind not in ("use", "comment")
        if lines and (item.gap or after_head):
            lines.append("")
        lines.extend(item.text())
        before = item.kind
    return "\n".join(lines) + "\n"


def code(lines):
    """The lines without their comments."""
    return "\n".join(re.sub(r"(^|\s)--(\s.*)?$", "", line) for line in lines)


def cited(text):
    """The names in a text, each as often as it stands there; no projections and no names of other modules."""
    return collections.Counter(m.group() for m in TOKEN.finditer(text) if not (m.start() and text[m.start() - 1] == "."))


def body(text):
    """What a file says apart from its use lines, those that hand names on among them, and its comments."""
    return "\n".join(code(item.text()) for item in parse(text) if not re.match(r"(?:unfoldable |pub )*use ", item.lines[0]))
