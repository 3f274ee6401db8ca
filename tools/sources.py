"""What the sources say: functions with their clauses, definitions, types with their invariants, edits and tests.

`tools/promises`, `tools/definitions`, `tools/laws` and `tools/invariants` print tables of it.
"""

import dataclasses
import os
import pathlib
import re
import sys

ROOT = pathlib.Path(__file__).resolve().parent.parent
# The crates of tests, and those that tests start from.
TESTS = ("nv_tests_", "nv_scenes")

# A comment, a text, a character or a lifetime is no name and opens nothing.
SKIPPED = r"//[^\n]*|/\*.*?\*/|b?r?\"(?:\\.|[^\"\\])*\"|b?'(?:\\[^\n]+?|[^'\\\n])'|'\w+"
TOKEN = re.compile(rf"(?P<skipped>{SKIPPED})|\w+|::|->|=>|[^\w\s]", re.S)
OPENING, CLOSING = "([{", ")]}"
CLAUSES = ("ensures", "requires")


@dataclasses.dataclass
class Clause:
    """A clause: `ensures` or `requires`, its name if it has one, its text, and the comment above it."""

    kind: str
    name: str
    text: str
    line: int
    comment: str

    @property
    def word(self):
        """What a promise calls it."""
        return self.name or self.kind


@dataclasses.dataclass
class Function:
    crate: str
    path: str
    line: int
    name: str
    owner: str
    is_public: bool
    comment: str
    clauses: list
    start: int
    # Where its body begins.
    body: int
    end: int
    is_law: bool
    is_test: bool

    @property
    def full_name(self):
        return f"{self.owner}::{self.name}" if self.owner else self.name

    @property
    def ensured(self):
        return [it for it in self.clauses if it.kind == "ensures"]

    @property
    def sentence(self):
        return first_sentence(self.comment)


@dataclasses.dataclass
class Field:
    """A field of a record, or a constructor of a type: its text, and the comment above it."""

    name: str
    text: str
    comment: str
    line: int


@dataclasses.dataclass
class Definition:
    """A definition of specs/, with the fields of a record or the constructors of a type: in order."""

    crate: str
    path: str
    line: int
    name: str
    kind: str
    comment: str
    fields: list


@dataclasses.dataclass
class Held:
    """What always holds of a type: an invariant of its model, or a ghost field, with the text and the comments of both."""

    crate: str
    path: str
    line: int
    owner: str
    name: str
    text: str
    comment: str


@dataclasses.dataclass
class Edit:
    """A wrong body: where it lies, the file of its crate that it changes, its old texts, what it says that it breaks, and whether the gate
    tries it."""

    crate: str
    path: str
    file: str
    olds: list
    promises: list
    in_gate: bool

    @property
    def name(self):
        return pathlib.PurePath(self.path).stem


def first_sentence(comment):
    """The first sentence of a comment."""
    comment = " ".join(comment.split())
    found = re.search(r"[.:;](?=\s+[A-Z`*\"\[(]|\s*$)", comment)
    return comment[: found.start()] if found else comment


def sentences(comment):
    """The sentences of a comment, one after another."""
    found = re.split(r"(?<=[.])\s+(?=[A-Z`*\"\[(])", " ".join(comment.split()))
    return [it for it in found if it]


def crates():
    """The names of all crates, lowest first."""
    lines = (ROOT / "crates.txt").read_text().splitlines()
    return [re.split(r"[ :]", it)[0] for it in lines if it and not it.startswith("#")]


def uses():
    """For each crate, those that it stands on."""
    lines = (ROOT / "crates.txt").read_text().splitlines()
    heads = [it.partition(":") for it in lines if it and not it.startswith("#")]
    return {head.split()[0]: rest.split() for head, _, rest in heads}


def files(crate, part, kind):
    folder = ROOT / "crates" / crate / part
    return sorted(it for it in folder.rglob(f"*{kind}") if it.is_file())


def relative(path):
    return path.relative_to(ROOT).as_posix()


class Code:
    """A source file of code: its text and its tokens, each with its place, without comments and texts."""

    def __init__(self, path):
        self.path = relative(path)
        self.crate = self.path.split("/")[1]
        self.text = path.read_text(encoding="utf-8")
        self.lines = self.text.split("\n")
        self.tokens = [(it[0], it.start()) for it in TOKEN.finditer(self.text) if it["skipped"] is None]
        self.ends = self._ends()
        self.breaks = [it.start() for it in re.finditer("\n", self.text)]

    def _ends(self):
        """For the place of each opening bracket in the tokens, that of the one that closes it."""
        ends, open_ = {}, []
        for at, (token, _) in enumerate(self.tokens):
            if token in OPENING:
                open_.append(at)
            elif token in CLOSING and open_:
                ends[open_.pop()] = at
        return ends

    def line_of(self, place):
        return self.text.count("\n", 0, place) + 1

    def comment_above(self, line):
        """The comment that ends above a line, attributes aside, as one text."""
        found, at = [], line - 2
        while at >= 0 and self.lines[at].strip().startswith("#["):
            at -= 1
        while at >= 0 and re.match(r"\s*//", self.lines[at]) and not re.match(r"\s*//!", self.lines[at]):
            found.append(re.sub(r"^\s*///? ?", "", self.lines[at]))
            at -= 1
        return "\n".join(reversed(found))

    def owners(self):
        """Each block of an `impl` or a `trait`: the type, and the tokens between which it stands."""
        found = []
        for at, (token, _) in enumerate(self.tokens):
            if token not in ("impl", "trait") or (at and self.tokens[at - 1][0] not in ("}", ";", "]", "pub", "unsafe")):
                continue
            head, depth, place = [], 0, at + 1
            while place < len(self.tokens) and not (self.tokens[place][0] in "{;" and depth == 0):
                word = self.tokens[place][0]
                if word == "<":
                    depth += 1
                elif word == ">":
                    depth -= 1
                elif depth == 0:
                    head.append(word)
                place += 1
            if "for" in head:
                head = head[head.index("for") + 1 :]
            head = head[: head.index("where")] if "where" in head else head
            names = [it for it in head if re.match(r"[A-Z]\w*$", it)]
            found.append((names[-1] if names else "", place, self.ends.get(place, place)))
        return found

    def public_traits(self):
        """The blocks of public traits, whose methods are public too."""
        heads = (at for at, (token, _) in enumerate(self.tokens) if at and token == "trait" and self.tokens[at - 1][0] == "pub")
        return [(here, self.ends.get(here, here)) for here in map(self._opening, heads)]

    def functions(self):
        """The functions, in order."""
        owners, traits, found = self.owners(), self.public_traits(), []
        for at, (token, place) in enumerate(self.tokens):
            if token != "fn" or at + 1 >= len(self.tokens) or not self.tokens[at + 1][0].isidentifier():
                continue
            made = self._function(at, place, owners)
            if made:
                made.is_public |= any(begin < at < end for begin, end in traits)
                found.append(made)
        return found

    def _function(self, at, place, owners):
        tokens, name = self.tokens, self.tokens[at + 1][0]
        line = self.line_of(place)
        here, clauses, angle = at + 2, [], 0
        while here < len(tokens):
            token, start = tokens[here]
            if token in CLAUSES:
                here += tokens[here + 1][0] == "*"
                named = tokens[here + 1][0] != "{"
                body = here + 1 + named
                end = self.ends.get(body)
                if tokens[body][0] != "{" or end is None:
                    return None
                of = self.line_of(start)
                text = " ".join(self.text[tokens[body][1] + 1 : tokens[end][1]].split())
                clauses.append(Clause(token, tokens[here + 1][0] if named else "", text, of, self.comment_above(of)))
                here = end + 1
            elif token in "([":
                here = self.ends.get(here, here) + 1
            elif token in "{;":
                break
            else:
                here += 1
        if here >= len(tokens):
            return None
        last = self.ends.get(here, here) if tokens[here][0] == "{" else here
        first = self.lines[line - 1]
        owner = next((name for name, begin, end in reversed(owners) if begin < at < end), "")
        above = "\n".join(self.lines[max(line - 6, 0) : line - 1])
        attributes = re.search(r"((?:^\s*#\[[^\n]*\]\n?)+)\Z", above + "\n", re.M)
        return Function(
            crate=self.crate,
            path=self.path,
            line=line,
            name=name,
            owner=owner,
            is_public=bool(re.match(r"\s*pub (?!\()", first)),
            comment=self.comment_above(line),
            clauses=clauses,
            start=place,
            body=tokens[here][1],
            end=tokens[last][1],
            is_law=bool(clauses) and self._is_of_nothing(at + 2),
            is_test=bool(attributes and "#[test" in attributes[1]),
        )

    def _is_of_nothing(self, at):
        """Whether the function whose name stands before this place takes nothing and gives nothing: such a one is a law."""
        return [it for it, _ in self.tokens[at : at + 2]] == ["(", ")"] and self.tokens[at + 2][0] != "->"

    def held(self):
        """What always holds of the types of this file."""
        owners, found = self.owners(), []
        types = [
            (self.tokens[at + 1][0], here, self.ends.get(here, here))
            for at, (token, _) in enumerate(self.tokens)
            if token in ("struct", "enum") and at + 1 < len(self.tokens)
            for here in [self._opening(at)]
        ]
        for at, (token, place) in enumerate(self.tokens):
            if token != "ghost" or at + 3 >= len(self.tokens):
                continue
            name, mark = self.tokens[at + 1][0], self.tokens[at + 2][0]
            body = at + 3
            if self.tokens[body][0] != "{":
                continue
            text = " ".join(self.text[self.tokens[body][1] + 1 : self.tokens[self.ends.get(body, body)][1]].split())
            line = self.line_of(place)
            if name == "invariant" and mark == "=":
                owner = next((it for it, begin, end in reversed(owners) if begin < at < end), "")
            elif mark == ":":
                owner = next((it for it, begin, end in reversed(types) if begin < at < end), "")
            else:
                continue
            if owner:
                found.append(Held(self.crate, self.path, line, owner, name, text, self.comment_above(line)))
        return found

    def _opening(self, at):
        while at < len(self.tokens) and self.tokens[at][0] not in "{;(":
            at += 1
        return at

    def types(self):
        """The types and traits that the file declares, each with its line and its comment."""
        found = {}
        for at, (token, place) in enumerate(self.tokens):
            if token in ("struct", "enum", "trait") and at + 1 < len(self.tokens):
                line = self.line_of(place)
                found[self.tokens[at + 1][0]] = (line, self.comment_above(line))
        return found

    def module_comment(self):
        found = []
        for line in self.lines:
            if not line.startswith("//!"):
                break
            found.append(line[3:].strip())
        return "\n".join(found)


HEAD = re.compile(r"^(?:abbrev |unfoldable )?pub (?:(record|data) )?([^\s:(]+)")
INNER = re.compile(r"^  (?:pub )?([^\s:]+) :")


def definitions_in(path):
    """The public definitions of a file of specs/, and the comment at its head."""
    lines = path.read_text(encoding="utf-8").split("\n")
    name, found = relative(path), []
    crate = name.split("/")[1]

    def above(at):
        comment = []
        while at > 0 and re.match(r"\s*--( |$)", lines[at - 1]):
            at -= 1
            comment.insert(0, re.sub(r"^\s*-- ?", "", lines[at]))
        return "\n".join(comment)

    def text_from(at):
        """What a field says, which may go on in lines that stand further in."""
        text = [re.sub(r"^  (pub )?\S+ : *", "", lines[at])]
        while at + 1 < len(lines) and re.match(r"\s{4,}\S", lines[at + 1]) and not lines[at + 1].strip().startswith("--"):
            at += 1
            text.append(lines[at].strip())
        return " ".join(text)

    head = []
    for line in lines:
        if not line.startswith("--"):
            break
        head.append(line[2:].strip())
    for at, line in enumerate(lines):
        it = HEAD.match(line)
        if not it or it[2] in ("mod", "use"):
            continue
        fields = []
        if it[1]:
            inner = at + 1
            while inner < len(lines) and (lines[inner].startswith(" ") or not lines[inner].strip()):
                field = INNER.match(lines[inner])
                if field:
                    fields.append(Field(field[1], text_from(inner), above(inner), inner + 1))
                inner += 1
        found.append(Definition(crate, name, at + 1, it[2], it[1] or "abbrev", above(at), fields))
    return found, "\n".join(head)


def definitions(crate):
    """The public definitions of a crate, file by file, with the comment at the head of each file."""
    return [(relative(it), *reversed(definitions_in(it))) for it in files(crate, "specs", ".antt") if it.name != "Lib.antt"]


def by_name(of_crates):
    """All definitions of these crates, by their names."""
    found = {}
    for crate in of_crates:
        for _, _, inside in definitions(crate):
            for it in inside:
                found.setdefault(it.name, []).append(it)
    return found


def names_of(text):
    """The names that a text has, in their order, without fields behind a dot."""
    return list(dict.fromkeys(re.findall(r"(?<![.\w])[A-Za-z]\w*", text)))


def meant(name, path, text, every):
    """The definition that a name means in a file: one of that file, or the one that it imports."""
    for it in every.get(name, []):
        module = "Rattle." + it.path.removeprefix("crates/").removesuffix(".antt").replace("/", ".")
        if it.path == path or re.search(rf"\buse {re.escape(module)}\.\{{[^}}]*(?<!\w){re.escape(name)}(?!\w)", text):
            return it
    return None


def codes(crate):
    return [Code(it) for it in files(crate, "src", ".rt")]


@dataclasses.dataclass
class Row:
    """A row of wrong-bodies/gate.tsv: an edit that the gate tries, its crate, the functions that refuse it, and the bug of the list."""

    edit: str
    crate: str
    functions: list
    bug: str


def gate_rows():
    """The wrong bodies that the gate tries, in the order of the table."""
    lines = (ROOT / "wrong-bodies" / "gate.tsv").read_text(encoding="utf-8").splitlines()
    lines = [it.split("\t") for it in lines if it.strip() and not it.startswith("#")]
    return [Row(edit, crate, functions.split(), bug[0] if bug else "") for edit, crate, functions, *bug in lines[1:]]


def edits(crate):
    """The wrong bodies of a crate: those that the gate tries, then the others."""
    found, in_gate = [], {it.edit for it in gate_rows() if it.crate == crate}
    for path in sorted((ROOT / "wrong-bodies" / crate).glob("*.edit")):
        text = path.read_text(encoding="utf-8")
        files_ = re.findall(r"^file: *(\S+)", text, re.M)
        said = re.findall(r"^(?:# )?promise: *(.+?) *$", text, re.M)
        found.append(
            Edit(crate, relative(path), files_[0] if files_ else "", re.findall(r"^old: (.*)$", text, re.M), said, path.stem in in_gate)
        )
    return sorted(found, key=lambda it: not it.in_gate)


def run(main):
    """Runs a tool, and ends well where whoever reads has enough of it, as `head` does."""
    try:
        status = main(sys.argv[1:])
        sys.stdout.flush()
    except BrokenPipeError:
        os.dup2(os.open(os.devnull, os.O_WRONLY), 1)
        status = 0
    return status
