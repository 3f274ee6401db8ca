"""Tries of wrong bodies: a check of the functions that have to refuse them, over the libraries that `rt ci` has left.

Edits of different functions of a crate stand in one copy of it, where holes stand for all proofs except theirs. An edit is refused where
a goal of such a function stays open that closes for the right body.
"""

import dataclasses
import os
import pathlib
import re
import shutil
import subprocess
import tempfile

import edits
import holes
import sources
from sources import ROOT

KIT = pathlib.Path(os.path.realpath(shutil.which("rt") or "rt")).parent.parent
# What comes of a try. Only the first is well.
REFUSED, BY_NAME, BAD, MISSED, UNKNOWN = "refused", "REFUSED BY NAME ALONE", "BAD EDIT", "NOT REFUSED", "NOT TRIED"
# The words of the checker where a proof names what is not there, where a proof rests on one that was refused, and where it gave up.
NAMES = re.compile(r"is not in scope|has no field|has no `|has no member|is no name|does not export|no such|unknown name|not found")
# A goal that a proof answers and that is not there, and an invariant of that kind.
LOST_GOAL = re.compile(r"`goal\.([\w-]+)`")
LOST_INVARIANT = re.compile(r"\bGiven\b")
RESTS = re.compile(r"(is|was) not admitted|has-holes|goal \?\S* in |goal _ in ")
CLOSED = ("no holes", "depends on a hole in", "proved")


class Lacking(Exception):
    """What a try needs and is not there."""


@dataclasses.dataclass
class Try:
    """An edit with the functions that have to refuse it, and whether it changes their bodies alone."""

    crate: str
    name: str
    pairs: list
    functions: list
    is_local: bool
    # Of each function that is there, its file and the lines between which it stands.
    spans: dict

    @property
    def label(self):
        return f"{self.crate}/{self.name}"


@dataclasses.dataclass
class Told:
    """What comes of a try: one of the words above, the function that told it, and what stays open or is wrong."""

    outcome: str
    function: str
    text: str


# ---- which functions have to refuse an edit


def place_at(code, places, offset):
    """The function of a file in whose body, or contract, a place of its text stands, and whether it is the body."""
    inside = [it for it in code.functions() if it.start <= offset <= it.end]
    if not inside:
        return None, False
    line = inside[-1].line
    found = next((it for it in places if f"crates/{code.crate}/{it.file}" == code.path and it.line == line), None)
    return found, offset >= inside[-1].body


def touched(crate, pairs, places):
    """The functions whose text the pairs change, and whether that is their bodies alone."""
    found, is_local = [], True
    for pair in pairs:
        path = ROOT / "crates" / crate / pair.file
        if not pair.file.startswith("src/") or not path.is_file():
            return found, False
        code = sources.Code(path)
        place, in_body = place_at(code, places, code.text.find(pair.old))
        # A second text may stand in what the first one has made.
        if pair.old in code.text:
            is_local &= in_body and place is not None
            found += [place.name] if place else []
    return list(dict.fromkeys(found)), is_local


def spans_of(functions, places):
    """Of each function its file, its line, and that of the next function there."""
    found = {}
    for place, behind in zip(places, [*places[1:], None]):
        if place.name in functions:
            found[place.name] = place.file, place.line, behind.line if behind and behind.file == place.file else 10**9
    return found


def of_promises(crate, promises, places):
    """The functions of a crate that promises name."""
    names = [it.split(" ")[0].removeprefix(f"{crate}::").split("::") for it in promises]
    return [it.name for words in names for it in places if list(it.path[-len(words) :]) == words]


def try_of(edit, places, named=()):
    """The try of an edit: of the functions that are named, or else that its lines `function: ` name, or of those that it changes."""
    path = ROOT / edit.path
    pairs = edits.pairs_of(path)
    own = re.findall(r"^function: *(\S+)", path.read_text(encoding="utf-8"), re.M)
    changed, is_local = touched(edit.crate, pairs, places)
    functions = [*named] or own or changed
    if not functions or not is_local and not (named or own):
        functions = of_promises(edit.crate, edit.promises, places) or functions
    # A function that is new in an `impl` changes nothing else.
    adds = all(it.new.startswith(it.old) and it.old.startswith("impl") for it in pairs)
    return Try(edit.crate, edit.name, pairs, functions, is_local or adds and bool(named or own), spans_of(functions, places))


def batches(tries):
    """Tries that can stand in one copy: of different functions. What changes more than bodies stands alone."""
    found = []
    for it in tries:
        free = (batch for batch in found if batch[0].is_local and not {*it.functions} & {f for other in batch for f in other.functions})
        batch = next(free, None) if it.is_local else None
        if batch is None:
            found.append([it])
        else:
            batch.append(it)
    return found


# ---- checks


def below(crate, uses):
    """The crates of the repository that a crate stands on."""
    found = {}
    for name in uses[crate]:
        if name in uses:
            found.update(dict.fromkeys([name, *below(name, uses)]))
    return list(found)


def library(name):
    place = ROOT / "crates" / name / "out" / "rlib" / f"{name}.rlib"
    if not (place / "format").is_file():
        raise Lacking(f"no {place.relative_to(ROOT)}: `rt ci` makes it")
    return place


def words_of(crate):
    """The words of the checker for a crate over what `rt ci` has left."""
    uses = sources.uses()
    root = "src/main.rt" if (ROOT / "crates" / crate / "src/main.rt").is_file() else "src/lib.rt"
    words = ["--crate-name", crate, root, "-L", f"dependency={KIT}/rlibs"]
    for name in ["std", *uses[crate]]:
        words += ["--extern", f"{name}={library(name) if name in uses else f'{KIT}/rlibs/{name}.rlib'}"]
    for name in below(crate, uses):
        words += ["-L", f"dependency={library(name).parent}"]
    words += ["--antt-project", f"{KIT}/rattle/logic/antt-project.json", "--logic-built", f"{KIT}/logic_built", "--links", f"{crate}="]
    line = re.search(rf"^{crate}\b[^:#\n]*", (ROOT / "crates.txt").read_text(encoding="utf-8"), re.M)
    return words + (["--crate-type", "staticlib"] if "staticlib" in line[0] else [])


@dataclasses.dataclass
class Check:
    """What the checker said of some functions of a crate: its status and lines, and the processor seconds that it took."""

    crate: str
    status: int
    text: str
    seconds: float

    def verdict(self, function):
        """What it says of a function, or of the first closure in it that is not proved."""
        head, _, name = function.rpartition("::")
        inner = f"{head}::fn::{name}" if head else f"fn::{name}"
        said = re.findall(rf"^fn {self.crate}::(?:\S+::)?(?:{re.escape(function)}|{re.escape(inner)}::\S+): (.*)$", self.text, re.M)
        return next((it for it in said if not it.startswith(CLOSED)), said[0] if said else "")

    @property
    def has_verdicts(self):
        return bool(re.search(r"^fn ", self.text, re.M))

    def entries(self):
        """What it says of places of sources and proofs: the file and the text of each, with what is indented below it."""
        place = r"^(?:note: |error\S*: )?(?:\./)?((?:src|specs|proofs)/[^:\s]+):\d+:\d+: "
        for it in re.finditer(place + r"(.*(?:\n[ \t]+.*)*)", self.text, re.M):
            yield it[1], it[2]

    def unanswered(self, span):
        """The goals without an answer that stay open in a function, each with what it says where that is told."""
        file, first, end = span
        for it in re.finditer(r"^note: (src/\S+?):(\d+):\d+: .*\(`([^`]+)`\)", self.text, re.M):
            if it[1] == file and first <= int(it[2]) < end:
                yield it[3]

    def meaning(self, goal, function):
        """What a goal of a function says, where it is told."""
        place = re.escape(function.replace("::", "/"))
        said = re.search(rf"^note: `{re.escape(goal)}` of \S*{place}/\S+ must prove: (.*)", self.text, re.M)
        return f": {said[1]}" if said else ""


def check(crate, tries, kept, changes=True):
    """Checks the functions of tries in a copy of their crate, with their edits or as it stands, over what a folder keeps."""
    functions = list(dict.fromkeys(name for it in tries for name in it.functions))
    with tempfile.TemporaryDirectory(prefix="wrong-body-") as room:
        folder = pathlib.Path(room)
        holes.copied(crate, folder)
        places = holes.places_of(folder)
        if not changes:
            there = [it.name for it in places]
            functions = [it for it in functions if any(name == it or name.endswith(f"::{it}") for name in there)]
        holes.put_holes(crate, folder, places, {*functions})
        for it in tries if changes else []:
            edits.make_pairs(folder, it.pairs)
        words = [KIT / "bin/rattle", "check", *words_of(crate), "--jobs", "1", "--incremental", kept, "--allow-holes", "--short-goals"]
        words += [word for name in functions for word in ("--only", name)]
        with open(folder / "said", "w+", encoding="utf-8", errors="replace") as said:
            running = subprocess.Popen(words, cwd=room, stdin=subprocess.DEVNULL, stdout=said, stderr=subprocess.STDOUT)
            _, status, used = os.wait4(running.pid, 0)
            running.returncode = os.waitstatus_to_exitcode(status)
            said.seek(0)
            text = said.read()
    if os.environ.get("WRONG_BODIES_LOG"):
        name = "right" if not changes else tries[0].name
        pathlib.Path(os.environ["WRONG_BODIES_LOG"], f"{crate}.{name}.log").write_text(text, encoding="utf-8")
    return Check(crate, running.returncode, text, used.ru_utime + used.ru_stime)


# ---- what a check tells of an edit


def shortened(text, most=140):
    """A text on one line, without the modules that lead to names of antt's."""
    text = re.sub(r"\b(?:Rattle|mathlib|Prim|seplogic)(?:\.[\w-]+)*\.(?=\S)", "", " ".join(text.split()))
    return text if len(text) <= most else f"{text[: most - 2]}.."


def unread(said, it):
    """What the checker could not read of the text that an edit made."""
    if not said.has_verdicts:
        lines = [line for line in said.text.splitlines() if re.search(r"\berror\b", line)]
        return shortened(lines[0]) if lines else ""
    changed = {pair.file for pair in it.pairs}
    wrong = (text for file, text in said.entries() if file in changed and not file.startswith("proofs/") and NAMES.search(text))
    return shortened(next(wrong, ""))


def is_of(file, function, it):
    """Whether a file of proofs is of a function. Lemmas are, where an edit stands alone."""
    return f"/{function.replace('::', '/')}/" in file or not it.is_local


def clause_of(goal):
    """The clause that a goal is of, or the last word of its name."""
    return goal.rpartition("-clause-")[2] if "-clause-" in goal else goal.rpartition("-")[2]


def is_renamed(goal, named):
    """Whether a goal without an answer may be one whose answer has lost its name, by what the checker says of names."""
    lost = [it for text in named for it in LOST_GOAL.findall(text)]
    return any(LOST_INVARIANT.search(text) for text in named) or clause_of(goal) in map(clause_of, lost)


def told_of(function, it, said):
    """What a check tells of an edit by one function."""
    verdict = said.verdict(function)
    if not verdict:
        return Told(UNKNOWN, function, shortened(f"the checker told nothing of it, status {said.status}: {said.text[-200:]}"))
    if verdict.startswith(CLOSED):
        return Told(MISSED, function, "it is proved with this edit")
    wrong = [text for file, text in said.entries() if file.startswith("proofs/") and is_of(file, function, it)]
    wrong = [text.removeprefix("error: ") for text in wrong if not RESTS.search(text.split("\n")[0])]
    named = [text for text in wrong if NAMES.search(text)]
    left = [*said.unanswered(it.spans[function])] if function in it.spans else []
    left = left or re.findall(r"`search` did not prove `([^`]+)`", verdict)
    left = [f"{goal}{said.meaning(goal, function)}" for goal in left if not is_renamed(goal, named)]
    if opened := [*left, *(text for text in wrong if text not in named)]:
        return Told(REFUSED, function, shortened(opened[0]))
    if verdict.startswith("could not tell"):
        return Told(UNKNOWN, function, shortened(verdict))
    return Told(BY_NAME, function, shortened(named[0] if named else verdict))


def told_of_all(it, said):
    """What a check tells of an edit: refused where one of its functions refuses it."""
    if bad := unread(said, it):
        return Told(BAD, "", bad)
    told = [told_of(function, it, said) for function in it.functions]
    order = (REFUSED, BY_NAME, UNKNOWN, MISSED, BAD)
    return min(told, key=lambda one: order.index(one.outcome))
