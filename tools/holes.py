"""Where the functions of a crate stand, by the paths that the checker gives them, and holes in the place of their proofs."""

import dataclasses
import re
import shutil

from sources import ROOT

HEAD = re.compile(r"( *)(?:pub(?:\(\w+\))? )?(?:const )?(?:unsafe )?(?:extern \"C\" )?fn (\w+)")
TYPE = re.compile(r"^(?:pub(?:\(\w+\))? )?(?:struct|enum|union) (\w+)", re.M)
# What the checker reads of a function that has a proof of its own.
PROOFS = ("Invariants.antt", "Answers.antt", "Proof.antt")


@dataclasses.dataclass
class Place:
    """A function: its file below the crate, its line, and its path as the checker tells it. Some paths are the end of it alone."""

    file: str
    line: int
    path: tuple
    # Whether a hole may stand for its proof: neither the method of a trait, nor a function that calls itself.
    takes_hole: bool

    @property
    def name(self):
        return "::".join(self.path)


def modules_of(file):
    """The modules that lead to a file below src/."""
    parts = file.removeprefix("src/").removesuffix(".rt").split("/")
    return [] if parts in (["lib"], ["main"]) else parts[:-1] if parts[-1] == "mod" else parts


def without_parameters(text):
    """The text behind the parameters with which it begins, if it does."""
    depth = 0
    for at, letter in enumerate(text if text.startswith("<") else ""):
        depth += (letter == "<") - (letter == ">" and text[at - 1] != "-")
        if depth == 0:
            return text[at + 1 :].strip()
    return text.strip()


def words_in(text):
    """The names in a trait, as the checker puts them together: `From<AllocFailed<T>>` is `FromAllocFailed`."""
    return "".join(it for it in re.findall(r"(?:\w+::)*(\w+)", text) if len(it) > 1 and it[0].isupper())


class Owner:
    """The block in which lines of a file stand: an `impl` with the path of its functions, another block, or none."""

    def __init__(self, line, modules, types):
        self.path, self.of_trait = None, False
        if not line.startswith("impl"):
            return
        head = without_parameters(line.removeprefix("impl").strip().rstrip("{").strip())
        name = re.match(r"[\w:]+", head.partition(" for ")[2] or head)
        owner = name[0].split("::")[-1] if name else ""
        if " for " in head:
            self.of_trait = True
            self.path = (owner + words_in(without_parameters(head.partition(" for ")[0])),)
        else:
            where = types.get(owner, [])
            home = modules if modules in where else where[0] if len(where) == 1 else None
            self.path = None if home is None else (*home, owner)


def is_recursive(name, owner, body):
    call = rf"\bself\.{name}\(|\bSelf::{name}\(" if owner else rf"(?<![\w.:]){name}\("
    return bool(re.search(call, body))


def body_behind(lines, at, indent):
    """The text of the function whose head stands in this line, without its head."""
    end = next((it for it in range(at + 1, len(lines)) if lines[it].rstrip() == indent + "}"), len(lines))
    return "\n".join(lines[at + 1 : end])


def places_in(file, text, types):
    """The functions of a file, in order. Those within others are left out."""
    modules, lines, owner, attributes = modules_of(file), text.split("\n"), None, ""
    for at, line in enumerate(lines):
        stripped = line.strip()
        if line.startswith("impl") or re.match(r"(pub(\(\w+\))? )?(unsafe )?(trait|mod) .*\{$", line.rstrip()):
            owner = Owner(line, modules, types)
        elif line.startswith("}"):
            owner = None
        elif stripped.startswith("#["):
            attributes += stripped
        elif head := HEAD.match(line):
            indent, name = head.groups()
            depth = 0 if owner is None else 4
            if len(indent) == depth and "test" not in attributes and (owner is None or owner.path):
                path = (*modules, name) if owner is None else (*owner.path, name)
                alone = is_recursive(name, owner, body_behind(lines, at, indent)) or "cycle(" in attributes
                yield Place(file, at + 1, path, not alone and not (owner and owner.of_trait))
            attributes = ""
        elif not stripped.startswith("//"):
            attributes = ""


def places_of(folder):
    """The functions of a crate that lies in a folder."""
    texts = {it.relative_to(folder).as_posix(): it.read_text(encoding="utf-8") for it in sorted((folder / "src").rglob("*.rt"))}
    types = {}
    for file, text in texts.items():
        for name in TYPE.findall(text):
            types.setdefault(name, []).append(tuple(modules_of(file)))
    types = {name: [list(it) for it in where] for name, where in types.items()}
    return [it for file, text in texts.items() for it in places_in(file, text, types)]


def put_holes(crate, folder, places, kept):
    """Puts a hole in the place of the proof of each function, except those whose names are kept."""
    for place in places:
        if not place.takes_hole or place.name in kept:
            continue
        proof = folder / "proofs" / "/".join(place.path)
        proof.mkdir(parents=True, exist_ok=True)
        for name in PROOFS:
            (proof / name).unlink(missing_ok=True)
        stated, name = f"Rattle.{crate}.proofs.{'.'.join(place.path)}.Statement", f"{place.path[-1]}_spec"
        (proof / "Proof.antt").write_text(
            f"use {stated} as stated\n\npub {name} : {{M : Type 1}} → stated.statement M\n{name} = ?\n", encoding="utf-8"
        )


def copied(crate, folder):
    """Copies what a check reads of a crate."""
    for part in ("src", "specs", "proofs", "c"):
        place = ROOT / "crates" / crate / part
        if place.is_dir():
            shutil.copytree(place, folder / part)
