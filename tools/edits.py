"""Edits in the form of a wrong body, which tools make in a copy of the crates."""

import dataclasses
import pathlib
import sys


class Unfit(Exception):
    """Why an edit can't be made."""


@dataclasses.dataclass
class Pair:
    """An old text of a file of a crate, and what stands in its place."""

    crate: str
    file: str
    old: str
    new: str


def pairs_of(path):
    """The pairs of an edit, in order. They are of the crate that its folder names, or that a line `crate: ` does."""
    crate = next((part for part in reversed(pathlib.Path(path).resolve().parts) if part.startswith("nv_")), "")
    file, old, found = "", "", []
    for line in pathlib.Path(path).read_text(encoding="utf-8").splitlines():
        word, _, rest = line.partition(":")
        rest = rest.removeprefix(" ")
        if word == "crate":
            crate = rest
        elif word == "file":
            file = rest.strip()
        elif word == "old":
            old = rest
        elif word == "new":
            found.append(Pair(crate, file, old, rest))
    return found


def replaced(text, pair):
    """The text of a file behind one pair."""
    if not pair.old or text.count(pair.old) != 1:
        raise Unfit(f"{pair.old!r} stands {text.count(pair.old) if pair.old else 0} times in {pair.file}")
    return text.replace(pair.old, pair.new)


def make_pairs(folder, pairs):
    """Makes pairs in the copy of a crate that a folder has: all of them or none."""
    texts = {}
    for pair in pairs:
        if pair.file not in texts:
            place = pathlib.Path(folder) / pair.file
            if not place.is_file():
                raise Unfit(f"there is no file {pair.file}")
            texts[pair.file] = place.read_text(encoding="utf-8")
        texts[pair.file] = replaced(texts[pair.file], pair)
    for file, text in texts.items():
        (pathlib.Path(folder) / file).write_text(text, encoding="utf-8")


def make_edit(copy, path):
    """Makes an edit in a copy of the crates, or ends the tool where that can't be done."""
    for pair in pairs_of(path):
        try:
            make_pairs(pathlib.Path(copy) / "crates" / pair.crate, [pair])
        except Unfit as why:
            sys.exit(f"{path}: {why}")
