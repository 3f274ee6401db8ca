"""What was tried and refused, kept by a sum of all that a try rests on: the edit, its crate, all crates below and the toolchain."""

import functools
import hashlib
import json
import os
import pathlib

import sources
import trying
from sources import ROOT

# What says how a try is made and what it means.
OWN = ("edits.py", "holes.py", "trying.py", "kept_tries.py")


def store():
    """The folder that has what was kept."""
    cache = os.environ.get("XDG_CACHE_HOME") or os.path.expanduser("~/.cache")
    return pathlib.Path(cache) / "novacore" / "wrong-bodies"


@functools.lru_cache(maxsize=None)
def sum_of_tools():
    """A sum of the toolchain and of these tools."""
    found = hashlib.sha256()
    for name in ("KIT-ID", "bin/rt", "bin/rtlib.py"):
        found.update((trying.KIT / name).read_bytes() if (trying.KIT / name).is_file() else b"")
    checker = (trying.KIT / "bin/rattle").stat()
    found.update(f"{checker.st_size} {checker.st_mtime_ns}".encode())
    for name in OWN:
        found.update((ROOT / "tools" / name).read_bytes())
    return found.hexdigest()


@functools.lru_cache(maxsize=None)
def sum_of(crate):
    """A sum of a crate and of the libraries below it as they were built. The checker holds a library to the sums in its file `format`."""
    found, uses = hashlib.sha256(sum_of_tools().encode()), sources.uses()
    found.update(repr((crate, uses[crate])).encode())
    for part, kind in (("src", ".rt"), ("specs", ".antt"), ("proofs", ".antt")):
        for path in sources.files(crate, part, kind):
            found.update(f"{sources.relative(path)}\n".encode() + path.read_bytes())
    for name in sorted(trying.below(crate, uses)):
        found.update(hashlib.sha256((trying.library(name) / "format").read_bytes()).digest())
    return found.hexdigest()


class Kept:
    """What was kept, where it can be."""

    def __init__(self, is_anew):
        self.folder, self.is_anew, self.why = store(), is_anew, ""
        try:
            self.folder.mkdir(parents=True, exist_ok=True)
            (self.folder / f".{os.getpid()}").touch()
            (self.folder / f".{os.getpid()}").unlink()
        except OSError as error:
            self.why = error.strerror

    def _place(self, crate, what):
        whole = hashlib.sha256(repr((sum_of(crate), what)).encode())
        return self.folder / whole.hexdigest()

    def _read(self, crate, what):
        if self.is_anew or self.why:
            return None
        try:
            return json.loads(self._place(crate, what).read_text(encoding="utf-8"))
        except (OSError, ValueError):
            return None

    def _write(self, crate, what, told):
        if self.why:
            return
        place = self._place(crate, what)
        beside = place.with_suffix(f".{os.getpid()}")
        beside.write_text(json.dumps(told), encoding="utf-8")
        beside.replace(place)

    def refused(self, it):
        """What an earlier try of an edit told, if it was refused."""
        found = self._read(it.crate, self._edit(it))
        return found and trying.Told(trying.REFUSED, *found)

    def keep_refused(self, it, told):
        self._write(it.crate, self._edit(it), [told.function, told.text])

    def _edit(self, it):
        return [[pair.file, pair.old, pair.new] for pair in it.pairs], it.functions

    def is_closed(self, crate, function):
        """Whether an earlier check of the crate as it stands has proved the function in the same way."""
        return self._read(crate, function) is not None

    def keep_closed(self, crate, function):
        self._write(crate, function, True)
