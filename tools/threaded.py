"""What tools/threads and tools/stress-threads begin with: a caller of the service in threads, from the texts in tools/threaded."""

import os
import pathlib
import shutil
import subprocess
import sys
import tempfile

from edits import make_edit

ROOT = pathlib.Path(__file__).resolve().parent.parent
TEXTS = ROOT / "tools/threaded"
CRATE = "nv_threaded"
LIBRARIES = "nv_base nv_calls nv_core nv_service nv_script anyhow"
# Functions that run under a lock from their beginning to their end, by their paths. They are built apart from those that call them.
HELD = {
    "commit lock": ["nv_sessions::commit::commit_over", "nv_sessions::book::LockedBook::drop_snapshot"],
    "files' locks": [
        "nv_sessions::guards::change_taken",
        "nv_sessions::held::take_out",
        "nv_sessions::held::put_back",
        "nv_sessions::cleaners::clean_log",
        "nv_calls::view::read_on",
        "nv_sessions::session::Session::see",
    ],
    "lists' locks": ["nv_sessions::asking::Asking::take_from", "nv_sessions::giving_back::Giving::give_blocks"],
    "pool's lock": ["nv_alloc::inode_pool::InodePool::take", "nv_sessions::giving_back::Giving::put_back"],
}


def make_copy(copy, edits):
    """The crates, and the caller as one of them."""
    shutil.copytree(ROOT / "crates", copy / "crates", ignore=shutil.ignore_patterns("out", "proofs"))
    shutil.copy(ROOT / "HANDLES", copy)
    source = copy / "crates" / CRATE / "src"
    source.mkdir(parents=True)
    for text in TEXTS.glob("*.txt"):
        shutil.copy(text, source / f"{text.stem}.rt")
    lines = (ROOT / "crates.txt").read_text(encoding="utf-8")
    (copy / "crates.txt").write_text(f"{lines}{CRATE}: {LIBRARIES}\n", encoding="utf-8")
    for path in edits:
        make_edit(copy, path)


def is_fresh(program, edits):
    """Whether the program was built after the last change of what it is built from."""
    if not program.is_file():
        return False
    sources = [*(ROOT / "crates").glob("*/src/**/*.rt"), *(ROOT / "crates").glob("*/specs/**/*.antt"), *TEXTS.glob("*.txt")]
    newest = max(it.stat().st_mtime for it in [*sources, *map(pathlib.Path, edits), pathlib.Path(__file__)])
    return newest < program.stat().st_mtime


def built(program, edits=(), checks="all"):
    """Builds the caller as this file, unless it is there and no source is newer: with all checks of indices and sums, or with none."""
    program = pathlib.Path(program).resolve()
    if missing := [it for it in edits if not pathlib.Path(it).is_file()]:
        sys.exit(f"{missing[0]}: there is no such edit")
    if is_fresh(program, edits):
        return str(program)
    print(f"{program} is built, in some three minutes", file=sys.stderr, flush=True)
    with tempfile.TemporaryDirectory() as folder:
        copy = pathlib.Path(folder)
        make_copy(copy, edits)
        asked = {"APART": " ".join(path for paths in HELD.values() for path in paths), "CHECKS": checks}
        words = [ROOT / "tools/build-unproved", program, copy / "crates" / CRATE]
        made = subprocess.run(words, env=os.environ | asked, stderr=subprocess.PIPE, text=True)
    if made.returncode != 0:
        sys.exit(f"{made.stderr}{program} could not be built")
    return str(program)
