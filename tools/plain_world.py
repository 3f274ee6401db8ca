"""The plain world: what calls are answered that are made one after another, by the rules of docs/script.md. For tools/stress-threads.

Each commit makes a new version of some inodes, and all versions are kept. So a world can be asked for what it was behind any commit. A
place is a number of commits.
"""

import bisect
import dataclasses
import re

ROOT = "0.1"
FILE, DIRECTORY = "f", "d"
MOST_PAGES, MOST_WRITTEN = 65_536, 1_024
# The kinds of a file's calls, and those that only ask.
VIEWS = {"read", "stat", "list", "lookup"}
CHANGES = {"create", "mkdir", "write", "size", "mode", "unlink", "rmdir", "rename"}
CODES = {"Stale": 3, "NotFile": 4, "NotDirectory": 5, "BadName": 6, "Missing": 7, "Exists": 8, "NotEmpty": 9, "FileTooBig": 10,
         "WriteTooBig": 11, "MoveDirectory": 19}


@dataclasses.dataclass(frozen=True)
class Node:
    """What one version of an inode is. A directory has names with their handles, in their order."""

    generation: int
    kind: str
    mode: int
    data: bytes = b""
    names: tuple = ()
    commit: int = 0

    def named(self, name):
        return next((handle for it, handle in self.names if it == name), None)

    def without(self, name):
        return tuple(pair for pair in self.names if pair[0] != name)


class Refused(Exception):
    """Why the plain world refuses a call."""


def plain_bytes(text):
    """The bytes that a text of a script stands for."""
    return re.sub(rb"%(..)", lambda it: bytes([int(it[1], 16)]), text.encode("latin-1"), flags=re.S)


def shown(data):
    return "".join(chr(it) if 0x21 <= it <= 0x7E and it != 0x25 else f"%{it:02x}" for it in data)


def inode_of(handle):
    return int(handle.split(".")[0])


class Plain:
    """All versions of all inodes. `ends[i]` has the places at which the inode changed, and `nodes[i]` what it was from there on."""

    def __init__(self, inodes, block):
        self.inodes, self.block, self.place = inodes, block, 0
        self.ends = {0: [0]}
        self.nodes = {0: [Node(1, DIRECTORY, 493)]}
        self.generations = {0: 1}

    def slot(self, ino, place):
        """The node of an inode at a place, or None."""
        ends = self.ends.get(ino, [])
        at = bisect.bisect_right(ends, place) - 1
        return self.nodes[ino][at] if at >= 0 else None

    def version(self, ino, place):
        """How many commits of the inode there were. The root is there before any."""
        return bisect.bisect_right(self.ends.get(ino, []), place) - (1 if ino == 0 else 0)

    def span(self, ino, version):
        """The first place at which an inode has a version, and the first one at which it has the next; None for what has not come."""
        ends = [0, *self.ends.get(ino, [])] if ino else self.ends[0]
        first = ends[version] if version < len(ends) else None
        return first, ends[version + 1] if version + 1 < len(ends) else None

    def node(self, handle, place, kind=None):
        """The node of a handle. `Stale`, or that it is of the other kind."""
        ino, generation = map(int, handle.split("."))
        found = self.slot(ino, place)
        if found is None or found.generation != generation:
            raise Refused("Stale")
        if kind and found.kind != kind:
            raise Refused("NotFile" if kind == FILE else "NotDirectory")
        return found

    def name_in(self, handle, name, place):
        """The directory of a handle, and a name of it, which is lawful."""
        found = self.node(handle, place, DIRECTORY)
        data = plain_bytes(name)
        if len(data) > 255 or b"/" in data or b"\0" in data or data in (b".", b".."):
            raise Refused("BadName")
        return found, data

    def asked(self, call, place):
        """What a call that only asks is answered at a place."""
        kind, *words = call.split(" ")
        if kind == "lookup":
            found, name = self.name_in(words[0], words[1], place)
            if (to := found.named(name)) is None:
                raise Refused("Missing")
            return [f"done {to}"]
        found = self.node(words[0], place, {"read": FILE, "list": DIRECTORY}.get(kind))
        if kind == "read":
            data = found.data[int(words[1]) :][: int(words[2])]
            return [f"done {len(data)} {shown(data)}" if data else "done 0"]
        if kind == "stat":
            return [f"done {found.kind} {found.mode} {len(found.data)} {found.commit}"]
        return [f"done {len(found.names)}", *(f"{shown(name)} {to}" for name, to in found.names)]

    def changed(self, call, place, made=None):
        """What a call that changes nodes does behind a place: its answer, and the nodes that it changes, by inode. None where it is answered
        and changes nothing. `made` is the handle that a node which it makes is to have."""
        kind, *words = call.split(" ")
        return getattr(self, f"_{kind}")(place, made, *words)

    def _made(self, place, made, handle, name, mode, kind):
        found, name = self.name_in(handle, name, place)
        if found.named(name) is not None:
            raise Refused("Exists")
        made = made or f"{self.inodes}.1"
        directory = dataclasses.replace(found, names=(*found.names, (name, made)))
        return f"done {made}", {inode_of(handle): directory, inode_of(made): Node(int(made.split(".")[1]), kind, int(mode))}

    def _create(self, place, made, handle, name, mode):
        return self._made(place, made, handle, name, mode, FILE)

    def _mkdir(self, place, made, handle, name, mode):
        return self._made(place, made, handle, name, mode, DIRECTORY)

    def _write(self, place, _made, handle, offset, text):
        found, data, offset = self.node(handle, place, FILE), plain_bytes(text), int(offset)
        end = offset + len(data)
        if -(-end // self.block) - offset // self.block > MOST_WRITTEN:
            raise Refused("WriteTooBig")
        if end > MOST_PAGES * self.block:
            raise Refused("FileTooBig")
        old = found.data.ljust(end, b"\0")
        return f"done {len(data)}", {inode_of(handle): dataclasses.replace(found, data=old[:offset] + data + old[end:])}

    def _size(self, place, _made, handle, size):
        found, size = self.node(handle, place, FILE), int(size)
        if size > MOST_PAGES * self.block:
            raise Refused("FileTooBig")
        return "done", {inode_of(handle): dataclasses.replace(found, data=found.data[:size].ljust(size, b"\0"))}

    def _mode(self, place, _made, handle, mode):
        return "done", {inode_of(handle): dataclasses.replace(self.node(handle, place), mode=int(mode))}

    def _taken(self, place, handle, name, kind):
        found, name = self.name_in(handle, name, place)
        if (to := found.named(name)) is None:
            raise Refused("Missing")
        if self.node(to, place, kind).names:
            raise Refused("NotEmpty")
        return "done", {inode_of(handle): dataclasses.replace(found, names=found.without(name)), inode_of(to): None}

    def _unlink(self, place, _made, handle, name):
        return self._taken(place, handle, name, FILE)

    def _rmdir(self, place, _made, handle, name):
        return self._taken(place, handle, name, DIRECTORY)

    def _rename(self, place, _made, handle, old, to, new):
        source, old = self.name_in(handle, old, place)
        if (moved := source.named(old)) is None:
            raise Refused("Missing")
        target, new = self.name_in(to, new, place)
        if (handle, old) == (to, new):
            return "done", None
        is_dir = self.node(moved, place).kind == DIRECTORY
        if is_dir and handle != to:
            raise Refused("MoveDirectory")
        there = target.named(new)
        if there is not None and (is_dir or self.node(there, place).kind == DIRECTORY):
            raise Refused("Exists")
        source = dataclasses.replace(source, names=source.without(old))
        target = source if handle == to else target
        changes = {inode_of(handle): source, inode_of(to): dataclasses.replace(target, names=(*target.without(new), (new, moved)))}
        if there is not None and there != moved:
            changes[inode_of(there)] = None
        return "done", changes

    def commit(self, changes):
        """Makes the next commit."""
        self.place += 1
        for ino, node in changes.items():
            self.ends.setdefault(ino, []).append(self.place)
            self.nodes.setdefault(ino, []).append(node and dataclasses.replace(node, commit=self.place))
            if node:
                self.generations[ino] = node.generation

    def tree(self, place, handle=ROOT, path=""):
        """The lines of the tree at a place."""
        found = self.node(handle, place)
        if found.kind == FILE:
            return [f"{path} f {found.mode} {len(found.data)}" + (f" {shown(found.data)}" if found.data else "")]
        below = [line for name, to in found.names for line in self.tree(place, to, f"{path}/{shown(name)}")]
        return [f"{path or '/'} d {found.mode}", *below]

    def living(self, place):
        """How many nodes there are."""
        return sum(self.slot(ino, place) is not None for ino in self.ends)
