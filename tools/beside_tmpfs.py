"""Random operations of several users on two trees, one in a tmpfs and one in a mount, and what the trees tell after each."""

import collections
import contextlib
import os
import random
import stat
import time
from typing import NamedTuple


class User(NamedTuple):
    uid: int
    gid: int
    groups: tuple = ()


ROOT = User(0, 0)
# A group that two of the users have beside their own, and one that nobody has.
COMMON, NOBODYS = 52010, 52099
USERS = [User(51001, 52001, (COMMON,)), User(51002, 52002, (COMMON, 52001)), User(51003, 52003)]
TMPFS, MOUNT = 0, 1
SIDES = (TMPFS, MOUNT)
# No file gets the bit of a group without that group's right to run it: a kernel takes such a bit from a file of a tmpfs that is written,
# and leaves it to one of FUSE. No mask takes that right.
FILE_MODES = [0o600, 0o640, 0o664, 0o666, 0o755, 0o4755, 0o2775, 0o6777]
DIRECTORY_MODES = [0o700, 0o755, 0o770, 0o777, 0o1777, 0o2770, 0o2775, 0o2777, 0o3777]
UMASKS = [0, 0, 0o022, 0o027, 0o066]
NAMES = [f"n{n}" for n in range(12)]
# So many nodes and open files there are at most, and so deep a tree is.
MOST_NODES, MOST_OPEN, DEPTH = 120, 12, 4
# After so many steps all nodes are looked at.
LOOK = 500
# A time of now is no more nanoseconds than this beside the clock that is read here.
SLACK = 1_000_000_000
# The clock that a tmpfs takes times from: it goes on by some milliseconds at once.
COARSE = 5


@contextlib.contextmanager
def acting(user, mask):
    """What runs within is done by a user, with a mask of new modes."""
    old = os.umask(mask)
    os.setgroups(user.groups)
    os.setegid(user.gid)
    os.seteuid(user.uid)
    try:
        yield
    finally:
        os.seteuid(0)
        os.setegid(0)
        os.setgroups(())
        os.umask(old)


class Node:
    """A node of both trees: its names, its own names where it is a directory, what is open of it, and the times that were seen last."""

    def __init__(self, is_directory, place=None):
        self.is_directory = is_directory
        self.places = [] if place is None else [place]
        self.below = {}
        self.opens = None
        self.seen = None

    def path(self):
        """The way of names to it, '' for the top."""
        if not self.places:
            return ""
        parent, name = self.places[0]
        return f"{parent.path()}/{name}"

    def depth(self):
        return 1 + self.places[0][0].depth() if self.places else 0


class Step(NamedTuple):
    """What is tried: its words, a function of the side, what follows where it is done, and the nodes to look at."""

    words: str
    act: object
    done: object
    nodes: list


class Parted(Exception):
    """The trees have not the same names any more."""


def tried(act, side):
    """What a call answers, and the number of its error."""
    try:
        return act(side), 0
    except OSError as error:
        return None, error.errno


def moved(old, new, begun):
    """How a time moved: not, to the time of the step, or to what was set."""
    if old == new:
        return "stays"
    return "is now" if begun - SLACK <= new <= time.time_ns() + SLACK else f"is {new}"


class Pair:
    """The two trees."""

    def __init__(self, folders, seed):
        self.folders, self.seed, self.random = folders, seed, random.Random(seed)
        self.top = Node(True)
        self.nodes = [self.top]
        self.number, self.refused, self.found, self.counts = 0, 0, {}, collections.Counter()
        for folder in folders:
            os.chown(folder, 0, COMMON)
            os.chmod(folder, 0o2777)
        self.has_links = self.makes_links()
        self.see(self.top)

    def makes_links(self):
        """Whether the mount makes hard links."""
        path = f"{self.folders[MOUNT]}/link"
        with open(path, "wb"):
            pass
        try:
            os.link(path, f"{path}2")
            os.unlink(f"{path}2")
        except OSError:
            return False
        finally:
            os.unlink(path)
        return True

    # Nodes as a side has them.

    def at(self, node, side):
        """A path, or the descriptor of a file without a name."""
        if node is not self.top and not node.places:
            return node.opens[side]
        return self.folders[side] + node.path()

    def handle(self, node, side):
        """The descriptor of an open file, or a path."""
        return node.opens[side] if node.opens else self.at(node, side)

    def named(self, node):
        if node is not self.top and not node.places:
            return "an open file without a name"
        return node.path() or "/"

    def see(self, node):
        """Keeps the times of a node."""
        told = [os.stat(self.at(node, side)) for side in SIDES]
        node.seen = [(one.st_mtime_ns, one.st_ctime_ns) for one in told]

    # Differences.

    def differs(self, words, what, text):
        """Counts a difference under the first word of a step, and keeps the first one with its place."""
        key = (words.split()[0], what)
        self.counts[key] += 1
        self.found.setdefault(key, f"step {self.number} of seed {self.seed}, {words}: {text}")

    def look(self, node, words, begun):
        """Compares what both sides tell of a node, and how its times moved."""
        told = [os.stat(self.at(node, side)) for side in SIDES]
        for at, what in enumerate(["mtime", "ctime"]):
            times = [(one.st_mtime_ns, one.st_ctime_ns)[at] for one in told]
            ways = [moved(node.seen[side][at], times[side], begun) if node.seen else moved(0, times[side], begun) for side in SIDES]
            if ways[TMPFS] != ways[MOUNT]:
                self.differs(words, what, f"the {what} of {self.named(node)} {ways[MOUNT]}, and in the tmpfs it {ways[TMPFS]}")
        self.compare(node, words, told)
        self.see(node)

    def compare(self, node, words, told):
        """Compares owner, group, mode, size and links. A difference is mended, so that it is not found again."""
        pairs = {"owner": [one.st_uid for one in told], "group": [one.st_gid for one in told], "mode": [oct(one.st_mode) for one in told]}
        if not node.is_directory:
            pairs["size"] = [one.st_size for one in told]
            pairs["links"] = [one.st_nlink for one in told]
        wrong = [what for what, both in pairs.items() if both[TMPFS] != both[MOUNT]]
        for what in wrong:
            self.differs(words, what, f"the {what} of {self.named(node)} is {pairs[what][MOUNT]}, and in the tmpfs {pairs[what][TMPFS]}")
        if wrong:
            there = self.at(node, MOUNT)
            os.chown(there, told[TMPFS].st_uid, told[TMPFS].st_gid)
            os.chmod(there, stat.S_IMODE(told[TMPFS].st_mode))

    def look_at_all(self, words):
        """Looks at all nodes and at the names of all directories."""
        begun = time.time_ns()
        for node in self.nodes:
            self.look(node, words, begun)
            if node.is_directory:
                both = [sorted(os.listdir(self.at(node, side))) for side in SIDES]
                if both[TMPFS] != both[MOUNT] or both[TMPFS] != sorted(node.below):
                    self.differs(words, "names", f"the names of {self.named(node)} are {both[MOUNT]}, and in the tmpfs {both[TMPFS]}")
                    raise Parted

    def look_at_bytes(self, words):
        for node in self.nodes:
            if not node.is_directory:
                both = []
                for side in SIDES:
                    with open(node.opens[side] if node.opens else self.at(node, side), "rb", closefd=not node.opens) as file:
                        file.seek(0)
                        both.append(file.read())
                if both[TMPFS] != both[MOUNT]:
                    self.differs(words, "bytes", f"the bytes of {self.named(node)} are others than in the tmpfs")

    # What is chosen.

    def directories(self):
        return [node for node in self.nodes if node.is_directory]

    def files(self, has_name=True):
        return [node for node in self.nodes if not node.is_directory and (node.places or not has_name)]

    def one(self, among):
        return self.random.choice(among) if among else None

    def pick(self, among=None, first=None):
        """One of some nodes, or of all except for the top: often one that is open and has no name, or of the first ones."""
        among = self.nodes[1:] if among is None else among
        first = [node for node in among if not node.places] if first is None else first
        return self.one(first if first and self.random.random() < 0.4 else among)

    def place(self):
        """A directory and a name in it, which may be there already."""
        return self.one([node for node in self.directories() if node.depth() < DEPTH]), self.one(NAMES)

    def join(self, place, side):
        return f"{self.at(place[0], side)}/{place[1]}"

    # What is done to the nodes that are kept here.

    def put(self, node, place):
        node.places.append(place)
        place[0].below[place[1]] = node
        if node not in self.nodes:
            self.nodes.append(node)

    def take(self, place):
        """Takes a name away. A node without a name goes where it is not open."""
        node = place[0].below.pop(place[1])
        node.places.remove(place)
        if not node.places and not node.opens:
            self.nodes.remove(node)
        return node

    def run(self, steps, kinds):
        """Does random steps, and answers how many it did."""
        try:
            for self.number in range(1, steps + 1):
                step = None
                while step is None:
                    step = self.random.choice(kinds)(self)
                self.do(step)
                if self.number % LOOK == 0 or self.number == steps:
                    self.look_at_all("a-look at all")
            self.look_at_bytes("a-look at bytes")
        except Parted:
            pass
        return self.number

    def user_for(self, step):
        """Anyone, or who owns what the step is about: strangers are refused often."""
        known = [node for node in step.nodes if node in self.nodes]
        owner = os.stat(self.at(known[0], TMPFS)).st_uid if known else 0
        return self.one([*USERS, ROOT, *[user for user in USERS if user.uid == owner] * 4])

    def wait(self, step):
        """Waits until a change has another time than the last one in the tmpfs."""
        latest = max((node.seen[TMPFS][1] for node in step.nodes if node in self.nodes), default=0)
        while time.clock_gettime_ns(COARSE) <= latest:
            time.sleep(0.0005)

    def do(self, step):
        self.wait(step)
        user, mask, begun = self.user_for(step), self.one(UMASKS), time.time_ns()
        with acting(user, mask):
            answers = [tried(step.act, side) for side in SIDES]
        words = f"{step.words} by {user.uid} in {user.gid}"
        errors = [error for _, error in answers]
        if errors[TMPFS] != errors[MOUNT]:
            texts = [os.strerror(error) if error else "done" for error in errors]
            self.differs(words, "outcome", f"{texts[MOUNT]}, and in the tmpfs {texts[TMPFS]}")
            raise Parted
        if errors[TMPFS]:
            self.refused += 1
        else:
            step.done([answer for answer, _ in answers])
        for node in dict.fromkeys(step.nodes):
            if node in self.nodes:
                self.look(node, words, begun)

    def close_all(self):
        for node in self.nodes:
            for file in node.opens or ():
                os.close(file)
