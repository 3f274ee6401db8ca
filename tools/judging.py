"""Judges what threads were told of their calls: for tools/stress-threads.

Each change has the number of its commit, so all changes are made again in that order by the plain world, which is to answer each as it
was answered. Each call that only asks has the version of the inode that it saw, and so the places among the commits where it may stand. A
refusal may stand wherever the plain world refuses so. One place is to be found for each call, so that of two calls of which one ended
before the other began the first has no later place.
"""

import bisect
import dataclasses
import re

from plain_world import CHANGES, CODES, VIEWS, Plain, Refused, inode_of


class Wrong(Exception):
    """What no order of the calls explains."""


@dataclasses.dataclass
class Told:
    """A call of a thread with what it was told: the ticks before and after it, the number of its commit or the version that it saw, the epoch
    of its commit, and the lines of its answer."""

    thread: int
    call: str
    before: int = 0
    after: int = 0
    at: int = 0
    epoch: int = 0
    lines: list = dataclasses.field(default_factory=list)
    place: int = 0

    @property
    def kind(self):
        return self.call.split(" ")[0]

    @property
    def fault(self):
        found = re.fullmatch(r"refused E\d+ (\w+)(\(.*\))?", self.lines[0])
        return found and found[1]

    @property
    def is_commit(self):
        return self.kind in CHANGES and self.fault is None and self.at > 0

    def __str__(self):
        return f"thread {self.thread}, {self.call[:60]!r} at ticks {self.before} to {self.after}, told {self.at} and {' | '.join(self.lines)[:90]!r}"


class Lines:
    """The lines of answers, one after another."""

    def __init__(self, text):
        self.lines, self.at = text.splitlines(), 0

    def next(self):
        if self.at == len(self.lines):
            raise Wrong("the answers end early")
        self.at += 1
        return self.lines[self.at - 1]

    def answer(self, call, first):
        """All lines of an answer that has this first one."""
        kind, count = call.split(" ")[0], 0
        if kind == "list" and first.startswith("done"):
            count = int(first.split(" ")[1])
        if kind == "snaps" and first.startswith("snaps"):
            count = int(first.split(" ")[1])
        lines = [first, *(self.next() for _ in range(count))]
        if kind == "show" and first == "done" or kind in ("tree", "stree") and not first.startswith("refused"):
            while lines[-1] != "end":
                lines.append(self.next())
        return lines


class Judge:
    """What the calls of threads were told on a world that stood at the fork."""

    def __init__(self, plain, calls, stood, script):
        """`stood` is the answer to `snaps` at the fork."""
        self.plain, self.calls, self.script = plain, calls, script
        self.start, self.epoch = plain.place, int(stood[0].split(" ")[3])
        self.snapshots = {int(line.split(" ")[1]): self.start for line in stood[1:]}
        self.stood = set(self.snapshots)
        self.commits = sorted((it for it in calls if it.is_commit), key=lambda it: it.at)
        self.made = {int(it.lines[0].split(" ")[1]): it for it in calls if it.kind == "snap" and not it.fault}
        self.dropped = {int(it.call.split(" ")[1]): it for it in calls if it.kind == "drop" and not it.fault}

    def judge(self):
        self.replay()
        self.judge_epochs()
        self.place_all()

    def replay(self):
        """All commits in their order, on the plain world."""
        if [it.at for it in self.commits] != list(range(self.start + 1, self.start + 1 + len(self.commits))):
            numbers = [it.at for it in self.commits]
            odd = next(n for n, it in enumerate(numbers, self.start + 1) if n != it)
            raise Wrong(f"the numbers of commits are not all from {self.start + 1} on, each once: the {odd - self.start}th is {numbers[odd - self.start - 1]}")
        for told in self.commits:
            made = told.lines[0].split(" ")[1] if told.kind in ("create", "mkdir") else None
            if made:
                self.judge_made(told, made)
            try:
                answer, changes = self.plain.changed(told.call, self.plain.place, made)
            except Refused as refused:
                raise Wrong(f"{told}: the plain world refuses it by {refused}") from None
            if changes is None or told.lines != [answer]:
                raise Wrong(f"{told}: the plain world answers {answer!r}" + ("" if changes else ", and commits nothing"))
            self.plain.commit(changes)
            told.place = told.at

    def judge_made(self, told, made):
        ino, generation = map(int, made.split("."))
        wanted = self.plain.generations.get(ino, 0) + 1
        if not 0 < ino < self.plain.inodes or self.plain.slot(ino, self.plain.place) or generation != wanted:
            raise Wrong(f"{told}: the inode number is taken, or its generation is not {wanted}")

    def judge_epochs(self):
        """Epochs rise with commits, and each one that ended is that of a snapshot."""
        if any(one.epoch > other.epoch for one, other in zip(self.commits, self.commits[1:])):
            raise Wrong("the epochs of commits fall")
        if sorted(self.made) != list(range(self.epoch, self.epoch + len(self.made))):
            raise Wrong(f"the snapshots {sorted(self.made)} are not all from {self.epoch} on")
        epochs = [it.epoch for it in self.commits]
        if epochs and not self.epoch <= epochs[0] <= epochs[-1] <= self.epoch + len(self.made):
            raise Wrong("a commit has an epoch that was not begun")
        for snapshot in self.made:
            self.snapshots[snapshot] = self.start + bisect.bisect_right(epochs, snapshot)

    def place_all(self):
        """Finds the first place of each call that its floor allows: the last place of those that ended before it began."""
        ended = sorted(self.calls, key=lambda it: it.after)
        begun = sorted(self.commits, key=lambda it: it.before)
        least, ceilings = self.plain.place + 1, []
        for told in reversed(begun):
            least = min(least, told.at)
            ceilings.append(least - 1)
        ceilings = [*reversed(ceilings), self.plain.place]
        befores = [it.before for it in begun]
        floor, at = self.start, 0
        for told in sorted(self.calls, key=lambda it: it.before):
            while ended[at].after < told.before:
                floor = max(floor, ended[at].place)
                at += 1
            told.place = self.place_of(told, floor, ceilings[bisect.bisect_right(befores, told.after)])

    def place_of(self, told, floor, ceiling):
        if told.is_commit:
            if told.at <= floor:
                raise Wrong(f"{told}: what a call saw before it stands at {floor}")
            return told.at
        if told.kind in CHANGES or told.kind in VIEWS:
            return self.asked(told, floor, ceiling) if told.kind in VIEWS and not told.fault else self.refused(told, floor, ceiling)
        if told.kind in ("snap", "drop", "show"):
            return self.of_snapshot(told, floor, ceiling)
        return self.of_cleaner(told, floor, ceiling)

    def asked(self, told, floor, ceiling):
        """A call that only asks, by the version that it saw."""
        first, then = self.plain.span(inode_of(told.call.split(" ")[1]), told.at)
        if first is None or first > ceiling:
            raise Wrong(f"{told}: there was no such version yet")
        place = max(first, floor)
        if then is not None and place >= then:
            raise Wrong(f"{told}: the next version stands at {then}, and what was seen before it at {floor}")
        try:
            lines = self.plain.asked(told.call, place)
        except Refused as refused:
            lines = [f"refused {refused}"]
        if lines != told.lines:
            raise Wrong(f"{told}: the plain world answers {' | '.join(lines)[:90]!r}")
        return place

    def ends(self, call, kind, place):
        """How the plain world ends a call at a place: the name of a refusal, "nothing" or "done"."""
        try:
            if kind in VIEWS:
                self.plain.asked(call, place)
                return "done"
            return "done" if self.plain.changed(call, place)[1] else "nothing"
        except Refused as refused:
            return str(refused)

    def refused(self, told, floor, ceiling):
        """A refusal, or a change that changes nothing."""
        fault = told.fault
        wanted = "nothing" if fault is None else fault if fault in CODES else "done"
        if wanted == "nothing" and told.lines != ["done"]:
            raise Wrong(f"{told}: it has no commit")
        place = next((it for it in range(floor, ceiling + 1) if self.ends(told.call, told.kind, it) == wanted), None)
        if place is None:
            raise Wrong(f"{told}: at none of the places {floor} to {ceiling} it ends so")
        if wanted == "done" and not self.may_want(told, fault, floor, ceiling):
            raise Wrong(f"{told}: nothing explains that")
        return place

    def beside(self, told):
        """The calls that were under way while it was."""
        return [it for it in self.calls if it is not told and it.before < told.after and told.before < it.after]

    def may_want(self, told, fault, floor, ceiling):
        """Whether numbers, blocks or rounds may have been short."""
        if fault == "NoSpace":
            return not self.script.is_ample
        if fault == "NoInode":
            gone = len(self.plain.ends) - 1 if self.stood or self.made else 0
            # A call keeps the number that it took or that it gives back, and so does a cleaner.
            keeps = ("create", "mkdir", "unlink", "rmdir", "rename", "drain")
            taken = self.script.cleaners + sum(it.kind in keeps for it in self.beside(told))
            return any(self.plain.living(it) + taken + gone >= self.plain.inodes for it in range(floor, ceiling + 1))
        # A name that leads elsewhere has had a commit since the look, and there are eight looks.
        return fault == "Contended" and sum(it.is_commit for it in self.beside(told)) >= 8

    def may_live(self, snapshot, told):
        """Whether a snapshot may live at some time of a call, and whether it does at all times of it."""
        made, dropped = self.made.get(snapshot), self.dropped.get(snapshot)
        is_there = snapshot in self.stood or made is not None
        some = is_there and (made is None or made.before < told.after) and (dropped is None or told.before < dropped.after)
        return some, some and (made is None or made.after < told.before) and (dropped is None or told.after < dropped.before)

    def of_snapshot(self, told, floor, ceiling):
        fault = told.fault
        if told.kind == "snap":
            lives = [self.may_live(it, told) for it in self.snapshots if self.made.get(it) is not told]
            if fault == "TooManySnapshots" and sum(some for some, _ in lives) >= self.script.snaps:
                return floor
            if fault or sum(always for _, always in lives) >= self.script.snaps:
                raise Wrong(f"{told}: {sum(always for _, always in lives)} to {sum(some for some, _ in lives)} live")
            place = self.snapshots[int(told.lines[0].split(" ")[1])]
            if not floor <= place <= ceiling:
                raise Wrong(f"{told}: by the epochs of commits it stands at {place}, and not at {floor} to {ceiling}")
            return place
        snapshot = int(told.call.split(" ")[1])
        some, always = self.may_live(snapshot, told)
        if told.kind == "drop" and not fault:
            made = self.made.get(snapshot)
            some = snapshot in self.stood or made is not None and made.before < told.after
            if sum(it.kind == "drop" and not it.fault and it.call == told.call for it in self.calls) > 1:
                raise Wrong(f"{told}: it is dropped twice")
        is_shown = any(it.kind == "show" and it.call.split(" ")[1] == str(snapshot) for it in self.beside(told))
        explained = {None: some, "NoSnapshot": not always, "Pinned": told.kind == "drop" and is_shown}.get(fault)
        if not explained:
            raise Wrong(f"{told}: the snapshot {'lives' if always else 'may live' if some else 'does not live'}")
        if told.kind == "show" and not fault and told.lines != ["done", *self.tree_of(snapshot)]:
            raise Wrong(f"{told}: the plain world shows {' | '.join(self.tree_of(snapshot))[:200]!r}")
        return floor

    def tree_of(self, snapshot):
        return [*self.plain.tree(self.snapshots[snapshot]), "end"]

    def of_cleaner(self, told, floor, ceiling):
        fault, (kind, word) = told.fault, told.call.split(" ")
        if kind == "drain":
            if fault or not int(told.lines[0].split(" ")[1]) <= int(word):
                raise Wrong(f"{told}: more than was asked for, or refused")
        elif fault == "Stale":
            if all(self.plain.slot(int(word), it) for it in range(floor, ceiling + 1)):
                raise Wrong(f"{told}: there is such an inode")
        elif fault != "NoSpace" and not re.fullmatch(r"done (fast|thorough) \d+ \d+", told.lines[0]):
            raise Wrong(f"{told}: no answer of a cleaner")
        return floor

    def judge_end(self, reports):
        """The reports behind the join: `tree`, `snaps`, `space`, `audit`, and the trees of snapshots by their numbers."""
        place = self.plain.place
        living = sorted(it for it in self.snapshots if it not in self.dropped)
        head = f"snaps {len(living)} epoch {self.epoch + len(self.made)} commit {place}"
        numbers = [int(line.split(" ")[1]) for line in reports["snaps"][1:]]
        space = dict(re.findall(r"(\w+) (\d+)", reports["space"][0]))
        wanted = {
            "tree": reports["tree"] == [*self.plain.tree(place), "end"],
            "snaps": reports["snaps"][0] == head and numbers == living,
            "space": sum(map(int, space.values())) == self.script.blocks and space["hand"] == "0",
            "audit": reports["audit"] == ["audit ok"],
            **{f"stree {it}": reports[f"stree {it}"] == self.tree_of(it) for it in living},
        }
        for name, holds in wanted.items():
            if not holds:
                raise Wrong(f"behind all calls, {name} is {' | '.join(reports[name])[:200]!r}; the plain world has {head!r}, {' | '.join(self.plain.tree(place))[:200]!r}")
