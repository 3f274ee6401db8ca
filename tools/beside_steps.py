"""The random steps of tools/beside_tmpfs.py: each is chosen for two trees, and is None where they have nothing for it."""

import os
import stat

from beside_tmpfs import COMMON, DEPTH, DIRECTORY_MODES, FILE_MODES, MOST_NODES, MOST_OPEN, NOBODYS, USERS, Node, Step


def mkdir(pair):
    place, mode = pair.place(), pair.one(DIRECTORY_MODES)
    node = Node(True)
    if len(pair.nodes) >= MOST_NODES or place[0].depth() + 1 >= DEPTH:
        return None
    words = f"mkdir {place[0].path()}/{place[1]} {mode:o}"
    return Step(words, lambda side: os.mkdir(pair.join(place, side), mode), lambda _: pair.put(node, place), [node, place[0]])


def create(pair):
    """A new file that is closed at once."""
    place, mode, makes_node = pair.place(), pair.one(FILE_MODES), pair.random.random() < 0.2
    node = Node(False)
    if len(pair.nodes) >= MOST_NODES:
        return None

    def act(side):
        if makes_node:
            os.mknod(pair.join(place, side), stat.S_IFREG | mode)
        else:
            os.close(os.open(pair.join(place, side), os.O_CREAT | os.O_EXCL | os.O_WRONLY, mode))

    words = f"{'mknod' if makes_node else 'create'} {place[0].path()}/{place[1]} {mode:o}"
    return Step(words, act, lambda _: pair.put(node, place), [node, place[0]])


def open_file(pair):
    """Opens a file, which may be made or cut."""
    place, mode, cuts = pair.place(), pair.one(FILE_MODES), pair.random.random() < 0.2
    node = place[0].below.get(place[1]) or Node(False)
    if node.is_directory or node.opens or sum(1 for one in pair.nodes if one.opens) >= MOST_OPEN:
        return None
    flags = os.O_RDWR | os.O_CREAT | (os.O_TRUNC if cuts else 0)

    def done(answers):
        node.opens = answers
        if not node.places:
            pair.put(node, place)

    words = f"{'open-to-cut' if cuts else 'open'} {place[0].path()}/{place[1]} {mode:o}"
    return Step(words, lambda side: os.open(pair.join(place, side), flags, mode), done, [node, place[0]])


def close(pair):
    node = pair.one([one for one in pair.nodes if one.opens])
    if node is None:
        return None

    def done(_):
        node.opens = None
        if not node.places:
            pair.nodes.remove(node)

    return Step(f"close {pair.named(node)}", lambda side: os.close(node.opens[side]), done, [node])


def chmod(pair):
    node = pair.pick()
    if node is None:
        return None
    mode = pair.one(DIRECTORY_MODES if node.is_directory else FILE_MODES)
    act = lambda side: os.chmod(pair.handle(node, side), mode)
    return Step(f"chmod {pair.named(node)} {mode:o}", act, lambda _: None, [node])


def chown(pair):
    node = pair.pick()
    if node is None:
        return None
    uid = pair.one([*[-1] * 6, *[user.uid for user in USERS]])
    gid = pair.one([*[-1 for _ in range(uid != -1)], COMMON, COMMON, NOBODYS, *[user.gid for user in USERS]])
    act = lambda side: os.chown(pair.handle(node, side), uid, gid)
    return Step(f"chown {pair.named(node)} {uid}:{gid}", act, lambda _: None, [node])


def utime(pair):
    node = pair.pick()
    if node is None:
        return None
    times = pair.one([None, tuple(pair.random.randrange(10**18) for _ in range(2))])
    act = lambda side: os.utime(pair.handle(node, side), ns=times) if times else os.utime(pair.handle(node, side))
    return Step(f"{'utime' if times else 'touch'} {pair.named(node)} {times or ''}", act, lambda _: None, [node])


def rename(pair):
    """A move, also onto what is there. A directory keeps its parent: the mount refuses another one by EXDEV."""
    node = pair.one([one for one in pair.nodes if one.places])
    if node is None:
        return None
    old, new = pair.one(node.places), pair.place()
    if node.is_directory:
        new = (old[0], new[1])
    there = new[0].below.get(new[1])

    def done(_):
        if there is node:
            return
        if there:
            pair.take(new)
        node.places.remove(old)
        old[0].below.pop(old[1])
        pair.put(node, new)

    act = lambda side: os.rename(pair.join(old, side), pair.join(new, side))
    kind = ("mv-over-open" if there.opens else "mv-over") if there else "mv"
    return Step(f"{kind} {old[0].path()}/{old[1]} {new[0].path()}/{new[1]}", act, done, [node, old[0], new[0], *([there] if there else [])])


def unlink(pair):
    node = pair.one(pair.files())
    if node is None:
        return None
    place = pair.one(node.places)
    words = f"{'unlink-open' if node.opens else 'unlink'} {node.path()}"
    return Step(words, lambda side: os.unlink(pair.join(place, side)), lambda _: pair.take(place), [node, place[0]])


def rmdir(pair):
    among = pair.directories()[1:]
    node = pair.pick(among, [one for one in among if not one.below])
    if node is None:
        return None
    place = node.places[0]
    return Step(f"rmdir {node.path()}", lambda side: os.rmdir(pair.join(place, side)), lambda _: pair.take(place), [node, place[0]])


def link(pair):
    node, place = pair.one(pair.files()), pair.place()
    if node is None or not pair.has_links:
        return None
    act = lambda side: os.link(pair.at(node, side), pair.join(place, side))
    return Step(f"link {node.path()} {place[0].path()}/{place[1]}", act, lambda _: pair.put(node, place), [node, place[0]])


def write(pair):
    """Bytes anywhere in a file, by what is open of it or by its name."""
    node = pair.pick(pair.files(has_name=False))
    if node is None:
        return None
    text, offset = pair.random.randbytes(pair.one([1, 10, 3000])), pair.one([0, 7, 5000])

    def act(side):
        if node.opens:
            return os.pwrite(node.opens[side], text, offset)
        file = os.open(pair.at(node, side), os.O_WRONLY)
        try:
            return os.pwrite(file, text, offset)
        finally:
            os.close(file)

    return Step(f"write {pair.named(node)} {len(text)} at {offset}", act, lambda _: None, [node])


def truncate(pair):
    """Another size. By a name it is never the size that there is: then the times of a tmpfs stay, and those of other systems move."""
    node = pair.pick(pair.files(has_name=False))
    if node is None:
        return None
    size = pair.one([0, 1, 4096, 6000])
    if not node.opens and os.stat(pair.at(node, 0)).st_size == size:
        size += 1
    act = lambda side: os.truncate(pair.handle(node, side), size)
    return Step(f"{'ftruncate' if node.opens else 'truncate'} {pair.named(node)} {size}", act, lambda _: None, [node])


# The steps as often as each is chosen.
KINDS = [
    *[mkdir] * 12, *[create] * 14, *[open_file] * 14, *[close] * 4, *[chmod] * 10, *[chown] * 10, *[utime] * 5,
    *[rename] * 16, *[unlink] * 16, *[rmdir] * 6, *[link] * 4, *[write] * 10, *[truncate] * 6,
]
