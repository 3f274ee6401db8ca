"""Parts of tools/mounted on a device that all users may enter: rights in snapshots, listings of these, inodes, and a tree beside tmpfs."""

import errno
import os
import random
import shutil
import stat
import subprocess
import time

from beside_steps import KINDS
from beside_tmpfs import Pair, User
from mounted_parts import PARTS, check, get, part, put, sh

__all__ = ["PARTS"]

SET_IDS = stat.S_ISUID | stat.S_ISGID
# The user who has programs of his own, the one with files that nobody else may read, the one who runs and reads what is there, and the one
# whom the root directory is given to.
AUTHOR, KEEPER, GUEST, HOLDER = (User(51000 + n, 52000 + n) for n in range(1, 5))
SEEDS, STEPS = range(1, 6), 10_000


def said_by(user, *words):
    """What a program says that a user runs, or how it ends."""
    try:
        ran = subprocess.run(words, cwd="/", user=user.uid, group=user.gid, extra_groups=[], capture_output=True, text=True, check=False)
    except PermissionError:
        return "refused"
    return ran.stdout.strip() if ran.returncode == 0 else "refused"


def told(path):
    """What is told of a node: owners, mode, size and times."""
    one = os.lstat(path)
    return {
        "owner": f"{one.st_uid}:{one.st_gid}",
        "mode": f"{stat.S_IMODE(one.st_mode) & ~SET_IDS:o}",
        "set-id bits": f"{one.st_mode & SET_IDS:o}",
        "size": one.st_size if stat.S_ISREG(one.st_mode) else "of a directory",
        "atime": one.st_atime_ns,
        "mtime": one.st_mtime_ns,
        "ctime": one.st_ctime_ns,
    }


def told_below(top, path=""):
    """What is told of a directory and of all nodes below it, by their paths. Each is told before its names are read."""
    found = {path: told(top + path)}
    if stat.S_ISDIR(os.lstat(top + path).st_mode):
        for name in sorted(os.listdir(top + path)):
            found.update(told_below(top, f"{path}/{name}"))
    return found


def differences(wanted, found, whats):
    """Where what is told is not what is wanted, and how many nodes are wrong in what."""
    wrong, counts = [], dict.fromkeys(["names", *whats], 0)
    for path in sorted(wanted.keys() ^ found.keys()):
        wrong.append(f"{path or '/'}: {'missing' if path in wanted else 'not wanted'}")
        counts["names"] += 1
    for path in sorted(wanted.keys() & found.keys()):
        for what in whats:
            if wanted[path][what] != found[path][what]:
                wrong.append(f"{path or '/'}: {what} {found[path][what]}, not {wanted[path][what]}")
                counts[what] += 1
    sums = ", ".join(f"{what} of {count}" for what, count in counts.items() if count)
    return wrong, f"{sums or 'nothing'} of {len(wanted)} nodes"


def right(wrong, summary, line, most=12):
    """The line of a part where nothing is wrong. Else what is wrong is printed, and told in sum."""
    if wrong:
        print(*wrong[:most], *([f"and {len(wrong) - most} more"] if len(wrong) > most else []), sep="\n")
    check(not wrong, summary)
    return line


# What a snapshot lets other users do.


def own_tree(folder):
    """A program with both set-id bits, files that only their owner reads, and directories, with several owners and times of long ago."""
    for name, owner, mode in [("programs", AUTHOR, 0o755), ("private", KEEPER, 0o755), ("group", KEEPER, 0o2775), ("closed", KEEPER, 0o700)]:
        os.mkdir(f"{folder}/{name}")
        os.chown(f"{folder}/{name}", *owner[:2])
        os.chmod(f"{folder}/{name}", mode)
    program = f"{folder}/programs/id"
    check(said_by(AUTHOR, shutil.which("cp"), shutil.which("id"), program) == "", "a user's copy of a program")
    check(said_by(AUTHOR, shutil.which("chmod"), "6755", program) == "", "the set-id bits of a user's own program")
    for name, mode in [("private/secret", 0o600), ("private/open", 0o644), ("closed/file", 0o644), ("group/file", 0o664)]:
        put(f"{folder}/{name}", name.encode())
        os.chown(f"{folder}/{name}", *KEEPER[:2])
        os.chmod(f"{folder}/{name}", mode)
    for at, path in enumerate(sorted(told_below(folder), reverse=True)):
        os.utime(folder + path, ns=(10**18 + at, 10**18 + 1000 * at))


def changed_tree(folder):
    """Owners, modes and times become others than those of the snapshot, and new files take the place of one that goes."""
    os.unlink(f"{folder}/group/file")
    for name in "abc":
        put(f"{folder}/group/{name}", b"new")
    for path in told_below(folder):
        os.chown(folder + path, *GUEST[:2])
        os.chmod(folder + path, 0o777)
        os.utime(folder + path)


def runs(program, place):
    """The ids that a program with set-id bits runs as, of two users, where these are not their own."""
    wrong = []
    for user in [GUEST, AUTHOR]:
        ids = f"{said_by(user, program, '-u')}:{said_by(user, program, '-g')}"
        if ids != f"{user.uid}:{user.gid}":
            wrong.append(f"{place}: the program runs as {ids} for {user.uid}:{user.gid}")
    return wrong


def reads(folder, place):
    """Who reads files below a folder, where it is not who might when the snapshot was made."""
    wrong = []
    for name in ["private/secret", "private/open", "closed/file"]:
        for user in [KEEPER, AUTHOR, GUEST, HOLDER]:
            wanted = name if user is KEEPER or name == "private/open" else "refused"
            said = said_by(user, shutil.which("cat"), f"{folder}/{name}")
            if said != wanted:
                wrong.append(f"{place}/{name}: {user.uid} is told '{said}', not '{wanted}'")
    return wrong


@part("id", "cat", "cp", "chmod", device="shared")
def snapshot_rights(folder, _):
    """One snapshot is made while root has the root directory, and one while a user has it. Both give nobody a right that he had not."""
    mount, name = os.path.dirname(folder), os.path.basename(folder)
    os.mkdir(f"{folder}/tree")
    own_tree(f"{folder}/tree")
    live = said_by(GUEST, f"{folder}/tree/programs/id", "-u")
    check(live == str(AUTHOR.uid), f"the set-id program itself runs as {live}")
    rights, others, counts = reads(f"{folder}/tree", "the mount itself"), [], []
    wanted, holders = {}, {"one": (0, 0), "two": HOLDER[:2]}
    try:
        for snapshot, holder in holders.items():
            os.chown(mount, *holder)
            wanted[snapshot] = {"": told(mount)} | {f"/{name}{path}": one for path, one in told_below(folder).items()}
            os.mkdir(f"{mount}/.snapshots/{snapshot}")
        changed_tree(f"{folder}/tree")
        # Who has the root directory while nodes of one snapshot are looked up first had it not when that snapshot was made.
        for snapshot, holder in [("one", HOLDER[:2]), ("two", (0, 0))]:
            os.chown(mount, *holder)
            then = f"{mount}/.snapshots/{snapshot}"
            found = {"": told(then)} | {f"/{name}{path}": one for path, one in told_below(f"{then}/{name}").items()}
            nodes = {path: one | {"set-id bits": "0"} for path, one in wanted[snapshot].items()}
            wrong, count = differences(nodes, found, list(nodes[""]))
            rights += runs(f"{then}/{name}/tree/programs/id", snapshot) + reads(f"{then}/{name}/tree", snapshot)
            others += [f"{snapshot}{one}" for one in wrong]
            counts.append(f"{snapshot} is wrong in {count}")
    finally:
        os.chown(mount, 0, 0)
        sh("rmdir one two 2>&1", f"{mount}/.snapshots")
    line = f"{sum(map(len, wanted.values()))} nodes of two snapshots have the owners, modes and times of their making"
    line += ", a set-id program runs as who runs it, and a 0600 file is read by its owner"
    return right(rights + others, "; ".join([f"{len(rights)} rights of others", *rights[:4], *counts]), line, most=40)


# What a snapshot gives back.


def random_tree(top, count, seed):
    """A tree with so many nodes, with random owners, modes and times. Answers what it has."""
    chance = random.Random(seed)
    directories, made = [""], {}
    for at in range(count):
        path = f"{chance.choice(directories)}/n{at}"
        if chance.random() < 0.2:
            os.mkdir(top + path)
            directories.append(path)
        else:
            put(top + path, chance.randbytes(chance.choice([0, 5, 9000])))
        owner = (51000 + chance.randrange(9), 52000 + chance.randrange(9))
        made[path] = (owner, chance.choice([0, 0o600, 0o4755, 0o2775, 0o6711, 0o1777, chance.randrange(0o10000)]))
    times = {}
    for path, (owner, mode) in sorted(made.items(), key=lambda one: one[0].count("/"), reverse=True):
        os.chown(top + path, *owner)
        os.chmod(top + path, mode)
        times[path] = (chance.randrange(10**18), chance.randrange(10**18))
        os.utime(top + path, ns=times[path])
    return {
        path: {"owner": "{}:{}".format(*owner), "mode": f"{mode & ~SET_IDS:o}", "set-id bits": "0", "atime": times[path][0], "mtime": times[path][1]}
        for path, (owner, mode) in made.items()
    }


@part("cp", device="shared")
def snapshot_copied(folder, work):
    """A tree is copied out of a snapshot with its owners, modes, times and bytes."""
    snapshots, name = f"{os.path.dirname(folder)}/.snapshots", os.path.basename(folder)
    os.mkdir(f"{folder}/tree")
    wanted = random_tree(f"{folder}/tree", 200, seed=1)
    os.mkdir(f"{snapshots}/copied")
    try:
        sh(f"cp -a {snapshots}/copied/{name}/tree .", work)
        copied = told_below(f"{work}/tree")
        del copied[""]
        wrong, count = differences(wanted, copied, ["owner", "mode", "set-id bits", "atime", "mtime"])
        for path in wanted:
            if os.path.isfile(f"{work}/tree{path}") and get(f"{work}/tree{path}") != get(f"{folder}/tree{path}"):
                wrong.append(f"{path}: other bytes")
    finally:
        os.rmdir(f"{snapshots}/copied")
    return right(wrong, f"{len(wrong)} differences, in {count}", f"{len(wanted)} nodes were copied out of a snapshot with owners, modes, times and bytes")


@part(device="shared")
def snapshots_listed(folder, _):
    """Each snapshot is dropped while they are listed."""
    snapshots = f"{os.path.dirname(folder)}/.snapshots"
    # No buffer of a kernel holds all of these names.
    wanted = [f"snapshot-{n:047}" for n in range(701)]
    for name in wanted:
        os.mkdir(f"{snapshots}/{name}")
    seen = []
    with os.scandir(snapshots) as listing:
        for entry in listing:
            seen.append(entry.name)
            os.rmdir(entry.path)
    left = os.listdir(snapshots)
    for name in left:
        os.rmdir(f"{snapshots}/{name}")
    check(sorted(seen) == sorted(wanted) and left == [], f"{len(seen)} of {len(wanted)} were seen, and {len(left)} are left")
    return f"{len(seen)} snapshots were listed while each was dropped, and {len(left)} are left"


# Inodes.


def told_of_inodes(path):
    """How many inodes there are, and how many of them are free. They may be counted once a second at most."""
    time.sleep(1.1)
    space = os.statvfs(path)
    return space.f_files, space.f_ffree


def made_until_full(folder):
    """How many files are made until none is free."""
    for at in range(100_000):
        try:
            put(f"{folder}/more{at}", b"")
        except OSError as error:
            check(error.errno == errno.ENOSPC, error)
            return at
    return 100_000


@part("df", device="shared")
def inodes(folder, _):
    """As many inodes are free as files can be made, also beside a snapshot. They are free again once these are removed and closed."""
    files, free = told_of_inodes(folder)
    check(files == 4096 and 0 < free < files, f"{free} of {files} inodes are told to be free")
    for at in range(100):
        put(f"{folder}/f{at}", b"")
    fewer = told_of_inodes(folder)
    check(fewer == (files, free - 100), f"{fewer} after 100 creations, and {(files, free)} before")
    told_by_df = sh("df -Pi . | tail -1", folder)
    check(told_by_df.split()[1:4] == [str(files), str(files - free + 100), str(free - 100)], f"df -i tells {told_by_df}, and statfs {fewer}")
    with open(f"{folder}/f0", "rb"):
        os.unlink(f"{folder}/f0")
        check(told_of_inodes(folder) == fewer, "an open file without a name has an inode")
    check(told_of_inodes(folder) == (files, free - 99), "a closed file without a name has no inode")
    # What a snapshot keeps of the others may take inodes until it is dropped.
    snapshot = f"{os.path.dirname(folder)}/.snapshots/inodes"
    os.mkdir(snapshot)
    sh("rm f*", folder)
    kept = told_of_inodes(folder)
    count, full = made_until_full(folder), told_of_inodes(folder)
    os.rmdir(snapshot)
    sh("rm more*", folder)
    check((files, count) == kept and full == (files, 0), f"{count} files were made where {kept} was told, and then {full} is told")
    again = told_of_inodes(folder)
    check(again == (files, free), f"{again} once all were removed, and {(files, free)} before")
    return f"{free} of {files} inodes were free, and {count} while a snapshot kept files: as many were made"


# Beside a tmpfs.


@part("mount", "umount", device="shared")
def beside_tmpfs(folder, work):
    """Three users and root do random steps in a tree of which the top passes its group on, and in its like in a tmpfs."""
    sh(f"mkdir tmpfs && mount -t tmpfs -o mode=755 tmpfs {work}/tmpfs", work)
    counts, refused, done, links = {}, 0, 0, False
    try:
        for seed in SEEDS:
            folders = [f"{there}/tree{seed}" for there in (f"{work}/tmpfs", folder)]
            for there in folders:
                os.mkdir(there)
            pair = Pair(folders, seed)
            done += pair.run(STEPS, KINDS)
            pair.close_all()
            refused, links = refused + pair.refused, pair.has_links
            for key, count in pair.counts.items():
                old, first = counts.get(key, (0, pair.found[key]))
                counts[key] = (old + count, first)
            for there in folders:
                shutil.rmtree(there)
    finally:
        sh(f"umount {work}/tmpfs", work)
    wrong = [f"{count} times the {what} after {kind}. First in {first}" for (kind, what), (count, first) in sorted(counts.items())]
    line = f"{done:,} steps by seeds {SEEDS[0]} to {SEEDS[-1]}, of which {refused:,} were refused{'' if links else ', without links'}"
    sum_of_all = sum(count for count, _ in counts.values())
    return right(wrong, f"{line}: {sum_of_all:,} differences", f"{line}: 0 differences beside a tmpfs", most=60)
