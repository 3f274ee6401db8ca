"""What tools/mounted runs in a mounted folder: each part is a function of its folder and of one outside."""

import errno
import os
import shlex
import shutil
import sqlite3
import stat
import subprocess
import tempfile
import threading
import time

import mounting

ROOT = os.path.dirname(os.path.dirname(os.path.abspath(__file__)))
PARTS = {}
# The devices: words for the program, and options of the mount.
DEVICES = {
    "large": ([], mounting.PLAIN),
    "small": (["--blocks", "128", "--inodes", "64"], mounting.PLAIN),
    "shared": (["--blocks", "65536", "--inodes", "4096", "--snaps", "1024"], mounting.SHARED),
}


def part(*programs, device="large"):
    """A part with the programs that it needs, and the device that it has."""

    def add(function):
        PARTS[function.__name__] = (function, programs, device)
        return function

    return add


def check(is_right, what):
    if not is_right:
        raise AssertionError(what)


def sh(script, folder):
    """Runs a script of a shell in a folder, and answers the last line that it wrote."""
    words = ["bash", "-eu", "-o", "pipefail", "-c", script]
    ran = subprocess.run(words, cwd=folder, stdout=subprocess.PIPE, stderr=subprocess.STDOUT, text=True, errors="replace", check=False)
    lines = ran.stdout.strip().splitlines() or [""]
    check(ran.returncode == 0, f"status {ran.returncode}: {' | '.join(lines[-3:])}")
    return lines[-1]


def refused(errors, call, *words):
    """The name of the error by which a call is refused, which has to be one of these."""
    try:
        call(*words)
    except OSError as error:
        names = [name for name in errors if getattr(errno, name) == error.errno]
        check(names, f"{call.__name__}{words}: {errno.errorcode[error.errno]}, not {errors}")
        return names[0]
    raise AssertionError(f"{call.__name__}{words}: not refused")


def put(path, text):
    with open(path, "wb") as file:
        file.write(text)


def get(path):
    with open(path, "rb") as file:
        return file.read()


# Files and names, by system calls.


@part()
def names(folder, _):
    """What an open file, a listing and a rename do where names go."""
    first = os.open(f"{folder}/open", os.O_RDWR | os.O_CREAT)
    os.write(first, b"hello")
    os.unlink(f"{folder}/open")
    check(not os.path.exists(f"{folder}/open") and os.fstat(first).st_nlink == 0, "a file without a name")
    os.write(first, b" more")
    os.ftruncate(first, 8)
    check(os.pread(first, 20, 0) == b"hello mo", "bytes of a file without a name")
    os.close(first)

    put(f"{folder}/new", b"new")
    put(f"{folder}/old", b"old")
    with open(f"{folder}/old", "r+b") as file:
        os.rename(f"{folder}/new", f"{folder}/old")
        check(get(f"{folder}/old") == b"new" and file.read() == b"old", "a rename onto an open file")
        file.write(b"er")
        file.flush()
        file.seek(0)
        check(file.read() == b"older", "bytes of a file that a rename took the name of")
    with tempfile.TemporaryFile(dir=folder) as file:
        file.write(b"1")

    os.makedirs(f"{folder}/a/empty")
    os.mkdir(f"{folder}/a/full")
    put(f"{folder}/a/full/f", b"")
    os.rename(f"{folder}/a/full", f"{folder}/a/empty")
    check(os.listdir(f"{folder}/a") == ["empty"] and os.listdir(f"{folder}/a/empty") == ["f"], "a rename onto an empty directory")

    os.mkdir(f"{folder}/many")
    wanted = {f"a-name-of-some-length-{n}" for n in range(2000)}
    for name in wanted:
        put(f"{folder}/many/{name}", b"")
    seen = set()
    with os.scandir(f"{folder}/many") as listing:
        for entry in listing:
            seen.add(entry.name)
            os.unlink(entry.path)
    check(seen == wanted and os.listdir(f"{folder}/many") == [], "a listing with unlinks between")
    return f"{len(seen)} names were unlinked while they were listed"


@part()
def errors(folder, _):
    """The errors that docs/mount.md names."""
    put(f"{folder}/file", b"12")
    for path in ["dir", "dir/below", "other", "other/full"]:
        os.mkdir(f"{folder}/{path}")
    # A kernel that knows of a file system without links says so itself.
    told = [refused(["EPERM", "ENOSYS"], os.link, f"{folder}/file", f"{folder}/link")]
    told += [refused(["ENOSYS"], os.symlink, "file", f"{folder}/link")]
    told += [refused(["EOPNOTSUPP"], os.mkfifo, f"{folder}/fifo")]
    told += [refused(["EOPNOTSUPP"], os.setxattr, f"{folder}/file", "user.a", b"1")]
    told += [refused(["ENAMETOOLONG"], put, f"{folder}/{'x' * 256}", b"")]
    told += [refused(["EFBIG"], os.truncate, f"{folder}/file", (256 << 20) + 1)]
    told += [refused(["EXDEV"], os.rename, f"{folder}/dir/below", f"{folder}/other/below")]
    told += [refused(["ENOTEMPTY"], os.rename, f"{folder}/dir", f"{folder}/other")]
    told += [refused(["ENOTEMPTY"], os.rmdir, f"{folder}/other")]
    told += [refused(["EISDIR"], os.rename, f"{folder}/file", f"{folder}/dir")]
    told += [refused(["ENOTDIR"], os.rename, f"{folder}/dir", f"{folder}/file")]
    check(get(f"{folder}/file") == b"12" and sorted(os.listdir(folder)) == ["dir", "file", "other"], "what was refused left something")
    return " ".join(told)


@part()
def attributes(folder, _):
    """Modes, owners, times and sizes."""
    path = f"{folder}/file"
    put(path, b"12345")
    os.chmod(path, 0o640)
    os.chown(path, 5, 6)
    os.utime(path, ns=(1_000_000_007, 2_000_000_009))
    os.truncate(path, 3)
    os.utime(path, ns=(1_000_000_007, 2_000_000_009))
    told = os.stat(path)
    found = (stat.S_IMODE(told.st_mode), told.st_uid, told.st_gid, told.st_size, told.st_atime_ns, told.st_mtime_ns)
    check(found == (0o640, 5, 6, 3, 1_000_000_007, 2_000_000_009), found)
    with open(path, "r+b") as file:
        os.posix_fallocate(file.fileno(), 0, 10_000)
        check(os.fstat(file.fileno()).st_size == 10_000 and get(path) == b"123" + bytes(9_997), "fallocate")
        file.seek(200 << 20)
        file.write(b"end")
    check(os.stat(path).st_size == (200 << 20) + 3, "a size with a gap")
    with open(path, "rb") as file:
        file.seek((200 << 20) - 5)
        check(file.read() == bytes(5) + b"end", "the end of a gap")
    space = os.statvfs(folder)
    check(0 < space.f_bfree < space.f_blocks, "statfs")
    return f"{space.f_bfree} of {space.f_blocks} blocks are free"


# Programs.


@part("cp", "diff", "rm")
def copy(folder, _):
    sh("cp -rL /usr/include . && diff -r /usr/include include", folder)
    count = sh("find include | wc -l", folder)
    sh("rm -r include", folder)
    check(os.listdir(folder) == [], "rm left names")
    return f"{count} names were copied, compared and removed"


@part("tar", "find")
def tar(folder, _):
    sh("tar -C /usr/include --hard-dereference -chf all.tar . && mkdir all && tar -C all -xf all.tar && tar -C all -df all.tar", folder)
    return f"{sh('find all | wc -l', folder)} names, {os.stat(f'{folder}/all.tar').st_size} bytes"


@part("git", "cmp", "diff")
def git(folder, _):
    names = "user.name=a user.email=a@b gc.auto=0 advice.detachedHead=false".split()
    g = shlex.join(["env", "GIT_CONFIG_GLOBAL=/dev/null", "git", *[word for name in names for word in ("-c", name)]])
    sh(f"""
        {g} init -q repo && cd repo
        for i in $(seq 300); do mkdir -p d$((i % 20)); echo text $i >d$((i % 20))/f$i; done
        {g} add . && {g} commit -qm one && echo more >>d1/f1 && {g} commit -qam two
        {g} fsck --full && {g} gc -q && {g} clone -q --no-hardlinks . ../clone && {g} -C ../clone fsck --full
        test -z "$({g} -C ../clone status --porcelain)" && diff -r -x .git . ../clone
    """, folder)
    if not os.path.exists(f"{ROOT}/.git"):
        return "300 files"
    sh(f"""
        {g} clone -q --no-hardlinks {shlex.quote(ROOT)} main && cd main && {g} fsck
        {g} checkout -q HEAD~5 && {g} checkout -q - && test -z "$({g} status --porcelain)" && {g} gc -q && {g} fsck
        mkdir ../plain && {g} archive HEAD | tar -C ../plain -xf - && diff -r -x .git . ../plain
    """, folder)
    return f"{sh('find main -type f | wc -l', folder)} files of a clone of this repository"


INSERTS = """
for j in $(seq 100); do
    echo 'begin;'
    for i in $(seq 100); do echo "insert into t(b) values('row $j $i, some text that is a little longer than nothing');"; done
    echo 'commit;'
done
echo 'create index i on t(b); delete from t where a % 3 = 0; vacuum; pragma integrity_check; select count(*) from t;'
"""


@part("sqlite3")
def sqlite(folder, _):
    lines = sh(f"(echo 'create table t(a integer primary key, b text);'; {INSERTS}) | sqlite3 db | tr '\\n' ' '", folder)
    check(lines.split() == ["ok", "6667"], lines)
    return lines


@part("sqlite3")
def wal(folder, _):
    begin = "echo 'pragma journal_mode=wal; create table t(a integer primary key, b text);'"
    lines = sh(f"({begin}; {INSERTS}) | sqlite3 db | tr '\\n' ' '", folder)
    check(lines.split() == ["wal", "ok", "6667"], lines)
    # One connection reads while another one writes.
    writer, reader = sqlite3.connect(f"{folder}/db"), sqlite3.connect(f"{folder}/db")
    for at in range(200):
        writer.execute("insert into t(b) values('later')")
        writer.commit()
        count = reader.execute("select count(*) from t").fetchone()[0]
        check(count == 6668 + at, f"{count} rows are seen")
    check(reader.execute("pragma integrity_check").fetchone() == ("ok",), "integrity of what is read beside")
    return f"{lines.strip()}, and 200 more rows were read while they were written"


@part("fio")
def fio(folder, _):
    verified = "--bs=4k --verify=crc32c --verify_fatal=1 --output-format=terse"
    sh(f"fio --name=a --size=32m --rw=randwrite {verified} --ioengine=psync --end_fsync=1", folder)
    sh(f"fio --name=b --size=16m --rw=randrw {verified} --ioengine=mmap", folder)
    return "32 MiB were written and verified, and 16 MiB by mapped pages"


@part("dbench")
def dbench(folder, _):
    sh("dbench -D . -t 10 2", folder)
    return "two clients, ten seconds"


@part("make", "gcc")
def make(folder, work):
    shutil.copy(f"{ROOT}/tools/exercise.c", folder)
    put(f"{folder}/Makefile", b"all: exercise\nexercise: exercise.c\n\tgcc -O1 -o exercise exercise.c\n")
    sh("make -s && make -q && ./exercise file 300 7 && touch exercise.c && ! make -q && make -s && make -q", folder)
    return "a program was built twice, and run"


@part("gcc")
def exercise(folder, work):
    sh(f"gcc -O1 -o exercise {shlex.quote(ROOT)}/tools/exercise.c", work)
    for seed in range(1, 6):
        sh(f"{shlex.quote(work)}/exercise file 13000 {seed}", folder)
    return "65,000 steps on one file, as its copy"


# Snapshots.


@part()
def snapshot(folder, _):
    """A snapshot is a directory that stays as it was."""
    snapshots, within = f"{os.path.dirname(folder)}/.snapshots", f"one/{os.path.basename(folder)}"
    os.makedirs(f"{folder}/d")
    for name in ["f1", "f2", "f3"]:
        put(f"{folder}/d/{name}", b"old " + name.encode())
    os.mkdir(f"{snapshots}/one")
    os.unlink(f"{folder}/d/f1")
    put(f"{folder}/d/f2", b"new")
    os.rename(f"{folder}/d/f3", f"{folder}/d/g3")
    then = f"{snapshots}/{within}/d"
    check(sorted(os.listdir(then)) == ["f1", "f2", "f3"], "names of a snapshot")
    check(all(get(f"{then}/{name}") == b"old " + name.encode() for name in ["f1", "f2", "f3"]), "bytes of a snapshot")
    told = [refused(["EROFS"], put, f"{then}/f1", b"x"), refused(["EROFS"], os.unlink, f"{then}/f1")]
    told += [refused(["EEXIST"], os.mkdir, f"{snapshots}/one")]
    check(os.listdir(snapshots) == ["one"], "the list of snapshots")
    os.rmdir(f"{snapshots}/one")
    check(os.listdir(snapshots) == [] and get(f"{folder}/d/f2") == b"new", "what a dropped snapshot left")
    return " ".join(told)


# Rows that SQLite commits at once, more than the pages that it keeps: so it writes the database before it commits.
ROWS = 50


class Writer(threading.Thread):
    """SQLite that writes one transaction after another, until it is told to end."""

    def __init__(self, path):
        super().__init__()
        self.path, self.inserts, self.is_over, self.committed = path, threading.Semaphore(0), threading.Event(), 0

    def run(self):
        database = sqlite3.connect(self.path)
        database.execute("pragma cache_size = 5")
        database.execute("create table t(a integer primary key, b text)")
        for at in range(100_000):
            database.execute("insert into t(b) values(?)", (f"row {at} " * 100,))
            if at % ROWS == ROWS - 1:
                database.commit()
                self.committed += ROWS
            self.inserts.release()
            if self.is_over.is_set():
                break
        database.close()


@part()
def live(folder, work):
    """Five snapshots while SQLite writes: each has a database that is whole."""
    snapshots, inside = f"{os.path.dirname(folder)}/.snapshots", os.path.basename(folder)
    writer = Writer(f"{folder}/db")
    writer.start()
    counts = []
    try:
        for at in range(1, 6):
            # Each is made at another place of a transaction.
            for _ in range(4 * ROWS + 9 * at):
                check(writer.inserts.acquire(timeout=60), "SQLite does not go on")
            least = writer.committed
            os.mkdir(f"{snapshots}/live{at}")
            most = writer.committed + ROWS
            counts.append(rows_of_copy(f"{snapshots}/live{at}/{inside}", f"{work}/live{at}"))
            check(least <= counts[-1] <= most and counts[-1] % ROWS == 0, f"{counts[-1]} rows, of {least} to {most}")
    finally:
        writer.is_over.set()
        writer.join()
    for at in range(1, 6):
        os.rmdir(f"{snapshots}/live{at}")
    check(os.listdir(snapshots) == [], "snapshots are left")
    return f"rows of five snapshots: {' '.join(map(str, counts))}"


def rows_of_copy(there, here):
    """Copies the database of a snapshot, looks whether it is whole, and answers how many rows it has."""
    os.mkdir(here)
    for name in os.listdir(there):
        shutil.copy(f"{there}/{name}", f"{here}/{name}")
    database = sqlite3.connect(f"{here}/db")
    found = database.execute("pragma integrity_check").fetchone()
    check(found == ("ok",), f"integrity of a snapshot: {found}")
    return database.execute("select count(*) from t").fetchone()[0]


# A device of 128 blocks.


def used(folder):
    """How many blocks are not free. They are counted once a second at most."""
    time.sleep(1.1)
    space = os.statvfs(folder)
    return space.f_blocks - space.f_bfree


@part(device="small")
def logs(folder, _):
    """Each of these is done so often that its entries would fill the device, if no log were cleaned."""
    count, before = 10_000, used(folder)
    os.mkdir(f"{folder}/a")
    os.mkdir(f"{folder}/b")
    file = os.open(f"{folder}/a/file", os.O_RDWR | os.O_CREAT)
    for at in range(count):
        os.pwrite(file, b"abc", at % 5000)
    for at in range(count):
        os.ftruncate(file, at % 7)
    for at in range(count):
        os.fchmod(file, 0o600 + at % 2)
    for _ in range(count // 2):
        os.rename(f"{folder}/a/file", f"{folder}/b/file")
        os.rename(f"{folder}/b/file", f"{folder}/a/file")
    for _ in range(count // 2):
        os.mkdir(f"{folder}/a/dir")
        os.rmdir(f"{folder}/a/dir")
    for _ in range(count):
        put(f"{folder}/a/other", b"")
        os.unlink(f"{folder}/a/other")
    for _ in range(count):
        with tempfile.TemporaryFile(dir=folder):
            pass
    os.close(file)
    sh("rm -r a b", folder)
    after = used(folder)
    check(after <= before + 40, f"{before} blocks were used before, and {after} are after")
    return f"{before} blocks were used before, and {after} are after"


@part(device="small")
def full(folder, _):
    """A device that is full: what was written is there, and a file that is cut gives its blocks back."""
    before = used(folder)
    names = []
    with open(f"{folder}/big", "wb", buffering=0) as file:
        try:
            for at in range(200):
                file.write(bytes([at]) * 4096)
                names.append(at)
        except OSError as error:
            check(error.errno == errno.ENOSPC, error)
    check(64 < len(names) < 128, f"{len(names)} blocks were written")
    check(get(f"{folder}/big") == b"".join(bytes([at]) * 4096 for at in names), "bytes on a full device")
    os.truncate(f"{folder}/big", 0)
    put(f"{folder}/next", bytes(4096 * (len(names) // 2)))
    os.unlink(f"{folder}/big")
    os.unlink(f"{folder}/next")
    after = used(folder)
    check(after <= before + 2, f"{before} blocks were used before, and {after} are after")
    return f"{len(names)} blocks were written, and given back"
