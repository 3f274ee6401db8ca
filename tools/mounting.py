"""A file system of `novamount` that is mounted: what tools/mounted, tools/mount-record and tools/mount-figures begin with."""

import os
import signal
import subprocess
import time

# What a shell does to mount a folder and to run the program: the first word is the folder, the second one has options of the mount, and
# the others are the command.
SHELL = """
exec 3<>/dev/fuse
mount -i -t fuse.nova nova "$1" -o "fd=3,rootmode=40000,user_id=0,group_id=0,$2" || exit 1
shift 2
exec "$@" <&3 >&3 3>&-
"""
# The options by which the kernel asks modes and owners what a user may do, and by which others than root may enter.
PLAIN = "default_permissions"
SHARED = "default_permissions,allow_other"
# For so many seconds a mount, the end of a program, or an unmount is waited for.
PATIENCE = 120


def is_mounted(folder):
    """Whether a file system is mounted there, without a request to it."""
    with open("/proc/self/mountinfo", encoding="utf-8") as file:
        return any(line.split()[4] == folder for line in file)


def wait_for(what, is_done):
    for _ in range(PATIENCE * 20):
        if is_done():
            return
        time.sleep(0.05)
    raise TimeoutError(f"{what}: not within {PATIENCE} s")


def unmount(folder):
    """Unmounts a folder, also where a program is still in it."""
    if is_mounted(folder) and subprocess.run(["umount", folder], check=False).returncode != 0:
        subprocess.run(["umount", "-l", folder], check=False)


def unmount_below(folder):
    """Unmounts all that is mounted below a folder, the last mount first."""
    with open("/proc/self/mountinfo", encoding="utf-8") as file:
        folders = [line.split()[4] for line in file]
    for mounted in reversed(folders):
        if mounted.startswith(f"{folder}/"):
            unmount(mounted)


def can_mount():
    return os.geteuid() == 0 and os.path.exists("/dev/fuse")


class Mounted:
    """A folder with a program that answers for it. `with` leaves nothing mounted and nothing running."""

    def __init__(self, folder, command, log, options=PLAIN):
        self.folder, self.command, self.log, self.options = folder, command, log, options

    def __enter__(self):
        os.makedirs(self.folder, exist_ok=True)
        with open(self.log, "wb") as log:
            words = ["bash", "-c", SHELL, "mount", self.folder, self.options, *self.command]
            self.program = subprocess.Popen(words, stderr=log, start_new_session=True)
        try:
            wait_for("the mount", lambda: is_mounted(self.folder) or self.program.poll() is not None)
        except BaseException:
            self.__exit__()
            raise
        return self

    def __exit__(self, *_):
        unmount(self.folder)
        try:
            self.program.wait(PATIENCE)
        except subprocess.TimeoutExpired:
            self.program.kill()
            self.program.wait()
            unmount(self.folder)

    def told(self):
        """What the program wrote on standard error."""
        with open(self.log, encoding="utf-8", errors="replace") as file:
            return file.read().strip()


def run_bounded(words, seconds, **others):
    """Runs a program and all that it starts, for so many seconds at most. Answers its status, None where time ended it, and its output."""
    streams = {"stdin": subprocess.DEVNULL, "stdout": subprocess.PIPE, "stderr": subprocess.STDOUT}
    child = subprocess.Popen(words, start_new_session=True, **streams, **others)
    try:
        text, _ = child.communicate(timeout=seconds)
        status = child.returncode
    except subprocess.TimeoutExpired:
        os.killpg(child.pid, signal.SIGKILL)
        text, _ = child.communicate()
        status = None
    return status, text.decode(errors="replace")
