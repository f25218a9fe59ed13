"""A mount of suites for a test, and where there can be none, why the test is skipped."""
import os
import shutil
import subprocess
import sys
import tempfile
import time
from collections.abc import Sequence

import played

from common import tool

SUITES = os.path.join(played.TOP, "suites")
DOOR = tool("mount")
# Another session than that of these sources, as a command: SUITES_SESSION names it.
SESSION = os.environ.get("SUITES_SESSION")
# Where syncs wait for no disk, which may be busy with much else.
PLACE = "/dev/shm" if os.path.isdir("/dev/shm") else None


def wanting() -> str:
    """What a mount needs and is not here; nothing where all is."""
    if os.geteuid() != 0:
        return "not root"
    if not shutil.which("fusermount3"):
        return "no fusermount3"
    try:
        os.close(os.open("/dev/fuse", os.O_RDWR))
    except OSError as error:
        return f"/dev/fuse: {os.strerror(error.errno)}"
    is_there = SESSION or subprocess.run([SUITES, "session", "--help"], capture_output=True).returncode == 0
    return "" if is_there else "no session"


def skipped(_: object = None) -> bool:
    """Says so where the test cannot be played here."""
    why = wanting()
    if why:
        print(f"skipped: {why}")
    return bool(why)


class Mounted:
    """A mount in a folder of its own, and its journal where it has one."""

    def __init__(self, *words: str, journal: bool = False, session: str | None = SESSION) -> None:
        self.room = tempfile.mkdtemp(prefix="suites-mount-", dir=PLACE)
        os.chmod(self.room, 0o755)
        self.top, self.journal = os.path.join(self.room, "m"), os.path.join(self.room, "journal")
        os.mkdir(self.top)
        self.words = [*(["--journal", self.journal] if journal else []), *words]
        self.session = ["--session", session] if session else []
        self.errors = open(os.path.join(self.room, "errors"), "wb")
        self.begin()

    def __enter__(self) -> "Mounted":
        return self

    def __exit__(self, *_: object) -> None:
        self.end()
        self.errors.close()
        shutil.rmtree(self.room)

    def begin(self) -> None:
        """Mounts it, in a child of this process, and waits until it is there."""
        words = [*DOOR, *self.session, "--allow-other", "--foreground", *self.words, self.top]
        self.child = subprocess.Popen(words, stdin=subprocess.DEVNULL, stderr=self.errors)
        until = time.monotonic() + 300
        while not os.path.ismount(self.top):
            if self.child.poll() is not None or time.monotonic() > until:
                sys.exit(f"it is not mounted: {self.told()}")
            time.sleep(0.01)

    def told(self) -> str:
        """What the mount said on standard error."""
        return played.got(self.errors.name).decode("utf-8", "replace")

    def end(self) -> None:
        """Unmounts it, and waits for its program."""
        subprocess.run(["umount", "-l", self.top], check=False, stderr=subprocess.DEVNULL)
        try:
            self.child.wait(60)
        except subprocess.TimeoutExpired:
            self.child.kill()
            sys.exit("the mount does not end")

    def control(self, *lines: str) -> str:
        """What the session tells of lines."""
        done = subprocess.run([*DOOR, "--control", self.top, *lines], stdout=subprocess.PIPE, text=True)
        return done.stdout

    def sessions(self) -> list[int]:
        """The processes of the session: the children of the mount's program, and theirs."""
        return played.below(self.child.pid)


def as_user(uid: int, gid: int, groups: Sequence[int], umask: int = 0o22) -> None:
    """This process is that user from now on."""
    os.setgroups(list(groups))
    os.setgid(gid)
    os.setuid(uid)
    os.umask(umask)
