"""Random trees of files, folders, links, pipes and devices with random lists, and what this Linux lets users do
there. It shares no code with `may`: lists are packed here, and a child that has become a user makes the call.
"""
import ctypes
import errno
import json
import os
import random
import stat
import struct
import subprocess
from typing import Any, Callable, NamedTuple

UIDS, GIDS = [1001, 1002, 1003, 65534], [200, 201, 202, 203]
NOTHING = 0xFFFFFFFF
FLAGS = ["ro", "noexec", "nodev", "nosymfollow"]
GRANTED, DENIED, UNREAD, FULL, UNJUDGED = "granted", "denied", "unread", "full", "not judged"
# What says that something is not let, and not that it is not there.
DENIALS = (errno.EACCES, errno.EPERM, errno.EROFS, errno.ELOOP)
# As root a file is written to at its end alone where it is append only, so all are.
WRITES = os.O_APPEND | os.O_NONBLOCK
ACCESS, DEFAULT = "system.posix_acl_access", "system.posix_acl_default"
# The kernel's numbers of an owner, a user, an owning group, a group, a mask and all others.
OWNER, USER, OWNING, GROUP, MASK, OTHER = 1, 2, 4, 8, 16, 32
# Names that a careless tool takes for something else.
ODD = ["--help", "-x", "a b", "n\nm", "f\fg", "q\"r", "s\\t", "u\x1b[31m", "\u202ev", "w'x$(y)", os.fsdecode(b"z\xff")]


class User(NamedTuple):
    """Who asks: a number, its own group, and all other groups."""

    uid: int
    gid: int
    groups: tuple[int, ...]
    name: str = ""

    def words(self) -> list[str]:
        """As `may` takes it."""
        return ["--groups", ",".join(map(str, [self.gid, *self.groups])), str(self.uid)]

    def has(self, group: int) -> bool:
        return group in (self.gid, *self.groups)


def letters(perms: int) -> str:
    return "".join(letter if perms & bit else "-" for letter, bit in (("r", 4), ("w", 2), ("x", 1)))


def packed(entries: list[tuple[int, int, int]]) -> bytes:
    """A list, as the kernel takes it: in the order of its tags and numbers."""
    ordered = sorted(entries, key=lambda entry: (entry[0], entry[2]))
    return struct.pack("<I", 2) + b"".join(struct.pack("<HHI", *entry) for entry in ordered)


def unpacked(path: str, which: str = ACCESS) -> list[tuple[int, int, int]]:
    """The entries of a list that a file has, if it has one."""
    try:
        value = os.getxattr(path, which, follow_symlinks=False)
    except OSError:
        return []
    return [(tag, perms, one) for tag, perms, one in struct.iter_unpack("<HHI", value[4:])]


class Dice(random.Random):
    def perms(self) -> int:
        return self.choice([0, 4, 5, 5, 7, 7, 7, self.randrange(8)])

    def entries(self) -> list[tuple[int, int, int]]:
        """A valid list."""
        entries = [(tag, self.perms(), NOTHING) for tag in (OWNER, OWNING, OTHER)]
        named = [
            (tag, self.perms(), one)
            for tag, ids in ((USER, UIDS), (GROUP, GIDS))
            for one in self.sample(ids, self.choice([0, 0, 1, 2]))
        ]
        mask = self.choice([0, 4, 5, 7, 7, self.randrange(8)])
        return entries + named + ([(MASK, mask, NOTHING)] if named or self.random() < 0.2 else [])

    def value(self) -> bytes:
        return packed(self.entries())

    def user(self) -> User:
        many = self.random() < 0.1
        groups = self.sample(GIDS, self.choice([0, 1, 2])) + (list(range(5000, 5040)) if many else [])
        uid = self.choice([*UIDS, *UIDS, *UIDS, 0])
        return User(uid, self.choice([*GIDS, 65533]), tuple(groups))

    def mode(self) -> int:
        return self.choice([0o755, 0o750, 0o711, 0o640, 0o1777, 0o1777, self.randrange(0o1000)])


class Tree:
    """A random tree, and the paths in it: links, `..` behind links, slashes at their ends and missing names too. Parts
    of it may be mounts with flags of their own, and a snapshot of btrfs that is read-only."""

    def __init__(self, dice: Dice, top: str, mounts: bool, is_btrfs: bool = False) -> None:
        self.dice, self.top, self.paths, self.mounted = dice, top, list[str](), list[str]()
        os.chmod(top, 0o755)
        self.fill(top, 1)
        if is_btrfs:
            self.snapshot()
        if mounts:
            self.mount(os.path.join(top, "m"))
            self.bind(os.path.join(top, "b"))
        for count in range(5):
            self.link(count)
        for path in self.paths:
            if dice.random() < 0.05 and not os.path.islink(path):
                subprocess.run(["chattr", dice.choice(["+i", "+a"]), path], stderr=subprocess.DEVNULL)
        for path in self.mounted:
            self.flag(path)
        self.paths += self.odd_ways()

    def folders(self) -> list[str]:
        return [path for path in self.paths if os.path.isdir(path)] or [self.top]

    def link(self, count: int) -> None:
        dice = self.dice
        link, target = os.path.join(dice.choice(self.folders()), f"l{count}"), dice.choice(self.paths)
        try:
            end = "/" if dice.random() < 0.1 else ""
            os.symlink(dice.choice([target, os.path.relpath(target, os.path.dirname(link))]) + end, link)
        except OSError:
            return
        os.lchown(link, dice.choice([0, *UIDS]), 0)
        self.paths.append(link)
        if os.path.isdir(target):
            self.paths += [os.path.join(link, name) for name in os.listdir(target)]

    def odd_ways(self) -> list[str]:
        """Ways through `..`, `.` and slashes, and to what is missing."""
        dice, folders = self.dice, self.folders()
        some = [os.path.join(dice.choice(folders), "missing")]
        some += [os.path.join(dice.choice(folders), "..", dice.choice(os.listdir(self.top))) for _ in range(3)]
        links = [path for path in self.paths if os.path.islink(path) and os.path.isdir(path)]
        some += [os.path.join(path, "..") for path in links]
        some += [path + dice.choice(["/", "//", "/.", "/.."]) for path in dice.sample(self.paths, 4)]
        return some

    def mount(self, path: str) -> None:
        os.mkdir(path, 0o755)
        subprocess.run(["mount", "-t", "tmpfs", "none", path], check=True)
        os.chmod(path, 0o755)
        self.mounted.append(path)
        self.paths.append(path)
        self.fill(path, 2)

    def bind(self, path: str) -> None:
        """Shows a folder of the tree once more."""
        source = self.dice.choice([one for one in self.folders() if not os.path.islink(one)])
        os.mkdir(path, 0o755)
        subprocess.run(["mount", "--bind", source, path], check=True)
        self.mounted.append(path)
        self.paths += [path, *(os.path.join(path, name) for name in os.listdir(path))]

    def flag(self, path: str) -> None:
        """The flags of a mount, once it has its files."""
        flags = self.dice.sample(FLAGS, self.dice.choice([1, 1, 2]))
        subprocess.run(["mount", "-o", ",".join(["remount,bind", *flags]), path], check=True)

    def snapshot(self) -> None:
        """A subvolume with files, and a snapshot of it that is read-only."""
        here, kept = os.path.join(self.top, "s"), os.path.join(self.top, "k")
        words = ["btrfs", "subvolume"]
        subprocess.run([*words, "create", here], check=True, stdout=subprocess.DEVNULL)
        self.fill(here, 3)
        subprocess.run([*words, "snapshot", "-r", here, kept], check=True, stdout=subprocess.DEVNULL)
        inside = [path for path in self.paths if path.startswith(f"{here}/")]
        self.paths += [path.replace(here, kept, 1) for path in inside] + [kept]

    def close(self) -> None:
        for path in reversed(self.mounted):
            subprocess.run(["umount", "-l", path], check=True)
        subprocess.run(["chattr", "-R", "-i", "-a", self.top], stderr=subprocess.DEVNULL)
        for name in ("k", "s"):
            if os.path.isdir(os.path.join(self.top, name)):
                words = ["btrfs", "subvolume", "delete", os.path.join(self.top, name)]
                subprocess.run(words, stdout=subprocess.DEVNULL, stderr=subprocess.DEVNULL)

    def fill(self, folder: str, depth: int) -> None:
        dice = self.dice
        for count in range(dice.choice([2, 3])):
            is_folder = depth < 4 and (count == 0 or dice.random() < 0.4)
            name = dice.choice(ODD) if dice.random() < 0.15 else f"{'d' if is_folder else 'f'}{count}"
            path = os.path.join(folder, name)
            if os.path.lexists(path):
                continue
            mode = dice.mode()
            self.make(path, mode, is_folder)
            os.chown(path, dice.choice([0, *UIDS]), dice.choice([0, *GIDS]))
            if dice.random() < 0.6:
                os.setxattr(path, ACCESS, dice.value())
            elif dice.random() < 0.5:
                os.chmod(path, mode)
            if is_folder and dice.random() < 0.4:
                os.setxattr(path, DEFAULT, dice.value())
            self.paths.append(path)
            if is_folder:
                self.fill(path, depth + 1)

    def make(self, path: str, mode: int, is_folder: bool) -> None:
        kind = self.dice.random()
        if is_folder:
            os.mkdir(path, mode)
        elif kind < 0.1:
            os.mkfifo(path, mode)
        elif kind < 0.2:
            os.mknod(path, mode | stat.S_IFCHR, os.makedev(1, 3))
        else:
            # what is no program is not executed, but Linux says so only once all else is well
            with open(path, "wb", opener=lambda name, flags: os.open(name, flags, mode)) as file:
                earlier = [one for one in self.paths if os.path.exists(one) and "\n" not in one]
                is_script = kind < 0.45 and earlier
                line = self.first_line(os.fsencode(self.dice.choice(earlier))) if is_script else b""
                file.write(line or b"\x7fELF, or not\n")

    def first_line(self, path: bytes) -> bytes:
        """A first line of a script, mostly a good one."""
        dice = self.dice
        before = dice.choice([b"", b"", b" ", b"\t "])
        behind = dice.choice([b"", b"", b" -x", b"\t", b"\r", b"\f", b"\0/x"])
        return b"#!" + before + path + behind + dice.choice([b"\n", b"\n", b"\n", b""])


# ---- what Linux lets do


def outcome(call: Callable[[], object]) -> str:
    """What came of a call: `granted`, `denied`, or `unread` where there is no such path."""
    try:
        call()
        return GRANTED
    except OSError as error:
        if error.errno in (errno.ENXIO, errno.ENOEXEC, errno.ETXTBSY, errno.ELIBBAD):
            return GRANTED
        if error.errno in (errno.ENOTEMPTY, errno.EBUSY):
            return FULL
        return DENIED if error.errno in DENIALS else UNREAD


def opened(path: str, flags: int) -> str:
    return outcome(lambda: os.close(os.open(path, flags | os.O_NONBLOCK)))


def checked(path: str, wanted: int) -> str:
    libc = ctypes.CDLL(None, use_errno=True)

    def call() -> None:
        if libc.access(os.fsencode(path), wanted) != 0:
            number = ctypes.get_errno()
            raise OSError(number, os.strerror(number))

    return outcome(call)


def executed(path: str) -> str:
    """What comes of executing; a program that begins says nothing more."""
    reading, writing = os.pipe()
    child = os.fork()
    if child == 0:
        null = os.open(os.devnull, os.O_RDWR)
        for stream in (0, 1, 2):
            os.dup2(null, stream)
        said = outcome(lambda: os.execv(path, [path]))
        os.write(writing, said.encode())
        os._exit(0)
    os.close(writing)
    with os.fdopen(reading) as told:
        text = told.read()
    os.waitpid(child, 0)
    return text or GRANTED


def done(path: str, wanted: int) -> str:
    """What Linux answers: by opening and executing, of a folder by access(2)."""
    if os.path.isdir(path) or not os.path.lexists(path):
        said = [checked(path, wanted)]
        said += [opened(path, os.O_RDONLY)] if wanted == 4 else []
    else:
        ways = {6: os.O_RDWR | WRITES, 2: os.O_WRONLY | WRITES, 4: os.O_RDONLY}
        said = [opened(path, ways[wanted & 6])] if wanted & 6 else []
        said += [executed(path)] if wanted & 1 else []
    return next((one for one in (UNREAD, DENIED) if one in said), GRANTED)


def as_user(user: User, work: Callable[[], Any]) -> Any:
    """What a piece of work answers in a process of this user and its groups."""
    reading, writing = os.pipe()
    child = os.fork()
    if child == 0:
        status = 1
        try:
            os.close(reading)
            os.setgroups(user.groups)
            os.setresgid(user.gid, user.gid, user.gid)
            os.setresuid(user.uid, user.uid, user.uid)
            with os.fdopen(writing, "w") as told:
                json.dump(work(), told)
            status = 0
        finally:
            os._exit(status)
    os.close(writing)
    with os.fdopen(reading) as told:
        text = told.read()
    if os.waitpid(child, 0)[1] != 0:
        raise SystemExit("a process that tries what a user may do has failed")
    return json.loads(text)


def tried(user: User, asked: list[tuple[str, int]]) -> list[str]:
    """What Linux answers to a user, for each of some paths and what is wanted of it."""
    return as_user(user, lambda: [done(path, wanted) for path, wanted in asked])


def made(path: str) -> str:
    """What comes of making a name: of one that ends with a slash a folder."""
    if path.endswith("/"):
        return outcome(lambda: os.mkdir(path, 0o700))
    return outcome(lambda: os.close(os.open(path, os.O_CREAT | os.O_EXCL | os.O_WRONLY, 0o600)))


def taken(path: str, is_folder: bool) -> str:
    return outcome(lambda: os.rmdir(path) if is_folder else os.unlink(path))


def kept(path: str) -> Callable[[], None]:
    """What puts a name back as it was."""
    path = path.rstrip("/")
    path = os.path.join(os.path.realpath(os.path.dirname(path)), os.path.basename(path))
    found = os.lstat(path)
    if stat.S_ISLNK(found.st_mode):
        target = os.readlink(path)

        def link_back() -> None:
            os.symlink(target, path)
            os.lchown(path, found.st_uid, found.st_gid)

        return link_back
    values = {name: os.getxattr(path, name) for name in os.listxattr(path)}
    text = b""
    if stat.S_ISREG(found.st_mode):
        with open(path, "rb") as file:
            text = file.read()

    def put_back() -> None:
        if stat.S_ISDIR(found.st_mode):
            os.mkdir(path)
        elif stat.S_ISREG(found.st_mode):
            with open(path, "wb") as file:
                file.write(text)
        else:
            os.mknod(path, found.st_mode, found.st_rdev)
        os.chown(path, found.st_uid, found.st_gid)
        os.chmod(path, stat.S_IMODE(found.st_mode))
        for name, value in values.items():
            os.setxattr(path, name, value)

    return put_back
