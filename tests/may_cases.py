"""Cases for tests/may-against-the-kernel.py, tried on each file system: what random trees seldom have. Of each it is
held what `may` tells against what a user meets who tries it.
"""
import contextlib
import fcntl
import os
import shutil
import subprocess
import tempfile
from typing import Callable, Iterator

import kernel_trees as trees
import played  # noqa: F401
from asked_may import accounts, creates, deletes, forget, may, named_in, sentences
from kernel_trees import DENIED, GRANTED, UNJUDGED, User, tried as tried_by
from may_changes import Count, powers

from may import linux

LISA, BOB, THIRD = (User(uid, uid - 800, (), f"n{uid}") for uid in (1001, 1002, 1003))
ROOT = User(0, 0, (), "root")
# A label, what is told, and what is wanted.
Case = Iterator[tuple[str, object, object]]
PROGRAM = b"\x7fELF, or not\n"


class Room:
    """A folder for a case."""

    def __init__(self, place: str, kind: str) -> None:
        self.top, self.kind = tempfile.mkdtemp(prefix="suites-may-", dir=place), kind
        self.mounted: list[str] = []
        os.chmod(self.top, 0o755)

    def path(self, name: str | bytes) -> str:
        return os.path.join(self.top, os.fsdecode(name))

    def file(self, name: str | bytes, mode: int = 0o644, text: bytes = PROGRAM) -> str:
        path = self.path(name)
        played.put(path, text)
        os.chmod(path, mode)
        return path

    def folder(self, name: str, mode: int = 0o755) -> str:
        path = self.path(name)
        os.mkdir(path)
        os.chmod(path, mode)
        return path

    def link(self, name: str, target: str, owner: int = 0) -> str:
        path = self.path(name)
        os.symlink(target, path)
        os.lchown(path, owner, 0)
        return path

    def entries(self, name: str, entries: str) -> None:
        """Puts entries into the list of a file."""
        subprocess.run(["setfacl", "-m", entries, "--", self.path(name)], check=True)

    def lint(self, users: list[User]) -> list[str]:
        """What is to be mended, where these are all that have an account."""
        with accounts(users):
            return may([f"--lint={self.top}"]).lines

    def mount(self, path: str, *words: str) -> None:
        subprocess.run(["mount", *words, path], check=True)
        self.mounted.append(path)
        forget()

    def close(self) -> None:
        for path in reversed(self.mounted):
            subprocess.run(["umount", "-l", path], check=True)
        subprocess.run(["chattr", "-R", "-i", "-a", self.top], stderr=subprocess.DEVNULL)
        shutil.rmtree(self.top, ignore_errors=True)
        forget()


def meets(user: User, verb: str, path: str) -> str:
    """What a user meets who tries it."""
    perms = sum(bit for letter, bit in (("r", 4), ("w", 2), ("x", 1)) if letter in verb)
    return tried_by(user, [(path, perms)])[0]


def both(user: User, verb: str, path: str) -> tuple[str, str]:
    """What is told of a user and a path, and what Linux does."""
    return sentences(user, verb, [path])[0][0], meets(user, verb, path)


def under(verb: str, top: str, user: User = LISA) -> tuple[int, list[str]]:
    """The status of a walk, and the paths that it tells."""
    told = may([*user.words(), verb, f"--under={top}"])
    return told.status, [line.split("  ")[0] for line in told.lines]


def if_so(is_so: bool) -> str:
    return GRANTED if is_so else DENIED


# ---- walks


def planted(room: Room) -> Case:
    """Nothing that a tree holds ends a walk; what is not judged is told, and the status says so."""
    room.file("a", 0o755, b"#!/bin/true\0/x\n")
    room.file("b", 0o755, b"#!")
    room.file(b"c\xff", 0o755, b"#!/\xff\xfe \n")
    os.mkfifo(room.path("p"))
    room.file("z", 0o755)
    yield "all are told", under("x", room.top)[1][-1], room.path("z")
    for path in map(room.path, ("a", "b", os.fsdecode(b"c\xff"), "p", "z")):
        yield f"{path!r}", *both(LISA, "x", path)


def under_links(room: Room) -> Case:
    """A tree that is a link, `..` behind a link, and a mount below one."""
    room.folder("closed", 0o700), room.folder("closed/d"), room.file("closed/d/f")
    room.folder("open"), room.folder("open/d"), room.file("open/d/f")
    room.folder("far"), room.folder("far/d"), room.file("far/d/g"), room.file("far/f")
    room.mount(room.folder("open/m"), "-t", "tmpfs", "-o", "mode=755", "none")
    room.file("open/m/f", 0o666)
    subprocess.run(["mount", "-o", "remount,bind,ro", room.path("open/m")], check=True)
    forget()
    for name, target in (("to-closed", "closed/d"), ("to-open", "open"), ("up", "far/d")):
        room.link(name, target)
    for top, files in (("to-closed", ["f"]), ("to-open", ["d/f", "m/f"]), ("up/..", ["d/g", "f"])):
        for verb in ("r", "w"):
            may_it = under(verb, room.path(top))[1]
            for path in (f"{room.path(top)}/{name}" for name in files):
                yield f"{verb} {path}", if_so(path in may_it), meets(LISA, verb, path)
    os.chmod(room.path("open/d/f"), 0o666)
    with accounts([LISA]):
        told = may([f"--lint={room.path('to-open')}"])
    found = f"{room.path('to-open')}/d/f: all may write it"
    yield "lint looks behind a link", any(found in one for one in told.lines), True
    yield "a link at the end of a tree's name", under("r", f"{room.path('to-open')}/")[0], 0


# ---- scripts


def heads(place: bytes) -> Iterator[bytes]:
    """First lines of scripts for a program."""
    long = place + b"/" * (254 - len(place))
    for end in (b"\n", b"", b" \n", b"\t-x y\n", b"\r\n", b"\f\n", b"\v\n", b"\0\n", b"\0/x\n", b"\xa0\n", b"\x85\n"):
        yield b"#!" + place + end
    yield from (b"#! \t" + place, b"#!\n", b"#! \n", b"#!", b"#!\0", b"#!\0" + place, b"# !" + place)
    for blanks in (254 - len(place), 253 - len(place)):
        yield b"#!" + b" " * blanks + place + b"\n"
    yield b"#!" + b" " * 254
    yield from (b"#!" + long[:252] + b"\n", b"#!" + long[:253] + b"\n", b"#!" + long + b"\n", b"#!" + long[:253] + b" ")


def first_lines(room: Room) -> Case:
    """First lines as Linux reads them: of each there is a program that all may execute, and one that nobody may."""
    for mode in (0o755, 0o644):
        program = os.fsencode(room.file(f"p{mode:o}", mode))
        for count, head in enumerate(heads(program)):
            path = room.file(f"s{mode:o}-{count}", 0o755, head)
            yield f"{head[:60]!r}", *both(LISA, "x", path)
    odd = os.fsencode(room.file(b"o\r", 0o755))
    yield "\\r is part of a name", *both(LISA, "x", room.file("so", 0o755, b"#!" + odd + b"\n"))
    yield "a folder", *both(LISA, "x", room.file("sf", 0o755, b"#!" + os.fsencode(room.top) + b"\n"))
    closed = os.fsencode(room.folder("closed", 0o700)) + b"/p"
    room.file("closed/p", 0o755)
    yield "behind a closed folder", *both(LISA, "x", room.file("sc", 0o755, b"#!" + closed + b"\n"))


def chains(room: Room) -> Case:
    """Scripts whose interpreters are scripts."""
    before = room.file("c0", 0o755)
    for count in range(1, 9):
        before = room.file(f"c{count}", 0o755, b"#!" + os.fsencode(before) + b"\n")
        yield f"a chain of {count}", *both(LISA, "x", before)
        with accounts([LISA, BOB]):
            told = may(["--who", "x", before])
        yield f"who, a chain of {count}", if_so(LISA.name in told.lines[0]), meets(LISA, "x", before)
    os.chmod(room.path("c0"), 0o644)
    forget()
    for name in ("c5", "c6"):
        yield f"{name}, of which nobody may execute the last", *both(LISA, "x", room.path(name))


def scripts_everywhere(room: Room) -> Case:
    """An interpreter counts in --who, --with and --under too."""
    users = [LISA, BOB]
    program = room.file("p", 0o640)
    os.chown(program, 0, 201)
    os.chmod(program, 0o750)
    script = room.file("s", 0o755, b"#!" + os.fsencode(program) + b"\n")
    with accounts(users):
        who, with_it = may(["--who", "x", script]).lines, may(["--with", "u:1002:rwx", program]).lines
        of_script = may(["--with", "o::r", script]).lines
    for user in users:
        said = meets(user, "x", script)
        yield f"who {user.name}", if_so(user.name in named_in(who)), said
        yield f"under {user.name}", if_so(script in under("x", room.top, user)[1]), said
    yield "with, of the interpreter", with_it[1:], ["  gains rwx: n1002"]
    yield "with, of the script: bob could not execute it before", of_script[1:], ["  loses x: n1001"]


# ---- mounts


def odd_points(room: Room) -> Case:
    """Folders with odd names that something is mounted on: none hides a mount, and none forges one."""
    forged = "a\f22\x1c27\x1c0:21\x1c/\x1c/\x1cro,relatime\x1c-\x1ctmpfs\x1cnone\x1cro"
    for name in ("f\fg", "a b", "n\nm", "t\tu", "b\\040c", "e\x1b[31m", "v\vw\x85", forged):
        path = room.path(name)
        os.makedirs(path)
        room.mount(path, "-t", "tmpfs", "-o", "mode=777", "none")
        room.file(os.path.join(name, "f"), 0o666)
        subprocess.run(["mount", "-o", "remount,bind,ro", path], check=True)
        forget()
        yield f"{name!r}", *both(LISA, "w", os.path.join(path, "f"))
        told = may([*LISA.words(), "w", "--", os.path.join(path, "f")])
        yield f"{name!r} is shown in a line", all(line.isprintable() for line in told.lines), True
    yield "/ is no other mount", *both(ROOT, "w", "/")


def mount_points(room: Room) -> Case:
    """What something is mounted on is not taken away, by whichever path."""
    room.folder("a", 0o777), room.folder("b")
    room.folder("a/m", 0o777), room.folder("a/n", 0o777)
    room.mount(room.path("b"), "--bind", room.path("a"))
    room.mount(room.path("a/m"), "-t", "tmpfs", "none")
    for name in ("a/m", "b/m", "a/n", "b/n"):
        yield f"delete {name}", *deletes(LISA, room.path(name))[:2]


# ---- links and slashes


def sticky_links(room: Room) -> Case:
    """A link of another in a sticky folder is not followed at the end of a path, and is followed in its middle."""
    with links_protected():
        yield from of_sticky_links(room)


@contextlib.contextmanager
def links_protected() -> Iterator[None]:
    """Linux protects links in sticky folders, whatever was set here; other tests that set it wait for that."""
    path = "/proc/sys/fs/protected_symlinks"
    file = open(path, encoding="ascii")
    fcntl.flock(file, fcntl.LOCK_EX)
    before = file.read()
    try:
        with contextlib.suppress(OSError), open(path, "w", encoding="ascii") as setting:
            setting.write("1")
        linux.follows_all_links.cache_clear()
        yield
    finally:
        with contextlib.suppress(OSError), open(path, "w", encoding="ascii") as setting:
            setting.write(before)
        linux.follows_all_links.cache_clear()
        file.close()


def of_sticky_links(room: Room) -> Case:
    room.folder("d"), room.file("d/f"), room.folder("sticky", 0o1777)
    room.link("sticky/l", room.path("d"), 1002), room.link("sticky/g", room.path("d/f"), 1002)
    room.link("to", room.path("sticky/l"), 0), room.link("sticky/mine", room.path("d"), 1001)
    for name in ("sticky/l", "sticky/l/", "sticky/l/.", "sticky/l/f", "sticky/g", "to", "to/f", "to/", "sticky/mine"):
        for user in (LISA, BOB, ROOT):
            yield f"{name} {user.uid}", *both(user, "r", room.path(name))
    for name in ("sticky/l", "to"):
        may_it = under("r", room.path(name))[1]
        for path in (room.path(name), f"{room.path(name)}/f"):
            yield f"under {name}: {path}", if_so(path in may_it), meets(LISA, "r", path)


def slashes(room: Room) -> Case:
    """A slash at the end wants a folder, and no x of it."""
    room.folder("d", 0o744), room.file("f", 0o644), room.link("l", "d"), room.link("m", "f")
    room.link("n", "f/"), room.link("o", "d/")
    os.chmod(room.top, 0o777)
    for name in ("d", "d/", "d/.", "d//", "d/..", "f/", "f/.", "l/", "l/.", "m/", "n", "o", "o/", "."):
        yield f"r {name}", *both(LISA, "r", room.path(name))
    for name in ("f/", "l/", "m/", "d/", "f", "l"):
        yield f"delete {name}", *deletes(LISA, room.path(name))[:2]


def growing_paths(room: Room) -> Case:
    """A path that grows beyond 4,095 bytes through links is told as not judged."""
    name, here = "d" * 250, os.getcwd()
    os.chdir(room.top)
    try:
        for count in range(18):
            if count % 3 == 0:
                os.symlink("/".join([name] * 3), "l")
            os.mkdir(name)
            os.chdir(name)
        open("f", "w").close()
    finally:
        os.chdir(here)
    yield "a path that grows", sentences(LISA, "r", [room.path("l/l/l/l/l/l/f")])[0][0], UNJUDGED
    yield "one that grows less", *both(LISA, "r", room.path("l/l/l"))
    yield "under it", under("r", room.top)[0], 3


# ---- snapshots


def snapshots(room: Room) -> Case:
    """Nothing is written in a snapshot of btrfs that is read-only."""
    if room.kind != "btrfs":
        return
    subprocess.run(["btrfs", "subvolume", "create", room.path("s")], check=True, stdout=subprocess.DEVNULL)
    room.file("s/f", 0o666), room.folder("s/d", 0o777)
    os.chmod(room.path("s"), 0o777)
    words = ["btrfs", "subvolume", "snapshot", "-r", room.path("s"), room.path("k")]
    subprocess.run(words, check=True, stdout=subprocess.DEVNULL)
    forget()
    for name in ("s/f", "k/f", "s/d", "k/d", "s", "k"):
        for verb in ("r", "w"):
            yield f"{verb} {name}", *both(LISA, verb, room.path(name))
    for name in ("s/new", "k/new", "k/d/new"):
        yield f"create {name}", *creates(LISA, room.path(name))[:2]
    for name in ("k", "s"):
        words = ["btrfs", "subvolume", "delete", room.path(name)]
        subprocess.run(words, check=True, stdout=subprocess.DEVNULL)


# ---- lint


def advice(room: Room) -> Case:
    """What lint advises harms nobody, adds to what an entry has, and is typed as it is told."""
    users = [LISA, BOB, THIRD]
    name = "o'dd $(x)\n\x1b[31m\udcff"
    room.folder(name, 0o750)
    inside = room.file(os.path.join(name, "f"), 0o640)
    for path in (name, inside):
        room.entries(path, "u:1001:r")
    told = room.lint(users)
    line = next((one for one in told if "reaches nobody" in one and ": setfacl " in one), "")
    yield "lines are printable", all(one.isprintable() for one in told), True
    yield "there is an advice, which keeps r", "u:1001:r-x" in line, True
    before = powers(users, [inside])
    done = subprocess.run(["bash", "-c", "setfacl " + line.partition(": setfacl ")[2]])
    after = powers(users, [inside])
    yield "it is typed", done.returncode, 0
    yield "it mends", after - before, {("n1001", inside, 4)}
    yield "nobody loses", before - after, set()


def no_harm(room: Room) -> Case:
    """Where a change would harm somebody, or help another, the finding alone is told."""
    room.folder("d", 0o755), room.file("d/f", 0o644)
    # the mask takes x from bob: a wider one would give it to him too
    room.entries("d", "u:1001:---,u:1002:rwx,m::r")
    room.entries("d/f", "u:1001:r")
    found = [one for one in room.lint([LISA, BOB, THIRD]) if "reaches nobody" in one]
    yield "it is found", len(found), 1
    yield "nothing is advised", any("setfacl" in one for one in found), False


# ---- who makes and takes away


def who_names(room: Room) -> Case:
    """Who may make a name, and take one away."""
    users = [LISA, BOB, ROOT]
    room.folder("d", 0o1777), room.file("d/f")
    os.chown(room.path("d/f"), 1001, 0)
    for verb, name in (("create", "d/new"), ("create", "d/f"), ("create", "new"), ("delete", "d/f"), ("delete", "d")):
        with accounts(users):
            told = may(["--who", verb, room.path(name)]).lines
        for user in users:
            one = sentences(user, verb, [room.path(name)])[0][0]
            yield f"who {verb} {name}: {user.name}", if_so(user.name in named_in(told)), one
    yield "who create d/new is tried", trees.as_user(BOB, lambda: trees.made(room.path("d/new"))), GRANTED
    yield "who delete d/f is tried", trees.as_user(BOB, lambda: trees.taken(room.path("d/f"), False)), DENIED


CASES: tuple[Callable[[Room], Case], ...] = (
    planted, under_links, first_lines, chains, scripts_everywhere, odd_points, mount_points, sticky_links, slashes,
    growing_paths, snapshots, advice, no_harm, who_names,
)  # fmt: skip
NEED_SETFACL = (advice, no_harm)


def tried(kind: str, place: str) -> Count:
    """Tries all cases on a file system."""
    count = Count()
    for case in CASES:
        if case in NEED_SETFACL and not shutil.which("setfacl"):
            continue
        room = Room(place, kind)
        forget()
        try:
            for label, told, wanted in case(room):
                count.asked += 1
                if told != wanted:
                    count.differs(f"{kind}, {case.__name__}, {label}", told, wanted, [])
        finally:
            room.close()
    print(f"{kind}: {count.asked} cases, {count.wrong} differ", flush=True)
    return count
