#!/usr/bin/env python3
"""tests/mount-against-the-kernel.py [--calls N] [--seed SEED] [--show]

Makes the same random calls as four users with several groups on a mount and on a file system of this Linux (/dev/shm),
and compares what is answered: to open to read, to write and to append, create, mkdir, unlink, rmdir, readdir, stat,
chmod, access, rename, truncate, times, and both lists got, set and removed, under several umasks and default lists.
What may differ is the list of docs/MOUNT.md, each here by a rule of its own (`RULES`), and is counted; --show prints
each. Status 1 where anything else differs. Where a difference of the list leaves another tree, both begin anew.
"""
import collections
import errno
import functools
import json
import operator
import os
import random
import shutil
import stat
import subprocess
import sys
import tempfile
from collections.abc import Callable, Iterable
from typing import Any

import mounted
import played
from kernel_trees import ACCESS, DEFAULT, NOTHING, packed, unpacked

USERS = ((1000, 100, (200,)), (1001, 100, (200, 201)), (1002, 300, (200, 201, 202)), (1003, 301, ()))
UIDS, GIDS = (1000, 1001, 1002, 1003), (100, 200, 201, 300)
PLACE = "/dev/shm"
MODES = (0o777, 0o755, 0o644, 0o700, 0o640, 0o070, 0o007, 0o751, 0o666, 0o444)
# After so many calls the tree is begun anew, and after so many more the mount, whose servers get full.
OF_A_TREE, OF_A_MOUNT = 500, 5000
# So many kinds of answers come, at least.
LEAST = 100
# How often each call is made.
KINDS = {
    "read": 8, "write": 5, "append": 4, "update": 3, "create": 7, "creat": 3, "mkdir": 6, "unlink": 3, "rmdir": 2,
    "list": 5, "stat": 6, "chmod": 5, "access": 5, "rename": 4, "truncate": 3, "touch": 2, "settime": 1, "chown": 1,
    "setacl": 6, "setdefault": 4, "getacl": 3, "getdefault": 2, "rmacl": 1, "rmdefault": 1, "fstat": 2, "statfs": 0,
}
# So many calls make the first things, and these change something.
FIRST = 12
CHANGING = {"write", "append", "update", "create", "creat", "mkdir", "unlink", "rmdir", "chmod", "rename", "truncate",
            "setacl", "setdefault", "rmacl", "rmdefault"}
Call = list[Any]


class Dice(random.Random):
    def lists(self) -> str:
        """A valid list, as Linux keeps it."""
        entries = [(1, self.choice((7, 7, 7, 6, 5, 4, 0)), NOTHING)]
        users, groups = (sorted(self.sample(some, self.choice((0, 0, 1, 2)))) for some in (UIDS, GIDS))
        entries += [(2, self.randrange(8), one) for one in users]
        entries.append((4, self.randrange(8), NOTHING))
        entries += [(8, self.randrange(8), one) for one in groups]
        if users or groups or self.random() < 0.1:
            entries.append((16, self.choice((7, 7, 7, 6, 5, 4, 3, 1, 0)) if self.random() < 0.9 else 7, NOTHING))
        entries.append((32, self.choice((7, 5, 5, 4, 1, 0)), NOTHING))
        return packed(entries).hex()

    def path(self) -> str:
        return "/".join(self.choice("abcd") for _ in range(self.choice((1, 1, 2, 2, 3))))

    def call(self, place: int) -> Call:
        """A call; of a new tree the first ones make what the others are about."""
        kind = self.choices([*KINDS], [*KINDS.values()])[0] if place > FIRST else self.choice(("mkdir", "create"))
        call: Call = [kind, self.path()]
        if kind in ("write", "append", "update"):
            call.append(self.randbytes(self.choice((0, 1, 5, 300))).hex())
        elif kind in ("create", "creat", "mkdir"):
            call += [self.choice(MODES), self.choice((0, 0, 0o22, 0o27, 0o77))]
        elif kind == "chmod":
            call.append(self.choice(MODES))
        elif kind in ("setacl", "setdefault"):
            call.append(self.lists())
        elif kind == "access":
            call.append(self.randrange(8))
        elif kind == "rename":
            call.append(self.path())
        elif kind == "truncate":
            call.append(self.choice((0, 1, 3, 400)))
        return call


def opened(path: str, flags: int, mode: int, does: Any) -> Any:
    file = os.open(path, flags, mode)
    try:
        return does(file)
    finally:
        os.close(file)


def shown(told: os.stat_result) -> str:
    size = "" if stat.S_ISDIR(told.st_mode) else told.st_size
    return f"{told.st_mode:o} {told.st_uid} {told.st_gid} {size}"


def update(file: int, data: bytes) -> str:
    """Reads all, writes over the beginning, and reads it back."""
    before = os.read(file, 70000)
    os.pwrite(file, data, 1)
    return f"{before.hex()} {os.pread(file, 70000, 0).hex()}"


def seen(path: str, does: Callable[[], object]) -> str:
    """What a change leaves."""
    does()
    return shown(os.stat(path))


def made(top: str, call: Call) -> Any:
    """What a call answers."""
    kind, path, rest = call[0], os.path.join(top, call[1]), call[2:]
    data = bytes.fromhex(rest[0]) if kind in ("write", "append", "update", "setacl", "setdefault") else b""
    if kind in ("create", "creat", "mkdir"):
        os.umask(rest[1])
    return {
        "read": lambda: opened(path, os.O_RDONLY, 0, lambda file: os.read(file, 70000).hex()),
        "fstat": lambda: opened(path, os.O_RDONLY, 0, lambda file: shown(os.fstat(file))),
        "write": lambda: opened(path, os.O_WRONLY | os.O_TRUNC, 0, lambda file: os.write(file, data)),
        "append": lambda: opened(path, os.O_WRONLY | os.O_APPEND, 0, lambda file: os.write(file, data)),
        "update": lambda: opened(path, os.O_RDWR, 0, lambda file: update(file, data)),
        "create": lambda: opened(path, os.O_CREAT | os.O_EXCL | os.O_RDWR, rest[0], lambda file: os.write(file, b"n")),
        "creat": lambda: opened(path, os.O_CREAT | os.O_WRONLY, rest[0], lambda file: os.write(file, b"mm")),
        "mkdir": lambda: seen(path, lambda: os.mkdir(path, rest[0])),
        "unlink": lambda: os.unlink(path),
        "rmdir": lambda: os.rmdir(path),
        "list": lambda: ",".join(sorted(os.listdir(path))),
        "stat": lambda: shown(os.stat(path)),
        "chmod": lambda: seen(path, lambda: os.chmod(path, rest[0])),
        "chown": lambda: os.chown(path, os.getuid(), -1),
        "access": lambda: os.access(path, rest[0]),
        "rename": lambda: os.rename(path, os.path.join(top, rest[0])),
        "truncate": lambda: seen(path, lambda: os.truncate(path, rest[0])),
        "touch": lambda: os.utime(path),
        "settime": lambda: os.utime(path, (1000, 1000)),
        "setacl": lambda: seen(path, lambda: os.setxattr(path, ACCESS, data)),
        "setdefault": lambda: os.setxattr(path, DEFAULT, data),
        "getacl": lambda: os.getxattr(path, ACCESS).hex(),
        "getdefault": lambda: os.getxattr(path, DEFAULT).hex(),
        "rmacl": lambda: seen(path, lambda: os.removexattr(path, ACCESS)),
        "rmdefault": lambda: os.removexattr(path, DEFAULT),
    }[kind]()


def answers(user: tuple[int, int, tuple[int, ...]]) -> None:
    """Makes the calls that are read, as a user, on both trees, and writes what they answered."""
    mounted.as_user(*user)
    for line in sys.stdin:
        tops, call = json.loads(line)
        told = []
        for top in tops:
            try:
                told.append(f"= {made(top, call)}")
            except OSError as error:
                told.append(errno.errorcode[error.errno])
        print(json.dumps(told), flush=True)


class Caller:
    """A process that is a user."""

    def __init__(self, number: int) -> None:
        words = [sys.executable, os.path.abspath(__file__), "--user", str(number)]
        self.child = subprocess.Popen(words, stdin=subprocess.PIPE, stdout=subprocess.PIPE, text=True)

    def told(self, tops: Iterable[str], call: Call) -> list[str]:
        self.child.stdin.write(json.dumps([[*tops], call]) + "\n")
        self.child.stdin.flush()
        line = self.child.stdout.readline()
        return json.loads(line) if line else sys.exit("a caller has ended")


def has_empty_mask(path: str) -> bool:
    """Whether the list there has a mask without letters: Linux then reads no list."""
    return any(tag == 16 and bits == 0 for tag, bits, _ in unpacked(path))


def is_of_two(path: str, found: os.stat_result, user: tuple[int, int, tuple[int, ...]], wanted: int) -> bool:
    """Whether entries of a user's groups grant together what is wanted, and none of them alone."""
    entries = unpacked(path)
    groups, mask = (user[1], *user[2]), next((bits for tag, bits, _ in entries if tag == 16), 7)
    if user[0] == found.st_uid or any(tag == 2 and who == user[0] for tag, _, who in entries):
        return False
    is_own = found.st_gid in groups
    own = [bits & mask for tag, bits, who in entries if tag == 8 and who in groups or tag == 4 and is_own]
    together = functools.reduce(operator.or_, own, 0)
    return together & wanted == wanted and not any(bits & wanted == wanted for bits in own)


class Facts:
    """What the tree of this Linux has on the way of a call before it is made: as root sees it."""

    def __init__(self, top: str, call: Call, user: tuple[int, int, tuple[int, ...]]) -> None:
        self.call, self.user = call, user
        self.paths = [call[1], *([call[2]] if call[0] == "rename" else [])]
        self.target = os.path.join(top, call[1])
        self.way = [
            "/".join([top, *path.split("/")[:depth]]) for path in self.paths for depth in range(path.count("/") + 2)
        ]

        self.has_empty_mask = any(map(has_empty_mask, self.way))
        try:
            found = os.stat(self.target)
        except OSError:
            self.is_folder, self.is_own, self.is_of_two = False, False, False
            return
        self.is_folder = stat.S_ISDIR(found.st_mode)
        self.is_own = found.st_uid == user[0] and found.st_gid in (user[1], *user[2])
        wanted = {"update": 6, "access": call[2]}.get(call[0], 0) if len(call) > 2 else 0
        self.is_of_two = wanted != 0 and is_of_two(self.target, found, user, wanted)


# What docs/MOUNT.md tells that Linux does otherwise: the calls, what the mount answers, and when.
RULES = {
    "an empty mask": lambda facts, ours, theirs: facts.has_empty_mask,
    "a list is not told to whom it does not let read": lambda facts, ours, theirs: (
        facts.call[0] in ("getacl", "getdefault") and ours == "EACCES"
    ),
    "what is wanted at once is asked one after the other": lambda facts, ours, theirs: (
        facts.is_of_two and ours.startswith("=") and theirs in ("EACCES", "= False")
    ),
    "EISDIR and ENOTDIR come before EACCES": lambda facts, ours, theirs: (
        (facts.call[0], ours, theirs) in (("unlink", "EISDIR", "EACCES"), ("rmdir", "ENOTDIR", "EACCES"))
    ),
    "access asks whether a folder can be changed": lambda facts, ours, theirs: (
        facts.call[0] in ("access", "touch") and facts.is_folder and ours in ("= False", "EACCES")
        and (facts.call[0] == "touch" or facts.call[2] & 3 == 2)
    ),
    "access asks whether a file can be read to be run": lambda facts, ours, theirs: (
        facts.call[0] == "access" and not facts.is_folder and facts.call[2] & 1
    ),
    "of two errors of a rename another may come first": lambda facts, ours, theirs: (
        facts.call[0] == "rename" and theirs == "EACCES" and ours in ("ENOENT", "ENOTDIR", "EISDIR")
    ),
    "one's own files alone are renamed": lambda facts, ours, theirs: (
        facts.call[0] == "rename" and ours == "EXDEV" and (facts.is_folder or not facts.is_own)
    ),
}


class Trees:
    """Two trees that should be one."""

    def __init__(self, mount: str, plain: str) -> None:
        self.bases, self.number = (mount, plain), 0
        self.begin()

    def begin(self) -> None:
        """Begins both anew."""
        self.number += 1
        self.tops = [os.path.join(base, f"t{self.number}") for base in self.bases]
        for top in self.tops:
            os.mkdir(top)
            os.chmod(top, 0o777)


class Judge:
    """What was compared, and what of it differs."""

    def __init__(self, is_shown: bool) -> None:
        self.told, self.answered = collections.Counter[str](), collections.Counter[str]()
        self.is_shown, self.done, self.wrong = is_shown, 0, 0

    def compare(self, facts: Facts, ours: str, theirs: str) -> bool:
        """Whether both trees are one still."""
        self.done += 1
        self.answered[f"{facts.call[0]} {'=' if ours.startswith('=') else ours}"] += 1
        if ours == theirs:
            return True
        rule = next((rule for rule, holds in RULES.items() if holds(facts, ours, theirs)), "")
        about = f"{self.done} {facts.user} {facts.call}: mount {ours[:200]}, Linux {theirs[:200]}"
        if rule:
            self.told[rule] += 1
        else:
            self.wrong += 1
        if self.is_shown or not rule:
            print(f"{rule}: {about}", flush=True)
        return facts.call[0] not in CHANGING or not (ours.startswith("=") or theirs.startswith("="))

    def result(self) -> int:
        for rule, count in sorted(self.told.items()):
            print(f"{count} told: {rule}")
        if self.is_shown:
            print(dict(sorted(self.answered.items())))
        print(f"{len(self.answered)} kinds of answers")
        print(f"{self.done} calls, {self.wrong} differ")
        return 1 if self.wrong or len(self.answered) < LEAST else 0


def compare_on(trees: Trees, calls: int, dice: Dice, callers: list[Caller], judge: Judge) -> None:
    """So many calls on a new mount."""
    place = 0
    for _ in range(calls):
        call, number = dice.call(place), dice.randrange(len(USERS))
        facts = Facts(trees.tops[1], call, USERS[number])
        is_one = judge.compare(facts, *callers[number].told(trees.tops, call))
        place += 1
        if not is_one or place == OF_A_TREE:
            trees.begin()
            place = 0


def compare(calls: int, seed: int, is_shown: bool) -> int:
    dice, judge, callers = Dice(seed), Judge(is_shown), [Caller(number) for number in range(len(USERS))]
    while judge.done < calls:
        plain = tempfile.mkdtemp(prefix="suites-", dir=PLACE)
        os.chmod(plain, 0o755)
        try:
            with mounted.Mounted("--root", "0:0:755") as mount:
                compare_on(Trees(mount.top, plain), min(OF_A_MOUNT, calls - judge.done), dice, callers, judge)
        finally:
            shutil.rmtree(plain)
    return judge.result()


def main() -> int:
    given = played.words(__doc__, calls=5000, seed=1, show=False, user=-1)
    if given.user >= 0:
        answers(USERS[given.user])
        return 0
    return 0 if mounted.skipped() else compare(given.calls, given.seed, given.show)


if __name__ == "__main__":
    sys.exit(main())
