#!/usr/bin/env python3
"""tests/against-the-kernel.py [--lists N] [--seed SEED] [PROGRAM]

Compares random access lists with this Linux: what access(2) answers to random callers with what `suites table` does for
them; and what setfacl takes and getfacl prints with what `suites acl` does.

Known to differ, each told apart and counted. Of Linux:
  mask       Where the mask is `---` Linux looks at no list: whom only a named user or group matches gets what all
  others
             get. Here the mask takes all away, as acl(5) says. What Linux then answers is looked at too.
  last id    Linux refuses the user or group 4294967295; here it is one.
Of setfacl and its library, in how they read text:
  octal      They read a number with a leading 0 as octal; here it is decimal.
  past       They take 4294967296 for 0; here it is a fault.
  nothing    They want a hyphen where there is no permission; here nothing need be written.
  hyphens    They take more than three hyphens as permissions; here at most three.
  mended     setfacl takes of an entry that stands twice the last, makes a mask where one is wanting, and puts into a
             default list the owner's, group's or others' entry of the access list where that is wanting; here all are
             faults, as they are to acl_valid(3), which is asked then.
All else has to agree. Status 1 where it does not.

It needs root, Debian's package acl, and a file system with lists, here /dev/shm (tmpfs). It is no part of the gate.
"""
import collections
import ctypes
import os
import random
import re
import shutil
import sys
import tempfile
import typing

import played
from kernel_trees import User, as_user

UIDS, GIDS = [1001, 1002, 1003, 1004, 65534], [200, 201, 202, 203, 65533]
LETTERS = {"u": "user", "g": "group", "m": "mask", "o": "other"}
# What is asked of Linux, and how `table` is asked the same.
ASKED = [
    ("f", os.R_OK, "read /f"),
    ("f", os.W_OK, "write /f 00"),
    ("d", os.R_OK, "list /d"),
    ("d", os.X_OK, "read /d/f"),
    ("d", os.W_OK | os.X_OK, "file /d/n{} 600"),
]


class Dice(random.Random):
    def permissions(self) -> str:
        text = "".join(letter for letter in "rwx" if self.random() < 0.6)
        return text or "-" if self.random() < 0.5 else f"{text:-<3}"

    def named(self, kind: str, ids: list[int]) -> list[str]:
        return [f"{kind}:{one}:{self.permissions()}" for one in self.sample(ids, self.choice([0, 0, 1, 2, 3]))]

    def entries(self, prefix: str = "") -> list[str]:
        """A valid list, as items in any order."""
        named = self.named("u", UIDS) + self.named("g", GIDS)
        single = [f"u::{self.permissions()}", f"g::{self.permissions()}", f"o::{self.permissions()}"]
        mask = [f"m::{self.choice(['-', 'r', 'rw', 'rx', 'rwx', 'rwx'])}"] if named or self.random() < 0.2 else []
        items = named + single + mask
        self.shuffle(items)
        return [prefix + item for item in items]

    def caller(self) -> tuple[int, list[int]]:
        return self.choice(UIDS), self.sample(GIDS, self.choice([1, 1, 2, 3]))

    def spoiled(self, items: list[str]) -> list[str]:
        """A list that may have one fault or one oddity."""
        items, place = list(items), self.randrange(len(items))
        what = self.randrange(8)
        if what == 0:
            del items[place]
        elif what == 1:
            items.append(items[place])
        elif what == 2:
            items[place] = items[place].replace(":", "", 1)
        elif what == 3:
            items[place] += self.choice("rz-7")
        elif what == 4:
            items.append(f"u:{self.choice(['0', '01002', '4294967295', '4294967296'])}:r")
        elif what == 5:
            items[place] = items[place][:items[place].rindex(":") + 1]
        elif what == 6:
            items[place] = re.sub("^([ugmo])", lambda letter: LETTERS[str(letter[0])], items[place])
        else:
            items[place] += self.choice([" ", " # why", "\t"])
        return items


def run(words: list[str], text: str = "") -> played.Done:
    return played.done(words, text)


def kernel_answers(place: str, callers: typing.Any) -> list[list[bool]]:
    """What access(2) answers to each caller."""

    def answers() -> list[bool]:
        return [os.access(os.path.join(place, name), mode) for name, mode, _ in ASKED]

    return [as_user(User(uid, groups[0], tuple(groups[1:])), answers) for uid, groups in callers]


def table_answers(program: str, owner: int, group: int, items: list[str], callers: typing.Any) -> list[list[bool]]:
    """What `suites table` does for each caller."""
    lists = ",".join(items)
    script = [
        "root 1 1 777",
        f"do {owner} {group} folder /d 777 ; file /d/f 666 ; setacl /d {lists} ; file /f 666 ; setacl /f {lists}",
    ]
    for number, (uid, groups) in enumerate(callers):
        script += [f"do {uid} {','.join(map(str, groups))} {op.format(number)}" for _, _, op in ASKED]
    done = run([program, "table"], "\n".join(script) + "\n")
    words = [line.split()[1] for line in done.out.splitlines()[1:]]
    are_all = len(words) == len(callers) * len(ASKED)
    assert done.status == 0 and set(words) <= {"answered", "denied"} and are_all, done
    own = [word == "answered" for word in words]
    return [own[place : place + len(ASKED)] for place in range(0, len(own), len(ASKED))]


def is_masked_out(owner: int, group: int, items: list[str], caller: tuple[int, list[int]]) -> bool:
    """Whether the mask is `---`, and only a named user or group matches the caller."""
    uid, groups = caller
    masks = [item for item in items if item.startswith("m:")]
    named = {tuple(item.split(":")[:2]) for item in items if item[2] != ":"}
    is_named = ("u", str(uid)) in named or any(("g", str(one)) in named for one in groups)
    return bool(masks) and not re.search("[rwx]", masks[0][1:]) and uid != owner and group not in groups and is_named


def others_get(items: list[str]) -> list[bool]:
    """What all others get of each thing that is asked."""
    own = next(item for item in items if item.startswith("o:"))[2:]
    return [
        all(letter in own for letter, bit in (("r", os.R_OK), ("w", os.W_OK), ("x", os.X_OK)) if mode & bit)
        for _, mode, _ in ASKED
    ]


def check_access(tally: played.Tally, place: str, dice: Dice, counts: collections.Counter[str]) -> None:
    """Compares a random list's answers to random callers."""
    items, owner, group = dice.entries(), dice.choice(UIDS), dice.choice(GIDS)
    callers = [(owner, [dice.choice(GIDS)])] + [dice.caller() for _ in range(11)]
    for name in ("f", "d"):
        path = os.path.join(place, name)
        assert run(["setfacl", "-n", "--set", ",".join(items), path]).status == 0, items
        os.chown(path, owner, group)
    ours = table_answers(tally.program, owner, group, items, callers)
    for caller, kernel, own in zip(callers, kernel_answers(place, callers), ours):
        is_mask = is_masked_out(owner, group, items, caller) and kernel == others_get(items) and not any(own)
        about = f"{','.join(items)} of {owner}:{group}, caller {caller}: Linux {kernel}, suites {own}"
        tally.holds(kernel == own or is_mask, about)
        counts["agree" if kernel == own else "mask"] += len(own)


def told_by_getfacl(path: str) -> str:
    """What getfacl prints of a path, without its head and with one tab before each remark."""
    lines = run(["getfacl", "-np", path]).out.splitlines()
    return "".join(re.sub("\t+", "\t", line) + "\n" for line in lines if line and not line.startswith("#"))


def is_valid(text: str) -> bool:
    """What acl_valid(3) says of each of the two lists of a text."""
    libacl = ctypes.CDLL("libacl.so.1")
    libacl.acl_from_text.restype = ctypes.c_void_p
    lines = text.splitlines()
    own = [line for line in lines if not line.startswith("d")]
    lists = [own, [line[2:] for line in lines if line.startswith("d:")]]
    acls = [libacl.acl_from_text("\n".join(lines).encode()) for lines in lists if lines]
    return all(acl and libacl.acl_valid(ctypes.c_void_p(acl)) == 0 for acl in acls)


def known_oddity(text: str, fault: str) -> str | None:
    """By what a text is known to differ, where the program answered it so."""
    ids = re.findall(r"[ug]\w*:(\d+):", text)
    if "4294967295" in ids:
        return "last id"
    if "4294967296" in ids:
        return "past"
    if re.search(r"A[4567]$|A13 A[123]$", fault) and not is_valid(text):
        return "mended"
    if any(one.startswith("0") and one != "0" for one in ids):
        return "octal"
    if re.search(r":(?:[rwx]*-){4}", text):
        return "hyphens"
    return "nothing" if re.search(r":[ \t]*(#.*)?$", text, re.M) else None


def check_text(tally: played.Tally, place: str, dice: Dice, counts: collections.Counter[str]) -> None:
    """Compares what is made of a random text."""
    items = dice.entries() + (dice.entries("d:") if dice.random() < 0.4 else [])
    if dice.random() < 0.6:
        items = dice.spoiled(items)
    text, path = "\n".join(items) + "\n", os.path.join(place, "d")
    run(["setfacl", "-b", path])
    taken = run(["setfacl", "-n", "--set-file=-", path], text).status == 0
    own = run([tally.program, "acl"], text)
    told = told_by_getfacl(path) if taken else ""
    is_same = (own.status == 0) == taken and (not taken or own.out == told == run([tally.program, "acl"], told).out)
    kind = ("taken" if taken else "refused") if is_same else known_oddity(text, own.out.strip())
    tally.holds(kind, repr(text), f"Linux takes it: {taken}, as {told!r}, suites {own}")
    counts[kind or "wrong"] += 1


def compares(tally: played.Tally) -> None:
    wanting = [name for name in ("setfacl", "getfacl") if not shutil.which(name)]
    if wanting or os.geteuid() != 0:
        sys.exit("this needs root" if not wanting else f"this needs {wanting[0]}, of Debian's package acl")
    dice, counts = Dice(tally.given.seed), collections.Counter[str]()
    with tempfile.TemporaryDirectory(dir="/dev/shm") as place:
        os.chmod(place, 0o755)
        os.mkdir(os.path.join(place, "d"))
        played.put(os.path.join(place, "f"), "")
        for _ in range(tally.given.lists):
            check_access(tally, place, dice, counts)
            check_text(tally, place, dice, counts)
    print(", ".join(f"{count} {what}" for what, count in counts.items()))


if __name__ == "__main__":
    played.plays(__doc__, "answers and texts", compares, program=None, lists=300, seed=1)
