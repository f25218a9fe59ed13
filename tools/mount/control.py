"""A line for the running session: a file of the mount that only root and who mounted can open.

Its name has a colon, so no file of the service can have it, and no listing tells it. What is written there is a line
of the session, and what is read is what was told. The kernel tells who opens it, and where the mount is seen it is too:
no socket or pipe has to be found, guarded or cleared away.
"""
from __future__ import annotations

import errno
import os
import stat
import sys
import time
from collections.abc import Callable
from typing import TYPE_CHECKING

from mount import nodes, talking
from mount.kernel import Attributes

if TYPE_CHECKING:
    from mount.tree import Tree

NAME, INODE = ".suites:control", 1 << 62
# A job of the mount's own agent that a line has begun is carried out behind it.
OF_AGENT = ("begin", "sweep", "step")
Compact = Callable[[], str]


def is_let(uid: int, owner: int) -> bool:
    """Whether a user may give lines: root, and who mounted."""
    return uid in (0, owner)


def is_meant(parent: int, name: bytes, uid: int, owner: int) -> bool:
    return parent == nodes.ROOT and name == NAME.encode() and is_let(uid, owner)


def attributes(owner: int) -> Attributes:
    now = time.time_ns()
    return Attributes(INODE, stat.S_IFREG | 0o600, 1, owner, 0, 0, now, now)


class Talk:
    """The control file, opened: what was told of the lines so far."""

    def __init__(self, tree: Tree, compact: Compact | None) -> None:
        self.tree, self.compact, self.told = tree, compact, b""

    def write(self, text: bytes) -> int:
        for line in text.decode("utf-8", "replace").splitlines():
            self.told += "".join(f"{told}\n" for told in self.line(line)).encode()
        return len(text)

    def line(self, line: str) -> list[str]:
        if line.strip() == "compact":
            return [self.compact() if self.compact else "fault compact: the mount has no journal"]
        words = line.split()
        is_own = words[0:1] and words[0] in OF_AGENT and words[1:2] == [str(talking.AGENT)]
        told = self.tree.session.tell(line, *([f"run {talking.AGENT}"] if is_own else []))
        # whatever it did, files may have other bytes now
        for node in self.tree.nodes.nodes.values():
            node.version += 1
        return [one for answer in told for one in answer]

    def read(self, place: int, size: int) -> bytes:
        return self.told[place : place + size]


def ask(folder: str, lines: list[str]) -> int:
    """Gives lines to the session of a mount, and prints what it tells. Status 1 where it tells a fault."""
    path = os.path.join(folder, NAME)
    try:
        opened = os.open(path, os.O_RDWR)
    except OSError as error:
        what = {errno.EINVAL: "may be told by root and by who mounted alone", errno.ENOENT: "is no mount of suites"}
        why = what.get(error.errno, f"cannot be told: {os.strerror(error.errno)}")
        print(f"suites: {folder} {why}", file=sys.stderr)
        return 1
    is_faulty = False
    with open(opened, "r+b", buffering=0) as file:
        place = 0
        for line in lines:
            file.write(line.replace("\n", " ").encode())
            told = b""
            while piece := os.pread(opened, 1 << 16, place):
                told, place = told + piece, place + len(piece)
            is_faulty = is_faulty or told.startswith(b"fault ")
            sys.stdout.write(told.decode("utf-8", "replace"))
    sys.stdout.flush()
    return 1 if is_faulty else 0
