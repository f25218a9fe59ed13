"""What the kernel holds: nodes by their inode numbers, each a path of the session, and the files that are open."""
from __future__ import annotations

import errno
import time
from typing import NamedTuple

from mount import rows, talking

ROOT = 1
# Pending changes of an open file are written once they are so many bytes.
PENDING = 4 * rows.LONGEST


class Change(NamedTuple):
    """A change of an open file that is pending: bytes at a place (none: the end), or a length without bytes."""

    place: int | None
    data: bytes | None

    def apply(self, view: bytearray) -> None:
        if self.data is None:
            length = self.place or 0
            del view[length:]
            view.extend(bytes(length - len(view)))
            return
        place = len(view) if self.place is None else self.place
        view.extend(bytes(max(0, place - len(view))))
        view[place : place + len(self.data)] = self.data

    def length(self, before: int) -> int:
        """How long a file of some length is after it."""
        if self.data is None:
            return self.place or 0
        return max(before, (before if self.place is None else self.place) + len(self.data))


class Open:
    """An open file: who opened it, what it was last read to have with its own changes, and those that are pending."""

    def __init__(self, node: Node, user: talking.User, is_append: bool) -> None:
        self.node, self.user, self.is_append = node, user, is_append
        # the bytes, where it was opened to read, and the version of the node that they are of
        self.view: bytearray | None = None
        self.seen = -1
        self.changes: list[Change] = []
        # its owner made it so that it may not be written: what is written goes there by the owner's right
        self.is_owners = False
        # what somebody else's call found wrong with the changes; told at the next fsync or close
        self.error = 0

    def change(self, one: Change) -> None:
        if self.view is not None:
            one.apply(self.view)
        if not self.node.is_gone:
            self.changes.append(one)


class Node:
    """A file or folder that the kernel holds."""

    def __init__(self, inode: int, path: str, row: rows.Row) -> None:
        self.inode, self.path, self.row = inode, path, row
        # no name leads there any more
        self.is_gone = False
        self.lookups = 0
        # how often its bytes were changed through this mount
        self.version = 0
        self.opens: set[Open] = set()


class Times(NamedTuple):
    """When bytes were changed, and anything."""

    modified: int
    changed: int


class Nodes:
    """All nodes, and by the numbers of files and folders their inode numbers and times, which stay while they do."""

    def __init__(self) -> None:
        self.nodes: dict[int, Node] = {}
        self.inodes = {0: ROOT}
        self.next = ROOT + 1
        self.begun = time.time_ns()
        self.times: dict[int, Times] = {}

    def node(self, inode: int) -> Node:
        node = self.nodes.get(inode)
        if node is None:
            raise OSError(errno.ESTALE, "no such node")
        return node

    def inode_of(self, number: int) -> int:
        inode = self.inodes.get(number)
        if inode is None:
            inode = self.inodes[number] = self.next
            self.next += 1
        return inode

    def found(self, path: str, row: rows.Row) -> Node:
        """The node of a row that was found at a path."""
        inode = self.inode_of(row.number)
        node = self.nodes.get(inode)
        if node is None:
            node = self.nodes[inode] = Node(inode, path, row)
        node.path, node.row = path, row
        return node

    def forget(self, inode: int, lookups: int) -> None:
        """The kernel holds it so much less."""
        node = self.nodes.get(inode)
        if node is not None:
            node.lookups -= lookups
            if node.lookups <= 0 and not node.opens and inode != ROOT:
                del self.nodes[inode]

    def dropped(self, number: int) -> None:
        """A file or folder is gone: its node stays while it is held."""
        inode = self.inodes.pop(number, ROOT)
        self.times.pop(number, None)
        if inode != ROOT and inode in self.nodes:
            self.nodes[inode].is_gone = True
            for one in self.nodes[inode].opens:
                one.changes.clear()

    def moved(self, node: Node, path: str, row: rows.Row) -> None:
        """A file has another path, and so another number: it is the same node all the same."""
        self.inodes.pop(node.row.number, None)
        times = self.times.pop(node.row.number, None)
        if times:
            self.times[row.number] = times
        # a number that is kept may be that of a node made meanwhile
        self.inodes[row.number] = node.inode
        node.path, node.row = path, row

    def touched(self, number: int, is_content: bool) -> None:
        """It was changed now."""
        now = time.time_ns()
        self.times[number] = Times(now if is_content else self.times_of(number).modified, now)

    def times_of(self, number: int) -> Times:
        return self.times.get(number) or Times(self.begun, self.begun)

    def compacted(self, found: dict[int, rows.Row]) -> None:
        """All have other numbers: those that the kernel holds are as they were found by their paths, by inode."""
        times = {inode: self.times_of(node.row.number) for inode, node in self.nodes.items()}
        self.inodes, self.times = {0: ROOT}, {}
        for inode, node in self.nodes.items():
            if inode in found and not node.is_gone:
                node.row = found[inode]
                self.inodes[node.row.number], self.times[node.row.number] = inode, times[inode]
