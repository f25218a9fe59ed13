"""Bytes of open files: read when they are opened, and written whole when they are closed or synced."""
import errno
import os

from mount import lists, nodes, rows, talking
from mount.nodes import Change, Node, Open
from mount.talking import Outcome, User

# Behind what is only asked for, an operation that is refused whoever asks, so that nothing is done.
UNDONE = " ; drop /"


def was_undone(outcome: Outcome) -> bool:
    """Whether all before the operation that is refused to everybody would have been answered."""
    return outcome.kind == "refused" and outcome.rest.startswith("F1 ") and outcome.operation() > 1


class Data:
    """The session's tree, as far as bytes go."""

    def __init__(self, session: talking.Session) -> None:
        self.session, self.nodes = session, nodes.Nodes()

    def look(self, path: str) -> rows.Row | None:
        return rows.row_of(self.session.tell(f"row {path}")[0])

    def ask(self, user: User, operations: str) -> Outcome:
        """A transaction, which has to be answered."""
        outcome, _ = self.session.job(user, operations)
        if outcome.kind != "answered":
            raise outcome.failure()
        return outcome

    def ask_only(self, user: User, operations: str, *questions: str) -> list[list[str]]:
        """Whether a user may do all that: nothing is done."""
        outcome, told = self.session.job(user, operations + UNDONE, *questions)
        if not was_undone(outcome):
            raise outcome.failure()
        return told

    def settle(self, node: Node, besides: Open | None = None) -> None:
        """Writes what others have changed and not written yet, so that it is seen; what goes wrong is told to them."""
        for one in [one for one in node.opens if one is not besides and one.changes]:
            try:
                self.commit(one)
            except OSError as error:
                one.error = error.errno

    def open(self, user: User, inode: int, flags: int) -> Open:
        node = self.nodes.node(inode)
        if node.is_gone:
            raise OSError(errno.ESTALE, node.path)
        self.settle(node)
        one, path = Open(node, user, bool(flags & os.O_APPEND)), node.path
        is_read, is_written = flags & os.O_ACCMODE != os.O_WRONLY, flags & os.O_ACCMODE != os.O_RDONLY
        if flags & os.O_TRUNC:
            self.ask(user, f"read {path} ; write {path} -" if is_read else f"write {path} -")
            self.changed(node, one)
            one.view = bytearray()
        elif is_written and is_read:
            told = self.ask_only(user, f"read {path} ; write {path} -", f"content {path}")
            one.view = bytearray(rows.content_of(told[0]) or b"")
        elif is_written:
            self.ask_only(user, f"write {path} -")
        else:
            one.view = bytearray(rows.bytes_of(self.ask(user, f"read {path}").rest.removeprefix("read ")))
        one.seen = node.version
        node.opens.add(one)
        return one

    def changed(self, node: Node, by: Open | None) -> None:
        """The bytes of a node are others now, as those of the open file that wrote them are."""
        node.version += 1
        if by is not None:
            by.seen = node.version
        self.nodes.touched(node.row.number, True)

    def read(self, one: Open, place: int, size: int) -> bytes:
        """Some bytes. Where others have changed the file since it was read last, its user reads it anew."""
        node = one.node
        if not node.is_gone:
            self.settle(node, one)
            if one.view is None or one.seen != node.version:
                outcome = self.ask(one.user, f"read {node.path}")
                one.view, one.seen = bytearray(rows.bytes_of(outcome.rest.removeprefix("read "))), node.version
                for change in one.changes:
                    change.apply(one.view)
        return bytes((one.view or bytearray())[place : place + size])

    def write(self, one: Open, place: int, data: bytes) -> int:
        if place + len(data) > rows.LONGEST:
            raise OSError(errno.EFBIG, one.node.path)
        self.settle(one.node, one)
        one.change(Change(None if one.is_append else place, data))
        if sum(len(change.data or b"") for change in one.changes) > nodes.PENDING:
            self.commit(one)
        return len(data)

    def cut(self, one: Open, length: int) -> None:
        """Gives an open file another length."""
        if length > rows.LONGEST:
            raise OSError(errno.EFBIG, one.node.path)
        one.change(Change(length, None))

    def truncate(self, user: User, inode: int, length: int) -> None:
        """Gives a file another length, by its path."""
        node = self.nodes.node(inode)
        if node.is_gone:
            raise OSError(errno.ESTALE, node.path)
        if length > rows.LONGEST:
            raise OSError(errno.EFBIG, node.path)
        self.settle(node)
        view = bytearray(rows.content_of(self.session.tell(f"content {node.path}")[0]) or b"")
        Change(length, None).apply(view)
        self.ask(user, f"write {node.path} {rows.hex_of(view)}")
        self.changed(node, None)

    def whole(self, one: Open) -> bytearray | None:
        """All bytes of a file with the pending changes of an open one; none where the file is gone."""
        node = one.node
        if one.view is not None and one.seen == node.version:
            return bytearray(one.view)
        told = self.session.tell(f"row {node.path}", f"content {node.path}")
        row, content = rows.row_of(told[0]), rows.content_of(told[1])
        if row is None or content is None or row.number != node.row.number:
            return None
        view = bytearray(content)
        for change in one.changes:
            change.apply(view)
        return view

    def commit(self, one: Open) -> None:
        """Writes the pending changes of an open file, in one transaction of who opened it."""
        node = one.node
        view = self.whole(one) if one.changes and not node.is_gone else None
        if view is None:
            one.changes.clear()
            return
        if len(view) > rows.LONGEST:
            one.changes.clear()
            raise OSError(errno.EFBIG, node.path)
        outcome = self.written(one, view)
        if outcome.kind == "answered":
            one.changes.clear()
            if one.view is not None:
                one.view = view
            self.changed(node, one)
            return
        if outcome.kind in ("denied", "refused"):
            one.changes.clear()
        raise outcome.failure()

    def written(self, one: Open, view: bytearray) -> Outcome:
        """How a write ended. An owner who has no `w` any more, or never had, writes by the right to set the list."""
        node, write = one.node, f"write {one.node.path} {rows.hex_of(view)}"
        if not one.is_owners:
            outcome, _ = self.session.job(one.user, write)
            is_owner = node.row.owner == one.user.uid and outcome.suite() == node.row.number
            if not is_owner:
                return outcome
        row = self.look(node.path)
        if row is None or row.number != node.row.number:
            return Outcome("refused", "F4 op 1")
        before, after = (f"setacl {node.path} {given.text()}" for given in (row.lists.writable(), row.lists))
        return self.session.job(one.user, f"{before} ; {write} ; {after}")[0]

    def flush(self, one: Open) -> None:
        """What a close and a sync do."""
        if one.error:
            error, one.error = one.error, 0
            raise OSError(error, one.node.path)
        self.commit(one)

    def release(self, one: Open) -> None:
        """Nobody has it open any more."""
        try:
            self.commit(one)
        finally:
            one.node.opens.discard(one)
            self.nodes.forget(one.node.inode, 0)

    def made(self, user: User, node: Node, flags: int) -> Open:
        """The open file of one that its user has just made."""
        one = Open(node, user, bool(flags & os.O_APPEND))
        one.view, one.seen = bytearray(), node.version
        one.is_owners = not any(entry.tag == lists.USER_OBJ and entry.perms & 2 for entry in node.row.lists.access)
        node.opens.add(one)
        return one
