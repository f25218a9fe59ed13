"""Names, lists and what else is asked of a mounted tree: each call is a transaction of its user."""
import errno
import re
import stat
from collections.abc import Sequence

from mount import lists, rows
from mount.data import Data
from mount.kernel import Attributes
from mount.nodes import Node
from mount.talking import Outcome, User

NAME, TAKEN = re.compile(rb"[A-Za-z0-9._-]+"), re.compile(r"\btaken (\d+)")
# A name has so many bytes at most, a server so many places, and a name that is asked for where any would do.
LONGEST_NAME, PLACES, ANY = 64, 4096, "any-name-at-all"
READ, WRITE, SEARCH = 4, 2, 1


def joined(folder: str, name: bytes) -> str:
    """The path of a name in a folder."""
    if len(name) > LONGEST_NAME:
        raise OSError(errno.ENAMETOOLONG, folder)
    if not NAME.fullmatch(name):
        raise OSError(errno.EINVAL, folder)
    return f"{folder.rstrip('/')}/{name.decode()}"


class Tree(Data):
    """The session's tree."""

    def begin(self) -> None:
        """Learns of the root folder, which the kernel holds from the first."""
        row = self.look("/")
        if row is None:
            raise OSError(errno.EIO, "/")
        self.nodes.found("/", row).lookups = 1

    # what is there

    def attributes(self, node: Node) -> Attributes:
        row, size = node.row, node.row.size
        for one in node.opens:
            for change in one.changes:
                size = change.length(size)
            if node.is_gone and one.view is not None:
                size = len(one.view)
        kind = stat.S_IFDIR if row.is_folder else stat.S_IFREG
        return Attributes(
            node.inode, kind | row.lists.mode(), 0 if node.is_gone else 1, row.owner, row.group,
            0 if row.is_folder else size, *self.nodes.times_of(row.number),
        )

    def lookup(self, user: User, parent: int, name: bytes) -> Node:
        """A name in a folder, if its user may search the way to it. That is asked of a name that is not there: what is
        there would be asked whether it may be read, and a denial be recorded of a call that is answered.
        """
        folder = self.folder(parent)
        path = joined(folder, name)
        outcome, is_searched, told = self.searched(user, joined(folder, ANY.encode()), f"row {path}")
        row = rows.row_of(told[0])
        if not is_searched and outcome.code() != "F4":
            raise outcome.failure()
        if row is None:
            raise OSError(errno.ENOENT, path)
        return self.nodes.found(path, row)

    def searched(self, user: User, any_name: str, *questions: str) -> tuple[Outcome, bool, list[list[str]]]:
        """How it ends to ask for a name; whether no folder denied that; and what is told of more lines."""
        outcome, told = self.session.job(user, f"getacl {any_name}", f"row {any_name}", *questions)
        row = rows.row_of(told[0])
        is_denied_there = row is not None and outcome.suite() == row.number
        return outcome, outcome.kind == "answered" or is_denied_there, told[1:]

    def folder(self, inode: int) -> str:
        node = self.nodes.node(inode)
        if node.is_gone:
            raise OSError(errno.ENOENT, node.path)
        return node.path

    def status(self, inode: int) -> Attributes:
        """What is known of a node that the kernel came to."""
        node = self.nodes.node(inode)
        if not node.is_gone:
            row = self.look(node.path)
            if row is not None and row.number == node.row.number:
                node.row = row
            else:
                self.nodes.dropped(node.row.number)
        if node.is_gone and not node.opens and not node.row.is_folder:
            raise OSError(errno.ESTALE, node.path)
        return self.attributes(node)

    def names(self, user: User, inode: int) -> list[bytes]:
        node = self.nodes.node(inode)
        if node.is_gone:
            return []
        told = self.ask(user, f"list {node.path}").rest.removeprefix("list ")
        return [] if told == "-" else [name.encode() for name in told.split(",")]

    def entries(self, inode: int, names: Sequence[bytes]) -> list[tuple[int, int] | None]:
        """The inode numbers and modes of names that were listed; none where one is gone meanwhile."""
        paths = [joined(self.nodes.node(inode).path, name) for name in names]
        found = map(rows.row_of, self.session.tell(*(f"row {path}" for path in paths)))
        return [
            None if row is None
            else (self.nodes.inode_of(row.number), stat.S_IFDIR if row.is_folder else stat.S_IFREG)
            for row in found
        ]

    def access(self, user: User, inode: int, wanted: int) -> None:
        """Whether all that is granted: files are asked to be read and written, and folders to be listed, to have a name
        made in them, and searched. That a file may be run is not judged by the service: the kernel runs what can be
        read, where any of its list has an x.
        """
        node = self.nodes.node(inode)
        path, row = node.path, node.row
        any_name = joined(path, ANY.encode())
        if wanted & READ or wanted & SEARCH and not row.is_folder:
            self.ask(user, f"list {path}" if row.is_folder else f"read {path}")
        if wanted & WRITE:
            self.may_change(user, node, any_name)
        if wanted & SEARCH and row.is_folder:
            self.may_search(user, any_name)
        if wanted & SEARCH and not row.is_folder and not row.lists.mode() & 0o111:
            raise OSError(errno.EACCES, path)

    # names

    def make(self, user: User, parent: int, name: bytes, mode: int, whole: int, kind: str) -> Node:
        """A new file or folder, with its mode as the umask cut it. Where the folder has a default list, that takes the
        place of the umask, and the whole mode is asked for.
        """
        folder = self.folder(parent)
        path, row = joined(folder, name), self.look(folder)
        mode = whole if row is not None and row.lists.default else mode
        outcome, told = self.session.job(user, f"{kind} {path} {mode & 0o777:03o}", f"row {path}")
        if outcome.kind != "answered":
            raise outcome.failure()
        row = rows.row_of(told[0])
        if row is None:
            raise OSError(errno.EIO, path)
        self.nodes.touched(row.number, True)
        self.noted(parent)
        return self.nodes.found(path, row)

    def noted(self, inode: int) -> None:
        """The names of a folder are others now."""
        self.nodes.touched(self.nodes.node(inode).row.number, True)

    def drop(self, user: User, parent: int, name: bytes) -> None:
        """A file or an empty folder is dropped; who has it open keeps its bytes."""
        path = joined(self.folder(parent), name)
        row = self.look(path)
        self.ask(user, f"drop {path}")
        if row is not None:
            self.nodes.dropped(row.number)
        self.noted(parent)

    def rename(self, user: User, old: tuple[int, bytes], new: tuple[int, bytes], is_new: bool) -> None:
        """One's own file has another name: it is made anew there and dropped here, in one transaction. Others' files
        and folders are not renamed, so that `mv` copies them.
        """
        source, target = (joined(self.folder(parent), name) for parent, name in (old, new))
        row, there = map(rows.row_of, self.session.tell(f"row {source}", f"row {target}"))
        if row is None or row.is_folder or row.owner != user.uid or row.group not in user.gids:
            outcome, _ = self.session.job(user, f"drop {source} ; file {target} 600 ; drop /")
            raise outcome.failure() if outcome.kind != "refused" else OSError(errno.EXDEV, source)
        if there is not None and is_new:
            raise OSError(errno.EEXIST, target)
        if there is not None and there.is_folder:
            raise OSError(errno.EISDIR, target)
        node = self.nodes.found(source, row)
        self.settle(node)
        content = rows.content_of(self.session.tell(f"content {source}")[0])
        operations = [f"drop {target}"] if there is not None else []
        operations.append(f"file {target} {row.lists.writable().text()} {row.votes}")
        if content:
            operations.append(f"write {target} {rows.hex_of(content)}")
        if row.lists != row.lists.writable():
            operations.append(f"setacl {target} {row.lists.text()}")
        operations.append(f"drop {source}")
        # what is made has the first group
        user = user._replace(gids=(row.group, *(gid for gid in user.gids if gid != row.group)))
        self.ask(user, " ; ".join(operations))
        made = self.look(target)
        if there is not None:
            self.nodes.dropped(there.number)
        if made is not None:
            self.nodes.moved(node, target, made)
            self.nodes.touched(made.number, False)
        self.noted(old[0])
        self.noted(new[0])

    # lists

    def set_lists(self, user: User, node: Node, new: lists.Lists) -> None:
        if not node.is_gone:
            self.ask(user, f"setacl {node.path} {new.text()}")
        node.row = node.row._replace(lists=new)
        self.nodes.touched(node.row.number, False)

    def now(self, inode: int) -> Node:
        self.status(inode)
        return self.nodes.node(inode)

    def chmod(self, user: User, inode: int, mode: int) -> None:
        if mode & (stat.S_ISUID | stat.S_ISGID | stat.S_ISVTX):
            raise OSError(errno.EPERM, "suid, sgid and sticky")
        node = self.now(inode)
        self.set_lists(user, node, node.row.lists.with_mode(mode))

    def chown(self, inode: int, owner: int | None, group: int | None) -> None:
        """Owner and group stay."""
        row = self.now(inode).row
        if owner not in (None, row.owner) or group not in (None, row.group):
            raise OSError(errno.EPERM, "owner and group stay")

    def utime(self, user: User, inode: int, modified: int | None) -> None:
        """Times are set by the owner, and to now by who may write too."""
        node = self.now(inode)
        if node.is_gone:
            return
        if modified is not None or node.row.owner == user.uid:
            self.ask_only(user, f"setacl {node.path} {node.row.lists.text()}")
        else:
            self.may_change(user, node, joined(node.path, ANY.encode()))
        self.settle(node)
        self.nodes.touched(node.row.number, modified is None)
        if modified is not None:
            self.nodes.times[node.row.number] = self.nodes.times_of(node.row.number)._replace(modified=modified)

    def attribute(self, user: User, inode: int, name: str) -> bytes:
        """An access list or a default list, as an extended attribute."""
        if name not in (lists.ACCESS, lists.DEFAULT):
            raise OSError(errno.ENODATA, name)
        told = self.ask(user, f"getacl {self.folder(inode)}").rest
        found = lists.read(told.removeprefix("acl "))
        entries = found.access if name == lists.ACCESS else found.default
        if not entries or name == lists.ACCESS and len(entries) == 3:
            raise OSError(errno.ENODATA, name)
        return lists.packed(entries)

    def attribute_names(self, user: User, inode: int) -> list[str]:
        found = lists.read(self.ask(user, f"getacl {self.folder(inode)}").rest.removeprefix("acl "))
        names = {lists.ACCESS: len(found.access) > 3, lists.DEFAULT: bool(found.default)}
        return [name for name, is_there in names.items() if is_there]

    def set_attribute(self, user: User, inode: int, name: str, value: bytes | None) -> None:
        """Sets an access list or a default list; without a value it is taken away."""
        if name not in (lists.ACCESS, lists.DEFAULT):
            raise OSError(errno.ENOTSUP, name)
        node = self.now(inode)
        try:
            entries = lists.unpacked(value) if value else ()
        except ValueError:
            raise OSError(errno.EINVAL, "no access list") from None
        before = node.row.lists
        if name == lists.DEFAULT and not node.row.is_folder:
            if entries:
                raise OSError(errno.EACCES, name)
            return
        if name == lists.DEFAULT:
            after = before._replace(default=entries)
        else:
            after = before._replace(access=entries) if entries else before.without_names()
        self.set_lists(user, node, after)

    # questions

    def may_change(self, user: User, node: Node, any_name: str) -> None:
        """Whether a user may write a file, or make and drop names in a folder."""
        if not node.row.is_folder:
            self.ask_only(user, f"write {node.path} -")
            return
        outcome, _ = self.session.job(user, f"file {any_name} 600 ; drop /")
        if outcome.kind == "denied" or outcome.kind == "undecided":
            raise outcome.failure()

    def may_search(self, user: User, any_name: str) -> None:
        """Whether a user may search the folder that a name stands in."""
        outcome, is_searched, _ = self.searched(user, any_name)
        if not is_searched and outcome.kind != "refused":
            raise outcome.failure()

    def free(self) -> int | None:
        """How many things more each server can take; none where the session does not tell."""
        taken = [int(found[1]) for line in self.session.tell("room")[0] if (found := TAKEN.search(line))]
        return PLACES - max(taken) if taken else None
