"""What the kernel's calls mean: each is read, asked of the tree, and its answer written. Nothing of it is kept by the
kernel: all times for which an answer stands are 0.
"""
import contextlib
import errno
import stat
import struct
import sys
from collections.abc import Callable

from mount import control, kernel, lists, rows
from mount.kernel import Request
from mount.nodes import Node, Open
from mount.talking import Ended, User
from mount.tree import LONGEST_NAME, PLACES, Tree

# The groups of a caller besides its own, at most, as a transaction has them.
MOST_GROUPS = 32
NOREPLACE = 1
# So many names of a folder are looked at together.
AT_ONCE = 32
# What `setattr` sets.
MODE, UID, GID, SIZE, MODIFIED, HANDLE, NOW = 1, 2, 4, 8, 32, 64, 256
ONE, TWO, FOUR, LONG = struct.Struct("<I"), struct.Struct("<II"), struct.Struct("<IIII"), struct.Struct("<Q")
AT = struct.Struct("<QQI")


def groups_of(process: int) -> list[int]:
    """The groups of a process, besides its own."""
    with open(f"/proc/{process}/status", encoding="ascii", errors="replace") as file:
        line = next(line for line in file if line.startswith("Groups:"))
    return [int(word) for word in line.split()[1:]]


def user_of(request: Request) -> User:
    """Who calls. For a caller whose groups cannot all be told nothing is asked: with fewer it might be let more."""
    try:
        others = [gid for gid in groups_of(request.process) if gid != request.gid]
    except (OSError, StopIteration):
        raise OSError(errno.EIO, "the groups of the caller are not seen") from None
    if len(others) > MOST_GROUPS:
        raise OSError(errno.EIO, "the caller has too many groups")
    return User(request.uid, (request.gid, *others))


class Listing:
    """An open folder: who opened it, and its names as they were listed last."""

    def __init__(self, user: User, names: list[bytes]) -> None:
        self.user, self.names, self.is_begun = user, names, False


class Calls:
    """What the kernel asks for."""

    def __init__(
        self, tree: Tree, owner: int, compact: control.Compact | None, syncs: Callable[[], None] = lambda: None
    ) -> None:
        self.tree, self.owner, self.compact, self.syncs = tree, owner, compact, syncs
        self.handles: dict[int, Open | Listing | control.Talk] = {}
        self.next = 1
        self.is_told = False
        self.known = {
            1: self.lookup, 3: self.getattr, 4: self.setattr, 6: self.none, 8: self.mknod, 9: self.mkdir,
            10: self.drop, 11: self.drop, 12: self.rename, 13: self.none, 14: self.open, 15: self.read,
            16: self.write, 17: self.statfs, 18: self.release, 20: self.sync, 21: self.setxattr, 22: self.getxattr,
            23: self.listxattr, 24: self.removexattr, 25: self.flush, 27: self.opendir, 28: self.readdir,
            29: self.release, 30: self.sync, 34: self.access, 35: self.create, 38: self.kept, 45: self.rename2,
            kernel.FORGET: self.forget, kernel.FORGET_MANY: self.forget_many, kernel.INTERRUPT: self.kept,
        }

    def answer(self, request: Request) -> bytes:
        """The answer to a call; EIO, where the session has ended."""
        call = self.known.get(request.call)
        if call is None:
            raise OSError(errno.ENOSYS, "no such call")
        try:
            return call(request)
        except Ended:
            if not self.is_told:
                why = self.tree.session.ended()
                print(f"suites: the session has ended, and all calls are answered EIO: {why}", file=sys.stderr)
            self.is_told = True
            raise OSError(errno.EIO, "the session has ended") from None

    def none(self, request: Request) -> bytes:
        raise OSError(errno.EPERM, "files and folders alone")

    def kept(self, request: Request) -> bytes:
        """What asks for nothing more: names are kept when they were answered."""
        return b""

    def handle(self, what: Open | Listing | control.Talk) -> bytes:
        """What is open has a number by which the kernel calls it."""
        number, self.next = self.next, self.next + 1
        self.handles[number] = what
        return kernel.OPENED.pack(number, kernel.DIRECT_IO, 0)

    def handled(self, request: Request) -> Open | Listing | control.Talk:
        what = self.handles.get(LONG.unpack_from(request.body)[0])
        if what is None:
            raise OSError(errno.EBADF, "nothing is open by this number")
        return what

    def held(self, node: Node) -> bytes:
        """A node that the kernel holds once more."""
        node.lookups += 1
        return self.tree.attributes(node).entry()

    # names

    def lookup(self, request: Request) -> bytes:
        name = kernel.names_of(request.body)[0]
        if control.is_meant(request.node, name, request.uid, self.owner):
            return control.attributes(self.owner).entry()
        return self.held(self.tree.lookup(user_of(request), request.node, name))

    def forget(self, request: Request) -> bytes:
        self.tree.nodes.forget(request.node, LONG.unpack_from(request.body)[0])
        return b""

    def forget_many(self, request: Request) -> bytes:
        (count,) = ONE.unpack_from(request.body)
        for inode, lookups in struct.iter_unpack("<QQ", request.body[8 : 8 + 16 * count]):
            self.tree.nodes.forget(inode, lookups)
        return b""

    def mkdir(self, request: Request) -> bytes:
        mode, umask = TWO.unpack_from(request.body)
        name = kernel.names_of(request.body[TWO.size :])[0]
        return self.held(self.tree.make(user_of(request), request.node, name, mode & ~umask, mode, "folder"))

    def mknod(self, request: Request) -> bytes:
        mode, _, umask, _ = FOUR.unpack_from(request.body)
        if not stat.S_ISREG(mode):
            raise OSError(errno.EPERM, "files and folders alone")
        name = kernel.names_of(request.body[FOUR.size :])[0]
        return self.held(self.tree.make(user_of(request), request.node, name, mode & ~umask, mode, "file"))

    def create(self, request: Request) -> bytes:
        flags, mode, umask, _ = FOUR.unpack_from(request.body)
        name, user = kernel.names_of(request.body[FOUR.size :])[0], user_of(request)
        node = self.tree.make(user, request.node, name, mode & ~umask, mode, "file")
        return self.held(node) + self.handle(self.tree.made(user, node, flags))

    def drop(self, request: Request) -> bytes:
        self.tree.drop(user_of(request), request.node, kernel.names_of(request.body)[0])
        return b""

    def rename(self, request: Request) -> bytes:
        return self.renamed(request, 0, LONG.size)

    def rename2(self, request: Request) -> bytes:
        _, flags = struct.unpack_from("<QI", request.body)
        return self.renamed(request, flags, FOUR.size)

    def renamed(self, request: Request, flags: int, names_at: int) -> bytes:
        if flags & ~NOREPLACE:
            raise OSError(errno.EINVAL, "names are not exchanged")
        old, new = kernel.names_of(request.body[names_at:])
        (folder,) = LONG.unpack_from(request.body)
        self.tree.rename(user_of(request), (request.node, old), (folder, new), bool(flags))
        return b""

    def opendir(self, request: Request) -> bytes:
        user = user_of(request)
        return self.handle(Listing(user, self.tree.names(user, request.node)))

    def readdir(self, request: Request) -> bytes:
        """As many names as there is room for; from the first on they are listed anew."""
        listing = self.handled(request)
        if not isinstance(listing, Listing):
            raise OSError(errno.ENOTDIR, "no folder")
        _, begin, size = AT.unpack_from(request.body)
        if begin == 0 and listing.is_begun:
            listing.names = self.tree.names(listing.user, request.node)
        listing.is_begun = True
        told = b""
        for place in range(begin, len(listing.names), AT_ONCE):
            names = listing.names[place : place + AT_ONCE]
            found = self.tree.entries(request.node, names)
            for number, (name, entry) in enumerate(zip(names, found), place + 1):
                if entry is None:
                    continue
                one = kernel.entry_name(entry[0], number, name, entry[1] >> 12)
                if len(told) + len(one) > size:
                    return told
                told += one
        return told

    # bytes

    def open(self, request: Request) -> bytes:
        (flags,) = ONE.unpack_from(request.body)
        if request.node == control.INODE:
            if not control.is_let(request.uid, self.owner):
                raise OSError(errno.EACCES, "control")
            return self.handle(control.Talk(self.tree, self.compact))
        return self.handle(self.tree.open(user_of(request), request.node, flags))

    def read(self, request: Request) -> bytes:
        what = self.handled(request)
        _, place, size = AT.unpack_from(request.body)
        if isinstance(what, control.Talk):
            return what.read(place, size)
        if not isinstance(what, Open):
            raise OSError(errno.EISDIR, "a folder")
        return self.tree.read(what, place, size)

    def write(self, request: Request) -> bytes:
        what = self.handled(request)
        _, place, size = AT.unpack_from(request.body)
        data = request.body[40 : 40 + size]
        if isinstance(what, control.Talk):
            return TWO.pack(what.write(data), 0)
        if not isinstance(what, Open):
            raise OSError(errno.EISDIR, "a folder")
        return TWO.pack(self.tree.write(what, place, data), 0)

    def flush(self, request: Request) -> bytes:
        """What close does, and fsync first."""
        what = self.handled(request)
        if isinstance(what, Open):
            self.tree.flush(what)
        return b""

    def sync(self, request: Request) -> bytes:
        self.flush(request)
        self.syncs()
        return b""

    def release(self, request: Request) -> bytes:
        what = self.handles.pop(LONG.unpack_from(request.body)[0], None)
        if isinstance(what, Open):
            with contextlib.suppress(OSError):
                self.tree.release(what)
        return b""

    # what `stat` shows, and lists

    def getattr(self, request: Request) -> bytes:
        if request.node == control.INODE:
            return control.attributes(self.owner).status()
        return self.tree.status(request.node).status()

    def setattr(self, request: Request) -> bytes:
        if request.node == control.INODE:
            return control.attributes(self.owner).status()
        told = kernel.SETTING.unpack_from(request.body)
        (what, _, number, size), modified = told[:4], told[6] * 10**9 + told[9]
        mode, uid, gid = told[11], told[13], told[14]
        tree, user, inode = self.tree, user_of(request), request.node
        if what & (UID | GID):
            tree.chown(inode, uid if what & UID else None, gid if what & GID else None)
        if what & MODE:
            tree.chmod(user, inode, stat.S_IMODE(mode))
        if what & SIZE:
            opened = self.handles.get(number) if what & HANDLE else None
            if isinstance(opened, Open):
                tree.cut(opened, size)
            else:
                tree.truncate(user, inode, size)
        elif what & MODIFIED:
            tree.utime(user, inode, None if what & NOW else modified)
        return tree.status(inode).status()

    def access(self, request: Request) -> bytes:
        (wanted,) = ONE.unpack_from(request.body)
        if request.node != control.INODE and wanted & 7:
            self.tree.access(user_of(request), request.node, wanted)
        return b""

    def sized(self, request: Request, value: bytes) -> bytes:
        """An attribute, or how long it is where that is asked for."""
        (size,) = ONE.unpack_from(request.body)
        if size and len(value) > size:
            raise OSError(errno.ERANGE, "the attribute is longer")
        return value if size else TWO.pack(len(value), 0)

    def getxattr(self, request: Request) -> bytes:
        name = kernel.names_of(request.body[TWO.size :])[0].decode("latin1")
        if request.node == control.INODE or name not in (lists.ACCESS, lists.DEFAULT):
            raise OSError(errno.ENODATA, name)
        return self.sized(request, self.tree.attribute(user_of(request), request.node, name))

    def listxattr(self, request: Request) -> bytes:
        is_own = request.node == control.INODE
        names = [] if is_own else self.tree.attribute_names(user_of(request), request.node)
        return self.sized(request, b"".join(name.encode() + b"\0" for name in names))

    def setxattr(self, request: Request) -> bytes:
        size, _ = TWO.unpack_from(request.body)
        name, value = request.body[TWO.size :].split(b"\0", 1)
        self.tree.set_attribute(user_of(request), request.node, name.decode("latin1"), value[:size])
        return b""

    def removexattr(self, request: Request) -> bytes:
        name = kernel.names_of(request.body)[0].decode("latin1")
        self.tree.set_attribute(user_of(request), request.node, name, None)
        return b""

    def statfs(self, request: Request) -> bytes:
        """Room: where it is not known there are no numbers of inodes, as other file systems have it."""
        known = self.tree.free()
        free, most = (PLACES, 0) if known is None else (known, PLACES)
        return kernel.STATUS.pack(
            PLACES, free, free, most, min(free, most), rows.LONGEST, LONGEST_NAME, rows.LONGEST, 0
        )
