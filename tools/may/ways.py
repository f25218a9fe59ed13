"""What Linux looks at on the way to a path."""
import errno
import os
import stat
from typing import Iterator, NamedTuple, Optional

from may import lists, mounts
from may.lists import List, Unread, quoted
from may.mounts import Mount

MOST_LINKS = 40
# A path, with the byte that ends it, is shorter than this; so the kernel has it.
MOST_BYTES = 4096
READ, WRITE, EXECUTE = 4, 2, 1
# Of a folder that is looked through.
SEARCH = EXECUTE


class Place(NamedTuple):
    """A file, a folder or a link on the way: its path, without links, what is wanted of it, its owner, group, mode and
    list, the mount it lies on, its attributes and device. Of a link also the folder that it lies in, and whether it
    is the last name of the path."""

    path: str
    wanted: int
    owner: int
    group: int
    mode: int
    entries: List
    mount: Mount = mounts.PLAIN
    attributes: int = 0
    device: int = 0
    inode: int = 0
    folder: Optional[os.stat_result] = None
    is_last: bool = False

    @property
    def is_link(self) -> bool:
        return self.folder is not None

    @property
    def is_folder(self) -> bool:
        return stat.S_ISDIR(self.mode)

    @property
    def is_file(self) -> bool:
        return stat.S_ISREG(self.mode)

    @property
    def shown(self) -> str:
        return quoted(self.path)


def unread(path: str, number: Optional[int]) -> Unread:
    return Unread(f"{quoted(path)}: {os.strerror(number or 0)}", number)


def looked(path: str) -> os.stat_result:
    """What is at a path, which has no links before its last name."""
    try:
        return os.lstat(path)
    except OSError as error:
        if error.errno == errno.ENAMETOOLONG and len(os.fsencode(path)) >= MOST_BYTES:
            raise Unread(
                f"not judged here: without links the path has more than 4,095 bytes: {quoted(path[:40])}.."
            ) from None
        raise unread(path, error.errno) from None


def place_of(path: str, wanted: int, found: os.stat_result) -> Place:
    """A file or a folder, as it was found at a path."""
    try:
        entries = lists.of_file(path, found.st_mode)
    except OSError as error:
        raise unread(path, error.errno) from None
    attributes, number = mounts.looked_at(path)
    mount = mounts.mount_of(path, number)
    return Place(
        path, wanted, found.st_uid, found.st_gid, found.st_mode, entries, mount, attributes, found.st_dev, found.st_ino
    )


def place_at(path: str, wanted: int) -> Place:
    """A file or a folder, as it is at a path."""
    return place_of(path, wanted, looked(path))


def link_at(path: str, found: os.stat_result, folder: str, is_last: bool) -> Place:
    """A link that is followed: nothing of its own list is wanted."""
    mount = mounts.mount_of(path, mounts.looked_at(path)[1])
    entries, beside = lists.of_mode(0o777), looked(folder)
    return Place(
        path, 0, found.st_uid, found.st_gid, found.st_mode, entries, mount, folder=beside, is_last=is_last
    )


def names_in(path: str) -> list[str]:
    return [part for part in path.split("/") if part]


def parts_of(path: str) -> list[str]:
    """The names of a path, from the first folder on."""
    if not path:
        raise Unread('"": No such file or directory', errno.ENOENT)
    if len(os.fsencode(path)) >= MOST_BYTES:
        raise Unread(f"{quoted(path[:40])}..: {os.strerror(errno.ENAMETOOLONG)}", errno.ENAMETOOLONG)
    return names_in(os.path.join(os.getcwd(), path))


def joined(at: str, part: str) -> str:
    return at if part == "." else os.path.dirname(at) if part == ".." else os.path.join(at, part)


def places_to(path: str, wanted: int) -> Iterator[Place]:
    """What Linux looks at on the way to a path, in its order. Raises `Unread` where the way ends before."""
    rest, at, links = parts_of(path), "/", 0
    wants_folder = path.endswith("/")
    while rest:
        yield place_at(at, SEARCH)
        below = joined(at, rest.pop(0))
        found = looked(below)
        if stat.S_ISLNK(found.st_mode):
            links += 1
            if links > MOST_LINKS:
                raise unread(below, errno.ELOOP)
            yield link_at(below, found, at, not rest)
            target = os.readlink(below)
            wants_folder |= not rest and target.endswith("/")
            rest[:0] = names_in(target)
            at = "/" if target.startswith("/") else at
        elif rest and not stat.S_ISDIR(found.st_mode):
            raise unread(below, errno.ENOTDIR)
        else:
            at = below
    last = place_at(at, wanted)
    if wants_folder and not last.is_folder:
        raise unread(at, errno.ENOTDIR)
    yield last


class Way(NamedTuple):
    """The path that is gone to, the places of its way, each once, its own last, and why it ends before, if it does."""

    path: str
    places: list[Place]
    end: Optional[Unread] = None


def way(path: str, wanted: int) -> Way:
    found: list[Place] = []
    seen: set[tuple[str, int, bool]] = set()
    last, end = None, None
    try:
        for last in places_to(path, wanted):
            if (last.path, last.wanted, last.is_last) not in seen:
                found.append(last)
                seen.add((last.path, last.wanted, last.is_last))
    except Unread as error:
        end = error
    except OSError as error:
        end = unread(path, error.errno)
    # a path may end where its way has been before
    if end is None and last is not None and found[-1] is not last:
        found.append(last)
    return Way(path, found, end)
