"""May this user make a name, or take one away? The folder decides: its w and x, its sticky bit, and what is there
already."""
import errno
import os
import stat
from typing import NamedTuple, Optional

from may import mounts
from may.lists import Unread, quoted
from may.linux import EXECUTE, WRITE
from may.people import Caller
from may.telling import DENIED, GRANTED, UNREAD, Judged, answers_of, judged
from may.ways import Place, Way, looked, parts_of, place_at, unread, way

CREATE, DELETE = "create", "delete"
MOST_NAME = 255
NO_NAME = ("", ".", "..")


class Target(NamedTuple):
    """A name to be made or taken away: the path as told, the way to its folder, and what has the name there."""

    path: str
    way: Way
    name: str
    there: Optional[Place]

    @property
    def folder(self) -> Place:
        return self.way.places[-1]


def split(path: str) -> tuple[str, str]:
    """The folder of a path, and the name in it."""
    parts_of(path)
    folder, name = os.path.split(path.rstrip("/") or "/")
    return folder or ".", name


def there(folder: Place, name: str) -> Optional[Place]:
    """What has the name in a folder, if anything has it."""
    path = os.path.join(folder.path, name)
    try:
        looked(path)
    except Unread as error:
        if error.number == errno.ENOENT:
            return None
        raise
    return place_at(path, 0)


def target_of(path: str) -> Target:
    """What is to be made or taken away; raises `Unread` only where no user could."""
    at, name = split(path)
    found = way(at, WRITE | EXECUTE)
    if found.end or name in NO_NAME:
        return Target(path, found, name, None)
    folder = found.places[-1]
    if not folder.is_folder:
        found = found._replace(places=found.places[:-1], end=unread(folder.path, errno.ENOTDIR))
    elif len(os.fsencode(name)) > MOST_NAME:
        end = Unread(f"{quoted(name[:40])}..: {os.strerror(errno.ENAMETOOLONG)}", errno.ENAMETOOLONG)
        found = found._replace(end=end)
    return Target(path, found, name, None if found.end else there(folder, name))


def no_delete(target: Target, caller: Caller) -> Optional[str]:
    """Why a name may not be taken away although its folder lets. Raises `Unread` where that is not judged."""
    found, folder, path = target.there, target.folder, target.path
    if target.name in NO_NAME:
        return f"{quoted(path)} names no name in a folder"
    if found is None:
        raise unread(path, errno.ENOENT)
    if folder.attributes & mounts.APPEND:
        return f"{folder.shown} is append only"
    if folder.mode & stat.S_ISVTX and caller.uid not in (0, found.owner, folder.owner):
        return f"{folder.shown} is sticky, and neither it nor {quoted(path)} is of {quoted(caller.name)}"
    if found.attributes & mounts.IMMUTABLE:
        return f"{found.shown} is immutable"
    if found.attributes & mounts.APPEND:
        return f"{found.shown} is append only"
    if path.endswith("/") and not found.is_folder:
        raise unread(path, errno.ENOTDIR)
    return no_folder(found)


def no_folder(found: Place) -> Optional[str]:
    """Why a folder, or what something is mounted on, may not be taken away by anybody."""
    inside = found.mount.inside(found.path)
    if found.path == found.mount.point or (found.mount.system, inside) in mounts.points():
        return f"{found.shown} is a place of a mount"
    if found.is_folder and found.mount.kind == "btrfs" and found.inode == mounts.TOP_OF_SUBVOLUME:
        raise Unread(f"{found.shown}: not judged here: it is a subvolume of btrfs")
    try:
        is_full = found.is_folder and any(os.scandir(found.path))
    except OSError as error:
        raise unread(found.path, error.errno) from None
    return f"{found.shown} is a folder with names in it" if is_full else None


def no_name(target: Target, caller: Caller, verb: str) -> Optional[str]:
    """Why a name may not be made or taken away although the way to it lets pass; `Unread` where it is not judged."""
    other = target.folder.mount.keeps_no_names()
    if other:
        raise Unread(f"not judged here: {other}")
    if verb == DELETE:
        return no_delete(target, caller)
    return f"{quoted(target.path)} is there already" if target.there or target.name in NO_NAME else None


def judge_name(caller: Caller, verb: str, path: str, verbose: bool = False) -> Judged:
    """What is told of making a name or taking one away."""
    told = Judged([], "", GRANTED)
    try:
        target = target_of(path)
        told = judged(caller, WRITE | EXECUTE, verbose, target.way, answers_of([target.way], caller))
        if told.status == DENIED:
            return told._replace(last=told.last.replace(" may not wx: ", f" may not {verb} {quoted(path)}: ", 1))
        if told.status != GRANTED:
            return told
        no = no_name(target, caller, verb)
    except (Unread, OSError) as error:
        return Judged(told.lines, str(error) if isinstance(error, Unread) else str(unread(path, error.errno)), UNREAD)
    root = "; Linux lets root pass" if caller.uid == 0 else ""
    if no:
        return Judged(told.lines, f"{caller.shown} may not {verb}: {no}", DENIED)
    return Judged(told.lines, f"{caller.shown} may {verb}: {quoted(path)}{root}", GRANTED)
