"""What Linux lets do, where it is more or less than a list says."""
import functools
import os
import stat
from typing import NamedTuple, Optional

from may import mounts
from may.lists import letters, mask_of
from may.people import Caller
from may.program import fault_in, is_granted
from may.ways import EXECUTE, READ, WRITE, Place

KINDS = {stat.S_IFIFO: "a pipe", stat.S_IFSOCK: "a socket", stat.S_IFCHR: "a device", stat.S_IFBLK: "a device"}


class Said(NamedTuple):
    """Whether Linux grants, none where that is not judged here, and why it is not as the list says, where it is not."""

    grants: Optional[bool]
    why: str = ""


@functools.cache
def follows_all_links() -> bool:
    """Whether links in sticky folders are followed like others (fs.protected_symlinks)."""
    try:
        with open("/proc/sys/fs/protected_symlinks", encoding="ascii") as file:
            return file.read().strip() != "1"
    except OSError:
        return True


def of_link(place: Place, caller: Caller) -> Said:
    """Whether a link is followed. In a sticky folder one of another is not, if it is the last name of a path."""
    if place.mount.has("nosymfollow"):
        return Said(False, f"{place.shown} is a link, and none is followed on {place.mount.shown} (nosymfollow)")
    folder = place.folder
    if (
        folder is not None
        and place.is_last
        and not follows_all_links()
        and folder.st_mode & stat.S_ISVTX
        and folder.st_mode & 0o002
        and caller.uid != place.owner
        and folder.st_uid != place.owner
    ):
        return Said(False, f"{place.shown} is another's link in a sticky folder (fs.protected_symlinks)")
    return Said(True)


def of_snapshot(place: Place) -> Optional[Said]:
    """What a subvolume of btrfs that is read alone forbids."""
    if place.mount.kind != "btrfs":
        return None
    folder = place.path if place.is_folder else os.path.dirname(place.path)
    found = mounts.is_snapshot(place.device, folder)
    if found is None:
        return Said(None, f"{place.shown}: not judged here: whether it is in a snapshot that is read-only")
    return Said(False, f"{place.shown} is in a snapshot that is read-only") if found else None


def of_kind(place: Place, wanted: int) -> Optional[Said]:
    """What the kind of a file, its mount or its attributes forbid everybody."""
    kind = stat.S_IFMT(place.mode)
    is_plain = kind in (stat.S_IFREG, stat.S_IFDIR)
    if wanted & WRITE and is_plain and place.mount.has("ro"):
        return Said(False, f"{place.mount.shown} is mounted read-only")
    if wanted & WRITE and place.attributes & mounts.IMMUTABLE:
        return Said(False, f"{place.shown} is immutable")
    if kind in (stat.S_IFCHR, stat.S_IFBLK) and wanted & (READ | WRITE) and place.mount.has("nodev"):
        return Said(False, f"{place.shown} is a device, and {place.mount.shown} is mounted nodev")
    if kind in KINDS and wanted & EXECUTE:
        return Said(False, f"{place.shown} is {KINDS[kind]}, and Linux executes files alone")
    if kind == stat.S_IFREG and wanted & EXECUTE and place.mount.has("noexec"):
        return Said(False, f"{place.mount.shown} is mounted noexec")
    return of_snapshot(place) if wanted & WRITE and is_plain else None


def by_list(place: Place, caller: Caller, wanted: int, answer: str) -> Said:
    """What Linux makes of the list: it looks at one with an empty mask for the owner alone, and lets root pass."""
    if caller.uid == 0:
        if place.is_folder or not wanted & EXECUTE or place.mode & 0o111:
            return Said(True, "Linux lets root pass")
        return Said(False, "Linux lets root execute no file that nobody may execute")
    if caller.uid != place.owner and mask_of(place.entries) is not None and not place.mode & 0o070:
        is_in = caller.has(place.group)
        perms = 0 if is_in else place.mode & 7
        return Said(
            wanted & ~perms == 0, f"its mask is ---, so Linux takes {'group' if is_in else 'other'}::{letters(perms)}"
        )
    return Said(is_granted(answer))


def of_place(place: Place, caller: Caller, answer: str, wanted: int = 0) -> Said:
    """What Linux does at a place, for which the program gave this answer."""
    wanted = wanted or place.wanted
    other = place.mount.unjudged(place.path)
    if other:
        return Said(None, f"not judged here: {other}")
    if place.is_link:
        return of_link(place, caller)
    found = of_kind(place, wanted)
    if found:
        return found
    if fault_in(answer) and caller.uid != 0:
        return Said(None, f"{place.shown}: not judged here: {fault_in(answer)}")
    return by_list(place, caller, wanted, answer)


def appended_only(place: Place, wanted: int) -> bool:
    """Whether what is granted is to write at the end alone."""
    return bool(wanted & WRITE and place.attributes & mounts.APPEND and not place.is_folder)
