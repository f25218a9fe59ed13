"""Mounts of this machine, and what of files no list shows: attributes, and snapshots that are read alone."""
import ctypes
import fcntl
import functools
import os
import re
from typing import NamedTuple, Optional

from may.lists import quoted

# Bits of statx(2): the file may not be changed at all, or only at its end; and what is asked of it.
IMMUTABLE, APPEND = 0x10, 0x20
MOUNT_ID = 0x1000
AT_FDCWD, NOT_FOLLOWED = -100, 0x100
# Kinds of file systems whose servers or whose code decide by rules of their own.
ELSEWHERE = {
    "nfs": "NFS",
    "nfs4": "NFS",
    "cifs": "SMB",
    "smb3": "SMB",
    "9p": "9P",
    "ceph": "Ceph",
    "afs": "AFS",
    "lustre": "Lustre",
    "gfs2": "GFS2",
    "ocfs2": "OCFS2",
    "coda": "Coda",
    "vboxsf": "VirtualBox",
    "virtiofs": "virtiofs",
}
OF_KERNEL = {kind: kind for kind in "debugfs tracefs securityfs configfs selinuxfs efivarfs bpf binfmt_misc".split()}
OF_KERNEL |= {"sysfs": "/sys", "cgroup": "cgroups", "cgroup2": "cgroups"}
# Kinds in whose folders whoever may write one makes and takes away names; of others that is not judged.
PLAIN_KINDS = frozenset(
    "ext2 ext3 ext4 xfs btrfs tmpfs ramfs devtmpfs overlay f2fs jfs reiserfs nilfs2 bcachefs zfs minix ufs vfat exfat"
    " ntfs3 msdos iso9660 squashfs erofs udf rootfs".split()
)
# In /proc these are of processes, or settings of the kernel.
OF_PROCESSES = re.compile(r"/(?:[0-9]+|self|thread-self|sys|net|mounts)(?:/|$)")


class Mount(NamedTuple):
    """A mount: its number, where it is, the flags of the mount and of its file system, and its kind; the number of
    the mount that it lies on, its file system, and which folder of that it shows."""

    id: int
    point: str
    flags: frozenset[str]
    kind: str
    parent: int = 0
    system: str = ""
    root: str = "/"

    def has(self, flag: str) -> bool:
        return flag in self.flags

    @property
    def shown(self) -> str:
        return quoted(self.point)

    def inside(self, path: str) -> Optional[str]:
        """A path on it, as its file system has it."""
        point = self.point.rstrip("/")
        if path != self.point and not path.startswith(point + "/"):
            return None
        below = path[len(point) :].strip("/")
        return os.path.join(self.root, below) if below else self.root

    def unjudged(self, path: str) -> Optional[str]:
        """Why what Linux lets do at a path of it is not told by lists, if it is not."""
        if self.has("idmapped"):
            return f"{self.shown} is an idmapped mount: owners and lists there mean other users than they say"
        if self.kind.startswith("fuse") and "default_permissions" not in self.flags:
            return f"{self.shown} is of FUSE: a program decides there"
        if self.kind.startswith("fuse"):
            return f"{self.shown} is of FUSE: only its owner may pass there, unless it says otherwise"
        if self.kind in ELSEWHERE:
            return f"{self.shown} is of {ELSEWHERE[self.kind]}: its server decides"
        if self.kind in OF_KERNEL:
            return f"{self.shown} is of {OF_KERNEL[self.kind]}: the kernel decides there by other rules"
        if self.kind == "proc" and (
            any(flag.startswith("hidepid=") and flag not in ("hidepid=0", "hidepid=off") for flag in self.flags)
            or OF_PROCESSES.match(path[len(self.point.rstrip("/")) :])
        ):
            return f"{quoted(path)} is of /proc: the kernel decides there by other rules"
        return None

    def keeps_no_names(self) -> Optional[str]:
        """Why it is not judged who makes and takes away names there, if it is not."""
        if not self.kind or self.kind in PLAIN_KINDS or self.kind.startswith("fuse"):
            return None
        return f"{self.shown} is of {quoted(self.kind)}: the kernel decides by other rules which names are made there"


PLAIN = Mount(0, "/", frozenset(), "")


def plain(text: bytes) -> str:
    """A word of mountinfo, in which spaces, tabs, line ends and backslashes are octal."""
    return os.fsdecode(re.sub(rb"\\([0-7]{3})", lambda found: bytes([int(found[1], 8) & 255]), text))


def read_mounts(text: bytes) -> list[Mount]:
    """The mounts that the bytes of /proc/self/mountinfo tell, in their order."""
    found = []
    for line in text.split(b"\n"):
        words = line.split(b" ")
        dash = words.index(b"-", 6) if b"-" in words[6:] else len(words)
        more = words[dash + 1 :]
        if more and words[0].isdigit() and words[1].isdigit():
            flags = [*words[5].split(b","), *(more[2].split(b",") if len(more) > 2 else ())]
            names = frozenset(os.fsdecode(flag) for flag in flags)
            kind, system, root = os.fsdecode(more[0]), os.fsdecode(words[2]), plain(words[3])
            found.append(Mount(int(words[0]), plain(words[4]), names, kind, int(words[1]), system, root))
    return found


@functools.cache
def mounts() -> list[Mount]:
    try:
        with open("/proc/self/mountinfo", "rb") as file:
            return read_mounts(file.read())
    except OSError:
        return []


@functools.cache
def by_id() -> dict[int, Mount]:
    return {mount.id: mount for mount in mounts()}


@functools.cache
def points() -> frozenset[tuple[str, Optional[str]]]:
    """What something is mounted on, whichever path leads there: of each its file system, and its path in that."""
    lying = ((by_id().get(mount.parent), mount.point) for mount in mounts())
    return frozenset((below.system, below.inside(point)) for below, point in lying if below)


class Statx(ctypes.Structure):
    """The head of what statx(2) answers, as far as it is read here."""

    _fields_ = [
        ("mask", ctypes.c_uint32),
        ("blksize", ctypes.c_uint32),
        ("attributes", ctypes.c_uint64),
        ("middle", ctypes.c_uint8 * 128),
        ("mount", ctypes.c_uint64),
        ("rest", ctypes.c_uint8 * 104),
    ]


@functools.cache
def libc() -> Optional[ctypes.CDLL]:
    found = ctypes.CDLL(None, use_errno=True)
    return found if hasattr(found, "statx") else None


def looked_at(path: str) -> tuple[int, Optional[int]]:
    """The attributes of a file, and the number of its mount where the kernel tells it."""
    calls, told = libc(), Statx()
    if calls is None or calls.statx(AT_FDCWD, os.fsencode(path), NOT_FOLLOWED, MOUNT_ID, ctypes.byref(told)) != 0:
        return 0, None
    return told.attributes, told.mount if told.mask & MOUNT_ID else None


def mount_of(path: str, number: Optional[int]) -> Mount:
    """The mount on which a path lies: by its number, or else the last one whose place begins it."""
    if number is not None and number in by_id():
        return by_id()[number]
    found = (mount for mount in reversed(mounts()) if mount.inside(path) is not None)
    return max(found, key=lambda mount: len(mount.point), default=PLAIN)


# ---- snapshots of btrfs

# The request of ioctl(2) for what is known of a subvolume, how long the answer is, and where its flags stand in it.
SUBVOLUME, ANSWER, FLAGS, READ_ONLY = 0x81F8943C, 504, 288, 1
# The number of the first folder of a subvolume.
TOP_OF_SUBVOLUME = 256


@functools.cache
def is_snapshot(device: int, folder: str) -> Optional[bool]:
    """Whether the subvolume of btrfs that has this folder is read alone; nothing where that cannot be looked at."""
    try:
        seat = os.open(folder, os.O_RDONLY | os.O_DIRECTORY | os.O_NONBLOCK | os.O_CLOEXEC)
    except OSError:
        return None
    try:
        if os.fstat(seat).st_dev != device:
            return None
        told = fcntl.ioctl(seat, SUBVOLUME, bytes(ANSWER))
        return bool(int.from_bytes(told[FLAGS : FLAGS + 8], "little") & READ_ONLY)
    except OSError:
        return None
    finally:
        os.close(seat)


def forget() -> None:
    """Looks anew at the mounts from now on."""
    mounts.cache_clear()
    by_id.cache_clear()
    points.cache_clear()
    is_snapshot.cache_clear()
