"""File systems for tests: /dev/shm, and others in loop files, where root may mount."""
import contextlib
import os
import shutil
import subprocess
import tempfile
from typing import Iterator

KINDS = ("tmpfs", "ext4", "xfs", "btrfs")
SHARED = "/dev/shm"
# The command that makes one, and how many MiB it needs.
MAKES = {
    "ext4": (["mkfs.ext4", "-q", "-F"], 64),
    "xfs": (["mkfs.xfs", "-q"], 320),
    "btrfs": (["mkfs.btrfs", "-q"], 256),
}
PATH = "/usr/sbin:/sbin:/usr/bin:/bin"


@contextlib.contextmanager
def mounted(kind: str) -> Iterator[str | None]:
    """A folder on a file system of this kind; none where there cannot be one here."""
    with tempfile.TemporaryDirectory(prefix="suites-system-") as room:
        os.chmod(room, 0o755)
        place = made(kind, room)
        try:
            yield place
        finally:
            if place and place != SHARED:
                subprocess.run(["umount", "-l", place], check=True)


def made(kind: str, room: str) -> str | None:
    if os.geteuid() != 0:
        return None
    if kind == "tmpfs":
        return SHARED if os.path.isdir(SHARED) else None
    words, size = MAKES[kind]
    if not shutil.which(words[0], path=PATH):
        return None
    file, place = os.path.join(room, "file"), os.path.join(room, "m")
    os.mkdir(place)
    with open(file, "wb") as new:
        new.truncate(size << 20)
    try:
        for command in ([*words, file], ["mount", "-o", "loop", file, place]):
            subprocess.run(command, check=True, env={**os.environ, "PATH": PATH}, capture_output=True)
    except (OSError, subprocess.CalledProcessError):
        return None
    os.chmod(place, 0o755)
    return place
