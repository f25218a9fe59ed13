"""A mount from its beginning to its end: the session is begun, the kernel is given the folder, and its calls served."""
import argparse
import errno
import os
import shlex

from common import console
from common.console import Stop

from mount import beginning, calls, kernel, making, rows
from mount.talking import Ended
from mount.tree import Tree

WANTED = "mount needs fuse3, on Debian: apt-get install -y fuse3"


class Mounted:
    """A mount: its words, its session and its tree."""

    def __init__(self, given: argparse.Namespace) -> None:
        self.given = given
        self.journal = os.path.abspath(given.journal) if given.journal else None
        self.session, _ = beginning.begin(given)
        self.tree = Tree(self.session)

    def sync(self) -> None:
        """What was answered is kept by the disk."""
        if self.journal:
            file = os.open(self.journal, os.O_RDONLY)
            try:
                os.fsync(file)
            finally:
                os.close(file)

    def compact(self) -> str:
        """Puts a shorter journal in place of the long one, and goes on with that."""
        tree = self.tree
        for node in list(tree.nodes.nodes.values()):
            tree.settle(node)
        before = os.path.getsize(self.journal)
        self.session.close()
        try:
            command = [*shlex.split(self.given.session), "--marks", "--no-sync", "--journal"]
            things = making.shortened(command, self.journal)
            told = f"compact {things} files and folders, {before} to {os.path.getsize(self.journal)} bytes"
        except (making.Told, OSError) as why:
            told = f"fault compact: {why}"
        self.session = tree.session = beginning.opened(self.given)
        held = {inode: node for inode, node in tree.nodes.nodes.items() if not node.is_gone}
        found = zip(held, map(rows.row_of, self.session.tell(*(f"row {node.path}" for node in held.values()))))
        tree.nodes.compacted({inode: row for inode, row in found if row is not None})
        return told

    def options(self) -> list[str]:
        given = {"ro": self.given.read_only, "allow_other": self.given.allow_other}
        told = [word for word, is_told in given.items() if is_told]
        return ["fsname=suites", "subtype=suites", "nodev", "nosuid", *told]

    def mount(self) -> int:
        """Mounts the folder, and has what the kernel asks by."""
        self.tree.begin()
        try:
            return kernel.mounted(self.given.folder, self.options())
        except FileNotFoundError:
            raise Stop(WANTED) from None

    def serve(self, device: int) -> None:
        """Answers the kernel, until the folder is unmounted or a signal comes."""
        asked = calls.Calls(self.tree, os.getuid(), self.compact if self.journal else None, self.sync)
        try:
            kernel.serve(device, asked.answer)
            for node in list(self.tree.nodes.nodes.values()):
                self.tree.settle(node)
        except Ended:
            pass
        finally:
            kernel.unmount(self.given.folder)
            os.close(device)
            self.session.close()


def clear(folder: str) -> None:
    """Takes a mount away whose program was killed; ends where the folder is none."""
    try:
        is_folder = os.path.isdir(folder)
        os.stat(folder)
    except OSError as error:
        if error.errno != errno.ENOTCONN:
            raise Stop(f"{folder}: {error.strerror}") from None
        kernel.unmount(folder)
        is_folder = True
    if not is_folder:
        raise Stop(f"{folder} is no folder")


def quiet() -> None:
    """Stands alone from now on; a terminal is still told what goes wrong."""
    os.setsid()
    os.chdir("/")
    nothing = os.open(os.devnull, os.O_RDWR)
    for stream in (0, 1) if os.isatty(2) else (0, 1, 2):
        os.dup2(nothing, stream)


def in_background(given: argparse.Namespace) -> int:
    """Mounts in a child, and ends once the folder is mounted, or with what was wrong."""
    given.folder = os.path.abspath(given.folder)
    reader, writer = os.pipe()
    child = os.fork()
    if child:
        os.close(writer)
        with open(reader, "rb") as pipe:
            if pipe.read() == b"mounted":
                return 0
        return os.waitstatus_to_exitcode(os.waitpid(child, 0)[1]) or 1
    os.close(reader)
    mounted = Mounted(given)
    device = mounted.mount()
    quiet()
    os.write(writer, b"mounted")
    os.close(writer)
    mounted.serve(device)
    os._exit(0)


def main(given: argparse.Namespace) -> int:
    clear(given.folder)
    if not os.path.exists("/dev/fuse"):
        raise Stop("this machine has no /dev/fuse (modprobe fuse)")
    if not given.foreground:
        return in_background(given)
    mounted = Mounted(given)
    device = mounted.mount()
    console.Teller().say(f"{given.folder} is mounted; Ctrl-C or umount ends it")
    mounted.serve(device)
    return 0
