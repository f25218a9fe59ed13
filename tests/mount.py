#!/usr/bin/env python3
"""tests/mount.py

Mounts sessions and looks at what the mount itself does: that it decides nothing (over a session that grants all,
everybody may all; over one that denies all, nobody may anything), what an open file sees, each error of its table,
lines of control and who may give them, and how it ends. Prints what differs; status 1 where something does.
"""
import errno
import os
import signal
import subprocess
import sys
import time
from collections.abc import Callable
from typing import Any

import kernel_trees
import mounted
import played
from kernel_trees import ACCESS, DEFAULT, NOTHING, packed
from mounted import Mounted

FAKE = f"{sys.executable} {os.path.join(played.TOP, 'tests', 'granting.py')}"
STRANGER = (4321, 4322, (4323,))


def error_of(does: Callable[[], Any]) -> str:
    """The name of the error of a call; nothing where it is answered."""
    try:
        does()
    except OSError as error:
        return errno.errorcode[error.errno]
    return ""


def as_user(user: tuple[int, int, tuple[int, ...]], does: Callable[[], Any], umask: int = 0o22) -> str:
    """What a call of another user answers: its error, or nothing."""

    def told() -> str:
        os.umask(umask)
        return error_of(does)

    return kernel_trees.as_user(kernel_trees.User(*user), told)


def put(path: str, data: bytes, flags: int = os.O_CREAT | os.O_TRUNC, mode: int = 0o666) -> None:
    file = os.open(path, os.O_WRONLY | flags, mode)
    try:
        while data:
            data = data[os.write(file, data) :]
    finally:
        os.close(file)


def got(path: str) -> bytes:
    return played.got(path)


LISTS = packed([(1, 0, NOTHING), (2, 0, 1), (4, 0, NOTHING), (16, 0, NOTHING), (32, 0, NOTHING)])


def let(is_so: bool) -> None:
    if not is_so:
        raise OSError(errno.EACCES, "no access")


def all_calls(top: str) -> list[tuple[str, Callable[[], Any]]]:
    """Each call once, in an order in which each can be done."""
    file, folder, other = f"{top}/f", f"{top}/d", f"{top}/g"
    return [
        ("mkdir", lambda: os.mkdir(folder, 0)),
        ("create", lambda: put(file, b"one", os.O_CREAT | os.O_EXCL, 0)),
        ("list", lambda: os.listdir(top)),
        ("stat", lambda: os.stat(file)),
        ("read", lambda: got(file)),
        ("write", lambda: put(file, b"two", os.O_TRUNC)),
        ("append", lambda: put(file, b"three", os.O_APPEND)),
        ("truncate", lambda: os.truncate(file, 2)),
        ("chmod", lambda: os.chmod(file, 0)),
        ("chmod folder", lambda: os.chmod(folder, 0)),
        ("set", lambda: os.setxattr(file, ACCESS, LISTS)),
        ("set default", lambda: os.setxattr(folder, DEFAULT, LISTS)),
        ("get", lambda: os.getxattr(file, ACCESS)),
        ("get default", lambda: os.getxattr(folder, DEFAULT)),
        ("list attributes", lambda: os.listxattr(file)),
        ("remove default", lambda: os.removexattr(folder, DEFAULT)),
        ("remove", lambda: os.removexattr(file, ACCESS)),
        ("access", lambda: let(os.access(file, os.R_OK | os.W_OK))),
        ("access folder", lambda: let(os.access(folder, os.R_OK | os.W_OK | os.X_OK))),
        ("chdir", lambda: os.chdir(folder)),
        ("times", lambda: os.utime(file, (5, 5))),
        ("touch", lambda: os.utime(file)),
        ("rename", lambda: os.rename(file, other)),
        ("unlink", lambda: os.unlink(other)),
        ("rmdir", lambda: os.rmdir(folder)),
    ]


def decides_nothing(tally: played.Tally) -> None:
    """What a session grants or denies is granted or denied, by lists of which the opposite would follow."""
    with Mounted(session=f"{FAKE} grant") as mount:
        for name, does in all_calls(mount.top):
            tally.holds(as_user(STRANGER, does, 0o777) == "", f"{name} is denied, which the session grants")
    with Mounted("--root", "4321:4322:777", session=f"{FAKE} deny") as mount:
        for name, does in all_calls(mount.top):
            if name != "stat":
                told = as_user(STRANGER, does)
                tally.holds(told == "EACCES", f"{name} is answered {told or 'well'}, which the session denies")
        tally.holds(error_of(lambda: os.stat(f"{mount.top}/f")) == "EACCES", "stat below what is denied")


def sees_what_is_written(tally: played.Tally) -> None:
    """Open files: what one writes others see, also before it is closed; what is dropped stays to whom has it open."""
    with Mounted("--root", "0:0:777") as mount:
        path = f"{mount.top}/a"
        put(path, b"first")
        reader, writer = os.open(path, os.O_RDONLY), os.open(path, os.O_RDWR)
        adders = [os.open(path, os.O_WRONLY | os.O_APPEND) for _ in range(2)]
        os.pwrite(writer, b"F", 0)
        tally.holds(os.pread(writer, 9, 0) == b"First", "an open file does not read what it wrote")
        tally.holds(os.pread(reader, 9, 0) == b"First", "what was written is not seen by who has the file open")
        for number in range(20):
            os.write(adders[number % 2], b"%d" % (number % 10))
        tally.holds(os.stat(path).st_size == 25, "the size of what is written is not told")
        tally.holds(got(path) == b"First" + b"0123456789" * 2, "what two append is lost")
        os.chmod(path, 0)
        os.pwrite(writer, b"G", 0)
        os.fsync(writer)
        tally.holds(os.pread(writer, 5, 0) == b"Girst", "an owner's open file is not written after chmod 000")
        os.unlink(path)
        os.pwrite(writer, b"H", 0)
        is_kept = os.pread(writer, 5, 0) == b"Hirst" and os.fstat(writer).st_nlink == 0
        tally.holds(is_kept, "a dropped file is not kept for who has it open")
        tally.holds(not os.path.exists(path), "a dropped file is there again")
        for file in (reader, writer, *adders):
            os.close(file)


def takes_rights_away(tally: played.Tally) -> None:
    """Who has a file open reads on only as long as it may."""
    with Mounted("--root", "0:0:777") as mount:
        path = f"{mount.top}/a"
        put(path, b"secret", mode=0o644)
        os.chmod(path, 0o644)

        def reads_on() -> None:
            with open(path, "rb", buffering=0) as file:
                os.write(told_by, file.read())
                os.read(waits, 1)
                file.seek(0)
                file.read()

        (waits, go), (seen, told_by) = os.pipe(), os.pipe()
        child = os.fork()
        if child == 0:
            mounted.as_user(*STRANGER)
            os._exit(errno.EACCES if error_of(reads_on) == "EACCES" else 0)
        os.close(told_by)
        tally.holds(os.read(seen, 9) == b"secret", "a stranger does not read what it may")
        os.chmod(path, 0o600)
        put(path, b"newer", os.O_TRUNC)
        os.write(go, b"x")
        status = os.waitstatus_to_exitcode(os.waitpid(child, 0)[1])
        tally.holds(status == errno.EACCES, "a right that was taken away is not gone for an open file")


def wrong_calls(top: str) -> list[tuple[str, Callable[[], Any]]]:
    """Calls in a tree, each with the error that it is answered."""
    return [
        ("ENOENT", lambda: got(f"{top}/no")),
        ("ENOTDIR", lambda: got(f"{top}/a/b")),
        ("EEXIST", lambda: os.mkdir(f"{top}/1")),
        ("ENOTEMPTY", lambda: os.rmdir(f"{top}/1")),
        ("EISDIR", lambda: put(f"{top}/1", b"", 0)),
        ("EACCES", lambda: got(f"{top}/1/f")),
        ("EPERM", lambda: os.chmod(f"{top}/theirs", 0o777)),
        ("EPERM", lambda: os.link(f"{top}/a", f"{top}/b")),
        ("EPERM", lambda: os.symlink("a", f"{top}/b")),
        ("EPERM", lambda: os.mkfifo(f"{top}/b")),
        ("EPERM", lambda: os.chown(f"{top}/a", 1, -1)),
        ("EPERM", lambda: os.chmod(f"{top}/a", 0o4755)),
        ("EXDEV", lambda: os.rename(f"{top}/1", f"{top}/2")),
        ("EXDEV", lambda: os.rename(f"{top}/theirs", f"{top}/2")),
        ("EFBIG", lambda: put(f"{top}/a", bytes(65_537))),
        ("EFBIG", lambda: os.truncate(f"{top}/a", 65_537)),
        ("EINVAL", lambda: put(f"{top}/a b", b"")),
        ("EINVAL", lambda: os.mkdir(f"{top}/1/2/3/4/5/6/7/8/9")),
        ("ENAMETOOLONG", lambda: os.mkdir(f"{top}/{'n' * 65}")),
        ("ENOTSUP", lambda: os.setxattr(f"{top}/a", "user.x", b"1")),
        ("EINVAL", lambda: os.setxattr(f"{top}/a", ACCESS, packed([(1, 7, NOTHING)]))),
        ("EACCES", lambda: os.setxattr(f"{top}/a", DEFAULT, LISTS)),
    ]


def answers_errors(tally: played.Tally) -> None:
    """The table of errors, and what the mount has not."""
    with Mounted("--root", "0:0:777") as mount:
        top = mount.top
        put(f"{top}/a", b"hi")
        os.makedirs(f"{top}/1/2/3/4/5/6/7")
        put(f"{top}/1/f", b"")
        as_user(STRANGER, lambda: put(f"{top}/theirs", b""))
        os.chmod(f"{top}/1/f", 0)
        os.mkdir(f"{top}/1/2/3/4/5/6/7/8")
        for wanted, does in wrong_calls(top):
            told = error_of(does)
            tally.holds(told == wanted, f"{told or 'no error'} and not {wanted}, at {does.__code__.co_firstlineno}")
        many = (4321, 4322, tuple(range(5000, 5040)))
        tally.holds(as_user(many, lambda: os.stat(f"{top}/a")) == "EIO", "a caller of too many groups is asked for")
        put(f"{top}/a", bytes(65_536))
        tally.holds(len(got(f"{top}/a")) == 65_536, "a file of 65,536 bytes is not kept")
    with Mounted("--root", "0:0:777", "--read-only") as mount:
        tally.holds(error_of(lambda: os.mkdir(f"{mount.top}/d")) == "EROFS", "--read-only lets write")


def is_controlled(tally: played.Tally) -> None:
    """Lines of control, who may give them, and what servers that are down do."""
    with Mounted("--root", "0:0:777") as mount:
        top = mount.top
        put(f"{top}/a", b"hi")
        told = mount.control("row /a", "nonsense", "crash 1", "locks").splitlines()
        tally.holds("size 2" in told[0] and told[1].startswith("fault line "), "lines are told", told)
        tally.holds(got(f"{top}/a") == b"hi", "with one server down a file is not read")
        name = f"{top}/.suites:control"
        tally.holds(as_user(STRANGER, lambda: os.open(name, os.O_RDWR)) == "EINVAL", "a stranger gives lines")
        mount.control("crash 0")
        tally.holds(error_of(lambda: got(f"{top}/a")) == "EIO", "with two servers down it is no EIO")
        mount.control("return 0", "return 1")
        tally.holds(got(f"{top}/a") == b"hi", "with all servers up again a file is not read")


def ends(tally: played.Tally) -> None:
    """umount, a signal, a session that dies, and a mount whose program was killed."""
    with Mounted() as mount:
        put(f"{mount.top}/a", b"")
        subprocess.run(["umount", mount.top], check=True)
        tally.holds(mount.child.wait(30) == 0, "umount does not end it")
        tally.holds(not os.listdir(mount.top), "it is mounted still")
        mount.begin()
        mount.child.send_signal(signal.SIGINT)
        tally.holds(mount.child.wait(30) == 0 and not os.path.ismount(mount.top), "Ctrl-C does not end it")
        mount.begin()
        file = os.open(f"{mount.top}/a", os.O_CREAT | os.O_RDWR)
        for process in mount.sessions():
            os.kill(process, signal.SIGKILL)
        time.sleep(0.2)
        begun = time.monotonic()
        for does in (lambda: os.listdir(mount.top), lambda: os.stat(f"{mount.top}/a"), lambda: os.fsync(file)):
            told = error_of(does)
            tally.holds(told in ("EIO", ""), f"without a session it is {told}")
        tally.holds(error_of(lambda: os.mkdir(f"{mount.top}/d")) == "EIO", "without a session a folder is made")
        tally.holds(time.monotonic() - begun < 10, "without a session calls hang")
        tally.holds("the session has ended" in mount.told(), "that the session has ended is not told")
        os.close(file)
        mount.end()
        mount.begin()
        mount.child.kill()
        mount.child.wait()
        tally.holds(error_of(lambda: os.listdir(mount.top)) == "ENOTCONN", "a killed mount answers")
        mount.begin()
        tally.holds(os.listdir(mount.top) == [], "over a killed mount none is mounted")
        mount.end()


if __name__ == "__main__":
    played.plays(__doc__, "answers of the mount", mounted.skipped, decides_nothing, sees_what_is_written,
                 takes_rights_away, answers_errors, is_controlled, ends)  # fmt: skip
