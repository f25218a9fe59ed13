"""The protocol of the kernel (FUSE): requests are read from /dev/fuse, and each is answered with bytes or an error.

It is spoken here and not by a library, since the two for Python take the umask off a mode before they tell it, and a
folder's default list has to take the umask's place.
"""
import array
import errno
import os
import select
import signal
import socket
import struct
import subprocess
from collections.abc import Callable
from typing import NamedTuple

# The version that is spoken: kernels know their later ones apart.
MAJOR, MINOR = 7, 31
# What is wanted: O_TRUNC comes with `open`, modes come whole, and writes are large.
ATOMIC_TRUNC, BIG_WRITES, DONT_MASK, MAX_PAGES = 1 << 3, 1 << 5, 1 << 6, 1 << 22
WANTED = ATOMIC_TRUNC | BIG_WRITES | DONT_MASK | MAX_PAGES
LONGEST_WRITE, PAGE, BUFFER = 65_536, 4096, 1 << 18
# Nothing of an open file is kept by the kernel.
DIRECT_IO = 1

REQUEST, REPLY = struct.Struct("<IIQQIIII"), struct.Struct("<IiQ")
INIT_IN, INIT_OUT = struct.Struct("<IIII"), struct.Struct("<IIIIHHIIHHI28x")
ATTRIBUTES, ENTRY, ATTRIBUTE_OUT = struct.Struct("<6Q10I"), struct.Struct("<QQQQII"), struct.Struct("<QII")
OPENED, ENTRY_NAME, STATUS = struct.Struct("<QII"), struct.Struct("<QQII"), struct.Struct("<5Q4I24x")
SETTING = struct.Struct("<IIQQQQQQIIIIIIII")
INIT, FORGET, INTERRUPT, FORGET_MANY = 26, 2, 36, 42
UNANSWERED = (FORGET, INTERRUPT, FORGET_MANY)


class Request(NamedTuple):
    """What the kernel asks for: which call, of which node, by whom, and what it says besides."""

    call: int
    node: int
    uid: int
    gid: int
    process: int
    body: bytes


class Attributes(NamedTuple):
    """What `stat` tells."""

    inode: int
    mode: int
    links: int
    owner: int
    group: int
    size: int
    modified: int
    changed: int

    def packed(self) -> bytes:
        seconds, parts = zip(*(divmod(one, 10**9) for one in (self.modified, self.modified, self.changed)))
        blocks = -(-self.size // 512)
        return ATTRIBUTES.pack(
            self.inode, self.size, blocks, *seconds, *parts, self.mode, self.links, self.owner, self.group, 0,
            LONGEST_WRITE, 0,
        )

    def entry(self) -> bytes:
        """As the answer to a name: it stands for no time at all."""
        return ENTRY.pack(self.inode, 0, 0, 0, 0, 0) + self.packed()

    def status(self) -> bytes:
        return ATTRIBUTE_OUT.pack(0, 0, 0) + self.packed()


def entry_name(inode: int, place: int, name: bytes, kind: int) -> bytes:
    """A name of a folder, as the kernel takes it from a listing."""
    return ENTRY_NAME.pack(inode, place, len(name), kind) + name + bytes(-len(name) % 8)


def names_of(body: bytes) -> list[bytes]:
    """Names, each ended by a byte 0."""
    return body.split(b"\0")[:-1]


def mounted(folder: str, options: list[str]) -> int:
    """Mounts a folder, and has what the kernel's requests are read from."""
    ours, theirs = socket.socketpair(socket.AF_UNIX, socket.SOCK_STREAM)
    with ours, theirs:
        done = subprocess.run(
            ["fusermount3", "-o", ",".join(options), "--", folder], pass_fds=(theirs.fileno(),),
            env={**os.environ, "_FUSE_COMMFD": str(theirs.fileno())}, check=False,
        )
        if done.returncode != 0:
            raise OSError(errno.EIO, "it cannot be mounted", folder)
        _, told, _, _ = ours.recvmsg(1, socket.CMSG_LEN(array.array("i", [0]).itemsize))
        return array.array("i", told[0][2])[0]


def unmount(folder: str) -> None:
    subprocess.run(["fusermount3", "-u", "-z", "-q", folder], check=False, stderr=subprocess.DEVNULL)


def agreed(body: bytes) -> bytes:
    """The answer to the kernel's first request."""
    _, _, ahead, flags = INIT_IN.unpack_from(body)
    pages = LONGEST_WRITE // PAGE
    return INIT_OUT.pack(MAJOR, MINOR, ahead, flags & WANTED, 12, 9, LONGEST_WRITE, 1, pages, 0, 0)


Answer = Callable[[Request], bytes]


def serve(device: int, answer: Answer) -> None:
    """Answers all requests, one at a time, until the folder is unmounted or a signal comes to stop."""
    woken, waker = os.pipe()
    os.set_blocking(waker, False)
    os.set_blocking(device, False)
    signal.set_wakeup_fd(waker)
    for number in (signal.SIGINT, signal.SIGTERM, signal.SIGHUP):
        signal.signal(number, lambda number, frame: None)
    while True:
        ready, _, _ = select.select([device, woken], [], [])
        if woken in ready:
            return
        try:
            text = os.read(device, BUFFER)
        except OSError as error:
            if error.errno == errno.ENODEV:
                return
            if error.errno in (errno.ENOENT, errno.EINTR, errno.EAGAIN):
                continue
            raise
        reply(device, text, answer)


def reply(device: int, text: bytes, answer: Answer) -> None:
    _, call, unique, node, uid, gid, process, _ = REQUEST.unpack_from(text)
    body, number = text[REQUEST.size :], 0
    try:
        told = agreed(body) if call == INIT else answer(Request(call, node, uid, gid, process, body))
    except OSError as error:
        told, number = b"", error.errno or errno.EIO
    if call in UNANSWERED:
        return
    try:
        os.writev(device, (REPLY.pack(REPLY.size + len(told), -number, unique), told))
    except OSError as error:
        # nobody waits for the answer any more
        if error.errno not in (errno.ENOENT, errno.ENODEV):
            raise
