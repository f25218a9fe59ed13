"""python3 tools record FOLDER [--through FOLDER | --nfs URL] [--calls N] [--readers N] [--seed N] [--opens | --access]
        > HISTORY

Makes calls on files of a real folder as several users at once, and prints what they were told as a history for
`./suites judge`. The owner (1000) sets lists and writes in FOLDER; readers (1001 and 2000 in turn) read there, or
through another folder that shows the same files, as a mount of it. A read is an open and a read; with --opens it is an
open alone, of which `answered` says that it was let; with --access it is a test: access(2) is asked whether it may be
read. When a call began and when it ended is noted by one clock of the machine, which all processes share. The files are
made in FOLDER, and left there. Needs root, and a file system with POSIX access lists. With --nfs all calls go to the
NFS server that exports FOLDER by this URL, and the owner sets modes in place of lists.
"""
import argparse
import ctypes
import errno
import os
import random
import sys
import tempfile
import time
import typing

from common import console
from judge import nfs
from may.lists import ACCESS, GROUP_OBJ, MASK, OTHER, USER, USER_OBJ, Entry, packed

OWNER, GROUP, READERS, THEIR_GROUP = 1000, 100, (1001, 2000), 300
FILES, WIDTH = 2, 4
CODES = {errno.EACCES: "denied", errno.EPERM: "denied", errno.ENOENT: "refused F4 op 1"}


class Noted(typing.NamedTuple):
    """A call: when it began and ended, who called, for what, and what it was told."""

    began: int
    ended: int
    caller: int
    asks: str
    told: str


class Folder:
    """Files of a folder, which are asked as those of a server (nfs.Share)."""

    def __init__(self, path: str) -> None:
        self.path = path

    def opened(self, name: str, flags: int) -> typing.IO[bytes]:
        return open(os.open(os.path.join(self.path, name), flags), "rb" if flags == os.O_RDONLY else "wb", buffering=0)

    def read(self, name: str, width: int) -> bytes:
        with self.opened(name, os.O_RDONLY) as file:
            return os.pread(file.fileno(), width, 0) if width else b""

    def write(self, name: str, what: bytes) -> None:
        with self.opened(name, os.O_WRONLY) as file:
            os.pwrite(file.fileno(), what, 0)

    def set_list(self, name: str, named: int, others: int) -> None:
        perms = ((USER_OBJ, 0, 6), (USER, READERS[0], named), (GROUP_OBJ, 0, 0), (MASK, 0, 7), (OTHER, 0, others))
        os.setxattr(os.path.join(self.path, name), ACCESS, packed(tuple(Entry(*one) for one in perms)))

    def list_text(self, named: int, others: int) -> str:
        return f"u::rw,u:{READERS[0]}:{'r' if named else '-'},g::-,m::rwx,o::{'r' if others else '-'}"


Place = typing.Union[Folder, nfs.Share]


def test(path: str) -> str:
    """Asks access(2) whether it may be read; os.access would not tell a denial from another error."""
    if ctypes.CDLL(None, use_errno=True).access(os.fsencode(path), os.R_OK):
        raise OSError(ctypes.get_errno(), "access")
    return " granted"


def noted(caller: int, asks: str, act: typing.Callable[[], str]) -> Noted:
    """Makes a call, and notes when it began and ended."""
    began = time.monotonic_ns()
    try:
        told = f"answered{act()}"
    except OSError as failed:
        told = CODES.get(failed.errno, f"error {failed.errno}")
    return Noted(began, time.monotonic_ns(), caller, asks, told)


def becomes(uid: int, gid: int) -> None:
    os.setgroups([gid])
    os.setresgid(gid, gid, gid)
    os.setresuid(uid, uid, uid)


def set_list(place: Place, name: str, named: int, others: int) -> str:
    place.set_list(name, named, others)
    return " set"


def write(place: Place, name: str, value: int) -> str:
    place.write(name, value.to_bytes(WIDTH, "big"))
    return " wrote"


def read(place: Place, name: str, only_opens: bool) -> str:
    found = place.read(name, 0 if only_opens else WIDTH)
    return "" if only_opens else f" read {found.hex() or '-'}"


def owner(given: argparse.Namespace, chosen: random.Random) -> typing.Iterator[Noted]:
    becomes(OWNER, GROUP)
    place: Place = nfs.Share(given.nfs) if given.nfs else Folder(given.folder)
    who = f"{OWNER} {GROUP}"
    for value in range(1, given.calls + 1):
        name = f"f{chosen.randrange(FILES)}"
        if chosen.random() < 0.5:
            named, others = 4 * chosen.randrange(2), 4 * chosen.randrange(2)
            asks = f"{who} setacl /{name} {place.list_text(named, others)}"
            yield noted(0, asks, lambda: set_list(place, name, named, others))
        else:
            yield noted(0, f"{who} write /{name} {value:0{2 * WIDTH}x}", lambda: write(place, name, value))


def reader(given: argparse.Namespace, client: int, chosen: random.Random) -> typing.Iterator[Noted]:
    uid = READERS[client % len(READERS)]
    becomes(uid, THEIR_GROUP)
    folder, who = given.through or given.folder, f"{uid} {THEIR_GROUP}"
    place: Place = nfs.Share(given.nfs) if given.nfs else Folder(folder)
    for _ in range(given.calls):
        name = f"f{chosen.randrange(FILES)}"
        if given.access:
            yield noted(client, f"{who} test /{name} r", lambda: test(os.path.join(folder, name)))
        else:
            yield noted(client, f"{who} read /{name}", lambda: read(place, name, given.opens))


def make_file(place: Folder, name: str, has_lists: bool) -> None:
    """A file of the owner that only the owner may read; who makes it is the owner, or root."""
    path = os.path.join(place.path, name)
    with open(path, "wb") as file:
        file.write(bytes(WIDTH))
    if os.geteuid() == 0:
        os.chown(path, OWNER, GROUP)
    os.chmod(path, 0o600)
    if has_lists:
        place.set_list(name, 0, 0)


def opening(folder: str, has_lists: bool) -> list[str]:
    """Makes the files, as the owner where the folder is the owner's; the lines that tell what stood there before."""
    place, names = Folder(folder), [f"f{number}" for number in range(FILES)]
    child = os.fork()
    if not child:
        if os.stat(folder).st_uid == OWNER:
            becomes(OWNER, GROUP)
        for name in names:
            make_file(place, name, has_lists)
        os._exit(0)
    if os.waitpid(child, 0)[1]:
        raise console.Stop("the files could not be made")
    first, who = place.list_text(0, 0) if has_lists else "600", f"{OWNER} {GROUP}"
    made = ((f"do {who} file /{name} {first}", f"do {who} write /{name} {'00' * WIDTH}") for name in names)
    return [f"root {OWNER} {GROUP} 755", *(line for lines in made for line in lines)]


def in_process(calls: typing.Iterator[Noted], path: str, begins: float) -> int:
    """Makes calls in a process of their own, which begins at a time and leaves what it noted in a file."""
    child = os.fork()
    if child:
        return child
    status = 1
    try:
        with open(path, "w", encoding="utf-8") as file:
            time.sleep(max(0.0, begins - time.monotonic()))
            kept = list(calls)
            file.writelines("\t".join(map(str, call)) + "\n" for call in kept)
        status = 0
    finally:
        os._exit(status)


def recorded(given: argparse.Namespace) -> list[Noted]:
    begins, children = time.monotonic() + 0.3, list[int]()
    with tempfile.TemporaryDirectory() as kept:
        for client in range(given.readers + 1):
            chosen = random.Random(given.seed * 1000 + client)
            # the first client is the owner
            calls = reader(given, client, chosen) if client else owner(given, chosen)
            children.append(in_process(calls, os.path.join(kept, str(client)), begins))
        if any(os.waitpid(child, 0)[1] for child in children):
            raise console.Stop("a process that made calls has failed")
        found = list[Noted]()
        for client in range(given.readers + 1):
            with open(os.path.join(kept, str(client)), encoding="utf-8") as file:
                for line in file:
                    began, ended, caller, asks, told = line.rstrip("\n").split("\t")
                    found.append(Noted(int(began), int(ended), int(caller), asks, told))
    return found


def lines_of(calls: list[Noted]) -> list[str]:
    """The lines of calls in the order of time; of what happened at one time the calls stand first."""
    events = [(call.began, 0, f"call {name} {call.asks}") for name, call in enumerate(calls)]
    told = [(name, call) for name, call in enumerate(calls) if not call.told.startswith("error")]
    events += [(call.ended, 1, f"ret {name} {call.told}") for name, call in told]
    return [line for _, _, line in sorted(events)]


def main() -> int:
    read_words = argparse.ArgumentParser(description=__doc__, formatter_class=argparse.RawDescriptionHelpFormatter)
    read_words.add_argument("folder")
    where = read_words.add_mutually_exclusive_group()
    where.add_argument("--through")
    where.add_argument("--nfs")
    read_words.add_argument("--calls", type=int, default=500)
    read_words.add_argument("--readers", type=int, default=2)
    read_words.add_argument("--seed", type=int, default=1)
    what = read_words.add_mutually_exclusive_group()
    what.add_argument("--opens", action="store_true")
    what.add_argument("--access", action="store_true")
    given = read_words.parse_args()
    if given.nfs and given.access:
        read_words.error("with --nfs nobody asks access(2)")
    if os.geteuid() != 0:
        raise console.Stop("this needs root, which makes the calls of other users")
    lines = opening(given.folder, not given.nfs)
    calls = recorded(given)
    sys.stdout.write("\n".join([*lines, *lines_of(calls), ""]))
    return 0
