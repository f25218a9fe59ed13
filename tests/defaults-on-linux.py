#!/usr/bin/env python3
"""tests/defaults-on-linux.py [--rows] [PROGRAM]

Measures on this Linux what a file and a folder get in a folder that has a default list, mode by mode, and what getfacl
prints of such a folder; the lists that Linux gives are the ones wanted of the program. Without `--rows` it looks
whether each row that comes of it stands in crates/rows/stdin, and what the program prints for it. With `--rows` it
prints the rows.

It needs Debian's package acl, and root on a file system with lists, here /dev/shm (tmpfs). It is no part of the gate.
"""
import os
import re
import subprocess
import tempfile
import typing

import played

from common import built, text_of

ACCESS = "u::rwx,g::r-x,o::--x"
# Without a mask, with named users and groups under wide and narrow masks, and with a mask alone.
DEFAULTS = [
    "u::rwx,g::r-x,o::r-x",
    "u::rwx,u:1001:rw-,g::r-x,m::rwx,o::r--",
    "u::rw-,u:1001:rwx,u:1002:-w-,g::rwx,g:200:r-x,m::r-x,o::--x",
    "u::r-x,g::rwx,m::rw-,o::-w-",
]
MODES = [0o000, 0o400, 0o640, 0o664, 0o711, 0o750, 0o777, 0o123]
UMASKS = [0o022, 0o077]
# Folders for getfacl: what the two masks take away is told of each list by its own mask.
SHOWN = [
    "u::rwx,u:1001:rwx,g::r-x,m::r-x,o::---,d:u::rwx,d:u:1001:rw-,d:g::rwx,d:g:200:rwx,d:m::r--,d:o::r-x",
    "u::rwx,g::rwx,o::---,d:u::rwx,d:u:1001:rwx,d:g::r-x,d:m::---,d:o::rwx",
    "u::rwx,u:1001:rwx,g::rwx,m::--x,o::---,d:u::rwx,d:g::rwx,d:o::---",
]


def run(*words: str) -> str:
    return subprocess.run(words, check=True, stdout=subprocess.PIPE, text=True).stdout


def with_default(default: str) -> str:
    return ACCESS + "".join(f",d:{entry}" for entry in default.split(","))


def listed(path: str) -> str:
    """The two lists of a path, as the short text of the service."""
    return ",".join(run("getfacl", "-cnpE", path).split())


def folder_in(place: str, lists: str) -> str:
    """A new folder with these lists and no others."""
    folder = tempfile.mkdtemp(dir=place)
    run("setfacl", "-n", "--set", lists, folder)
    return folder


def created(folder: str, kind: str, mode: int, umask: int) -> typing.Any:
    """The lists of what is made with a mode in a folder, under a umask."""
    path = os.path.join(folder, f"{kind}{umask:03o}")
    before = os.umask(umask)
    if kind == "file":
        os.close(os.open(path, os.O_CREAT | os.O_EXCL | os.O_WRONLY, mode))
    else:
        os.mkdir(path, mode)
    os.umask(before)
    found = listed(path)
    (os.remove if kind == "file" else os.rmdir)(path)
    return found


def creation_row(place: str, default: str) -> tuple[str, list[str], list[str]]:
    """A script that makes a file and a folder of each mode, and what Linux gives them whatever the umask is."""
    lists = with_default(default)
    folder = folder_in(place, lists)
    script = ["root 1000 100 777", f"do 1000 100 folder /d {lists}"]
    printed = ["0 answered made 1"]
    for mode in MODES:
        for kind in ("file", "folder"):
            each = {created(folder, kind, mode, umask) for umask in UMASKS}
            assert len(each) == 1, (default, kind, mode, each)
            t, path = len(printed), f"/d/{kind}{mode:03o}"
            script.append(f"do 1000 100 {kind} {path} {mode:03o} ; getacl {path}")
            printed.append(f"{t} answered made {8 * t + 1}; acl {each.pop()}")
    return "table", script, printed


def misplaced_row(place: str) -> tuple[str, list[str], list[str]]:
    """A file that is there gets no default list, and keeps the list that it has."""
    defaults = ",".join(f"d:{entry}" for entry in DEFAULTS[0].split(","))
    path = os.path.join(folder_in(place, ACCESS), "f")
    os.close(os.open(path, os.O_CREAT | os.O_EXCL | os.O_WRONLY, 0o640))
    before = listed(path)
    assert subprocess.run(["setfacl", "-n", "-m", defaults, path], stderr=subprocess.DEVNULL).returncode != 0
    assert listed(path) == before
    script = ["root 1000 100 777", "do 1000 100 file /f 640",
              f"do 1000 100 setacl /f u::rw-,g::r--,o::---,{defaults}", "do 1000 100 getacl /f"]
    return "table", script, ["0 answered made 1", "1 refused F12 op 1", f"2 answered acl {before}"]


def shown_row(place: str, lists: str) -> tuple[str, list[str], list[str]]:
    """What getfacl prints of a folder, and the same without its head and with one tab before each remark."""
    folder = folder_in(place, lists)
    told = run("getfacl", "-np", folder).replace(folder, "shared").splitlines()
    plain = [re.sub("\t+", "\t", line) for line in told if line and not line.startswith("#")]
    return "acl", told, plain


def measured() -> typing.Iterator[typing.Any]:
    os.umask(0o022)
    with tempfile.TemporaryDirectory(dir="/dev/shm") as place:
        yield "What Linux gives to what is made in a folder with a default list, mode by mode"
        yield from (creation_row(place, default) for default in DEFAULTS)
        yield "A file gets no default list, on Linux neither"
        yield misplaced_row(place)
        yield "What getfacl prints of a folder with a default list"
        yield from (shown_row(place, lists) for lists in SHOWN)


def lines(given: list[str]) -> str:
    return "".join(line + "\n" for line in given)


def told(found: typing.Any) -> str:
    """A title or a row, as a row of crates/rows/stdin."""
    if isinstance(found, str):
        return f"= {found}\n"
    words, given, printed = found
    return lines([f"$ {words}", *given, "> 0", *printed]).replace("\t", "\\t")


def compares(tally: played.Tally) -> bool:
    if tally.given.rows:
        print("".join(told(found) for found in measured()), end="")
        return True
    kept = text_of("crates", "rows", "stdin")
    for row in measured():
        if not isinstance(row, str):
            tally.holds(told(row) in kept, "it does not stand in crates/rows/stdin", told(row))
            name, asked, printed = row
            tally.same(built.asked(name, lines(asked), path=tally.program), (0, lines(printed)), name, asked)
    return False


if __name__ == "__main__":
    played.plays(__doc__, "rows measured and played", compares, program=None, rows=False)
