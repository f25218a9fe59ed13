#!/usr/bin/env python3
"""tests/may.py [PROGRAM]

Plays `./suites may` on a few files of its own, and the command `may` with streams that fail. Looks whether the Rust
code that docs/LIBRARY.md shows stands in crates/may/src, which the gate proves. PROGRAM is a build of `may`; where none
is named, that which `./suites may` takes. Prints what differs; status 1 where something does.
"""
import os
import re
import shlex
import tempfile

import played
from played import Tally

from common import text_of, tool
from may import program

LIST = "u::rw,u:1001:rw,g::r,m::r,o::-"
# The most bytes of an input.
MOST = 16 * 1024 * 1024


def by_streams(tally: Tally) -> None:
    """Streams that fail, and an input that is too long; crates/rows/stdin has rows of what is asked."""
    if tally.given.program:
        os.environ["MAY"] = os.path.abspath(tally.given.program)
    words = [program.program(), "may"]
    tally.same(played.done([*words, "-x"])[:2], (2, "fault command line\n"), "a word")
    with open("/dev/full", "wb") as full:
        tally.same(played.done(words, f"1 1 1 1 r {LIST}\n", stdout=full).status, 6, "a write that fails")
    tally.same(played.done(words, stdin=os.open("/", os.O_RDONLY))[:2], (6, ""), "a read that fails")
    tally.same(played.done(words, b"\n" * (MOST + 1))[:2], (6, ""), "an input that is too long")


def asks(tally: Tally, words: list[str], status: int, last: str, strict: bool = False) -> None:
    """The command, its status, and what its last line has."""
    env = {**os.environ, **({"PYTHONIOENCODING": "utf-8:strict", "LC_ALL": "C"} if strict else {})}
    done = played.done(tool("may", *words), env=env)
    # a checked build says so
    lines = [line for line in (done.out + done.err).splitlines() if not line.startswith("suites: checked build")]
    is_so = done.status == status and lines and last in lines[-1]
    tally.holds(is_so, f"may {words}: {done.status}, and not {status} with {last!r}: {lines}")


# Words that are refused, each with where to read.
BAD_WORDS = (
    "", "root r", "root q /", "'no one' r /", "--groups a 1 r /", "--json root r /", "--who r", "--who q /",
    "--with u:1 /", "--without u:: /", "--with x:1:r /", "--denied 0 r /", "--lint / /", "--no-mask 0 r /",
    "--who r --lint /", "--with m:7:r /", "--without 'u:no one' /",
)  # fmt: skip


def asks_of_files(tally: Tally) -> None:
    with tempfile.TemporaryDirectory(prefix="suites-") as room:
        os.chmod(room, 0o755)
        file, folder = os.path.join(room, "f"), os.path.join(room, "d")
        open(file, "w").close()
        os.chmod(file, 0o640)
        os.mkdir(folder)
        os.chmod(folder, 0o700)
        os.symlink("../f", os.path.join(folder, "l"))
        other = ["--groups", "65000", "65000"]
        asks(
            tally, [*other, "r", file], 1, f"65000 (65000; groups 65000) may not r: {file} wants r--, other grants ---"
        )
        asks(tally, [*other, "r", os.path.join(folder, "l")], 1, f"{folder} wants --x, other grants ---")
        asks(tally, ["--groups", str(os.stat(file).st_gid), "65000", "r", file], 0, f"may r: {file}")
        os.chmod(folder, 0o711)
        os.chmod(file, 0o644)
        asks(tally, [*other, "r", os.path.join(folder, "l")], 0, "may r: ")
        asks(tally, [*other, "r", file, os.path.join(room, "no")], 3, "No such file or directory")
        asks(tally, [*other, "r", os.path.join(file, "no")], 3, "Not a directory")
        asks(tally, ["0", "rw", file], 0, "Linux lets root pass")
        asks(tally, ["0", "x", file], 1, "Linux lets root execute no file that nobody may execute")
        asks(tally, ["0", "x", folder, "--under", room], 2, "a user and what it wants are told")
    for words in BAD_WORDS:
        asks(tally, shlex.split(words), 2, "(./suites may --help)")


def asks_of_names(tally: Tally) -> None:
    """Names that are no text or that would forge a line, and paths that there cannot be."""
    with tempfile.TemporaryDirectory(prefix="suites-") as room:
        os.chmod(room, 0o755)
        odd, forged = os.path.join(os.fsencode(room), b"\xff"), os.path.join(room, "a\n1 (1; groups 1) may r: b")
        for path in (odd, os.fsencode(forged)):
            open(path, "w").close()
            os.chmod(path, 0o600)
        other = ["--groups", "65000", "65000"]
        for strict in (False, True):
            asks(tally, [*other, "r", os.fsdecode(odd)], 1, f'"{room}/\\377" wants r--', strict)
            asks(tally, [*other, "r", forged], 1, f'"{room}/a\\n1 (1; groups 1) may r: b" wants r--', strict)
            asks(tally, [*other, "r", "--under", room], 0, room, strict)
        asks(tally, ["0", "r", ""], 3, '"": No such file or directory')
        asks(tally, ["0", "r", "/" + "a/" * 2100], 3, "File name too long")
        asks(tally, ["0", "w", os.path.join(room, "no")], 3, "whether it may be made: ./suites may 0 create ")
        asks(tally, ["0", "create", os.path.join(room, "no")], 0, "Linux lets root pass")
        asks(tally, ["0", "create", forged], 1, "is there already")
        asks(tally, ["0", "delete", os.path.join(room, "no")], 3, "No such file or directory")
        asks(tally, [*other, "create", os.path.join(room, "no")], 1, f"{room} wants -wx, other grants r-x")
        asks(tally, [*other, "delete", forged], 1, f"{room} wants -wx, other grants r-x")
        os.chmod(room, 0o1777)
        asks(tally, [*other, "delete", forged], 1, "is sticky")
        asks(tally, [*other, "r", "/proc/self/status"], 3, "the kernel decides there by other rules")
        asks(tally, ["0", "w", "/sys/kernel"], 3, "the kernel decides there by other rules")
        asks(tally, ["0", "x", "/dev/null"], 1, "is a device, and Linux executes files alone")


def plain(code: str) -> str:
    """Code without the spaces before its lines."""
    return re.sub(r"^ +", "", code, flags=re.M)


def shown_code_stands(tally: Tally) -> None:
    code = re.findall(r"^```rust\n(.*?)^```", text_of("docs", "LIBRARY.md"), re.M | re.S)
    folder = os.path.join(played.TOP, "crates", "may", "src")
    sources = "".join(plain(text_of(folder, name)) for name in sorted(os.listdir(folder)))
    tally.holds(code, "docs/LIBRARY.md shows no code")
    for block in code:
        tally.holds(plain(block) in sources, f"this of docs/LIBRARY.md stands in no file of crates/may/src:\n{block}")


if __name__ == "__main__":
    played.plays(__doc__, "things", by_streams, asks_of_files, asks_of_names, shown_code_stands, program=None)
