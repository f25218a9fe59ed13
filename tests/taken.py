#!/usr/bin/env python3
"""tests/taken.py

Takes crates by tools/take.py into folders of their own, builds two programs over them there by `rt try`, unproved, and
holds what they print against what is to be expected by the rules of the service. The first is made as docs/LIBRARY.md
says, by its command lines, and the page has to show what it prints, and to name the second. A crate that is there and
is another one has to be refused. Prints what differs; status 1 where something does.
"""
import os
import re
import sys
import tempfile
import typing

import played

from common import text_of

PROGRAMS = os.path.join(played.TOP, "tests", "programs")


class Program(typing.NamedTuple):
    """A program, the crates that it names, how many are taken for it, and what it has to print."""

    name: str
    direct: str
    taken: int
    printed: str


# The folder of another repository in the command lines of the page.
MINE = "../mine"
# the mask takes writing from user 1001; two of four votes read, and three write
ASKS = Program("access_and_votes", "acl_core acl_text vote_core", 4, "Denied(Mask)\nread true write false\n")
# with server 2 down the other two make the quorum; the file is operation 1 of transaction 0
PLAYS = Program(
    "a_run",
    "acl_core file_ops run_core suite_content suite_prefix txn_core vote_core",
    13,
    "server 0 has it: true\nserver 1 has it: true\nserver 2 has it: false\n",
)


def take(folder: str, direct: str) -> played.Done:
    tool = os.path.join(played.TOP, "tools", "take.py")
    return played.done([sys.executable, tool, "--into", folder, *direct.split()])


def tried(tally: played.Tally, program: Program, folder: str) -> None:
    """Takes the crates, puts the program beside them, and looks at what it prints."""
    done = take(folder, program.direct)
    tally.holds(done.out.startswith(f"{program.taken} crates taken: "), program.name, done)
    crate = os.path.join(folder, "crates", program.name)
    os.makedirs(os.path.join(crate, "src"))
    played.put(os.path.join(crate, "src", "main.rt"), text_of(PROGRAMS, f"{program.name}.rt.txt"))
    with open(os.path.join(folder, "crates.txt"), "a", encoding="utf-8") as file:
        file.write(f"{program.name}: {program.direct}\n")
    done = played.done(["rt", "try"], cwd=crate)
    tally.holds(program.printed in done.out, program.name, done.out[-600:], done.err[-1500:])
    tally.same(take(folder, program.direct).out, "all of them are there\n", program.name, "taken twice")
    with open(os.path.join(folder, "crates", "vote_core", "src", "lib.rt"), "a", encoding="utf-8") as file:
        file.write("// another one\n")
    tally.same(take(folder, program.direct).status, 1, program.name, "another crate is taken for this one")


def as_told(tally: played.Tally, program: Program, page: str, folder: str) -> None:
    """Types the command lines of the page, and looks at what the program prints, and whether the page shows that."""
    blocks = [re.sub(r"^    ", "", block, flags=re.M) for block in re.findall(r"(?:^    .*\n)+", page, re.M)]
    lines = next((block for block in blocks if "take.py" in block), "")
    tally.holds(f"tests/programs/{program.name}.rt.txt" in lines, "docs/LIBRARY.md does not take", program.name)
    tally.holds(program.printed in blocks, "docs/LIBRARY.md does not show what is printed:", program.printed)
    done = played.done(["sh", "-ec", lines.replace(MINE, folder)], cwd=played.TOP)
    tally.holds(done.out.startswith(f"{program.taken} crates taken: "), program.name, done)
    tally.holds(program.printed in done.out, program.name, done.out[-600:], done.err[-1500:])


def takes(tally: played.Tally) -> None:
    page = text_of("docs", "LIBRARY.md")
    tally.holds(f"tests/programs/{PLAYS.name}.rt.txt" in page, "docs/LIBRARY.md does not name", PLAYS.name)
    with tempfile.TemporaryDirectory(prefix="suites-") as folder:
        as_told(tally, ASKS, page, os.path.join(folder, "mine"))
        tried(tally, PLAYS, os.path.join(folder, "other"))


if __name__ == "__main__":
    played.plays(__doc__, "things", takes, width=2000)
