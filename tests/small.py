#!/usr/bin/env python3
"""tests/small.py [--part stack|memory|refused] [--every N]

Plays where little is there. Prints each answer that differs; status 1 where one does.

stack    With a stack of 1 MiB, since a proof says nothing of how deep it is: each row of crates/rows/stdin has to be
         answered as it says, `explore` to tell the ways that are kept of the scripts of examples/explore and
         tests/explored; and long inputs have to be answered as with a stack of any size. How many jobs stand above
         `together` does not change how many ways and worlds there are.
memory   A limit of address space, as `./suites explore` sets one, has to end a search by `not all` with status 7,
         before a signal ends it. A script whose ways are kept is explored under limits that rise from where the system
         can begin the program: each answer tells no way that is not kept, and as many worlds as one before at least, or
         is `fault memory`; some say `not all`, and the last says `all` and tells just what is kept. Then `./suites
         explore` is asked, under a limit of the shell, for a search that takes more than any machine has.
refused  Runs `explore` with its first, its second, .. allocation refused, or with --every N each N-th, until none is
         left: that one alone, and then all from it on. Each answer has to be the full one, or `not all` and no way that
         the full one has not, or `fault memory`. Needs `cc` (tests/refuse.c stands before the allocator).
"""
import collections
import contextlib
import os
import re
import resource
import subprocess
import tempfile
import typing

import explored
import played
import wrapper
from played import Tally
from scripting import equal_votes, header, job

from common import built, text_of

ABOVE, SERVERS, BELOW, LONG = 400, 32, 200, 2000
# The script; how much address space it may take, in KiB: so many limits, so far apart, and one that is wide enough.
STORY, RISES, STEP, ENOUGH = "revocation-crash", 18, 500, 400_000
# As much as Python needs to begin, and more; and what is explored with that.
LITTLE, WIDE, WIDE_WORDS = 130_000, "three-makers", "--crashes 9 --returns 9 --stops 2"
DONE, FAULTY, NO_MEMORY, NOT_ALL = 0, 3, 4, 7
LAST = re.compile(r"^(not )?all:? \d+ ways, (\d+) worlds\n\Z", re.M)
# The scripts that are explored where allocations are refused, each with its words.
STORIES = (
    ("revocation", ""), ("revocation", "--brief --crashes 1"), ("revocation", "--way 2"),
    ("writer-stops", "--brief --stops 1"),
)  # fmt: skip
ALL = 10**9


def limit(kind: int, most: int) -> dict[str, typing.Any]:
    """How a program is begun that may have so much."""
    return {"preexec_fn": lambda: resource.setrlimit(kind, (most, most))}


SMALL, AMPLE = limit(resource.RLIMIT_STACK, 1 << 20), dict[str, typing.Any]()


def kind_of(told: tuple[int, str], full: str) -> str:
    """What an answer is: all that is told with ample memory, some of it, or that memory ran out; nothing where it may
    not be given.
    """
    status, text = told
    last = LAST.search(text)
    is_part = status == NOT_ALL and last and last[1] and set(explored.read(text)) <= set(explored.read(full))
    kinds = {(DONE, full): "full", (NO_MEMORY, "fault memory\n"): "memory"}
    return kinds.get(told) or ("not all" if is_part else "")


# ---- a small stack


def jobs(count: int) -> str:
    """So many jobs of agent 0, one after the other, below a header."""
    return HEAD + "".join(job(f"write /a {place % 65536:04x}") for place in range(count))


def head(servers: int) -> str:
    return header(servers, 2, equal_votes(servers)) + job("file /a 644")


HEAD = head(3)


def stack(tally: Tally) -> None:
    for row in played.rows():
        told = played.done([tally.program, *row["words"]], row["input"], **SMALL)
        tally.same(told[:2], (row["status"], row["output"].decode("latin1")), f"row at line {row['line']}")
    for one in explored.kept():
        status, text = explored.explored(one.text, one.words, **SMALL)
        tally.holds((status, text) == (DONE, one.ways), f"explore of {one.name} ends with {status}, or tells others")
    below = "together\nbegin 0 1000 100 0 write /a 01\nbegin 1 1000 100 0 read /a\n"
    last = [explored.explored(jobs(above) + below, "", **SMALL)[1].splitlines()[-1:] for above in (1, ABOVE)]
    is_same = last[0] == last[1] and last[0][0].startswith("all ")
    tally.holds(is_same, f"with {ABOVE} jobs above together it is {last[1]}, with one {last[0]}")
    for servers, count in ((SERVERS, 4), (3, BELOW)):
        script = head(servers) + "together\n" + "begin 0 1000 100 0 read /a\n" * count
        status, text = explored.explored(script, "", **SMALL)
        ways = [tuple(f"0.{number} answered read -" for number in range(1, count + 1))]
        is_one = text.startswith("way 1 in 1 of 1 ends\n") and explored.read(text) == ways
        tally.holds(status == DONE and is_one, f"{count} jobs with {servers} servers: status {status}, {text[-200:]}")
    for command in ("play", "trace", "forms"):
        small, large = (played.done([tally.program, command], jobs(LONG), **how) for how in (SMALL, AMPLE))
        tally.holds(small == large and small.status >= 0, f"{command} of a long script", small[:1], large[:1])


# ---- little memory


def limited(script: str, words: str, most: int) -> tuple[int, str]:
    """What the program tells with so much address space."""
    return explored.explored(script, words, stderr=subprocess.DEVNULL, **limit(resource.RLIMIT_AS, most << 10))


def least_to_begin() -> int:
    """The least limit, in steps, under which the system begins the program, which then reads that it has no script."""
    for most in range(STEP, ENOUGH, STEP):
        with contextlib.suppress(subprocess.SubprocessError):
            if limited("", "", most)[0] in (FAULTY, NO_MEMORY):
                return most
    return ENOUGH


def memory(tally: Tally) -> None:
    story = next(one for one in explored.kept() if one.name == STORY)
    begins, least, statuses = least_to_begin(), 0, list[int]()
    for most in (*(begins + STEP * rise for rise in range(1, RISES + 1)), ENOUGH):
        told = limited(story.text, story.words, most)
        last = LAST.search(told[1])
        worlds = int(last[2]) if last else 0
        is_so = kind_of(told, story.ways) and (not last or worlds >= least)
        tally.holds(is_so, f"{STORY} with {most} KiB finds {worlds} worlds, and {least} with less, or others", told)
        least = max(least, worlds)
        statuses.append(told[0])
    tally.holds(NOT_ALL in statuses and statuses[-1] == DONE, f"{STORY} from {begins} KiB on ends with {statuses}")
    # the tool, in a copy of the repository, runs the program under the limit of its shell
    with tempfile.TemporaryDirectory() as room:
        copy = wrapper.Copy(room)
        copy.build("explore", f'#!/bin/sh\nexec {built.program()} explore "$@"\n')
        path = os.path.join(explored.STORIES, f"{WIDE}.script")
        line = f"ulimit -v {LITTLE}; exec ./suites explore {WIDE_WORDS} < {path} | tail -n 1"
        done = played.done(["bash", "-o", "pipefail", "-c", line], cwd=copy.top)
        is_so = done.status == NOT_ALL and done.out.startswith("not all: ") and "signal" not in done.err
        tally.holds(is_so, f"./suites explore {WIDE_WORDS} with {LITTLE} KiB: {done}")


# ---- refused allocations


def of_a_way(told: tuple[int, str], script: str) -> str:
    """With --way a script may be told that leads to another way than the full answer's of this number, or that it was
    not found: the number is that among the ways that were found.
    """
    if told[0] == 2 and told[1].startswith("not all: "):
        return "not all"
    above = script[: script.index("\ntogether") + 1]
    return "another way" if told[0] == DONE and told[1].startswith(above) else ""


def refused(tally: Tally) -> bool:
    with tempfile.TemporaryDirectory() as folder:
        library = played.Library("refuse", folder)
        for name, words in STORIES if library.is_made else ():
            script, counts = text_of(explored.STORIES, f"{name}.script"), collections.Counter[str]()
            full = explored.explored(script, words)[1]
            for is_alone in (True, False):
                number = 1
                while True:
                    env = library.env(FROM=number, TO=number if is_alone else ALL)
                    told = explored.explored(script, words, env=env)
                    if not library.was_met():
                        break
                    found = kind_of(told, full) or "--way" in words and of_a_way(told, script)
                    counts[found or "other"] += 1
                    about = f"{name} {words}: allocation {number}{'' if is_alone else ' and all from there on'}"
                    tally.holds(found, about, told[0], told[1][-200:])
                    number += tally.given.every
            tally.holds(counts, f"{name} {words}: no allocation was refused")
            print(f"{name} {words}:", *(f"{count} {kind}" for kind, count in sorted(counts.items())), flush=True)
    return not library.is_made


PARTS: dict[str, typing.Callable[[Tally], object]] = {"stack": stack, "memory": memory, "refused": refused}


if __name__ == "__main__":
    played.plays(__doc__, "answers", lambda tally: PARTS[tally.given.part](tally), part=tuple(PARTS), every=1, most=20)
