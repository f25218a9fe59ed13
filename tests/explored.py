#!/usr/bin/env python3
"""tests/explored.py [--every N]

Compares what the command `explore` tells of the scripts of examples/explore and tests/explored with the ways that are
kept in tests/explored/NAME.ways: those which another program told, that shares no line with it. Plays the script of
each N-th way by `suites play` (each tenth by default), which has to print just the lines of the way; and compares each
answer that was decided there with that of the plain table, in the order of the decisions, as tools/compare does. With
--progress it has to tell the same, and how many worlds it has looked at. No way is printed twice. Prints each that
differs; status 1 where one does.
"""
import os
import re
import subprocess
import sys
import typing

import played
from played import Tally
from scripting import header, job

from common import built, text_of
from compare import compare, scenario

KEPT = os.path.join(played.TOP, "tests", "explored")
STORIES = os.path.join(played.TOP, "examples", "explore")
# The line of a story that tells how it is to be run, or of a script that is kept here.
RUN = re.compile(r"^# +\./suites explore ?(.*?) ?< (\S+)$", re.M)
# What stands behind the code of a job that is undecided, and the line of a job whose agent stopped.
BEHIND = re.compile(r"(undecided U\d).*")
STOPPED = re.compile(r"\d+\.\d+ -")
# A story with some worlds more than those after which it is told again how many these are, and what is told then.
WIDE, WIDE_WORDS = "revocation.script", "--crashes 2 --returns 2 --worlds 70000"
PROGRESS = "0 worlds\n65536 worlds\n"
# `list -` is a folder without names, and one with a file `-`: ways that differ so are printed alike, and are one.
ALIKE = (
    f"{header(1, 2, '1/1/1')}{job('folder /d 755')}together\nbegin 0 1000 100 0 file /d/- 644\n"
    "begin 1 1000 100 0 list /d\n"
)
LISTED = re.compile(r"^way \d+ in (\d+) of \d+ ends\n0\.1 (.*)\n1\.0 answered list -\n", re.M)


def steps_in(lines: list[str]) -> int:
    """How many events the lines of a script are."""
    return sum(int(line.split()[2]) if re.match(r"step \d+ \d", line) else 1 for line in lines)


def explored(script: str, words: str, **how: typing.Any) -> tuple[int, str]:
    """The exit status of `explore` for a script, and what it printed, on standard error too."""
    how = {"stderr": subprocess.STDOUT, **how}
    return played.done([built.program(), "explore", *words.split()], script, **how)[:2]


def read(text: str) -> list[tuple[str, ...]]:
    """The lines of each way that `explore` printed."""
    parts = re.split(r"^way \d+ in \d+ of \d+ ends\n", text, flags=re.M)
    return [tuple(line for line in part.split("\n") if line and not line.startswith(("all ", "not all: ")))
            for part in parts[1:]]


def without_steps(lines: list[str]) -> list[str]:
    """The lines of `play` without their counts of steps."""
    return [re.sub(r"^(\d+\.\d+) \d+ ", r"\1 ", line) for line in lines]


def differs_when_played(script: str, way: tuple[str, ...]) -> list[str]:
    """What is wrong with the script of a way: play prints the lines of the way, after those of what stands above
    `together`, and each decided answer is that of the plain table.
    """
    status, printed = built.asked("play", script)
    wanted = sorted(line for line in way if not STOPPED.fullmatch(line))
    lines = without_steps(printed.splitlines())
    told = sorted(lines[len(lines) - len(wanted):])
    wrong = [] if told == wanted and status == 0 else [f"play prints {told}, and not {wanted}"]
    return wrong + compare.differences(script)[0]


class Kept(typing.NamedTuple):
    """A script with kept ways: its name and path, the words with which it is explored, its text, and the ways."""

    name: str
    path: str
    words: str
    text: str
    ways: str

    @property
    def is_brief(self) -> bool:
        return "--brief" in self.words.split()


def kept() -> typing.Iterator[Kept]:
    """The scripts with kept ways."""
    for folder in (STORIES, KEPT):
        for file, text in played.stories(folder).items():
            path, found, name = os.path.join(folder, file), RUN.search(text), file.removesuffix(".script")
            if not found or found[2] != os.path.relpath(path, played.TOP):
                sys.exit(f"{file} does not tell how it is run")
            yield Kept(name, path, found[1], text, text_of(KEPT, f"{name}.ways"))


def compare_progress(tally: Tally) -> None:
    """With --progress it tells on standard error how many worlds it has looked at; else it tells nothing there."""
    script = played.stories("explore")[WIDE]
    silent, told = (
        played.done([built.program(), "explore", *words.split()], script)
        for words in (WIDE_WORDS, f"{WIDE_WORDS} --progress")
    )
    tally.holds(silent[:2] == told[:2] and silent.status == 7, WIDE, f"--progress tells\n{told}\nand not\n{silent}")
    tally.same((silent.err, told.err), ("", PROGRESS), WIDE, "on standard error stands")


def compare_alike(tally: Tally) -> None:
    """No way is printed twice: of the worlds that print a way alike each is an end of that one."""
    told = explored(ALIKE, "")[1]
    ways, ends = read(told), [int(number) for number in re.findall(r"^way \d+ in (\d+) of", told, re.M)]
    tally.holds(len(set(ways)) == len(ways), f"a way is told twice in\n{told}")
    tally.holds(f" of {sum(ends)} ends\n" in told, f"the ends of ways are not all in\n{told}")
    tally.holds(any(int(found[1]) > 1 for found in LISTED.finditer(told)), f"`list -` is no way of two ends in\n{told}")


def compare_kept(tally: Tally) -> None:
    """Compares with the kept ways, and plays the scripts of ways."""
    for one in kept():
        name, words = one.name, one.words
        status, told = explored(one.text, words)
        tally.holds((status, told) == (0, one.ways), f"{name}: explore {words} ends with {status} and tells\n{told}")
        for number, way in list(enumerate(read(told), 1))[:: tally.given.every]:
            status, script = explored(one.text, f"{words} --way {number}")
            wrong = [] if status == 0 else [f"--way ends with {status}"]
            wrong += compare.differences(script)[0] if one.is_brief else differs_when_played(script, way)
            tally.holds(not wrong, f"{name}: way {number}: {'; '.join(wrong)}")
        missing = len(read(told)) + 1
        is_missing = one.is_brief or explored(one.text, f"{words} --way {missing}")[0] == 2
        tally.holds(is_missing, f"{name}: there is a way {missing}")
        status, told = explored(one.text, f"{words} --worlds 10")
        tally.holds(status == 7 and "\nnot all: " in f"\n{told}", f"{name}: 10 worlds are all")


class Explorable(scenario.Scenario):
    """A random script with a line `together`."""

    def __init__(self, seed: int) -> None:
        super().__init__(seed, 12)
        self.agents, self.servers = self.dice.randint(2, 3), self.dice.randint(1, 5)

    def whole(self) -> tuple[str, str]:
        """The script, and the words with which it is explored."""
        above = self.script().splitlines()
        begins = [line for line in above if line.startswith("begin")]
        head = [line for line in above if line.split()[:1] and line.split()[0] in compare.HEADER | {"old"}]
        below = []
        for agent in range(self.agents):
            for _ in range(self.dice.choice([1, 1, 1, 2])):
                words = self.dice.choice(begins).split()
                sweep = f"sweep {agent} {self.dice.randrange(self.servers)}"
                below.append(sweep if self.dice.random() < 0.15 else " ".join(["begin", str(agent), *words[2:]]))
        lines = [*head, *[line for line in above if line not in head], "together", *below]
        crashes = self.dice.choice([0, 0, 1, 1, 2])
        told = {
            "--crashes": crashes,
            "--returns": self.dice.randint(0, crashes),
            "--forgets": self.dice.choice([0, 0, 0, 1]),
            "--stops": self.dice.choice([0, 0, 0, 1]),
        }
        return "\n".join(lines) + "\n", " ".join(f"{option} {number}" for option, number in told.items() if number)


if __name__ == "__main__":
    played.plays(__doc__, "ways and answers compared", compare_kept, compare_progress, compare_alike, every=10)
