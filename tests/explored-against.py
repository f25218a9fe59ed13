#!/usr/bin/env python3
"""tests/explored-against.py PROTOTYPE [--scripts N] [--from SEED] [--merged descent|state|history] [--waits]
tests/explored-against.py PROTOTYPE --write [--merged descent|state|history]

Compares what `explore` tells with what another program tells, a plain explorer in Rust that is no part of the
repository, for N random scripts (300 by default) of up to three agents and five servers, with crashes, restarts, caches
that are forgotten, agents that stop, lists of operations and votes that are moved; and asks `./suites explore --ask` of
them. It merges worlds in which agents are in the same state and have what they gathered of the same agent (descent); or
those in which they are in the same state; or only those in which each agent has done and heard the same (history).
`explore` does the first. With --waits some jobs wait for others. With --write it writes the files
tests/explored/NAME.ways anew. Prints each that differs; status 1 where one does.
"""
import collections
import os
import random
import re
import subprocess
import sys
import tempfile
import typing

import asking
import explored
import played
from played import Tally

HEAD = re.compile(r"all (\d+) worlds \(\d+ looked through\), (\d+) final, (\d+) ways to end")
WAY = re.compile(r"way (\d+) in (\d+) final worlds")
# So many ways at most are told of a random script, so that it ends soon.
MOST_WORLDS, MOST_SECONDS, ALL_WAYS = 400_000, 60, "1000000"


class Ways(typing.NamedTuple):
    """What the other program told: each way with the number of its ends, and how many ends and worlds there are."""

    lines: list[tuple[str, ...]]
    ends: list[int]
    all_ends: int
    worlds: int

    def joined(self, is_brief: bool) -> "Ways":
        """The same, where ways that are printed alike are one; in brief nothing is printed behind the code of what is
        undecided.
        """
        joined = collections.Counter[tuple[str, ...]]()
        for way, ends in zip(self.lines, self.ends):
            joined[tuple(explored.BEHIND.sub(r"\1", line) for line in way) if is_brief else way] += ends
        return self._replace(lines=list(joined), ends=list(joined.values()))

    def printed(self) -> str:
        """The ways as `explore` prints them."""
        told = []
        for place, (way, ends) in enumerate(zip(self.lines, self.ends), 1):
            told += [f"way {place} in {ends} of {self.all_ends} ends", *way]
        return "\n".join([*told, f"all {len(self.lines)} ways, {self.worlds} worlds", ""])


def ways_of(path: str, script: str, words: str, merged: str) -> Ways | None:
    """What the other program tells of a script; nothing, where it takes too long."""
    command = [path, "--stage", "16", "explore", "--apart", "--agents", merged, "--ways", ALL_WAYS, "--memory", "600"]
    try:
        flags = [word for word in words.split() if word != "--brief"]
        text = played.done([*command, *flags], script, timeout=MOST_SECONDS).out
    except subprocess.TimeoutExpired:
        return None
    head = HEAD.match(text)
    if not head or int(head[1]) > MOST_WORLDS:
        return None
    ways, ends = list[list[str]](), list[int]()
    for line in text.partition("\nviolations ")[0].split("\n"):
        found = WAY.match(line)
        if found:
            ways.append([])
            ends.append(int(found[2]))
        elif ways and re.match(r"  \d.*\.", line):
            ways[-1].append(line[2:])
    return Ways([tuple(way) for way in ways], ends, int(head[2]), int(head[1]))


def with_waits(script: str, ways: Ways, dice: random.Random) -> str:
    """The script, where some jobs wait for jobs that its ways tell: of other agents, or earlier ones of their own."""
    above, _, below = script.partition("\ntogether\n")
    jobs = [(int(agent), int(number)) for agent, number in (line.split()[0].split(".") for line in ways.lines[0])]
    lines = below.splitlines()
    left = collections.Counter(int(line.split()[1]) for line in lines)
    for place, line in enumerate(lines):
        agent = int(line.split()[1])
        own = [number for of, number in jobs if of == agent][-left[agent]]
        left[agent] -= 1
        others = [job for job in jobs if job[0] != agent or job[1] < own]
        if others and dice.random() < 0.5:
            awaited, answered = dice.choice(others), dice.choice(["", "answered "])
            lines[place] = f"after {awaited[0]}.{awaited[1]} {answered}{line}"
    return "\n".join([above, "together", *lines, ""])


def compare_one(tally: Tally, path: str, seed: int) -> bool:
    """Compares with the other program for a random script, where that tells its ways soon."""
    given, (script, words) = tally.given, explored.Explorable(seed).whole()
    wanted = ways_of(path, script, words, given.merged)
    if wanted and given.waits:
        script = with_waits(script, wanted, random.Random(seed + 1))
        wanted = ways_of(path, script, words, given.merged) if "\nafter " in script else None
    if not wanted:
        return False
    status, told = explored.explored(script, words)
    joined, about = wanted.joined(False), f"seed {seed}: explore {words}"
    is_same = status == 0 and sorted(explored.read(told)) == sorted(joined.lines)
    tally.holds(is_same, about, status, f"{len(explored.read(told))} ways, and there are {len(joined.lines)}")
    # a forgotten site that no job below has makes worlds, and no ways; moves of servers have another order
    if "--forgets" not in words and "--returns" not in words:
        tally.holds(told == joined.printed(), about, "the ways are told in another order, or with other ends")
        with tempfile.NamedTemporaryFile("w", suffix=".script") as file:
            played.put(file.name, script)
            asking.compare(file.name, words.split(), wanted.lines, random.Random(seed + 1), tally)
    return True


def compares(tally: Tally) -> bool:
    """Compares for random scripts, or writes the kept ways anew, as the other program tells them."""
    given = tally.given
    path, seed, count = os.path.abspath(*given.prototype), given.from_, 0
    if given.write:
        for one in explored.kept():
            ways = ways_of(path, one.text, one.words, given.merged)
            if not ways:
                sys.exit(f"{one.name}: too many worlds")
            played.put(os.path.join(explored.KEPT, f"{one.name}.ways"), ways.joined(one.is_brief).printed())
        return True
    while count < given.scripts:
        count += compare_one(tally, path, seed)
        seed += 1
    print(f"{count} scripts of {seed - given.from_}, those with up to {MOST_WORLDS} worlds")
    return False


if __name__ == "__main__":
    ways_merged = ("descent", "state", "history")
    played.plays(__doc__, "ways and answers", compares, prototype=[], scripts=300, from_=0, merged=ways_merged,
                 waits=False, write=False)  # fmt: skip
