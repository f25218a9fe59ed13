#!/usr/bin/env python3
"""tests/sampled.py [--scripts N] [--from SEED] [--orders N]

Plays orders that are drawn (`explore --sample`) of the scripts of examples/explore and tests/explored, and of N random
ones (8 by default), so many of each as --orders says (500), and looks whether each way that is told is one of those in
which the jobs may end: the kept ones, which another program told, or those of the whole search. The script of a way has
to lead there, and its answers are those of the plain table. The same seed has to tell the same, and another one may
not. So are 1,000 jobs of 64 agents played, and each of 32 servers crashes in some. Refuses allocations, closes streams
and tells wrong words. Prints each that differs; status 1 where one does.
"""
import os
import re
import tempfile

import explored
import played
from played import Tally
from scripting import header, job

from common import built, text_of, tool

MANY_ORDERS, MOST_WORLDS, NOT_ALL, WORDS = 10000, "400000", 7, 2
STORY = os.path.join(explored.STORIES, "revocation.script")
HEAD, LAST = re.compile(r"^way \d+\n", re.M), re.compile(r"^sampled (\d+) orders: (\d+) ways\n\Z", re.M)
# Words that ask for nothing.
WRONG = (
    "--seed 1", "--sample", "--sample 0", "--sample x", "--sample -1", "--sample 4294967296", "--sample 5 --seed",
    "--sample 5 --seed -1", "--sample 5 --seed 18446744073709551616", "--sample 5 --seed 1x",
)  # fmt: skip
# Allocations that are refused: so many first ones, and each so manieth of the others.
FIRST, EVERY, LATEST = 60, 97, 4000


def ways_in(text: str) -> list[tuple[str, ...]]:
    """The lines of each way that was printed."""
    return [tuple(LAST.sub("", part).splitlines()) for part in HEAD.split(text)[1:]]


def compare(name: str, script: str, words: str, all_ways: list[tuple[str, ...]], tally: Tally) -> bool:
    """Compares the ways of orders with all ways. Tells whether another seed tells something else."""
    orders = tally.given.orders
    asked = f"{words} --sample {orders}"
    status, told = explored.explored(script, f"{asked} --seed 7")
    last, ways = LAST.search(told), ways_in(told)
    so_many = last and (last[1], last[2]) == (str(orders), str(len(ways)))
    tally.holds(status == NOT_ALL and bool(so_many), f"{name}: {asked} ends with {status}, last with {told[-99:]}")
    tally.holds(0 < len(ways) == len(set(ways)), f"{name}: no way is told, or one twice")
    tally.holds(set(ways) <= set(all_ways), f"{name}: {sorted(set(ways) - set(all_ways))} are no ways")
    tally.holds(explored.explored(script, f"{asked} --seed 7")[1] == told, f"{name}: one seed tells two things")
    for number, way in list(enumerate(ways, 1))[:: max(1, len(ways) // 3)]:
        if "--brief" not in words.split():
            status, text = explored.explored(script, f"{asked} --seed 7 --way {number}")
            wrong = [f"it ends with {status}"] if status else explored.differs_when_played(text, way)
            tally.holds(not wrong, f"{name}: way {number}: {'; '.join(wrong)}")
    return explored.explored(script, f"{asked} --seed 8")[1] != told


def compare_all(tally: Tally) -> None:
    """Compares with the kept ways, and with the whole search for random scripts. Another seed tells something else of
    some.
    """
    others = sum(compare(one.name, one.text, one.words, explored.read(one.ways), tally) for one in explored.kept())
    seed, left = tally.given.from_, tally.given.scripts
    while left:
        script, words = explored.Explorable(seed).whole()
        status, told = explored.explored(script, f"{words} --worlds {MOST_WORLDS}")
        if status == 0:
            left -= 1
            others += compare(f"seed {seed}", script, words, explored.read(told), tally)
        seed += 1
    tally.holds(others > 0, "no other seed tells other ways")


def many() -> str:
    """A script of 64 agents and 1,000 jobs."""
    what = ("read /a", "write /a 6f6b", "list /", "getacl /a")
    above = header(3, 64, root="0 0 777") + job("file /a 666 ; write /a 6869", who="0 0") + "together\n"
    return above + "".join(f"begin {number % 64} 0 0 0 {what[number % 4]}\n" for number in range(1000))


def play_many(tally: Tally) -> None:
    """An order of many jobs is played to its end, and its script is that of `play`."""
    script = many()
    status, told = explored.explored(script, "--sample 1 --seed 3")
    ways = ways_in(told)
    is_whole = len(ways) == 1 and len(ways[0]) == 1000 and not any(line.endswith(" -") for line in ways[0])
    tally.holds(status == NOT_ALL and is_whole, f"1,000 jobs: status {status}, {len(ways)} ways")
    status, text = explored.explored(script, "--sample 1 --seed 3 --way 1")
    wrong = explored.differs_when_played(text, ways[0])
    tally.holds(status == 0 and not wrong, f"1,000 jobs: {'; '.join(wrong)[:300]}")


def crash_each(tally: Tally) -> None:
    """Any server may crash: where one alone of 32 has a vote, in some order it is down and nothing is decided."""
    for server in (0, 7, 8, 31):
        votes = ",".join("1" if place == server else "0" for place in range(32))
        script = header(32, 1, f"{votes}/1/1", "0 0 777") + "together\nbegin 0 0 0 0 list /\n"
        status, told = explored.explored(script, f"--sample {MANY_ORDERS} --crashes 1")
        is_found = ("0.0 undecided U1 suite 0 got 0 of 1",) in ways_in(told)
        tally.holds(status == NOT_ALL and is_found, f"server {server} of 32: status {status}, ways {ways_in(told)}")


def refuse(tally: Tally) -> None:
    """Where memory is refused it tells less, or that memory ran out."""
    script = text_of(STORY)
    words, hits = "--sample 20 --seed 1 --crashes 1", 0
    full = explored.explored(script, words)
    with tempfile.TemporaryDirectory() as folder:
        library = played.Library("refuse", folder)
        if not library.is_made:
            return
        for first in [*range(1, FIRST), *range(FIRST, LATEST, EVERY)]:
            for last in (first, 10**9):
                told = explored.explored(script, words, env=library.env(FROM=first, TO=last))
                is_less = told[0] == NOT_ALL and set(ways_in(told[1])) <= set(ways_in(full[1]))
                tally.holds(told == (4, "fault memory\n") or is_less, f"allocation {first} to {last}: {told}")
                hits += library.was_met()
    tally.holds(hits > FIRST, f"only {hits} allocations were refused")


def tell_wrong(tally: Tally) -> None:
    """Wrong words and streams that fail."""
    script = text_of(STORY)
    for words in WRONG:
        tally.same(explored.explored(script, words), (WORDS, "fault command line\n"), words)
        done = played.done([*tool("explore"), *words.split()], cwd=played.TOP)
        tally.same(done[:2], (WORDS, ""), f"./suites explore {words}", done)
    least = explored.explored(script, "--sample 1 --seed 18446744073709551615")
    tally.holds(least[0] == NOT_ALL and least[1].endswith("sampled 1 orders: 1 ways\n"), f"the last seed: {least}")
    tally.same(explored.explored(script, "--sample 1 --way 2"), (WORDS, "sampled 1 orders: 1 ways\n"), "way 2 of one")
    words_of = [built.program(), "explore", "--sample", "5"]
    with open("/dev/full", "wb") as full:
        tally.same(played.done(words_of, script, stdout=full).status, 6, "a full disk")
    tally.same(played.done(["sh", "-c", '"$0" "$@" <&-', *words_of]).status, 6, "no input")


if __name__ == "__main__":
    played.plays(__doc__, "answers of sampled orders compared", compare_all, play_many, crash_each, refuse, tell_wrong,
                 scripts=8, orders=500, from_=0)  # fmt: skip
