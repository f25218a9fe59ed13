#!/usr/bin/env python3
"""tests/lies.py [--cases N] [--seed SEED]

Has jobs carried out by agents in threads, as `serve` does, with servers that crash and caches that are forgotten on the
way, and tells lies about what servers served and what agents did: a hundred thousand seeded cases (N another
number) over several scripts, each with one lie or two, of 27 kinds. A lie may leave a run that could have been, so its
kind is no verdict: each case is judged by `certify`, and by tests/judging.py, which has `trace` play what the case
tells and compares; and both have to say the same, also what was decided. Builds a program for it (tests/scratch.py,
tests/programs/liar.rt.txt), which needs `rt`. Status 1 where they differ.
"""
import collections
import itertools
import os
import random
import subprocess
import sys
import tempfile
import time
import typing
from concurrent.futures import ThreadPoolExecutor

import judging
import played
import scratch
from scripting import header

from common import text_of


CRATES = (
    "agent_pool byte_streams rep_core run_certify run_core script_text server_lock suite_content suite_play"
    " suite_prefix suite_serve txn_core vote_core"
).split()
MODULES = [os.path.join("tests", "programs", f"{name}.rt.txt") for name in ("lies", "story", "telling")]
MODULES += [os.path.join("crates", "trace", "src", f"{name}.rt") for name in ("asked", "told", "words")]
KINDS = """a reply that tells of a lock lost, the reply of another item, an item left out, an item doubled, a stamp a
little off, a request's stamp a little off, another agent or the operator, two items exchanged, the request of another
item, an item put to another server, two servers exchanged, a last item left out with all that its agent did from there
on, the operator asks once more, the operator asks for the opposite, an entry left out, an entry doubled, two entries
exchanged, an entry's stamp a little off, another server in an entry, the end of another job, another job begun,
entries cut off, an agent that stops with its last items gone, two agents exchanged, a job begun besides, a cache
forgotten, a server that lacked something"""
BATCH = 64
# A script: its name, how many agents, what happens before which job, and the script.
Row = tuple[str, int, list[tuple[int, str]], str]
# A case: its lies, its lists, and what was decided where it was certified.
Case = tuple[list[str], judging.Lists, list[judging.Decision] | None]
# Of so many cases at most no script can say them, or the words leave them open: the others are judged.
UNJUDGED = 0.1
# The verdicts: of the last two no script can say the case, or the words leave it open.
VERDICTS = ("found out", "a run", "unsaid", "open")


def mixed(seed: int, head: str, folders: str, count: int) -> str:
    """Jobs that are in one another's way: so many, of three users, on a few files."""
    chance = random.Random(seed)
    lines = [f"do 1000 100 0 folder /{folder} 777" for folder in folders]
    paths = [f"/{folder}/{name}" for folder in folders for name in "ab"] + ["/a", "/b"]
    lines += [f"do 1000 100 0 file {path} 664 ; write {path} 6869" for path in paths[:4]]
    lines.append("together")
    for _ in range(count):
        path, who = chance.choice(paths), chance.choice(["1000 100", "1000 100", "2000 100", "3000 300"])
        site = chance.randrange(3)
        jobs = [
            f"do {who} {site} read {path}",
            f"do {who} {site} read {path} ; write {path} {chance.randrange(256):02x}",
            f"do {who} {site} write {path} {chance.randrange(256):02x}",
            f"do {who} {site} file {path} 640",
            f"do {who} {site} list /",
            f"do 1000 100 {site} setacl {path} u::rw,g::r,o::{chance.choice('r-')} ; getacl {path}",
            f"do {who} {site} drop {path}",
            f"do 1000 100 {site} setvotes {path} {chance.choice(['1,1,1/2/2', '-,1,1,1/2/2', '2,1/2/2'])}",
            f"do {who} {site} {' ; '.join(['read ' + path] * chance.choice([2, 9]))}",
            f"sweep {chance.randrange(3)}",
        ]
        lines.append(chance.choice(jobs))
    return head + "\n".join(lines) + "\n"


def scripts() -> list[Row]:
    """Scripts of jobs, each with its name, a number of agents, and what happens before which job that all agents do."""
    three = header(agents=None)
    caches = header(4, None, "1,1,1,1/2/3", "1000 100 775", "64 32 4")
    uneven = header(5, None, "2,1,0,1,1/2/4", cache="4096 4096 16")
    return [
        ("files.script", 4, [], text_of("examples", "serve", "files.script")),
        ("sweepers.script", 2, [], text_of("examples", "serve", "sweepers.script")),
        ("three servers", 4, [(6, "crash 0 0"), (12, "return 0 0"), (20, "crash 2 0")], mixed(1, three, "", 24)),
        ("small caches", 3, [(5, "forget 1 0"), (9, "crash 3 0"), (9, "forget 0 1"), (15, "return 3 0")],
         mixed(2, caches, "d", 20)),
        ("uneven votes", 8, [(8, "forget 3 2"), (12, "crash 1 0"), (18, "return 1 0")], mixed(3, uneven, "de", 24)),
    ]  # fmt: skip


def deeds(script: str, given: list[tuple[int, str]]) -> str:
    """What happens before which job, as the liar reads it."""
    above = script.partition("\ntogether")[0].split("\n")
    alone = sum(line.startswith(("do ", "sweep ")) for line in above)
    return " ".join(f"{alone + place} {deed}" for place, deed in given)


def cases_of(lines: typing.Iterable[str]) -> typing.Iterator[Case]:
    """The cases that the liar prints, each with its lies, its lists and what is certified."""
    lies, decided, own = list[str](), list[judging.Decision](), list[judging.Element]()
    lists: judging.Lists = {}
    for line in lines:
        word, _, rest = line.rstrip("\n").partition(" ")
        if word == "case":
            lies, lists, decided = rest.split(), {}, []
        elif word in ("history", "transcript"):
            own = lists.setdefault((word, int(rest)), [])
        elif word == "decided":
            decided.append(judging.decision(rest))
        elif word in ("certified", "mismatch"):
            yield lies, lists, decided if word == "certified" else None
        else:
            own.append(judging.element(line.rstrip("\n")))


def told(
    liar: str, agents: int, seed: int, cases: int, parts: tuple[str, list[tuple[int, str]]]
) -> typing.Iterator[Case]:
    """The cases of a script, as the liar prints them."""
    script, given = parts
    with tempfile.TemporaryFile() as text:
        text.write(f"{agents} {seed} {cases}\n{deeds(script, given)}\n{script}".encode())
        text.seek(0)
        with subprocess.Popen([liar], stdin=text, stdout=subprocess.PIPE, encoding="utf-8") as process:
            yield from cases_of(process.stdout)
    if process.returncode != 0:
        sys.exit(f"the liar ended with status {process.returncode}")


class Came:
    """What came of cases: how many of each verdict, and of each kind of lie."""

    def __init__(self, tally: played.Tally) -> None:
        self.tally, self.all, self.kinds = tally, collections.Counter[str](), collections.Counter[tuple[int, str]]()

    def take(self, name: str, lies: list[str], own: list[judging.Decision] | None, other: judging.Said) -> None:
        verdict = "a run" if own is not None else "found out"
        if other.verdict in ("unsaid", "open"):
            verdict = other.verdict
        else:
            is_so = (other.decided if other.verdict == "a run" else None) == own
            certify = "a run" if own is not None else "mismatch"
            self.tally.holds(is_so, name, f"case {' '.join(lies)}", f"certify says {certify}", *other[:2])
        self.all[verdict] += 1
        if len(lies) == 4:
            self.kinds[int(lies[0]), verdict] += 1


def judge_script(liar: str, came: Came, cases: int, seed: int, row: Row) -> None:
    """Judges the cases of a script."""
    name, agents, given, script = row
    begun, before = time.monotonic(), collections.Counter(came.all)
    stream = told(liar, agents, seed, cases, (script, given))
    _, lists, decided = next(stream)
    whole = judging.Judge(script, agents, lists)
    first = whole.judge({})
    is_so = (first.verdict, first.decided) == ("a run", decided)
    came.tally.holds(is_so, name, f"of the run as it is the judge says {first.verdict}: {first.why}")
    with ThreadPoolExecutor(len(os.sched_getaffinity(0))) as pool:
        while batch := list(itertools.islice(stream, BATCH)):
            for (lies, _, own), other in zip(batch, pool.map(lambda one: whole.judge(one[1]), batch)):
                came.take(name, lies, own, other)
    counts = ", ".join(f"{count} {what}" for what, count in sorted((came.all - before).items()))
    print(f"{name}: {agents} agents, {whole.size} items, {len(decided)} decided; {counts};"
          f" {time.monotonic() - begun:.1f} s", flush=True)


def all_scripts(tally: played.Tally) -> None:
    liar, came, rows = scratch.built("liar", CRATES, MODULES), Came(tally), scripts()
    for place, row in enumerate(rows):
        judge_script(liar, came, tally.given.cases // len(rows), tally.given.seed * len(rows) + place, row)
    for number, kind in enumerate(kind.strip() for kind in KINDS.replace("\n", " ").split(",")):
        print(f"  {kind}:", ", ".join(f"{came.kinds[number, verdict]} {verdict}" for verdict in VERDICTS))
    print(f"{sum(came.all.values())} cases:", ", ".join(f"{came.all[verdict]} {verdict}" for verdict in VERDICTS))
    few = came.all["unsaid"] + came.all["open"] > UNJUDGED * sum(came.all.values())
    tally.holds(not few and came.all["found out"] and came.all["a run"], "too few are judged, or none of a verdict")


if __name__ == "__main__":
    played.plays(__doc__, "cases", all_scripts, cases=100_000, seed=1)
