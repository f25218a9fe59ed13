#!/usr/bin/env python3
"""tests/long-and-many.py [--runs N] [PROGRAM]

Runs of `serve` that are too long for a row. Prints counts, seconds and memory; status 1 where something differs.
"""
import collections
import os
import random
import re
import subprocess
import tempfile
import time

import played
from scripting import header

from common import text_of

SERVERS, AGENTS, JOBS, FOLDERS, NAMES = 16, 64, 100_000, 96, 64
# How many suites a server has places for.
PLACES = 4_096
HISTORY = 1_000_000
SEED = 1
# What is told of an operation that was done, and how a job may end.
REPLY = r"(?:made \d+|read (?:-|[0-9a-f]+)|wrote|dropped|set|(?:list|acl|votes) \S+)"
ENDINGS = re.compile(
    rf"answered {REPLY}(?:; {REPLY})*"
    + r"|denied op [1-8] suite \d+ wants [rwx-]{3} by \S+|refused F\d+ op \d|swept \d+ \d+ \d+"
    r"|undecided U1 suite \d+ got \d+ of \d+|undecided U2 server \d+ holder \d+|undecided U[36] server \d+"
    r"|undecided U[457]"
)


class Run:
    """One run of the program: its lines, its seconds and the most memory that it had, in MB; and, of so many jobs, how
    often each ending came, and their steps.
    """

    def __init__(self, tally: played.Tally, agents: int, script: str, jobs: int | None = None) -> None:
        with tempfile.TemporaryFile() as given, tempfile.TemporaryFile() as told:
            given.write(script.encode())
            given.seek(0)
            begun = time.monotonic()
            process = subprocess.Popen([tally.program, "serve", "--agents", str(agents)], stdin=given, stdout=told)
            _, status, used = os.wait4(process.pid, 0)
            process.returncode = os.waitstatus_to_exitcode(status)
            self.seconds, self.memory = time.monotonic() - begun, used.ru_maxrss // 1024
            told.seek(0)
            self.lines = told.read().decode().splitlines()
        self.counts, self.steps = collections.Counter[str](), 0
        is_whole = process.returncode == 0 and jobs in (None, len(self.lines) - 1)
        tally.holds(is_whole, f"status {process.returncode}, {len(self.lines)} lines: {self.lines[-1:]}")
        for job, line in enumerate(self.lines[:-1] if jobs and is_whole else []):
            number, steps, ending = line.split(" ", 2)
            self.steps += int(steps)
            self.counts[kind_of(ending)] += 1
            tally.fails((int(number) != job or not ENDINGS.fullmatch(ending)) and f"job {job}: {line}")


def some_votes(first: int) -> str:
    """One vote each at three servers in a row, of which two are a quorum."""
    named = {place % SERVERS for place in range(first, first + 3)}
    return ",".join("1" if place in named else "-" for place in range(max(named) + 1)) + "/2/2"


def many_jobs() -> str:
    """The script of many jobs."""
    chance = random.Random(SEED)
    last_server = ",".join(["-"] * (SERVERS - 1) + ["1"]) + "/1/1"
    lines = [f"do 1000 100 0 folder /d{folder} 777 {some_votes(folder)}" for folder in range(FOLDERS)]
    lines.append("together")

    def path() -> str:
        return f"/d{chance.randrange(FOLDERS)}/f{chance.randrange(NAMES)}"

    def own(number: int) -> str:
        name = f"/d{chance.randrange(FOLDERS)}/g{number}"
        return f"file {name} 600 ; write {name} 00 ; read {name}"

    # of a hundred jobs so many, each with who asks, and what
    kinds = [
        (8, lambda number: f"sweep {chance.randrange(SERVERS)}"),
        (15, lambda number: f"do 1000 100 {chance.randrange(16)} file {path()} 644 {last_server}"),
        (17, lambda number: f"do 1000 100 {chance.randrange(16)} write {path()} {chance.randrange(256):02x}"),
        (30, lambda number: f"do {chance.choice([1000, 2000])} 300 {chance.randrange(16)} read {path()}"),
        (14, lambda number: f"do 1000 100 {chance.randrange(16)} list /d{chance.randrange(FOLDERS)}"),
        (8, lambda number: f"do 1000 100 0 setacl {path()} u::rw,g::r,o::- ; getacl {path()}"),
        (3, lambda number: f"do 1000 100 0 drop {path()}"),
        (5, lambda number: f"do 1000 100 0 {own(number)}"),
    ]
    shares = [share for share, _ in kinds]
    for number in range(FOLDERS, JOBS):
        lines.append(chance.choices(kinds, shares)[0][1](number))
    return header(SERVERS, None, cache="65536 65536 64") + "\n".join([*lines, ""])


def kind_of(ending: str) -> str:
    """An ending without its numbers, but with its code."""
    first, _, rest = ending.partition(" ")
    return f"{first} {rest.split()[0]}" if first in ("refused", "undecided") else first


def tells(tally: played.Tally, name: str, run: Run, jobs: int, steps: int) -> None:
    """Says how a run ended, and holds how many steps were certified."""
    counts = ", ".join(f"{count} {what}" for what, count in run.counts.most_common())
    tally.same(run.lines[-1:], [f"certified {steps} steps"], name)
    print(f"{name}: {jobs} jobs: {run.lines[-1:]}; {counts}; {run.seconds:.1f} s, {run.memory} MB")


def many(tally: played.Tally) -> None:
    """100,000 jobs by 64 agents on 16 servers: files made, written, read, given lists and dropped, sweeps of servers at
    work, and a server that is filled with suites. Each job has its line, each ending that the script is to bring about
    comes, and the last line counts the steps of all jobs but those that a full server did not serve.
    """
    run = Run(tally, AGENTS, many_jobs(), JOBS)
    tells(tally, "many", run, JOBS, run.steps - run.counts["undecided U6"])
    wanted = ["answered", "refused F4", "refused F5", "swept", *(f"undecided U{code}" for code in (2, 3, 4, 6))]
    for kind in wanted:
        tally.holds(run.counts[kind], f"no job ended as {kind}")


def long(tally: played.Tally) -> None:
    """Lists by 4 agents on one server, until its history is full: 1,000,000 steps are certified, and whoever asks after
    that is told that the server is full.
    """
    jobs = HISTORY // 5 + 200
    run = Run(tally, 4, header(1, None, "1/1/1") + "together\n" + "do 1000 100 0 list /\n" * jobs, jobs)
    tells(tally, "long", run, jobs, HISTORY)
    tally.same({line.split(" ", 2)[2] for line in run.lines[:-1]}, {"answered list -", "undecided U6 server 0"}, "long")


def busy(tally: played.Tally) -> None:
    """Writes of one file on one server, which is so asked to prepare more suites than it has places for, but one again
    and again: nobody is told that it is full.
    """
    jobs = 8_000
    script = header(1, None, "1/1/1") + "do 1000 100 0 file /f 666\n"
    run = Run(tally, AGENTS, script + "do 1000 100 0 write /f 00\n" * (jobs - 1), jobs)
    tells(tally, "busy", run, jobs, run.steps)
    tally.holds(run.counts["answered"] >= PLACES and not run.counts["undecided U6"], "busy", run.counts)


def often(tally: played.Tally) -> None:
    """So many runs of `examples/serve/files.script`, with 2, 4 and 64 agents in turn: one output."""
    script = text_of("examples", "serve", "files.script")
    outputs = {"\n".join(Run(tally, (2, 4, AGENTS)[number % 3], script).lines) for number in range(tally.given.runs)}
    is_one = len(outputs) == 1 and all(output.endswith("\ncertified 192 steps") for output in outputs)
    tally.holds(is_one, "often", outputs)
    tally.count += tally.given.runs


if __name__ == "__main__":
    played.plays(__doc__, "runs and ends", often, many, long, busy, program=None, runs=1000, most=20)
