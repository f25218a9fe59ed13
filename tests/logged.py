#!/usr/bin/env python3
"""tests/logged.py [--runs N] [--from SEED]

Has random scripts of `serve` carried out by 2 to 64 agents in threads (200 runs, or N), and looks at what their callers
saw (`serve --log`): the judge says `one table` of each history; it has of each job one line where it was called and,
below that, one where it was told; what was called is what the script asks for, and what was told is what is printed;
and a job above `together` was told before any below it was called. Looks too how `./suites serve --log` ends where its
words, the script or the file are faulty. Status 1 where one differs.
"""
import os
import random
import re
import tempfile

import judged
import played

from common import built

AGENTS = (2, 3, 4, 8, 16, 32, 64)
VOTES = (("3", "1,1,1/2/2"), ("1", "1/1/1"), ("5", "1,1,1,1,1/2/4"), ("3", "2,1,1/2/3"))
LINE = re.compile(r"(?P<mark># )?(?P<kind>call|ret) (?P<job>\d+) (?P<said>.*)")
DENIED = re.compile(r"^denied .*")
# Of these the history has comments: of a sweep and of what was not decided in few words.
SHORT = re.compile(r"^(undecided|swept) .*")
NOT_JUDGED = re.compile(r"^(undecided|swept|refused F11) .*")


def script(chosen: random.Random) -> tuple[list[str], int]:
    """The lines of a random script, and how many of its jobs stand above `together`."""
    servers, votes = chosen.choice(VOTES)
    root = chosen.choice(("777", "755", "u::rwx,u:2000:rwx,g::rwx,m::rwx,o::rx"))
    lines = [f"servers {servers}", f"votes {votes}", f"root 1000 100 {root}", "cache 4096 2048 16"]
    jobs = ["do 1000 100 0 file /f 604", "do 1000 100 0 folder /d 755 ; file /d/g 644 1,1/1/2"]
    alone = chosen.randrange(2, 9)
    for _ in range(chosen.randrange(50, 600)):
        if chosen.random() < 0.03:
            jobs.append(f"sweep {chosen.randrange(int(servers))}")
            continue
        operations = " ; ".join(judged.operation(chosen) for _ in range(chosen.choice((1, 1, 1, 2, 3))))
        uid, groups = chosen.choice(judged.CALLERS).split()
        jobs.append(f"do {uid} {groups} {chosen.randrange(3)} {operations}")
    return [*lines, *jobs[:alone], "together", *jobs[alone:]], alone


def asked(line: str) -> str:
    """What a job asks for, without what is written otherwise in a history: its site, lists and votes."""
    words = line.split()
    if words[0] == "sweep":
        return line
    told = " ".join([*words[1:3], *words[4:]])
    return re.sub(r"(file|folder|setacl) (\S+)[^;]*", r"\1 \2", told).replace(" ;", ";")


def plain(said: str) -> str:
    """The same of what a history has."""
    return re.sub(r"(file|folder|setacl) (\S+)[^;]*", r"\1 \2", said).replace(" ;", ";")


class Run:
    """A script that was served, what was printed, and what was written down."""

    def __init__(self, seed: int, folder: str) -> None:
        chosen = random.Random(seed)
        self.lines, self.alone = script(chosen)
        self.agents = chosen.choice(AGENTS)
        log = os.path.join(folder, "history")
        words = [built.program(), "serve", "--agents", str(self.agents), "--log", log]
        text = "\n".join([*self.lines, ""]).encode()
        done = played.done(words, text)
        self.status, self.printed = done.status, done.out.splitlines()
        self.history = played.text_of(log)
        self.events = [found for found in map(LINE.fullmatch, self.history.splitlines()) if found]

    def jobs(self) -> list[str]:
        return [line for line in self.lines if line.startswith(("do ", "sweep "))]

    def look(self, tally: played.Tally) -> bool:
        """Looks at it; whether jobs below `together` ran beside one another."""
        about = f"{self.agents} agents"
        last = "".join(self.printed[-1:])
        tally.holds(self.status == 0 and last.startswith("certified "), about, self.status, last)
        said = built.asked("judge", self.history)[1].strip()
        decided = sum(1 for event in self.events if event["kind"] == "ret" and not event["mark"])
        # the votes of the root folder are set above all calls
        tally.holds(said == f"one table: {decided + 1} calls", about, said)
        places: dict[tuple[str, int], int] = {}
        for place, event in enumerate(self.events):
            places[event["kind"], int(event["job"])] = place
            self.holds(tally, event, int(event["job"]))
        jobs = self.jobs()
        tally.holds(len(self.events) == 2 * len(jobs) == len(places), about, "lines")
        tally.holds(all(places["call", job] < places["ret", job] for job in range(len(jobs))), about, "times")
        below = min((places["call", job] for job in range(self.alone, len(jobs))), default=len(self.events))
        tally.holds(all(places["ret", job] < below for job in range(self.alone)), about, "together")
        return any(places["ret", job] > places["call", job] + 1 for job in range(len(jobs)))

    def holds(self, tally: played.Tally, event: re.Match[str], job: int) -> None:
        """Looks at one line of the history."""
        told = self.printed[job].split(" ", 2)[2]
        if event["kind"] == "call":
            tally.holds(plain(event["said"]) == asked(self.jobs()[job]), "called", event[0], self.jobs()[job])
        else:
            tally.holds(event["said"] == SHORT.sub(r"\1", DENIED.sub("denied", told)), "told", event[0], told)
        tally.holds(bool(event["mark"]) == bool(NOT_JUDGED.match(told)), "decided", event[0], told)


def ends(tally: played.Tally, folder: str) -> None:
    """Looks how `./suites serve --log` ends."""
    log = os.path.join(folder, "log")
    good = b"servers 1\nvotes 1/1/1\nroot 1000 100 777\ncache 0 0 0\ndo 1000 100 0 list /\n"
    cases = (
        (["--agents", "2", "--log", log], good, 0), (["--log", log, "--agents", "2"], good, 0),
        ([f"--log={log}", "--agents=2"], good, 0), (["--log", log, "--agents", "65"], good, 2),
        (["--log", log], good, 2), (["--agents", "2", "--log"], good, 2),
        (["--agents", "2", "--log", log, "more"], good, 2), (["--agents", "2", "--log", log], b"servers x\n", 3),
        (["--agents", "2", "--log", os.path.join(folder, "no", "log")], good, 6),
        (["--agents", "2", "--log", "/dev/full"], good, 6),
    )  # fmt: skip
    for words, given, status in cases:
        done = played.done([os.path.join(played.TOP, "suites"), "serve", *words], given)
        tally.same(done.status, status, words, done.err)


def runs(tally: played.Tally) -> None:
    given, beside, decided = tally.given, 0, 0
    with tempfile.TemporaryDirectory(prefix="suites-") as folder:
        for seed in range(given.from_, given.from_ + given.runs):
            run = Run(seed, folder)
            beside += run.look(tally)
            decided += sum(not event["mark"] for event in run.events) // 2
        ends(tally, folder)
    # what never ran beside anything else would judge nothing
    tally.holds(beside > given.runs // 10 and decided > 10 * given.runs, f"{beside} runs in which jobs met")


if __name__ == "__main__":
    played.plays(__doc__, "facts of runs", runs, runs=200, from_=1, most=20, width=300)
