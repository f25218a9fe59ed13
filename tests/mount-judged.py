#!/usr/bin/env python3
"""tests/mount-judged.py [--runs N] [--calls N]

Has eight processes make calls at once on a folder of `./suites mount`: an owner who sets lists and writes, and seven
readers of two users, N calls each (250), in N runs (20), each on a mount of its own. In every other run a server is
down all the while, now this one, now that. `./suites judge` has to say of each that it is one table. Needs root and
/dev/fuse, else it is skipped. Status 1 where a run is no table's.
"""
import subprocess
import threading
import time

import mounted
import played

from common import built, tool

READERS, OWNER, PAUSE = 7, "1000:100:755", 0.2


class Crashes(threading.Thread):
    """Has one server after the other crash and return, until it is ended."""

    def __init__(self, mount: mounted.Mounted) -> None:
        super().__init__()
        self.mount, self.ended, self.count = mount, threading.Event(), 0
        self.start()

    def run(self) -> None:
        while not self.ended.wait(PAUSE):
            self.mount.control(f"crash {self.count % 3}")
            self.ended.wait(PAUSE)
            self.mount.control(f"return {self.count % 3}")
            self.count += 1


class Run:
    """What was recorded on a mount: the calls, how they were answered, the seconds, and what the judge says."""

    def __init__(self, seed: int, calls: int, crashes: bool) -> None:
        begun = time.monotonic()
        with mounted.Mounted("--root", OWNER) as mount:
            words = [mount.top, "--readers", str(READERS), "--calls", str(calls), "--seed", str(seed)]
            crashing = Crashes(mount) if crashes else None
            try:
                done = subprocess.run(tool("record", *words), stdout=subprocess.PIPE, check=True)
            finally:
                if crashing:
                    crashing.ended.set()
                    crashing.join()
        self.crashes = crashing.count if crashing else 0
        self.lines, self.seconds = done.stdout.decode().splitlines(), time.monotonic() - begun
        self.said = built.asked("judge", done.stdout)[1].strip()
        self.calls = sum(line.startswith("call ") for line in self.lines)
        told = [line.split()[2:4] for line in self.lines if line.startswith("ret ")]
        self.denied, self.let = told.count(["denied"]), told.count(["answered", "read"])
        self.silent = self.calls - len(told)

    def is_one_table(self) -> bool:
        return self.said.startswith("one table: ")

    def beside(self) -> int:
        """The most calls that ran at once."""
        most = now = 0
        for line in self.lines:
            now += {"call": 1, "ret": -1}.get(line.split()[0], 0)
            most = max(most, now)
        return most


def whole(tally: played.Tally) -> None:
    """The mount as it is."""
    runs, calls = tally.given.runs, tally.given.calls
    kept = [Run(seed, calls, seed % 2 == 0) for seed in range(1, runs + 1)]
    for seed, run in enumerate(kept, 1):
        tally.holds(run.is_one_table(), f"seed {seed}", run.said)
        is_load = run.denied > calls // 10 and run.let > calls // 10 and run.beside() > READERS // 2
        tally.holds(is_load, f"seed {seed} is no load", run.denied, run.let, run.beside())
    sums = [sum(getattr(run, name) for run in kept) for name in ("calls", "let", "denied", "silent", "crashes")]
    print(
        f"told: {sum(run.is_one_table() for run in kept)} of {runs} runs are one table: {sums[0]:,} calls, {sums[1]:,}"
        f" reads, {sums[2]:,} denials, {sums[3]} told nothing, {sums[4]} crashes, at most"
        f" {max(run.beside() for run in kept)} at once, {sum(run.seconds for run in kept):.0f} s",
        flush=True,
    )


if __name__ == "__main__":
    played.plays(__doc__, "verdicts and loads", mounted.skipped, whole, runs=20, calls=250)
