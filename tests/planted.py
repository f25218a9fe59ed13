#!/usr/bin/env python3
"""tests/planted.py [ERROR..] [--calls N]

Whether `./suites judge` finds errors that are planted into agents and servers: each of four into a copy of the sources,
which is built unproved (`rt`), with its checks at run time. Scripts of `serve` are carried out by it in threads, as
many as are certified: certifying plays a run by the same wrong code, and so finds nothing. What its callers saw
(`./suites serve --log`) is judged, in runs of 5,000 calls, until a history is no table's, or N calls (100,000) were
made. The same is done with the sources as they are, whose histories are all one table's. Prints after how many calls
each error was found; status 1 where one was not, or where the program as it is was told to be wrong.

any-version   a cache gives the content that it has, of whatever version
few-to-write  a write collects a vote less than w
few-to-read   a read collects a vote less than r
aborted       what was prepared is put in place where a transaction was aborted, too
"""
import os
import random
import sys
import tempfile
import typing

import played
import scratch

from common import built, crates, text_of

PROGRAM, AGENTS, RUN = "suites", 4, 5_000


class Planted(typing.NamedTuple):
    """An error: a text of a source, and what stands in its place."""

    file: str
    old: str
    new: str


ERRORS = {
    "any-version": Planted(
        "crates/weak_cache/src/entry.rt",
        "pub(crate) fn is_at_version(&self, dver: u64) -> bool\n        ensures { result ≡ (self.now.dver == dver) }\n"
        "    {\n        self.dver == dver\n",
        "pub(crate) fn is_at_version(&self, dver: u64) -> bool\n        ensures { result ≡ (self.now.dver == dver) }\n"
        "    {\n        self.dver == dver || self.dver > 0\n",
    ),
    "few-to-write": Planted("crates/suite_collect/src/due.rt", "u32::from(votes.w())", "u32::from(votes.w() - 1)"),
    "few-to-read": Planted("crates/suite_collect/src/due.rt", "u32::from(votes.r())", "u32::from(votes.r() - 1)"),
    "aborted": Planted(
        "crates/rep_core/src/server.rt", "self.store.finish(t, answered)", "self.store.finish(t, true)"
    ),
}


def program_with(planted: Planted, folder: str) -> str:
    """The path of the program, built in a folder of sources into which an error is planted."""
    own = os.path.join(played.TOP, "crates", PROGRAM, "src")
    sources = {os.path.splitext(name)[0]: os.path.join(own, name) for name in os.listdir(own)}
    scratch.placed(folder, PROGRAM, crates.listed()[PROGRAM], sources)
    path, target = os.path.join(folder, planted.file), os.path.join(folder, PROGRAM)
    text = text_of(path)
    if text.count(planted.old) != 1:
        sys.exit(f"{planted.file} has not once: {planted.old}")
    played.put(path, text.replace(planted.old, planted.new))
    scratch.build(folder, PROGRAM, target)
    return target


def script(seed: int, sweeps: float) -> str:
    """A script of jobs of an owner who writes and sets lists, a file or two at once, and of a reader, on four files."""
    chosen = random.Random(seed)
    files = [f"/f{number}" for number in range(4)]
    lines = ["servers 3", "votes 1,1,1/2/2", "root 1000 100 755", "cache 100000 100000 100"]
    lines += [f"do 1000 100 0 file {file} u::rw,u:2000:r,g::-,m::rwx,o::- ; write {file} 0000" for file in files]
    lines.append("together")
    for number in range(RUN):
        one, other = chosen.sample(files, 2)
        drawn, value = chosen.random(), f"{number % 65_536:04x}"
        if chosen.random() < sweeps:
            lines.append(f"sweep {chosen.randrange(3)}")
        elif drawn < 0.25:
            lines.append(f"do 1000 100 0 write {one} {value}")
        elif drawn < 0.35:
            lines.append(f"do 1000 100 0 setacl {one} u::rw,u:2000:{chosen.choice('r-')},g::-,m::rwx,o::-")
        elif drawn < 0.45:
            lines.append(f"do 1000 100 0 write {one} {value} ; write {other} {value}")
        elif drawn < 0.6:
            lines.append(f"do 2000 300 0 read {one} ; read {other}")
        else:
            lines.append(f"do 2000 300 0 read {one}")
    return "\n".join([*lines, ""])


def judged(program: str, seed: int, sweeps: float, folder: str) -> tuple[str, str]:
    """What the program prints last of a script, and what the judge says of what its callers saw."""
    log = os.path.join(folder, "history")
    words = [program, "serve", "--agents", str(AGENTS), "--log", log]
    done = played.done(words, script(seed, sweeps))
    said = built.asked("judge", played.got(log))[1]
    return (done.out.splitlines() or [f"status {done.status}"])[-1], said.strip()


def found(program: str, calls: int, sweeps: float, folder: str) -> str:
    """After how many calls the judge says no, and of what; nothing, where it does not."""
    for run in range(calls // RUN):
        last, said = judged(program, run, sweeps, folder)
        if not last.startswith("certified"):
            return f"within {(run + 1) * RUN:,} calls: {last}"
        if not said.startswith("one table: "):
            return f"within {(run + 1) * RUN:,} calls, all of them certified: {said}"
    return ""


def all_errors(tally: played.Tally) -> None:
    calls = tally.given.calls
    with tempfile.TemporaryDirectory(prefix="suites-") as folder:
        said = found(built.program(), calls, 0.02, folder)
        tally.holds(not said, f"as it is: {said}")
    for error in tally.given.errors or ERRORS:
        with tempfile.TemporaryDirectory(prefix="suites-") as folder:
            said = found(program_with(ERRORS[error], folder), calls, 0.02 if error == "aborted" else 0, folder)
            print(f"{error}: {said or 'not found'}", flush=True)
            tally.holds(said, f"{error}: not found")


if __name__ == "__main__":
    played.plays(__doc__, "programs", all_errors, errors=[], calls=100_000)
