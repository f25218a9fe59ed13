#!/usr/bin/env python3
"""tests/damaged-runs.py [PROGRAM]

Runs every file of examples/ as it is played by its row, and the rows of transactions and sweeps, but damaged. Status 1
where an answer differs.

cut:    the input without the lines that say nothing, cut at each byte: status 3 and just the fault that the rules of
        docs/FAULTS.md give this cut (tests/reading.py), or, where they give none, status 0 and what the row's output
        says of the lines that are left whole. Of a line that was cut is known how many lines it prints, and of a list
        the permissions. failed: each read of standard input and each write of standard output fails in turn (`cc`),
        also with a long script that is read and written in pieces: status 6, nothing printed after a read that failed,
        and before a write that failed a beginning of the row's output, the longer the more writes went well, and
        nothing before the first.
"""
import collections
import os
import tempfile
import time
from concurrent.futures import ThreadPoolExecutor

import played
import reading

# Looks at each so many-th byte alone, where the variable says so.
EVERY = int(os.environ.get("EVERY", "1"))


def long_row() -> played.Row:
    """A script whose reads and writes are several, and its output."""
    digits = b"0123456789abcdef" * 1250
    script = b"root 1000 100 777\ndo 1 1 file /a 666\ndo 1 1 write /a " + digits + b"\n" + b"do 1 1 read /a\n" * 10
    lines = [
        b"0 answered made 1",
        b"1 answered wrote",
        *(b"%d answered read " % number + digits for number in range(2, 12)),
    ]
    return {"title": "a long script", "words": [b"table"], "input": script, "output": b"\n".join(lines) + b"\n"}


def ran(program: str, row: played.Row, given: bytes, environment: dict[str, str] | None = None) -> played.Done:
    return played.done([program, *row["words"]], given, env=environment)


def steps_of(output: str) -> dict[tuple[str, ...], int]:
    """How many steps each job of a run of `play` took, by its agent and number."""
    words = [line.split() for line in output.splitlines()]
    return {tuple(word[0].split(".")): int(word[1]) for word in words if "." in word[0]}


def count_played(lines: list[str], output: str) -> int:
    """How many lines of its output some lines of a script of `play` print."""
    steps, begun, printed = steps_of(output), collections.Counter[str](), output.splitlines()
    left: dict[str, float] = {}
    count = 0
    for words in (line.split() for line in lines):
        if words[0] in ("begin", "sweep") and not left.get(words[1]):
            left[words[1]] = steps.get((words[1], str(begun[words[1]])), float("inf"))
            begun[words[1]] += 1
        elif words[0] in ("run", "step") and left.get(words[1]):
            left[words[1]] -= min(
                left[words[1]], int(words[2]) if len(words) > 2 else 1 if words[0] == "step" else left[words[1]]
            )
            count += left[words[1]] == 0
        elif words[0] == "audit":
            count += 1 + (int(printed[count].split()[2]) if count < len(printed) else 0)
    return count


def is_output(row: played.Row, given: str, output: str) -> bool:
    """Whether an input without a fault, which is the front of a row's, may have this output."""
    whole = row["output"].decode()
    command, known, told = row["words"][0], whole.splitlines(True), output.splitlines(True)
    lines = given.splitlines()
    if command == b"acl":
        perms = lines[-1].split(":")[-1]
        return told == [*known[:-1], f"other::{''.join(mark if mark in perms else '-' for mark in 'rwx')}\n"]
    if command == b"play":
        return told == known[: count_played(lines, whole)]
    jobs = [line for line in lines if line.split()[0] in ("do", "sweep")]
    left = len(jobs) - (not given.endswith("\n") and lines[-1:] == jobs[-1:])
    places = [line.split()[0] for line in told[: len(jobs)]]
    right = told[:left] == known[:left] and places == [str(place) for place in range(len(jobs))]
    if command == b"table":
        return right and len(told) == len(jobs)
    steps = sum(int(line.split()[1]) for line in told[: len(jobs)])
    return right and told[len(jobs) :] == [f"certified {steps} steps\n"]


def cut_at(program: str, row: played.Row, given: bytes, end: int) -> tuple[int, bool, int]:
    """What is wrong where the input ends there, and the status."""
    told, front = ran(program, row, given[:end]), given[:end].decode()
    fault = reading.fault([word.decode() for word in row["words"]], front)
    right = told[:2] == (3, f"fault {fault}\n") if fault else told.status == 0 and is_output(row, front, told.out)
    return told.status, right and not told.err, end


def cut(tally: played.Tally) -> None:
    rows, statuses, begun = inputs(), collections.Counter[int](), time.monotonic()
    with ThreadPoolExecutor(len(os.sched_getaffinity(0))) as pool:
        for row in rows:
            given = played.said(row["input"])
            ends = range(0, len(given) + 1, EVERY)
            for status, right, end in pool.map(lambda end: cut_at(tally.program, row, given, end), ends):
                statuses[status] += 1
                tally.holds(right, row["title"], f"cut at {end}: status {status}")
    told = ", ".join(f"{count} times status {status}" for status, count in sorted(statuses.items()))
    print(f"cut: {len(rows)} inputs at each {EVERY}th byte: {told}; {time.monotonic() - begun:.1f} s")


def failing(tally: played.Tally, row: played.Row, library: played.Library, name: str) -> int:
    """How many calls of a stream there are, each of which failed once."""
    calls, before, whole = 0, -1, row["output"].decode()
    while True:
        told = ran(tally.program, row, row["input"], library.env(**{name: calls + 1}))
        if not library.was_met():
            tally.holds(calls, row["title"], f"no call of {name}")
            return calls
        calls += 1
        is_longer = before < len(told.out) < len(whole) and (calls > 1 or not told.out)
        begins, before = whole.startswith(told.out) and is_longer, len(told.out)
        is_so = (told.status, told.err) == (6, "") and (begins if name == "WRITE" else told.out == "")
        tally.holds(is_so, row["title"], f"{name} {calls}: status {told.status}")


def failed(tally: played.Tally) -> None:
    rows, calls = [*inputs(), long_row()], collections.Counter[str]()
    with tempfile.TemporaryDirectory() as folder:
        library = played.Library("fail", folder)
        for row in rows if library.is_made else ():
            for name in ("READ", "WRITE"):
                calls[name] += failing(tally, row, library, name)
    print(f"failed: {len(rows)} inputs: {calls['READ']} reads and {calls['WRITE']} writes, each in turn")


def inputs() -> list[played.Row]:
    return played.examples() + [row for row in played.rows() if row["title"] == "Transactions and sweeps"]


if __name__ == "__main__":
    played.plays(__doc__, "inputs", failed, cut, program=None, most=20)
