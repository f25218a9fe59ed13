#!/usr/bin/env python3
"""tests/instructions.py [--write] [PROGRAM]

Looks whether a command became slower. Counts with valgrind the instructions that the program takes on some inputs,
built without proof (`bench/unproved.py`, in two minutes) or as PROGRAM; a count is the same whatever else the machine
does.
One that is above the count of docs/instructions.csv by more than a hundredth is an error, and one that is as much below
it is told. With --write the file is written anew.
"""
import csv
import os
import sys
import tempfile
import typing

import counting
import played

sys.path.append(os.path.join(os.path.dirname(os.path.abspath(__file__)), "..", "bench"))
import inputs
import left
import unproved

COUNTS = os.path.join(unproved.TOP, "docs", "instructions.csv")
# How far above its count an input may be.
MORE = 0.01


def commented() -> bytes:
    """A list with comments before each entry, and white space behind it."""
    items, comment = inputs.list_of_64(1).split(), b"# " + b"x" * 98 + b"\n"
    return b"".join(comment * 100 + item + b" " * 10_000 + b"\n" for item in items)


def users() -> bytes:
    """A list of many users, the last of whom is the first again."""
    return ",".join([inputs.SINGLES, *(f"u:{user}:r" for user in range(1, 30_000)), "u:1:r"]).encode()


def denials() -> bytes:
    """Jobs of a user who may not do what he asks."""
    jobs = "".join(f"begin 0 2000 100 0 write /f {number:032x}\nrun 0\n" for number in range(1_000))
    return (left.head(1, "700") + jobs).encode()


INPUTS: tuple[tuple[str, str, typing.Callable[[], bytes]], ...] = (
    ("users", "acl", users),
    ("comments", "acl", commented),
    ("operations", "table", lambda: inputs.operations(10_000)),
    ("events", "play", lambda: inputs.events(4_000)),
    ("denials", "play", denials),
    ("reads", "play", lambda: inputs.reads(4, 8, 500)),
    ("in-flight", "play", lambda: left.in_flight(50).encode()),
    ("relisted", "play", lambda: left.relisted(2_000).encode()),
    ("crashes", "play", lambda: left.crashes(2_000).encode()),
    ("records", "play", lambda: left.records(100).encode()),
)


def compares(tally: played.Tally) -> bool | None:
    """Counts, and holds the counts against those that are kept, or keeps them."""
    with tempfile.TemporaryDirectory() as folder:
        program = tally.given.program or os.path.join(folder, "suites")
        if not tally.given.program:
            unproved.build(program)
        counts = {name: counting.instructions([program, command], data()) for name, command, data in INPUTS}
    if tally.given.write:
        rows = "".join(f"{name},{command},{counts[name]}\n" for name, command, _ in INPUTS)
        played.put(COUNTS, f"input,command,instructions\n{rows}")
        return True
    with open(COUNTS, encoding="utf-8", newline="") as file:
        kept = {row["input"]: int(row["instructions"]) for row in csv.DictReader(file)}
    for name, count in counts.items():
        most = kept.pop(name, 0)
        about = f"{name}: {count}, where {most} are kept: {count / max(1, most) - 1:+.1%}"
        tally.holds(count <= most * (1 + MORE), about)
        if count < most * (1 - MORE):
            print(f"{about}; --write keeps it")
    tally.fails(*(f"{name}: it is kept, and there is no such input" for name in kept))
    return None


if __name__ == "__main__":
    played.plays(__doc__, "inputs", counting.is_skipped, compares, program=None, write=False)
