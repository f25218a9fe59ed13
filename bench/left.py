#!/usr/bin/env python3
"""bench/left.py [PROGRAM [OTHER]]

Inputs of `play` that are made to be slow, each in three sizes of which one is double the one before: much that was left
behind.

    left       an agent prepares and decides a `list /` at a server that then crashes, so that its lock stays; N times
    swept      the same, and at the end one sweep of them all
    relisted   an agent leaves N locks over nine files and folders; one of lower number then ends N/16 transactions of
               65 locks
    in-flight  64 agents, each with 65 locks; the oldest ends and begins anew, N times; nothing crashes
    verdicts   N verdicts are put in front of N others
    crashes    N times a crash with one lock that is not prepared, behind N prepared ones
    among      N times a lock is set in front of N that were left
    records    N transactions in a folder of 1,000 names make a file, list, drop the file and list: what verdicts keep
    others     the same, and each file has another name

Prints the processor seconds (the least of three runs) and the growth, and the same of OTHER, a program of the same
service, where that is named, and the ratio to it. Where time is linear the growth is 2. Of the last two it prints the
peak of memory (MiB) too: it is an error where that is above 1.5 times the one of OTHER.
"""
import sys

import measure
import scripting
from scripting import DEEP, READ_ALL

LIST = "begin {0} 1 1 0 list /\n"
# A transaction that is prepared and decided at a server that then crashes: its lock stays.
LEFT = LIST + "step {0} 4\ncrash 0\nrun {0}\nreturn 0\n"
READ_TOPS = " ; ".join(f"getacl {path[:3]}" for path in DEEP)
# How many steps until the transaction that reads all is prepared, and the one that reads the tops is decided.
HOLDS_ALL, DECIDED = 80, 12


def head(agents: int, mode: str = "777") -> str:
    return scripting.header(1, agents, "1/1/1", f"1 1 {mode}")


def job(agent: int, words: str) -> str:
    return scripting.job(words, agent, "1 1")


def left(count: int) -> str:
    return head(1) + LEFT.format(0) * count


def swept(count: int) -> str:
    return left(count) + "sweep 0 0\nrun 0\n"


def relisted(count: int) -> str:
    rounds = count // 16
    leaves = f"begin 1 1 1 0 {READ_TOPS}\nstep 1 {DECIDED}\ncrash 0\nrun 1\nreturn 0\n"
    # agent 1 numbers its transactions above those of agent 0 that follow
    return (
        head(2)
        + scripting.deep_folders("1 1")
        + job(1, "read x") * (rounds + 99)
        + leaves * (count // 9)
        + job(0, READ_ALL) * rounds
    )


def in_flight(count: int) -> str:
    begins = [f"begin {agent} 1 1 0 {READ_ALL}\nstep {agent} {HOLDS_ALL}\n" for agent in range(64)]
    later = "".join(job(agent, "read x") * 64 for agent in range(1, 64))
    return (
        head(64)
        + scripting.deep_folders("1 1")
        + later
        + "".join(begins)
        + "".join(f"run {turn % 64}\n{begins[turn % 64]}" for turn in range(count))
    )


def verdicts(count: int) -> str:
    recorded = LIST.format(1) + "step 1 3\ncrash 0\nrun 1\nreturn 0\n"
    return head(2) + recorded * count + job(1, "read x") * count + "sweep 0 0\nrun 0\n"


def crashes(count: int) -> str:
    return head(2) + LEFT.format(1) * count + (LIST.format(1) + "step 1 1\ncrash 0\nrun 1\nreturn 0\n") * count


def among(count: int) -> str:
    return head(2) + LEFT.format(1) * count + (LIST.format(0) + "run 0\n") * count


def thousand() -> str:
    """Makes a thousand files."""
    return head(1) + "".join(
        job(0, " ; ".join(f"file /{'n' * 20}{number} 666" for number in range(first, first + 8)))
        for first in range(0, 1_000, 8)
    )


def records(count: int) -> str:
    return thousand() + job(0, "file /a 666 ; list / ; drop /a ; list /") * count


def others(count: int) -> str:
    return thousand() + "".join(
        job(0, f"file /a{number} 666 ; list / ; drop /a{number} ; list /") for number in range(count)
    )


MANY = (16_000, 32_000, 64_000)
KEPT = (400, 800, 1_600)
# How many times the memory of the other program may be taken.
MEMORY = 1.5
INPUTS = (
    ("left", left, MANY),
    ("swept", swept, MANY),
    ("relisted", relisted, (4_000, 8_000, 16_000)),
    ("in-flight", in_flight, (500, 1_000, 2_000)),
    ("verdicts", verdicts, MANY),
    ("crashes", crashes, MANY),
    ("among", among, MANY),
    ("records", records, KEPT),
    ("others", others, KEPT),
)


def runs_of(programs: list[str], data: bytes) -> list[measure.Ran]:
    """The run of each program that took the least seconds of a processor."""
    runs = [measure.least("work", [program, "play"], data, 3) for program in programs]
    for program, ran in zip(programs, runs):
        if ran.status != 0:
            sys.exit(f"{program}: status {ran.status}, {ran.output[:200]!r}")
    return runs


def tables(programs: list[str]) -> list[str]:
    """The tables of seconds, and at last that of peaks; which of these are too high."""
    beside = f"{'other':>10}{'ratio':>8}" if programs[1:] else ""
    peaks, above = [f"{'':>20}{'MiB':>10}{beside}"], []
    for title, made, counts in INPUTS:
        print(f"{title:>20}{'seconds':>10}{'growth':>8}{beside}")
        before = 0.0
        for count in counts:
            own, *others_of = runs_of(programs, made(count).encode())
            line = f"{count:>20}{own.work:>10.3f}" + (f"{own.work / before:>8.2f}" if before else f"{'':8}")
            peak = f"{title + ' ' + str(count):>20}{own.peak:>10.1f}"
            for other in others_of:
                line += f"{other.work:>10.3f}{own.work / other.work:>8.2f}"
                line += "" if other.output == own.output else " OTHER OUTPUT"
                peak += f"{other.peak:>10.1f}{own.peak / other.peak:>8.2f}"
                if counts is KEPT and own.peak > MEMORY * other.peak:
                    above.append(f"{title}, {count}: {own.peak / other.peak:.2f}")
            print(line, flush=True)
            peaks += [peak] if counts is KEPT else []
            before = own.work
    print(*peaks, sep="\n")
    return above


def main() -> None:
    program, other = measure.two_programs(__doc__)
    measure.head("Much that was left behind")
    above = tables([program, *([other] if other else [])])
    if above:
        sys.exit(f"memory above {MEMORY} times the other's: " + "; ".join(above))


if __name__ == "__main__":
    main()
