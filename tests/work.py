#!/usr/bin/env python3
"""tests/work.py [PROGRAM]

Looks whether work is done anew whose outcome is known already: the answers would be the same, so no contract says that
it is not. Counts with valgrind the instructions of a job in two scripts of `play`, which are the same numbers whatever
else the machine does, and holds the first against some times the second. Prints what both took, and each pair that
differs from what is wanted; status 1 where one does.
"""
import counting
import played
import scripting
from scripting import DEEP, READ_ALL, Make, repeated


def head(servers: int, agents: int, votes: str) -> str:
    return scripting.header(servers, agents, votes, "1 1 777")


def job(words: str, agent: int = 0) -> str:
    return scripting.job(words, agent, "1 1")


ALONE = head(1, 1, "1/1/1")
FOLDERS = ALONE + scripting.deep_folders("1 1")
# One transaction goes down all folders; or eight do.
AT_ONCE = repeated(job(READ_ALL), FOLDERS)
ONE_BY_ONE = repeated("".join(job(f"getacl {path}") for path in DEEP), FOLDERS)


def folder_of(names: int) -> Make:
    """A file is looked at in a folder of so many names."""
    made = (f"file /d/{place:04}{'n' * 40} 666" for place in range(names))
    return repeated(job("getvotes /d/f"), ALONE + "".join(map(job, ("folder /d 777", *made, "file /d/f 666"))))


def list_of(users: int) -> Make:
    """A file is looked at whose list names so many users."""
    named = ",".join(f"u:{1000 + place}:rw" for place in range(users))
    return repeated(job("getvotes /f"), ALONE + job(f"file /f u::rw,{named},g::r,m::rw,o::r"))


def lists_left(count: int) -> Make:
    """A folder is listed at a server at which so many locks of others were left."""
    left = "begin 1 1 1 0 list /\nstep 1 4\ncrash 0\nrun 1\nreturn 0\n"
    return repeated(job("list /", 1), head(1, 2, "1/1/1") + left * count)


def all_down(others: str) -> Make:
    """A file is read of eight servers with a vote each, which are down; 24 others have no vote, or are none of its."""
    votes = ",".join(["1"] * 8 + [others] * 24) + "/4/5"
    crashes = "".join(f"crash {server}\n" for server in range(8))
    return repeated(job("read /f"), head(32, 1, votes) + job("file /f 666") + crashes)


# What is compared, how many jobs are counted of each, and how many times the second the first may take.
PAIRS: tuple[tuple[str, Make, Make, int, float], ...] = (
    ("what was reached is kept: a walk of 64 folders, at once or by eight transactions", AT_ONCE, ONE_BY_ONE, 10, 2),
    ("a content is read once: in a folder of 160 names, of 8", folder_of(160), folder_of(8), 40, 1.5),
    ("a prefix is read once: of a list of 120 users, of 2", list_of(120), list_of(2), 40, 1.2),
    ("who holds is looked up: beside 1,600 locks, 3", lists_left(1600), lists_left(3), 40, 1.6),
    ("votes are counted once a reply: with 24 servers that have none, without", all_down("0"), all_down("-"), 40, 1.12),
)


def of_a_job(program: str, script: Make, jobs: int) -> float:
    more, less = (counting.instructions([program, "play"], script(count), True) for count in (jobs, 0))
    return (more - less) / jobs


def is_skipped(tally: played.Tally) -> bool:
    """Whether nothing can be counted here, or the kit makes no program but runs it itself; says so."""
    is_compiled = played.got(tally.program)[:4] == b"\x7fELF"
    if not is_compiled:
        print("skipped: the kit runs the program itself")
    return not is_compiled or counting.is_skipped()


def pairs(tally: played.Tally) -> None:
    for title, more, less, jobs, bound in PAIRS:
        first, second = of_a_job(tally.program, more, jobs), of_a_job(tally.program, less, jobs)
        print(f"{title}: {first:.0f} and {second:.0f} instructions a job, {first / second:.2f} times")
        tally.holds(first <= bound * second, f"  which is above {bound} times")


if __name__ == "__main__":
    played.plays(__doc__, "pairs", is_skipped, pairs, program=None)
