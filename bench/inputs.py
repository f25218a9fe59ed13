"""Inputs of measurements: a list of 64 entries, operations on a table, and events of `play`."""
import random

from scripting import equal_votes, header, job

SINGLES = "u::rw,g::r,m::rw,o::-"
LIST = "u::rw,u:1001:rw,u:1002:r,g::r,g:200:rw,m::rw,o::-"
CACHE = "65536 65536 64"
# How many files there are of operations and of events, at most.
IN_TABLE, IN_PLAY = 1024, 100


def list_of_64(seed: int) -> bytes:
    """A text of 64 entries, in any order."""
    choice = random.Random(seed)
    users = choice.sample(range(1, 2**32), 30)
    groups = choice.sample(range(1, 2**32), 30)
    items = [f"u:{user}:rwx" for user in users] + [f"g:{group}:r" for group in groups] + SINGLES.split(",")
    choice.shuffle(items)
    return "\n".join(items).encode() + b"\n"


def operation(number: int, files: int) -> str:
    """Files are made in the root folder, then written and read in turn, and listed after each thousand."""
    name = f"/file-{number * 7919 % files}"
    if number < files:
        return f"file /file-{number} {LIST}"
    if number % 1000 == 999:
        return "list /"
    return f"write {name} {number:032x}" if number % 2 == 0 else f"read {name}"


def operations(count: int) -> bytes:
    """A script of so many operations, one a line."""
    files = min(IN_TABLE, count // 4)
    callers = (1000 if number % 2 == 0 or number < files else 1001 for number in range(count))
    lines = [f"do {caller} 100,200 {operation(number, files)}\n" for number, caller in enumerate(callers)]
    return "".join(["root 1000 100 777\n", *lines]).encode()


def event(number: int) -> str:
    """Files are made in the root folder, then written and read in turn; each tenth transaction sets a list."""
    name = f"/file-{number * 7 % IN_PLAY}"
    if number < IN_PLAY:
        return f"file /file-{number} 666 ; write /file-{number} {number:08x}"
    if number % 10 == 9:
        return f"setacl {name} u::rw,u:1001:rw,g::r,m::rw,o::r"
    return f"write {name} {number:032x}" if number % 2 == 0 else f"read {name}"


def events(jobs: int) -> bytes:
    """So many jobs of two agents in turn, on three servers; each takes about ten steps."""
    return (header(cache=CACHE) + "".join(job(event(number), number % 2) for number in range(jobs))).encode()


def reads(servers: int, times: int, jobs: int) -> bytes:
    """A script of transactions that read a file so many times each."""
    above = header(servers, 1, equal_votes(servers), cache=CACHE) + job("file /a 644 ; write /a 6869")
    return (above + job(" ; ".join(["read /a"] * times)) * jobs).encode()
