"""Scripts that make a tree: each thing by its owner in folders that are open meanwhile, and the lists last, from below.

So a long journal gets shorter: what its session has is looked at in a copy of it, and a script that makes just that
takes its place. What was dropped takes no place of a server any more.
"""
import os
import re
import shutil
import tempfile
from collections.abc import Iterator, Sequence
from typing import NamedTuple

from mount import beginning, rows, talking
from mount.lists import Lists
from mount.talking import Session, User

OPEN = {True: "777", False: "666"}
OPEN_LIST = "u::rwx,g::rwx,o::rwx"


class Thing(NamedTuple):
    """A file or a folder with all that it is to have; its votes are none where they are those of all."""

    path: str
    is_folder: bool
    owner: int
    group: int
    lists: Lists
    votes: str | None
    content: bytes


class Told(Exception):
    """What cannot be done, in a sentence."""


def job(thing: Thing, *operations: str) -> list[str]:
    """The lines of a transaction of whom something belongs to."""
    return [f"begin 0 {thing.owner} {thing.group} 0 {' ; '.join(operations)}", "run 0"]


def making(things: Sequence[Thing]) -> Iterator[str]:
    """The lines that make things: the root folder is the first, and each folder stands before what is in it."""
    root = things[0]
    yield from job(root, f"setacl / {OPEN_LIST}")
    for thing in things[1:]:
        votes = f" {thing.votes}" if thing.votes else ""
        made = f"{'folder' if thing.is_folder else 'file'} {thing.path} {OPEN[thing.is_folder]}{votes}"
        yield from job(thing, made, *([f"write {thing.path} {rows.hex_of(thing.content)}"] if thing.content else []))
    for thing in reversed(things):
        yield from job(thing, f"setacl {thing.path} {thing.lists.text()}")
    if root.votes:
        yield from job(root, f"setvotes / {root.votes}")


def looked_at(session: Session) -> list[Thing]:
    """All that a session has, parents first. Every folder is opened, so it is that of a copy that nobody uses."""
    things, left = [], ["/"]
    while left:
        path = left.pop()
        told = session.tell(f"row {path}", f"content {path}")
        row = rows.row_of(told[0])
        if row is None:
            raise Told(f"{path} is not told of")
        things.append(Thing(path, row.is_folder, row.owner, row.group, row.lists, row.votes,
                            rows.content_of(told[1]) or b""))
        if row.is_folder:
            user = User(row.owner, (row.group,))
            outcome, _ = session.job(user, f"setacl {path} {OPEN_LIST} ; list {path}")
            if outcome.kind != "answered":
                raise Told(f"{path}: {outcome.kind} {outcome.rest}")
            names = outcome.replies()[1].removeprefix("list ")
            left += [f"{path.rstrip('/')}/{name}" for name in reversed(names.split(",")) if name != "-"]
    return things


def shortened(command: Sequence[str], journal: str) -> int:
    """Puts a script that makes the same tree in place of a journal; answers how many things that has. `command` holds a
    session over a journal whose name stands behind it. The session of this journal has been closed.
    """
    with open(journal, encoding="utf-8", errors="replace") as file:
        lines = file.read().splitlines()
    front = [one for one in lines[:beginning.HEADER] if one.startswith("#")]
    lines = [one for one in lines if not one.startswith("#")]
    header, below = lines[: beginning.HEADER], lines[beginning.HEADER :]
    names = [one for one in below if re.match(r"\s*(user|group|old)\s", one)]
    servers = int(header[0].split()[1])
    with tempfile.TemporaryDirectory(prefix=".suites-", dir=os.path.dirname(journal)) as room:
        copy, short = os.path.join(room, "copy"), os.path.join(room, "short")
        shutil.copyfile(journal, copy)
        session = Session([*command, copy])
        try:
            agents = range(int(header[1].split()[1]))
            session.tell(*(f"return {server}" for server in range(servers)), *(f"run {agent}" for agent in agents))
            things = looked_at(session)
        finally:
            session.close()
        votes = header[2].split()[1]
        whole = [one._replace(votes=None if one.votes == votes else one.votes) for one in things]
        with open(short, "w", encoding="utf-8") as file:
            ending = [f"crash {one}" for one in sorted(beginning.servers_down(lines))]
            file.writelines(f"{line}\n" for line in [*front, *header, *names, *making(whole), *ending])
            file.flush()
            os.fsync(file.fileno())
        check(command, short, os.path.join(room, "check"), things)
        os.replace(short, journal)
    return len(things)


def check(command: Sequence[str], short: str, place: str, things: Sequence[Thing]) -> None:
    """Looks whether a script makes just these things."""
    shutil.copyfile(short, place)
    session = Session([*command, place])
    try:
        for thing in things:
            told = session.tell(f"row {thing.path}", f"content {thing.path}")
            row = rows.row_of(told[0])
            if row is None or (row.is_folder, row.owner, row.group, row.lists, row.votes) != thing[1:6]:
                raise Told(f"{thing.path} would not be what it is")
            if (rows.content_of(told[1]) or b"") != thing.content:
                raise Told(f"{thing.path} would have other bytes")
    except talking.Ended:
        raise Told("the shorter journal is refused") from None
    finally:
        session.close()
