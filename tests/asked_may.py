"""Asks `./suites may` in this process, by its words, and reads what it tells; and of a name, what Linux then does."""
import contextlib
import io
import os
import re
import subprocess
from typing import Iterable, Iterator, NamedTuple

import played  # noqa: F401

from may import command, mounts, people, scripts

from kernel_trees import DENIED, FULL, GRANTED, UNJUDGED, UNREAD, User, as_user, kept, letters, made, taken

SENTENCE = re.compile(r"(?:\S+|\"[^\"]*\") \(\d+; groups [\d, ]+\) may( not)? ")


class Told(NamedTuple):
    """The status of a command line, and its lines, those of both streams in their order."""

    status: int
    lines: list[str]


def forget() -> None:
    """Looks anew at what may have changed."""
    mounts.forget()
    scripts.way_to_program.cache_clear()


def may(words: Iterable[str]) -> Told:
    text = io.StringIO()
    with contextlib.redirect_stdout(text), contextlib.redirect_stderr(text):
        status = command.run(list(words))
    return Told(status, text.getvalue().splitlines())


def outcome(line: str) -> str:
    """What a last sentence says."""
    found = SENTENCE.match(line)
    if found:
        return DENIED if found[1] else GRANTED
    return UNJUDGED if "not judged here" in line or "is not known" in line else UNREAD


def sentences(user: User, verb: str, paths: list[str]) -> list[tuple[str, str]]:
    """Of each path what `may` says of a user, and the sentence."""
    told = may([*user.words(), verb, "--", *paths])
    last = [line for line in told.lines if SENTENCE.match(line) or line.startswith("suites: ")]
    assert len(last) == len(paths), (verb, paths, told)
    return [(outcome(line), line) for line in last]


def wanted(perms: int) -> str:
    return letters(perms).replace("-", "")


@contextlib.contextmanager
def accounts(users: list[User]) -> Iterator[None]:
    """These are all that have an account."""
    before = people.accounts
    people.accounts = lambda: [people.Caller(one.name, one.uid, one.gid, one.groups) for one in users]
    try:
        yield
    finally:
        people.accounts = before


def unquoted(shown: str) -> str:
    """The path that is shown."""
    if not shown.startswith('"'):
        return shown
    short = {"a": 7, "b": 8, "t": 9, "n": 10, "v": 11, "f": 12, "r": 13, '"': 34, "\\": 92}
    found = re.sub(
        rb'\\([0-7]{3}|.)',
        lambda one: bytes([int(one[1], 8) if one[1].isdigit() else short[one[1].decode()]]),
        os.fsencode(shown[1:-1]),
    )
    return os.fsdecode(found)


def named_in(lines: list[str]) -> set[str]:
    """Whom the first line of --who names."""
    return set(lines[0].rpartition("  ")[2].replace(",", " ").replace(";", " ").split())


def is_there(path: str) -> bool:
    return os.path.lexists(path.rstrip("/") or "/")


def deletes(user: User, path: str) -> tuple[str, str, str]:
    """What is told of taking a name away, and what Linux does; what was taken is put back."""
    name = path.rstrip("/")
    is_folder = os.path.isdir(name) and not os.path.islink(name) or path.endswith("/")
    told, line = sentences(user, "delete", [path])[0]
    put_back = kept(path)
    said = as_user(user, lambda: taken(path, is_folder))
    if not is_there(path):
        put_back()
    # a folder with names, and what something is mounted on, are told as such
    return told, DENIED if said == FULL else said, line


def creates(user: User, path: str) -> tuple[str, str, str]:
    """What is told of making a name, and what Linux does; what was made is taken away again."""
    was_there = is_there(path)
    told, line = sentences(user, "create", [path])[0]
    said = as_user(user, lambda: made(path))
    if said == GRANTED:
        subprocess.run(["chattr", "-a", os.path.dirname(path.rstrip("/"))], stderr=subprocess.DEVNULL)
        taken(path.rstrip("/"), path.endswith("/"))
    return told, DENIED if said == UNREAD and was_there else said, line
