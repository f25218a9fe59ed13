"""Votes as a word, and why a word is none, in the words of the command `forms`."""
import collections
import re

from explain.misfits import Why

MOST_SERVERS, MOST_VOTES, MOST_COLLECTED = 32, 255, 65535

# The votes of each server from 0 on, none of one that is not listed, and how many a read and a write collect.
Votes = collections.namedtuple("Votes", "shares r w")


class Fault(Exception):
    """What is asked has a fault, of this code; and why."""

    def __init__(self, code: str, reason: str, *data: int, part: str = "") -> None:
        super().__init__(code)
        self.why = Why(reason, [str(number) for number in data], part)


def number(word: str, most: int, reason: str) -> int:
    """The number that a word writes down."""
    digits = word.lstrip("0") or "0"
    if not re.fullmatch("[0-9]+", word):
        raise Fault("S1", reason, part=word)
    if len(digits) > len(str(most)) or int(digits) > most:
        raise Fault("S1", "above", most, part=word)
    return int(digits)


def votes_of(word: str, servers: int | None) -> Votes:
    """The votes that a word writes down for so many servers, or for as many as it has fields."""
    parts = word.split("/")
    fields = parts[0].split(",")
    if len(parts) != 3 or not parts[0]:
        raise Fault("S1", "no-votes")
    listed = [None if field == "-" else number(field, MOST_VOTES, "no-share") for field in fields[:MOST_SERVERS]]
    if len(fields) > MOST_SERVERS:
        raise Fault("S1", "many", len(fields), MOST_SERVERS)
    r, w = (number(part, MOST_COLLECTED, "no-collected") for part in parts[1:])
    total = sum(share or 0 for share in listed)
    last = max((server for server, share in enumerate(listed) if share is not None), default=-1)
    collects, count = ("write-collects", w) if 0 < r <= total else ("read-collects", r)
    faults: tuple[tuple[str, bool, str, list[int]], ...] = (
        ("V1", last < 0, "no-server", []),
        ("V2", servers is not None and last >= servers, "beyond-last", [last, (servers or 0) - 1]),
        ("V4", total == 0, "all-zero", []),
        ("V5", not (0 < r <= total and 0 < w <= total), collects, [count, total]),
        ("V6", r + w <= total, "read-misses-write", [r + w, total]),
        ("V7", 2 * w <= total, "writes-disjoint", [2 * w, total]),
    )
    for code, is_so, reason, data in faults:
        if is_so:
            raise Fault(code, reason, *data)
    shares = [share or 0 for share in listed][:servers]
    return Votes(shares + [0] * ((servers or 0) - len(shares)), r, w)
