#!/usr/bin/env python3
"""tests/damaged-copies.py [--cases N] [--seed SEED]

Changes two bytes of copies, in a million seeded cases (N another number), and looks whether what is read then is
refused, or is a copy that is written in just these bytes. The copies are written here, by the rules of their bytes
and not by ours: the worked one, files with many entries, folders with many names. Prints how many were read and
refused, and why; status 1 where one was neither. Builds a program for it (tests/scratch.py), which needs `rt`.
"""
import time
import typing

import played
import scratch


ABSENT, FILE, FOLDER = 0, 1, 2
USER_OBJ, USER, GROUP_OBJ, GROUP, MASK, OTHER = range(1, 7)


def number(value: int, size: int) -> bytes:
    return value.to_bytes(size, "big")


def entries(users: int, groups: int, mask: typing.Any) -> tuple[bytes, int]:
    """A list of so many users and groups, in the order of its bytes."""
    tags = [(USER_OBJ, 0, 6), *((USER, 1000 + 3 * user, user % 8) for user in range(users)), (GROUP_OBJ, 0, 4)]
    tags += [
        *((GROUP, 200 + 5 * group, group % 8) for group in range(groups)),
        *([(MASK, 0, 7)] if mask else []),
        (OTHER, 0, 4),
    ]
    return b"".join(bytes([tag]) + number(of, 4) + bytes([may]) for tag, of, may in tags), len(tags)


def copy(kind: typing.Any, versions: typing.Any, lists: typing.Any, votes: typing.Any, content: typing.Any) -> bytes:
    """The bytes of a copy: versions of prefix and content, its access list and default list (form 2; with the first
    alone
    form 1), votes by server."""
    pver, dver = versions
    owner, group = (0, 0) if kind == ABSENT else (1000, 100)
    parts = [bytes([len(lists)]), number(pver, 8), bytes([kind]), number(owner, 4), number(group, 4)]
    for written, count in lists:
        parts.append(bytes([count]) + written)
    servers, read, write = votes
    parts.append(bytes([len(servers)]) + b"".join(bytes(pair) for pair in servers))
    parts += [number(read, 2), number(write, 2), number(dver, 8)]
    if kind == FOLDER:
        names = sorted(content.items())
        parts.append(number(len(names), 2))
        parts += [bytes([len(name)]) + name + number(suite, 8) for name, suite in names]
    else:
        parts.append(number(len(content), 4) + content)
    return b"".join(parts)


def mode(digits: str) -> tuple[bytes, int]:
    written = b"".join(bytes([tag, 0, 0, 0, 0, int(digit)]) for tag, digit in zip((USER_OBJ, GROUP_OBJ, OTHER), digits))
    return written, 3


def names(count: int, length: int) -> dict[bytes, int]:
    return {b"%d" % place + b"n" * (place % length): 7 * place + 1 for place in range(count)}


def copies() -> list[bytes]:
    none, three = (b"", 0), ([(0, 1), (1, 1), (2, 1)], 2, 2)
    all_servers = [(server, 255 - server) for server in range(31, -1, -1)]
    total = sum(votes for _, votes in all_servers)
    old_servers = all_servers[16:]
    old_total = sum(votes for _, votes in old_servers)
    return [
        copy(FILE, (1, 1), [mode("644"), none], three, b"hi"),
        copy(ABSENT, (0, 0), [mode("000"), none], three, b""),
        copy(FILE, (9, 4), [entries(10, 7, True), none], ([(3, 2), (1, 0), (7, 1)], 2, 2), bytes(range(256))),
        copy(FILE, (2**64 - 1, 2**63), [entries(62, 62, True), none], (all_servers, total // 2, total // 2 + 2), b""),
        copy(FOLDER, (5, 3), [mode("755"), mode("750")], three, names(12, 9)),
        copy(FOLDER, (5, 3), [entries(2, 1, True), entries(4, 4, True)], ([(5, 9)], 1, 9), names(40, 20)),
        copy(
            FOLDER, (300, 200), [entries(62, 62, True), entries(62, 62, True)], (all_servers, 1, total), names(30, 60)
        ),
        copy(FOLDER, (2, 0), [mode("700"), entries(0, 0, True)], three, {}),
        copy(FILE, (1, 1), [mode("644")], three, b"hi"),
        copy(FOLDER, (300, 200), [entries(30, 30, True)], (old_servers, 1, old_total), names(30, 60)),
    ]


def damages(tally: played.Tally) -> None:
    given, all_copies, begun = tally.given, copies(), time.monotonic()
    program = scratch.built("damaged_copies", ["byte_streams", "suite_prefix"])
    done = played.done([program], "\n".join([f"{given.seed} {given.cases}", *(one.hex() for one in all_copies), ""]))
    lengths = ", ".join(str(len(one)) for one in all_copies)
    print(f"{len(all_copies)} copies of {lengths} bytes, seed {given.seed}; {time.monotonic() - begun:.1f} s", done.out)
    tally.count = given.cases
    tally.fails(done.status != 0 and f"status {done.status}: {done.err}")


if __name__ == "__main__":
    played.plays(__doc__, "cases", damages, cases=1_000_000, seed=1)
