"""What a session tells of its servers: `copies PATH`, `locks` and `room`; and of a path while a transaction ends.

Values are worked out by hand from the rules (tests/sessions.txt): a transaction writes at the first servers, in listed
order, that are a quorum; what a server missed it is behind in; a prepared lock outlives a crash, and is in doubt while
the home of its transaction is down; what is dropped keeps its place. Of the stories of `play` what is told is also what
the end of their trace says, which another program prints.
"""
import os
import re
import subprocess
from collections.abc import Iterable

import played
from played import Tally
from spoken import HEADER, ran, text_of

from common import read_rows

# Rows of sessions, in the form of crates/rows/stdin, whose program plays none.
ROWS, FEWEST = os.path.join(played.TOP, "tests", "sessions.txt"), 20
DAMAGED = "Lines with other words than they may have are told, and have done nothing"
SERVER, COPY, LOCK = (
    re.compile(form) for form in (
        r"= server (\d+) (up|down)$", r"    (?:\S+=)?suite (\d+) \w+ prefix (\d+) content (\d+) votes ",
        r"    t (\d+) (?:\S+=)?suite (\d+) (exclusive|shared)( prepared)?$",
    )
)


def of_copies(path: bytes, suite: int, *rests: bytes) -> list[bytes]:
    return [b"copies %s suite %d server %d %s" % (path, suite, server, rest) for server, rest in enumerate(rests)]


def of_room(*pairs: tuple[int, int]) -> list[bytes]:
    return [b"room server %d taken %d of 4096 unnamed %d" % (server, *pair) for server, pair in enumerate(pairs)]


def by_hand(path: str, tally: Tally) -> None:
    """Rows of sessions: what was worked out by hand."""
    rows = [*read_rows.read_rows(ROWS)]
    for row in rows:
        told = ran(path, [word.decode() for word in row["words"][1:]], row["input"])
        tally.holds(told == (row["status"], row["output"]), f"{ROWS}, line {row['line']}", told)
    tally.holds(len(rows) >= FEWEST, "rows of sessions", len(rows))
    damaged = next(row["input"] for row in rows if row["title"] == DAMAGED).splitlines()[len(HEADER) :]
    alone(path, damaged[: damaged.index(b"room")], tally)


def alone(path: str, damaged: list[bytes], tally: Tally) -> None:
    """Each damaged line in a session of its own is told as a misspelled word is, and has done nothing."""
    wanted = text_of((b"fault line 6: S1", *of_room((1, 0), (1, 0), (1, 0))))
    for line in damaged:
        told = ran(path, [], text_of((*HEADER, line, b"room")))
        tally.holds(told == (3, wanted), "damaged", line, told)
    tally.holds(len(damaged) >= 16, "damaged lines", len(damaged))


def by_trace(path: str, tally: Tally) -> None:
    """The stories of `play`: of their end the trace tells the same, of servers, copies and locks."""
    seen = 0
    for name, script in played.stories().items():
        words = [os.path.join(played.TOP, "suites"), "trace"]
        done = subprocess.run(words, input=script, stdout=subprocess.PIPE, text=True, check=False)
        lines = done.stdout.splitlines()
        if done.returncode != 0 or not any(SERVER.match(line) for line in lines):
            continue
        found = sorted(set(re.findall(r"/[\w./-]*", re.sub(r"(?m)^(?:votes|#).*$", "", script))))
        asked = [b"locks", b"room", *(b"copies " + one.encode() for one in found)]
        told = ran(path, [], text_of((*script.encode().splitlines(), *asked)))[1].decode().splitlines()
        seen += same_as_trace(told, lines, tally, name)
    tally.holds(seen > 100, "lines of stories", seen)


def same_as_trace(told: Iterable[str], lines: Iterable[str], tally: Tally, name: str) -> int:
    """Whether what was told of the servers is what a trace ends with; how many lines of them there were."""
    ups: dict[str, str] = {}
    copies: dict[str, dict[str, tuple[int, int]]] = {}
    locks: list[tuple[str, ...]] = []
    for line in lines:
        if server := SERVER.match(line):
            here, ups[server[1]] = server[1], server[2]
        elif ups and (copy := COPY.match(line)):
            copies.setdefault(copy[1], {})[here] = int(copy[2]), int(copy[3])
        elif ups and (lock := LOCK.match(line)):
            locks.append((here, lock[1], lock[2], lock[3], (lock[4] or "").strip()))
    count = 0
    given = [line.split(" ") for line in told]
    for words in given:
        if words[0] == "copies" and words[2] == "suite":
            most = [max(version) for version in zip(*copies[words[3]].values())]
            has = copies[words[3]].get(words[5])
            behind = [what for what, own, top in zip(("prefix", "content"), has or (0, 0), most) if has and own < top]
            is_prepared = any((words[5], words[3], "prepared") == (one[0], one[2], one[4]) for one in locks)
            wanted = [
                ups[words[5]], *(["prefix", str(has[0]), "content", str(has[1])] if has else ["nothing"]),
                *(["behind", *behind] if behind else []), *(["prepared"] if is_prepared else []),
            ]
            tally.holds(words[6:] == wanted, os.path.basename(name), words, wanted)
            count += 1
        elif words[0] == "room":
            taken = sum(words[2] in one for one in copies.values())
            tally.holds(words[4] == str(taken), os.path.basename(name), words, taken)
    own = [words for words in given if words[0] == "locks" and words[3] != "nothing"]
    stands = [(one[2], one[4], one[6], one[7], "prepared" if one[8:] else "") for one in own]
    tally.holds(stands == locks, os.path.basename(name), own, locks)
    doubts = [one for one in own if one[8:] == ["in", "doubt"]]
    for one in own:
        t = int(one[4])
        home = str((t % 64 + t // 64) % len(ups))
        tally.holds((one in doubts) == (bool(one[8:]) and ups[home] == "down"), os.path.basename(name), one, home)
    return count + len(own)


def stands(path: str, tally: Tally) -> None:
    by_hand(path, tally)
    by_trace(path, tally)
