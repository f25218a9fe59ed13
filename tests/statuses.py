#!/usr/bin/env python3
"""tests/statuses.py

Looks with which status the commands `trace` and `forms` end (0 done, 2 other words, 3 a fault, 6 an input above 16 MiB
or a write that fails) and how what they print begins; so do others for 16 MiB and a byte more; and `judge` for a
history of 128 MiB, of a byte more, and for one without an end. Prints each end that is another; status 1 where one is.
(tests/checked-build.py, tests/may.py, tests/explored.py, tests/judged.py and tests/session.py look at the others.)
"""
import os
import subprocess

import played
from scripting import header, job

RUN = (header(1, 1, "1/1/1", "1 1 777") + job("list /", who="1 1")).encode()
LONG = b"#" * (16 * 1024 * 1024 + 1)
WHOLE = LONG[1:]
MOST, HEAD = 128 * 1024 * 1024, b"root 1 1 755\n#"
# A command, its words, its input, its status, and what its output begins with.
ENDS: tuple[tuple[str, str, bytes, int, str], ...] = (
    ("trace", "", RUN, 0, "> begin 0"),
    ("trace", "--json", RUN, 0, '{"event":0'),
    ("trace", "x", RUN, 2, "fault command line\n"),
    ("trace", "", RUN + b"no\n", 3, "fault line 8: S1\n"),
    ("trace", "", LONG, 6, ""),
    ("forms", "", b"", 0, "place\t"),
    ("forms", "play 8", RUN + b"no\n", 0, "1\tS1\t"),
    ("forms", "play 8 9", b"", 2, "fault command line\n"),
    ("forms", "x", b"", 2, "fault command line\n"),
    ("forms", "play 1", LONG, 6, ""),
    ("table", "", LONG, 6, ""),
    ("table", "", WHOLE, 3, "fault line 2: S2\n"),
    ("play", "", LONG, 6, ""),
    ("play", "", WHOLE, 3, "fault line 2: S2\n"),
    ("acl", "", LONG, 6, ""),
    ("acl", "", WHOLE, 3, "fault A1\n"),
)


def long_histories(tally: played.Tally) -> None:
    """A history of as many bytes as there may be, and longer ones."""
    whole, program = HEAD + b"x" * (MOST - len(HEAD)), tally.program
    for given, wanted in ((whole, (0, "one table: 0 calls\n")), (whole + b"x", (6, ""))):
        tally.same(played.done([program, "judge"], given)[:2], wanted, "judge", len(given))
    for path in (program, os.path.join(played.TOP, "suites")):
        with subprocess.Popen(["yes", "#"], stdout=subprocess.PIPE) as endless:
            done = played.done([path, "judge"], stdin=endless.stdout, timeout=600)
            endless.kill()
        tally.same(done[:2], (6, ""), path, "without an end")
        tally.holds(path == program or "above 128 MiB" in done.err, path, "does not say why", done.err)


def ends(tally: played.Tally) -> None:
    for name, words, given, status, begins in ENDS:
        asked = [tally.program, name, *words.split()]
        done = played.done(asked, given)
        is_so = done.status == status and done.out.startswith(begins) and (begins or not done.out)
        tally.holds(is_so, name, words, done.status, done.out[:60], "and not", status, begins)
        if status == 0:
            with open("/dev/full", "wb") as full:
                tally.same(played.done(asked, given, stdout=full).status, 6, name, words, "a write that fails")


if __name__ == "__main__":
    played.plays(__doc__, "ends of programs", long_histories, ends)
