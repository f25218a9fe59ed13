#!/usr/bin/env python3
"""tests/checked-build.py [PROGRAM]

Plays all rows of crates/rows/stdin through a program, and prints each that it answers otherwise. The program is the one
that `./suites` runs (a checked build where nothing is proved), or the one that is named. A row of exit status 2 is
played once more over an input that cannot be read. Status 1 where a row differs.
"""
import os

import played


def plays_rows(tally: played.Tally) -> None:
    for row in played.rows():
        words: list[str | bytes] = [tally.program, *row["words"]]
        wanted = row["status"], row["output"].decode("latin1"), ""
        told = played.done(words, row["input"])
        if told == wanted and row["status"] == 2:
            with open(os.devnull, "wb") as unreadable:
                told = played.done(words, stdin=unreadable)
        tally.same(told, wanted, f"line {row['line']}")


if __name__ == "__main__":
    played.plays(__doc__, "rows", plays_rows, program=None)
