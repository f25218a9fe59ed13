#!/usr/bin/env python3
"""bench/names.py [PROGRAM]

Names that collide, and plain ones: `suites table` on 20,000, 40,000 and 80,000 lines `user NAME 1`, and
`suites acl` with 15,000, 30,000 and 60,000 words `user:NAME=1`, the least processor time of five runs each.

Those that collide (`bench/names.c` looks for them, which `cc` makes) begin at one place of a table that has the hasher
that `indexmap` takes by default, whose seed is fixed. A table with keys that are a digest of the input spreads
them as others. The growth is how many times as long a line takes as the line above it, which has half as many names:
it is an error where that is above 2.3.
"""
import os
import subprocess
import sys
import tempfile

import measure

COUNTS = [20000, 40000, 80000]
# a command line has room for fewer
WORDS = [15000, 30000, 60000]
# A table of 80,000 names has 2^14 groups.
BITS = 14
GROWTH = 2.3


def colliding(count: int) -> list[str]:
    """Names that collide."""
    with tempfile.TemporaryDirectory() as folder:
        search = os.path.join(folder, "names")
        subprocess.run(["cc", "-O2", "-o", search, os.path.join(measure.TOP, "bench", "names.c")], check=True)
        return subprocess.check_output([search, str(count), str(BITS)], text=True).split()


def plain(count: int) -> list[str]:
    """As many that do not, of as many letters."""
    return [f"user{number:08d}" for number in range(count)]


def by_script(program: str, names: list[str]) -> tuple[list[str], bytes, bytes]:
    """A script that names users, and the words and the output that are wanted."""
    lines = ["root 0 0 755", *(f"user {name} 1" for name in names), "do 0 0 list /"]
    return [program, "table"], "\n".join(lines).encode() + b"\n", b"0 answered list -\n"


def by_words(program: str, names: list[str]) -> tuple[list[str], bytes, bytes]:
    """Words that name users, and an input and the output that are wanted."""
    return ([program, "acl", *(f"user:{name}=1" for name in names)], f"u::r,u:{names[-1]}:r,g::r,m::r,o::r".encode(),
            b"user::r--\nuser:1:r--\ngroup::r--\nmask::r--\nother::r--\n")


def main() -> None:
    read = measure.console.words(__doc__)
    read.add_argument("program", nargs="?", default=measure.PROGRAM)
    program = read.parse_args().program
    print(f"{'names that':20}{'names':>8}{'MB':>8}{'seconds':>10}{'growth':>8}")
    above = []
    hostile, usual = colliding(max(COUNTS)), plain(max(COUNTS))
    for title, form, counts in (("table", by_script, COUNTS), ("acl", by_words, WORDS)):
        for kind, names in (("collide", hostile), ("do not", usual)):
            before = 0.0
            for count in counts:
                words, data, wanted = form(program, names[:count])
                status, output, _, seconds, _ = measure.least("work", words, data)
                if (status, output) != (0, wanted):
                    sys.exit(f"{title}, {kind}, {count} names: status {status}, {output[:80]!r}")
                size = len(data) if form is by_script else sum(len(word) + 1 for word in words)
                grown = f"{seconds / before:>8.2f}" if before else ""
                print(f"{title + ', ' + kind:20}{count:>8}{size / 1e6:>8.2f}{seconds:>10.3f}{grown}", flush=True)
                if before and seconds > GROWTH * before:
                    above.append(f"{title}, names that {kind}, {count}: {seconds / before:.2f}")
                before = seconds
    if above:
        sys.exit(f"growth above {GROWTH}: " + "; ".join(above))


main()
