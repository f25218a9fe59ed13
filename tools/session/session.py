"""./suites session [--marks] [--journal FILE [--no-sync] [--compact]]

Answers each line of a script of events before it reads the next one; help/session.txt tells all of it. The program
does the work, and takes the place of this tool. With --compact the journal is first made as short as its
tree can be made (dump.py).
"""
import os
import sys

from common import built, console
from session import dump

COMMAND_LINE, NO_STREAM = 2, 6
COMPACT, JOURNAL = "--compact", "--journal"


def compacted(words: list[str]) -> list[str] | None:
    """The words without --compact, once the journal is compact; none where no journal is named."""
    rest = [word for word in words if word != COMPACT]
    place = rest.index(JOURNAL) + 1 if JOURNAL in rest else len(rest)
    if place >= len(rest):
        return None
    dump.compact(rest[place])
    return rest


def main() -> int:
    words = sys.argv[1:]
    if words[:1] in (["--help"], ["-h"]):
        return console.print_help("session")
    program = built.program()
    if COMPACT in words:
        rest = compacted(words)
        if rest is None:
            print("fault command line", flush=True)
            console.Teller().say("--compact wants a journal: ./suites session --journal FILE --compact")
            return COMMAND_LINE
        words = rest
    if sys.stdin.isatty():
        console.Teller().say("each line is answered, from `servers N` on; Ctrl-D ends it (./suites session --help)")
    os.execv(program, [program, "session", *words])
