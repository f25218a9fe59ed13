#!/usr/bin/env python3
"""tests/edits.py

Looks how edits of wrong bodies are read: that a text is found in the function which `in: ..` names, and what is told of
an edit that does not apply.
"""
import os
import tempfile

from played import Tally, plays, put

from common import functions, text_of
from wrong_bodies import changes

SOURCE = text_of("tests", "samples", "edited.rt.txt")
FUNCTIONS = ("first", "Pair::first", "Pair::none", "Pair::text", "Pair::second")
NEXT = "let next = left;"
# The lines of an edit behind its file, and what is told of it; or how the line becomes that it changes.
GOOD = (
    (("in: Pair::first", f"old: {NEXT}", "new: let next = 0;"), 17, "        let next = 0;"),
    (("in: second", f"old: {NEXT}", "new: let next = left + 1;"), 43, "        let next = left + 1; // of both"),
    (("in: Pair::first", "old: return 3", "new: return 4"), 19, "            return 4;"),
    (("in: Pair::second", "old:         next", "new:         3"), 44, "        3"),
    (("old: next > 3", "new: next > 4"), 18, "        if next > 4 {"),
)
BAD = (
    ((f"old: {NEXT}", "new: "), "its 'old:' text is in src/a.rt 4 times, and not once: let next = left;"),
    (("in: first", f"old: {NEXT}", "new: "), "it names first, and 2 functions of the file are called so"),
    (("in: third", f"old: {NEXT}", "new: "), "it names third, and 0 functions of the file are called so"),
    (("in: Pair::second", "old: return 3", "new: "), "its 'old:' text is in Pair::second of src/a.rt 0 times, and"),
    (("in: second", f"old: {NEXT}"), "an 'old:' line has no 'new:' line"),
    (("in: second", f"old: {NEXT}", f"new: {NEXT}"), "it changes nothing"),
    (("in second", f"old: {NEXT}", "new: "), "a line is none of 'why: ', 'refused by: ', 'file: ', 'in: ', 'old: '"),
    (("in: second", "new: "), "a 'new:' line stands before any 'file:' or 'old:' line"),
    (("file: src/b.rt", f"old: {NEXT}", "new: "), "there is no file src/b.rt"),
    (("file: ../a.rt", f"old: {NEXT}", "new: "), "../a.rt is no file below src/, specs/ or proofs/"),
    ((), "it changes nothing"),
)


def sample(tally: Tally) -> None:
    """Looks at the sample."""
    named = tuple("::".join(filter(None, (one.of, one.name))) for one in functions.functions(SOURCE))
    tally.holds(named == FUNCTIONS, "functions", named)
    with tempfile.TemporaryDirectory(prefix="suites-") as room:
        os.mkdir(os.path.join(room, "src"))
        put(os.path.join(room, "src", "a.rt"), SOURCE)
        for lines, number, line in GOOD:
            edit = "\n".join(["why: so", "file: src/a.rt", *lines, ""])
            wanted = SOURCE.split("\n")
            wanted[number] = line
            told = changes.applied(changes.changes_in(edit), room)
            tally.holds(told == {"src/a.rt": "\n".join(wanted)}, lines, told)
        for lines, why in BAD:
            said = changes.why_not("\n".join(["file: src/a.rt", *lines]), room) or ""
            tally.holds(said.startswith(why), lines, said)


if __name__ == "__main__":
    plays(__doc__, "edits read", sample)
