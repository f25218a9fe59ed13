#!/usr/bin/env python3
"""tests/form-table.py [PROGRAM]

Holds the table of forms (crates/forms/table.txt) against the program (out/suites, if none is named), which has to print
it. Each line and each operation of the table is written with a word in each of its places, and has no fault. It has
fault S1 with a word too few, with a word too many and with another first word. Each number has no fault at its limits,
and beyond them the fault that the table tells. Prints what differs; status 1 where something does.
"""
import itertools
import typing

import played

from common import built, forms, text_of

# A word that fits in each place, whatever fits in the others.
SAMPLES = {**{name: place.sample for name, place in forms.PLACES.items()}, "OPERATIONS": "read /a"}
LAST = {"servers": int(SAMPLES["SERVERS"]) - 1, "agents": int(SAMPLES["AGENTS"]) - 1}


class Case(typing.NamedTuple):
    """A script, and the code of the fault in its line of some number; none, where it has no fault."""

    command: str
    lines: list[str]
    number: int
    code: str


def places_of(places: str) -> list[str]:
    return [place.strip("[]") for place in places.split()]


def variants(word: str, places: str) -> typing.Iterator[tuple[str, str]]:
    """A form with words in its places, and with words that do not fit; each with the code of its fault."""
    names = places_of(places)
    fits = [SAMPLES[name] for name in names]
    yield " ".join([word, *fits]), ""
    yield " ".join([f"{word}s", *fits]), "S1"
    if names[-1:] != ["OPERATIONS"]:
        yield " ".join([word, *fits, "0"]), "S1"
    if fits:
        yield " ".join([word, *fits[:-1]]), "" if places.endswith("]") else "S1"
    for at, name in enumerate(names):
        place = forms.PLACES.get(name)
        if place and place.most != "-":
            least, most = int(place.least), LAST[place.most] if place.most in LAST else int(place.most)
            for number, code in ((least, ""), (most, ""), (most + 1, place.code), (least - 1, place.code)):
                if number >= 0:
                    yield " ".join([word, *fits[:at], str(number), *fits[at + 1 :]]), code


def cases_of(command: str) -> typing.Iterator[Case]:
    """All lines of a command's scripts, each below the header, and all operations."""
    rows = [line for line in forms.LINES if line.command == command]
    header = [next(variants(line.word, line.places))[0] for line in rows if line.part == "header"]
    for line in rows:
        at = [one.word for one in rows if one.part == "header"].index(line.word) if line.part == "header" else None
        for text, code in variants(line.word, line.places):
            lines = [*header, text] if at is None else [*header[:at], text, *header[at + 1 :]]
            yield Case(command, lines, len(lines) if at is None else at + 1, code)
    own = next(line for line in rows if line.places.endswith("OPERATIONS"))
    begins = next(variants(own.word, own.places))[0].removesuffix(SAMPLES["OPERATIONS"])
    for operation in forms.OPERATIONS.values():
        for text, code in variants(operation.word, operation.places):
            yield Case(command, [*header, f"{begins}read /b ; {text}"], len(header) + 1, code)


def differing(tally: played.Tally) -> None:
    """Holds what the program tells against all cases, and the table that it prints."""
    told = built.asked("forms", "", path=tally.program)[1]
    tally.holds(told == text_of("crates", "forms", "table.txt"), "crates/forms/table.txt is another table")
    for case in itertools.chain.from_iterable(map(cases_of, forms.COMMANDS)):
        words = ["serve", "--agents", "2"] if case.command == "serve" else [case.command]
        given = "".join(f"{line}\n" for line in case.lines)
        status, told = built.asked(words[0], given, *words[1:], path=tally.program)
        told = told if status == 3 else f"status {status}" if status else ""
        wanted = f"fault line {case.number}: {case.code}\n" if case.code else ""
        tally.same(told, wanted, case.command, repr(case.lines[case.number - 1]))


if __name__ == "__main__":
    played.plays(__doc__, "lines", differing, program=None)
