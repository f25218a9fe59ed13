"""The table of forms: what may stand in the lines of scripts. The command `forms` prints it (crates/forms/table.txt,
which tests/form-table.py holds against it); what the tools know of lines, operations and places comes from it.
"""
import functools
import os
import typing

from common import TOP

TABLE = os.path.join(TOP, "crates", "forms", "table.txt")
# Places as people write them in a form.
SHOWN = {"SERVERS": "N", "AGENTS": "N", "OLD": "S,S,..", "OPERATIONS": "OPERATION ; .."}


class Place(typing.NamedTuple):
    """A place in a line: the least and the most number of one that has a number, the code of another number, what it
    means, and a word that fits in it, in a script with one server and one agent too (tests/form-table.py plays them).
    The most may be how many servers or agents there are.
    """

    name: str
    least: str
    most: str
    code: str
    means: str
    sample: str


class Line(typing.NamedTuple):
    """A line of scripts: its command, its part of the script, its word, the places behind, what it does."""

    command: str
    part: str
    word: str
    places: str
    does: str

    def form(self) -> str:
        """The line as it is written down."""
        return " ".join([self.word, *(SHOWN.get(place, place) for place in self.places.split())])


class Operation(typing.NamedTuple):
    """An operation of a transaction: its word, the places behind it, and what it does."""

    word: str
    places: str
    does: str

    def form(self) -> str:
        """The operation as it is written down."""
        return f"{self.word} {self.places}"


def rows(kind: str) -> list[list[str]]:
    with open(TABLE, encoding="utf-8") as file:
        parted = [line.rstrip("\n").split("\t") for line in file]
    return [row[1:] for row in parted if row[0] == kind]


PLACES = {row[0]: Place(*row) for row in rows("place")}
LINES = [Line(*row) for row in rows("line")]
OPERATIONS = {row[0]: Operation(*row) for row in rows("operation")}
COMMANDS = list(dict.fromkeys(line.command for line in LINES))


@functools.cache
def lines_of(command: str, *parts: str) -> dict[str, Line]:
    """The lines of a command's scripts by their first words, of these parts or of all."""
    return {line.word: line for line in LINES if line.command == command and (not parts or line.part in parts)}
