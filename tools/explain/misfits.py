"""What keeps a line of a script from its form, and a text from being a list, as the command `forms` tells it. No tool
finds a fault itself; whys.py tells of one that was found what the words show.
"""
import functools
import re
import typing

from common import built, console, forms

WORD = re.compile(r"[^ \t]+")
# White space of lists.
WHITE = " \t\r"
# So many lines show of which command a script is.
MANY = 1000


class Why(typing.NamedTuple):
    """Why a word does not fit: a reason, its data, and the part of the word of which it speaks."""

    reason: str
    data: list[str]
    part: str


class Misfit(typing.NamedTuple):
    """The place of the word, counted from 0, the code of its fault, the place of the form in which it stands (or END,
    OPERATION, LINE), the form that has this place or is due, the ends of a list's faulty item in the word, what would
    mend the line: words instead of it and before it, and one too many or too few; why it does not fit, and what of it
    is not seen.
    """

    at: int
    code: str
    expected: str
    form: str
    ends: tuple[int, int] | None
    instead: list[str]
    before: list[str]
    shift: list[str]
    why: Why
    hidden: str = "-"

    def due(self) -> str:
        """The first word of the line that is due in the place of one that may not stand there; nothing, if none is."""
        return self.form.split()[0].strip("-") if self.expected == "LINE" else ""


class Found(typing.NamedTuple):
    """A script read as one of a command: its likeness, the first faulty line above or 0, and what does not fit."""

    command: str
    likeness: int
    above: int
    misfit: Misfit | None


class Item(typing.NamedTuple):
    """The ends of an item (of a whole list, of its faulty item), the code of the fault, and why it has it."""

    ends: tuple[int, int] | None
    code: str
    why: Why


@functools.cache
def asked(first: str, number: int, given: bytes) -> str:
    """What the program prints for two words and an input."""
    status, printed = built.asked("forms", given, first, str(min(number, 2**64 - 1)))
    if status != 0:
        raise console.Stop(console.ended("forms", status))
    return printed.removesuffix("\n")


def why_of(reason: str, data: str, part: str) -> Why:
    return Why(reason, words_of(data), part)


def words_of(field: str) -> list[str]:
    return [] if field == "-" else field.split()


def ends_of(text: str, place: str) -> tuple[int, int] | None:
    """Where the item at a place of a list begins and ends, without white space at its ends."""
    if place == "-":
        return None
    front, item = text[: int(place)], re.split("[,#\n]", text[int(place) :], 1)[0]
    begin = len(front + item) - len(item.lstrip(WHITE))
    return begin, begin + len(item.strip(WHITE))


def misfit_of(line: str, fields: list[str]) -> Misfit | None:
    """What does not fit, of the fields that the program prints of a line."""
    at, code, expected, form, item, instead, before, shift, _, *why = fields
    if at == "-":
        return None
    mends = words_of(instead), words_of(before), words_of(shift)
    word = [*WORD.findall(line), ""][int(at) - 1]
    return Misfit(int(at) - 1, code, expected, form, ends_of(word, item), *mends, why_of(*why))


def in_list(text: str, number: int, are_named: bool) -> Item:
    """What the program tells of an item of a list, or for 0 of the whole, where each name has a number or none has."""
    told = asked("list" if are_named else "unnamed", number, text.encode("latin1"))
    # the last field may be any bytes
    place, code, *why = told.split("\t", 4)
    # an item is read as a list of its own
    code = re.sub("item 1$", f"item {number}", code if " item " in code else "") if number else code.strip("-")
    return Item(ends_of(text, place), code, why_of(*why))


def of_line(command: str, above: list[str], line: str) -> Misfit | None:
    """What the program tells of a line below these, which have no fault."""
    text = "".join(f"{one}\n" for one in above) + line
    return misfit_of(line, asked(command, len(above) + 1, text.encode("latin1")).split("\t", 11))


def likeness(command: str, lines: list[str]) -> int:
    """How like a script is to one of a command: twice the number of lines that begin as its lines do, and have a number
    where that has a site, in which a job and a transaction differ; and one more where the first begins its header.
    """
    known = forms.lines_of(command)
    said = [words for words in (WORD.findall(line) for line in lines[:MANY] if line[:1] != "#") if words]
    like = int(bool(said) and said[0][0] == next(iter(known)))
    for first, *behind in said:
        places = known[first].places.split() if first in known else []
        site = behind[places.index("SITE") :][:1] if "SITE" in places else ["0"]
        like += 2 * bool(first in known and site and re.fullmatch("[0-9]+", site[0]))
    return like


def in_script(text: str, lines: list[str], number: int, command: str | None = None) -> list[Found]:
    """What the program tells of a line of a script, of each command or of this one; the likeliest command first."""
    line = lines[number - 1] if number <= len(lines) else ""
    rows = [row.split("\t", 12) for row in asked("script", number, text.encode("latin1")).split("\n")]
    found = [Found(row[0], likeness(row[0], lines), int(row[9]), misfit_of(line, row[1:])) for row in rows]
    return sorted((one for one in found if command in (None, one.command)), key=lambda one: -one.likeness)


def header(command: str) -> list[str]:
    """The header of a script of this command, under which as much is allowed as may be."""
    lines = forms.lines_of(command, "header").values()
    return [" ".join([line.word, *(forms.PLACES[place].sample for place in line.places.split())]) for line in lines]
