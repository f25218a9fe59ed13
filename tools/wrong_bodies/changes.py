"""The edit of a wrong body: which texts it puts in the place of which, and where these stand.

An edit may say with a line `in: FUNCTION` or `in: Type::FUNCTION` in which function of its file the texts of the lines
`old: ..` below it are; each stands then once in that function, and else once in the file.
"""
import os
import typing

from common import functions, text_of

# The lines of an edit that change nothing: wrong_bodies_page.py makes the page of them.
TOLD = ("why", "refused by")
PLACES = ("src/", "specs/", "proofs/")


class Bad(Exception):
    """Why an edit cannot be applied."""


class Change(typing.NamedTuple):
    """A text that is put in the place of another: in a file of a crate, and in a function of it, where one is named."""

    file: str
    function: str
    old: str
    new: str


def changes_in(text: str) -> list[Change]:
    """What an edit changes, in its order."""
    file, function, old = "", "", ""
    changes: list[Change] = []
    for line in text.split("\n"):
        word, _, rest = line.partition(": ")
        if line.startswith("new:"):
            if not file or not old:
                raise Bad("a 'new:' line stands before any 'file:' or 'old:' line")
            changes.append(Change(file, function, old, line[4:].removeprefix(" ")))
            old = ""
        elif word == "file":
            file, function = rest.strip(), ""
            if os.path.normpath(file) != file or not file.startswith(PLACES):
                raise Bad(f"{file} is no file below src/, specs/ or proofs/")
        elif word == "in":
            function = rest.strip()
        elif word == "old":
            old = rest
        elif word not in TOLD and line.strip() and not line.startswith(("#", "--", "//")):
            raise Bad(f"a line is none of 'why: ', 'refused by: ', 'file: ', 'in: ', 'old: ' and 'new: ': {line}")
    if old:
        raise Bad("an 'old:' line has no 'new:' line")
    return changes


def span_of(text: str, function: str) -> tuple[int, int]:
    """Where the function of this name begins and ends; the whole, where none is named."""
    if not function:
        return 0, len(text)
    found = [one for one in functions.functions(text) if one.is_called(function)]
    if len(found) != 1:
        raise Bad(f"it names {function}, and {len(found)} functions of the file are called so")
    lines = text.split("\n")
    begins = sum(len(line) + 1 for line in lines[: found[0].first])
    return begins, begins + sum(len(line) + 1 for line in lines[found[0].first : found[0].last + 1])


def place_of(text: str, change: Change) -> int:
    """Where the text stands that is changed."""
    begins, ends = span_of(text, change.function)
    count = text.count(change.old, begins, ends)
    if count != 1:
        where = f"{change.function} of {change.file}" if change.function else change.file
        raise Bad(f"its 'old:' text is in {where} {count} times, and not once: {change.old.strip()}")
    return text.index(change.old, begins, ends)


def applied(changes: list[Change], crate: str) -> dict[str, str]:
    """The texts of the files that an edit changes, by their paths in the crate of this folder."""
    texts: dict[str, str] = {}
    before: dict[str, str] = {}
    for change in changes:
        if change.file not in texts:
            if not os.path.isfile(os.path.join(crate, change.file)):
                raise Bad(f"there is no file {change.file}")
            texts[change.file] = before[change.file] = text_of(os.path.join(crate, change.file))
        text = texts[change.file]
        place = place_of(text, change)
        texts[change.file] = text[:place] + change.new + text[place + len(change.old) :]
    if texts == before:
        raise Bad("it changes nothing")
    return texts


def why_not(text: str, crate: str) -> str | None:
    """Why an edit cannot be applied to the crate in a folder, or None."""
    try:
        applied(changes_in(text), crate)
    except Bad as bad:
        return str(bad)
    return None
