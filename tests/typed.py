#!/usr/bin/env python3
"""tests/typed.py

Types each command line that README.md, docs/FAULTS.md, SCRIPTS.md and TEACH.md show, behind a `$` or of `./suites`, in
blocks and in lines of text, at the top of the repository. Each has to end with status 0 (`may` with 1 where it shows
a denial), and to print what is shown below it. Left out are those with a word to be filled in, as `./suites explain
CODE`, those that take an hour or are the tests themselves, those that go on until they are stopped, and `--is-fresh`,
whose status is that of the build. Prints each that differs or does not end; status 1 where one does.
"""
import re
import tempfile
import typing

import played

from pages import shown

DOCUMENTS = ("README.md", "docs/FAULTS.md", "docs/SCRIPTS.md", "docs/TEACH.md")
COMMAND = re.compile(r"\$ (.*)|(?:\./suites |\.ci/run\b).*")
# In a line of text a command alone, as `./suites trace`, names it.
SPAN = re.compile(r"`(\./suites (?!\w+`)[^`]+)`")
# A word to be filled in, as CODE or N, and what may be left out or goes on.
FILLED_IN = re.compile(r"(?<![\w/])(?:[A-Z]{2,}|[A-Z])(?!\w)|\[|\.\.\.|< \.\.")
# So many command lines at least are shown, so that a change of the form of documents is told.
FEWEST = 12
LEFT_OUT = (
    "./suites --prove", "./suites --test", "./suites --is-fresh", "./suites show --live", "./suites show --all",
    ".ci/run",
)
# So many seconds a command may take.
PATIENCE = "600"


def of_block(number: int, block: list[bytes]) -> list[tuple[int, str, str | None]]:
    """The commands of a block, each with its line, and what is shown below it where it begins with a `$`."""
    found: list[tuple[int, str, list[str] | None]] = []
    for place, line in enumerate(line.decode() for line in block):
        command = COMMAND.match(line)
        if command:
            found.append((number + place, command[1] or line, [] if command[1] else None))
        elif found and found[-1][2] is not None:
            found[-1][2].append(line + "\n")
    return [(place, command, None if lines is None else "".join(lines)) for place, command, lines in found]


def commands(document: str) -> typing.Iterator[tuple[int, str, str | None]]:
    """All commands that a document shows, with their lines and what is to be printed, where that is shown."""
    text = shown.content(document)
    for number, block in shown.blocks(text):
        yield from of_block(number, block)
    for number, line in enumerate(text.decode().split("\n"), 1):
        if not line.startswith("    "):
            yield from ((number, command, None) for command in SPAN.findall(line))


def is_typed(command: str) -> bool:
    return not command.startswith(LEFT_OUT) and not FILLED_IN.search(re.sub(r"#.*", "", command))


def status_of(wanted: str | None) -> int:
    """The status of a command with this output: `may` ends with 1 where something is denied."""
    return 1 if wanted and " may not " in wanted else 0


def put_into(folder: str, command: str) -> str:
    """The command, which writes the file that it names into this folder."""
    return re.sub(r" > (\w\S*)", rf" > {folder}/\1", command)


def types(tally: played.Tally) -> None:
    """Types all command lines; what they write is put into a folder."""
    shown_there = [(document, *one) for document in DOCUMENTS for one in commands(document) if is_typed(one[1])]
    with tempfile.TemporaryDirectory(prefix="suites-") as folder:
        for document, number, command, wanted in shown_there:
            done = played.done(["timeout", PATIENCE, "sh", "-c", put_into(folder, command)], cwd=played.TOP)
            is_so = done.status == status_of(wanted) and wanted in (None, done.out)
            tally.holds(is_so, f"{document}:{number}", command, "124 is the status of what does not end", done)
    tally.holds(tally.count >= FEWEST, f"of at least {FEWEST} command lines {tally.count} were found")


if __name__ == "__main__":
    played.plays(__doc__, "command lines", types)
