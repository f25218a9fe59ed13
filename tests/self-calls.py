#!/usr/bin/env python3
"""tests/self-calls.py

Looks for functions that call themselves, by whatever way within their crate, in the sources of all crates: a proof says
nothing of how deep the stack is, so no function that runs may call itself as deep as its input is long. Those that may
stand in a table here, each with why it is not so deep. Looks too for types that hold themselves, whose copies and drops
would call themselves. Status 1 where one is found that is not in the table, or one of the table calls itself no more.
"""
import glob
import os
import re
import typing

import played
from played import Tally

from common import functions, text_of
from front import sources

# The functions that may call themselves: by crate, type (where it has one) and name, with why they are not deep.
MAY = {
    "file_exec gather": "once for each edit of a transaction: at most eight operations of two edits each",
    "file_exec seen_after": "once for each edit of a transaction: at most eight operations of two edits each",
    "file_ops play": "once for each operation of a transaction: at most eight",
}
# Fewer functions than this are not all of them.
FEWEST = 2500
# Comments, texts and characters, of which nothing is a call.
SILENT = re.compile(r'//[^\n]*|b?"(?:[^"\\]|\\.)*"|b?\'(?:\\[^\n\']+|[^\\\'\n])\'', re.S)
TYPE = re.compile(r"^(?:pub(?:\([^)]*\))? )?(?:struct|enum) (?P<name>\w+)")
# What stands before a call: a path, or what it is called on; and the name that is called.
CALL = re.compile(r"(?P<path>(?:\w+::)+)?(?P<on>[\w)\]?]\s*\.\s*)?\b(?P<name>[a-z_]\w*)(?:::<[^()]*>)?\(")
ON_SELF = re.compile(r"(?<![\w.)\]])self\s*\.\s*$")
IMPORT = re.compile(r"^(?:pub(?:\([^)]*\))? )?use crate::([\w:]+)(?:::\{([^}]*)\})?;", re.M)
# What a type points at and does not hold.
POINTER = re.compile(r"\*(?:mut|const) \w+")
NAME = re.compile(r"\b[A-Z]\w*")


class Function(typing.NamedTuple):
    """A function of a crate: its type, where it has one, its name, its file, and the lines of its body."""

    of: str
    name: str
    file: str
    body: str

    def told(self, crate: str) -> str:
        return f"{crate} {self.of}::{self.name}" if self.of else f"{crate} {self.name}"


def functions_in(text: str, file: str) -> typing.Iterator[Function]:
    """The functions of a file that have a body."""
    bare = SILENT.sub(" ", text)
    lines = bare.split("\n")
    for one in functions.functions(bare):
        yield Function(one.of, one.name, file, "\n".join(lines[one.body + (one.last > one.body) : one.last + 1]))


def module_of(file: str) -> str:
    """The name of the module that a file is."""
    folder, name = os.path.split(os.path.splitext(file)[0])
    return os.path.basename(folder) if name == "mod" else name


def imported(text: str) -> set[str]:
    """The names that a file has from other files of its crate."""
    found = set()
    for path, names in IMPORT.findall(text):
        found |= {name.strip() for name in names.split(",")} if names else {path.rpartition("::")[2]}
    return found


class Crate:
    """The functions and types of a crate."""

    def __init__(self, name: str, files: dict[str, str]) -> None:
        self.name = name
        self.functions = [one for file, text in files.items() for one in functions_in(text, file)]
        self.imported = {file: imported(text) for file, text in files.items()}
        self.types = {kind: names for text in files.values() for kind, names in types_in(text)}

    def called(self, one: Function) -> typing.Iterator[Function]:
        """The functions of the crate that a function may call."""
        for call in CALL.finditer(one.body):
            path = (call["path"] or "").rstrip(":").rpartition("::")[2]
            on_self = ON_SELF.search(one.body[: call.start("name")]) is not None
            for other in self.functions:
                if other.name != call["name"]:
                    continue
                if on_self or path == "Self":
                    is_it = other.of == one.of
                elif call["on"]:
                    is_it = False
                elif path[:1].isupper():
                    is_it = other.of == path
                elif path:
                    is_it = not other.of and path in ("crate", "super", module_of(other.file))
                else:
                    is_it = not other.of and (other.file == one.file or other.name in self.imported[one.file])
                if is_it:
                    yield other

    def in_circles(self) -> list[str]:
        """The functions that call themselves, by whatever way."""
        calls = {one: set(self.called(one)) for one in set(self.functions)}
        return sorted({one.told(self.name) for one in calls if one in reached(one, calls)})

    def hold_themselves(self) -> list[str]:
        """The types that hold themselves, by whatever way."""
        holds = {kind: names & set(self.types) for kind, names in self.types.items()}
        return sorted(f"{self.name} {kind}" for kind in holds if kind in reached(kind, holds))


def types_in(text: str) -> typing.Iterator[tuple[str, set[str]]]:
    """The types of a file, each with the names that stand in its fields."""
    lines = SILENT.sub(" ", text).split("\n")
    for place, line in enumerate(lines):
        found = TYPE.match(line)
        if found:
            last = place
            while last < len(lines) and lines[last] != "}" and not (last == place and lines[last].endswith(("}", ";"))):
                last += 1
            body = POINTER.sub(" ", "\n".join(lines[place : last + 1])[found.end() :])
            yield found["name"], set(NAME.findall(body)) - set(re.findall(r"^ {4}([A-Z]\w*)", body, re.M))


Node = typing.TypeVar("Node")


def reached(first: Node, follows: dict[Node, set[Node]]) -> set[Node]:
    """All to which steps lead."""
    found, left = set[Node](), [first]
    while left:
        for one in follows[left.pop()] - found:
            found.add(one)
            left.append(one)
    return found


def crates() -> typing.Iterator[Crate]:
    """All crates of the repository."""
    for name in sorted(os.listdir(sources.CRATES)):
        folder = os.path.join(sources.CRATES, name, sources.CODE)
        paths = sorted(glob.glob(os.path.join(folder, "**", "*.rt"), recursive=True))
        files = {os.path.relpath(path, folder): text_of(path) for path in paths}
        if files:
            yield Crate(name, files)


# Samples with functions that call themselves, of which each has to be found, beside some that do not.
SAMPLE = {name: text_of("tests", "samples", f"{name}.txt") for name in ("one.rt", "two.rt")}
FOUND = ["sample Walk::walk", "sample back", "sample own", "sample through"]


def looks(tally: Tally) -> None:
    sample, found, count = Crate("sample", SAMPLE), list[str](), 0
    tally.same(sample.in_circles(), FOUND, "of the sample are found")
    tally.same(sample.hold_themselves(), ["sample Tree"], "of the sample are found")
    for crate in crates():
        count += len(crate.functions)
        found += crate.in_circles()
        for kind in crate.hold_themselves():
            tally.holds(False, f"{kind} holds itself: what copies or drops it calls itself as deep as it is")
    for one in sorted({*found, *MAY}):
        tally.holds(one in MAY, f"{one} calls itself: how deep?")
        tally.holds(one in found, f"{one} calls itself no more, and stands in the table of tests/self-calls.py")
    tally.holds(count >= FEWEST, f"only {count} functions are found")
    tally.count += count


if __name__ == "__main__":
    played.plays(__doc__, "functions and types looked at", looks)
