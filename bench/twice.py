"""Functions that stand in a source twice: as they are, and as a wrong body makes them (bench/harm.py). Which of the two
is taken, a call at the head of the first one tells: `switch::is_taken`, which each of these crates gets.
"""
import os
import re
import typing

import measure

from common import functions, text_of
from wrong_bodies import changes, wrong_bodies

CRATES = ("run_core", "txn_core", "suite_collect", "rep_core", "file_exec", "weak_cache")
CLAUSE = re.compile(r"^\s*(?:ensures|requires)\b")


def function_at(lines: list[str], at: int) -> functions.Function | None:
    """The function that this line is of."""
    return next((one for one in functions.functions("\n".join(lines)) if one.first <= at <= one.last), None)


def indent_of(lines: list[str], function: functions.Function) -> str:
    return functions.FUNCTION.match(lines[function.first])["indent"]


def parts_of(text: str) -> list[str]:
    """The parts of a text between its commas that stand in no brackets."""
    parts, depth = [""], 0
    for letter in text.replace("->", "  "):
        depth += (letter in "(<[{") - (letter in ")>]}")
        if letter == "," and not depth:
            parts.append("")
        else:
            parts[-1] += letter
    return [part.strip() for part in parts if part.strip()]


def parameters(head: str, name: str) -> list[str]:
    """The names of a function's parameters."""
    text = head[head.index(f"fn {name}") + len(name) + 3:]
    depth, begun = 0, 0
    for place, letter in enumerate(text.replace("->", "  ")):
        if letter == "(" and depth == 0:
            begun = place + 1
        depth += (letter in "(<[{") - (letter in ")>]}")
        if letter == ")" and depth == 0:
            named = [part.split(":")[0] for part in parts_of(text[begun:place])]
            return [re.sub(r"^(?:&(?:'\w+ )?)?(?:mut )?", "", part) for part in named]
    raise ValueError(head)


def owner_of(lines: list[str], function: functions.Function) -> str:
    """The head of the impl that a function stands in; nothing, where it stands in none."""
    if not function.of:
        return ""
    return next(line for line in reversed(lines[: function.first]) if re.match(r"(?:unsafe )?impl\b", line))


def lines_of(path: str) -> list[str]:
    return text_of(path).split("\n")


class Edit(typing.NamedTuple):
    """A wrong body: its crate, its name, and the texts that it puts in the place of others."""

    crate: str
    name: str
    changes: list[changes.Change]


def edit_of(crate: str, path: str) -> Edit:
    return Edit(crate, wrong_bodies.name_of(path), changes.changes_in(text_of(path)))


def edits() -> list[Edit]:
    return [
        edit_of(crate, path)
        for crate in CRATES
        for folder in (wrong_bodies.GATE, wrong_bodies.BESIDE)
        for path in wrong_bodies.edits(crate, folder)
    ]


# The functions that an edit changes, by file and first line, each with the texts that are put in the place of others.
Changed = dict[tuple[str, int], tuple[functions.Function, list[tuple[str, str]]]]


def changes_of(edit: Edit) -> Changed:
    """What an edit changes; nothing, where that is no function of its own."""
    found: Changed = {}
    for one in edit.changes:
        text = text_of("crates", edit.crate, one.file)
        lines = text.split("\n")
        function = function_at(lines, text.count("\n", 0, changes.place_of(text, one)))
        if not function or function.by_trait or " const " in f" {lines[function.first]}":
            return {}
        found.setdefault((one.file, function.first), (function, []))[1].append((one.old, one.new))
    return found


def put_in(crates: str, edit: Edit, number: int) -> None:
    """Puts the functions that an edit changes into their files once more, changed."""
    changed = changes_of(edit).items()
    seconds = [second_of(edit, file, function, pairs, number) for (file, _), (function, pairs) in changed]
    # a function that takes something else is called by those alone that the edit changes too
    others = [one.name for one in seconds if one.takes != one.took]
    for one in seconds:
        path = os.path.join(crates, edit.crate, one.file)
        for name in others:
            one = one._replace(text=re.sub(rf"([.:]){name}\(", rf"\1{name}_{number}(", one.text))
        text = with_second(lines_of(path), one, number)
        with open(path, "w", encoding="utf-8") as target:
            target.write("\n".join(text))


class Second(typing.NamedTuple):
    """A function that stands a second time: file, first line, impl, name, what it took and takes, and text."""

    file: str
    line: str
    owner: str
    name: str
    took: list[str]
    takes: list[str]
    text: str


def second_of(edit: Edit, file: str, function: functions.Function, pairs: list[tuple[str, str]], number: int) -> Second:
    """A function of a crate as an edit makes it."""
    lines = lines_of(os.path.join(measure.TOP, "crates", edit.crate, file))
    head = [line for line in lines[function.first : function.body] if not CLAUSE.match(line)]
    text = "\n".join([*head, *lines[function.body : function.last + 1]])
    took = parameters(text, function.name)
    for old, new in pairs:
        text = text.replace(old, new)
    takes = parameters(text, function.name)
    text = text.replace(f"fn {function.name}", f"fn {function.name}_{number}", 1)
    return Second(file, lines[function.first], owner_of(lines, function), function.name, took, takes, text)


def with_second(lines: list[str], second: Second, number: int) -> list[str]:
    """Lines with a function once more, changed, which is taken where this number is told."""
    first = next(
        place
        for place, line in enumerate(lines)
        if line == second.line and owner_of(lines, function_at(lines, place)) == second.owner
    )
    stands = function_at(lines, first)
    name, names = f"{second.name}_{number}", second.takes
    if names[:1] == ["self"]:
        call = f"self.{name}({', '.join(names[1:])})"
    else:
        call = f"{'Self::' if stands.of else ''}{name}({', '.join(names)})"
    taken = f"{indent_of(lines, stands)}    if crate::switch::is_taken({number}) {{ return {call}; }}"
    own = lines[stands.body + 1 : stands.last + 1]
    own = [taken, *own] if second.takes == second.took else own
    return [*lines[: stands.body + 1], *own, *second.text.split("\n"), *lines[stands.last + 1 :]]
