#!/usr/bin/env python3
"""tests/asking.py

Asks `./suites explore --ask` random questions of the scripts of examples/explore and tests/explored, and holds the
answers against the ways that are kept in tests/explored/NAME.ways, which another program told; and questions with
`before` against those that `--order` tells (tests/ordered.py looks at these). Where not all was looked at nothing is
said to be never or always so. What is no question is a fault. Prints each that differs; status 1 where one does.
"""
import os
import random
import re
import typing

import explored
import played
from played import Tally

from common import text_of, tool

STORY = os.path.join(explored.STORIES, "revocation.script")
# How many questions are asked of a script at once, and of how many atoms each is at most.
AT_ONCE, ATOMS = 12, 4
# The options in the order in which a command is told.
OPTIONS = ("--crashes", "--returns", "--forgets", "--stops")
# What is no question of the story above, and what has to be said of it.
FAULTS = (
    ("", "and not nothing"),
    ("0.1", "is told how it ended"),
    ("0.1 answered sett", "no job ends so: answered sett"),
    ("0.1 undecided U2 sever 0", "no job ends so"),
    ("or 0.1 answered", "and not or"),
    ("(0.1 answered", "a bracket is not closed"),
    ("0.1 before answered", "and not answered"),
    ("1.1 before 0.1", "there is no job 1.1 below together, but 0.1, 1.0"),
    ("2.0 answered", "there is no job 2.0"),
    ("( " * 150 + "0.1 answered" + " )" * 150, "at most 200 words"),
)
# Endings that say that a transaction was decided, and the word before the jobs that were, in their order.
DECIDED, ORDER = ("answered", "denied", "refused"), "decided"
# Stories of which it is asked what was decided first, with words.
ORDERED: tuple[tuple[str, list[str]], ...] = (
    ("revocation.script", []),
    ("two-writers.script", []),
    ("revocation.script", ["--crashes", "1", "--stops", "1"]),
)


class Asked(typing.NamedTuple):
    """A question: its text, and in which ways what it asks for is so, each by its lines."""

    text: str
    holds: typing.Callable[[tuple[str, ...]], bool]


def atom(dice: random.Random, ways: list[tuple[str, ...]]) -> Asked:
    """A job of a way, and how it ended there, cut off after some word; or two jobs, where their order is told."""
    way = dice.choice(ways)
    line = dice.choice(way)
    if line.split()[0] == ORDER:
        first, later = (dice.choice(way[:-1]).split()[0] for _ in "12")
        before = re.compile(rf".* {re.escape(first)} (?:.* )?{re.escape(later)}(?: .*)?")
        return Asked(f"{first} before {later}", lambda way: bool(before.fullmatch(way[-1])))
    job, ending = line.split(" ", 1)
    cut = " ".join(ending.split()[: dice.randint(1, 3)]).rstrip(";")
    told = "stopped" if ending == "-" else dice.choice(["decided", cut]) if cut.split()[0] in DECIDED else cut
    if told == "decided":
        pattern = rf"{re.escape(job)} (?:{'|'.join(DECIDED)})\b"
    else:
        pattern = re.escape(f"{job} {'-' if told == 'stopped' else told}") + r"(?![^ ;])"
    return Asked(f"{job} {told}", lambda way: any(re.match(pattern, one) for one in way))


def question(dice: random.Random, ways: list[tuple[str, ...]], atoms: int) -> Asked:
    """A random question of so many atoms."""
    if atoms == 1:
        one = atom(dice, ways)
        return Asked(f"not {one.text}", lambda way: not one.holds(way)) if dice.random() < 0.3 else one
    front = dice.randint(1, atoms - 1)
    left, right = question(dice, ways, front), question(dice, ways, atoms - front)
    if dice.random() < 0.5:
        return Asked(f"({left.text}) and ({right.text})", lambda way: left.holds(way) and right.holds(way))
    return Asked(f"({left.text} or {right.text})", lambda way: left.holds(way) or right.holds(way))


def asked(path: str, words: list[str], questions: typing.Sequence[str]) -> played.Done:
    """What `explore` tells of a script and questions."""
    with open(path, "rb") as script:
        asks = [word for text in questions for word in ("--ask", text)]
        return played.done([*tool("explore"), *words, *asks], stdin=script, cwd=played.TOP)


def wanted(one: Asked, ways: list[tuple[str, ...]], words: list[str], path: str) -> str:
    """What has to be told of a question, where these are all ways."""
    places = [place for place, way in enumerate(ways, 1) if one.holds(way)]
    if len(places) == len(ways):
        return f"always: {one.text}\n"
    if not places:
        return f"never: {one.text}\n"
    options = [f"{option} {words[words.index(option) + 1]}" for option in OPTIONS if option in words]
    options += ["--order"] if "--order" in words else []
    command = " ".join(["./suites explore", *options, f"--way {places[0]}", "<", path])
    return f"sometimes, in {len(places)} of {len(ways)} ways: {one.text}\n  the shortest: {command}\n"


def compare(path: str, words: list[str], ways: list[tuple[str, ...]], dice: random.Random, tally: Tally) -> None:
    """Compares answers with what these ways tell."""
    name = os.path.relpath(path, played.TOP)
    questions = [question(dice, ways, dice.randint(1, ATOMS)) for _ in range(AT_ONCE)]
    told = asked(path, words, [one.text for one in questions])
    found = re.sub(r"^all .*\n\Z", "", told.out, flags=re.M)
    tally.holds(told.status == 0 and found != told.out, name, told)
    for one in questions:
        text = wanted(one, ways, words, name)
        tally.holds(found.startswith(text), name, f"told is {found[:200]}, and not {text}")
        found = found.partition("\n")[2] if not found.startswith("sometimes") else found.split("\n", 2)[2]


def compare_kept(tally: Tally) -> None:
    """Asks of the scripts whose ways are kept whole."""
    dice = random.Random(102)
    for one in explored.kept():
        if not one.is_brief:
            compare(one.path, one.words.split(), explored.read(one.ways), dice, tally)


def compare_ordered(tally: Tally) -> None:
    """Asks in which order jobs were decided: of ways that are told with it, and of others, which ask for it."""
    dice = random.Random(7)
    for name, words in ORDERED:
        path, ordered = os.path.join(explored.STORIES, name), [*words, "--order"]
        ways = explored.read(explored.explored(text_of(path), " ".join(ordered))[1])
        for _ in range(3):
            compare(path, ordered, ways, dice, tally)
        question = ["0.1 before 1.0 or 1.0 before 0.1"]
        tally.same(asked(path, words, question), asked(path, ordered, question), name, *question, "without --order")


def compare_some(tally: Tally) -> None:
    """Where not all was looked at nothing is said to be never or always so."""
    for worlds in (1, 300):
        questions = ["0.1 answered read 00", "0.1 answered or not 0.1 answered", "1.0 denied"]
        told = asked(STORY, ["--worlds", str(worlds)], questions)
        lines = [line for line in told.out.split("\n") if not line.startswith(" ")]
        begun = [line.split(":")[0].split(",")[0] for line in lines[:3]]
        are_so_far = set(begun) <= {"never so far", "always so far", "sometimes"}
        is_so = told.status == 7 and are_so_far and lines[3].startswith("not all: ")
        tally.holds(is_so, f"--worlds {worlds}", told)
        tally.holds(begun[0] == "never so far", f"--worlds {worlds}", told)


def compare_faults(tally: Tally) -> None:
    """What is no question is a fault, and nothing is printed."""
    for text, why in FAULTS:
        told = asked(STORY, [], ["0.1 answered", text])
        tally.holds(told[:2] == (2, "") and why in told.err, f"'{text}'", told, why)
    for words in (["--brief"], ["--way", "1"]):
        tally.same(asked(STORY, words, ["0.1 answered"])[:2], (2, ""), words)
    tally.same(asked(os.path.join(played.TOP, "README.md"), [], ["0.1 answered"]).status, 3, "README.md is explored")


if __name__ == "__main__":
    played.plays(__doc__, "answers compared", compare_kept, compare_ordered, compare_some, compare_faults)
