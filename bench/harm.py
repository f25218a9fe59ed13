#!/usr/bin/env python3
"""bench/harm.py [--only CRATE/EDIT] [--keep FOLDER]

What wrong bodies would do, were they not refused: those of the crates that all runs go through (CRATES below). Builds
the program without proof (bench/unproved.py), once with all of these edits: each function that an edit changes stands
there a second time, changed, and is taken in the place of the first where the environment names that edit. Then has
each tell the ways of the scripts of examples/explore and tests/explored, up to the first, of those with the fewest
worlds, in which an answer that was decided is not that of the plain table, in the order of the decisions
(tools/compare); where the ways are as they are to be, it plays their scripts. And it plays the rows of `play`.

Prints of each edit what comes of it, in which story, the fewest events that show it, and how many rows are answered
otherwise. With --keep the program stays in this folder, and is taken from there the next time. Takes some fifteen
minutes of processor time; none of it is part of the gate.
"""
import functools
import json
import os
import pathlib
import re
import resource
import shutil
import subprocess
import sys
import tempfile
import typing

import measure
import played
import twice
import unproved
from twice import CRATES, Edit

from compare import compare
import explored

# What is compared of a way.
Shortening = typing.Callable[[tuple[str, ...]], tuple[str, ...]]
# A wrong body may make a run that never ends, or that takes all memory: so many seconds of a processor and bytes it
# has, and so many times the worlds that there are to be.
MOST_SECONDS, MOST_BYTES, MOST_TIMES = 2, 2 << 30, 2
# The scripts of so many ways of a story are played.
MOST_PLAYED = 6
NO_STORY = "no story shows it"
RIGHT = f"no/wrong body\nshows: nothing\ncomes: {NO_STORY}\nrows: 0\n"
SWITCH = """//! Which wrong body is taken.

/// Whether the wrong body of this number is taken.
pub(crate) fn is_taken(number: u32) -> bool {
    number == 4_000_000_000
}
"""
TAKEN = re.compile(
    r'^(define [^\n]*@"?\w+::switch::is_taken"?\([^\n]*?)(%\w+)([^\n]*\{\n)(?:[^}\n][^\n]*\n)*\}\n', re.M
)
ASKED = r"""\1\2\3  %told = call i1 @wrong_body_is(i32 \2)
  ret i1 %told
}
"""
ASKS = """
#include <stdbool.h>
#include <stdlib.h>
bool wrong_body_is(unsigned number) {
    static long taken = -1;
    if (taken < 0) {
        const char *named = getenv("WRONG_BODY");
        taken = named ? atol(named) : 0;
    }
    return taken == number;
}
"""


def with_switch(room: str) -> None:
    """Gives each of the crates what tells which wrong body is taken."""
    for crate in CRATES:
        folder = os.path.join(room, "crates", crate, "src")
        pathlib.Path(folder, "switch.rt").write_text(SWITCH)
        library = pathlib.Path(folder, "lib.rt")
        text = library.read_text(encoding="utf-8")
        text = re.sub(r"^((?:pub )?mod )", r"mod switch;\n\1", text, count=1, flags=re.M)
        library.write_text(text, encoding="utf-8")


def asking(module: str) -> str:
    """A module of LLVM, in which the environment tells which wrong body is taken."""
    changed, count = TAKEN.subn(ASKED, module)
    if not count:
        sys.exit("the module has no function that tells which wrong body is taken")
    return changed + "declare zeroext i1 @wrong_body_is(i32)\n"


def build_here(out: str) -> None:
    """Builds the program of these crates."""
    with tempfile.TemporaryDirectory() as folder:
        asks = os.path.join(folder, "asks.c")
        pathlib.Path(asks).write_text(ASKS)
        unproved.build(out, asking, asks)


def build(folder: str, tried: list[Edit]) -> None:
    """Builds the program with all these edits to a folder."""
    with tempfile.TemporaryDirectory(prefix="suites-") as room:
        for name in ("crates", "tools", "bench", "tests"):
            left = shutil.ignore_patterns("out", "gate", "wrong", "__pycache__")
            shutil.copytree(os.path.join(measure.TOP, name), os.path.join(room, name), ignore=left)
        for name in ("crates.txt", "HANDLES"):
            shutil.copy(os.path.join(measure.TOP, name), room)
        with_switch(room)
        for number, edit in enumerate(tried, 1):
            twice.put_in(os.path.join(room, "crates"), edit, number)
        words = [sys.executable, "-c", "import sys, harm; harm.build_here(sys.argv[1])"]
        words.append(os.path.abspath(program_in(folder)))
        subprocess.run(words, cwd=os.path.join(room, "bench"), check=True)


def program_in(folder: str) -> str:
    return os.path.join(folder, "suites")


class Program:
    """The program in which one wrong body is taken, or none."""

    def __init__(self, folder: str, number: int) -> None:
        self.folder, self.number = folder, number

    def run(self, command: str, words: typing.Sequence[str], given: bytes) -> tuple[int, bytes]:
        """The status of a command and what it prints."""
        done = subprocess.run(
            [program_in(self.folder), command, *words],
            input=given,
            stdout=subprocess.PIPE,
            stderr=subprocess.DEVNULL,
            env={**os.environ, "WRONG_BODY": str(self.number)},
            preexec_fn=limit,
        )
        return done.returncode, done.stdout


def limit() -> None:
    """Limits what a process takes."""
    resource.setrlimit(resource.RLIMIT_AS, (MOST_BYTES, MOST_BYTES))
    resource.setrlimit(resource.RLIMIT_CPU, (MOST_SECONDS, MOST_SECONDS))


class Shown(typing.NamedTuple):
    """What shows a wrong body: how much it weighs, how many events, what comes of them, the story, the events."""

    weight: int
    events: int
    what: str
    story: str = ""
    script: str = ""

    def told(self) -> str:
        events = f"{self.events} events: {self.script}" if self.script else ""
        shows = ("answer", "ways", "end", "nothing")[self.weight]
        pairs = (("shows", shows), ("comes", self.what), ("story", self.story), ("script", events))
        return "".join(f"{word}: {text}\n" for word, text in pairs if text)


ANSWER, WAYS, ENDS, NOTHING = range(4)
# With this status `explore` ends where it did not look at all worlds.
NOT_ALL = 7


def significant(text: str) -> list[str]:
    """The lines of a script that say something."""
    return [line for line in text.splitlines() if line.strip() and not line.lstrip().startswith("#")]


def script_of(program: Program, words: list[str], story: str, way: int) -> tuple[str, list[str]]:
    """The script of a way, and those of its lines that stand in the place of what the story has below `together`."""
    _, script = program.run("explore", [*words, "--way", str(way)], story.encode())
    above = significant(story.partition("\ntogether")[0])
    return script.decode(), significant(script.decode())[len(above) :]


def brief(events: list[str]) -> str:
    """Events in few words: a job that is begun is the agent's next one."""
    return ", ".join(re.sub(r"^(begin \d+) .*", r"\1", line) for line in events)


def wrong_answer(program: Program, script: str) -> str:
    """Which decided answer of a script's run is not that of the plain table, if one is not."""
    status, events = program.run("trace", ["--json"], script.encode())
    if status != 0:
        return f"the run ends with status {status}"
    try:
        run = compare.Run([*map(json.loads, events.splitlines())])
        table = compare.table_script(script, run)
        _, printed = Program(program.folder, 0).run("table", [], table.encode("latin1"))
        found, _ = compare.differences_of(run, printed.decode("latin1").splitlines())
    except (KeyError, IndexError, ValueError) as error:
        return f"no run of transactions: {error!r}"
    return found[0] if found else ""


class Story(typing.NamedTuple):
    """A story: its name, the words with which it is explored, its text, and its ways."""

    name: str
    words: list[str]
    text: str
    ways: str

    def worlds(self) -> int:
        """How many worlds there are, as the last line of the ways says."""
        return int(self.ways.split()[-2])

    def title(self) -> str:
        return " ".join([f"`{self.name}`", *self.words])


def stories() -> list[Story]:
    """All stories, those with few worlds first."""
    found = (Story(one.name, one.words.split(), one.text, one.ways) for one in explored.kept())
    return sorted(found, key=Story.worlds)


@functools.cache
def right_runs(folder: str, name: str) -> list[tuple[str, list[str], bytes]]:
    """Of the first ways of a story the script, its events, and what `trace` tells of it, with no wrong body."""
    right, story = Program(folder, 0), next(one for one in stories() if one.name == name)
    found = []
    for place in range(1, min(MOST_PLAYED, len(explored.read(story.ways))) + 1):
        script, events = script_of(right, story.words, story.text, place)
        found.append((script, events, right.run("trace", [], script.encode())[1]))
    return found


def of_plays(program: Program, story: Story) -> Shown | None:
    """What the scripts of the ways of a story show, where they are played with a wrong body."""
    others = None
    for script, events, lines in right_runs(program.folder, story.name):
        status, told = program.run("trace", [], script.encode())
        if told != lines:
            wrong = wrong_answer(program, script)
            if wrong:
                return Shown(ANSWER, explored.steps_in(events), f"played: {wrong}", story.title(), brief(events))
            if own_lines(told) != own_lines(lines):
                what = "played, the script of a way has other lines"
                others = others or Shown(WAYS, explored.steps_in(events), what, story.title(), brief(events))
    return others


def own_lines(told: bytes) -> list[bytes]:
    """Of what `trace` tells, the lines that `play` prints."""
    return [line for line in told.split(b"\n") if line[:1] not in (b">", b"=", b" ")]


def of_story(program: Program, story: Story) -> Shown | None:
    """What a story shows of a wrong body; nothing, where all that is told is as it is to be."""
    short: Shortening = tuple
    if "--brief" in story.words:
        short = shortened
    wanted = {short(way) for way in explored.read(story.ways)}
    words = [*story.words, "--worlds", str(MOST_TIMES * story.worlds())]
    status, printed = program.run("explore", words, story.text.encode())
    told = printed.decode("latin1")
    if (status, told) == (0, story.ways):
        return of_plays(program, story)
    if status not in (0, NOT_ALL):
        what = "a run does not end" if status < 0 else f"the search ends with status {status}"
        return Shown(ENDS, 0, what, story.title())
    whole = [word for word in words if word != "--brief"]
    if whole != words:
        told = program.run("explore", whole, story.text.encode())[1].decode("latin1")
    found = explored.read(told)
    others = [place for place, way in enumerate(found, 1) if short(way) not in wanted]
    first = None
    for place in others[:MOST_PLAYED]:
        script, events = script_of(program, whole, story.text, place)
        first = first or events
        wrong = wrong_answer(program, script)
        if wrong:
            return Shown(ANSWER, explored.steps_in(events), wrong, story.title(), brief(events))
    gone = 0 if status == NOT_ALL else len(wanted - {short(way) for way in found})
    if not others and not gone:
        if status == NOT_ALL:
            return Shown(ENDS, 0, "the search goes on", story.title())
        return Shown(NOTHING, 0, "the same ways, in other runs", story.title())
    what = f"of {len(wanted)} ways {gone} are gone, and {len(others)} others are told"
    return Shown(WAYS, explored.steps_in(first or []), what, story.title(), brief(first or []))


def shortened(way: tuple[str, ...]) -> tuple[str, ...]:
    """A way without what stands behind the code of what is undecided."""
    return tuple(explored.BEHIND.sub(r"\1", line) for line in way)


def rows_that_differ(program: Program) -> int:
    """How many rows of `play` are answered otherwise."""
    rows = (row for row in played.rows() if row["words"] == [b"play"])
    return sum(program.run("play", [], row["input"]) != (row["status"], row["output"]) for row in rows)


def best_of(program: Program, told: list[Story]) -> Shown:
    """What shows a wrong body best: the first story with a wrong answer, or else with other ways."""
    best = Shown(NOTHING, 0, NO_STORY)
    for story in told:
        found = of_story(program, story)
        if found and (found.weight < best.weight or best.what == NO_STORY):
            best = found
        if best.weight == ANSWER or (found and found.weight == ENDS):
            break
    return best


def shown(folder: str, edit: Edit, number: int) -> str:
    """What is told of a wrong body."""
    program = Program(folder, number)
    return f"{edit.crate}/{edit.name}\n{best_of(program, stories()).told()}rows: {rows_that_differ(program)}\n"


def main() -> None:
    read = measure.console.words(__doc__)
    read.add_argument("--only")
    read.add_argument("--keep")
    given = read.parse_args()
    tried = twice.edits()
    with tempfile.TemporaryDirectory() as room:
        folder = given.keep or room
        if not os.path.exists(program_in(folder)):
            build(folder, tried)
        if shown(folder, Edit("no", "wrong body", []), 0) != RIGHT:
            sys.exit("without a wrong body not all is as it is to be")
        chosen = [
            (number, edit)
            for number, edit in enumerate(tried, 1)
            if twice.changes_of(edit) and given.only in (None, f"{edit.crate}/{edit.name}")
        ]
        for place, (number, edit) in enumerate(chosen):
            print(f"{chr(10) if place else ''}{shown(folder, edit, number)}", end="", flush=True)


if __name__ == "__main__":
    measure.console.run(main, "stopped")
