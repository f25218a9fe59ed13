"""The ways of a script of `explore` as a page: a tree of how the jobs end, what was asked of them, and the run that
leads to each, which is stepped as on the page of `show`.

The program tells the ways, and the script that leads to each (`--way K`); `trace` tells the events of that. In which
order transactions were decided there is told by these. The events that all runs have at first stand in the page once.
"""
import json
import os
import re
import sys
import typing
from collections.abc import Callable, Iterable, Sequence

from common import console, numbers
from explore import queries
from show import show
from trace.events import Event, begun, decided

# So many runs are on a page at most, those of the first ways; what is to be typed for another one stands there.
MOST_RUNS = 100
HEAD = re.compile(r"way (\d+) ?(.*)")


class Way(typing.NamedTuple):
    """A way: its number, what stands behind that, a line for each job, and the order of decisions, if told."""

    number: int
    about: str
    lines: list[str]
    decided: list[str] | None


class Run(typing.NamedTuple):
    """A run that leads to a way: its script, its events, and the jobs in the order in which they were decided."""

    script: list[str]
    events: list[str]
    decided: list[str]
    asked: dict[str, str]
    whys: dict[str, list[str]]


def ways_of(lines: Sequence[str]) -> list[Way]:
    ways = list[Way]()
    for line in lines:
        head = HEAD.fullmatch(line)
        if head:
            ways.append(Way(int(head[1]), head[2], [], None))
        elif ways and line.split(" ")[0] == queries.ORDER:
            ways[-1] = ways[-1]._replace(decided=line.split()[1:])
        elif ways and not re.match(r"(all|not all:) ", line):
            ways[-1].lines.append(line)
    return ways


def decided_in(told: Iterable[Event]) -> list[str]:
    """The jobs whose transactions were decided in a run, in that order, by their names: of each its first verdict."""
    decisions = filter(None, map(decided, told))
    return ["{}.{}".format(*numbers.job_of(t)) for t in dict.fromkeys(t for t, _ in decisions)]


def asked_in(told: Iterable[Event]) -> dict[str, str]:
    """What the jobs of a run ask, by their names."""
    found = dict[str, str]()
    for event in filter(begun, told):
        words = event["text"].split()
        is_sweep = words[0] == "sweep"
        text = f"a sweep of server {words[2]}" if is_sweep else f"user {words[2]}: {' '.join(words[5:])}"
        found["{}.{}".format(*begun(event))] = text
    return found


def run_of(script: bytes) -> Run:
    shown = show.shown_of(script, 0, sys.maxsize)
    told = [*map(json.loads, shown.events)]
    lines = script.decode("utf-8", "replace").splitlines()
    return Run(lines, shown.events, decided_in(told), asked_in(told), shown.whys)


def runs_of(ways: Sequence[Way], leads: Callable[[int], bytes], say: Callable[[str], None]) -> dict[int, Run]:
    """The runs that lead to the first ways, as many as a page holds."""
    runs, count = dict[int, Run](), 0
    for way in ways[:MOST_RUNS]:
        say(f"way {way.number} of {len(ways)}")
        run = run_of(leads(way.number))
        count += len(run.events)
        if runs and count > show.MOST_EVENTS:
            break
        runs[way.number] = run
    return runs


def data_of(ways: Sequence[Way], runs: dict[int, Run], command: Callable[[int], str]) -> list[dict[str, object]]:
    """The ways as the page has them: of events those that not all runs have at first, of other ways what is typed."""
    shared = len(os.path.commonprefix([run.events for run in runs.values()]))
    told = list[dict[str, object]]()
    for way in ways:
        about: dict[str, object] = {"number": way.number, "about": way.about, "lines": way.lines}
        run = runs.get(way.number)
        if run:
            own = [job for job in run.decided if any(line.startswith(f"{job} ") for line in way.lines)]
            about |= {"shared": shared, "events": run.events[shared:], "script": run.script, "decided": own}
            about["whys"] = run.whys
        else:
            about |= {"command": command(way.number), "decided": way.decided or []}
        told.append(about)
    return told


def answers_to(questions: Sequence[queries.Question], lines: Sequence[str], is_all: bool) -> list[dict[str, object]]:
    """What was asked, how often it is so, and in which ways."""
    ways, answers = list(queries.ways_in(lines)), list(map(queries.Answer, questions))
    for number, way in enumerate(ways, 1):
        for answer in answers:
            answer.look(number, way)
    count = len(ways)
    return [{"text": one.line(count, is_all), "kind": one.kind(count), "ways": one.found} for one in answers]


def page_of(
    printed: str, questions: Sequence[queries.Question], leads: Callable[[int], bytes], command: Callable[[int], str]
) -> str:
    """The page of what the program printed; what leads to a way, and what is typed for it."""
    lines = printed.splitlines()
    ways, teller = ways_of(lines), console.Teller()
    if not ways:
        raise console.Stop(f"there is no way to be shown: {lines[-1] if lines else 'nothing was told'}")
    wrong = queries.unknown(questions, next(queries.ways_in(lines)))
    if wrong:
        raise console.Bad(wrong)
    runs = runs_of(ways, leads, lambda text: teller.say(text, False))
    teller.clear()
    first = runs[ways[0].number]
    more = {
        "ways": data_of(ways, runs, command), "last": lines[-1],
        "jobs": {job: text for run in reversed(runs.values()) for job, text in run.asked.items()},
        "answers": answers_to(questions, lines, not lines[-1].startswith("not all")),
    }
    script = "".join(f"{line}\n" for line in first.script).encode()
    return show.page_of(script, show.Shown(first.events, None, first.whys), show.Besides("ways.js", "ways", more))
