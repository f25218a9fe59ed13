"""Why jobs of a run ended so, as `explain` tells it of their printed lines: what a page says beside its events."""
from collections.abc import Iterator

from explain import play_lines
from trace import json_events
from trace.events import Run

# Of so many ends is told why at most: of a denial the plain table is played.
MOST_TOLD = 200
MORE = "./suites explain tells why, with this line and the script."


def told(run: play_lines.Played, job: play_lines.Job, script: str, number: int) -> list[str]:
    """What there is to say of how a job ended, but for what its line says itself."""
    how = json_events.ended(job.ending.split(" ", 2)[2])
    if how["how"] == "answered":
        return []
    why = play_lines.WHY[how["code"] if how["how"] == "undecided" else how["how"]]
    return [*why(play_lines.Ended(run, job, how, script, number))]


def ends_of(script: bytes, first: int, last: int) -> Iterator[tuple[int, list[str]]]:
    """The numbers of the events with which jobs ended undone, from one event to another, and why."""
    text = script.decode("latin1")
    with Run(script) as playing:
        run = play_lines.Played(playing.play(), playing)
        lines = dict(run.printed)
        ended = sorted((job.ended, job) for job in run.jobs.values() if job.ended is not None)
        some = [(at, job) for at, job in ended if first <= at <= last and " answered " not in job.ending]
        for place, (at, job) in enumerate(some):
            yield at, told(run, job, text, lines[job.ending]) if place < MOST_TOLD else [MORE]


def whys_of(script: bytes, first: int, last: int) -> dict[str, list[str]]:
    """The same by the numbers of events, of those of which there is something to say."""
    return {str(at): lines for at, lines in ends_of(script, first, last) if lines}
