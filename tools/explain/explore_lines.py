"""What is told of a line that `explore` printed of a script, with that script: which line of it a job is, and how one
comes to a way.
"""
import collections
import re
import typing

from explain import faults, play_lines, tool_lines

LINE = "together"
WAY = re.compile(r"way (\d+)(?: in \d+ of \d+ ends|: \d+ (?:worlds at the end|runs), \d+ of them so)?$")
DECIDED = re.compile(r"decided((?: \d+\.\d+)*)$")
ENDED = re.compile(r"(\d+)\.(\d+) (.*)")
BEGINS = ("begin", "sweep")
AFTER = "after"
WAITS = re.compile(rf"{AFTER} (\d+)\.(\d+)( answered)?(?: |$)(.*)")


def is_explored(script: str) -> bool:
    """Whether a script is one of `explore`: of `play`, with the line `together`."""
    said = [line.split() for line in faults.lines_of(script)]
    return [LINE] in said and not any(words[:1] == ["do"] for words in said)


def without_wait(words: list[str]) -> list[str]:
    """The words of a line below, without those that say for which job it waits."""
    return words[3 if words[2:3] == ["answered"] else 2 :] if words[:1] == [AFTER] else words


def halves(script: str) -> tuple[str, list[tuple[int, list[str]]]]:
    """The part of a script above its line, and the jobs below it, each with its line's number."""
    lines = faults.lines_of(script)
    at = next(number for number, line in enumerate(lines) if line.split() == [LINE])
    below = [(at + 2 + place, without_wait(line.split())) for place, line in enumerate(lines[at + 1 :])]
    return "".join(f"{line}\n" for line in lines[:at]), [job for job in below if job[1][:1] and job[1][0] in BEGINS]


def jobs_of(script: str, name: str) -> dict[tuple[int, int], tuple[int, list[str]]]:
    """The jobs below the line: those of an agent and of a number have a line and its words."""
    above, below = halves(script)
    counts = collections.Counter(play_lines.played(above.encode("latin1"), name).counts)
    found = {}
    for number, words in below:
        agent = int(words[1])
        found[agent, counts[agent]] = number, words
        counts[agent] += 1
    return found


def of_together(script: str, number: int, name: str) -> typing.Iterator[str]:
    """What is told where a command of other scripts refuses the line of a script of `explore`."""
    lines = faults.lines_of(script)
    if is_explored(script) and lines[number - 1 : number] and lines[number - 1].split() == [LINE]:
        yield (
            f"With this line it is a script of `explore`: `./suites explore < {name}` tells the ways in which the jobs"
            f" below it may end, and `./suites explore --way K < {name}` prints a script that leads to one, for"
            " `./suites play`, `trace`, `draw` and `show`."
        )


def of_wait(text: str) -> tuple[str, str] | None:
    """What the words of a line say that waits, and its other words."""
    found = WAITS.match(text)
    if not found:
        return None
    ended = "was answered; if it ends otherwise, this one is never begun" if found[3] else "has ended, in any way"
    return f"Of `explore`: the job behind it begins only once job {found[2]} of agent {found[1]} {ended}.", found[4]


def of_awaited(script: str, number: int) -> str:
    """Why a job that did not end may not have begun, where its line waits."""
    found = WAITS.match(" ".join(faults.lines_of(script)[number - 1].split()))
    ended = "is answered" if found and found[3] else "has ended"
    return f"; or it never began, since it waits until job {found[2]} of agent {found[1]} {ended}" if found else ""


def of_waiting(script: str, number: int, name: str) -> list[str]:
    """What is told of a faulty line that waits; nothing, where the line does not."""
    lines = faults.lines_of(script)
    line = lines[number - 1] if number <= len(lines) else ""
    if not is_explored(script) or line.split()[:1] != [AFTER]:
        return []
    told = [f"Line {number} of {name}, a script of `explore`:", "", f"    {line}", ""]
    if [LINE] not in [above.split() for above in lines[:number]]:
        return [*told, f"No line above `{LINE}` waits."]
    try:
        jobs = ", ".join(f"{agent}.{count}" for agent, count in sorted(jobs_of(script, name)))
    except (IndexError, ValueError):
        jobs = "A.C"
    return [
        *told,
        f"A line waits by `after A.C` or `after A.C answered`, and behind that `begin` or `sweep`. A.C is a job below"
        f" `{LINE}` ({jobs}), of the line's own agent an earlier one.",
    ]


def of_line(text: str, script: str, name: str) -> typing.Iterator[str]:
    way, ended = WAY.match(text), ENDED.match(text)
    jobs = jobs_of(script, name)
    if way:
        yield f"It is a way in which the {len(jobs)} jobs below `{LINE}` of {name} may end."
        yield (
            f"`./suites explore --way {way[1]} < {name}` prints the script that leads there, for `./suites play` and"
            " `./suites trace`; with the options that it was found with."
        )
    elif ended and (int(ended[1]), int(ended[2])) in jobs:
        number, words = jobs[int(ended[1]), int(ended[2])]
        begun = faults.about(number, words, 2, 5)
        yield f"In this way so ends job {ended[2]} of agent {ended[1]}, which is begun by {begun}."
        if ended[3] == "-":
            yield f"Agent {ended[1]} stopped before it had ended{of_awaited(script, number)}."
    elif ended:
        yield f"{name} has no such job below `{LINE}`. Was it changed?"
    elif DECIDED.match(text):
        yield "In the script that leads to this way the jobs were decided in this order."
    elif tool_lines.of_forms(text, "ask"):
        yield f"It answers a question of the ways in which the {len(jobs)} jobs below `{LINE}` of {name} may end."
    else:
        yield f"It is told last of the {len(jobs)} jobs below `{LINE}` of {name}."
