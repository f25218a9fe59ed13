"""python3 tools remarks six
python3 tools remarks silent PROGRAM SCRIPT

What `./suites` says once the program has ended, which does not say it itself. `six`: which of its three reasons
status 6 has, by the standard input and output that the program had too. `silent`: which lines of a script of `play`
did nothing, and which agents still have a job at its end. The program plays the script once more for that, where it
can matter.
"""
import os
import pathlib
import re
import select
import stat
import subprocess
import typing

from common import console

MOST_INPUT = 16 << 20
ENDED = re.compile(r"(\d+)\.(\d+) (\d+) (?:answered|denied|refused|undecided|swept)\b")
# So many lines are told, and so many seconds the program may play once more.
TOLD, PATIENCE = 10, 20


# ---- status 6

def why_not_read() -> str | None:
    """Why standard input cannot be read, or is too long; nothing where neither shows."""
    if 0 in console.CLOSED:
        return "a read failed: standard input is closed"
    kind = os.fstat(0)
    if stat.S_ISREG(kind.st_mode) and kind.st_size > MOST_INPUT:
        return f"the input is above 16 MiB: it has {kind.st_size:,} bytes"
    try:
        # what the program left of a pipe is what it did not want to read any more
        has_more = not stat.S_ISREG(kind.st_mode) and bool(select.select([0], [], [], 0)[0]) and bool(os.read(0, 1))
    except OSError as error:
        return f"a read failed: {error.strerror}"
    return "the input is above 16 MiB" if has_more else None


def why_not_written() -> str | None:
    """Why nothing can be written to standard output; nothing where that does not show."""
    if 1 in console.CLOSED:
        return "a write failed: standard output is closed"
    poll = select.poll()
    poll.register(1, select.POLLOUT)
    if any(found & (select.POLLERR | select.POLLHUP) for _, found in poll.poll(0)):
        return "a write failed: nobody reads any more"
    kind = os.fstat(1).st_mode
    is_full = stat.S_ISREG(kind) and os.fstatvfs(1).f_bavail == 0
    return "a write failed: the disk is full" if is_full or os.readlink("/proc/self/fd/1") == "/dev/full" else None


def why_six() -> str:
    found = why_not_read() or why_not_written()
    if found:
        return found
    # nothing fails there, so it was the input, all of which was read
    can_fail = stat.S_ISREG(os.fstat(1).st_mode)
    return "a write failed, or the input is above 16 MiB" if can_fail else "the input is above 16 MiB"


# ---- what did nothing

class Line(typing.NamedTuple):
    """A line of a script that is about an agent's job."""

    number: int
    first: str
    agent: int
    steps: int


def lines_of(script: str) -> list[Line]:
    found = []
    for number, words in enumerate((line.split() for line in script.split("\n")), 1):
        if words and words[0] in ("begin", "sweep", "step", "run"):
            steps = int(words[2]) if words[0] == "step" and len(words) > 2 else 1
            found.append(Line(number, words[0], int(words[1]), steps))
    return found


def may_be_silent(lines: list[Line]) -> bool:
    """Whether a line may do nothing, or a job be left: where not each job is run to its end before the next."""
    busy: set[int] = set()
    for line in lines:
        if (line.first in ("begin", "sweep")) == (line.agent in busy) or line.first == "step":
            return True
        busy ^= {line.agent}
    return bool(busy)


def silent(lines: list[Line], printed: str) -> typing.Iterator[str]:
    """What is to be told of them, by the lines that the program printed of jobs that ended."""
    requests = {
        (int(found[1]), int(found[2])): int(found[3]) for found in map(ENDED.match, printed.split("\n")) if found
    }
    # of each agent: how many jobs it had, how many steps of the last one were taken, and the line where that begins
    jobs: dict[int, int] = {}
    steps: dict[int, int] = {}
    begun: dict[int, int] = {}
    for line in lines:
        agent, ends = line.agent, requests.get((line.agent, jobs.get(line.agent, 0)))
        if line.first in ("begin", "sweep"):
            if agent in begun:
                yield f"line {line.number} did nothing: agent {agent} has a job (line {begun[agent]})"
            else:
                begun[agent], steps[agent] = line.number, 0
        elif agent not in begun:
            yield f"line {line.number} did nothing: agent {agent} has no job"
        else:
            steps[agent] += line.steps
            if ends is not None and (line.first == "run" or steps[agent] >= ends and line.steps):
                jobs[agent] = jobs.get(agent, 0) + 1
                del begun[agent]
    for agent, number in begun.items():
        yield f"agent {agent} has a job that has not ended (line {number}); run {agent} ends it"


def told_of(program: str, path: str) -> list[str]:
    """What is told of a script that the program played to its end."""
    script = pathlib.Path(path).read_bytes()
    lines = lines_of(script.decode("latin1"))
    if not may_be_silent(lines):
        return []
    try:
        done = subprocess.run(
            [program, "play"], input=script, stdout=subprocess.PIPE, stderr=subprocess.DEVNULL, timeout=PATIENCE
        )
    except subprocess.TimeoutExpired:
        return []
    found = list(silent(lines, done.stdout.decode("latin1"))) if done.returncode == 0 else []
    return found[:TOLD] + ([f"and {len(found) - TOLD} more"] if len(found) > TOLD else [])


def main() -> int:
    read = console.words(__doc__)
    read.add_argument("what", choices=["six", "silent"])
    read.add_argument("program", nargs="?")
    read.add_argument("script", nargs="?")
    given = read.parse_args()
    for text in [why_six()] if given.what == "six" else told_of(given.program, given.script):
        console.Teller().say(text)
    return 0
