"""Runs the built program on an input, and says how long it took and how much memory it held at most."""
import operator
import os
import subprocess
import sys
import tempfile
import typing

TOP = os.path.realpath(os.path.join(os.path.dirname(os.path.abspath(__file__)), ".."))
# What benches take of tests and tools: the one edit of where modules are looked for.
sys.path += [os.path.join(TOP, "tests"), os.path.join(TOP, "tools")]
import scratch  # noqa: E402, F401
from common import console  # noqa: E402, F401
from front import trial  # noqa: E402, F401

PROGRAM = os.path.join(TOP, "crates", "suites", "out", "suites")
# A child's peak begins with that of the process that starts it, so a process of its own starts it, which is small.
STARTER = """
import os
import sys
import time
begin = time.monotonic()
child = os.posix_spawn(sys.argv[2], sys.argv[2:], os.environ)
_, status, usage = os.wait4(child, 0)
seconds = time.monotonic() - begin
with open(sys.argv[1], "w") as figures:
    spent = usage.ru_utime + usage.ru_stime
    figures.write(f"{os.waitstatus_to_exitcode(status)} {seconds} {spent} {usage.ru_maxrss / 1024}")
"""


class Ran(typing.NamedTuple):
    """A run: its status and output, the seconds that it lasted and that a processor worked, and its most MiB."""

    status: int
    output: bytes
    seconds: float
    work: float
    peak: float


def run(words: list[str], data: bytes) -> Ran:
    """A run of these words, on these bytes."""
    if not os.path.exists(words[0]):
        sys.exit(f"{words[0]} is not there: run ./suites --prove first, which builds it")
    with tempfile.TemporaryFile() as source, tempfile.TemporaryFile() as target, tempfile.NamedTemporaryFile() as told:
        source.write(data)
        source.seek(0)
        starter = [sys.executable, "-I", "-S", "-c", STARTER, told.name, *words]
        subprocess.run(starter, stdin=source, stdout=target, check=True)
        target.seek(0)
        status, *figures = told.read().decode().split()
        return Ran(int(status), target.read(), *map(float, figures))


def least(by: str, words: list[str], data: bytes, times: int = 5) -> Ran:
    """The run with the least seconds of some: `work`, which is more to trust than a clock's, or `seconds`."""
    return min((run(words, data) for _ in range(times)), key=operator.attrgetter(by))


def two_programs(doc: str) -> tuple[str, str | None]:
    """The words of a bench: the program that it measures, and perhaps another one beside it."""
    read = console.words(doc)
    read.add_argument("program", nargs="?", default=PROGRAM)
    read.add_argument("other", nargs="?")
    given = read.parse_args()
    return given.program, given.other


def head(title: str) -> None:
    """Begins a table of figures."""
    idle = least("seconds", ["/bin/true"], b"")
    nothing = f"{1000 * idle.seconds:.1f} ms, {idle.peak:.1f} MiB"
    print(f"{title} ({os.cpu_count()} cores; a program that does nothing: {nothing})")
