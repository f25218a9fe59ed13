"""./suites --test [--long]

Runs all tests that need no proof, side by side: the rows of crates/rows/stdin through the program that `./suites`
runs (which it first makes, where there is none), the tests of libraries, runs and commands without their proofs (`rt
try`), the examples of docs/FAULTS.md, the command lines that README.md, docs/FAULTS.md and docs/SCRIPTS.md show,
events, pictures and pages, what `explore` tells and answers, random scripts of `play` against the plain table, and the
checks of documents. With --long those too that take minutes: tests of tools, and what is drawn at random in larger
counts; every program that only tests and measurements have is compiled, instructions are counted, allocations are
refused, reads and writes fail, inputs are cut off, lies are told about runs, and races between threads are looked for.
The gate (.ci/run) begins with it, with --gate: without the tests of crates, which `rt ci` runs as they are proved.
Prints a line for each part as it ends, of a part that fails also what it printed, and last how many passed and failed.
Status 1 where one failed.
"""
import os
import re
import resource
import subprocess
import sys
import tempfile
import time
import typing

from common import TOP, console, memory, tool
from front import sources
from gate import gate

STOPPED = "stopped; nothing is kept of tests"
# The memory that a part was seen to take, in bytes, and the most seconds that it may last.
BYTES_A_PART, LIMIT = 2_500_000_000, 3600
# A test may take so many seconds beside other work.
TRY = ["rt", "try", "--test", "--seconds", "3000"]
# How parts tell what passed and failed: all and those that differ, or both as rt has it.
COUNTS = (
    (re.compile(r"^(\d+) .*[,;] (\d+) differ", re.M), lambda all_of_them, wrong: (all_of_them - wrong, wrong)),
    (re.compile(r"^test result: .*?(\d+) passed; (\d+) failed", re.M), lambda passed, failed: (passed, failed)),
)


class Part:
    """A part of the tests: its title, its command, and the titles of the parts that have to pass before it."""

    def __init__(
        self,
        title: str,
        words: list[str],
        after: typing.Sequence[str] = (),
        folder: str = ".",
        settings: typing.Mapping[str, str] | None = None,
    ) -> None:
        self.title, self.words, self.after, self.settings = title, words, after, dict(settings or {})
        self.folder = os.path.join(TOP, folder)
        self.counts: tuple[int, int] | None = None
        self.process: subprocess.Popen[bytes] | None = None
        self.log: typing.IO[bytes] | None = None
        self.begun, self.text = 0.0, ""

    def start(self) -> None:
        self.log, self.begun = tempfile.TemporaryFile(), time.monotonic()
        self.process = console.start(self.words, self.folder, self.log, env={**os.environ, **self.settings})

    def has_ended(self) -> bool:
        """Whether it has ended; counts what passed and failed."""
        late = time.monotonic() - self.begun > LIMIT
        if self.process.poll() is None and not late:
            return False
        console.stop(self.process)
        self.log.seek(0)
        self.text = self.log.read().decode("utf-8", "replace")
        found = [told(*map(int, match.groups())) for pattern, told in COUNTS for match in pattern.finditer(self.text)]
        passed, failed = map(sum, zip(*found)) if found else (int(self.process.returncode == 0), 0)
        # what compared nothing has not passed
        is_vain = passed == 0 and not self.is_left_out()
        self.counts = passed, max(failed, int(self.process.returncode != 0 or late or is_vain))
        return True

    def is_left_out(self) -> bool:
        """Whether the part says that it cannot be played here."""
        return re.search(r"^this needs |skipped", self.text, re.M) is not None

    def lines(self) -> str:
        """What is told of it, once it has ended or cannot be run."""
        if not self.process:
            return f"{self.title}: not run, since a part that it stands on failed"
        passed, failed = self.counts
        told = [line for line in self.text.splitlines() if line.startswith(("skipped: ", "told: "))]
        skipped = "".join(f" ({line.removeprefix('told: ')})" for line in told)
        line = f"{self.title}: {passed} passed, {failed} failed, {time.monotonic() - self.begun:.0f} s{skipped}"
        return f"{line}\n{console.tail(self.text, 60)}status {self.process.returncode}" if failed else line


def test(name: str, *words: str) -> list[str]:
    return [sys.executable, os.path.join(TOP, "tests", name), *words]


def tried(crate: str) -> dict[str, typing.Any]:
    return {"words": TRY, "folder": os.path.join("crates", crate)}


PROGRAM = "the program"
# What takes longest stands first, but for what tells at once that something is wrong.
PARTS = (
    Part("what pages show", tool("shown")),
    Part("what documents name", tool("named")),
    Part("words of pages", tool("page_words")),
    Part("texts of wrong bodies", tool("wrong_bodies", "--check")),
    Part("how edits are read", test("edits.py")),
    Part("what the ledger of wrong bodies takes", test("ledger.py")),
    Part("words of wrong bodies", tool("wrong_bodies_page", "--check")),
    Part("laws, and names in PROVED", tool("proved_page", "--check")),
    Part("what the gate holds", test("gated.py")),
    Part("forms in pages and help", tool("forms_page", "--check")),
    Part("words that need no build", test("wrapper.py")),
    Part("type hints", test("hints.py")),
    Part("functions that call themselves", test("self-calls.py")),
    Part("names of types", test("one-word.py")),
    Part("tests of runs", **tried("run_tests")),
    Part("tests of libraries", **tried("library_tests")),
    Part(PROGRAM, tool("choose")),
    Part("tests of commands", **tried("command_tests")),
    Part("rows", test("checked-build.py"), [PROGRAM]),
    Part("the table of forms", test("form-table.py"), [PROGRAM]),
    Part("everything that can happen", test("explored.py"), [PROGRAM]),
    Part("orders that are drawn", test("sampled.py"), [PROGRAM]),
    Part("questions of everything that can happen", test("asking.py"), [PROGRAM]),
    Part("orders of decisions", test("ordered.py"), [PROGRAM]),
    Part("little memory", test("small.py", "--part", "memory"), [PROGRAM]),
    Part("a stack of 1 MiB", test("small.py"), [PROGRAM]),
    Part("examples of FAULTS", test("explained.py"), [PROGRAM]),
    Part("damaged scripts", test("damaged-scripts.py", "--cases", "200"), [PROGRAM]),
    Part("command lines of documents", test("typed.py"), [PROGRAM]),
    Part("verdicts on histories", test("judged.py"), [PROGRAM]),
    Part("verdicts on what callers saw", test("logged.py", "--runs", "60"), [PROGRAM]),
    Part("how programs end", test("statuses.py"), [PROGRAM]),
    Part(
        "may against the kernel",
        test("may-against-the-kernel.py", "--questions", "100", "--mounts", "--if-possible"),
        [PROGRAM],
    ),
    Part("the mount", test("mount.py"), [PROGRAM]),
    Part("the mount against the kernel", test("mount-against-the-kernel.py"), [PROGRAM]),
    Part("the shell, import and stories", test("shell.py"), [PROGRAM]),
    Part("programs on the mount", test("mount-programs.py", "--well"), [PROGRAM]),
    Part("sessions and their journals", test("session.py"), [PROGRAM]),
    Part("events and pictures", test("events.py"), [PROGRAM]),
    Part("pages in a browser", test("shown_page.py"), [PROGRAM]),
    Part("what pages in a browser say", test("page_told.py"), [PROGRAM]),
    Part("the page of a session", test("live_page.py"), [PROGRAM]),
    Part("work done anew", test("work.py"), [PROGRAM]),
    Part("some lies about runs", test("lies.py", "--cases", "200"), [PROGRAM]),
    Part("random scripts", tool("compare", "--seeds", "200"), [PROGRAM]),
)
# What --long adds; of allocations each 61st is refused, and inputs are cut at each 29th byte.
LONG = (
    Part("how tools end", test("ends.py")),
    Part("what votes tells", test("votes.py"), [PROGRAM]),
    Part("answers of may", test("may.py"), [PROGRAM]),
    Part("the page of all ways", test("ways_shown.py"), [PROGRAM]),
    Part("everything that can happen, each way", test("explored.py", "--every", "1"), [PROGRAM]),
    Part("many orders that are drawn", test("sampled.py", "--scripts", "30", "--orders", "2000"), [PROGRAM]),
    Part("many orders of decisions", test("ordered.py", "--runs", "20", "--ways", "40", "--small", "4"), [PROGRAM]),
    Part("verdicts on what many callers saw", test("logged.py"), [PROGRAM]),
    Part("many damaged scripts", test("damaged-scripts.py", "--cases", "2000"), [PROGRAM]),
    Part("programs of tests and measurements", test("compiled.py")),
    Part("instructions", test("instructions.py")),
    Part("crates in another repository", test("taken.py")),
    Part("slow inputs", test("growth.py"), [PROGRAM]),
    Part("races", test("races.py", "--runs", "1")),
    Part("planted errors", test("planted.py"), [PROGRAM]),
    Part("the mount, long", test("mount-against-the-kernel.py", "--calls", "200000"), [PROGRAM]),
    Part("programs on the mount, and servers that crash", test("mount-programs.py"), [PROGRAM]),
    Part("faults of the mount", test("mount-faults.py"), [PROGRAM]),
    Part("the mount, judged", test("mount-judged.py"), [PROGRAM]),
    Part("sessions that are killed", test("session.py", "--long"), [PROGRAM]),
    Part("lies about runs", test("lies.py", "--cases", "1000"), [PROGRAM]),
    Part(
        "refused allocations",
        ["sh", os.path.join(TOP, "tests/refuse-each.sh")],
        [PROGRAM],
        settings={"EVERY": "61"},
    ),
    Part("refused allocations of explore", test("small.py", "--part", "refused", "--every", "61"), [PROGRAM]),
    Part(
        "refused allocations in tests",
        ["sh", os.path.join(TOP, "tests/refuse-in-test.sh")],
        settings={"IF_POSSIBLE": "1"},
    ),
    Part("inputs cut off, and streams that fail", test("damaged-runs.py"), [PROGRAM], settings={"EVERY": "29"}),
)


def lanes() -> int:
    """How many parts run side by side."""
    return max(1, min(gate.processors(), memory.free() // BYTES_A_PART))


def play_all(parts: typing.Sequence[Part], number: int, teller: console.Teller) -> None:
    """Plays the parts, so many at once, and tells of each; one that stands on a part that failed has failed with it."""
    left, running = list(parts), list[Part]()
    try:
        while left or running:
            counts = {part.title: part.counts for part in parts if part.counts}
            vain = [part for part in left if any(counts.get(title, (0, 0))[1] for title in part.after)]
            for part in vain:
                part.counts = 0, 1
            ready = [part for part in left if part not in vain and all(title in counts for title in part.after)]
            begun = ready[: number - len(running)]
            for part in begun:
                part.start()
                running.append(part)
            left = [part for part in left if part not in [*vain, *begun]]
            time.sleep(0.1)
            ended = [part for part in running if part.has_ended()]
            running = [part for part in running if part not in ended]
            for part in [*vain, *ended]:
                teller.clear()
                print(part.lines(), flush=True)
            teller.say(
                f"{len(parts) - len(left) - len(running)} of {len(parts)} parts done, {teller.seconds()} s", False
            )
    finally:
        for part in running:
            console.stop(part.process)


def main() -> int:
    read = console.words(__doc__)
    read.usage = "./suites --test [--long]"
    read.add_argument("--long", action="store_true")
    read.add_argument("--gate", action="store_true")
    given = read.parse_args()
    parts = [part for part in (*PARTS, *(LONG if given.long else ())) if not (given.gate and part.words is TRY)]
    sources.Kit().wanted()
    sources.make_folder()
    teller, number = console.Teller(), lanes()
    print(f"{len(parts)} parts, {number} at once", flush=True)
    play_all(parts, number, teller)
    passed, failed = (sum(part.counts[place] for part in parts) for place in (0, 1))
    spent = resource.getrusage(resource.RUSAGE_CHILDREN)
    teller.say(f"took {teller.seconds()} s, and {spent.ru_utime + spent.ru_stime:.0f} s of processor time")
    print(f"{passed} passed, {failed} failed")
    return 1 if failed else 0
