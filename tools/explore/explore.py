"""./suites explore [OPTIONS] < SCRIPT

Tells every way in which the jobs below the line `together` of a script of events may end; help/explore.txt tells all
of it. The program does the work. Here its words are looked at, questions of the ways that it tells are
answered (`asked`), and on a terminal it is told how many worlds it has looked at, and what its exit status means.
"""
import argparse
import contextlib
import os
import re
import shlex
import subprocess
import sys
import tempfile
import threading
import time
import typing

from common import built, console, memory
from explore import queries, smaller

# The options that tell a number, with the least and the most that each may be.
NUMBERS = {
    "--crashes": (0, 255),
    "--returns": (0, 255),
    "--forgets": (0, 255),
    "--stops": (0, 255),
    "--worlds": (1, 4_294_967_295),
    "--sample": (1, 4_294_967_295),
    "--seed": (0, 2**64 - 1),
    "--way": (1, 4_294_967_295),
}
DONE, COMMAND_LINE, FAULTY, NO_MEMORY, NO_STREAM, NOT_ALL = 0, 2, 3, 4, 6, 7
# The options with which the jobs are told at once: every agent may stop where it is.
AT_ONCE = ["--worlds", "1", "--stops", "255"]
# The most bytes of a script, and one that is too many.
MOST_READ = (16 << 20) + 1
# How often it is looked whether the program has ended, in seconds.
PAUSE = 0.1
# What the program says of how far it is, where it is asked to by this word.
PROGRESS, LOOKED = "--progress", re.compile(rb"(\d+) worlds\n")


def number_of(option: str) -> typing.Callable[[str], int]:
    least, most = NUMBERS[option]

    def read(word: str) -> int:
        if not (word.isascii() and word.isdigit() and len(word) <= len(str(most)) and least <= int(word) <= most):
            raise argparse.ArgumentTypeError(f"a number of {least} to {most} is told, and not {word}")
        return int(word)

    return read


def read(words: list[str]) -> argparse.Namespace:
    parser = console.Parser("explore")
    parser.add_argument("--brief", action="store_true")
    parser.add_argument("--order", action="store_true")
    for option in NUMBERS:
        parser.add_argument(option, type=number_of(option))
    parser.add_argument("--ask", type=queries.read, action="append")
    parser.add_argument("--page", action="store_true")
    parser.add_argument("--small", action="store_true")
    parser.add_argument("files", nargs="*")
    given = parser.parse_args(words)
    if given.ask and (given.brief or given.way is not None):
        parser.error("--ask is asked of all ways as they are, without --brief and --way")
    if given.page and given.way is not None:
        parser.error("a page has all ways: it is asked for without --way")
    if given.small and (given.way is not None) + len(given.ask or []) != 1:
        parser.error("a script is made --small that --way K or one question leads to")
    if given.seed is not None and given.sample is None:
        parser.error("a seed draws the orders of --sample N: it is told beside that")
    if given.sample is not None and (given.worlds is not None or given.page):
        parser.error("orders that are drawn are played without --worlds and --page")
    if given.files and not given.help:
        name = shlex.quote(given.files[0])
        raise console.Bad(f"a script is read from standard input: ./suites explore < {name}")
    # what was decided first is told only where it is asked for
    given.order = given.order or any(question.ordered for question in given.ask or [])
    if given.order and (given.sample is not None or given.small):
        parser.error("what is decided first is told of all ways, without --sample and --small")
    return given


def words_of(given: argparse.Namespace) -> list[str]:
    """The words for the program: each option once."""
    numbers = {option: getattr(given, option.strip("-")) for option in NUMBERS}
    told = [word for option, number in numbers.items() if number is not None for word in (option, str(number))]
    return told + [option for option, is_given in (("--brief", given.brief), ("--order", given.order)) if is_given]


def advice(status: int, given: argparse.Namespace, last: str) -> str:
    """What an exit status means, where it says more than the line that is printed."""
    if status == COMMAND_LINE and given.way is not None:
        is_found = "was not found" if last.startswith(("not all", "sampled")) else "is not there"
        return f"way {given.way} {is_found}: {last}"
    if status == FAULTY:
        return f"./suites explain {shlex.quote(last)} tells what it means"
    if status == NO_STREAM:
        return "the input is above 16 MiB, or a read or a write failed (./suites explain 'status 6')"
    if status == NOT_ALL and given.sample is not None:
        return "each way told is one of orders that were drawn, and others may be missing"
    if status == NOT_ALL:
        why = "as many worlds as --worlds tells were looked at, or " if given.worlds is not None else ""
        return f"each way told is one, and others may be missing: {why}memory ran out"
    return ""


class Looked(threading.Thread):
    """Hears from the program how many worlds it has looked at. What else it says on standard error is passed on."""

    def __init__(self, said: typing.IO[bytes], most: int = 0) -> None:
        super().__init__(daemon=True)
        self.said, self.most = said, most
        # When it told of them first and last, and how many these were.
        self.first: tuple[float, int] | None = None
        self.last: tuple[float, int] | None = None
        self.start()

    def run(self) -> None:
        for line in self.said:
            found = LOOKED.fullmatch(line)
            if found:
                now = time.monotonic(), int(found[1])
                self.first, self.last = self.first or now, now
            else:
                console.Teller().clear()
                sys.stderr.buffer.write(line.removesuffix(b"\n") + b"\n")
                sys.stderr.flush()

    def told(self) -> str:
        """How many worlds these are, and how many a second, to three digits."""
        if not self.first or not self.last or self.first == self.last:
            return ""
        (begun, before), (now, worlds) = self.first, self.last
        rate = (worlds - before) / (now - begun)
        left = f", {max(0, self.most - worlds) / rate:,.0f} s left at most" if self.most else ""
        return f": {worlds:,} worlds, {float(f'{rate:.3g}'):,.0f} a second{left}"


def watched(process: subprocess.Popen[bytes], most: int) -> None:
    progress, looked = console.Progress(), Looked(process.stderr, most)
    try:
        while process.poll() is None:
            with contextlib.suppress(subprocess.TimeoutExpired):
                process.wait(PAUSE)
            progress.say(f"explore is at work{looked.told()}")
        looked.join()
    finally:
        progress.end()


def most_of(options: list[str]) -> int:
    """How many worlds are looked at, at most; 0, where that is not told."""
    told = [word for before, word in zip(options, options[1:]) if before == "--worlds"]
    return int(told[0]) if told and told[0].isdigit() else 0


def status_of(options: list[str], printed: typing.IO[bytes], script: typing.IO[bytes] | None = None) -> int:
    """Runs the program on a script, or on standard input, and prints into a file. On a terminal it is watched."""
    is_watched = sys.stderr.isatty()
    words = [built.program(), "explore", *options, *([PROGRESS] if is_watched else [])]
    errors = subprocess.PIPE if is_watched else None
    process = subprocess.Popen(words, stdin=script, stdout=printed, stderr=errors, preexec_fn=memory.limit)
    try:
        if is_watched:
            watched(process, most_of(options))
        return process.wait()
    finally:
        if process.poll() is None:
            process.terminate()
            process.wait()


class Faulty(Exception):
    """With this status the program ended, and printed this instead of ways."""


@contextlib.contextmanager
def told_of(options: list[str], script: typing.IO[bytes]) -> typing.Iterator[tuple[int, typing.IO[bytes]]]:
    """The exit status of the program for a script, whether it told all ways or not, and what it printed, as a file."""
    with tempfile.TemporaryFile() as printed:
        script.seek(0)
        status = status_of(options, printed, script)
        printed.seek(0)
        if status not in (DONE, NOT_ALL):
            raise Faulty(status, printed.read())
        yield status, printed


@contextlib.contextmanager
def given_script() -> typing.Iterator[typing.IO[bytes]]:
    """Standard input, as a file that can be gone over again."""
    with tempfile.TemporaryFile() as script:
        script.write(sys.stdin.buffer.read(MOST_READ))
        yield script


def lines_of(printed: typing.IO[bytes]) -> typing.Iterator[str]:
    for line in printed:
        yield line.decode("latin1")


def jobs_told(given: argparse.Namespace, script: typing.IO[bytes]) -> queries.Way:
    """The jobs that ways tell, of which the questions have to be."""
    with told_of(AT_ONCE, script) as (_, printed):
        jobs = next(queries.ways_in(lines_of(printed)))
    wrong = queries.unknown(given.ask or [], jobs)
    if wrong:
        raise console.Bad(wrong)
    return jobs


def answer(given: argparse.Namespace) -> int:
    """Answers questions of the ways that the program tells, and tells how many these are."""
    with given_script() as script:
        jobs_told(given, script)
        with told_of(words_of(given), script) as (status, printed):
            answers, count = [queries.Answer(question) for question in given.ask], 0
            for count, way in enumerate(queries.ways_in(lines_of(printed)), 1):
                for one in answers:
                    one.look(count, way)
            printed.seek(0)
            head = b"sampled " if given.sample is not None else b"not all: " if status == NOT_ALL else b"all "
            last = printed.read().rpartition(b"\n" + head)
    shown: typing.Callable[[int], str] = lambda way: command_of(given, way)
    if given.sample is not None:
        said = "".join(one.drawn(shown) for one in answers)
    else:
        said = "".join(one.told(count, status == DONE, shown) for one in answers)
    return ended(given, status, said.encode("latin1") + head + last[2].removeprefix(head))


def small(given: argparse.Namespace) -> int:
    """Prints a smaller script that leads to a way: in which the jobs end so, or those of the question that is asked."""
    with given_script() as script:
        jobs, asked, way = jobs_told(given, script), given.ask or [], given.way
        if asked:
            with told_of(words_of(given), script) as (status, printed):
                ways = enumerate(queries.ways_in(lines_of(printed)), 1)
                way = next((number for number, one in ways if asked[0].holds(one)), None)
            if way is None:
                raise console.Stop(f"it is so in no way{'' if status == DONE else ' that was found'}: {asked[0].text}")
        given.way = way
        with told_of(words_of(given), script) as (status, printed):
            text = printed.read()
        if status != DONE:
            raise Faulty(status, text)
        script.seek(0)
        above = next(place for place, line in enumerate(script) if line.partition(b"#")[0].split() == [b"together"])
        least = smaller.Smaller(text.decode("latin1"), above, asked[0].jobs if asked else list(jobs)).least()
    return ended(given, DONE, least.encode("latin1"))


def page(given: argparse.Namespace) -> int:
    """Prints a page of the ways, each with a run that leads to it."""
    from show import ways_page

    with given_script() as script:

        def leads(way: int) -> bytes:
            try:
                with told_of([*words_of(given), "--way", str(way)], script) as (_, printed):
                    return printed.read()
            except Faulty as end:
                raise console.Stop(f"the run of way {way} is not told: status {end.args[0]}") from None

        with told_of(words_of(given), script) as (status, printed):
            text = printed.read()
        made = ways_page.page_of(text.decode("latin1"), given.ask or [], leads, lambda way: command_of(given, way))
    sys.stdout.buffer.write(made.encode())
    return status


def command_of(given: argparse.Namespace, way: int) -> str:
    """What prints the script that leads to a way."""
    name = "SCRIPT"
    with contextlib.suppress(OSError):
        path = os.readlink("/proc/self/fd/0")
        name = shlex.quote(os.path.relpath(path)) if os.path.isfile(path) else name
    return " ".join(["./suites explore", *words_of(given), f"--way {way}", "<", name])


def run(given: argparse.Namespace) -> int:
    """Runs the program, and prints what it prints once it has ended."""
    with tempfile.TemporaryFile() as printed:
        status = status_of(words_of(given), printed)
        printed.seek(0)
        return ended(given, status, printed.read())


def ended(given: argparse.Namespace, status: int, text: bytes) -> int:
    """Prints what the program printed, and on a terminal what its exit status means."""
    sys.stdout.buffer.write(text)
    sys.stdout.flush()
    if status < 0:
        console.Teller().say(console.ended("explore", status))
    told = advice(status, given, text.decode("latin1").rstrip("\n").rpartition("\n")[2])
    if told and (sys.stderr.isatty() or status == COMMAND_LINE):
        console.Teller().say(told)
    return console.status_of(status)


def main() -> int:
    given = read(sys.argv[1:])
    done = page if given.page else small if given.small else answer if given.ask else run
    try:
        return console.of_input("explore", given, done)
    except Faulty as end:
        return ended(given, *end.args)
