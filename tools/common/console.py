"""What the tools say on standard error, how two builds wait for each other, how a build is stopped, and with which
status and sentence a tool ends.
"""
import argparse
import contextlib
import errno
import fcntl
import itertools
import os
import shlex
import signal
import subprocess
import sys
import tempfile
import time
import typing

from common import text_of

NO_MEMORY, NO_STREAM, STOPPED = 4, 6, 130
DAY = 24 * 60 * 60
# After how many seconds it is said how far a tool is, and after how many more again.
PATIENCE, AGAIN = 2, 0.5
# What is wrong where a stream cannot be written, and where there is no memory.
NOT_WRITTEN = (errno.EPIPE, errno.ENOSPC, errno.EIO, errno.EBADF, errno.EFBIG, errno.EDQUOT)
# The standard streams that were closed as the tool began.
CLOSED = set[int]()
# A shell tells so a program that a signal ended: this and the number of the signal.
BY_SIGNAL = 128
# Why a signal ends a program, where that is known.
WHY = {
    signal.SIGKILL: "killed, as the system does where memory runs out",
    signal.SIGSEGV: "a crash, which is an error in it: please tell it",
    signal.SIGBUS: "a crash, which is an error in it, or a file that became shorter",
    signal.SIGABRT: "it gave up, which is an error in it: please tell it",
    signal.SIGXCPU: "it took all the processor time that it may",
    signal.SIGTERM: "stopped",
    signal.SIGINT: "stopped",
    signal.SIGHUP: "stopped, since its terminal is gone",
    signal.SIGPIPE: "nobody reads any more",
}


class Stop(Exception):
    """Ends a tool with a sentence."""


class Bad(Exception):
    """Ends a tool with a sentence: its words ask for nothing."""


class Teller:
    """Says how far a build is: one line that changes in a terminal, else a line a step."""

    def __init__(self) -> None:
        self.begun = time.monotonic()
        self.changes = bool(sys.stderr) and sys.stderr.isatty()

    def seconds(self) -> int:
        return int(time.monotonic() - self.begun)

    def clear(self) -> None:
        """Takes the line that changes off the terminal."""
        if self.changes:
            sys.stderr.write("\r\033[K")
            sys.stderr.flush()

    def say(self, text: str, stays: bool = True) -> None:
        text = f"suites: {text}"
        if self.changes:
            sys.stderr.write("\r\033[K" + text + ("\n" if stays else ""))
        elif stays:
            sys.stderr.write(text + "\n")
        sys.stderr.flush()


class Progress:
    """Says on a terminal how far a tool is, where that takes its time."""

    def __init__(self) -> None:
        self.teller, self.next, self.is_shown = Teller(), float(PATIENCE), False
        self.is_over = not self.teller.changes

    def say(self, text: str) -> None:
        seconds = time.monotonic() - self.teller.begun
        if not self.is_over and seconds >= self.next:
            self.next, self.is_shown = seconds + AGAIN, True
            self.teller.say(f"{text}, {int(seconds)} s", False)

    def clear(self) -> None:
        """Takes away what was said last."""
        if self.is_shown:
            self.teller.clear()
        self.is_shown = False

    def make_way(self) -> None:
        """Before something is written: says nothing more where that goes to the terminal too."""
        if not self.is_over and sys.stdout.isatty():
            self.end()

    def end(self) -> None:
        """Takes away what was said last, and says nothing more."""
        self.clear()
        self.is_over = True


def say_once_a_day(path: str, text: str) -> None:
    """Says a sentence, where this file does not tell that it was said within a day, or cannot be written."""
    with contextlib.suppress(OSError):
        if 0 <= time.time() - os.stat(path).st_mtime < DAY:
            return
    with contextlib.suppress(OSError), open(path, "w", encoding="utf-8"):
        pass
    Teller().say(text)


@contextlib.contextmanager
def alone(path: str, teller: Teller) -> typing.Iterator[bool]:
    """Keeps other builds that lock this file out. Answers whether it waited for one."""
    with open(path, "a", encoding="utf-8") as lock:
        has_waited = False
        try:
            fcntl.flock(lock, fcntl.LOCK_EX | fcntl.LOCK_NB)
        except BlockingIOError:
            has_waited = True
            teller.say("waiting for another build")
            fcntl.flock(lock, fcntl.LOCK_EX)
        yield has_waited


def start(
    words: list[str], folder: str | None, log: typing.IO[bytes] | int, **how: typing.Any
) -> subprocess.Popen[typing.Any]:
    """Starts a command in a group of its own, so that it can be stopped whole."""
    how = {"stdin": subprocess.DEVNULL, "stdout": log, "stderr": subprocess.STDOUT, "start_new_session": True, **how}
    return subprocess.Popen(words, cwd=folder, **how)


def stop(process: subprocess.Popen[bytes]) -> None:
    """Stops a command, if it has not ended, and what it started."""
    for number in (signal.SIGTERM, signal.SIGKILL):
        if process.poll() is not None:
            return
        with contextlib.suppress(ProcessLookupError):
            os.killpg(process.pid, number)
        with contextlib.suppress(subprocess.TimeoutExpired):
            process.wait(10)


def watched(
    words: list[str], folder: str, tick: typing.Callable[[], object], **how: typing.Any
) -> tuple[int | None, str]:
    """Runs a command in a folder. Answers its status and what it printed; `tick` is called while it lasts, and ends it
    by answering something, and then there is no status.
    """
    with tempfile.TemporaryFile() as log:
        process, is_over = start(words, folder, log, **how), False
        try:
            while process.poll() is None and not is_over:
                time.sleep(0.2)
                is_over = bool(tick())
        finally:
            stop(process)
        log.seek(0)
        return None if is_over else process.returncode, log.read().decode("utf-8", "replace")


def shows(fault: str) -> str:
    """What shows a fault of what was read: with the name of the file that standard input is, where it is one."""
    name = os.readlink("/proc/self/fd/0")
    if not os.path.isfile(name):
        return f"./suites explain {shlex.quote(fault)} tells what it means"
    named = ascii(os.path.relpath(name))[1:-1] if not os.path.relpath(name).isprintable() else os.path.relpath(name)
    if is_of_explore(fault, name):
        return f"it is a script of explore: ./suites explore --way 1 < {shlex.quote(named)} prints one for play"
    return f"./suites explain {shlex.quote(fault)} {shlex.quote(named)} shows it"


def is_of_explore(fault: str, path: str) -> bool:
    """Whether the faulty line is `together`, which a script of `explore` has and one of `play` has not."""
    number = fault.removeprefix("fault line ").partition(":")[0]
    if not number.isdigit():
        return False
    with open(path, "rb") as file:
        line = next(itertools.islice(file, int(number) - 1, None), b"")
    return line.split() == [b"together"]


class Parser(argparse.ArgumentParser):
    """Reads the words of a command, and says where its help is of those that ask for nothing."""

    def __init__(self, name: str) -> None:
        super().__init__(prog=f"./suites {name}", add_help=False, allow_abbrev=False)
        self.add_argument("-h", "--help", action="store_true")

    def error(self, message: str) -> typing.NoReturn:
        raise Bad(f"{message} ({self.prog} --help)")


def words(text: str) -> argparse.ArgumentParser:
    """What reads the words of a command line; help is the text at the head of the tool."""
    return argparse.ArgumentParser(description=text, formatter_class=argparse.RawDescriptionHelpFormatter)


def print_help(name: str) -> int:
    sys.stdout.write(text_of("help", f"{name}.txt"))
    return 0


def of_input(name: str, given: argparse.Namespace, work: typing.Callable[[argparse.Namespace], int]) -> int:
    """Prints the help of a tool, where that is asked for; else does its work, which reads standard input."""
    if given.help:
        return print_help(name)
    tell_reading()
    return work(given)


def tell_reading() -> None:
    if sys.stdin.isatty():
        Teller().say("reading from the terminal, up to its end (Ctrl-D at the start of a line)")


def tail(text: str, lines: int = 20) -> str:
    return "".join(text.splitlines(True)[-lines:])


def ended(name: str, code: int) -> str:
    """How a program ended, in words: by a status, or by a signal."""
    number = -code if code < 0 else code - BY_SIGNAL
    try:
        found = signal.Signals(number) if code < 0 or number > 0 else None
    except ValueError:
        found = None
    if found is None:
        return f"the program {name} ended with status {code}"
    why = f": {WHY[found]}" if found in WHY else ""
    return f"the program {name} was ended by signal {number} ({found.name}){why}"


def status_of(code: int) -> int:
    """The status of a tool whose program ended so: of a signal as a shell tells it."""
    return BY_SIGNAL - code if code < 0 else code


def complete_streams() -> None:
    """Gives each standard stream that is closed a file from which nothing can be read, or to which nothing can be
    written: else the next file that is opened would be taken for it."""
    for number, path in ((0, os.devnull), (1, "/dev/full"), (2, os.devnull)):
        try:
            os.fstat(number)
        except OSError:
            CLOSED.add(number)
            seat = os.open(path, os.O_WRONLY)
            if seat != number:
                os.dup2(seat, number)
                os.close(seat)
    if 0 in CLOSED:
        sys.stdin = os.fdopen(0, "r", closefd=False)
    sys.stdout = sys.stdout or os.fdopen(1, "w", closefd=False)
    sys.stderr = sys.stderr or os.fdopen(2, "w", closefd=False)


def failed(error: OSError) -> int:
    """Says what failed where the system said so, and the status of it."""
    if error.filename or error.errno not in (*NOT_WRITTEN, errno.ENOMEM):
        Teller().say(f"{error.strerror}: {error.filename}" if error.filename else str(error))
        return 1
    if error.errno == errno.ENOMEM:
        Teller().say("out of memory")
        return NO_MEMORY
    # nobody reads any more, or it cannot be written: what is left to be written goes nowhere
    os.dup2(os.open(os.devnull, os.O_WRONLY), 1)
    if 0 in CLOSED and error.errno == errno.EBADF:
        Teller().say("a read failed: standard input is closed")
    elif 1 in CLOSED:
        Teller().say("a write failed: standard output is closed")
    elif error.errno != errno.EPIPE:
        Teller().say(f"a write failed: {os.strerror(error.errno)}")
    return NO_STREAM


def run(main: typing.Callable[[], int], when_stopped: str) -> None:
    """Runs a tool: status 0, or what `main` answers; 1 with a sentence where it cannot do its work, 2 where its
    words ask for nothing, 4 out of memory, 6 where a stream failed; 130 where it is stopped."""
    complete_streams()
    for number in (signal.SIGTERM, signal.SIGHUP):
        signal.signal(number, signal.default_int_handler)
    try:
        try:
            status = main()
        except SystemExit as end:
            status = end.code if isinstance(end.code, int) else int(bool(end.code))
            if isinstance(end.code, str):
                Teller().say(end.code)
        sys.stdout.flush()
    except Stop as why:
        Teller().say(str(why))
        status = 1
    except Bad as why:
        Teller().say(str(why))
        status = 2
    except OSError as error:
        status = failed(error)
    except MemoryError:
        Teller().say("out of memory")
        status = NO_MEMORY
    except KeyboardInterrupt:
        Teller().say(when_stopped)
        status = STOPPED
    sys.exit(status)
