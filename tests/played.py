"""The program that a test plays, the rows of crates/rows/stdin, the words of tests, and what tests count."""
import argparse
import contextlib
import functools
import os
import select
import shutil
import signal
import subprocess
import sys
import tempfile
import typing

# What a test starts is stopped by Ctrl-C also where the test itself, as one that runs in the background, is not.
signal.signal(signal.SIGINT, signal.default_int_handler)
# The seconds after which nothing more is taken to come to a terminal.
QUIET = 3
TOP = os.path.realpath(os.path.join(os.path.dirname(os.path.abspath(__file__)), ".."))
# What tests import of the tools, before what of tests has the same name: the one edit of where modules are looked for.
sys.path.insert(0, os.path.join(TOP, "tools"))
from common import built, console, text_of  # noqa: E402
from common.read_rows import Row, examples, rows, said  # noqa: E402, F401


def program(named: str | None = None) -> str:
    """The program that the words of a test name, or the one that `./suites` runs, which is built where there is none;
    ends the test without it.
    """
    path = os.path.abspath(named) if named else built.chosen()[1]
    if not os.path.exists(path):
        sys.exit(f"there is no program to be played{': ' + path if path else ''}")
    return path


def words(doc: str, **options: typing.Any) -> argparse.Namespace:
    """The words of a test. Each option has what it is where it is not given: a number, a text, False where its name
    alone is all, some texts, of which it is one, and first the first, or a list of any words. The name `from_` is that
    of the option --from; `program` is a word by itself, and names a build of the program.
    """
    read = console.words(doc)
    for name, value in options.items():
        how: dict[str, typing.Any] = {"type": type(value), "default": value}
        if isinstance(value, tuple):
            how = {"choices": value, "default": value[0]}
        elif value is False:
            how = {"action": "store_true"}
        if name == "program" or isinstance(value, list):
            read.add_argument(name, nargs="?" if name == "program" else "*", default=value)
        else:
            read.add_argument(f"--{name.rstrip('_').replace('_', '-')}", dest=name, **how)
    return read.parse_args()


def put(path: str, content: str | bytes) -> str:
    """Writes a file; its path."""
    with open(path, "wb") as file:
        file.write(content if isinstance(content, bytes) else content.encode())
    return path


def got(path: str) -> bytes:
    """What a file has."""
    with open(path, "rb") as file:
        return file.read()


def stories(folder: str = "play") -> dict[str, str]:
    """The scripts of a folder, or one of examples/, by their names."""
    top = os.path.join(TOP, "examples", folder)
    return {name: text_of(top, name) for name in sorted(os.listdir(top)) if name.endswith(".script")}


class Done(typing.NamedTuple):
    """How a command ended: its status, what it printed, and what it said on standard error."""

    status: int
    out: str
    err: str


def done(words: typing.Iterable[str | bytes], given: str | bytes | None = None, **how: typing.Any) -> Done:
    """How a command ends that reads this, or else nothing, or what `how` says."""
    how = {"stdout": subprocess.PIPE, "stderr": subprocess.PIPE, **how}
    if given is not None:
        how["input"] = given if isinstance(given, bytes) else given.encode("latin1")
    elif "stdin" not in how:
        how["stdin"] = subprocess.DEVNULL
    ended = subprocess.run([*words], **how)
    told, said = ((text or b"").decode("latin1") for text in (ended.stdout, ended.stderr))
    return Done(ended.returncode, told, said)


class Shown(typing.NamedTuple):
    """How a command ended on a terminal, what that showed, and what was printed where that is no terminal."""

    status: int
    text: str
    printed: str


def on_terminal(
    words: list[str], *typed: bytes, given: bytes | None = None,
    heard: typing.Callable[["subprocess.Popen[bytes]"], object] | None = None, both: bool = False, **how: typing.Any,
) -> Shown:  # fmt: skip
    """How a command ends whose standard error is a terminal, with `both` its standard output too, and its input where
    none is given. Each of some pieces is typed once nothing more comes; something is done once it says how far it is.
    """
    own, end = os.openpty()
    with tempfile.TemporaryFile() as read, tempfile.TemporaryFile() as printed:
        read.write(given or b"")
        read.seek(0)
        how = {"stdin": end if given is None else read, "stdout": end if both else printed, **how}
        process = subprocess.Popen(words, stderr=end, start_new_session=True, **how)
        os.close(end)
        shown, left = b"", [*typed]
        with contextlib.suppress(OSError):
            while (comes := select.select([own], [], [], QUIET if left else 60)[0]) or left:
                if not comes:
                    os.write(own, left.pop(0))
                elif piece := os.read(own, 4096):
                    shown += piece
                else:
                    break
                if heard and shown.endswith(b" s"):
                    heard(process)
                    heard = None
        status = process.wait(60)
        os.close(own)
        printed.seek(0)
        return Shown(status, shown.decode().replace("\r\n", "\n"), printed.read().decode("latin1"))


class Library:
    """A library that stands before calls of the system, made of a file here: tests/fail.c has them fail, tests/refuse.c
    refuses memory. None is made where there is no compiler, which is said.
    """

    def __init__(self, name: str, folder: str) -> None:
        self.front, self.path = name.upper(), os.path.join(folder, f"{name}.so")
        self.mark = os.path.join(folder, "mark")
        self.is_made = bool(shutil.which("cc"))
        words = ["cc", "-shared", "-fPIC", "-O1", "-o", self.path, os.path.join(TOP, "tests", f"{name}.c"), "-ldl"]
        if not self.is_made:
            print("skipped: no cc")
        elif done(words).status != 0:
            sys.exit(f"tests/{name}.c is not compiled")

    def env(self, **which: int) -> dict[str, str]:
        """The environment of a program of which these calls fail."""
        told = {f"{self.front}_{name}": str(number) for name, number in which.items()}
        return {**os.environ, "LD_PRELOAD": self.path, f"{self.front}_MARK": self.mark, **told}

    def was_met(self) -> bool:
        """Whether such a call was made since this was asked last."""
        is_met = os.path.exists(self.mark)
        if is_met:
            os.remove(self.mark)
        return is_met


def is_alive(process: int) -> bool:
    with contextlib.suppress(OSError):
        return text_of(f"/proc/{process}/stat").rpartition(") ")[2][0] != "Z"
    return False


def below(process: int) -> list[int]:
    """The children of a process, and theirs."""
    found, left = list[int](), [process]
    while left:
        one = left.pop()
        children = [int(word) for word in text_of(f"/proc/{one}/task/{one}/children").split()]
        found, left = found + children, left + children
    return found


class Tally:
    """Counts what a test looks at, and what of it differs. Prints what is told of this: of the first ones, as many as
    `most`, and of each so many characters as `width`. What the words of the test say is `given`.
    """

    def __init__(self, most: int = sys.maxsize, width: int = sys.maxsize, given: typing.Any = None) -> None:
        self.count = self.wrong = 0
        self.most, self.width, self.given = most, width, given

    @functools.cached_property
    def program(self) -> str:
        """The program that is named, or the one that `./suites` runs; ends the test without it."""
        return program(getattr(self.given, "program", None))

    def holds(self, is_so: object, *about: object) -> None:
        self.count += 1
        if not is_so:
            self.wrong += 1
            if self.wrong <= self.most:
                print(": ".join(map(str, about))[: self.width], flush=True)

    def fails(self, *texts: object) -> None:
        """Tells what is wrong of things that are counted already, or stand for themselves; nothing of what is none."""
        for text in filter(None, texts):
            self.count -= 1
            self.holds(False, text)

    def same(self, told: object, wanted: object, *about: object) -> None:
        """Holds what is told against what is wanted."""
        self.holds(told == wanted, *about, told, f"and not {wanted}")

    def told(self, what: str) -> int:
        """The status of a test: 1 where something differs, or nothing was looked at. Prints the counts."""
        print(f"{self.count} {what}, {self.wrong} differ", flush=True)
        return 1 if self.wrong or not self.count else 0


def plays(doc: str, what: str, *parts: typing.Callable[[Tally], object], **how: typing.Any) -> typing.NoReturn:
    """A test: what it counts, its parts, which count it, and its options; `most` and `width` say how much is told. A
    part has failed that counts nothing; but one that cannot be played here, as it has said, answers False, and True
    where nothing of the test can be.
    """
    tally = Tally(how.pop("most", sys.maxsize), how.pop("width", sys.maxsize))

    def main() -> int:
        tally.given = words(doc, **how)
        for part in parts:
            count, is_over = tally.count, part(tally)
            if is_over is True:
                return 0
            tally.fails(is_over is None and tally.count == count and f"{part.__name__} has compared nothing")
        return tally.told(what)

    console.run(main, "stopped")
    raise AssertionError
