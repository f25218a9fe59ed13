"""How a session begins: its header, what a script says at first, and what a journal says already."""
import argparse
import contextlib
import os
import shlex
import time
from collections.abc import Iterator

from common import forms
from common.console import Stop
from mount import words
from mount.talking import Ended, Session

# A header has so many lines.
HEADER = 5
# The words of a script below it: of what happens, and of names.
OWN, NAMES = forms.lines_of("play", "own"), forms.lines_of("play", "name")
# The status of a session whose journal another one has open, and for how many seconds it is begun again.
OPEN_ELSEWHERE, PATIENCE = 6, 5


def lines_of(path: str) -> list[str]:
    """The whole lines of a journal but comments."""
    try:
        with open(path, encoding="utf-8", errors="replace") as file:
            return [line.rstrip("\n") for line in file if line.endswith("\n") and not line.startswith("#")]
    except FileNotFoundError:
        return []


def servers_down(lines: list[str]) -> set[str]:
    """The servers that a script leaves down."""
    down: set[str] = set()
    for line in lines:
        told = line.split()
        if told[:1] == ["crash"]:
            down.add(told[1])
        elif told[:1] == ["return"]:
            down.discard(told[1])
    return down


def word_of(line: str) -> str:
    return (line.split() or [""])[0]


def is_kept(line: str) -> bool:
    """Whether a line of a session belongs to its script: it is no question that a session alone has."""
    return word_of(line) in OWN or word_of(line) in NAMES or word_of(line)[:1] in ("", "#")


def as_played(lines: list[str]) -> list[str]:
    """The lines of a session as a script of `play`, in which names stand above what happens."""
    first = next((place for place, line in enumerate(lines) if word_of(line) in OWN), len(lines))
    late = [line for line in lines[first:] if word_of(line) in NAMES]
    return [*lines[:first], *late, *(line for line in lines[first:] if word_of(line) not in NAMES)]


def command(given: argparse.Namespace) -> list[str]:
    # whoever calls fsync has the journal synced, and nobody else waits for it
    journal = ["--journal", os.path.abspath(given.journal), "--no-sync"] if given.journal else []
    return [*shlex.split(given.session), "--marks", *journal]


@contextlib.contextmanager
def stopped_with_this(session: Session) -> Iterator[None]:
    """Stops a session that has yet to answer, where this is stopped or gives up."""
    try:
        yield
    except Ended:
        raise
    except BaseException:
        session.close(0)
        raise


def opened(given: argparse.Namespace) -> Session:
    """A session; one over a journal that another session still has open is begun once more."""
    until = time.monotonic() + PATIENCE
    while True:
        session = Session(command(given))
        try:
            with stopped_with_this(session):
                session.tell("# begun")
        except Ended:
            if given.journal and session.child.wait() == OPEN_ELSEWHERE and time.monotonic() < until:
                time.sleep(0.1)
                continue
            said = f", and told: {'; '.join(session.heard)}" if session.heard else ""
            raise Stop(f"the session did not begin: {session.ended()}{said}") from None
        return session


def begin(given: argparse.Namespace, is_ended: bool = True) -> tuple[Session, list[str]]:
    """A session with its header and what a script says, and the lines that it has carried out so far. A job of agent 0
    that the script leaves is ended, or left to whoever asks for that.
    """
    kept = lines_of(given.journal) if given.journal else []
    header = words.header(given)
    asked = {word: getattr(given, word, None) for word in ("servers", "agents", "votes", "root")}
    for old, new in zip(kept, header):
        word = new.split(" ")[0]
        if asked.get(word) is not None and old != new:
            raise Stop(f"{given.journal} begins with `{old}`: --{word} is another")
    script: list[str] = []
    if given.script and not kept:
        with open(given.script, encoding="utf-8") as file:
            script = file.read().splitlines()
    is_headed = any(line.split()[:1] == ["servers"] for line in script)
    first = [] if is_headed else header[min(len(kept), HEADER) :]
    lines = [*first, *script, *(["run 0"] if script and is_ended else [])]
    session = opened(given)
    with stopped_with_this(session):
        told_first(given, session, lines, len(first))
    return session, [*kept, *lines]


def told_first(given: argparse.Namespace, session: Session, lines: list[str], headed: int) -> None:
    """Gives a session its first lines, which are to be right: so many of a header, and then a script's."""
    try:
        for number, line in enumerate(lines, 1 - headed):
            for answer in session.tell(line)[0]:
                if answer.startswith("fault "):
                    where = f"line {number} of {given.script}" if number > 0 else f"`{line}`"
                    raise Stop(f"{where}: {answer.split(': ')[-1]} (./suites explain tells what it means)")
    except Ended:
        raise Stop(f"the session has ended: {session.ended()}") from None
