"""The conversation with a session: lines in, whole answers out, and transactions that are tried again."""
import errno
import subprocess
from collections.abc import Sequence
from typing import NamedTuple

from common import console

# How often a transaction is tried whose home is down, or that met another's lock: each time it has another home.
TRIES = 8
# Ends for which a transaction is begun again.
AGAIN = ("U2", "U3", "U5")
# The agent that carries out the calls of the mount. The other one is free for lines of control.
AGENT = 0
# So many seconds a session may take to end.
PATIENCE = 30
# So many bytes go into any empty pipe without anybody reading: lines that are no longer together are given at once.
PIPE = 4096
# What comes of a refusal, of an undecided end and of a fault of the line.
ERRORS = {
    "F1": errno.EINVAL, "F2": errno.ENOTDIR, "F4": errno.ENOENT, "F5": errno.EEXIST, "F6": errno.EISDIR,
    "F7": errno.ENOTEMPTY, "F8": errno.EFBIG, "F9": errno.ENOSPC, "F10": errno.EINVAL, "F11": errno.EINVAL,
    "F12": errno.EACCES, "U6": errno.ENOSPC, "U7": errno.ENOMEM, "memory": errno.ENOMEM, "journal": errno.ENOSPC,
}


class Ended(Exception):
    """The session has ended."""


class User(NamedTuple):
    """Who calls: its number, and its groups, its own first."""

    uid: int
    gids: tuple[int, ...]


class Outcome(NamedTuple):
    """How a transaction ended, `fault` where it was none; and what stood behind that."""

    kind: str
    rest: str

    def code(self) -> str:
        return self.rest.split(" ")[0]

    def replies(self) -> list[str]:
        """The replies of its operations, where it was answered."""
        return self.rest.split("; ")

    def suite(self) -> int | None:
        """The number of the file or folder at which it was denied."""
        words = self.rest.split(" ")
        return int(words[3]) if self.kind == "denied" else None

    def operation(self) -> int | None:
        """The operation at which it was refused or denied, counted from 1."""
        words = self.rest.split(" ")
        if self.kind == "denied":
            return int(words[1])
        return int(words[2]) if self.kind == "refused" else None

    def error(self) -> int:
        """What a call is answered that asked for it."""
        if self.kind == "denied":
            return errno.EPERM if self.rest.endswith(" by owner") else errno.EACCES
        if self.kind == "fault" and self.code() not in ERRORS:
            return errno.EINVAL
        return ERRORS.get(self.code(), errno.EIO)

    def failure(self) -> OSError:
        return OSError(self.error(), str(self))


def outcome_of(begun: list[str], run: list[str]) -> Outcome | None:
    """How a transaction ended, by what was told of its two lines; none where it may not have."""
    for line in begun:
        if line.startswith("fault "):
            return Outcome("fault", line.split(": ")[-1] if ": " in line else line.split(" ", 1)[1])
    for line in run:
        words = line.split(" ", 3)
        if words[0].startswith(f"{AGENT}.") and len(words) > 2:
            return Outcome(words[2], words[3] if len(words) > 3 else "")
    return None


class Session:
    """A session that is talked to."""

    def __init__(self, command: Sequence[str]) -> None:
        self.child = subprocess.Popen(command, stdin=subprocess.PIPE, stdout=subprocess.PIPE, start_new_session=True)
        # whether the agent may have a job that has not ended
        self.is_left = False
        # what was told since the last mark
        self.heard: list[str] = []

    def hear(self) -> list[str]:
        """What the session tells up to the mark of a line."""
        told = self.heard = []
        while True:
            line = self.child.stdout.readline()
            if not line.endswith(b"\n"):
                raise Ended
            if not line.startswith(b"= "):
                told.append(line[:-1].decode("utf-8", "replace"))
            elif not line.startswith(b"= restored "):
                return told

    def give(self, text: bytes) -> None:
        try:
            self.child.stdin.write(text)
            self.child.stdin.flush()
        except (OSError, ValueError):
            raise Ended from None

    def tell(self, *lines: str) -> list[list[str]]:
        """Gives lines, and has what is told of each."""
        answers: list[list[str]] = []
        texts = [line.encode() + b"\n" for line in lines]
        while len(answers) < len(texts):
            begun, size = len(answers), 0
            at_once: list[bytes] = []
            for text in texts[begun:]:
                size += len(text)
                if at_once and size > PIPE:
                    break
                at_once.append(text)
            self.give(b"".join(at_once))
            answers.extend(self.hear() for _ in at_once)
        return answers

    def finish(self) -> None:
        """Has the agent end a job that was left to it."""
        if self.is_left:
            told = self.tell(f"run {AGENT}")[0]
            if any(line.startswith("fault ") for line in told):
                raise OSError(errno.EIO, told[0])
            self.is_left = False

    def job(self, user: User, operations: str, *questions: str) -> tuple[Outcome, list[list[str]]]:
        """A transaction, tried again where that helps; and what the session tells of lines behind it."""
        self.finish()
        gids = ",".join(map(str, user.gids))
        lines = (f"begin {AGENT} {user.uid} {gids} 0 {operations}", f"run {AGENT}")
        for _ in range(TRIES):
            begun, run, *told = self.tell(*lines, *questions)
            outcome = outcome_of(begun, run)
            if outcome is None:
                self.is_left = True
                return Outcome("fault", "journal" if "fault journal" in run else "memory"), told
            if outcome.kind != "undecided" or outcome.code() not in AGAIN:
                break
        return outcome, told

    def ended(self) -> str:
        """How it has ended, in words."""
        return console.ended("session", self.child.wait())

    def close(self, patience: float = PATIENCE) -> None:
        """Ends the session, which has answered all; one that goes on all the same is stopped."""
        for stream in (self.child.stdin, self.child.stdout):
            try:
                stream.close()
            except OSError:
                pass
        try:
            self.child.wait(patience)
        except subprocess.TimeoutExpired:
            console.stop(self.child)
