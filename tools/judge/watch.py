"""Asks the program about a history, and says on a terminal how far that is where it takes its time. The command `judge`
tells nothing before its verdict: of it is said how many lines it was given, how much memory it took, and the seconds.
"""
from __future__ import annotations

import io
import subprocess
import sys
import typing

from common import built, console, memory

# How often a program at work is looked at, in seconds, and how many bytes of a history are read at once.
PAUSE, PIECE = 0.1, 1 << 20
DONE, NO_ORDER, FAULTY = 0, 1, 3


class Ended(Exception):
    """A program ended with this status, and did not tell what it was asked."""

    def __init__(self, name: str, status: int) -> None:
        super().__init__(console.ended(name, status))
        self.status = status


class Watch:
    """What is said of what is at work now."""

    def __init__(self) -> None:
        self.what, self.progress = "", console.Progress()

    def __enter__(self) -> Watch:
        return self

    def __exit__(self, *_: object) -> None:
        self.progress.end()

    def begin(self, what: str) -> None:
        """Something else is at work from now on."""
        self.progress.end()
        self.what, self.progress = what, console.Progress()

    def tell(self, *lines: str) -> None:
        """Prints lines at once, in the place of what was said last."""
        self.progress.clear()
        sys.stdout.write("".join(f"{line}\n" for line in lines))
        sys.stdout.flush()

    def read(self, most: int) -> bytes:
        """Standard input, up to so many bytes. Nothing is said where somebody types it."""
        parts, size, is_typed = list[bytes](), 0, sys.stdin.isatty()
        given = typing.cast(io.BufferedReader, sys.stdin.buffer)
        while part := given.read1(min(PIECE, most - size)):
            parts.append(part)
            size += len(part)
            if not is_typed:
                self.progress.say(f"{size:,} bytes of the history are read")
        return b"".join(parts)

    def asked(self, command: str, given: str | bytes, *words: str) -> tuple[int, str]:
        """The status with which a command of the program ends, and what it prints. It may take all free memory."""
        text = given if isinstance(given, bytes) else given.encode("latin1")
        how: dict[str, typing.Any] = {"stdin": subprocess.PIPE, "stdout": subprocess.PIPE, "preexec_fn": memory.limit}
        with subprocess.Popen([built.program(), command, *words], **how) as process:
            try:
                printed = self.printed(process, text)
            except BaseException:
                process.kill()
                raise
        return process.returncode, printed.decode("latin1")

    def printed(self, process: subprocess.Popen[bytes], text: bytes) -> bytes:
        """What a program prints for an input. Says meanwhile how far it is, on a terminal."""
        left: bytes | None = text
        while True:
            try:
                return process.communicate(left, None if self.progress.is_over else PAUSE)[0]
            except subprocess.TimeoutExpired:
                left = None
                found = memory.taken(process.pid)
                told = f", {found[0] / 1e6:,.0f} MB of {found[1] / 1e9:.1f} GB of memory" if found else ""
                self.progress.say(f"{self.what}{told}")

    def judged(self, lines: list[str], *words: str) -> tuple[int, str]:
        """The verdict on the lines of a history: the exit status of `judge`, and what it prints."""
        status, said = self.asked("judge", "\n".join([*lines, ""]), *words)
        if status not in (DONE, NO_ORDER, FAULTY):
            raise Ended("judge", status)
        return status, said
