"""A session that a test talks to, and the journal that it keeps."""
import os
import subprocess
import tempfile
from collections.abc import Iterable, Mapping, Sequence

# The first line of each journal.
HEAD = b"# journal of suites session, 1\n"
HEADER = (b"servers 3", b"agents 2", b"votes 1,1,1/2/2", b"root 1000 100 777", b"cache 4096 4096 16")
# What a session may take to answer a line, in seconds.
PATIENCE = 60


def text_of(lines: Iterable[bytes]) -> bytes:
    return b"".join(line + b"\n" for line in lines)


def ran(
    path: str, words: Sequence[str], given: bytes, environment: Mapping[str, str] | None = None
) -> tuple[int, bytes]:
    """The status of a session that hears these bytes and then the end, and what it told."""
    settings = {**os.environ, **(environment or {})}
    done = subprocess.run([path, "session", *words], input=given, stdout=subprocess.PIPE, env=settings, timeout=600)
    return done.returncode, done.stdout


class Talk:
    """A session with marks: a line in, its answer out."""

    def __init__(self, path: str, *words: str) -> None:
        self.child = subprocess.Popen(
            [path, "session", "--marks", *words], stdin=subprocess.PIPE, stdout=subprocess.PIPE, bufsize=0
        )
        assert self.child.stdin and self.child.stdout
        self.heard, self.told = self.child.stdin, self.child.stdout
        self.number, self.rest = 0, b""

    def line(self) -> bytes:
        """The next line that is told; nothing where the session has ended."""
        while b"\n" not in self.rest:
            piece = os.read(self.told.fileno(), 65536)
            if not piece:
                return b""
            self.rest += piece
        first, _, self.rest = self.rest.partition(b"\n")
        return first

    def say(self, line: bytes) -> list[bytes] | None:
        """The answer to a line, or none where the session ended before it was whole."""
        self.number += 1
        try:
            self.heard.write(line + b"\n")
        except BrokenPipeError:
            return None
        answer: list[bytes] = []
        while (told := self.line()) != b"= %d" % self.number:
            if not told:
                return None
            answer.append(told)
        return answer

    def end(self) -> int:
        self.heard.close()
        status = self.child.wait(PATIENCE)
        self.told.close()
        return status


def journal(folder: str, content: bytes | None = None) -> str:
    """The path of a journal in a folder, with this content where there is one."""
    handle, path = tempfile.mkstemp(prefix="journal-", dir=folder)
    if content is None:
        os.unlink(path)
    else:
        os.write(handle, content)
    os.close(handle)
    return path
