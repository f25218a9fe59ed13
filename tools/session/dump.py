"""./suites dump < JOURNAL: a short script that makes the tree of a journal; help/dump.txt tells all of it.

Each file and folder is made by its owner, with its votes and content, in folders that are open to all meanwhile; then
each gets its lists, from below. The script is played in its turn and its rows are compared.
"""
import contextlib
import fcntl
import os
import sys
import tempfile
import typing
from collections.abc import Iterable, Iterator

from common import built, console

# The first line of each journal.
HEAD = "# journal of suites session, 1"
HEADER = ("servers", "agents", "votes", "root", "cache", "old")
NAMES = ("user", "group")
MADE = ("file", "folder")
OPEN = "u::rwx,g::rwx,o::rwx"
NOTHING = "-"


class Row(typing.NamedTuple):
    """What the table has of a path."""

    kind: str
    owner: str
    group: str
    acl: str
    votes: str
    content: str


class Differ(console.Stop):
    """The short script does not make the same tree."""


def asked(lines: Iterable[str], questions: Iterable[str]) -> list[str]:
    """The answers to questions behind these lines, one line each."""
    given, wanted = list(lines), list(questions)
    text = "".join(f"{line}\n" for line in [*given, *wanted])
    status, printed = built.asked("session", text, "--marks")
    if status not in (0, 3):
        raise console.Stop(console.ended("session", status))
    answers, answer = list[str](), list[str]()
    for line in printed.splitlines():
        if line == f"= {len(answers) + 1}":
            answers.append("\n".join(answer))
            answer = []
        else:
            answer.append(line)
    for number, told in enumerate(answers[: len(given)], 1):
        if told.startswith("fault "):
            raise console.Stop(f"line {number} of the journal: {told}")
    return answers[len(given) :]


def paths_in(lines: Iterable[str]) -> list[str]:
    """Each path at which a line makes something, parents first, and the root folder."""
    found = {"/"}
    for line in lines:
        words = line.split()
        if words[:1] == ["begin"]:
            found |= {path for verb, path in zip(words, words[1:]) if verb in MADE}
    return sorted(found, key=lambda path: (depth(path), path))


def depth(path: str) -> int:
    return 0 if path == "/" else path.count("/")


def row_of(row: str, content: str) -> Row | None:
    """What two answers tell of a path: `row /a file suite 1 owner ..` and `content /a 6869`."""
    words = row.split()
    if len(words) < 3 or words[0] != "row" or words[2] not in MADE:
        return None
    told = dict(zip(words[3::2], words[4::2]))
    bytes_of = content.split()[-1] if words[2] == "file" else NOTHING
    return Row(words[2], told["owner"], told["group"], told["acl"], told["votes"], bytes_of)


def rows_of(lines: list[str], paths: list[str]) -> dict[str, Row]:
    """The row of each path that there is, once these lines were carried out."""
    answers = iter(asked(lines, [f"{verb} {path}" for path in paths for verb in ("row", "content")]))
    found = {path: row_of(next(answers), next(answers)) for path in paths}
    return {path: row for path, row in found.items() if row}


def done_by(row: Row, operations: str) -> Iterator[str]:
    """A transaction of the owner of a row."""
    yield f"begin 0 {row.owner} {row.group} 0 {operations}"
    yield "run 0"


def short(lines: list[str], rows: dict[str, Row]) -> Iterator[str]:
    """The lines of a script that makes these rows."""
    for words in (HEADER, NAMES):
        yield from (line for line in lines if line.split()[:1] and line.split()[0] in words)
    below = [path for path in rows if path != "/"]
    if "/" in rows and below:
        yield from done_by(rows["/"], f"setacl / {OPEN}")
    for path in below:
        row = rows[path]
        init = "777" if row.kind == "folder" else "600"
        write = f" ; write {path} {row.content}" if row.content != NOTHING else ""
        yield from done_by(row, f"{row.kind} {path} {init} {row.votes}{write}")
    for path in sorted(rows, key=lambda path: (-depth(path), path)):
        yield from done_by(rows[path], f"setacl {path} {rows[path].acl}")
    root = rows.get("/")
    if root and not any(line.split()[:2] == ["votes", root.votes] for line in lines):
        yield from done_by(root, f"setvotes / {root.votes}")


def dumped(text: str) -> list[str]:
    """The lines of the short script; of those of a journal that say nothing none is looked at."""
    lines = [line for line in text.splitlines() if line and not line.startswith("#")]
    paths = paths_in(lines)
    rows = rows_of(lines, paths)
    made = list(short(lines, rows))
    again = rows_of(made, paths)
    differ = [path for path in paths if rows.get(path) != again.get(path)]
    for path in differ:
        print(f"{path}: {rows.get(path)} is made as {again.get(path)}", file=sys.stderr)
    if differ:
        raise Differ(f"the tree cannot be made so: {len(differ)} paths differ")
    return made


@contextlib.contextmanager
def locked(path: str) -> Iterator[typing.IO[bytes]]:
    """A journal that no session has open; no session can open it meanwhile."""
    with open(path, "rb+") as file:
        try:
            fcntl.flock(file, fcntl.LOCK_EX | fcntl.LOCK_NB)
        except BlockingIOError:
            raise console.Stop(f"{path} is in use: another session has it open") from None
        yield file


def compact(path: str) -> None:
    """Puts a short journal in the place of a long one: a new file, synced, renamed over it."""
    with locked(path) as file:
        text = file.read().decode("latin1")
        whole = text[: text.rfind("\n") + 1]
        if not whole.startswith(HEAD + "\n"):
            raise console.Stop(f"{path} is no journal")
        made = [HEAD, *dumped(whole)]
        folder = os.path.dirname(os.path.abspath(path))
        handle, new = tempfile.mkstemp(prefix=os.path.basename(path) + ".", dir=folder)
        try:
            with open(handle, "wb") as target:
                target.write("".join(f"{line}\n" for line in made).encode("latin1"))
                target.flush()
                os.fchmod(target.fileno(), os.fstat(file.fileno()).st_mode & 0o7777)
                os.fsync(target.fileno())
            os.rename(new, path)
        except BaseException:
            with contextlib.suppress(OSError):
                os.unlink(new)
            raise
        at = os.open(folder, os.O_RDONLY)
        os.fsync(at)
        os.close(at)


def main() -> int:
    if sys.argv[1:]:
        console.print_help("dump")
        return 0 if sys.argv[1] in ("--help", "-h") else 2
    for line in dumped(sys.stdin.buffer.read().decode("latin1")):
        print(line)
    return 0
