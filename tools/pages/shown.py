"""python3 tools shown [--help-texts]

Looks whether all that README.md, docs/SCRIPTS.md and examples/ show is played by the gate.

Each file of examples/ has to be the input of a row of crates/rows/stdin, and one of examples/explore have its ways in
tests/explored (tests/shell.py plays those of the mount and the shell, tests/session.py those of sessions, and
tests/judged.py looks at those of examples/judge); each script, command and output that the two pages show has to be
that of a row, and an output that of the script or the command before it; behind `| head -N` or `| tail -N` stand so
many lines of it. Each text of help/ but that of the tools has to be what a row of help prints: with --help-texts it
is written from that row. The end of the mount's story in README.md has to stand in its test. What differs is told, and
the status is 1. The rows themselves are played by the program of crates/rows, commands of tools, with what the pages
show of them, by tests/typed.py, and the picture of a run is drawn by tests/events.py.
"""
import os
import pathlib
import re
import sys
import typing

from common import TOP, console, read_rows
from front import sources
from votes import votes

PAGES = ("README.md", "docs/SCRIPTS.md")
HELP = "help"
OF_TOOLS = "tools explain explore judge trace draw show votes may mount shell import session dump".split()
# What is shown of an output.
CUT = re.compile(rb" \| (head|tail) -(\d+)$")
# The commands of which no row can tell the output.
TOOLS = re.compile(rb"\$ \./suites (?:(?:explain|trace|draw|show|votes|may|--version)\b|explore .*--ask)")
# Stories of `explore`, and where what it tells of them is kept; tests/explored.py compares.
STORIES, WAYS = "examples/explore", "tests/explored"
# A story of the mount that README shows the end of, between these marks, and where what it prints is held.
FENCED, HELD = re.compile(rb"^```\n(\$ (?:.*\n)+?)```$", re.M), "tests/shell.py"
# Stories that tests/shell.py and tests/session.py play, and histories, which tests/judged.py looks at.
PLAYED = ("examples/mount", "examples/shell", "examples/session", "examples/judge")
RUN = re.compile(rb"^# +\./suites (explore[^<]*?) < ", re.M)


def content(name: str) -> bytes:
    return pathlib.Path(TOP, name).read_bytes()


def rows() -> list[tuple[str, bytes, bytes]]:
    """The rows: words, input and output of each."""
    return [(b" ".join(row["words"]).decode(), row["input"], row["output"]) for row in read_rows.rows()]


def stories() -> typing.Iterator[tuple[str, bytes, bytes]]:
    """The same of the stories of `explore`."""
    for name in sorted(os.listdir(os.path.join(TOP, STORIES))):
        given = content(os.path.join(STORIES, name))
        found, ways = RUN.search(given), os.path.join(WAYS, f"{name.removesuffix('.script')}.ways")
        if found and os.path.exists(os.path.join(TOP, ways)):
            yield found[1].decode(), given, content(ways)


def blocks(text: bytes) -> typing.Iterator[tuple[int, list[bytes]]]:
    """The indented blocks of a text, each with the number of its first line; code between fences is none."""
    block: list[bytes] = []
    begun, is_fenced = 0, False
    for number, line in enumerate(text.split(b"\n") + [b""], 1):
        is_fenced ^= line.startswith(b"```")
        if line.startswith(b"    ") and not is_fenced:
            begun = begun if block else number
            block.append(line[4:])
        elif block:
            yield begun, block
            block = []


def commands(block: list[bytes]) -> typing.Iterator[tuple[str, str]]:
    """The commands of the program in a block, as words and the name of their input."""
    for line in block:
        match = re.match(r"(?:\$ )?\./suites (.*?) < (\S+)", line.decode())
        if match and not match[1].startswith(("trace", "draw", "show", "explore --way")) and "--ask" not in match[1]:
            yield match[1], match[2]


def texts_of_help(known: list[tuple[str, bytes, bytes]], are_written: bool) -> typing.Iterator[str]:
    """What is wrong with the texts of help/: each is what a row prints, and may be written from it."""
    printed = {words: text for words, given, text in known if not given}
    words_of = {"suites": "--help", "help": "help help"}
    for name in sorted(os.listdir(os.path.join(TOP, HELP))):
        words = words_of.get(name[:-4], f"{name[:-4]} --help")
        if name[:-4] in OF_TOOLS or content(os.path.join(HELP, name)) == printed.get(words):
            continue
        if are_written and words in printed:
            sources.write_whole(os.path.join(TOP, HELP, name), printed[words].decode())
        else:
            yield f"{HELP}/{name} is not what the row of '{words}' prints"


def told_of_votes(block: list[bytes]) -> bytes | None:
    match = re.fullmatch(r"\$ \./suites votes (\S+)", block[0].decode())
    if match:
        return "".join(f"{line}\n" for line in votes.told_of_word(match[1])).encode()
    return None


def cut(command: bytes, text: bytes) -> bytes:
    """Of an output the lines that a command shows."""
    found = CUT.search(command)
    if not found:
        return text
    lines, count = text.splitlines(True), int(found[2])
    return b"".join(lines[:count] if found[1] == b"head" else lines[-count:])


def printed_by(block: list[bytes], known: list[tuple[str, bytes, bytes]], lost: list[str]) -> set[bytes]:
    """What the commands of a block may print; a command of which no row is known is put with those that are lost."""
    outputs = set(filter(None, [told_of_votes(block)]))
    for words, name in commands(block):
        those = {cut(block[0], printed) for word, given, printed in known if word == words and given == content(name)}
        outputs |= those
        if not those:
            lost.append(f"no row has the words '{words}' and the input {name}")
    return outputs


def differing(page: str, known: list[tuple[str, bytes, bytes]]) -> typing.Iterator[str]:
    """What a page shows that is of no row."""
    outputs = set[bytes]()
    for number, block in blocks(content(page)):
        text, lost = b"\n".join(block) + b"\n", list[str]()
        if re.match(rb"\$ |\./|\.ci/", block[0]):
            outputs = printed_by(block, known, lost)
            text = b"\n".join(block[1:]) + b"\n" if block[0].startswith(b"$ ") else b""
            if text and text not in outputs and (outputs or not TOOLS.match(block[0])):
                lost.append("this output is that of no row")
        elif text in outputs:
            outputs = set()
        else:
            outputs = {printed for _, given, printed in known if read_rows.said(given) == read_rows.said(text)}
            if not outputs:
                lost.append("this block is a script or an output of no row")
        yield from (f"{page}:{number}: {line}" for line in lost)


def main() -> int:
    read = console.words(__doc__)
    read.add_argument("--help-texts", action="store_true")
    are_written = read.parse_args().help_texts
    known = [*rows(), *stories()]
    wrong = list(texts_of_help(known, are_written))
    inputs = {given for _, given, _ in known}
    for folder, _, names in sorted(os.walk(os.path.join(TOP, "examples"))):
        for name in sorted(os.path.relpath(os.path.join(folder, name), TOP) for name in names):
            if content(name) not in inputs and not name.startswith(PLAYED):
                wrong.append(f"{name} is the input of no row")
    for page in PAGES:
        wrong += differing(page, known)
    if not any(story in content(HELD) for story in FENCED.findall(content("README.md"))):
        wrong.append(f"README.md shows another end of the mount's story than {HELD} holds")
    if f"`{sources.KIT_LOGIC}`".encode() not in content("README.md"):
        wrong.append("README.md names another kit than tools/front/sources.py")
    for line in wrong:
        print(line, file=sys.stderr)
    return 1 if wrong else 0
