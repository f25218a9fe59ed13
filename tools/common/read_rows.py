"""The rows of crates/rows/stdin: what tests play, and from which documents show."""
import os
import re
import sys
import typing

from common import TOP, text_of

ROWS = os.path.join(TOP, "crates", "rows", "stdin")
# How many rows there are, as the program `rows` is to print it; and so many at least, so that no test passes over a
# few.
COUNT, FEWEST = os.path.join(TOP, "crates", "rows", "stdout"), 480
MARKS = {b"r": b"\r", b"t": b"\t", b"\\": b"\\"}


class Row(typing.TypedDict, total=False):
    """A row: the title above it, the number of its first line, its words, its input, the status and output wanted."""

    title: str
    line: int
    words: list[bytes]
    input: bytes
    output: bytes
    status: int


def unmarked(line: bytes) -> bytes:
    """A line of a row as the bytes that it stands for."""
    end = b"" if line.endswith(b"\\c") else b"\n"
    line = line[:-2] if end == b"" else line
    return re.sub(rb"\\(x..|.)", lambda mark: MARKS.get(mark[1]) or bytes([int(mark[1][1:], 16)]), line) + end


def rows() -> list[Row]:
    """All rows, as many as are counted in crates/rows/stdout; ends the test where they are not."""
    found = list(read_rows())
    told = text_of(COUNT)
    if told != f"{len(found)} rows\n" or len(found) < FEWEST:
        sys.exit(
            f"crates/rows/stdin has {len(found)} rows, where crates/rows/stdout says {told.strip()}, and there are at"
            f" least {FEWEST}"
        )
    return found


def read_rows(path: str = ROWS) -> typing.Iterator[Row]:
    """The rows of a file, in their order."""
    title, row, part = "", Row(), b""
    input_lines: list[bytes] = []
    output_lines: list[bytes] = []
    with open(path, "rb") as file:
        lines = file.read().split(b"\n")[:-1]
    for number, line in enumerate([*lines, b"="], 1):
        if line[:1] in (b"$", b"="):
            if row:
                row["input"], row["output"] = b"".join(input_lines), b"".join(output_lines)
                yield row
            words = [b"" if word == b"''" else word for word in line[1:].split()]
            row = Row(title=title, line=number, words=words) if line[:1] == b"$" else Row()
            part, input_lines, output_lines = b"<", [], []
            title = title if row else line[1:].strip().decode()
        elif row and line.startswith(b">"):
            part, row["status"] = b">", int(line[1:])
        elif row:
            (input_lines if part == b"<" else output_lines).append(unmarked(line))


def examples() -> list[Row]:
    """The rows of the files of examples/."""
    return [row for row in rows() if row["title"].startswith("examples/")]


def said(text: bytes) -> bytes:
    """A script without the lines that say nothing."""
    return b"".join(line for line in text.splitlines(True) if line.strip() and not line.startswith(b"#"))
