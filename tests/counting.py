"""How many instructions a command takes, as valgrind counts them: the same number whatever else the machine does."""
import re
import shutil
import subprocess
import sys
import tempfile
import typing

import played

COUNTING = ["valgrind", "--tool=callgrind", "--callgrind-out-file=/dev/null"]


def is_skipped(_: object = None) -> bool:
    """Says so where nothing can be counted here."""
    is_there = shutil.which("valgrind") is not None
    if not is_there:
        print("skipped: valgrind is not installed, so no instructions are counted")
    return not is_there


def instructions(words: list[str], given: str | bytes, is_well: bool = False, **how: typing.Any) -> int:
    """How many instructions a command takes on an input; ends the test where none are told, or where the command is to
    end well and does not.
    """
    with tempfile.TemporaryFile() as source:
        source.write(given if isinstance(given, bytes) else given.encode("latin1"))
        source.seek(0)
        done = played.done([*COUNTING, *words], stdin=source, stdout=subprocess.DEVNULL, **how)
    found = re.search(r"Collected : (\d+)", done.err)
    if not found or is_well and done.status != 0:
        sys.exit(f"{words} ends with {done.status}: {done.err[-600:]}")
    return int(found[1])
