"""Scripts: the interpreter that a first line names, as Linux reads it, and the ways to a program and all its
interpreters."""
import errno
import functools
import os
import re
import stat
from typing import Optional

from may.lists import Unread, quoted
from may.ways import EXECUTE, Way, way

# A script's first line, as far as the kernel reads it.
HEAD = 256
# So many interpreters are gone to, of which all but the last are scripts.
MOST_INTERPRETERS = 5
FLAGS = os.O_RDONLY | os.O_NONBLOCK | os.O_NOFOLLOW | os.O_NOCTTY | os.O_CLOEXEC


def named_in(head: bytes) -> Optional[bytes]:
    """The interpreter that the first bytes of a file name, which may be empty; nothing where it is no script. Blanks
    are spaces and tabs alone, and a byte 0 ends all. A name that may go on behind these bytes is none."""
    if not head.startswith(b"#!"):
        return None
    text = head[:HEAD].ljust(HEAD, b"\0")
    end = text.partition(b"\0")[0].find(b"\n")
    if end < 0:
        begun = text[2:].lstrip(b" \t")
        if not re.search(rb"[ \t\0]", begun):
            return None
        end = HEAD - 1
    line = text[2:end].strip(b" \t")
    return re.split(rb"[ \t\0]", line, maxsplit=1)[0] if line else None


def interpreter_of(path: str) -> Optional[str]:
    """The program that a script names in its first line. What took the place of a file meanwhile is not waited for."""
    try:
        seat = os.open(path, FLAGS)
        try:
            if not stat.S_ISREG(os.fstat(seat).st_mode):
                raise Unread(f"{quoted(path)}: not judged here: it was changed while it was looked at")
            head = os.read(seat, HEAD)
        finally:
            os.close(seat)
    except OSError as error:
        why = os.strerror(error.errno or 0)
        raise Unread(f"{quoted(path)}: {why}, so whether it is a script is not known") from None
    name = named_in(head)
    return None if name is None else os.fsdecode(name)


@functools.lru_cache(maxsize=4096)
def way_to_program(name: str) -> Way:
    """The way to an interpreter: a folder is none, and so nor is an empty name, which is the current one."""
    if not name:
        return Way(name, [], Unread("its first line names no program", errno.EACCES, True))
    found = way(name, EXECUTE)
    if not found.end and found.places[-1].is_folder:
        end = Unread(f"{found.places[-1].shown} is a folder, and Linux executes files alone", errno.EACCES, True)
        return Way(name, found.places[:-1], end)
    return found


def interpreters(program: Way) -> list[Way]:
    """The ways to the interpreters of a program, one after the other."""
    found: list[Way] = []
    at = program
    while not at.end and at.places[-1].is_file:
        try:
            name = interpreter_of(at.places[-1].path)
        except Unread as error:
            return [*found, Way(at.path, [], error)]
        if name is None:
            break
        at = way_to_program(name)
        if len(found) == MOST_INTERPRETERS and not at.end:
            many = f"{quoted(name)} is the interpreter of too many scripts one after the other"
            at = at._replace(end=Unread(many, errno.ELOOP, True))
        found.append(at)
    return found


def ways_of(path: str, wanted: int) -> list[Way]:
    """The way to a path and, where it is executed, those to its interpreters."""
    first = way(path, wanted)
    return [first, *(interpreters(first) if wanted & EXECUTE else ())]


def is_refused(end: Unread) -> bool:
    """Whether Linux refuses whoever comes to the end of a way, as it does where nothing is there."""
    return end.denies or end.number in (errno.ENOENT, errno.ENOTDIR, errno.ELOOP)
