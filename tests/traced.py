"""The lines of a trace as the program prints them. Tests read them by patterns, and hold what tools tell of
its events against them.
"""
import re
import sys
from collections.abc import Iterable, Iterator

import played  # noqa: F401

from common import built

REQUEST = re.compile(r"  (\d+) -> s(\d+)  (.*?) +: (.*)")
OUTCOME = re.compile(r"(\d+)\.(\d+) (\d+) (.*)")
COPY = re.compile(r"    suite (\d+) \w+ prefix (\d+) content (\d+) votes \S+$")
SUITE = re.compile(r"\bsuite (\d+)\b")
NAMES = re.compile(r"suite (\d+)\b[^;:]*(?:: given, content \d+)? names((?: \S+=\d+)+)")


def lines_of(script: str) -> list[str]:
    """The lines that the program prints of a script; ends the test where it does not play it to its end."""
    status, text = built.asked("trace", script)
    if status != 0:
        sys.exit(f"trace ends with status {status}: {text[:200]!r} of\n{script}")
    return text.split("\n")[:-1]


def blocks(lines: Iterable[str]) -> Iterator[tuple[str, list[str]]]:
    """Each line of the script, and of each server at the end, with the lines below it."""
    found: list[tuple[str, list[str]]] = []
    for line in lines:
        if line[:1] in (">", "="):
            found.append((line, []))
        else:
            found[-1][1].append(line)
    yield from found


def paths(lines: Iterable[str]) -> dict[int, str]:
    """The paths of files and folders, by their numbers."""
    above = {int(suite): (int(folder), name)
             for line in lines if line.startswith("  ")
             for folder, names in NAMES.findall(line)
             for name, _, suite in (word.rpartition("=") for word in names.split())}
    known = {0: "/"}
    while any(suite not in known and folder in known for suite, (folder, _) in above.items()):
        for suite, (folder, name) in above.items():
            if folder in known:
                known[suite] = f"{known[folder].rstrip('/')}/{name}"
    return known


def told(lines: list[str]) -> str:
    """The lines as `./suites trace` prints them: with paths, the replies in one place, and what is behind."""
    known, text = paths(lines), ""
    newest: dict[str, list[int]] = {}
    for copy in filter(None, map(COPY.match, lines)):
        own = newest.setdefault(copy[1], [0, 0])
        own[:] = max(own[0], int(copy[2])), max(own[1], int(copy[3]))
    for line in lines:
        found, copy = REQUEST.match(line), COPY.match(line)
        if found:
            line = f"  {found[1]} -> s{found[2]}  {found[3]}\0{found[4]}"
        if line.startswith("  "):
            line = SUITE.sub(lambda one: f"{known[int(one[1])]}={one[0]}" if int(one[1]) in known else one[0], line)
        asked, is_request, reply = line.partition("\0")
        older = [name for name, own, most in zip(("prefix", "content"), copy.groups()[1:], newest[copy[1]])
                 if int(own) < most] if copy else []
        text += f"{asked:56} : {reply}\n" if is_request else f"{line}{'   behind: ' * bool(older)}{', '.join(older)}\n"
    return text
