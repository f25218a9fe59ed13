"""The command `may`, which answers all questions about lists: many at once, and each question once."""
import functools
import os
import re
import subprocess
from typing import Iterable, NamedTuple

from common import built, console
from may.lists import GROUP, GROUP_OBJ, KINDS, MASK, Entry, List, Unread, fault, in_order, letters, list_text
from may.people import Caller
from may.ways import Place

# A caller has so many groups beside its own at most.
MOST_GROUPS = 32
# So many bytes of questions are asked at once; the program takes 16 MiB.
MOST_BYTES = 15_000_000
GRANTS = "granted"
# What was answered to lines, of which so many are kept.
KNOWN: dict[str, str] = {}
MOST_KNOWN = 300_000


class Question(NamedTuple):
    """Whether a caller is granted what it wants of a file of this owner and group with this list."""

    owner: int
    group: int
    entries: List
    caller: Caller
    wanted: int

    def line(self) -> str:
        """Its line. More groups than the program takes are told without those that decide nothing."""
        groups = list(self.caller.groups)
        if len(groups) > MOST_GROUPS:
            named = {entry.id for entry in self.entries if entry.tag == GROUP} | {self.group}
            groups = [group for group in groups if group in named]
        numbers = ",".join(map(str, [self.caller.gid, *groups]))
        return f"{self.owner} {self.group} {self.caller.uid} {numbers} {letters(self.wanted)} {list_text(self.entries)}"


def question(place: Place, caller: Caller, wanted: int = 0) -> Question:
    return Question(place.owner, place.group, place.entries, caller, wanted or place.wanted)


@functools.cache
def program() -> str:
    """The program: the proved one where it is that of the sources, else a checked build."""
    if os.environ.get("MAY"):
        return os.environ["MAY"]
    try:
        return built.program()
    except SystemExit:
        raise Unread("there is no program") from None


def asked(lines: list[str]) -> dict[str, str]:
    """What the program answers to lines, of which each is asked once; to a line that it takes for faulty, its fault."""
    told: dict[str, str] = {}
    left = list(dict.fromkeys(lines))
    while left:
        done = subprocess.run(
            [program(), "may"], input="".join(f"{line}\n" for line in left).encode(), stdout=subprocess.PIPE
        )
        given = done.stdout.decode().splitlines()
        faulty = re.fullmatch(r"fault line (\d+): (.*)", given[0]) if done.returncode == 3 and len(given) == 1 else None
        if faulty:
            told[left.pop(int(faulty[1]) - 1)] = f"fault {faulty[2]}"
            continue
        if done.returncode != 0 or len(given) != len(left):
            raise Unread(f"{console.ended('may', done.returncode)}: {' '.join(given[:1])}")
        told.update(zip(left, given))
        left = []
    return told


def answers(questions: Iterable[Question]) -> list[str]:
    """What the program answers to each question; to one of a list that it does not take, why."""
    given = list(questions)
    faults = {entries: fault(entries) for entries in {one.entries for one in given}}
    lines = [None if faults[one.entries] else one.line() for one in given]
    if len(KNOWN) > MOST_KNOWN:
        KNOWN.clear()
    told = {line: KNOWN[line] for line in lines if line in KNOWN}
    batch: list[str] = []
    size = 0
    for line in dict.fromkeys(line for line in lines if line is not None and line not in told):
        if size + len(line) >= MOST_BYTES:
            told.update(asked(batch))
            batch, size = [], 0
        batch.append(line)
        size += len(line) + 1
    told.update(asked(batch))
    KNOWN.update(told)
    return [f"fault {faults[one.entries]}" if line is None else told[line] for one, line in zip(given, lines)]


def is_granted(answer: str) -> bool:
    return answer == GRANTS


def fault_in(answer: str) -> str:
    """Why a question got no answer; nothing where it got one."""
    return answer[len("fault ") :] if answer.startswith("fault ") else ""


# ---- which entry grants


def without_grants(entries: List, kept: Iterable[Entry] = ()) -> List:
    """The list with no permission left but in these entries and in its mask."""
    stay = set(kept)
    return tuple(entry if entry in stay or entry.tag == MASK else entry._replace(perms=0) for entry in entries)


def granting(questions: list[Question]) -> list[Entry]:
    """Which entry grants each of some questions that are granted. The check names the entry of a denial: so the list
    is asked without any permission, and where a group's entry is named, with those of one group after the other."""
    emptied = [one._replace(entries=without_grants(one.entries)) for one in questions]
    named = [decider(one.entries, answer) for one, answer in zip(questions, answers(emptied))]
    tries = [
        (at, entry)
        for at, (one, found) in enumerate(zip(questions, named))
        if found.tag in (GROUP_OBJ, GROUP)
        for entry in in_order(one.entries)
        if entry.tag in (GROUP_OBJ, GROUP)
    ]
    said = answers(
        questions[at]._replace(entries=without_grants(questions[at].entries, [entry])) for at, entry in tries
    )
    for (at, entry), answer in reversed(list(zip(tries, said))):
        if is_granted(answer):
            named[at] = entry
    return named


def decider(entries: List, answer: str) -> Entry:
    """The entry of a list that a denial names."""
    kind, number = answer.rpartition(" by ")[2].split(":")[:2]
    return next(entry for entry in entries if (entry.tag, entry.id) == (KINDS[kind][bool(number)], int(number or 0)))
