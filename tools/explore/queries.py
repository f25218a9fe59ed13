"""Questions of the ways that `explore` tells: how they are read, and in which ways what they ask for is so.

A question joins atoms by `and`, `or`, `not` and brackets. An atom is a job and how it ended, as `0.1 answered`, with as
many words of its line behind that as are wanted; or two jobs that were decided in that order, as `0.1 before 1.0`. What
cannot stand in a line of that job is a fault, so that nothing is said never to be by a slip.
"""
import re
import typing

from common import console

# What a word of a line may be.
NUMBER, LIST = r"\d+", r"\S+"
# The lines of jobs that ended, word by word: each of these is how a job may have ended. Of an answered one see REPLIES.
SHAPES: tuple[tuple[str, ...], ...] = (
    ("denied", "op", "[1-8]", "suite", NUMBER, "wants", "[r-][w-][x-]", "by", LIST),
    ("refused", r"F(?:[1-9]|1[0-2])", "op", "[1-8]"),
    ("undecided", "U1", "suite", NUMBER, "got", NUMBER, "of", NUMBER),
    ("undecided", "U2", "server", NUMBER, "holder", NUMBER),
    ("undecided", "U[36]", "server", NUMBER),
    ("undecided", "U[457]"),
    ("swept", NUMBER, NUMBER, NUMBER),
    ("decided",),
    ("stopped",),
)
# What an operation that was done replies; the replies of a transaction stand with `;` between them.
REPLIES: tuple[tuple[str, ...], ...] = (
    ("made", NUMBER),
    ("read", "(?:-|(?:[0-9a-f]{2})+)"),
    ("wrote",),
    ("dropped",),
    ("set",),
    ("list", LIST),
    ("acl", LIST),
    ("votes", LIST),
)
ENDINGS = "answered, denied, refused, undecided, swept, decided (answered, denied or refused) and stopped"
# Behind a job: another one, which was decided later. And before the jobs that were decided, in the order in which they
# were.
BEFORE, ORDER = "before", "decided"
# Endings that say that a transaction was decided.
DECIDED = ("answered", "denied", "refused")
JOB = re.compile(r"(\d{1,3})\.(\d{1,20})")
JOINED = {"and", "or", "not", "(", ")"}
# The most words of a question.
MOST = 200

# How the jobs of a way ended: the words behind each job's number. Where it is told in which order jobs were decided,
# these stand behind ORDER.
Way = dict[str, tuple[str, ...]]
# Whether something is so in a way.
Holds = typing.Callable[[Way], bool]


class Question(typing.NamedTuple):
    """A question: its text, its jobs, whether it asks for the order of decisions, and whether it is so in a way."""

    text: str
    jobs: list[str]
    ordered: bool
    holds: Holds


def words_of(text: str) -> list[str]:
    """The words of a question or of a line, of which brackets and `;` are words by themselves."""
    return re.sub(r"([();])", r" \1 ", text).split()


def fits(words: typing.Sequence[str], shape: typing.Sequence[str]) -> bool:
    """Whether words may stand at the head of a line of this shape."""
    return len(words) <= len(shape) and all(re.fullmatch(one, word) for one, word in zip(shape, words))


def are_replies(words: typing.Sequence[str]) -> bool:
    """Whether words may stand behind `answered`."""
    for shape in REPLIES:
        end = len(shape)
        if fits(words, shape) or fits(words[:end], shape) and words[end : end + 1] == [";"] and are_replies(
            words[end + 1 :]
        ):
            return True
    return not words


def may_end(words: typing.Sequence[str]) -> bool:
    """Whether a job may end so."""
    return words[0] == "answered" and are_replies(words[1:]) or any(fits(words, shape) for shape in SHAPES)


def is_ended(told: typing.Sequence[str], wanted: typing.Sequence[str]) -> bool:
    """Whether a job that ended as it is told ended so."""
    if wanted[0] == "decided":
        return told[0] in DECIDED
    if wanted[0] == "stopped":
        return told[0] == "-"
    return list(told[: len(wanted)]) == list(wanted)


def is_before(order: typing.Sequence[str], first: str, later: str) -> bool:
    """Whether both jobs were decided, in this order."""
    return first in order and later in order and order.index(first) < order.index(later)


class Reader:
    """Reads a question from its first word to its last."""

    def __init__(self, text: str) -> None:
        self.text, self.words, self.place = text, words_of(text), 0
        self.jobs: list[str] = []
        self.ordered = False

    def fault(self, why: str) -> typing.NoReturn:
        raise console.Bad(f"--ask '{self.text}': {why} (./suites explore --help)")

    def next(self) -> str | None:
        """The next word, without taking it; nothing behind the last one."""
        return self.words[self.place] if self.place < len(self.words) else None

    def takes(self, word: str) -> bool:
        """Takes this word, where it is the next one."""
        is_next = self.next() == word
        self.place += is_next
        return is_next

    def joined(self, part: typing.Callable[[], Holds], word: str, of: typing.Callable[..., bool]) -> Holds:
        """Parts with a word between them, any or all of which are to be so."""
        parts = [part()]
        while self.takes(word):
            parts.append(part())
        return lambda way: of(part(way) for part in parts)

    def either(self) -> Holds:
        return self.joined(self.both, "or", any)

    def both(self) -> Holds:
        return self.joined(self.one, "and", all)

    def one(self) -> Holds:
        if self.takes("not"):
            part = self.one()
            return lambda way: not part(way)
        if self.takes("("):
            inner = self.either()
            if not self.takes(")"):
                self.fault("a bracket is not closed")
            return inner
        return self.atom()

    def atom(self) -> Holds:
        """A job and how it ended, or before which other one it was decided."""
        job = self.job()
        if self.takes(BEFORE):
            later, self.ordered = self.job(), True
            return lambda way: is_before(way[ORDER], job, later)
        first = self.place
        while (word := self.next()) is not None and word not in JOINED:
            self.place += 1
        ending = self.words[first : self.place]
        if not ending:
            self.fault(f"behind {job} is told how it ended: {ENDINGS}; or before, and a job that was decided later")
        if not may_end(ending):
            self.fault(f"no job ends so: {' '.join(ending)}; it ends {ENDINGS}, with words of its line behind")
        return lambda way: is_ended(way[job], ending)

    def job(self) -> str:
        job = self.next()
        if job is None or not JOB.fullmatch(job):
            self.fault(f"a job such as 0.1 stands here, and not {'nothing' if job is None else job}")
        self.place += 1
        if job not in self.jobs:
            self.jobs.append(job)
        return job


def read(text: str) -> Question:
    reader = Reader(text)
    if len(reader.words) > MOST:
        reader.fault(f"a question has at most {MOST} words")
    holds = reader.either()
    if reader.next() is not None:
        reader.fault(f"and, or, or the end stands here, and not {reader.next()}")
    return Question(text, reader.jobs, reader.ordered, holds)


class Answer:
    """In which of the ways that were looked at so far what a question asks for is so, by their numbers."""

    def __init__(self, question: Question) -> None:
        self.question, self.found = question, list[int]()

    def look(self, number: int, way: Way) -> None:
        if self.question.holds(way):
            self.found.append(number)

    def kind(self, ways: int) -> str:
        """How often it is so, where so many ways were told."""
        return "never" if not self.found else "always" if len(self.found) == ways else "sometimes"

    def line(self, ways: int, is_all: bool) -> str:
        kind = self.kind(ways)
        some = f", in {len(self.found)} of {ways} ways" if kind == "sometimes" else "" if is_all else " so far"
        return f"{kind}{some}: {self.question.text}"

    def told(self, ways: int, is_all: bool, command: typing.Callable[[int], str]) -> str:
        """The lines of the answer, where so many ways were told; the command that shows one of them."""
        shortest = f"  the shortest: {command(self.found[0])}\n" if self.kind(ways) == "sometimes" else ""
        return f"{self.line(ways, is_all)}\n{shortest}"

    def drawn(self, command: typing.Callable[[int], str]) -> str:
        """The lines of the answer, where the ways are those of orders that were drawn."""
        asked = self.question.text
        return f"sometimes: {asked}\n  as in: {command(self.found[0])}\n" if self.found else f"not found: {asked}\n"


def ways_in(lines: typing.Iterable[str]) -> typing.Iterator[Way]:
    way: Way | None = None
    for line in lines:
        head, _, rest = line.rstrip("\n").partition(" ")
        if head == "way":
            if way is not None:
                yield way
            way = {}
        elif way is not None and (head == ORDER or JOB.fullmatch(head)):
            way[head] = tuple(words_of(rest))
    if way is not None:
        yield way


def unknown(questions: typing.Sequence[Question], jobs: typing.Collection[str]) -> str | None:
    """What is wrong with questions, where the script has these jobs; nothing, where nothing is."""
    told = [job for job in jobs if job != ORDER]
    for question in questions:
        for job in question.jobs:
            if job not in told:
                return f"--ask '{question.text}': there is no job {job} below together, but {', '.join(told)}"
    return None
