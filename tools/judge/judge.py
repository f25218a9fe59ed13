"""./suites judge [--order | --small] < HISTORY

Tells whether a history is one plain table's; help/judge.txt tells all of it. The program does the work. Here
its words are looked at, and it is told what stands around the line that fits no order, and what one table could have
told there (--small: in as few calls as may be), or the script that answers so.
"""
import argparse
import shlex
import sys
import typing

from common import built, console
from explain import faults
from judge.watch import DONE, FAULTY, NO_ORDER, Ended, Watch

UNREAD = 6
# The program reads no more of a history.
MOST = 128 << 20
# So many calls that ran beside the one that is told are told with it.
MOST_BESIDE = 12
# What else is told than replies: of a test, and of an operation.
WALKS = ("F1", "F2", "F4")
CODES = (*WALKS, "F5", "F6", "F7", "F8", "F9", "F11", "F12")
# Up to so many lines all that could have been told is looked for; the program judges once for each.
MOST_TRIED = 20_000
READS = {"read", "list", "getacl", "getvotes", "test"}


class Told(typing.NamedTuple):
    """A call: the lines, counted from 0, on which it was made and told; its own name; what it asks for."""

    made: int
    told: int | None
    name: str
    asks: str


def read(words: list[str]) -> argparse.Namespace:
    parser = console.Parser("judge")
    either = parser.add_mutually_exclusive_group()
    either.add_argument("--order", action="store_true")
    either.add_argument("--small", action="store_true")
    parser.add_argument("files", nargs="*")
    given = parser.parse_args(words)
    if given.files and not given.help:
        raise console.Bad(f"a history is read from standard input: ./suites judge < {shlex.quote(given.files[0])}")
    return given


def calls_of(lines: list[str]) -> list[Told]:
    """The calls of a history that has no fault."""
    calls, named = list[Told](), dict[str, int]()
    for place, line in enumerate(lines):
        kind, *words = ("" if line.startswith("#") else line).split() or [""]
        if kind == "do":
            calls.append(Told(place, place, "", " ".join(words)))
        elif kind == "call":
            named[words[0]] = len(calls)
            calls.append(Told(place, None, words[0], " ".join(words[1:])))
        elif kind == "ret":
            at = named.pop(words[0])
            calls[at] = calls[at]._replace(told=place)
    return calls


def around(lines: list[str], number: int) -> list[str]:
    """What stands around the line that fits no order: the line, its call, and what ran beside that."""
    calls = calls_of(lines)
    call = next(call for call in calls if call.told == number)
    beside_it = [
        other
        for other in calls
        if other is not call and other.made < number and (other.told is None or other.told > call.made)
    ]
    shown = [f"  line {number + 1}: {lines[number].strip()}"]
    if call.made != number:
        shown.append(f"  called at line {call.made + 1}: {lines[call.made].strip()}")
    for other in beside_it[-MOST_BESIDE:]:
        ending = "never told" if other.told is None else f"told at line {other.told + 1}"
        shown.append(f"  beside it, line {other.made + 1}: {lines[other.made].strip()} ({ending})")
    if len(beside_it) > MOST_BESIDE:
        shown.append(f"  and {len(beside_it) - MOST_BESIDE} more")
    return shown


def line_of(said: str) -> int:
    """The line, counted from 0, that the program says fits no order."""
    return int(said.split()[2]) - 1


def without(lines: list[str], calls: typing.Iterable[Told]) -> list[str]:
    """The history without some calls: their lines are empty, so that the others keep their numbers."""
    gone = {place for call in calls for place in (call.made, call.told)}
    return ["" if place in gone else line for place, line in enumerate(lines)]


def paths(call: Told) -> set[str]:
    return {operation.split()[1] for operation in call.asks.partition(" ")[2].partition(" ")[2].split(" ; ")}


def are_near(one: str, other: str) -> bool:
    """Whether a path leads through another, or to it."""
    return (one + "/").startswith(other.rstrip("/") + "/") or (other + "/").startswith(one.rstrip("/") + "/")


def changes_nothing(call: Told, lines: list[str]) -> bool:
    """Whether a call only reads, or was refused: a history that has an order has one without it."""
    verbs = {operation.split()[0] for operation in call.asks.partition(" ")[2].partition(" ")[2].split(" ; ")}
    was_refused = call.told is not None and lines[call.told].split()[2:3] in (["denied"], ["refused"])
    return was_refused or verbs <= READS


def is_refuted(watch: Watch, lines: list[str]) -> tuple[bool, list[str]]:
    """Whether a history has no order, and its lines up to the one that fits none."""
    status, said = watch.judged(lines)
    return status == NO_ORDER, lines[: line_of(said) + 1] if status == NO_ORDER else lines


def far_off(lines: list[str]) -> list[Told]:
    """The calls that have nothing to do with the one that fits no order: their paths are near none of those that do."""
    calls = calls_of(lines)
    near = paths(next(call for call in calls if call.told == len(lines) - 1))
    while True:
        beside_them = [call for call in calls if any(are_near(one, other) for one in paths(call) for other in near)]
        more = near.union(*map(paths, beside_them))
        if more == near:
            return [call for call in calls if not paths(call) & near]
        near = more


def smaller(watch: Watch, lines: list[str], number: int) -> list[str]:
    """The history up to that line, without calls that change nothing and without those that have to do with other
    files, as long as there is no order: first many at once. Where there is none of what is left, there is none of all.
    """
    lines = lines[: number + 1]
    watch.begin(f"line {number + 1} fits no order: calls that it needs are looked for")
    is_so, fewer = is_refuted(watch, without(lines, far_off(lines)))
    lines = fewer if is_so else lines
    size = max(1, len(calls_of(lines)) // 2)
    while size:
        place = 0
        while quiet := [call for call in calls_of(lines) if call.name and changes_nothing(call, lines)][place:]:
            watch.what = f"line {number + 1} fits no order: {len(calls_of(lines)):,} calls are left of the history"
            is_so, fewer = is_refuted(watch, without(lines, quiet[:size]))
            if is_so:
                lines = fewer
            place += 0 if is_so else size
        size //= 2
    return lines


def is_test(call: Told) -> bool:
    """Whether a call asks whether it is granted something: a script of `table` has no such line."""
    return call.asks.split()[2:3] == ["test"]


def root_of(lines: list[str]) -> str:
    return next(line for line in lines if line.split()[:1] == ["root"])


def played(watch: Watch, lines: list[str], order: list[int]) -> list[tuple[Told, str]]:
    """The calls of an order with what `table` answers to each; to a test, which it has not, nothing."""
    calls = {call.made: call for call in calls_of(lines)}
    placed = [calls[place] for place in order]
    jobs = [f"do {call.asks}" for call in placed if not is_test(call)]
    status, said = watch.asked("table", "\n".join([root_of(lines), *jobs, ""]))
    if status != DONE:
        raise Ended("suites", status)
    answers = iter(said.splitlines())
    return [(call, "" if is_test(call) else next(answers)) for call in placed]


def script(watch: Watch, lines: list[str], order: list[int]) -> list[str]:
    """The script of `table` that answers as the clients were told, with answers below it; a test is a comment."""
    told = [root_of(lines)]
    watch.begin("there is an order, which is played")
    for call, answer in played(watch, lines, order):
        if is_test(call):
            told += [f"# {lines[place].strip()}" for place in sorted({call.made, call.told} - {None})]
        else:
            told += [f"do {call.asks}", f"# {answer}"]
    return told


def order_of(said: str) -> list[int]:
    """The lines, counted from 0, of the calls in the order that the program told."""
    return [int(one) - 1 for one in said.split("\n")[1:] if one]


def told_so(watch: Watch, lines: list[str], call: Told, answer: str) -> str:
    """What is told of a call in an order in which its answer is this, with its replies; nothing where there is none."""
    name = call.name or str(1 + max([int(other.name) for other in calls_of(lines) if other.name], default=0))
    lines = [*lines[: call.made], f"call {name} {call.asks}", *lines[call.made + 1 :], f"ret {name} {answer}"]
    status, said = watch.judged(lines, "--order")
    if status != DONE:
        return ""
    if answer != "answered":
        return answer
    replies = (there for one, there in played(watch, lines, order_of(said)) if one.made == call.made)
    return next(replies).partition(" ")[2]


def could_be(watch: Watch, lines: list[str], number: int) -> typing.Iterator[str]:
    """What one table could have told on the line that fits no order: with each of these the history up to there has an
    order. Of a longer history a refusal that is no denial is not looked for.
    """
    call = next(call for call in calls_of(lines) if call.told == number)
    operations = call.asks.count(" ; ") + 1
    codes = WALKS if is_test(call) else CODES
    answers = ["answered granted" if is_test(call) else "answered", "denied"]
    if number <= MOST_TRIED:
        answers += [f"refused {code} op {place + 1}" for place in range(operations) for code in codes]
    watch.begin("")
    for tried, answer in enumerate(answers):
        watch.what = f"what one table could have told there: {tried} of {len(answers)} answers are tried"
        if told := told_so(watch, lines[:number], call, answer):
            yield f"  one table could have told: {told}"


def tell_around(watch: Watch, lines: list[str], first: str) -> None:
    """Prints what is told where there is no order: the verdict, what stands around that line, and what one table could
    have told there. Where a program is ended, the last is not whole, and standard error says so.
    """
    number = line_of(first)
    watch.tell(first, *around(lines, number))
    try:
        for line in could_be(watch, lines, number):
            watch.tell(line)
    except Ended as end:
        watch.begin("")
        console.Teller().say(f"not all that one table could have told is told: {end}")


def told_small(watch: Watch, lines: list[str], number: int) -> list[str]:
    """A history of few calls that has no order, and below it the verdict on it."""
    left = [line for line in smaller(watch, lines, number) if line and not line.startswith("#")]
    return [*left, f"# {watch.judged(left)[1].strip()}"]


def judged(given: argparse.Namespace, watch: Watch) -> int:
    """Judges standard input. Answers the exit status of the program."""
    text = watch.read(MOST + 1)
    lines = faults.lines_of(text.decode("latin1"))
    watch.begin(f"judge is at work on {len(lines):,} lines")
    status, said = watch.asked("judge", text, *(["--order"] if given.order else []))
    first = said.partition("\n")[0]
    if status == NO_ORDER and given.small:
        watch.tell(*told_small(watch, lines, line_of(first)))
    elif status == NO_ORDER:
        tell_around(watch, lines, first)
    elif status == DONE and given.order:
        watch.tell(f"# {first}", *script(watch, lines, order_of(said)))
    elif first:
        watch.tell(first)
    watch.begin("")
    if status == FAULTY and sys.stderr.isatty():
        console.Teller().say(f"./suites explain {shlex.quote(first)} tells what it means")
    if status == UNREAD:
        console.Teller().say("the history is above 128 MiB, or a read or a write failed (./suites explain 'status 6')")
    if status < 0:
        raise Ended("judge", status)
    return status


def run(given: argparse.Namespace) -> int:
    built.program()
    try:
        with Watch() as watch:
            return judged(given, watch)
    except Ended as end:
        console.Teller().say(str(end))
        return console.status_of(end.status)


def main() -> int:
    return console.of_input("judge", read(sys.argv[1:]), run)
