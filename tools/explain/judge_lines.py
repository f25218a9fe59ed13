"""What stands in a history behind a line that `judge` printed of it, or behind its own lines: which call a line
answers, and what ran beside it.
"""
import re
import typing

from common import quoted
from explain import faults
from judge import judge

NO_ORDER = re.compile(r"(?:# )?no: line (\d+) fits no order$")
ORDER = re.compile(r"(?:# )?one table: \d+ calls?$")
# How the lines of a history begin that scripts do not have.
OWN = ("call", "ret")
FORMS = {
    "root": "root UID GID INIT",
    "do": "do UID GIDS OPERATION ; ..",
    "call": "call NAME UID GIDS OPERATION ; ..",
    "ret": "ret NAME answered|denied|refused ..",
}
TEST = "test PATH WANTED, where WANTED is some of r, w and x, in this order"


def is_history(text: str) -> bool:
    """Whether a text is a history: a script has no calls."""
    return any(line.split()[:1] and line.split()[0] in OWN for line in faults.lines_of(text))


def placed(number: int, lines: list[str]) -> typing.Iterator[str]:
    """What a line of a history is about: of a call where it is told, of an answer which call it is."""
    line = quoted.plain(lines[number - 1].strip())
    call = next((one for one in judge.calls_of(lines) if number - 1 in (one.made, one.told)), None)
    if call is None:
        yield f"Line {number} is `{line}`."
    elif call.made == call.told:
        yield f"Line {number}, `{line}`, tells what stood there before."
    elif call.told == number - 1:
        yield f"Line {number}, `{line}`, answers the call of line {call.made + 1}, `{quoted.plain(call.asks)}`."
    elif call.told is None:
        yield f"The call of line {number}, `{line}`, was told nothing: it may have been carried out or not."
    else:
        yield f"The call of line {number}, `{line}`, is answered in line {call.told + 1}."


def of_fault(text: str, name: str, number: int, code: str) -> list[str]:
    """A line of a history that has a fault, and the form that is due."""
    lines = faults.lines_of(text)
    if number > len(lines):
        return [f"{name} has {len(lines)} lines: the line `root UID GID INIT` is due.", f"The code is {code}."]
    line = lines[number - 1]
    first = (line.split() or [""])[0]
    form = FORMS.get(first)
    due = f"The form: {form}" if form else f"A line of a history begins with {quoted.either(FORMS)}."
    if form and re.match(r"\s*(?:do|call\s+\S+)\s+\S+\s+\S+\s+test(?:\s|$)", line):
        due = f"The form: {form.replace('OPERATION ; ..', TEST)}."
    above = [f"The first line is `{FORMS['root']}`, and no other one is."] if code == "S2" else []
    return [f"Line {number} of {name}, a history of calls:", "", f"    {quoted.short(line)}", "", *above, due]


def of_line(text: str, history: str, name: str) -> list[str]:
    lines = faults.lines_of(history)
    refuted, found = NO_ORDER.match(text), ORDER.match(text)
    if refuted and 0 < int(refuted[1]) <= len(lines) and lines[int(refuted[1]) - 1].startswith(("do", "ret")):
        number = int(refuted[1])
        rest = [line.strip() for line in judge.around(lines, number - 1)[1:] if "beside it" in line]
        beside = [f"{line[0].upper()}{line[1:]}." for line in rest]
        alone = "" if beside else "Nothing ran beside it: its call was made when all calls above had been told."
        return [*placed(number, lines), *beside, *filter(None, [alone])]
    if found:
        calls = judge.calls_of(lines)
        untold = sum(call.told is None for call in calls)
        return [f"{name} has {len(calls)} calls, of which {untold} were told nothing."]
    numbers = [number for number, line in enumerate(lines, 1) if " ".join(line.split()) == text]
    told = [told for number in numbers[:3] for told in placed(number, lines)]
    return told or [f"{name} has no such line. Was it changed?"]
