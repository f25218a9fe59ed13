"""How an answer about a faulty line of a script is laid out, or about a faulty item of a list.

The program's line and code are given. What does not fit, why, and what would mend it is told by the command `forms`
(misfits.py, whys.py), and said with the sentences of reasons.py. Where its code is not the one that was given,
nothing is told.
"""
import re

from common import forms
from explain import misfits, whys
from explain.misfits import WORD, Found, Misfit
from common.forms import OPERATIONS
from common.quoted import either, nearest, plain, quoted, sentence
from explain.reasons import Of, of_item

OWN = {"play": "event", "serve": "job", "table": "transaction"}
# What is told of a word or a line of which something is not seen.
HIDDEN = {
    "no-break": ". In it is a no-break space, which is no space here",
    "bytes": ". In it are bytes that are no ASCII",
    "return": ". In the line is a carriage return, which ends no line without a line feed behind it",
    "-": "",
}
# So many bytes of a line are shown.
WIDTH = 100


def lines_of(text: str) -> list[str]:
    """The lines of a script, as the program counts them."""
    lines = text.split("\n")
    ended = [line[:-1] if line.endswith("\r") else line for line in lines[:-1]]
    return ended + ([lines[-1]] if lines[-1] else [])


def about(number: int, words: list[str], user: int, first: int) -> str:
    """What the line of a job is: whose it is and what it is to do, where its user stands and its first operation."""
    if words[0] == "sweep":
        return f"line {number}, a sweep of server {words[user]}"
    return f"line {number}, for user {words[user]} of groups {words[user + 1]}: {' '.join(words[first:])}"


def command_of(script: str) -> str:
    """The command whose script this is: the only one whose lines begin so, else the one that the program tells."""
    begins = {line.split()[0] for line in lines_of(script) if line.split() and not line.startswith("#")}
    for words in (begins, begins - {"together"}):
        may_be = [command for command in forms.COMMANDS if words <= forms.lines_of(command).keys()]
        if len(may_be) == 1:
            return may_be[0]
    return max(forms.COMMANDS, key=lambda command: misfits.likeness(command, lines_of(script)))


def told_of(command: str, line: str, misfit: Misfit) -> str:
    """What is told of the word that does not fit in a line of a command's script."""
    words = WORD.findall(line)
    word = words[misfit.at] if misfit.at < len(words) else ""
    if misfit.expected == "LINE":
        return told_of_first(command, word, misfit) + HIDDEN[misfit.hidden]
    if misfit.expected == "OPERATION" and misfit.why.reason == "due":
        told = unknown("is no operation", word, misfit, [*OPERATIONS])
    else:
        item = word[slice(*misfit.ends)] if misfit.ends else ""
        text = Of(misfit.why, word, misfit.expected, misfit.form.split()[0]).text()
        told = of_item(misfit.code, misfit.why.reason, item, text)
    return told + shifted(words, misfit) + HIDDEN[misfit.hidden]


def told_of_first(command: str, word: str, misfit: Misfit) -> str:
    """What is told of the word with which a line begins, or of the place of such a line."""
    due, reason, lines = misfit.due(), misfit.why.reason, forms.lines_of(command)
    is_due = f"{quoted(lines[due].form())} is due here" if due else ""
    if reason == "line-ends":
        return f"the script ends, and the line {quoted(lines[due].form())} is due"
    if reason == "due":
        return is_due
    if reason == "names-below":
        return f"names stand above the first {OWN[command]}, which is line {misfit.why.data[0]}"
    if reason == "behind-header":
        last = list(forms.lines_of(command, "header"))[-1]
        return f"{quoted(lines[word].form())} stands right behind the line {quoted(last)}"
    if reason == "comment":
        told = "a comment begins with '#' as the first byte of its line, and here a space or a tab stands before it"
    elif reason == "elsewhere":
        option = ", whose option --agents says how many agents there are" * ((command, word) == ("serve", "agents"))
        other = f"{quoted(word)} begins a line of {either(misfit.why.data)}"
        told = f"{other}, and this is a script of {command}{option}"
    elif reason == "unknown":
        told = unknown("begins no line", word, misfit, [*lines])
    else:
        told = Of(misfit.why, word).text()
    return told + (f"{', and' if reason == 'stands-above' else ';'} {is_due}" if due and reason != "blank" else "")


def unknown(why: str, word: str, misfit: Misfit, known: list[str]) -> str:
    """What is told of a word that is none of those known, which begin lines or are operations."""
    is_line, told, near = misfit.expected == "LINE", f"{quoted(word)} {why}; ", nearest(word, known)
    # of the known words like this one the first that fits, else the likest
    like = next((other for other in near if other in misfit.instead), near[0] if near else None)
    is_near = like in misfit.instead or not misfit.before if is_line else not word.startswith("/")
    if like and is_near:
        return f"{told}{quoted(like)} is near"
    if misfit.before or not is_line and word.startswith("/"):
        before = map(quoted, misfit.before) if is_line else misfit.before or known
        return f"{told}perhaps {either(before)} is missing before it"
    return f"{told}{either(known)} {'do' if is_line else 'are'}"


def shifted(words: list[str], misfit: Misfit) -> str:
    """What is told of one word too many or too few, which may explain a fault."""
    if misfit.shift == ["path"]:
        return f" behind {quoted(words[misfit.at - 1])}; a path is one word, without spaces"
    if misfit.shift == ["missing"]:
        return "; perhaps a word is missing before it"
    if not misfit.shift:
        return ""
    others = either(quoted(words[int(number) - 1]) for number in misfit.shift[-4:])
    too_many = f"; perhaps a word is too many: without {others} the line has its form"
    return f", or {others} is" if misfit.expected == "END" else too_many


def window(line: str, start: int, end: int) -> list[str]:
    """The part of a line around a word, and marks below the word."""
    end = min(end, start + WIDTH)
    cut = max(0, min(start - 40, len(line) - WIDTH))
    front, word, rest = plain(line[cut:start]), plain(line[start:end]), plain(line[end : cut + WIDTH])
    dots = "... " if cut else ""
    shown = f"{dots}{front}{word}{rest}{' ...' if cut + WIDTH < len(line) else ''}"
    return [f"    {shown}", f"    {' ' * len(dots + front)}{'^' * max(1, len(word))}"]


def spot_of(line: str, misfit: Misfit) -> tuple[int, int]:
    """Where a line has the fault: at a word or at an item of it, or behind the last word."""
    spots = [found.span() for found in WORD.finditer(line)] + [(len(line), len(line))]
    start, end = spots[misfit.at]
    return (start + misfit.ends[0], start + misfit.ends[1]) if misfit.ends else (start, end)


def not_found(name: str, lines: list[str], number: int, code: str, now: Found) -> list[str]:
    """What is told of a line that has no such fault: how it is now."""
    if number > len(lines) + 1:
        return ["", f"{name} has no line {number}. Was it changed since?"]
    line = lines[number - 1] if number <= len(lines) else ""
    is_now = "The line is right as it is now." if number <= len(lines) else ""
    if now.misfit:
        is_now = f"What is wrong with it now is {now.misfit.code}: {told_of(now.command, line, now.misfit)}."
    return ["", f"{name} has no fault {code} in line {number}. {is_now} Was it changed since?".replace("  ", " ")]


def of_script(name: str, text: str, number: int, code: str, command: str | None = None) -> tuple[list[str], bool]:
    """What is to be shown of a line of a script, and whether its fault was found. A fault of another command than the
    likest one is the one sought only where no line above has a fault of that command.
    """
    lines = lines_of(text)
    first, *others = whys.in_script(text, lines, number, command)
    may_be = [first, *(one for one in others if not one.above)]
    of = next((one for one in may_be if one.misfit and one.misfit.code == code), first)
    misfit = of.misfit if of.misfit and of.misfit.code == code else None
    line = lines[number - 1] if number <= len(lines) else ""
    if number > len(lines):
        count = f"{len(lines)} {'line' if len(lines) == 1 else 'lines'}"
        shown = [f"{name} has {count}, and is taken as a script of `{of.command}`."]
    else:
        shown = [f"Line {number} of {name}, a script of `{of.command}`:", ""]
        shown += window(line, *spot_of(line, misfit)) if misfit else [f"    {plain(line[:WIDTH])}"]
    if not misfit:
        return shown + not_found(name, lines, number, code, of), False
    shown += ["", sentence(told_of(of.command, line, misfit))]
    form = " ".join(forms.SHOWN.get(place, place) for place in misfit.form.split())
    shown += [f"The form: {form}"] if misfit.expected != "LINE" else []
    shown += [f"Most lines are those of a script of `{first.command}`."] if of is not first else []
    return shown, True


def of_list(name: str, text: str, code: str) -> tuple[list[str], bool]:
    """What is to be shown of a list, and whether its fault was found. Which names have a number is not known."""
    place = re.search(r"(.*) item (\d+)$", code)
    now = whys.in_list(text, int(place[2]) if place else 0, code.split()[0] != "A10")
    if not place:
        return ([sentence(told_now(text, now))] if now.code == code else mended(name, code, text)), now.code == code
    if not now.ends:
        return [f"{name} has {now.why.data[0]} items. Was it changed since?"], False
    start, end = now.ends
    above = text.rfind("\n", 0, start) + 1
    line = text[above:].partition("\n")[0].rstrip(" \t\r")
    told = [sentence(Of(now.why).text())] if now.code == code else mended(name, code, text)
    head = f"Item {place[2]} of {name}, in line {text.count(chr(10), 0, start) + 1}:"
    return [head, "", *window(line, start - above, end - above), "", *told], now.code == code


def told_now(text: str, now: misfits.Item) -> str:
    return of_item(now.code, now.why.reason, text[slice(*now.ends)] if now.ends else "", Of(now.why, text).text())


def mended(name: str, code: str, text: str) -> list[str]:
    """What is told of a list that has no such fault."""
    now = whys.in_list(text, 0, True)
    is_right = "The list is right as it is now."
    is_now = f"What is wrong with it now is {now.code}: {told_now(text, now)}." if now.code else is_right
    return [f"{name} has no fault {code}. {is_now} Was it changed since?"]
