"""May this user? What is told of one path: a line a place, and a last sentence."""
from typing import Iterator, NamedTuple

from may import linux
from may.lists import LIMITED, entry_text, letters, mask_of, name_of, quoted, who
from may.people import Caller
from may.program import Question, answers, decider, fault_in, is_granted, question
from may.scripts import ways_of
from may.ways import Place, Way

GRANTED, DENIED, BAD, UNREAD = 0, 1, 2, 3
Answers = dict[Question, str]
# So many paths are looked at before their questions are asked.
AT_ONCE = 200


class Judged(NamedTuple):
    """What is told of a path, a line each; the last sentence, and the status."""

    lines: list[str]
    last: str
    status: int


def short(wanted: int) -> str:
    return letters(wanted).replace("-", "")


def why(place: Place, answer: str, wanted: int = 0) -> str:
    """Why a place denies, in words."""
    entry, mask, wanted = decider(place.entries, answer), mask_of(place.entries), wanted or place.wanted
    about = ""
    if mask is not None and entry.tag in LIMITED:
        about = " (mask ok)" if wanted & ~mask == 0 else f" (and the mask {letters(mask)})"
    return f"{place.shown} wants {letters(wanted)}, {who(entry).rstrip(':')} grants {letters(entry.perms)}{about}"


def listed(place: Place) -> Iterator[str]:
    """The list of a place, an entry a line, with what its mask leaves."""
    mask = mask_of(place.entries)
    for entry in place.entries:
        lost = mask is not None and entry.tag in LIMITED and entry.perms & ~mask
        left = f"  #effective:{letters(entry.perms & (mask or 0))}" if lost else ""
        yield f"    {entry_text(entry, name_of)}{left}"


def said_of(place: Place, answer: str) -> str:
    return "granted" if is_granted(answer) else f"denied by {entry_text(decider(place.entries, answer), name_of)}"


def line_of(place: Place, answer: str, said: linux.Said, wide: int) -> str:
    """The line of a place: what its list says, and what Linux does where that is something else."""
    if place.is_link:
        return f"{place.shown:{wide}}  a link that is not followed"
    linux_says = "granted" if said.grants else "denied"
    if fault_in(answer):
        return (
            f"{place.shown:{wide}}  {letters(place.wanted)}  its list is not judged ({linux_says} by Linux: {said.why})"
        )
    note = f" ({linux_says} by Linux: {said.why})" if said.grants != is_granted(answer) else ""
    return f"{place.shown:{wide}}  {letters(place.wanted)}  {said_of(place, answer)}{note}"


def denial(place: Place, answer: str, said: linux.Said) -> str:
    """Why a place denies: Linux's own reason where there is one."""
    if not said.why:
        return why(place, answer)
    return (
        said.why
        if said.why.startswith((place.shown, place.mount.shown))
        else f"{place.shown} wants {letters(place.wanted)}, {said.why}"
    )


def judged(caller: Caller, wanted: int, verbose: bool, found: Way, told_of: Answers) -> Judged:
    """What is told of a way, where the answers of the program are known."""
    places = [place for place in found.places if not place.is_link]
    wide = max((len(place.shown) for place in places), default=0)
    told: list[str] = []
    for place in found.places:
        answer = "" if place.is_link else told_of[question(place, caller)]
        said = linux.of_place(place, caller, answer)
        if said.grants is None:
            return Judged(told, said.why, UNREAD)
        differs = not place.is_link and said.grants != is_granted(answer)
        shows = not place.is_link and (verbose or differs or place.path != "/" or len(places) == 1)
        line = line_of(place, answer, said, wide) if shows or not said.grants else ""
        if line and line not in told:
            told.append(line)
            told.extend(listed(place) if verbose and not place.is_link else ())
        if not said.grants:
            return Judged(told, f"{caller.shown} may not {short(wanted)}: {denial(place, answer, said)}", DENIED)
    if found.end and found.end.denies:
        return Judged(told, f"{caller.shown} may not {short(wanted)}: {found.end}", DENIED)
    if found.end:
        return Judged(told, str(found.end), UNREAD)
    return granted(caller, wanted, found, told)


def granted(caller: Caller, wanted: int, found: Way, told: list[str]) -> Judged:
    """What is told where every place grants."""
    notes = "; Linux lets root pass" if caller.uid == 0 else ""
    notes += "; but only at its end (append only)" if linux.appended_only(found.places[-1], wanted) else ""
    return Judged(told, f"{caller.shown} may {short(wanted)}: {quoted(found.path)}{notes}", GRANTED)


def answers_of(ways: list[Way], caller: Caller) -> Answers:
    asked = [question(place, caller) for found in ways for place in found.places if not place.is_link]
    return dict(zip(asked, answers(asked)))


def judge_all(caller: Caller, wanted: int, paths: list[str], verbose: bool) -> Iterator[Judged]:
    """What is told of paths, of a script with its interpreters; what is to be known of some is asked at once."""
    for begun in range(0, len(paths), AT_ONCE):
        some = [(path, ways_of(path, wanted)) for path in paths[begun : begun + AT_ONCE]]
        answers_of([found for _, ways in some for found in ways], caller)
        yield from (judged_ways(caller, wanted, path, verbose, ways) for path, ways in some)


def judged_ways(caller: Caller, wanted: int, path: str, verbose: bool, ways: list[Way]) -> Judged:
    first, *others = ways
    told_of = answers_of(ways, caller)
    told = judged(caller, wanted, verbose, first, told_of)
    for found in others if told.status == GRANTED else ():
        of_it = judged(caller, linux.EXECUTE, verbose, found, told_of)
        if of_it.status != GRANTED:
            last = of_it.last.partition(" may not x: ")[2] or of_it.last
            script = "" if found.path == path else f"{quoted(path)} is a script for {quoted(found.path)}; "
            denies = f"{caller.shown} may not {short(wanted)}: " if of_it.status == DENIED else ""
            return Judged(told.lines + of_it.lines, f"{denies}{script}{last}", of_it.status)
    return told
