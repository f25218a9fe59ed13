"""Why a word does not fit, where the words and the lines above show it. What only a reader knows the command `forms`
tells (misfits.py): which word it is, its fault, limits of numbers, digits, permissions, and what would mend the line.
"""
import functools
import re
import typing

from common import forms
from explain import misfits
from explain.misfits import WHITE, WORD, Found, Item, Misfit, Why
from explain.reasons import KINDS, MARKS
from votes.reading import MOST_SERVERS, Fault, number, votes_of

MAX_ID, MAX_NUMBERS, MAX_NAME, MAX_ENTRIES = 2**32 - 1, 33, 64, 128
# The most entries and servers of form 1 of the root folder.
OLD_ENTRIES, OLD_SERVERS = 64, 16
BEGINS_AS_VOTES = re.compile("[0-9-]+[,/]")
# The words that may stand behind the first one of a line.
BEHIND = re.compile("/.*|[0-9./,-]*", re.S)
LACKS = {"A1": "user", "A2": "group", "A3": "other"}
TWICE = {"A4": "", "A5": "user", "A6": "group"}
# Reasons, and faults, of which one word too many or too few is no explanation.
UNSHIFTED = {"line-ends", "operation-ends", "gap", "many", "length"}
UNSHIFTED_CODE = re.compile("A(?!9)|N2|V")


class Entry(typing.NamedTuple):
    """What an item of a list says: the word of a default list, the keyword with its kind, and the fields behind it."""

    marker: str
    keyword: str
    kind: str
    rest: list[str]

    @property
    def whom(self) -> str:
        return self.rest[0] if self.kind and len(self.rest) > 1 else ""


def entry_of(item: str) -> Entry:
    fields = [field.strip(WHITE) for field in item.split(":")]
    marker = fields.pop(0) if fields[0] in ("d", "default") else ""
    keyword, *rest = fields or [""]
    return Entry(marker, keyword, next((kind for kind in KINDS if keyword in (kind, kind[0])), ""), rest)


def items_of(text: str) -> list[str]:
    return [item for line in text.split("\n") for item in line.partition("#")[0].split(",")]


def id_of(word: str) -> int | None:
    """The number of a user or a group that a word writes down."""
    try:
        return number(word, MAX_ID, "no-number")
    except Fault:
        return None


class Above:
    """The words of the lines above a line."""

    def __init__(self, lines: list[str]) -> None:
        self.lines = [WORD.findall(line) or [""] for line in lines]

    def line_of(self, *words: str) -> list[str]:
        """The number of the first line that begins with these words, and all its words; none, where none does."""
        found = (at for at, line in enumerate(self.lines, 1) if line[: len(words)] == [*words])
        return next(([str(at), *self.lines[at - 1]] for at in found), [])

    def number_of(self, kind: str, name: str) -> int | None:
        """The number that a line gives the name of a user or a group."""
        line = self.line_of(kind, name)
        return id_of(line[3]) if len(line) > 3 else None


def of_entry(item: str, told: Why) -> Why:
    """Why an item has not the form of an entry; what is told of its permissions and its name is known."""
    marker, keyword, kind, rest = entry_of(item)
    if not kind and keyword:
        return Why("unknown-keyword", [], keyword)
    if not kind:
        return Why("marked-nothing", [], marker) if marker else Why("no-keyword", [], item)
    if not rest:
        return Why("no-colon", [], keyword)
    if len(rest) == 1 and kind in ("user", "group"):
        return Why("one-colon", [kind], rest[0])
    if len(rest) > 2:
        return Why("colons", [str(len(rest))], item)
    if len(rest) == 2 and rest[0] and kind in ("mask", "other"):
        return Why("names-somebody", [kind], rest[0])
    return told


def of_entries(text: str, code: str, above: Above) -> Why:
    """Why entries are not those of a list: of the access list, or of the default list."""
    code, of_default = code.removeprefix("A13 "), code.startswith("A13")
    listed = [(at, entry_of(item)) for at, item in enumerate(items_of(text), 1)]
    entries = [(at, entry) for at, entry in listed if entry.kind and bool(entry.marker) == of_default]
    if code in LACKS:
        return Why("lacks", [LACKS[code]], text)
    if code == "A7":
        return Why("unmasked", [str(next(at for at, entry in entries if entry.whom))], text)
    if code == "A8":
        return Why("many", [str(len(entries)), str(MAX_ENTRIES)], text)
    alike: dict[tuple[str, str], list[int]] = {}
    for at, entry in entries:
        known = id_of(entry.whom), above.number_of(entry.kind, entry.whom), entry.whom
        alike.setdefault((entry.kind, str(next(one for one in known if one is not None))), []).append(at)
    whom = {at: entry.whom for at, entry in entries}
    same = ((kind, ats) for (kind, _), ats in alike.items() if bool(whom[ats[0]]) == bool(TWICE[code]))
    kind, ats = next((kind, ats) for kind, ats in same if len(ats) > 1 and TWICE[code] in ("", kind))
    return Why("doubled", [kind, *map(str, ats)], whom[ats[0]])


def of_text(text: str, item: str, code: str, told: Why, above: Above) -> Why:
    """Why a text spells no list, by its code and its faulty item."""
    _, _, kind, rest = entry_of(item)
    if code.startswith("A9 "):
        return of_entry(item, told)
    if code.startswith("A10 "):
        other = "group" if kind == "user" else "user"
        reason = "nobody" if above.number_of(other, rest[0]) is None else "of-other-kind"
        return Why(reason, [kind], rest[0])
    if code.startswith("A11 "):
        return Why("above", [str(MAX_ID)], rest[0])
    return of_entries(text, code, above)


def of_numbers(word: str, most: int, count: int) -> Why:
    """Why numbers with commas between them are none up to a limit, or too many."""
    parts = word.split(",")
    if re.search("[^0-9,]", word):
        return Why("no-number", [], word)
    if "" in parts:
        return Why("gap", [], word)
    try:
        for part in parts[:count]:
            number(part, most, "no-number")
    except Fault as fault:
        return fault.why
    return Why("many", [str(len(parts)), str(count)], word)


class Spot:
    """A word that does not fit, its line, and the lines above."""

    def __init__(self, command: str, lines: list[str], at: int, misfit: Misfit) -> None:
        self.line = lines[at - 1] if at <= len(lines) else ""
        self.misfit, self.is_first, self.above = misfit, at == 1, Above(lines[: at - 1])
        self.lines_of = functools.partial(forms.lines_of, command)
        self.words = WORD.findall(self.line)
        self.word = self.words[misfit.at] if misfit.at < len(self.words) else ""

    def of_first(self) -> Why:
        """Why a line does not begin with this word, or not there."""
        word, stands = self.word, self.above.line_of(self.word)[:1]
        mark = next((mark for mark in MARKS if word.startswith(mark)), "")
        others = [command for command in forms.COMMANDS if word in forms.lines_of(command)]
        if not self.words:
            return Why("blank" if self.line else "line-ends", [], "")
        if self.misfit.code == "S2":
            return self.of_place(word in self.lines_of("header", "option"), stands)
        if word in self.lines_of():
            return Why("again", stands, word)
        if mark and self.is_first:
            return Why("mark", [], mark)
        if word.startswith("#"):
            return Why("comment", [], word)
        if others:
            return Why("elsewhere", others, word)
        return Why("word-missing" if BEHIND.fullmatch(word) or word in forms.OPERATIONS else "unknown", [], word)

    def of_place(self, is_of_header: bool, stands: list[str]) -> Why:
        """Why a line is not in its place; perhaps another is due."""
        if is_of_header and stands:
            return Why("stands-above", stands, self.word)
        if self.misfit.due():
            return Why("due", [], self.word)
        if is_of_header:
            return Why("behind-header", [], self.word)
        own = self.lines_of("own")
        begun = next((at for at, line in enumerate(self.above.lines, 1) if line[0] in own), 0)
        return Why("names-below", [str(begun)], self.word)

    def of_old(self) -> Why:
        """Why form 1 does not hold the root folder of the lines above."""
        root, votes = self.above.line_of("root"), self.above.line_of("votes")
        items = [entry_of(item) for item in items_of(root[4]) if item.strip(WHITE)]
        if any(entry.marker for entry in items):
            return Why("old-default", [], self.word)
        if len(items) > OLD_ENTRIES:
            return Why("old-entries", [str(len(items)), str(OLD_ENTRIES)], self.word)
        last = max(server for server, share in enumerate(votes[2].partition("/")[0].split(",")) if share != "-")
        return Why("old-server", [str(last), str(OLD_SERVERS)], self.word)

    def of_name(self) -> Why:
        """Why a word is no name, or none that a user or a group may have."""
        told = self.misfit.why
        if self.misfit.code == "N2":
            return Why("taken", self.above.line_of(self.words[0], self.word)[:1], self.word)
        if not 0 < len(self.word) <= MAX_NAME:
            return Why("length", [str(len(self.word)), str(MAX_NAME)], self.word)
        is_number = told.reason == "due" and re.fullmatch("[0-9]+", self.word)
        return Why("all-digits", [], self.word) if is_number else told

    def of_list(self) -> Why:
        """Why a word is no list, and no mode where it could be one."""
        code, word = self.misfit.code, self.word
        if ":" in word and code.startswith("A"):
            return of_text(word, word[slice(*self.misfit.ends or (0, 0))], code, self.misfit.why, self.above)
        if ":" in word:
            return Why("carriage-return", [], word)
        if self.misfit.expected == "LIST":
            return Why("no-list", [], word)
        return Why("no-mode" if re.fullmatch("[0-9]+", word) else "due", [], word)

    def of_word(self) -> Why:
        """Why a word does not fit in its place."""
        place, told = self.misfit.expected, self.misfit.why
        servers = int((self.above.line_of("servers") + [""] * 3)[2] or MOST_SERVERS)
        if place == "VOTES":
            try:
                votes_of(self.word, servers if self.words[0] == "votes" else MOST_SERVERS)
            except Fault as fault:
                return fault.why
        if place == "GIDS":
            return of_numbers(self.word, MAX_ID, MAX_NUMBERS)
        if place == "OLD":
            why = of_numbers(self.word, servers - 1, len(self.word))
            return why if why.reason == "above" else told
        if place == "NAME":
            return self.of_name()
        if place in ("INIT", "LIST"):
            return self.of_list()
        if place in ("UID", "GID") and told.reason == "no-number":
            named = self.above.number_of({"UID": "user", "GID": "group"}[place], self.word)
            return told if named is None else Why("named", [str(named)], self.word)
        return told

    def is_shifted(self, why: Why) -> bool:
        """Whether a word may well belong to another place."""
        if why.reason in UNSHIFTED or UNSHIFTED_CODE.match(self.misfit.code):
            return False
        if self.misfit.code != "S1":
            return True
        if self.misfit.expected == "VOTES":
            return not BEGINS_AS_VOTES.match(self.word)
        return self.misfit.expected not in ("INIT", "LIST")

    def of_behind(self) -> tuple[Why, bool]:
        """Why a word does not fit behind the first one of a line, and whether it may well belong to another place."""
        word, before, expected = self.word, self.words[self.misfit.at - 1], self.misfit.expected
        is_form, why = self.misfit.code == "S1", Why("due", [], self.word)
        if not word:
            why = Why("line-ends", [], "")
        elif word == ";" and expected != "END" and self.lines_of()[self.words[0]].places.endswith("OPERATIONS"):
            why = Why("operation-ends", [], word)
        elif expected not in ("END", "OPERATION"):
            why = self.of_word()
        is_shifted = self.is_shifted(why)
        if is_form and (word.startswith("#") or before == "#"):
            return Why("comment", [], word), False
        part = next((one for one in (word, before) if len(one) > 1 and ";" in one), "")
        return (Why("semicolon", [], part), False) if part and is_form and is_shifted else (why, is_shifted)

    def hidden(self) -> str:
        """What cannot be seen of the word or its line."""
        if self.misfit.code != "S1" or self.word.startswith(tuple(MARKS)):
            return "-"
        if "\xc2\xa0" in self.word:
            return "no-break"
        return "bytes" if max(self.word, default="") > "~" else "return" if "\r" in self.line else "-"

    def told(self) -> Misfit:
        """The word with why it does not fit."""
        misfit = self.misfit
        if misfit.expected == "LINE":
            why, is_shifted = self.of_old() if misfit.code == "G4" else self.of_first(), False
        else:
            why, is_shifted = self.of_behind()
        return misfit._replace(why=why, shift=misfit.shift if is_shifted else [], hidden=self.hidden())


def in_script(text: str, lines: list[str], at: int, command: str | None = None) -> list[Found]:
    """What the program tells of a line of a script, of each command or of this one, and why; the likeliest first."""
    return [
        found._replace(misfit=Spot(found.command, lines, at, found.misfit).told()) if found.misfit else found
        for found in misfits.in_script(text, lines, at, command)
    ]


def in_list(text: str, at: int, are_named: bool) -> Item:
    """What the program tells of an item of a list, or for 0 of the whole, and why."""
    found = misfits.in_list(text, at, are_named)
    if at and not found.ends:
        return found._replace(why=Why("few", [str(len(items_of(text)))], ""))
    item = text[slice(*found.ends or (0, 0))]
    why = of_text(text, item, found.code, found.why, Above([])) if found.code else found.why
    return found._replace(why=why)
