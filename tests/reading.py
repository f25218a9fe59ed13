"""The first fault of a script or a list, by the rules that docs/FAULTS.md tells: written for cut inputs, and apart
from the program.

Of a script: the number of the line and the code, as `line 2: S1`. What is not known here is not met in inputs that
are cut.
"""
import re

import played  # noqa: F401

from common import forms

NUMBER = re.compile(r"[0-9]+")
KINDS = {"u": "u", "user": "u", "g": "g", "group": "g", "m": "m", "mask": "m", "o": "o", "other": "o"}
MOST_ID, MOST_SERVERS = 4294967295, 32


# The users and the groups that have names, by their letters.
Names = dict[str, dict[str, int]]


class Fault(Exception):
    """A fault, by its code."""


def number(word: str, most: int = 2**64 - 1) -> int:
    if not NUMBER.fullmatch(word) or int(word) > most:
        raise Fault("S1")
    return int(word)


# ---- lists

def entry(item: str, names: Names) -> tuple[bool, str, int | None]:
    """The kind, the number and whether it is a default list's, of an item that stands at this place."""
    parts = item.split(":")
    default = parts[0] in ("d", "default") and len(parts) > 2
    parts = parts[1:] if default else parts
    kind = KINDS.get(parts[0])
    right = kind and (len(parts) == 3 or (len(parts) == 2 and kind in "mo"))
    who, perms = (parts[1] if len(parts) == 3 else ""), parts[-1]
    marks = perms.replace("-", "")
    if (
        not right
        or set(marks) - set("rwx")
        or len(set(marks)) < len(marks)
        or perms.count("-") > 3
        or (who and kind in "mo")
    ):
        raise Fault("A9")
    if NUMBER.fullmatch(who):
        if int(who) > MOST_ID:
            raise Fault("A11")
        return default, kind, int(who)
    if who and who not in names[kind]:
        raise Fault("A10")
    return default, kind, names[kind][who] if who else None


def list_fault(entries: list[tuple[str, int | None]]) -> str | None:
    """The first of A1 to A8 that is wrong with the entries of one list."""
    single = [kind for kind, who in entries if who is None]
    named = [(kind, who) for kind, who in entries if who is not None]
    for code, kind in (("A1", "u"), ("A2", "g"), ("A3", "o")):
        if kind not in single:
            return code
    if len(set(single)) < len(single):
        return "A4"
    for code, kind in (("A5", "u"), ("A6", "g")):
        own = [who for other, who in named if other == kind]
        if len(set(own)) < len(own):
            return code
    if named and "m" not in single:
        return "A7"
    return "A8" if len(entries) > 128 else None


def read_list(text: str, names: Names) -> None:
    """Finds the first fault of a list."""
    entries, place = [], 0
    for item in re.split(r"[,\n]", text):
        item = item.split("#")[0].strip()
        if item:
            place += 1
            try:
                entries.append(entry(item, names))
            except Fault as fault:
                raise Fault(f"{fault} item {place}") from None
    for default in (False, True):
        own = [(kind, who) for other, kind, who in entries if other == default]
        code = list_fault(own) if own or not default else None
        if code:
            raise Fault(f"A13 {code}" if default else code)


def initial(word: str, names: Names) -> None:
    if not re.fullmatch("[0-7]{3}", word):
        read_list(word, names)


# ---- votes

def read_votes(word: str, servers: int) -> None:
    parts = word.split("/")
    shares = parts[0].split(",")
    if len(parts) != 3 or len(shares) > 32:
        raise Fault("S1")
    given = [None if share == "-" else number(share, 255) for share in shares]
    read, write = (number(part, 65535) for part in parts[1:])
    total = sum(share or 0 for share in given)
    wrong = [
        all(share is None for share in given),
        any(share is not None for share in given[servers:]),
        False,
        total == 0,
        not (0 < read <= total and 0 < write <= total),
        read + write <= total,
        2 * write <= total,
    ]
    if True in wrong:
        raise Fault(f"V{wrong.index(True) + 1}")


# ---- lines

def read_groups(word: str) -> None:
    for part in word.split(","):
        number(part, MOST_ID)


def read_bytes(word: str) -> None:
    if word != "-" and not re.fullmatch("([0-9a-fA-F]{2})+", word):
        raise Fault("S1")


class Script:
    """A script of a command, of which lines are read."""

    def __init__(self, command: str) -> None:
        self.command, self.header = command, list(forms.lines_of(command, "header"))
        self.sizes, self.begun, self.parted = {"servers": 32, "agents": 64}, False, False
        self.names: Names = {"u": {}, "g": {}}

    def read(self, words: list[str]) -> None:
        """Finds the first fault of a line."""
        line = forms.lines_of(self.command).get(words[0])
        if not line:
            raise Fault("S1")
        if (self.header and words[0] != self.header[0]) or (not self.header and line.part == "header"):
            raise Fault("S2")
        if (self.begun and line.part in ("name", "option")) or (line.part == "option" and any(self.names.values())):
            raise Fault("S2")
        self.begun |= line.part == "own"
        if not line.places and self.parted:
            raise Fault("S1")
        self.parted |= not line.places
        self.read_words(line.places.split(), words[1:], line)
        self.header = self.header[1:]

    def read_words(self, places: list[str], words: list[str], line: forms.Line) -> None:
        """Finds the first fault of words that stand in these places."""
        for at, place in enumerate(places):
            if place == "OPERATIONS":
                self.read_operations(words[at:], line)
                return
            if at < len(words):
                self.read_word(place.strip("[]"), words[at], line)
            elif not place.startswith("["):
                raise Fault("S1")
        if len(words) > len(places):
            raise Fault("S1")
        if line.part == "name" and places == line.places.split():
            self.names[line.word[0]][words[0]] = int(words[1])

    def read_operations(self, words: list[str], line: forms.Line) -> None:
        """Finds the first fault of operations, of which there is one at least."""
        while True:
            end = words.index(";") if ";" in words else len(words)
            if end == 0 or words[0] not in forms.OPERATIONS:
                raise Fault("S1")
            self.read_words(forms.OPERATIONS[words[0]].places.split(), words[1:end], line)
            if end == len(words):
                return
            words = words[end + 1 :]

    def read_word(self, place: str, word: str, line: forms.Line) -> None:
        """Finds the fault of a word in its place."""
        told = forms.PLACES[place]
        if told.most != "-":
            most = self.sizes[told.most] - 1 if told.most in self.sizes else int(told.most)
            if not int(told.least) <= number(word) <= most:
                raise Fault(told.code)
            if line.part == "header" and line.word in self.sizes:
                self.sizes[line.word] = int(word)
        elif place == "VOTES":
            read_votes(word, self.sizes["servers"] if line.part == "header" else MOST_SERVERS)
        elif place == "INIT":
            initial(word, self.names)
        elif place == "LIST":
            read_list(word, self.names)
        elif place == "NAME":
            self.read_name(word, line.word[0])
        elif place == "GIDS":
            read_groups(word)
        elif place == "HEX":
            read_bytes(word)
        elif place == "OLD":
            for part in word.split(","):
                number(part, self.sizes["servers"] - 1)

    def read_name(self, word: str, kind: str) -> None:
        if not re.fullmatch(r"[!-~]{1,64}", word) or re.search(r"[:,#\\]", word) or word.isdigit():
            raise Fault("N1")
        if word in self.names[kind]:
            raise Fault("N2")


def script_fault(command: str, text: str) -> str | None:
    """The first fault of a script, or None."""
    script, lines = Script(command), text.split("\n")
    lines = lines[:-1] if lines[-1] == "" else lines
    for place, line in enumerate(lines, 1):
        words = line.split()
        if words and not words[0].startswith("#"):
            try:
                script.read(words)
            except Fault as fault:
                return f"line {place}: {fault}"
    return f"line {len(lines) + 1}: S2" if script.header else None


def fault(words: list[str], text: str) -> str | None:
    """The first fault of the input of a command, or None."""
    if words[0] != "acl":
        return script_fault(words[0], text)
    names: Names = {"u": {}, "g": {}}
    for word in words[1:]:
        kind, _, rest = word.partition(":")
        name, _, value = rest.partition("=")
        names[kind[0]][name] = int(value)
    try:
        read_list(text, names)
    except Fault as found:
        return str(found)
    return None
