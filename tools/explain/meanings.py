"""What a line of a script says, word by word, as its reader wrote it; and what the words of this service mean.

The sentences are those of the table of forms, of docs/WORDS.md, and of the field's words in docs/ARCHITECTURE.md, so
that each stands once.
"""
import itertools
import re
import sys

from common import forms, text_of
from explain import misfits
from common.quoted import either, filled, letters, plain, short

ROW = re.compile(r"\| (.*) \| (.*) \|$")
# Slanted words, and no sign of multiplication.
SLANTED = re.compile(r"\*(\w(?:[^*]*\w)?)\*")
INDENT = 4


def words() -> dict[str, str]:
    """The words of docs/WORDS.md, each with what it means; a word that is explained with another one has its row."""
    found: dict[str, str] = {}
    rows = [row for row in map(ROW.match, text_of("docs", "WORDS.md").split("\n")) if row and row[1].startswith("*")]
    for row in rows:
        for word in re.findall(r"\*([^*]+)\*", row[1]):
            found[word] = f"{upright(row[1])}: {upright(row[2])}"
    for row in rows:
        for word in SLANTED.findall(row[2]):
            found.setdefault(word.lower(), f"{upright(row[1])}: {upright(row[2])}")
    for word, told in of_field().items():
        found.setdefault(word, told)
    return found


def of_field() -> dict[str, str]:
    """The words of the code and those of the field, each with the other."""
    table = text_of("docs", "ARCHITECTURE.md").partition("| Here | In the field |\n")[2].partition("\n\n")[0]
    found: dict[str, str] = {}
    for row in filter(None, map(ROW.match, table.split("\n"))):
        here, field = row[1].replace("`", ""), row[2]
        for word in re.split(r"[;,] ", f"{here}; {field}"):
            found.setdefault(re.sub(r"^(?:an?|the|its) ", "", word), f"{here}; in the field: {field}")
    return found


def upright(text: str) -> str:
    """A text without the marks of slanted words; a sign of multiplication stays."""
    return SLANTED.sub(r"\1", text)


def meant(place: str, word: str) -> str:
    """What a word in its place means."""
    place = place.strip("[]")
    text = f"{place}, {forms.PLACES[place].means}" if place in forms.PLACES else place
    if place == "INIT" and re.fullmatch("[0-7]{3}", word):
        entries = (f"{kind}::{letters(int(digit))}" for kind, digit in zip("ugo", word))
        return f"{text}: the mode of the list {','.join(entries)}"
    if place == "HEX" and word != "-":
        plain = bytes.fromhex(word).decode("latin1")
        is_text = plain.isprintable() and plain.isascii()
        return f"{text}: the text {plain}" if is_text else f"{text}: {len(plain)} bytes"
    if place == "VOTES":
        fields, r, w = word.split("/")
        shares = [f"{field} of server {server}" for server, field in enumerate(fields.split(",")) if field != "-"]
        return f"VOTES: {', '.join(shares)}; a read collects {r}, and a write {w}"
    return text


def told_words(form: list[str], given: list[str]) -> list[tuple[str, str]]:
    """The words of a line behind its first one, with what each means."""
    plain = [place for place in form if place != "OPERATIONS"]
    rows = [(word, meant(place, word)) for place, word in zip(plain, given)]
    rest, count = given[len(plain) :], 1
    while rest and len(plain) < len(form):
        end = rest.index(";") if ";" in rest else len(rest)
        operation = forms.OPERATIONS[rest[0]]
        rows.append((operation.word, f"operation {count}: {operation.does}"))
        rows += [(word, meant(place, word)) for place, word in zip(operation.places.split(), rest[1:end])]
        rows += [(";", "and in the same transaction")] if end < len(rest) else []
        rest, count = rest[end + 1 :], count + 1
    return rows


def has_fault(language: str, given: list[str]) -> bool:
    """Whether a line of these words does not fit by itself; names and sizes are not known."""
    header = misfits.header(language)
    above = itertools.takewhile(lambda line: line.split()[0] != given[0], header)
    found = misfits.of_line(language, list(above), " ".join(given))
    return bool(found) and not found.code.startswith("A10")


def own_line(text: str) -> str | None:
    """A line of a script, or an operation of one, told word by word; nothing where the text is none."""
    given, wrong = text.split(), set[str]()
    for language in forms.COMMANDS:
        line = forms.lines_of(language).get(given[0])
        # lines of two commands that have the same places have the same faults
        if line and (len(given) > 1 or not line.places) and line.places not in wrong and has_room(line, given):
            if not has_fault(language, given):
                head = f"A line of a script of `{language}`: {line.does}."
                return shown(head, told_words(line.places.split(), given[1:]))
            wrong.add(line.places)
    if given[0] in forms.OPERATIONS and len(given) > 1 and given[1].startswith("/"):
        if not has_fault("table", ["do", "1", "1", *given]):
            return shown("An operation of a transaction.", told_words(["OPERATIONS"], given))
    return None


def has_room(line: forms.Line, given: list[str]) -> bool:
    """Whether a line has places for these words, and words for its places."""
    places = line.places.split()
    least = sum(not place.startswith("[") for place in places)
    return least < len(given) <= (sys.maxsize if "OPERATIONS" in places else len(places) + 1)


def one_word(word: str) -> str | None:
    """What one word means: of the service, of a line, or of an operation."""
    told = []
    known = words()
    alike = (form for one in (word, word.removesuffix("s")) for form in (one, one.lower(), one.upper()))
    meaning = next((known[form] for form in (*alike, word.capitalize()) if form in known), None)
    if meaning:
        told.append(filled(f"{meaning[0].upper()}{meaning[1:]}."))
    lines: dict[tuple[str, str], list[str]] = {}
    for line in forms.LINES:
        if line.word == word:
            lines.setdefault((line.form(), line.does), []).append(f"`{line.command}`")
    for (form, said), of in lines.items():
        told.append(filled(f"{form}: a line of a script of {either(of, 'and')}: {said}."))
    if word in forms.OPERATIONS:
        told.append(filled(f"{forms.OPERATIONS[word].form()}: an operation: {forms.OPERATIONS[word].does}."))
    return "\n\n".join(told) or None


def shown(head: str, rows: list[tuple[str, str]]) -> str:
    """A sentence, and a table of words."""
    cut = [(short(word) if len(word) <= 24 else f"{plain(word[:22])}..", told) for word, told in rows]
    wide = max((len(word) for word, _ in cut), default=0)
    rows = [(f"{' ' * INDENT}{word:{wide}}  ", told.replace("`", "")) for word, told in cut]
    lines = [filled(told, initial_indent=front, subsequent_indent=" " * len(front)) for front, told in rows]
    return "\n".join([filled(head.replace("..", ".")), "", *lines]).rstrip()
