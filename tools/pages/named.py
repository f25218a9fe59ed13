"""Looks whether what the documents name is there.

Of all that README.md, CONTRIBUTING.md, docs/ and the pages of crates (the lines //! of src/lib.rt or src/main.rt)
have in backquotes, these have to be found: a name with an underscore, somewhere in crates/, tools/, tests/, bench/ or
examples/ (also as that of a file there); `Type::name`, both in one file of some crate's src/; the name of a source
file, in any folder; and a path that ends in one, at the top, in docs/ or in a crate. A heading that is named behind a
document, as README.md, "Scripts", has to stand there, and so has one that a link goes to. The counts of lines in
tables of definitions have to be right, and their sums. A crate's page is at most 60 lines and 120 characters wide, and
names each module and each file of specs/. What is not found is told, and the status is 1. It takes a second, and the
gate begins with it.
"""
import glob
import os
import pathlib
import re
import typing

from common import TOP, console

FOLDERS = ("crates", "tools", "tests", "bench", "examples")
LEFT_OUT = {"out", "__pycache__"}
QUOTED = re.compile(r"`([^`]+)`")
NAME = re.compile(r"\b[a-z][a-z0-9]*(?:_[a-z0-9]+)+\b")
MEMBER = re.compile(r"([A-Z]\w*)::(\w+)")
PATH = re.compile(r"(?:[\w.-]+/)+[\w-]+\.(?:rt|antt|py|md|sh|edit|script|txt|csv|svg|c)")
FILE = re.compile(r"[\w-]+\.(?:rt|antt)")
# A document and headings of it, as `docs/HEADLINE.md`, "What is claimed" and "How to try to break it"; a link to a
# heading.
REFERENCE = re.compile(r'([\w/-]+\.md)`?, ("[^"]+"(?:(?: and|,) "[^"]+")*)')
# A row of a table of definitions: how many lines they take, without imports, comments and blank lines, and their file.
COUNTED = re.compile(r"\| (\d+) \| `([\w/]+\.antt)` \|")
SUMMED, IN_ALL = re.compile(r"\| \*\*(\d+)\*\* \| \| \*\*(.*)\*\* \|"), "in all"
# The sums are told once more here, behind each claim: that of a whole table, and behind it those of parts.
TOLD_AGAIN, SUMS_AGAIN = os.path.join("docs", "BELIEVE.md"), re.compile(r"\| ([\d,]+) lines([^|]*)")
NO_LINE = re.compile(r" *(--|(pub )?use |$)")
LINK = re.compile(r"\]\(([\w./-]*)#([\w-]+)\)")
# The page of a crate, its modules, and files of definitions that it need not name.
MOST_LINES, WIDEST = 60, 120
PAGE = re.compile(r"^//!.*$", re.M)
MODULE = re.compile(r"^(?:pub )?mod (\w+);", re.M)
UNNAMED = {"Lib.antt", "code.antt"}


def content(path: str) -> str:
    return pathlib.Path(path).read_text(encoding="utf-8", errors="replace")


def files() -> typing.Iterator[str]:
    """All files of the repository that documents may speak of."""
    for folder in FOLDERS:
        for place, below, found in os.walk(os.path.join(TOP, folder)):
            below[:] = [name for name in below if name not in LEFT_OUT]
            yield from (os.path.join(place, name) for name in found)


def documents() -> list[str]:
    below = sorted(glob.glob(os.path.join(TOP, "docs", "*.md")))
    return [*(os.path.join(TOP, name) for name in ("README.md", "CONTRIBUTING.md")), *below]


def pages() -> list[str]:
    """The files that have the pages of crates at their heads."""
    return sorted(
        path for name in ("lib.rt", "main.rt") for path in glob.glob(os.path.join(TOP, "crates", "*", "src", name))
    )


def lines_of(path: str) -> list[str]:
    """The lines of a document, or of a page."""
    lines = content(path).split("\n")
    return [line[4:] for line in lines if line.startswith("//!")] if path.endswith(".rt") else lines


def quoted(path: str) -> typing.Iterator[tuple[int, str]]:
    """What a document has in backquotes, with its line."""
    for number, line in enumerate(lines_of(path), 1):
        for text in QUOTED.findall(line):
            yield number, text


def is_there(text: str, known: set[str], members: list[set[str]]) -> bool:
    """Whether what is named is there, so far as it can be told by its form."""
    if FILE.fullmatch(text):
        return text in known
    if PATH.fullmatch(text):
        return any(glob.glob(os.path.join(TOP, above, text)) for above in ("", "docs", "crates", "crates/*"))
    if any(name not in known for name in NAME.findall(text)):
        return False
    member = MEMBER.fullmatch(text)
    return not member or any({member[1], member[2]} <= words for words in members)


def headings(path: str) -> list[str]:
    """The headings of a document; none where it is not there."""
    lines = content(path).split("\n") if os.path.exists(path) else []
    return [line.lstrip("# ") for line in lines if line.startswith("#")]


def anchor(heading: str) -> str:
    """A heading as a link names it."""
    return re.sub(r"[^\w -]", "", heading.lower()).replace(" ", "-")


def headings_named(path: str) -> typing.Iterator[tuple[int, str, bool]]:
    """The headings that a document names, each with its line and whether it is there."""
    for number, line in enumerate(lines_of(path), 1):
        for other, named in REFERENCE.findall(line):
            places = [os.path.join(above, other) for above in (TOP, os.path.join(TOP, "docs"))]
            there = [heading for place in places for heading in headings(place)]
            yield from ((number, f'{other}, "{title}"', title in there) for title in re.findall('"([^"]+)"', named))
        for other, title in LINK.findall(line):
            there = headings(os.path.join(os.path.dirname(path), other) if other else path)
            yield number, f"{other}#{title}", title in map(anchor, there)


def page_faults(path: str) -> typing.Iterator[str]:
    """What is wrong with the page of a crate."""
    page = lines_of(path)
    if len(page) > MOST_LINES:
        yield f"the page has {len(page)} lines"
    if any(len(line) > WIDEST for line in page):
        yield "the page has a line that is too long"
    told = {word for _, text in quoted(path) for word in re.findall(r"\w+", text)}
    crate = os.path.dirname(os.path.dirname(path))
    specs = [os.path.basename(file) for file in sorted(glob.glob(os.path.join(crate, "specs", "*.antt")))]
    for name in [*MODULE.findall(content(path)), *(file[:-len(".antt")] for file in specs if file not in UNNAMED)]:
        if name not in told:
            yield f"the page does not name `{name}`"


def counts_told(path: str) -> typing.Iterator[tuple[int, str]]:
    """The counts of lines that a document tells and that are others, with its line."""
    for number, line in enumerate(content(path).split("\n"), 1):
        row = COUNTED.match(line)
        file = os.path.join(TOP, "crates", row[2]) if row else ""
        if row and os.path.exists(file):
            there = sum(not NO_LINE.match(each) for each in content(file).rstrip("\n").split("\n"))
            if there != int(row[1]):
                yield number, f"{row[2]} has {there} lines of definitions, and not {row[1]}"


def sums_told(path: str) -> typing.Iterator[tuple[int, str, int, int]]:
    """The sums of lines that tables of a document tell: the line, of what, how many, and how many the rows have."""
    whole, part, begun = 0, 0, list[tuple[int, str, int]]()
    for number, line in enumerate([*content(path).split("\n"), ""], 1):
        row, told = COUNTED.match(line), SUMMED.match(line)
        if row:
            whole, part = whole + int(row[1]), part + int(row[1])
        elif begun:
            yield *begun.pop(), part
        if told and told[2] == IN_ALL:
            yield number, IN_ALL, int(told[1]), whole
        elif told:
            begun.append((number, told[2], int(told[1])))
        if not row:
            part, whole = 0, whole if line.startswith("|") else 0


def wrong_sums() -> typing.Iterator[tuple[str, int, str]]:
    """The sums of lines that documents tell and that are others, where they stand."""
    every = {path: [*sums_told(path)] for path in documents()}
    for path, sums in every.items():
        for number, of, told, there in sums:
            if told != there:
                yield os.path.relpath(path, TOP), number, f"{of}: {told} lines, and the rows have {there}"
    known = {told: of for sums in every.values() for _, of, told, _ in sums}
    for number, line in enumerate(content(os.path.join(TOP, TOLD_AGAIN)).split("\n"), 1):
        for whole, parts in SUMS_AGAIN.findall(line):
            if known.get(int(whole.replace(",", ""))) != IN_ALL:
                yield TOLD_AGAIN, number, f"no table has {whole} lines"
            for part in re.findall(r"\d[\d,]*", parts):
                if int(part.replace(",", "")) not in known:
                    yield TOLD_AGAIN, number, f"no part of a table has {part} lines"


def main() -> int:
    console.words(__doc__).parse_args()
    known, members, bare = set(), [], []
    for path in files():
        text = content(path)
        words = set(re.findall(r"\w+", PAGE.sub("", text)))
        known |= words | {os.path.basename(path)} | set(re.findall(r"\w+", os.path.relpath(path, TOP)))
        if "/src/" in path:
            members.append(set(re.findall(r"\w+", text)))
            bare.append(words)
    wrong = [f"{name}:{number}: {what}" for name, number, what in wrong_sums()]
    for path in [*documents(), *pages()]:
        name, there = os.path.relpath(path, TOP), bare if path.endswith(".rt") else members
        absent = [(number, text) for number, text in quoted(path) if not is_there(text, known, there)]
        wrong += [f"{name}:{number}: there is no `{text}`" for number, text in absent]
        headed = [(number, named) for number, named, is_known in headings_named(path) if not is_known]
        wrong += [f"{name}:{number}: there is no heading {named}" for number, named in headed]
        wrong += [f"{name}:{number}: {what}" for number, what in counts_told(path)]
    wrong += [f"{os.path.relpath(path, TOP)}: {what}" for path in pages() for what in page_faults(path)]
    print(*wrong, sep="\n", end="\n" if wrong else "")
    return 1 if wrong else 0
