"""A page of docs/ that a tool writes, or only looks at."""
import difflib
import pathlib

from common import TOP, console, text_of


def is_check(doc: str) -> bool:
    """Whether the page is only looked at, by the words of the tool."""
    read = console.words(doc)
    read.add_argument("--check", action="store_true")
    return read.parse_args().check


def between(text: str, marks: tuple[str, str], table: str) -> tuple[str, str]:
    """A page with a table between its marks, and what stands before them."""
    before, found, rest = text.partition(marks[0])
    if not found or marks[1] not in rest:
        raise console.Stop(f"a page has not the marks {marks[0]} and {marks[1]}")
    return f"{before}{marks[0]}\n\n{table}\n\n{marks[1]}{rest.partition(marks[1])[2]}", before


def written(name: str, text: str, faults: list[str], source: str, only_looks: bool) -> int:
    """Writes the page, or tells how it differs, with what is wrong besides; the status of the tool."""
    path, changes = pathlib.Path(TOP, name), list[str]()
    if only_looks:
        there = text_of(name) if path.exists() else ""
        changes = list(difflib.unified_diff(there.split("\n"), text.split("\n"), name, source, lineterm="", n=0))
    else:
        path.write_text(text, encoding="utf-8")
    print(*faults, *changes, sep="\n", end="\n" if faults or changes else "")
    return 1 if faults or changes else 0
