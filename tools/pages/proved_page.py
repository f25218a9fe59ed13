"""Prints what is proved, as the sources say it: a table of the laws and one of all other public functions.

    python3 tools proved_page                 prints the two tables
    python3 tools proved_page --check         prints what is wrong, with status 1
    python3 tools proved_page --definitions   writes the table of docs/ARCHITECTURE.md

Both tables go crate by crate in the order of crates.txt. The first has the laws, each with its lines `///`. A law is
a public function that has a contract and does nothing: one whose lines begin "A law", one of a file laws.rt, or one
of a crate whose name begins with law_. The second has the other public functions that have a contract: those of
public types and traits (`Type::name`, the names of one type together), and those that stand alone, each with the
names of its clauses. Of the table of docs/PROVED.md, which says in words what is proved, each name in the last column
has to be in the crate of its row. A law without lines is a fault. The table of docs/ARCHITECTURE.md says on which
definitions the program stands (believed.py). ./suites --test runs --check.
"""
import glob
import os
import re
import typing

from common import TOP, console, functions, page, text_of
from common.crates import listed
from pages import believed

PAGE = os.path.join("docs", "PROVED.md")
CLAUSE = re.compile(r"\bensures\*? (?:(\w+) )?\{")
OF_TESTS = ("library_tests", "run_tests", "command_tests")


def crates() -> list[str]:
    """The libraries, in the order of crates.txt."""
    libraries = (name for name in listed() if os.path.exists(os.path.join(TOP, "crates", name, "src", "lib.rt")))
    return [name for name in libraries if name not in OF_TESTS]


def shown(crate: str) -> tuple[set[str], set[str]]:
    """The names that a crate's root shows, and the modules that are public."""
    text = text_of(os.path.join(TOP, "crates", crate, "src", "lib.rt"))
    names = {name for used in re.findall(r"pub use ([^;]*);", text) for name in re.findall(r"\w+", used)}
    return names, set(re.findall(r"^pub mod (\w+)", text, re.M))


def clauses_of(lines: list[str], one: functions.Function) -> list[str]:
    """The clauses of a function by their names, "" for one that has none."""
    head = "\n".join(line for line in lines[one.first : one.body + 1] if not line.strip().startswith("//"))
    return CLAUSE.findall(head)


def said_of(lines: list[str], one: functions.Function) -> str:
    """What the lines /// of a function say."""
    first = one.first
    while lines[first - 1].strip().startswith(("///", "#[")):
        first -= 1
    said = [line.strip() for line in lines[first : one.first]]
    return " ".join(line[3:].strip() for line in said if line.startswith("///"))


def public(crate: str) -> typing.Iterator[tuple[str, str, list[str], bool, str]]:
    """The public functions of a crate with a contract: (type or "", name, clauses, whether it is a law, lines ///)."""
    names, modules = shown(crate)
    for path in sorted(glob.glob(os.path.join(TOP, "crates", crate, "src", "**", "*.rt"), recursive=True)):
        module = os.path.relpath(path, os.path.join(TOP, "crates", crate, "src")).split(os.sep)[0].removesuffix(".rt")
        lines = text_of(path).split("\n")
        for one in functions.functions(text_of(path)):
            clauses, said = clauses_of(lines, one), said_of(lines, one)
            is_seen = (one.of or one.name) in names or module in modules or module == "lib"
            if clauses and lines[one.first].lstrip().startswith("pub ") and not one.by_trait and is_seen:
                is_alone = crate.startswith("law_") or os.path.basename(path) == "laws.rt"
                is_law = said.startswith("A law") or not one.of and is_alone
                yield one.of, one.name, [clause for clause in clauses if clause], is_law, said


def told(name: str, clauses: list[str]) -> str:
    return f"`{name}`" + (f" ({', '.join(clauses)})" if clauses else "")


def table_of_functions() -> str:
    lines = ["| Crate | Public functions, with the names of their clauses |", "|---|---|"]
    for crate in crates():
        found: dict[str, list[tuple[str, list[str]]]] = {}
        cells: list[str] = []
        for of, name, clauses, is_law, _ in public(crate):
            if not is_law:
                found.setdefault(of, []).append((name, clauses))
        for of, those in sorted(found.items(), key=lambda item: (item[0] == "", item[0])):
            first, *more = sorted(those)
            cells.append(
                ", ".join([told(f"{of}::{first[0]}" if of else first[0], first[1]), *(told(*one) for one in more)])
            )
        if cells:
            lines.append(f"| `{crate}` | {'; '.join(cells)} |")
    return "\n".join(lines)


def laws() -> typing.Iterator[tuple[str, str, str]]:
    """The laws: crate, name, and what its lines say of it."""
    for crate in crates():
        for of, name, _, is_law, said in public(crate):
            if is_law:
                said = (
                    re.sub(r"\[(`[^`]+`)\]", r"\1", said.removeprefix("A law: ").removesuffix("It does nothing."))
                    .replace("`crate::", "`")
                    .strip()
                )
                yield crate, f"{of}::{name}" if of else name, said[:1].upper() + said[1:]


def table_of_laws() -> str:
    lines, last = ["| Crate | Law | Says |", "|---|---|---|"], ""
    for crate, name, said in laws():
        begins = f"`{crate}` " if crate != last else ""
        lines.append(f"| {begins}| `{name}` | {said} |")
        last = crate
    return "\n".join(lines)


def faults(text: str) -> typing.Iterator[str]:
    """The names of the table in words that are not in their crate, and the laws that say nothing."""
    crate = ""
    named: dict[str, set[str]] = {}
    words: dict[str, set[str]] = {}
    for line in text.split("\n"):
        cells = line.strip("| ").split(" | ") if line.startswith("|") else []
        if len(cells) == 3:
            crate = re.sub(r"\W", "", cells[0])
            named.setdefault(crate, set()).update(re.findall(r"\w+", " ".join(re.findall(r"`([^`]+)`", cells[-1]))))
    for name in crates():
        texts = [text_of(path) for part in ("src", "specs") for end in ("rt", "antt") for path in
                 glob.glob(os.path.join(TOP, "crates", name, part, "**", f"*.{end}"), recursive=True)]
        words[name] = {word for one in texts for word in re.findall(r"\w+", one)}
    for name in crates():
        for word in sorted(named.get(name, set()) - words[name]):
            yield f"{name}: its rows name {word}, which is not in the crate"
    yield from (f"{crate}: the law {name} has no lines ///" for crate, name, said in laws() if not said)


def main() -> int:
    read = console.words(__doc__)
    read.add_argument("--check", action="store_true")
    read.add_argument("--definitions", action="store_true")
    given = read.parse_args()
    if not given.check and not given.definitions:
        print(f"# Laws\n\n{table_of_laws()}\n\n# Public functions\n\n{table_of_functions()}")
        return 0
    wrong = [*faults(text_of(PAGE))] if given.check else []
    print(*wrong, sep="\n", end="\n" if wrong else "")
    table, count = believed.table(crates())
    new, _ = page.between(text_of(believed.PAGE), believed.MARKS, table)
    of_definitions = [fault] if (fault := believed.fault(count)) else []
    status = page.written(believed.PAGE, new, of_definitions, "from the definitions", given.check)
    return 1 if wrong else status
