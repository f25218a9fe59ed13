"""python3 tools forms_page [--check]

Writes the tables of operations, events and jobs in docs/SCRIPTS.md from the table of forms (crates/forms/table.txt).
With --check it writes nothing, and tells what differs. In both it tells where a text of help/, which the program
prints, says a form or a sentence otherwise than the table. Status 1 where something differs.
"""
import os
import re
import typing

from common import TOP, console, forms, page, text_of

PAGE, HELP = os.path.join("docs", "SCRIPTS.md"), os.path.join(TOP, "help")
# The heads of the tables of the page, and what stands in them.
TABLES: dict[str, list[forms.Line] | list[forms.Operation]] = {
    "| Operation | Does |": list(forms.OPERATIONS.values()),
    "| Event | What happens |": list(forms.lines_of("play", "own").values()),
    "| Line | What it asks for |": list(forms.lines_of("serve", "own").values()),
}
# A line of help that tells the form of a line: words, two spaces, and what it does; and where the rest stands.
ROWS = re.compile(r"\A(?:[|].*\n)*")
TOLD, REST = re.compile(r"  ([a-z]+)((?: [^ ]+)*?)(?:  +(\S.*))?$"), " " * 20
# Places that help writes in its own way.
OWN_WAY = {"SERVER,SERVER,..": "S,S,..", "OPERATION ; OPERATION ..": "OPERATION ; .."}
OPERATIONS_IN = "table"


def written(text: str) -> str:
    for head, rows in TABLES.items():
        front, found, rest = text.partition(f"{head}\n|---|---|\n")
        if not found:
            raise console.Stop(f"docs/SCRIPTS.md has no table {head}")
        body = "".join(f"| `{row.form()}` | {row.does} |\n" for row in rows)
        text = front + found + body + ROWS.sub("", rest, 1)
    return text


def told_in(command: str) -> dict[str, tuple[str, str]]:
    """The form and the sentence of each line that a text of help tells."""
    found: dict[str, tuple[str, str]] = {}
    last = ""
    for line in text_of(os.path.join(HELP, f"{command}.txt")).partition("\nExample:")[0].split("\n"):
        told = TOLD.match(line)
        if told and told[1] in forms.lines_of(command):
            last = told[1]
            found[last] = f"{told[1]}{told[2]}", told[3] or ""
        elif last and line.startswith(REST):
            found[last] = found[last][0], f"{found[last][1]} {line.strip()}"
        else:
            last = ""
    return found


def differing(command: str) -> typing.Iterator[str]:
    """Where a text of help says a line otherwise; of a name it says only the form."""
    told = told_in(command)
    for word, line in forms.lines_of(command).items():
        form, does = told.get(word, ("", ""))
        for own, way in OWN_WAY.items():
            form = form.replace(own, way)
        if form != line.form() or not (line.part == "name" or does.startswith(line.does)):
            yield f"help/{command}.txt has not: {line.form()}  {line.does}"
    if command == OPERATIONS_IN:
        text = text_of(os.path.join(HELP, f"{command}.txt"))
        known = [one.form() for one in forms.OPERATIONS.values()]
        lacking = [form for form in known if not re.search(rf"  {re.escape(form)}(?:  |\n)", text)]
        yield from (f"help/{command}.txt has not the operation {form}" for form in lacking)


def main() -> int:
    only_looks = page.is_check(__doc__)
    wrong = [line for command in forms.COMMANDS for line in differing(command)]
    status = page.written(PAGE, written(text_of(PAGE)), wrong, "the table of forms", only_looks)
    rows = len(forms.LINES) + len(forms.OPERATIONS)
    print(f"{rows} forms, {max(len(wrong), status)} differ")
    return status if rows else 1
