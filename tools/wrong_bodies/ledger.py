"""The ledger of wrong bodies: a line for each that the prover was seen to refuse, with the sum of what decides it.

    crate,edit,sum,function,clause

The sum is that of decides.py; then stand the function that was not proved with the edit, and what the prover said it
lacks. A line is written by `tools wrong_bodies` alone, of an edit that it saw refused in that run. A line whose sum is
not that of the tree says nothing of it, but when it was last refused. Lines stand sorted, so that two branches that
tried other edits merge.
"""
import csv
import fcntl
import os
import subprocess
import typing

from common import TOP, text_of
from wrong_bodies import judge, standing

PATH = os.path.join("docs", "wrong-bodies.csv")
HEAD = ["crate", "edit", "sum", "function", "clause"]


class Line(typing.NamedTuple):
    sum: str
    function: str
    clause: str

    def says(self, verdict: judge.Verdict) -> bool:
        """Whether an edit was refused where this line says."""
        return verdict[:3] == (judge.REFUSED, self.function, self.clause)


Lines = dict[standing.Key, Line]


def parsed(text: str) -> Lines:
    rows = csv.DictReader(text.splitlines())
    return {(row["crate"], row["edit"]): Line(row["sum"], row["function"], row["clause"]) for row in rows}


def read() -> Lines:
    return parsed(text_of(PATH)) if os.path.exists(os.path.join(TOP, PATH)) else {}


def at_commit(commit: str) -> Lines:
    """The lines at a commit; none, where it has no ledger or is not there."""
    ran = subprocess.run(["git", "show", f"{commit}:{PATH}"], cwd=TOP, capture_output=True, text=True)
    return {} if ran.returncode else parsed(ran.stdout)


def is_stale(edit: standing.Edit, lines: Lines) -> bool:
    """Whether this tree does not know that an edit is refused."""
    return not edit.sum or edit.key not in lines or lines[edit.key].sum != edit.sum


def tell_stale(edits: list[standing.Edit], place: str = "") -> None:
    """Lists edits that have to be tried again, and the command that does so."""
    crates = sorted({it.crate for it in edits})
    for crate in crates:
        print(f"{crate}: {' '.join(it.name for it in edits if it.crate == crate)}")
    print(f"{len(edits)} wrong bodies{f' of {place}/' if place else ''} are not known to be refused as the tree stands")
    if edits:
        print("python3 tools wrong_bodies --keep", *filter(None, [place]), *crates, "  tries them", flush=True)


def noted(edit: standing.Edit, verdict: judge.Verdict) -> None:
    """Writes the line of an edit that was refused just now, and takes away that of one that was not. Of one of which
    nothing is known the line stays."""
    path = os.path.join(TOP, PATH)
    lock = os.open(os.path.dirname(path), os.O_RDONLY)
    try:
        fcntl.flock(lock, fcntl.LOCK_EX)
        lines = read()
        if verdict.kind == judge.REFUSED:
            lines[edit.key] = Line(edit.sum, verdict.function, verdict.clause)
        elif verdict.kind != judge.UNSURE:
            lines.pop(edit.key, None)
        with open(f"{path}.{os.getpid()}", "w", newline="", encoding="utf-8") as file:
            table = csv.writer(file, lineterminator="\n")
            table.writerow(HEAD)
            table.writerows([*key, *line] for key, line in sorted(lines.items()))
        os.replace(file.name, path)
    finally:
        os.close(lock)
