"""What the steps of the gate cost, in processor seconds, against their bounds.

    SUITES_GATE_TIMES=times.csv .ci/run        the gate, which keeps its times in a file
    python3 tools gate_times times.csv..            the same as a table, beside the bounds
    python3 tools gate_times --bounds times.csv..   new bounds: a quarter more for each step, for docs/gate-bounds.csv

gate.py reads the times from the provers that run. A step is a crate's proof, with the builds of a program; its proof
with its tests (`NAME tests`); the wrong bodies of all crates; and all else. A check that was killed for memory and
begun once more counts once, with the longer of the two. Of several files, where a gate was run in pieces, the most
counts that a step took in one of them.
"""
import argparse
import contextlib
import csv
import os
import pathlib
import threading

from gate import bounds

EVERY = 0.5
TICKS = os.sysconf("SC_CLK_TCK")

# Of a prover its words, folder, parent and begin, with its own seconds and those of its copies that have ended.
Prover = tuple[list[str], str, int, str, tuple[float, float]]


def step_of(words: list[str], folder: str) -> tuple[str, str]:
    """The step that a prover works at, from its words and the folder that it works in, and what it does there, which
    is done once. rt tries an edit on a copy of the crate in a folder rt-edit-*.
    """
    crate, room = words[words.index("--crate-name") + 1], os.path.basename(folder)
    if room.startswith("rt-edit"):
        return bounds.BODIES, room
    compiler = words[words.index("--backend") + 1] if "--backend" in words else ""
    return crate + bounds.TESTS if "--test" in words else crate, f"{words[1]} {compiler}"


class Watch(threading.Thread):
    """Reads the processor time of the provers below a process, now and then: up to half a second of each is lost."""

    def __init__(self, above: int) -> None:
        super().__init__(daemon=True)
        self.above, self.ended = above, threading.Event()
        # by the number and begin of a first prover its step, the seconds of each by number and begin, and the most
        self.provers: dict[tuple[int, str], tuple[tuple[str, str], dict[tuple[int, str], float], float]] = {}

    def run(self) -> None:
        while not self.ended.wait(EVERY):
            self.look()

    def look(self) -> None:
        found: dict[int, Prover] = {}
        for name in filter(str.isdigit, os.listdir("/proc")):
            with contextlib.suppress(OSError, ValueError, IndexError):
                found[int(name)] = prover(int(name))
        for number in found:
            first, copy = number, number
            while copy in found:
                # (a prover with more than one job forks copies of itself)
                first, copy = copy, found[copy][2]
            if is_below(copy, self.above):
                self.note(found, first, number)

    def note(self, found: dict[int, Prover], first: int, number: int) -> None:
        words, folder, _, began, (own, ended) = found[number]
        key = first, found[first][3]
        step, seconds, most = self.provers.get(key) or (step_of(words, folder), {}, 0.0)
        seconds[number, began] = own
        self.provers[key] = step, seconds, max(most, own + ended) if number == first else most

    def times(self) -> bounds.Times:
        """Seconds by step."""
        parts: dict[tuple[str, str], float] = {}
        for part, seconds, most in list(self.provers.values()):
            # (copies that ended unseen count with what the first one waited for)
            parts[part] = max(parts.get(part, 0.0), sum(seconds.values()), most)
        found: bounds.Times = {}
        for (step, _), most in parts.items():
            found[step] = found.get(step, 0.0) + most
        return found


def fields_of(number: int) -> list[str]:
    """What the kernel tells of a process, from its state on."""
    return pathlib.Path(f"/proc/{number}/stat").read_text().rpartition(")")[2].split()


def prover(number: int) -> Prover:
    """Of a prover its words, folder, parent and begin, with its own seconds and those of its copies that have ended."""
    words = pathlib.Path(f"/proc/{number}/cmdline").read_text(errors="replace").split("\0")
    if os.path.basename(words[0]) != "rattle" or "--crate-name" not in words:
        raise ValueError
    fields = fields_of(number)
    own, ended = (sum(int(it) for it in fields[at : at + 2]) / TICKS for at in (11, 13))
    return words, os.readlink(f"/proc/{number}/cwd"), int(fields[1]), fields[19], (own, ended)


def is_below(number: int, above: int) -> bool:
    with contextlib.suppress(OSError, ValueError, IndexError):
        while number not in (above, 1, 0):
            number = int(fields_of(number)[1])
    return number == above


def write(times: bounds.Times, path: str) -> None:
    """Keeps the times in a file, for a table."""
    with open(path, "w", newline="", encoding="utf-8") as file:
        table = csv.writer(file, lineterminator="\n")
        table.writerow(["step", "seconds"])
        table.writerows((step, f"{seconds:.0f}") for step, seconds in sorted(times.items()))


def read(paths: list[str]) -> bounds.Times:
    """The times in files, of each step the most."""
    found: bounds.Times = {}
    for path in paths:
        with open(path, newline="", encoding="utf-8") as file:
            for row in csv.DictReader(file):
                found[row["step"]] = max(found.get(row["step"], 0.0), float(row["seconds"]))
    return found


def main() -> int:
    head, _, more = __doc__.partition("\n\n")
    parser = argparse.ArgumentParser(
        description=head, epilog=more, formatter_class=argparse.RawDescriptionHelpFormatter
    )
    parser.add_argument("times", nargs="+", help="what the gate kept, or its pieces")
    parser.add_argument("--bounds", action="store_true", help="new bounds in place of a table")
    given = parser.parse_args()
    times, kept = read(given.times), bounds.kept()
    print(bounds.renewed(times, kept) if given.bounds else "\n".join(bounds.lines(times, kept, 1)))
    return 0
