"""What the gate does of wrong bodies: it holds the ledger to the tree, and tries what is new and what it draws.

It tries each edit of crates/NAME/gate that has no line in docs/wrong-bodies.csv, or one with another sum than the
tree's, and tells the command that writes it, so that whoever has the time tries them before. It tries each line that is
new since what main was before (the newest commit more than a session older than this one, on the side of main; of a
merge that takes the lines of both sides), unless this machine saw that very sum refused; and always eight edits of a
crate that this commit's sum draws, with which a reader of sums that is blind would show.
"""
import hashlib
import subprocess
import time

from common import TOP
from wrong_bodies import judge, kit, ledger, standing, trying

# How many edits of the crate that is drawn are tried, and how long a session lasts, in seconds.
DRAWN, SESSION = 8, 3 * 60 * 60

Edits = dict[standing.Key, standing.Edit]


def git(*words: str) -> str:
    ran = subprocess.run(["git", *words], cwd=TOP, capture_output=True, text=True, stdin=subprocess.DEVNULL)
    return ran.stdout.strip() if ran.returncode == 0 else ""


def lines_before() -> ledger.Lines:
    """The ledger of main before what lands now; nothing where that is not known, so that all lines are new."""
    at = git("show", "-s", "--format=%ct", "HEAD")
    commit = at and git("rev-list", "--first-parent", "-1", f"--min-age={int(at) - SESSION}", "HEAD")
    return ledger.at_commit(commit) if commit else {}


def drawn(current: Edits, seed: str) -> Edits:
    """Some edits of one crate, by a seed: the same ones whoever draws."""

    def order(word: object) -> bytes:
        return hashlib.sha256(repr((seed, word)).encode()).digest()

    crates = sorted({crate for crate, _ in current}, key=order)
    of_one = [key for key in current if key[0] in crates[:1]]
    return {key: current[key] for key in sorted(of_one, key=order)[:DRAWN]}


def new(current: Edits, lines: ledger.Lines, before: ledger.Lines) -> Edits:
    """The edits of lines that are new, but those that this machine saw refused where the line says."""
    fresh = {key: edit for key, edit in current.items() if lines[key] != before.get(key)}
    return {key: edit for key, edit in fresh.items() if kit.kept(edit.sum) != lines[key][1:]}


def tries(edits: Edits, lines: ledger.Lines, lanes: int) -> int:
    """Tries these edits, and returns how many were not refused, or not where their lines say."""

    def is_told(key: standing.Key, verdict: judge.Verdict) -> bool:
        return lines[key].says(verdict) if key in lines else verdict.kind == judge.REFUSED

    def note(edit: standing.Edit, verdict: judge.Verdict, seconds: float) -> None:
        trying.tell(edit, verdict, seconds)
        if is_told(edit.key, verdict):
            kit.keep(edit.sum, (verdict.function, verdict.clause))
        elif verdict.kind == judge.REFUSED:
            print(f"  {ledger.PATH} says: by {lines[edit.key].function} ({lines[edit.key].clause})")

    verdicts = trying.Tries(lanes, note).all(edits.values())
    return sum(not is_told(key, verdict) for key, verdict in verdicts.items())


def step(lanes: int | None = None) -> int:
    """The whole, with so many edits tried side by side, or as RT_JOBS has it. Returns how many faults there are."""
    begun, lines, edits = time.monotonic(), ledger.read(), standing.all_edits(standing.crates())
    stale = {key: edit for key, edit in edits.items() if ledger.is_stale(edit, lines)}
    current = {key: edit for key, edit in edits.items() if key not in stale}
    # (what this machine saw refused at the same sum, as a run of the gate that was broken off did, is known here)
    untold = {key: it for key, it in stale.items() if it.place == standing.GATE and not (it.sum and kit.kept(it.sum))}
    if untold:
        ledger.tell_stale([*untold.values()], standing.GATE)
    fresh, some = new(current, lines, lines_before()), drawn(current, git("rev-parse", "HEAD"))
    told = f"{len(untold)} without a line, {len(fresh)} lines that are new" + (
        f" and {len(some)} of {next(iter(some))[0]}, drawn" if some else ""
    )
    print(f"wrong bodies: {len(current)} of {len(edits)} are known to be refused; tried are {told}", flush=True)
    known = {key: line for key, line in lines.items() if key in current}
    lost = tries({**untold, **fresh, **some}, known, lanes or trying.fixed() or 1)
    word = f"{lost} were not refused where their lines say" if lost else "all refused where their lines say"
    print(f"wrong bodies: {word}, in {time.monotonic() - begun:.0f} s", flush=True)
    return lost
