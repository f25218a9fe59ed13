"""Tries wrong bodies, the edits that the prover must refuse, and writes what refused them into docs/wrong-bodies.csv.

    python3 tools wrong_bodies NAME..       tries those of these crates
    python3 tools wrong_bodies gate NAME..  those of crates/NAME/gate alone; wrong: those of crates/NAME/wrong
    python3 tools wrong_bodies --only EDIT NAME..   the one of that name
    python3 tools wrong_bodies --keep NAME..   those of which the ledger does not say that they are refused as the
                                            tree stands
    python3 tools wrong_bodies --stale NAME..  lists these; status 1 where one of the gate is among them
    python3 tools wrong_bodies --check NAME..  only whether the texts of all edits apply

With no NAME it means all crates. It works on a copy of the crates as they stand, in a temporary folder that is removed
however it ends, over what `rt ci` and `rt check` proved on this machine of the same files. An edit is tried by the
function that its line `refused by: ..` names, and by the whole crate where that says nothing (trying.py); RT_JOBS fixes
how many are tried side by side. Told is what came of each; the status is 1 where one was not refused.
"""
import argparse
import os
import time

from common import TOP, text_of
from gate import gate
from wrong_bodies import changes, judge, kit, ledger, standing, trying
from wrong_bodies.standing import BESIDE, CRATES, GATE, PLACES, crates, edits, name_of

__all__ = ["BESIDE", "GATE", "crates", "edits", "name_of"]


def check(names: list[str]) -> int:
    """Tells each edit whose texts do not apply, and returns how many."""
    found = [(name, path) for name in names for place in PLACES for path in edits(name, place)]
    lost, seen = 0, set[standing.Key]()
    for name, path in found:
        why = changes.why_not(text_of(path), os.path.join(CRATES, name))
        if not standing.NAMED.fullmatch(os.path.basename(path)):
            why = "its name is not of letters, digits, _, - and . with .edit at the end"
        elif (name, name_of(path)) in seen:
            why = "its name stands in both places"
        seen.add((name, name_of(path)))
        if why:
            lost += 1
            print(f"{os.path.relpath(path, TOP)}: {why}")
    print(f"{len(found)} wrong bodies, {f'{lost} of them do not apply' if lost else 'all of them apply'}")
    return lost


def note(edit: standing.Edit, verdict: judge.Verdict, seconds: float) -> None:
    """Tells what came of an edit, and keeps it."""
    trying.tell(edit, verdict, seconds)
    ledger.noted(edit, verdict)
    if verdict.kind == judge.REFUSED:
        kit.keep(edit.sum, (verdict.function, verdict.clause))


def try_all(found: list[standing.Edit]) -> int:
    """Tries these edits, and returns how many were not refused."""
    begun, number = time.monotonic(), trying.fixed() or gate.lanes() or 1
    print(f"{len(found)} wrong bodies to try in {len({it.crate for it in found})} crates, {number} at once", flush=True)
    verdicts = trying.Tries(number, note).all(found)
    lost = sum(it.kind != judge.REFUSED for it in verdicts.values())
    print(f"{len(verdicts) - lost} of {len(verdicts)} refused, in {time.monotonic() - begun:.0f} s")
    return lost


def words() -> argparse.Namespace:
    head, _, more = __doc__.partition("\n\n")
    read = argparse.ArgumentParser(description=head, epilog=more, formatter_class=argparse.RawDescriptionHelpFormatter)
    read.add_argument("names", metavar="NAME", nargs="*", help=f"a crate, or a place: {' or '.join(PLACES)}")
    read.add_argument("--check", action="store_true", help="only look whether the texts of all edits apply")
    read.add_argument("--stale", action="store_true", help="only list those that have to be tried again")
    read.add_argument("--keep", action="store_true", help="try those that have to be tried again")
    read.add_argument("--only", metavar="EDIT", action="append", help="try the one of this name (may be given again)")
    given = read.parse_args()
    given.places = [it for it in PLACES if it in given.names] or PLACES
    given.names = [it for it in given.names if it not in PLACES] or crates()
    unknown = sorted({*given.names} - {*crates()})
    if unknown:
        read.error(f"there is no crate {unknown[0]}")
    return given


def main() -> int:
    given = words()
    if given.check:
        return 1 if check(given.names) else 0
    found = [*standing.all_edits(given.names, given.places).values()]
    if given.stale or given.keep:
        lines = ledger.read()
        found = [it for it in found if ledger.is_stale(it, lines)]
    if given.stale:
        ledger.tell_stale(found, *(given.places if len(given.places) == 1 else ()))
        return 1 if any(it.place == GATE for it in found) else 0
    if given.only:
        found = [it for it in found if it.name in given.only]
    return 1 if try_all(found) or given.only and not found else 0
