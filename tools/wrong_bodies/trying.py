"""Tries wrong bodies in earnest: each by a check of the function that it says it is refused by, with all that it calls.

The crate is proved, so an edit with which one of its functions is not is refused. Only where that function is proved
still, where it came to no result, or where none is named, the whole crate is checked with the edit. Each is checked on
a copy of the crate's texts, over a linked copy of what a check of the same functions without an edit kept (the seed).
What was tried over a seed that then is not as it was, or not proved again, is tried once more from nothing.
"""
import concurrent.futures
import contextlib
import os
import shutil
import tempfile
import threading
import time
import typing

from common import console
from wrong_bodies import changes, decides, judge, kit, ledger, standing
from wrong_bodies.judge import UNSURE, Verdict

# What a try by one function may leave open.
OPEN = (judge.PROVED, judge.UNSURE, judge.LIMIT, judge.LOST)
Told = typing.Callable[[standing.Edit, Verdict, float], None]


def fixed() -> int:
    """How many checks RT_JOBS has run side by side, or 0."""
    number = os.environ.get("RT_JOBS", "")
    return int(number) if number.isdigit() else 0


def tell(edit: standing.Edit, verdict: Verdict, seconds: float) -> None:
    """Prints what came of an edit."""
    where = f" by {verdict.function} ({verdict.clause})" if verdict.kind == judge.REFUSED else f": {verdict.said}"
    print(f"{edit.crate}/{edit.name}: {verdict.kind}{where}{f', {seconds:.1f} s' if seconds else ''}", flush=True)


class Crate:
    """The tries of one crate's edits."""

    def __init__(self, copy: kit.Copy, name: str, edits: list[standing.Edit]) -> None:
        self.copy, self.name, self.edits = copy, name, edits
        folder = copy.crates[name].folder
        # (an edit that names no function is tried by the one that refused it last)
        lines = ledger.read()
        last = {edit: [lines[edit.key].function] for edit in edits if edit.key in lines}
        self.only = {edit: standing.paths_of(edit, folder) or last.get(edit, []) for edit in edits}
        self.texts = {edit: changes.applied(changes.changes_in(edit.text), folder) for edit in edits}
        self.room = tempfile.mkdtemp(prefix=f"{name}-", dir=copy.room)
        self.seed: str | None = os.path.join(self.room, "seed")
        self.named = sorted({it for named in self.only.values() for it in named})
        self.is_whole, self.files = False, dict[str, tuple[int, ...]]()

    def begin(self) -> str:
        """Makes the seed. Tells why nothing can be tried, or nothing."""
        lacks = self.copy.lacks(self.name)
        if lacks:
            return f"its library {lacks} is not proved"
        is_proved = self.copy.is_proved(self.name)
        start = self.copy.work_for(self.name)
        nameless = sum(not named for named in self.only.values())
        if is_proved and len(self.edits) == 1 and not start:
            self.seed = None
            return ""
        is_whole = not is_proved or nameless > 1 or not self.named
        ways = [(start, is_whole)] if start else []
        for begin, self.is_whole in dict.fromkeys([*ways, (None, is_whole), (None, True)]):
            seen = self.seeded(begin)
            if not seen.status:
                self.files = kit.listing(self.seed or "")
                return ""
        return f"the crate is not proved without an edit: {seen.text.rstrip().rpartition(chr(10))[2][:160]}"

    def seeded(self, start: str | None) -> kit.Seen:
        """Checks the crate as it stands, over what another check kept, and keeps what that proves."""
        seed = self.seed or ""
        shutil.rmtree(seed, ignore_errors=True)
        try:
            if start:
                kit.linked(start, seed)
        except (OSError, shutil.Error):
            # (another command may write what this one copies)
            shutil.rmtree(seed, ignore_errors=True)
        os.makedirs(seed, exist_ok=True)
        return self.copy.check(self.name, {}, [] if self.is_whole else self.named, seed)

    def one(self, edit: standing.Edit, over: str | None) -> Verdict:
        """What comes of an edit over what this folder holds: by its function, and by the whole crate where that leaves
        it open."""
        found = Verdict(judge.PROVED)
        if self.only[edit]:
            seen = self.copy.check(self.name, self.texts[edit], self.only[edit], over)
            found = judge.of_check(seen, self.name, self.texts[edit])
        if found.kind in OPEN:
            seen = self.copy.check(self.name, self.texts[edit], [], over)
            found = judge.of_check(seen, self.name, self.texts[edit])
        return found

    def over_seed(self, edit: standing.Edit) -> Verdict:
        over = os.path.join(self.room, edit.name)
        try:
            kit.linked(self.seed or "", over)
            return self.one(edit, over)
        finally:
            shutil.rmtree(over, ignore_errors=True)

    def is_sound(self) -> bool:
        """Whether the seed is as it was, and still proves what it proved."""
        if self.seed is None:
            return True
        is_same = kit.listing(self.seed) == self.files
        return is_same and not self.copy.check(self.name, {}, [] if self.is_whole else self.named, self.seed).status

    def end(self) -> None:
        shutil.rmtree(self.room, ignore_errors=True)


class Tries:
    """Tries edits in so many lanes, and calls `told` with each verdict and the seconds that it took."""

    def __init__(self, lanes: int, told: Told) -> None:
        self.lanes, self.told, self.telling = lanes, told, threading.Lock()
        self.verdicts: dict[standing.Key, Verdict] = {}

    def tell(self, edit: standing.Edit, verdict: Verdict, seconds: float = 0) -> None:
        with self.telling:
            self.verdicts[edit.key] = verdict
            self.told(edit, verdict, seconds)

    def all(self, edits: typing.Iterable[standing.Edit]) -> dict[standing.Key, Verdict]:
        """The verdicts on these edits."""
        by_crate: dict[str, list[standing.Edit]] = {}
        for edit in edits:
            if edit.sum:
                by_crate.setdefault(edit.crate, []).append(edit)
            else:
                self.tell(edit, Verdict(judge.BAD, said="it does not apply: tools wrong_bodies --check says why"))
        if by_crate:
            with tempfile.TemporaryDirectory(prefix="wrong-bodies-", ignore_cleanup_errors=True) as room:
                try:
                    self.in_room(room, by_crate)
                except KeyboardInterrupt:
                    # (the checks of other threads end with this program)
                    console.Teller().say("stopped")
                    shutil.rmtree(room, ignore_errors=True)
                    os._exit(console.STOPPED)
        return self.verdicts

    def in_room(self, room: str, by_crate: dict[str, list[standing.Edit]]) -> None:
        copy = kit.Copy(room)
        tree = decides.Tree(kit.name(), room)
        pool, crates = (concurrent.futures.ThreadPoolExecutor(self.lanes) for _ in range(2))
        runs = []
        for name, edits in by_crate.items():
            same = [edit for edit in edits if tree.of_edit(name, edit.text) == edit.sum]
            for edit in edits:
                if edit not in same:
                    self.tell(edit, Verdict(UNSURE, said="what decides it changed meanwhile"))
            if same:
                runs.append(crates.submit(self.crate, copy, pool, name, same))
        # (not in a `with`, which would wait for all checks where the tool is stopped)
        for run in runs:
            run.result()

    def crate(
        self, copy: kit.Copy, pool: concurrent.futures.Executor, name: str, edits: list[standing.Edit]
    ) -> None:
        """Tries the edits of a crate."""
        crate = Crate(copy, name, edits)
        with contextlib.ExitStack() as ending:
            ending.callback(crate.end)
            why = pool.submit(crate.begin).result()
            if why:
                for edit in edits:
                    self.tell(edit, Verdict(UNSURE, said=why))
                return
            runs = {edit: pool.submit(self.timed, crate, edit) for edit in edits}
            found = {edit: run.result() for edit, run in runs.items()}
            if not pool.submit(crate.is_sound).result():
                print(f"{name}: what its own check left is not as it was: its edits are tried once more", flush=True)
                crate.seed = None
                runs = {edit: pool.submit(self.timed, crate, edit) for edit in edits}
                found = {edit: run.result() for edit, run in runs.items()}
            for edit, (verdict, seconds) in found.items():
                self.tell(edit, verdict, seconds)

    @staticmethod
    def timed(crate: Crate, edit: standing.Edit) -> tuple[Verdict, float]:
        begun = time.monotonic()
        try:
            verdict = crate.over_seed(edit) if crate.seed else crate.one(edit, None)
        except (OSError, shutil.Error) as error:
            # (a full disk, say)
            verdict = Verdict(UNSURE, said=str(error))
        return verdict, time.monotonic() - begun
