"""The kit's `rt` as this tool uses it: a copy of the crates with the libraries that this machine has proved, checks of
a crate over them with other texts in place of its own, and what was seen here before.

`rt ci` keeps the library of each crate that it proved by the sum of all that it read. A crate whose sum is kept is
proved; so is one of which a whole `rt check` on this machine said so. Where a library below is not kept, it is proved
here, from nothing. What is kept beside the kit is for root alone (or for whoever runs `rt`).
"""
import functools
import json
import os
import shutil
import signal
import subprocess
import sys
import tempfile
import threading
import types
import typing

from common import TOP, console
from gate import rt

CRATES = os.path.join(TOP, "crates")
# What this tool kept beside what `rt` keeps.
KEPT = "suites-edits"
LEFT_OUT = ("out", "gate", "wrong")


@functools.cache
def loaded() -> types.ModuleType:
    """The kit's command as a module."""
    path = shutil.which("rt")
    if path is None or not rt.is_python(path):
        raise console.Stop("the kit's command rt is not on the path, or is no Python (README.md, Start)")
    sys.dont_write_bytecode = True
    return rt.loaded(os.path.realpath(path))


@functools.cache
def name() -> str:
    """The kit's whole name, as `rt version` prints it."""
    with open(os.path.join(loaded().KIT, "KIT-ID"), encoding="utf-8") as file:
        return file.read().strip()


class Seen(typing.NamedTuple):
    """How a check ended, and what it said."""

    status: int
    text: str


class Copy:
    """The crates as they stand, copied to a folder, with the libraries that are kept."""

    def __init__(self, room: str) -> None:
        self.rt, self.room, self.building = loaded(), room, threading.Lock()
        # (its first call sets a signal's handler, which only the main thread may)
        self.rt.rtlib.guarded()
        for file in ("crates.txt", "HANDLES"):
            if os.path.isfile(os.path.join(TOP, file)):
                shutil.copy2(os.path.join(TOP, file), room)
        shutil.copytree(CRATES, os.path.join(room, "crates"), ignore=shutil.ignore_patterns(*LEFT_OUT))
        # (as under rt ci: the crates above a library load its statements)
        self.rt.rtlib.Crate = self.rt.Crate
        self.rt.Crate.allowed, self.rt.Crate.cuts_libraries = self.rt.handles_of(room), True
        self.crates = {it.name: it for it in self.rt.rtlib.crates_below(room)}
        self.kept = self.rt.Kept([*self.crates.values()])
        self.has: dict[str, bool] = {}

    def is_given(self, name: str) -> bool:
        """Whether `rt ci` proved this crate as it stands, over its libraries as they are here. Its own library is then
        here, too."""
        crate = self.crates[name]
        os.makedirs(f"{crate.folder}/out", exist_ok=True)
        found = self.kept.give(crate, False, self.kept.key(crate))
        if found:
            self.kept.is_built(crate)
        return found

    def lacks(self, name: str) -> str:
        """Gives a crate the libraries below it: where `rt ci` keeps none, one that a `rt check` built of the same, or a
        new one. Tells which is not proved, or nothing."""
        with self.building:
            for crate in self.crates[name].below():
                if crate.name not in self.has:
                    self.has[crate.name] = self.is_given(crate.name) or self.is_taken(crate) or self.builds(crate)
                if not self.has[crate.name]:
                    return crate.name
        return ""

    def is_taken(self, crate: typing.Any) -> bool:
        """Whether a library stands in this checkout that `rt` built of the same text over the same libraries."""
        here = os.path.join(CRATES, crate.name, "out", "rlib")
        below = [(it.rlib, os.path.join(CRATES, it.name, "out", "rlib", f"{it.name}.rlib")) for it in crate.below()]
        # (a library's format holds the sum of its files)
        formats = [[self.rt.rtlib.sum_of(f"{it}/format") for it in pair] for pair in below]
        if self.rt.rtlib.text_of(f"{here}/stamp") != crate.stamp() or any(one != other for one, other in formats):
            return False
        shutil.rmtree(os.path.dirname(crate.rlib), ignore_errors=True)
        shutil.copytree(here, os.path.dirname(crate.rlib), copy_function=self.rt.link_or_copy)
        if not crate.is_built():
            return False
        self.kept.is_built(crate)
        return True

    def builds(self, crate: typing.Any) -> bool:
        print(f"{crate.name}: nothing kept of it fits, so it is proved first", flush=True)
        with tempfile.TemporaryFile("w+", errors="replace") as crate.out:
            status = crate.build_rlib(["--jobs", "1"], anew=True)
            crate.out.seek(0)
            said = crate.out.read()
        if status:
            print(*said.rstrip("\n").split("\n")[-8:], sep="\n  ", flush=True)
        else:
            self.kept.is_built(crate)
        return not status

    def is_proved(self, name: str) -> bool:
        """Whether this machine proved the crate as it stands, by `rt ci` or by a whole `rt check`."""
        crate = self.crates[name]
        with self.building:
            self.has[name] = self.has.get(name) or self.is_given(name)
            return self.has[name] or any(stamp == crate.stamp() for _, stamp in self.rt.places_of(crate))

    def work_for(self, name: str) -> str | None:
        """The folder of what checks on this machine kept of the crate, if there is one. No verdict rests on it."""
        return self.rt.work_for(self.crates[name])

    def check(self, name: str, texts: dict[str, str], only: typing.Sequence[str], over: str | None) -> Seen:
        """What a check says of the crate with these texts in place of its own: of these functions and all that they
        call, or of the whole, over what this folder holds, or from nothing. One that is killed, most likely for memory,
        is begun once more."""
        flags = ["--jobs", "1", *(word for it in only for word in ("--only", it))]
        for _ in range(2):
            ran = self.rt.checked(self.crates[name], texts, flags, over)
            if ran.returncode != -signal.SIGKILL:
                break
        return Seen(ran.returncode, ran.stdout)


def linked(folder: str, to: str) -> None:
    """Copies what a check kept, by links where these can be made: a check replaces such a file, and changes none."""
    loaded().linked(folder, to)


def listing(folder: str) -> dict[str, tuple[int, ...]]:
    """What tells whether a file of a folder was changed, lost or added."""
    return loaded().listing(folder)


# ---- what this machine saw refused


def store() -> str | None:
    """The folder beside what `rt` keeps, if nobody else may write there."""
    folder = os.path.join(loaded().STORE, KEPT)
    try:
        os.makedirs(folder, 0o700, exist_ok=True)
        of = [os.lstat(it) for it in (folder, os.path.dirname(folder))]
    except OSError:
        return None
    is_own = all(it.st_uid == os.geteuid() and not it.st_mode & 0o022 for it in of)
    return folder if is_own and not os.path.islink(folder) else None


def keep(sum: str, refusal: tuple[str, str]) -> None:
    """Keeps by the sum of what decides it what refused an edit just now."""
    if folder := store():
        with tempfile.NamedTemporaryFile("w", prefix="new-", dir=folder, delete=False, encoding="utf-8") as file:
            json.dump({"sum": sum, "refusal": refusal}, file)
        os.replace(file.name, os.path.join(folder, sum))


def kept(sum: str) -> tuple[str, str] | None:
    """What this machine saw refuse an edit, by the sum of what decides it."""
    try:
        with open(os.path.join(store() or os.devnull, sum), encoding="utf-8") as file:
            found = json.load(file)
        function, clause = found["refusal"]
        return (str(function), str(clause)) if found["sum"] == sum else None
    except (OSError, ValueError, KeyError, TypeError):
        return None
