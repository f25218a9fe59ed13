"""The sources that a program stands on, and what of them matters: their texts without comments and blank lines.

Tests, wrong bodies and documents stand in other folders or crates, and are no part of it. A file is read again only
where its size or its times have changed since its sum was kept.
"""
import contextlib
import hashlib
import json
import os
import pathlib
import re
import shutil
import subprocess
import tempfile
import time
import typing

from common import TOP, console, crates

CRATES = os.path.join(TOP, "crates")
# The program.
PROGRAM = "suites"
# The program of the commands that `./suites` starts itself, which is built sooner.
FIRST = "first_answer"
# The logic of the kit that these sources are proved with, as README.md names it.
KIT_LOGIC = "dac8208d650f15bf"
KEPT = os.path.join(TOP, "out")
SUMS = os.path.join(KEPT, "sums.json")
# The folders of a crate: what a checked build is made of, what its contracts cite besides, and what proves them.
CODE, CLAIMS, PROOFS = "src", "specs", "proofs"
# A comment stands at the start of a line or after a space; a string with such marks is none, nor is a character.
# The rarer `/* */` and `{- -}` count as text.
RUST = re.compile(
    r"""(?<!\w)[bc]?r(#*)".*?"\1|"(?:[^"\\]|\\.)*"|'(?:\\[^'\n]+|[^\\'\n]|\\')'|(?:^|(?<=\s))//[^\n]*""", re.S | re.M
)
LOGIC = re.compile(r'"(?:[^"\\\n]|\\.)*"|(?:^|(?<=[ \n]))--[^\n]*', re.M)
KINDS = {".rt": (RUST, "//"), ".antt": (LOGIC, "--")}
# Longer than the steps in which a file system counts time.
TICK = 0.02


def told(text: str, ending: str) -> str:
    """A text without comments, blank lines and spaces at the ends of lines; the lines of a string stay together."""
    pattern, mark = KINDS[ending]
    text = pattern.sub(lambda found: "" if found[0].startswith(mark) else found[0].replace("\n", "\0"), text)
    return "\n".join(line for line in map(str.rstrip, text.split("\n")) if line)


def files_of(folder: str) -> typing.Iterator[str]:
    """The sources in this folder of the repository, by their paths from its top."""
    for place, _, names in os.walk(os.path.join(TOP, folder)):
        for name in names:
            if os.path.splitext(name)[1] in KINDS:
                yield os.path.relpath(os.path.join(place, name), TOP)


def read_json(path: str) -> dict[str, typing.Any]:
    """What was kept in this file; nothing where it is not there, or was broken off."""
    with contextlib.suppress(OSError, ValueError):
        return json.loads(pathlib.Path(path).read_text(encoding="utf-8"))
    return {}


def write_whole(path: str, text: str, written: int | None = None) -> None:
    """Writes a file so that nobody reads a part of it, as if at this time (in nanoseconds)."""
    with open(f"{path}.{os.getpid()}", "w", encoding="utf-8") as file:
        file.write(text)
    if written is not None:
        os.utime(file.name, ns=(written, written))
    os.replace(file.name, path)


def make_folder() -> None:
    """Makes the folder for what is built, or ends the tool where nothing can be written into it."""
    try:
        os.makedirs(KEPT, exist_ok=True)
        tempfile.TemporaryFile(dir=KEPT).close()
    except OSError:
        raise console.Stop(
            f"nothing can be written in {KEPT}, and no program of these sources is there: copy the repository to where"
            " you may write"
        ) from None


def time_of_files() -> int | None:
    """A time of files before all that is read from now on was written; none where nothing can be written."""
    try:
        with tempfile.TemporaryFile(dir=KEPT) as file:
            begun = os.fstat(file.fileno()).st_mtime_ns
    except OSError:
        return None
    time.sleep(TICK)
    return begun


def sum_of(path: str) -> str | None:
    """The sum of a file's bytes; nothing where it is not there."""
    with contextlib.suppress(OSError):
        return hashlib.sha256(pathlib.Path(path).read_bytes()).hexdigest()
    return None


class Kit:
    """The kit whose `rt` is on the path, if there is one."""

    def __init__(self) -> None:
        self.command = shutil.which("rt") or ""
        self.name = ""
        if self.command:
            said = subprocess.run(["rt", "version"], stdin=subprocess.DEVNULL, capture_output=True, text=True)
            self.name = said.stdout.strip()

    def wanted(self) -> None:
        """Ends the tool where there is no kit, or one of another logic."""
        if not self.command:
            raise console.Stop(
                "the program is not built, and the command rt that builds it is not on the path (README.md names the"
                " kit)"
            )
        if not self.name:
            raise console.Stop(
                f"the program is not built, and the command {self.command} that builds it fails: `rt version` tells"
                " no kit"
            )
        if KIT_LOGIC not in self.name.split():
            raise console.Stop(
                f"the program is not built by the kit on the path, which is {self.name}: these sources want one of"
                f" logic {KIT_LOGIC}"
            )


class Sources:
    """The sources as they are now: the sums of the code, of code and claims, and of all with the proofs."""

    def __init__(self) -> None:
        self.crates = crates.below([PROGRAM], crates.listed())
        names = [*self.crates, FIRST]
        self.sums = self.summed([f"crates/{name}/{part}" for name in names for part in (CODE, CLAIMS, PROOFS)])
        self.files = sorted(self.sums)
        self.code_files = [file for file in self.files if file.split("/")[2] == CODE]
        self.claim_files = [file for file in self.files if file.split("/")[2] != PROOFS]
        self.code = self.total(self.code_files)
        self.claims = self.total(self.claim_files)
        self.all = self.total(self.files)

    def summed(self, folders: list[str]) -> dict[str, str]:
        """The sum of each file's text, kept from before where its size and times are the same."""
        before, kept = read_json(SUMS), time.time_ns()
        now: dict[str, list[typing.Any]] = {}
        for file in (file for folder in folders for file in files_of(folder)):
            about = os.stat(os.path.join(TOP, file))
            mark: list[typing.Any] = [about.st_size, about.st_mtime_ns, about.st_ctime_ns]
            if before.get(file, [None])[:3] != mark:
                with open(os.path.join(TOP, file), encoding="utf-8", errors="surrogateescape", newline="\n") as text:
                    clean = told(text.read(), os.path.splitext(file)[1])
                mark.append(hashlib.sha256(clean.encode("utf-8", "surrogateescape")).hexdigest())
            else:
                mark = before[file]
            now[file] = mark
        # what changed just now may change once more at the same time
        settled = {file: mark for file, mark in now.items() if mark[2] < kept - TICK * 1e9}
        if settled != before and os.access(KEPT, os.W_OK):
            write_whole(SUMS, json.dumps(settled))
        return {file: mark[3] for file, mark in now.items()}

    def total(self, files: list[str]) -> str:
        """The sum of these files, and of what each crate names."""
        lines = [f"{name}: {' '.join(needs)}" for name, needs in self.crates.items()]
        lines += [f"{file} {self.sums[file]}" for file in files]
        return hashlib.sha256("\n".join(lines).encode()).hexdigest()

    def looked_at(self, is_proved: bool) -> list[str]:
        """What is looked at before each run: the code, where a proof is at stake the claims, and their folders."""
        files = self.claim_files if is_proved else self.code_files
        return [*sorted({os.path.dirname(file) for file in files}), *files]
