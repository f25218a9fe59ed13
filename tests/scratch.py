"""Programs that are no crates of the repository: each stands as one more crate in a copy of the crates that it stands
on.

Tests want nothing proved (`built`): their programs stand in tests/programs, are built unproved, with checks at run
time, as front/trial.py builds `suites`, and cost the gate nothing. What is built stays in out/ until a source of the
crates that it stands on changes. Times are measured of proved programs (`runs`): those stand in bench/, and `rt run`
makes them.
"""
import hashlib
import os
import shutil
import subprocess
import sys
import tempfile
import typing

from played import TOP, put

import take
from common import crates, of_kit

BUILD = "import sys; from front import trial; trial.build(sys.argv[1], lambda: None, sys.argv[2])"


def sum_of(sources: typing.Iterable[str], direct: list[str]) -> str:
    """The sum of all that a program is made from."""
    total, paths = hashlib.sha256(), list(sources)
    for name in crates.below(direct, crates.listed()):
        crate = os.path.join(TOP, "crates", name)
        paths += [os.path.join(crate, file) for file in take.files(crate)]
    for path in sorted(paths):
        with open(path, "rb") as file:
            total.update(os.path.relpath(path, TOP).encode() + b"\0" + file.read() + b"\0")
    return total.hexdigest()


def placed(copy: str, program: str, direct: list[str], sources: dict[str, str]) -> str:
    """Puts these crates and those below them into a folder, and the program, which stands on these, beside them. Its
    folder.
    """
    take.take(copy, [name for name in direct if name in crates.listed()])
    own = os.path.join(copy, "crates", program)
    os.makedirs(os.path.join(own, "src"))
    for name, source in sources.items():
        shutil.copy(source, os.path.join(own, "src", f"{name}.rt"))
    with open(os.path.join(copy, crates.LIST), "a", encoding="utf-8") as listed:
        listed.write(crates.line_of(program, direct))
    return own


def lines(crate: str, kinds: typing.Sequence[str]) -> list[list[str]]:
    """The words of each line of a run that begins with one of these words."""
    done = subprocess.run(of_kit("run"), cwd=crate, capture_output=True, text=True, check=False)
    found = [words for words in map(str.split, done.stdout.splitlines()) if words and words[0] in kinds]
    if not found:
        sys.exit(done.stdout + done.stderr)
    return found


def runs(name: str, direct: str, kinds: typing.Sequence[str], times: int = 5) -> list[tuple[list[str], ...]]:
    """For each line of bench/NAME.rattle that begins with one of these words, its words in each of some runs."""
    with tempfile.TemporaryDirectory() as copy:
        crate = placed(copy, f"{name}_bench", direct.split(), {"main": os.path.join(TOP, "bench", f"{name}.rattle")})
        return list(zip(*(lines(crate, kinds) for _ in range(times))))


def built(program: str, direct: list[str], modules: typing.Sequence[str] = ()) -> str:
    """The path of a program of tests/programs that names these crates, built where it is not there. Its modules are
    files too.
    """
    sources = {"main": os.path.join("tests", "programs", f"{program}.rt.txt")}
    sources.update({os.path.basename(path).split(".")[0]: path for path in modules})
    sources = {name: os.path.join(TOP, path) for name, path in sources.items()}
    target, mark = os.path.join(TOP, "out", program), os.path.join(TOP, "out", f"{program}.sum")
    wanted = sum_of(sources.values(), direct)
    if os.path.exists(target) and os.path.exists(mark):
        with open(mark, encoding="utf-8") as file:
            if file.read() == wanted:
                return target
    print(f"building {program}, some minutes", file=sys.stderr)
    os.makedirs(os.path.dirname(target), exist_ok=True)
    with tempfile.TemporaryDirectory(prefix="suites-") as copy:
        placed(copy, program, direct, sources)
        build(copy, program, target)
    put(mark, wanted)
    return target


def build(copy: str, program: str, target: str) -> None:
    """Builds a program of a copy, unproved, by the tools, which are put there."""
    shutil.copytree(os.path.join(TOP, "tools"), os.path.join(copy, "tools"))
    environment = {**os.environ, "PYTHONPATH": os.path.join(copy, "tools")}
    done = subprocess.run([sys.executable, "-c", BUILD, target, program], env=environment, stdin=subprocess.DEVNULL)
    if done.returncode != 0:
        sys.exit(f"{program} was not built")
