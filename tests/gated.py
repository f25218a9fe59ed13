#!/usr/bin/env python3
"""tests/gated.py

Looks whether the gate's bounds bind, over a prover that is none: a bound that is passed fails with the table of what
each step cost, a slow machine is scaled, and what was kept counts nowhere. Each step of the gate has a bound. And looks
which changes are taken for ones of pages alone (tools/gate/passed.py), in a repository made for it: one that proofs are
made from, or a line of a pass that is new or forged, has all proved.
"""
import contextlib
import glob
import io
import os
import shutil
import subprocess
import sys
import tempfile
import time
import typing
from unittest import mock

from played import TOP, Tally, plays, put

from common import crates, text_of
from gate import bounds, gate, passed

# So many seconds the prover takes, which proves one crate.
PROVER = "import time\nwhile time.process_time() < 1.5: pass"
KIT = "a-kit logic 0"
HOUR = 60 * 60
# Files of the repository that is made, and the changes of one: its path, what it has then, and whether that is a page.
FILES = {
    "README.md": "a page",
    "docs/PAGE.md": "a page",
    "tests/one.py": "a test",
    "crates.txt": "one:\n",
    "HANDLES": "Handles allowed: none.\n",
    ".ci/run": "the gate",
    ".gitignore": "out/\n__pycache__/\n",
    "crates/one/src/lib.rt": "//! A crate.\n",
    "crates/one/stdout": "printed",
    "tools/gate/gate.py": "a tool of the gate",
    "tools/show/show.py": "a tool",
}
CHANGES = (
    ("README.md", "another page", True),
    ("docs/NEW.md", "a new page", True),
    ("tests/one.py", "another test", True),
    ("tools/show/show.py", "another tool", True),
    ("crates/one/out/built", "what was built", True),
    ("tools/gate/__pycache__/gate.pyc", "what was compiled", True),
    ("crates/one/src/lib.rt", "//! A crate.\n// a comment\n", False),
    ("crates/one/src/new.rt", "what git does not follow", False),
    ("crates/one/src/out/new.rt", "what git is not to follow", False),
    ("crates/one/stdout", "printed otherwise", False),
    ("crates/two/src/lib.rt", "another crate", False),
    ("crates.txt", "one:\ntwo:\n", False),
    ("HANDLES", "Handles allowed: Net.\n", False),
    (".ci/run", "another gate", False),
    ("tools/gate/gate.py", "another tool of the gate", False),
    ("docs/wrong-bodies.csv", "another ledger", False),
    ("BUILD.bazel", "a file that nobody thought of", False),
)


def gated(room: str, most: bounds.Bounds, kit: float, asks: typing.Sequence[str] = ()) -> tuple[int, str]:
    """The status of a gate with these bounds on a machine where the kit's example takes so long, and what it prints."""
    prover = os.path.join(room, "rattle")
    if not os.path.exists(prover):
        os.symlink(sys.executable, prover)
    crate = ["--crate-name", "vote_core", *asks]
    script = '"$@"; echo "3 passed, 0 failed"'
    printed = io.StringIO()
    with contextlib.ExitStack() as stack:
        for target, name, value in (
            (gate, "tool", lambda *_: ["true"]),
            (gate, "of_kit", lambda *_: ["sh", "-c", script, "rt", prover, "-c", PROVER, *crate]),
            (gate, "tree", lambda: ""),
            (gate, "BODIES", "gate.no_such_tool"),
            (bounds, "seconds_of_kit", lambda _: kit),
            (bounds, "kept", lambda: most),
            (bounds, "LEAST", 0.1),
            (sys, "argv", ["gate"]),
        ):
            stack.enter_context(mock.patch.object(target, name, value))
        stack.enter_context(contextlib.redirect_stdout(printed))
        return gate.main(), printed.getvalue()


def bind(tally: Tally) -> None:
    """Looks at a bound that is passed, and at slow machines."""
    planted = {"kit": (10.0, ""), "vote_core": (0.5, ""), "vote_core tests": (90.0, ""), "all else": (9.0, ""),
               "all": (99.0, "")}
    with tempfile.TemporaryDirectory(prefix="suites-") as room:
        status, told = gated(room, planted, 10)
        tally.holds(status == 1 and told.endswith("3 passed, 2 failed\n"), "a bound that is passed", status, told)
        tally.holds("FAILED: vote_core took " in told and "  vote_core\n" in told, "the table", told)
        status, told = gated(room, planted, 30)
        tally.holds(status == 0 and told.endswith("3 passed, 0 failed\n"), "a slow machine", status, told)
        status, told = gated(room, planted, 10, ["--test"])
        tally.holds(status == 0 and "  vote_core tests\n" in told, "tests", status, told)
    two = {"one": (10.0, ""), "two": (10.0, ""), "all": (40.0, "")}
    for times, slower, whole, count in (
        ({"one": 12.0, "two": 11.0}, 1.0, False, 0),
        ({"one": 19.0, "two": 19.0}, 1.0, False, 1),
        ({"one": 23.0}, 1.0, False, 2),
        ({"one": 19.0, "two": 19.0}, 2.0, True, 0),
        ({"one": 19.0, "two": 19.0, "wrong bodies": 9.0}, 1.0, True, 3),
        ({"new": 1.0}, 1.0, False, 1),
    ):
        with mock.patch.object(bounds, "is_whole", lambda _, whole=whole: whole):
            found = bounds.passed(times, two, slower)
        tally.holds(len(found) == count, times, slower, found)


def each_has_one(tally: Tally) -> None:
    """Looks that each crate has a bound, and its tests where it has any; and that there are no others."""
    known = crates.listed()
    wanted = {*known, *bounds.OF_ALL}
    for name in known:
        sources = glob.glob(os.path.join(TOP, "crates", name, "src", "**", "*.rt"), recursive=True)
        if any("#[test]" in text_of(path) for path in sources):
            wanted.add(name + bounds.TESTS)
    there = set(bounds.kept())
    for step in sorted(wanted ^ there):
        tally.holds(False, step, "has no bound in docs/gate-bounds.csv" if step in wanted else "is no step of the gate")
    tally.holds(wanted & there, "bounds")


def git(top: str, *words: str, hours: float = 0) -> None:
    """Has git do something in a repository, so many hours ago."""
    date = f"{time.time() - hours * HOUR:.0f} +0000"
    own = ["-c", "user.name=a", "-c", "user.email=a@b", "-c", "commit.gpgsign=false"]
    bare = {name: value for name, value in os.environ.items() if not name.startswith("GIT_")}
    dated = {**bare, "GIT_COMMITTER_DATE": date, "GIT_AUTHOR_DATE": date}
    subprocess.run(["git", "-C", top, *own, *words], env=dated, check=True, stdout=subprocess.DEVNULL)


def write(top: str, path: str, text: str) -> None:
    os.makedirs(os.path.dirname(os.path.join(top, path)), exist_ok=True)
    put(os.path.join(top, path), text)


def commit(top: str, hours: float) -> None:
    git(top, "add", "-A")
    git(top, "commit", "-q", "-m", "a change", "--allow-empty", hours=hours)


def repository(top: str) -> None:
    """A repository whose sources passed the gate some hours ago."""
    for path, text in FILES.items():
        write(top, path, text)
    git(top, "init", "-q", "-b", "main")
    commit(top, 9)
    passed.add(passed.summed(KIT, top), 300, top)
    commit(top, 5)
    commit(top, 0.1)


def is_known(top: str, kit: str = KIT) -> bool:
    try:
        passed.known(passed.summed(kit, top), top)
        return True
    except passed.Unknown:
        return False


def pages(tally: Tally) -> None:
    """Looks at each kind of change, committed and not, and at lines that prove nothing away."""
    with tempfile.TemporaryDirectory(prefix="suites-") as room:
        first = os.path.join(room, "first")
        os.mkdir(first)
        repository(first)
        for number, (path, text, is_page) in enumerate(CHANGES):
            top = os.path.join(room, str(number))
            shutil.copytree(first, top)
            write(top, path, text)
            tally.same(is_known(top), is_page, path, "not committed")
            commit(top, 0)
            tally.same(is_known(top), is_page, path)
            if not is_page:
                # a line of today, by hand or by a pass, and one that was taken out
                passed.add(passed.summed(KIT, top), 1, top)
                commit(top, 0)
                tally.same(is_known(top), False, path, "a forged line")
        tally.same(is_known(first, "b-kit logic 0"), False, "another kit")


def odd_trees(tally: Tally) -> None:
    """Looks at links, at a file that is gone, at histories that are none, and at lines that are too new or merged."""

    def looked(what: str, change: typing.Callable[[str], object], wanted: bool = False) -> None:
        with tempfile.TemporaryDirectory(prefix="suites-") as room:
            repository(room)
            change(room)
            tally.same(is_known(room), wanted, what)

    source = "crates/one/src/lib.rt"
    looked("nothing", lambda top: None, True)
    looked("a file that is gone", lambda top: os.remove(os.path.join(top, source)))
    looked("a link to a file", lambda top: os.symlink("../../../README.md", os.path.join(top, "crates/one/src/b.rt")))
    looked("a link to a folder", lambda top: os.symlink("../docs", os.path.join(top, "crates/two")))
    looked("a file that may be run", lambda top: os.chmod(os.path.join(top, source), 0o755))
    looked("no git", lambda top: shutil.rmtree(os.path.join(top, ".git")))
    looked("the line is gone", lambda top: put(os.path.join(top, passed.FILE), "sum,day,minutes\n"))

    def forced(top: str) -> None:
        write(top, "crates/one/out/forced.rt", "followed by git all the same")
        git(top, "add", "-f", "crates/one/out/forced.rt")

    def merged(top: str) -> None:
        git(top, "checkout", "-q", "-b", "side")
        write(top, source, "wrong")
        passed.add(passed.summed(KIT, top), 1, top)
        commit(top, 4)
        git(top, "checkout", "-q", "main")
        commit(top, 3.9)
        git(top, "merge", "-q", "--no-ff", "side", "-m", "merged")

    def cloned(top: str) -> None:
        """What was forged stands behind main of the origin."""
        git(top, "update-ref", passed.ORIGIN, "HEAD")
        write(top, source, "wrong")
        passed.add(passed.summed(KIT, top), 1, top)
        commit(top, 4)
        commit(top, 0)

    looked("a file of what is built that git follows", forced)
    looked("a line that was merged", merged)
    looked("a line with an old date, behind main of the origin", cloned)


if __name__ == "__main__":
    of_git = (pages, odd_trees) if shutil.which("git") else ()
    if not of_git:
        print("changes of pages skipped: no git")
    plays(__doc__, "looks at the gate", bind, each_has_one, *of_git)
