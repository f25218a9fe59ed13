"""What the last whole passes of the gate saw, so that a change of pages alone need not prove.

docs/gate-passed.csv has a line for each pass: the sum of all that proofs, programs and their tests are made from, the
day, and the processor minutes that it took. Only gate.py writes it, once everything passed. A later run proves nothing
where the sum of its tree is that of a line which stands there, and also stood there before this landing: at the newest
commit, down the first parents, that is more than three hours older than the one that is tried. So a line that is new,
or was written by hand today, proves nothing away; whoever writes it has to get it past a gate that proves all.
(Whoever forges the dates of commits too is not held by that.)

In the sum is every file below the top but pages, tests of what is built, and tools that take no part in the gate
(LEFT_OUT): with what git does not follow, what was not committed, and whether a file may be run; and what git follows
in folders of what is built. Where a link stands, or no sum can be made, all is proved.
"""
import csv
import hashlib
import os
import stat
import subprocess
import time

from common import TOP

FILE = "docs/gate-passed.csv"
HEAD = ("sum", "day", "minutes")
# A landing takes less than so many seconds from its first commit to its last; and so many lines are kept.
LANDING, MOST = 3 * 60 * 60, 20
# What is in no sum: a folder ends with a stroke. Behind it, what is in the sum all the same.
LEFT_OUT = ("docs/", "tests/", "bench/", "examples/", "help/", "tools/", "out/", "suites", "LICENSE", "README.md",
            "CHANGELOG.md", "CONTRIBUTING.md")
COUNTED = ("docs/wrong-bodies.csv", "tools/gate/", "tools/wrong_bodies/", "tools/common/", "tools/__main__.py")
# Main of the repository that was cloned: where it is known and another commit, what is looked for has to stand there.
ORIGIN = "refs/remotes/origin/main"


class Unknown(Exception):
    """No sum can be made, or git cannot be asked."""


def begins(path: str, names: tuple[str, ...]) -> bool:
    return any(path == name or name.endswith("/") and path.startswith(name) for name in names)


def git(top: str, *words: str) -> str:
    """What git says of the repository at this folder."""
    bare = {name: value for name, value in os.environ.items() if not name.startswith("GIT_")}
    bare["GIT_NO_REPLACE_OBJECTS"] = "1"
    try:
        done = subprocess.run(["git", "-C", top, *words], env=bare, stdin=subprocess.DEVNULL, capture_output=True)
    except OSError as error:
        raise Unknown(f"there is no git: {error.strerror}") from error
    if done.returncode != 0:
        raise Unknown(f"git {words[0]} failed: {done.stderr.decode(errors='replace').strip()[:200]}")
    return done.stdout.decode("utf-8", "surrogateescape")


def is_built(path: str) -> bool:
    """Whether a folder has what is built alone, so far as git does not follow it."""
    parts = path.split("/")
    if parts[0] == "crates":
        return len(parts) == 3 and parts[2] == "out"
    return parts[0] == "tools" and parts[-1] == "__pycache__"


def files(top: str) -> list[str]:
    """All files of the sum, by their paths from the top. A link is an end of it."""
    found = {path for path in git(top, "ls-files", "-z").split("\0") if path}
    for folder, below, names in os.walk(top):
        paths = {name: os.path.relpath(os.path.join(folder, name), top) for name in [*below, *names]}
        links = [name for name in below if os.path.islink(os.path.join(folder, name))]
        below[:] = [name for name in below if name not in links and not is_built(paths[name]) and paths[name] != ".git"]
        found |= {paths[name] for name in [*names, *links]}
    counted = (path for path in found - {".git"} if begins(path, COUNTED) or not begins(path, LEFT_OUT))
    return sorted(counted)


def summed(kit: str, top: str = TOP) -> str:
    """The sum of what is proved, built and run here by this kit."""
    if os.path.realpath(git(top, "rev-parse", "--show-toplevel").rstrip("\n")) != os.path.realpath(top):
        raise Unknown("this is not the top of a repository")
    total = hashlib.sha256(f"{kit}\n".encode())
    for path in files(top):
        try:
            mode = os.lstat(os.path.join(top, path)).st_mode
            if not stat.S_ISREG(mode):
                raise Unknown(f"{path} is no plain file")
            with open(os.path.join(top, path), "rb") as file:
                own = hashlib.sha256(file.read()).hexdigest()
        except OSError as error:
            raise Unknown(f"{path} cannot be read: {error.strerror}") from error
        total.update(f"{own} {bool(mode & stat.S_IXUSR)} ".encode() + os.fsencode(path) + b"\0")
    return total.hexdigest()


def before_landing(top: str = TOP) -> str:
    """The newest commit of main that is more than three hours older than the one that is tried."""
    tried, second = git(top, "log", "-1", "--format=%H %ct").split()
    begin = tried
    try:
        begin = git(top, "rev-parse", "--verify", "--quiet", f"{ORIGIN}^{{commit}}").strip()
        git(top, "merge-base", "--is-ancestor", begin, tried)
    except Unknown:
        begin = tried
    for line in git(top, "log", "--first-parent", "--format=%H %ct", begin).splitlines():
        commit, made = line.split()
        if int(made) < min(int(second), time.time()) - LANDING:
            return commit
    raise Unknown("no commit is more than three hours older than this one")


def rows(text: str) -> dict[str, list[str]]:
    """The lines of the file, by their sums."""
    return {row[0]: row for row in list(csv.reader(text.splitlines()))[1:] if len(row) == len(HEAD)}


def kept(top: str) -> dict[str, list[str]]:
    path = os.path.join(top, FILE)
    if not os.path.isfile(path):
        return {}
    with open(path, encoding="utf-8", errors="replace") as file:
        return rows(file.read())


def known(total: str, top: str = TOP) -> str:
    """Where this sum passed the whole gate before this landing, the day and the commit that has it."""
    commit = before_landing(top)
    then = rows(git(top, "show", f"{commit}:{FILE}"))
    if total not in then or total not in kept(top):
        raise Unknown("these sources, or this kit, are not those of a pass that was told before this landing")
    return f"on {then[total][1]}, as {FILE} says, and said in {commit[:8]}"


def add(total: str, minutes: float, top: str = TOP) -> None:
    """Keeps that everything passed."""
    before = [row for row in kept(top).values() if row[0] != total]
    with open(os.path.join(top, FILE), "w", newline="", encoding="utf-8") as file:
        table = csv.writer(file, lineterminator="\n")
        table.writerow(HEAD)
        table.writerows([*before, [total, time.strftime("%Y-%m-%d", time.gmtime()), f"{minutes:.0f}"]][-MOST:])
