#!/usr/bin/env python3
"""tests/hints.py

Checks the type hints of all files of tools, tests and benches with mypy, where that is installed (Debian's package
`mypy`): each function has hints, and they fit. No line of these files is longer than 120 characters. Without mypy it
says `skipped`. Status 1 where something is wrong.
"""
import collections
import glob
import os
import re
import shutil
import subprocess
import sys
import tempfile

from played import TOP, Tally, plays

WIDEST, FEWEST = 120, 90
FOLDERS = ("tools", "tools/*", "tests", "bench")
# What may be nothing is not told apart from what may not: a match that was looked for is taken to be there.
CONFIG = """[mypy]
strict_optional = False
disallow_untyped_defs = True
ignore_missing_imports = {alone}
follow_imports = silent
warn_no_return = False
mypy_path = {path}
cache_dir = {cache}
"""


def paths() -> list[str]:
    """All files of Python."""
    found = [path for folder in FOLDERS for path in sorted(glob.glob(os.path.join(TOP, folder, "*.py")))]
    return found if len(found) >= FEWEST else sys.exit(f"only {len(found)} files are found")


def too_wide(path: str) -> list[str]:
    """The lines of a file that are too long."""
    with open(path, encoding="utf-8") as file:
        wide = [number for number, line in enumerate(file, 1) if len(line.rstrip("\n")) > WIDEST]
    return [f"{os.path.relpath(path, TOP)}:{number}: longer than {WIDEST} characters" for number in wide]


def groups(files: list[str]) -> list[list[str]]:
    """The files in groups that are checked together: of two files with one name only one can be, so those of each
    folder whose names others, or a package, have stand alone.
    """
    names = {path: os.path.basename(path) for path in files}
    packages = {f"{os.path.basename(os.path.dirname(path))}.py" for path in files if names[path] == "__init__.py"}
    count = collections.Counter([*names.values(), *packages])
    shared = [path for path in files if count[names[path]] > 1 and not path.startswith(f"{TOP}/tools/")]
    return [[path for path in files if path not in shared], *([path] for path in shared)]


def checked(files: list[str], room: str) -> list[str]:
    """What mypy says of some files."""
    # a test that has the name of a tool stands in a package, and the tool in none
    is_alone = len(files) == 1
    path = f"{TOP}:{TOP}/tools" if is_alone else f"{TOP}/tools:{TOP}/tests:{TOP}/bench"
    with open(os.path.join(room, "mypy.ini"), "w", encoding="utf-8") as file:
        cache = os.path.join(room, "alone" if is_alone else "all")
        file.write(CONFIG.format(path=path, cache=cache, alone=is_alone))
        file.write("explicit_package_bases = True\n" if is_alone else "")
    done = subprocess.run(["mypy", "--config-file", file.name, *files], cwd=TOP, stdout=subprocess.PIPE, text=True)
    found = [line for line in done.stdout.splitlines() if re.search(r": (error|note): ", line)]
    return found or ([] if done.returncode == 0 else done.stdout.splitlines())


def looks(tally: Tally) -> bool:
    files = paths()
    tally.count = len(files)
    tally.fails(*(line for path in files for line in too_wide(path)))
    has_mypy = shutil.which("mypy") is not None
    if has_mypy:
        with tempfile.TemporaryDirectory(prefix="suites-") as room:
            tally.fails(*(line for group in groups(files) for line in checked(group, room)))
    else:
        print("type hints skipped: no mypy")
    return False


if __name__ == "__main__":
    plays(__doc__, "files", looks)
