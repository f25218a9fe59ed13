#!/usr/bin/env python3
"""tools/take.py --into FOLDER NAME..

Takes crates with all that they stand on into another repository: copies the folders src, specs and proofs of each to
FOLDER/crates, and adds its line to FOLDER/crates.txt, below those that are there. A crate that is there already, and is
another one, is told, and nothing is copied. HANDLES comes along where the folder has none. Then a program is a crate
more: a folder with src/main.rt, and a line in crates.txt that names what it uses (docs/LIBRARY.md).
"""
import filecmp
import os
import shutil
import typing

from common import TOP, console, crates

PARTS = ("src", "specs", "proofs")


def files(crate: str) -> set[str]:
    """The sources of a crate, as paths below its folder."""
    return {
        os.path.relpath(os.path.join(place, name), crate)
        for part in PARTS
        for place, _, names in os.walk(os.path.join(crate, part))
        for name in names
    }


def is_same(crate: str, other: str) -> bool:
    """Whether two crates have the same sources."""
    own = files(crate)
    return own == files(other) and not any(
        filecmp.cmpfiles(crate, other, sorted(own), shallow=False)[place] for place in (1, 2)
    )


def take(folder: str, names: typing.Sequence[str]) -> list[str]:
    """Copies the crates, and answers their names; stops where one is unknown, or another one is there."""
    known = crates.listed()
    unknown = [name for name in names if name not in known]
    if unknown:
        raise console.Bad(f"no crate is called {' or '.join(unknown)}; crates.txt has all")
    below, there = crates.below(names, known), crates.listed(folder)
    taken = [name for name in known if name in below]
    for name in taken:
        pair = [os.path.join(top, "crates", name) for top in (TOP, folder)]
        if os.path.exists(pair[1]) and not is_same(*pair):
            raise console.Stop(f"{pair[1]} is there, and is another crate than the one of this repository")
    new = [name for name in taken if not os.path.exists(os.path.join(folder, "crates", name))]
    for name in new:
        for part in PARTS:
            source = os.path.join(TOP, "crates", name, part)
            if os.path.isdir(source):
                shutil.copytree(source, os.path.join(folder, "crates", name, part))
    if not os.path.exists(os.path.join(folder, "HANDLES")):
        shutil.copy(os.path.join(TOP, "HANDLES"), folder)
    with open(os.path.join(folder, crates.LIST), "a", encoding="utf-8") as file:
        file.writelines(crates.line_of(name, known[name]) for name in taken if name not in there)
    return new


def main() -> int:
    read = console.words(__doc__)
    read.add_argument("--into", required=True)
    read.add_argument("names", nargs="+")
    given = read.parse_args()
    os.makedirs(given.into, exist_ok=True)
    new = take(given.into, given.names)
    print(f"{len(new)} crates taken: {' '.join(new)}" if new else "all of them are there")
    return 0


if __name__ == "__main__":
    console.run(main, "stopped")
