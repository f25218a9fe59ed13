#!/usr/bin/env python3
"""tests/one-word.py [--told]

One word, one meaning: a public type's name is one crate's. Status 1 where two crates have a name. Counts the records of
definitions whose name several crates have, which may only become fewer; --told tells them. And a law asks nothing of
its caller, so that no test has to call it: a public function that does nothing has no `requires`, but for one.
"""
import collections
import glob
import os
import re

from played import TOP, Tally, plays

from common import functions, text_of
from pages import proved_page

# The function that does nothing and asks something: `run_tests` calls it. So many others are found at least.
ASKS, LAWS = {"law_headline promise"}, 200
# As many names of records are those of several crates at most, and so many public types are found at least.
MOST, FEWEST = 64, 180
TYPE = re.compile(r"^pub (?:struct|enum|trait|type) (\w+)", re.M)
RECORD = re.compile(r"^(?:abbrev )?(?:pub )?(?:record|data) (\w+)", re.M)


def types(crate: str) -> set[str]:
    """The types that a library shows."""
    names, modules = proved_page.shown(crate)
    found = set()
    folder = os.path.join(TOP, "crates", crate, "src")
    for path in glob.glob(os.path.join(folder, "**", "*.rt"), recursive=True):
        module = os.path.relpath(path, folder).split(os.sep)[0].removesuffix(".rt")
        own = set(TYPE.findall(text_of(path)))
        found |= own if module in modules or module == "lib" else own & names
    return found


def records() -> dict[str, set[str]]:
    """The records of definitions by their names, each with the crates that have one."""
    found = collections.defaultdict(set)
    for path in glob.glob(os.path.join(TOP, "crates", "*", "specs", "**", "*.antt"), recursive=True):
        for name in RECORD.findall(text_of(path)):
            found[name].add(os.path.relpath(path, TOP).split(os.sep)[1])
    return found


def laws() -> dict[str, bool]:
    """The public functions that do nothing, each with whether it asks something of its caller."""
    found = dict[str, bool]()
    for crate in proved_page.crates():
        for path in glob.glob(os.path.join(TOP, "crates", crate, "src", "**", "*.rt"), recursive=True):
            text = text_of(path)
            lines = text.split("\n")
            for one in functions.functions(text):
                whole = "".join(lines[one.first : one.last + 1]).replace(" ", "")
                if whole.startswith("pubfn") and whole.endswith("{}"):
                    asks = re.compile(r" *requires\b")
                    found[f"{crate} {one.name}"] = any(map(asks.match, lines[one.first : one.last]))
    return found


def looks(tally: Tally) -> None:
    of_laws = laws()
    tally.same({name for name, asks in of_laws.items() if asks}, ASKS, "the laws that ask something")
    tally.holds(len(of_laws) >= LAWS, f"only {len(of_laws)} laws are found")
    owners = collections.defaultdict(set)
    for crate in proved_page.crates():
        for name in types(crate):
            owners[name].add(crate)
    for name, crates in sorted(owners.items()):
        tally.holds(len(crates) == 1, f"{name} is a public type of {' and of '.join(sorted(crates))}")
    tally.holds(len(owners) >= FEWEST, f"only {len(owners)} public types are found")
    doubles = {name: crates for name, crates in records().items() if len(crates) > 1}
    tally.holds(len(doubles) <= MOST, f"{len(doubles)} names of records are those of several crates, and not {MOST}")
    for name, crates in sorted(doubles.items()) if tally.given.told else ():
        print(f"{name}: {' '.join(sorted(crates))}")
    print(f"told: {len(doubles)} names of records are those of several crates")


if __name__ == "__main__":
    plays(__doc__, "names of types", looks, told=False)
