#!/usr/bin/env python3
"""tests/compiled.py

Compiles, and proves nothing of, every program of tests/programs and of bench/ (`*.rattle`), so that none is left behind
where the crates change. All of them become one program, each a module of it, in a copy of the crates that they name
(tests/scratch.py), and `rt try` compiles that. Prints what does not compile; status 1 where something does not.
"""
import glob
import os
import re
import tempfile

import played
import scratch
import taken

from common import crates, text_of

# Programs of tests/programs: with each, the modules of which it is made, here and in crates/.
MADE_OF = {
    "liar": ("lies", "story", "telling", "trace/src/asked", "trace/src/told", "trace/src/words"),
    "damaged_copies": (),
}
FEWEST = 7
# The program of which the others become modules, and what a measurement takes in place of the runtime that only a
# `main` has.
ROOT, RUNTIME = "liar", "&(impl AllocGlobal + Print + std::rt::Clock + std::sync::Wait)"


def as_module(text: str) -> str:
    """A program's text as that of a module."""
    text = re.sub(r"^#!\[.*\]\n", "", text, flags=re.M)
    return text.replace("fn main(rt: HostRuntime)", f"fn main(rt: {RUNTIME})").replace("(&rt, ", "(rt, ")


def as_root(text: str, names: list[str]) -> str:
    """A program's text with these modules more."""
    return re.sub(r"^mod ", "".join(f"mod {name};\n" for name in names) + "mod ", text, count=1, flags=re.M)


def modules() -> tuple[dict[str, str], int]:
    """All modules with their texts, and how many programs there are."""
    texts, count = {}, 0
    for program, parts in MADE_OF.items():
        text = text_of(f"tests/programs/{program}.rt.txt")
        texts[program] = text if program == ROOT else re.sub(r"^#!\[.*\]\n", "", text, flags=re.M)
        for part in parts:
            texts[os.path.basename(part)] = text_of(
                f"crates/{part}.rt" if "/" in part else f"tests/programs/{part}.rt.txt"
            )
        count += 1
    for path in sorted(glob.glob(os.path.join(played.TOP, "bench", "*.rattle"))):
        texts[f"bench_{os.path.basename(path).split('.')[0]}"] = as_module(text_of(path))
        count += 1
    return texts, count


def named(texts: dict[str, str]) -> list[str]:
    """The crates that the texts name, those of the kit too."""
    needs = crates.listed()
    known = {*needs, *(name for names in needs.values() for name in names)}
    return sorted({name for text in texts.values() for name in re.findall(r"^use (\w+)::", text, re.M)} & known)


def unused() -> list[str]:
    """The files of tests/programs that belong to no program, here or in tests/taken.py."""
    kept = {name for program, parts in MADE_OF.items() for name in (program, *parts)}
    kept |= {program.name for program in (taken.ASKS, taken.PLAYS)}
    there = {
        os.path.basename(path).split(".")[0] for path in glob.glob(os.path.join(played.TOP, "tests", "programs", "*"))
    }
    return sorted(there - kept)


def compiles(tally: played.Tally) -> None:
    texts, tally.count = modules()
    tally.fails(*(f"tests/programs/{name}.rt.txt belongs to no program of tests/compiled.py" for name in unused()))
    tally.fails(tally.count < FEWEST and f"only {tally.count} programs are found")
    with tempfile.TemporaryDirectory(prefix="suites-") as copy:
        own = scratch.placed(copy, "all_programs", named(texts), {})
        own_modules = {os.path.basename(part) for part in MADE_OF[ROOT]}
        root = as_root(texts.pop(ROOT), sorted(set(texts) - own_modules))
        for name, text in {**texts, "main": root}.items():
            played.put(os.path.join(own, "src", f"{name}.rt"), text)
        done = played.done(["rt", "try"], cwd=own)
    tally.fails(done.status != 0 and f"status {done.status}: {(done.out + done.err)[-4000:]}")


if __name__ == "__main__":
    played.plays(__doc__, "programs", compiles)
