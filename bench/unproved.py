#!/usr/bin/env python3
"""bench/unproved.py OUT

Builds the program without proof, to the file OUT, in some two minutes: to measure what a change is worth before it is
proved. Nothing is proved of it, and it is no part of the gate. On a script of 10,000 events it takes as long as the
proved program does, so far as that can be told.

`rt try` makes the module, with checks at run time. tools/front/trial.py takes it while that runs; the checks are struck
out, since the proved program has none, and so is the filling of fresh slots with a pattern, which only `rt try` asks
for; the hints on inlining, which `rt try` drops, are put in again (`inlining.py`); then it is compiled.

Count instructions with `valgrind --tool=callgrind OUT play < SCRIPT`: the count is the same whatever else the machine
does.
"""
import os
import re
import subprocess
import tempfile
import typing

import inlining
from measure import TOP, console, trial

# A check ends in a trap, after which nothing is reached: without the trap the compiler takes the check as passed.
TRAP = re.compile(r"^  call void @llvm\.trap\(\)\n", re.MULTILINE)
PATTERN = re.compile(r"^  call void @llvm\.memset\.p0\.i64\(ptr %r[0-9]+, i8 -86,.*\n", re.MULTILINE)


def build(out: str, amended: typing.Callable[[str], str] = str, also: str = "") -> None:
    """Builds the program to this file, with what is made of its module, as text, and with this file of C."""
    clang = trial.clang()
    with tempfile.TemporaryDirectory() as folder:
        text, made = os.path.join(folder, "module.ll"), os.path.join(folder, "module.o")
        module = trial.module_into(folder, lambda: None)
        subprocess.run(
            [clang, "-O2", "-S", "-emit-llvm", "-Xclang", "-disable-llvm-passes", module, "-o", text], check=True
        )
        with open(text, encoding="utf-8") as given:
            struck = PATTERN.sub("", TRAP.sub("", given.read()))
        roots = [os.path.join(trial.kit(), "rattle"), os.path.join(TOP, "crates")]
        with open(text, "w", encoding="utf-8") as target:
            target.write(amended(inlining.hinted(struck, roots)))
        subprocess.run([clang, "-O2", "-c", text, "-o", made], check=True)
        subprocess.run(["gcc", "-static", "-o", out, made, *([also] if also else []), *trial.libraries()], check=True)


def main() -> None:
    """Builds the program to the file that the command line names."""
    read = console.words(__doc__)
    read.add_argument("out")
    build(read.parse_args().out)


if __name__ == "__main__":
    console.run(main, "stopped")
