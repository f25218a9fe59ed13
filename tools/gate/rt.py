"""Runs the kit's command `rt` with these words, in the folder where it stands: `python3 tools rt check`.

An older kit (13b) looks at a crate anew for each way that leads down to it. From `suites` there are 350,000 ways, so
that a check of a crate high up began after hours, and the gate did not end. Here what rt finds of a crate, the sum of
its files and the crates below it, is kept for as long as the outermost look lasts: it finds the same, and sees a change
between two looks as before. A newer kit does so itself.
"""
import functools
import importlib.machinery
import importlib.util
import os
import shutil
import sys
import threading
import types
import typing

from common import console

Look = typing.Callable[[typing.Any], typing.Any]
# The looks that go down all ways.
LOOKS = ("stamp", "below")


def once(look: Look) -> Look:
    """This look at a crate, which looks at each crate below it once."""
    here = threading.local()

    @functools.wraps(look)
    def looked(crate: typing.Any) -> typing.Any:
        if hasattr(here, "known"):
            if crate not in here.known:
                here.known[crate] = look(crate)
            return here.known[crate]
        here.known = {}
        try:
            return look(crate)
        finally:
            del here.known

    return looked


def is_python(path: str) -> bool:
    with open(path, "rb") as file:
        return b"python" in file.readline()


def loaded(path: str) -> types.ModuleType:
    """The kit's command as a module, with looks that look once."""
    loader = importlib.machinery.SourceFileLoader("rt_of_the_kit", path)
    made = importlib.util.module_from_spec(importlib.util.spec_from_loader(loader.name, loader))
    sys.modules[loader.name] = made
    loader.exec_module(made)
    crate = made.rtlib.Crate
    for name in LOOKS:
        setattr(crate, name, once(getattr(crate, name)))
    return made


def main() -> int:
    path = shutil.which("rt")
    if path is None:
        raise console.Stop("the kit's command rt is not on the path (README.md, Start)")
    if not is_python(path):
        os.execv(path, [path, *sys.argv[1:]])
    return loaded(os.path.realpath(path)).main(sys.argv[1:])
