"""The bounds of the gate, and what passes them.

docs/gate-bounds.csv has for each step the processor seconds that it may take, with the reason where these are not a
quarter more than it took: for each crate's proof, for its tests (`NAME tests`), for the `wrong bodies` of a run, for
`all else`, and for `all`, a run from nothing. They are those of a machine on which the kit proves its own example
in the seconds of the line `kit`. As many copies of that as there will be lanes are timed first, so that processors
which share a core are seen as they will be, and all bounds are scaled by the mean of them. Where a bound is passed,
they are timed once more, and the slower time counts: then it has to be passed still.

Counted is what a run proved, where the rest was kept: each step against its own bound, and the sum of those of crates
against the sum of theirs. As other work went on beside it, four copies took 11.9 and 14.6 s in the mean within two
minutes, and `byte_streams` 46 s once and 60 where the copies took 14.5: a fifth and three tenths more. So a bound is a
quarter above what was seen, and one step alone may be a quarter (and some seconds) above that; the sum of them, in
which chance evens out, may not, and neither may a run from nothing be above the bound of all.
"""
import csv
import io
import os
import shutil
import subprocess
import tempfile
import typing

from common import TOP, console, crates

PATH = os.path.join(TOP, "docs", "gate-bounds.csv")
KIT, TESTS, BODIES, ELSE, ALL = "kit", " tests", "wrong bodies", "all else", "all"
OF_ALL = KIT, BODIES, ELSE, ALL
HEAD, GUESS = ("step", "seconds", "reason"), "a guess"
# The example of the kit that is timed: a library that never changes.
EXAMPLE = "start_lib"
# What one step alone may be above its bound, which times of one that takes little do not tell by themselves.
ALONE, LEAST = 1.25, 10

# Processor seconds by step; and of each bound its seconds and reason.
Times = dict[str, float]
Bounds = dict[str, tuple[float, str]]


def kept(path: str = PATH) -> Bounds:
    with open(path, newline="", encoding="utf-8") as file:
        return {row["step"]: (float(row["seconds"]), row["reason"]) for row in csv.DictReader(file)}


def seconds_of_kit(copies: int) -> float:
    """Processor seconds in which the kit proves its example from nothing, the mean of copies that run side by side."""
    home = subprocess.run(["rt", "doc"], stdin=subprocess.DEVNULL, capture_output=True, text=True).stdout.strip()
    example = os.path.join(os.path.dirname(home), "rattle", "examples", EXAMPLE)
    spent, well = 0.0, True
    with tempfile.TemporaryDirectory(prefix="suites-") as room:
        started = []
        for number in range(copies):
            top = os.path.join(room, str(number))
            left = shutil.ignore_patterns("BUILD.bazel", "*.md", "out")
            shutil.copytree(example, os.path.join(top, "crates", EXAMPLE), ignore=left)
            for name, text in ((crates.LIST, f"{EXAMPLE}:\n"), ("HANDLES", "Handles allowed: none.\n")):
                with open(os.path.join(top, name), "w", encoding="utf-8") as file:
                    file.write(text)
            words = ["rt", "ci", "--anew"]
            alone = {**os.environ, "RT_JOBS": "1"}
            started.append(console.start(words, top, subprocess.DEVNULL, env=alone))
        for one in started:
            _, status, used = os.wait4(one.pid, 0)
            one.returncode = os.waitstatus_to_exitcode(status)
            spent, well = spent + used.ru_utime + used.ru_stime, well and one.returncode == 0
    if not well:
        raise console.Stop(f"the kit does not prove its own example {EXAMPLE}: rt selftest tells more")
    return spent / copies


def is_whole(times: Times) -> bool:
    """Whether these are the times of a run that proved every crate."""
    return all(name in times for name in crates.listed())


def passed(times: Times, most: Bounds, slower: float) -> list[str]:
    """Which bounds are passed on a machine that is so much slower than theirs, each as a sentence."""
    bounded = {step: most[step][0] * slower for step in times if step in most}
    found = [f"{step} has no bound in docs/gate-bounds.csv: it took {times[step]:.0f} s" for step in times
             if step not in bounded]
    alone = {step: ALONE * bound + LEAST for step, bound in bounded.items()}
    found += [too_much(step, times[step], bound) for step, bound in alone.items() if times[step] > bound]
    of_crates = [step for step in bounded if step not in OF_ALL]
    these, theirs, whole = sum(map(times.get, of_crates)), sum(map(bounded.get, of_crates)), sum(times.values())
    if these > theirs + LEAST:
        found.append(too_much("what this run proved", these, theirs))
    if is_whole(times) and whole > most[ALL][0] * slower:
        found.append(too_much("a run from nothing", whole, most[ALL][0] * slower))
    return found


def too_much(what: str, seconds: float, bound: float) -> str:
    return f"{what} took {seconds:.0f} s of processor time, and may take {bound:.0f}"


def lines(times: Times, most: Bounds, slower: float) -> typing.Iterator[str]:
    """What each step took and may take, the dearest first, and all of them."""
    yield f"  {'seconds':>8}{'bound':>8}  step"
    rows = sorted(times.items(), key=lambda row: (-row[1], row[0]))
    for step, seconds in [*rows, (ALL, sum(times.values()))]:
        bound = f"{most[step][0] * slower:8.0f}" if step in most and (step != ALL or is_whole(times)) else f"{'-':>8}"
        yield f"  {seconds:8.0f}{bound}  {step}"


def renewed(times: Times, before: Bounds) -> str:
    """The file of bounds anew: a quarter more than each step took. What was not seen stays, and what has a reason that
    is no guess.
    """
    text = io.StringIO()
    table = csv.writer(text, lineterminator="\n")
    table.writerow(HEAD)
    names = {step for step in before if step in OF_ALL or step.removesuffix(TESTS) in crates.listed()}
    for step in sorted(names | set(times)):
        bound, reason = before.get(step, (0.0, ""))
        if step in times and (not reason or GUESS in reason):
            bound, reason = -(-times[step] * 5 // 40) * 10, ""
        table.writerow((step, f"{bound:g}", reason))
    return text.getvalue().rstrip("\n")
