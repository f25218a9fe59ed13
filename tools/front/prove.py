"""Proves and builds the program, and says on standard error how far it is. `./suites --prove` calls it.

The crates that the program stands on are proved, and the laws of all runs, side by side where they do not stand on
each other. What is proved stays in each crate's out/, so a build that was interrupted goes on where it was. Two
builds at once wait for each other. Status 0: the program is there; 1: it is not.
"""
import os
import select
import subprocess

from common import console, crates, of_kit
from front import choose, sources

PROGRAM = sources.PROGRAM
FOLDER = os.path.join(sources.CRATES, PROGRAM)
# The topmost crates of laws: those of all runs, and of what is certified, stand in them and below.
LAWS = ("law_run_recovers", "law_certified")
BYTES_A_CHECK = 4 << 30
STOPPED = "stopped; what is proved is kept, and ./suites --prove goes on from there"


def seats() -> int:
    cores = len(os.sched_getaffinity(0))
    try:
        memory = os.sysconf("SC_PHYS_PAGES") * os.sysconf("SC_PAGE_SIZE")
    except (ValueError, OSError):
        memory = BYTES_A_CHECK
    return max(1, min(cores, memory // BYTES_A_CHECK))


def step(teller: console.Teller, done: int, count: int, last: str, stays: bool) -> None:
    name, taken = f"; the last was {last}" if last else "", teller.seconds()
    left = f", some {taken * (count - done) // done // 60 + 1} min left" if teller.changes and 0 < done < count else ""
    teller.say(f"{done} of {count} crates proved, {taken} s{left}{name}", stays and not teller.changes)


def prove(top: str, needs: dict[str, list[str]], teller: console.Teller) -> tuple[str, str] | None:
    """Proves a crate and those below it, side by side where they do not stand on each other. Answers the crate that
    failed, and what it printed.

    `rt all` in a crate's folder takes that crate and those below it. (An `rt check` for each would not run side by
    side: each keeps all others out of the crates below its own.)
    """
    said, name, rest = {"": ""}, "", b""
    process = console.start(
        of_kit("all", "check", "--jobs", str(seats())), os.path.join(sources.CRATES, top), subprocess.PIPE
    )
    try:
        while True:
            step(teller, len(needs.keys() & said), len(needs), name, False)
            if not select.select([process.stdout], [], [], 0.5)[0]:
                continue
            read = os.read(process.stdout.fileno(), 1 << 16)
            *lines, rest = (rest + read).split(b"\n")
            for line in (one.decode("utf-8", "replace") for one in lines):
                title = line[3:] if line.startswith("== ") else None
                if title == "summary" or title in needs:
                    # a crate's text comes when it has ended
                    name = title
                    said[name] = ""
                    step(teller, len(needs.keys() & said), len(needs), name, title in needs)
                else:
                    said[name] += line + "\n"
            if not read:
                break
        process.wait()
    finally:
        console.stop(process)
    if process.returncode == 0:
        return None
    summary = said.get("summary", said[""])
    failed = [one for one in needs if one in said and f"{one}: ok\n" not in summary]
    return (failed[0], console.tail(said[failed[0]])) if failed else (top, console.tail(summary))


def prove_laws(teller: console.Teller) -> tuple[str, str] | None:
    """Proves the laws of all runs: the program uses some, and a caller may want the others."""
    each = (prove(top, crates.below([top], crates.listed()), teller) for top in LAWS)
    return next((failed for failed in each if failed), None)


def build(needs: dict[str, list[str]], teller: console.Teller) -> tuple[str, str] | None:
    """Proves, compiles and links the program itself. Answers its name and what it printed, where that failed."""
    # rt run also runs what it built; here that prints the program's help into the log
    tick = lambda: step(teller, len(needs), len(needs), PROGRAM, False)
    status, said = console.watched(of_kit("run", "--", "--help"), FOLDER, tick)
    is_built = status == 0 and os.path.exists(choose.path_of("proved"))
    return None if is_built else (PROGRAM, console.tail(said))


def main() -> int:
    read = console.words(__doc__)
    read.usage = "./suites --prove"
    read.parse_args()
    kit = sources.Kit()
    kit.wanted()
    sources.make_folder()
    with console.alone(os.path.join(sources.KEPT, "prove.lock"), console.Teller()):
        teller, now = console.Teller(), sources.Sources()
        if choose.is_fresh("proved", now, kit, True):
            teller.say("the program of these sources is proved and built")
            return 0
        teller.say(f"proving and building {len(now.crates)} crates, once (docs/PERFORMANCE.md says how long it takes)")
        failed = prove(PROGRAM, now.crates, teller) or prove_laws(teller) or build(now.crates, teller)
        if failed:
            name, text = failed
            raise console.Stop(f"the crate {name} is not proved or not built:\n{text.rstrip()}")
        if sources.Sources().all != now.all:
            raise console.Stop(
                "a source was changed while it was proved: run ./suites --prove again, which goes on from here"
            )
        choose.keep_record("proved", now, kit)
        choose.choose()
        teller.say(f"proved and built in {teller.seconds()} s")
    return 0
