"""Chooses the program that `./suites` runs, and prints of what kind it is and where.

`proved`: it was proved and built of this code with these claims (prove.py). `checked`: it was compiled of the
same code without a proof, with its checks at run time, which is done here where it is wanting. `first`: so was a
program of the commands that `./suites` starts itself, which is built sooner; with the word --first alone. `trial`: the
kit gives no such build, so `rt try` is run each time. The choice is kept in out/choice.sh with all files that it was
made from, so that `./suites` makes it again only where one of them has changed. With the word --is-fresh: status 0
where the proved program is that of these sources, and their proofs are those that proved it. With --version: tells the
version, the commit, the kit, and the kinds of builds that would run; builds nothing.
"""
import json
import os
import re
import shlex
import subprocess
import typing

from common import TOP, built, console, crates, text_of
from front import sources, trial

CHOICE = built.kept("choice.sh")
PROGRAMS = {
    "proved": f"crates/{sources.PROGRAM}/out/{sources.PROGRAM}",
    "checked": f"out/{sources.PROGRAM}",
    "first": f"out/{sources.FIRST}",
    "trial": "tools/front/trial.sh",
}
STOPPED = "stopped; there is no checked build yet"


def path_of(kind: str) -> str:
    return os.path.join(TOP, PROGRAMS[kind])


def record_of(kind: str, now: sources.Sources, kit: sources.Kit) -> dict[str, str | None]:
    """What is kept of a build: the sources and the kit that it was made with, and the program's own sum."""
    return {
        "sources": now.claims if kind == "proved" else now.code,
        "proofs": now.all if kind == "proved" else None,
        "kit": kit.name,
        "program": "which this kit does not hand out" if kind == "trial" else sources.sum_of(path_of(kind)),
    }


def record_path(kind: str) -> str:
    return built.kept(f"{kind}.json")


def keep_record(kind: str, now: sources.Sources, kit: sources.Kit) -> None:
    sources.write_whole(record_path(kind), json.dumps(record_of(kind, now, kit)))


def is_fresh(kind: str, now: sources.Sources, kit: sources.Kit, with_proofs: bool = False) -> bool:
    """Whether a build of this kind is there, and is that of these sources. With no kit at hand it may be of any.

    What was proved stays so where a proof is written anew: that the proofs too are those of the build is wanted only
    where that is asked.
    """
    kept = sources.read_json(record_path(kind))
    wanted = record_of(kind, now, kit)
    if not with_proofs:
        wanted["proofs"] = kept.get("proofs")
    if not kit.name:
        wanted["kit"] = kept.get("kit")
    return kept == wanted and os.path.exists(path_of(kind))


def fresh_kind(now: sources.Sources, kit: sources.Kit, first: bool) -> str | None:
    return next((kind for kind in PROGRAMS if (first or kind != "first") and is_fresh(kind, now, kit)), None)


def keep_choice(kind: str, now: sources.Sources, kit: sources.Kit, begun: int) -> None:
    """Keeps the choice, as if written when the files began to be read. Where it cannot be kept it is made anew each
    time.

    A checked build is made of the code alone. Its claims are looked at only where a proved program is there, which may
    become the one of these sources again.
    """
    is_proved = kind == "proved" or os.path.exists(path_of("proved"))
    looked = [crates.LIST, *now.looked_at(is_proved), PROGRAMS[kind]]
    if kit.command:
        looked.append(os.path.realpath(kit.command))
    kept = {
        "kind": kind,
        "program": PROGRAMS[kind],
        "rt": kit.command,
        "searched": os.environ.get("PATH", ""),
        "files": "\n".join(looked),
    }
    sources.write_whole(CHOICE, "".join(f"{name}={shlex.quote(value)}\n" for name, value in kept.items()), begun)


def choose(first: bool = False) -> str | None:
    """The kind of build that these sources have; keeps the choice."""
    begun = sources.time_of_files()
    now, kit = sources.Sources(), sources.Kit()
    kind = fresh_kind(now, kit, first)
    if kind and begun:
        keep_choice(kind, now, kit, begun)
    return kind


def build(first: bool) -> None:
    """Makes the checked build, or finds that this kit gives none."""
    teller = console.Teller()
    sources.Kit().wanted()
    sources.make_folder()
    with console.alone(built.kept("checked.lock"), teller) as has_waited:
        if has_waited and choose(first):
            return
        teller = console.Teller()
        now, kit = sources.Sources(), sources.Kit()
        kind, name, time = ("first", sources.FIRST, "two") if first else ("checked", sources.PROGRAM, "three")
        teller.say(f"the program of these sources is not built yet: making a checked build of it, some {time} minutes")
        part = f"{path_of(kind)}.part"
        try:
            trial.build(part, lambda: teller.say(f"checked build, {teller.seconds()} s", False), name)
            os.replace(part, path_of(kind))
            teller.say(f"built in {teller.seconds()} s")
        except trial.Hidden:
            kind = "trial"
        keep_record(kind, now, kit)


def commit() -> str:
    """The commit of these sources, and whether they differ from it; nothing where that is not known."""
    if not os.path.exists(os.path.join(TOP, ".git")):
        return ""
    words = ["git", "-C", TOP, "describe", "--always", "--abbrev=12", "--exclude=*", "--dirty= with changes"]
    try:
        return subprocess.run(words, stdin=subprocess.DEVNULL, capture_output=True, text=True).stdout.strip()
    except FileNotFoundError:
        return ""


def version() -> typing.Iterator[str]:
    """What there is to tell of this version, a line each."""
    yield f"suites {re.search('^## (.*)', text_of('CHANGELOG.md'), re.M)[1]}"
    named = commit()
    if named:
        yield f"commit {named}"
    kit = sources.Kit()
    is_there = "which is on the path" if sources.KIT_LOGIC in kit.name.split() else "which is not on the path"
    yield f"kit logic {sources.KIT_LOGIC}, {is_there}"
    kind = any(map(os.path.exists, map(record_path, PROGRAMS))) and fresh_kind(sources.Sources(), kit, True)
    yield (
        f"build {kind}, {PROGRAMS[kind]}"
        if kind
        else "build none yet; what plays a script makes a checked one first, in some two minutes"
    )


def main() -> int:
    read = console.words(__doc__)
    form = read.add_mutually_exclusive_group()
    form.add_argument("--version", action="store_true")
    form.add_argument("--is-fresh", action="store_true")
    form.add_argument("--first", action="store_true")
    given = read.parse_args()
    if given.version:
        print("\n".join(version()))
        return 0
    if given.is_fresh:
        return 0 if is_fresh("proved", sources.Sources(), sources.Kit(), True) else 1
    kind = choose(given.first)
    while not kind:
        build(given.first)
        kind = choose(given.first)
    print(kind, PROGRAMS[kind])
    return 0
