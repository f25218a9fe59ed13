#!/usr/bin/env python3
"""tests/votes.py [--words N] [--seed SEED] [PROGRAM]

Compares what `./suites votes` tells with what `play` answers where servers are down, with Gifford's examples, and
faulty words with the codes that `table` and `play` tell. Votes of up to three servers are tried all, where a server is
not listed or has up to two votes; others are chosen by chance, with SEED: N of each number of servers. Of `--script` it
is held which votes a script leaves that moves them, with servers down; of `--of` that each way to share votes is what
is told of these votes. PROGRAM is a build of the program. Status 1 where something differs.
"""
import collections
import fractions
import itertools
import os
import random
import re
import sys
import tempfile
import typing

import played
from played import Tally
from scripting import header, job

from common import built, tool
from votes import shapes, votes

# How many files a script has: the folder with their names is looked at on each path.
FILES = 40
SECTION = re.compile(
    r"(read|write|read and write): \d+ of \d+ votes\n    may be lost +(.*)\n    stopped by +([^:]*)\n    blocked"
    r" +(.*)\n    U5 at first +(.*)\n"
)
# What is told of a read or a write; and how a try ended: of which file, whether a read or a write, with which servers
# down, its home perhaps among them; the word behind `undecided`, or `answered`.
Told = collections.namedtuple("Told", "lost sets more blocked ends_u5")
End = collections.namedtuple("End", "place kind down home_is_down how")
# The chances with which a read and a write are blocked in Gifford's examples, where each server is up with 0.99.
GIFFORD = {"1,0,0/1/1": ["1.0e-2", "1.0e-2"], "2,1,1/2/3": ["2.0e-4", "1.0e-2"], "1,1,1/1/3": ["1.0e-6", "3.0e-2"]}
# Words by their codes, which are those of the rules of scripts; `N:` before one says how many servers there are. The
# last have no fault.
FAULTS: dict[str, tuple[str, ...]] = {
    "S1": ("", "1", "1/1", "1,/1/1", "1/+1/1", "1/1/x", "300,1/0/0", "1/65536/1", "\u0661/1/1", "--,1/1/1"),
    "V1": ("-/1/1", "-,-/0/0"),
    "V2": ("2:1,1,1/9/9", "3:-,-,-,0/1/1"),
    "V4": ("0,0/1/1", "0/0/0"),
    "V5": ("1,1,1/0/3", "1,1,1/2/4", "1,1,1/65535/1"),
    "V6": ("1,1,1/1/2", "1,1,1,1/2/2"),
    "V7": ("1,1,1,1/3/2",),
    "G1": ("0:1/1/1", "33:1/1/1"),
    "": ("1/1/1", "0255/00000000000000000000255/255", "32:1/1/1", f"{','.join('1' * 32)}/16/17", "-,2,1,1/2/3"),
}
# The status of other words.
STATUSES = {0: ("--help", "--of 5"), 1: ("--of 3 --lose-write 2",), 2: ("", "--of 33", "--of 3 1/1/1", "1/1/1 --up 0")}
# A script that moves the votes of a file. The move takes two polls and a fetch of the folder, the same of the file, two
# polls of new servers and four prepares: its twelfth step prepares the last, its thirteenth decides.
MOVING = header(4, 2) + job("file /a 644") + "begin 0 1000 100 0 setvotes /a -,1,1,1/1/3\n"
LEFT = (("step 0 12\ncrash 0\n", "1,1,1/2/2"), ("step 0 13\ncrash 0\ncrash 1\n", "-,1,1,1/1/3"))


def run_tool(*words: str) -> played.Done:
    """The tool, with these words, as a user runs it."""
    return played.done([os.path.join(played.TOP, "suites"), "votes", *words])


def told(word: str, servers: int, up: str) -> dict[str, Told]:
    """What the tool tells of a read and of a write. How many servers there are it is told where the word says less."""
    text = "\n".join(votes.told_of_word(word, servers if word.count(",") + 1 < servers else None, up)) + "\n"
    found = {}
    for kinds, lost, sets, blocked, ends_u5 in SECTION.findall(text):
        shown, _, rest = " ".join(sets.split()).partition(" and ")
        least = [tuple(map(int, one.split(","))) for one in re.findall(r"\{([\d,]+)\}", shown)]
        more = int(rest.split()[0].replace(",", "")) if rest else 0
        for kind in kinds.split(" and "):
            found[kind] = Told(0 if lost == "none" else int(lost.removeprefix("any ")), least, more, blocked, ends_u5)
    return found


def thresholds(total: int) -> list[tuple[int, int]]:
    """The votes that a read and a write may collect."""
    return [(r, w) for w in range(total // 2 + 1, total + 1) for r in range(total - w + 1, total + 1)]


def random_word(servers: int, dice: random.Random) -> str:
    """Valid votes of so many servers, of which some may have none, and the last may not be said."""
    most = dice.choice([1, 2, 3, 9, 255])
    fields = [
        dice.choice(["-", "0", *[str(dice.randint(1, most))] * 5])
        for _ in range(servers - dice.choice([0, 0, 0, servers // 3]))
    ]
    fields[dice.randrange(len(fields))] = str(dice.randint(1, most))
    total = sum(int(field) for field in fields if field != "-")
    w = dice.randint(total // 2 + 1, total)
    return f"{','.join(fields)}/{dice.randint(total - w + 1, total)}/{w}"


def all_words(servers: int) -> typing.Iterator[str]:
    """All valid votes where each server is not listed or has up to two votes."""
    for fields in itertools.product(["-", "0", "1", "2"], repeat=servers):
        total = sum(int(field) for field in fields if field != "-")
        yield from (f"{','.join(fields).rstrip(',-')}/{r}/{w}" for r, w in thresholds(total))


def chance_text(chance: fractions.Fraction) -> str:
    """A chance with two digits."""
    exponent = 0
    while chance and chance < 1:
        chance, exponent = chance * 10, exponent - 1
    digits = round(chance * 10)
    if digits == 100:
        digits, exponent = 10, exponent + 1
    return f"{digits // 10}.{digits % 10}e{exponent:+d}" if chance else "0"


def found_anew(servers: int, ends: dict[frozenset[int], list[str]], up: fractions.Fraction) -> Told:
    """What is to be told, from how the tries ended with each set of servers down: how many may be lost, the least
    sets, both chances.
    """
    blocked = {down: all(how == "U1" for how in hows) for down, hows in ends.items()}
    lost = min(len(down) for down in blocked if blocked[down]) - 1
    least = sorted(
        (len(down), tuple(sorted(down)))
        for down in blocked
        if blocked[down] and not any(blocked[down - {one}] for one in down)
    )
    weight = {down: up ** (servers - len(down)) * (1 - up) ** len(down) for down in blocked}
    none = fractions.Fraction(0)
    never = sum((weight[down] for down in blocked if blocked[down]), none)
    parts = (weight[down] * fractions.Fraction(hows.count("U5"), len(hows)) for down, hows in ends.items())
    ends_u5 = sum(parts, none) / (1 - never)
    sets, more = [some for _, some in least[:20]], max(0, len(least) - 20)
    return Told(lost, sets, more, chance_text(never), chance_text(ends_u5))


def played_with(program: str, servers: int, words: list[str]) -> typing.Iterator[End]:
    """How tries end in a script with files of these votes: with every set of servers down each is read and written as
    often in a row as there are servers, so that each of them is the home once.
    """
    lines = [header(servers, 1, f"{','.join(['1'] * servers)}/1/{servers}")]
    lines += [job(f"file /{place} 666 {word}") for place, word in enumerate(words)]
    tries, count = [], len(words)
    for down in (set(one) for size in range(servers + 1) for one in itertools.combinations(range(servers), size)):
        lines += [f"crash {server}\n" for server in sorted(down)]
        for place, kind, _ in itertools.product(range(len(words)), ("read", "write"), range(servers)):
            tries.append((place, kind, frozenset(down), count % servers in down))
            lines.append(job(f"read /{place}" if kind == "read" else f"write /{place} 00"))
            count += 1
        lines += [f"return {server}\n" for server in sorted(down)]
    status, printed = built.asked("play", "".join(lines), path=program)
    ends = [line.split()[2:] for line in printed.splitlines()]
    if status != 0 or len(ends) != count:
        sys.exit(f"play ends with {status}: {printed[-99:]}")
    for one, how in zip(tries, ends[len(words):]):
        yield End(*one, how[1] if how[0] == "undecided" else how[0])


def every_loss(servers: int, words: list[str], dice: random.Random, tally: Tally) -> None:
    """Compares all that is told of votes with runs in which every set of servers is down."""
    up = dice.choice(["0.99", "0.9", "0.5", "0.995"])
    ends: dict[tuple[int, str], dict[frozenset[int], list[str]]]
    ends = collections.defaultdict(lambda: collections.defaultdict(list))
    for end in played_with(tally.program, servers, words):
        ends[end.place, end.kind][end.down].append(end.how)
        is_so = end.how == "U1" or end.how == ("U5" if end.home_is_down else "answered")
        tally.holds(is_so, words[end.place], end)
    for (place, kind), hows in ends.items():
        found = found_anew(servers, hows, fractions.Fraction(up))
        tally.same(told(words[place], servers, up)[kind], found, words[place], kind)


def check_losses(tally: Tally) -> None:
    """Votes against `play`."""
    dice, count = random.Random(tally.given.seed), tally.given.words
    words = [(servers, list(all_words(servers))) for servers in range(1, 4)]
    words += [(servers, [random_word(servers, dice) for _ in range(count)]) for servers in range(4, 8)]
    for servers, some in words:
        for place in range(0, len(some), FILES):
            every_loss(servers, some[place : place + FILES], dice, tally)


def check_examples(tally: Tally) -> None:
    """The blocking probabilities of three examples that are known; what is told of votes that a script leaves, and of
    ways to share votes.
    """
    for word, chances in GIFFORD.items():
        tell = told(word, 3, "0.99")
        tally.same([tell["read"].blocked, tell["write"].blocked], chances, word, "blocks")
    for rest, word in LEFT:
        with tempfile.NamedTemporaryFile(suffix=".script") as file:
            done = played.done(tool("votes", "--script", played.put(file.name, MOVING + rest)))
        wanted = "/=suite 0, /a=suite 1\n" if word == "1,1,1/2/2" else "/a=suite 1\n"
        wanted = f"votes {word} of {wanted}" + "\n".join(votes.told(votes.votes_of(word, 4), "0.99"))
        tally.holds(done.status == 0 and wanted in done.out, f"{rest!r} leaves /a with {word}", done)
    for servers in range(1, 6):
        for shape in shapes.best(servers, (0, 0), fractions.Fraction("0.99")):
            tell = told(shape.word, servers, "0.99")
            own = [(lost, votes.chance_text(blocked)) for lost, blocked in zip(shape.lost, shape.blocked)]
            jobs = "".join(map(job, ("file /a 644", "write /a 6869", "read /a")))
            printed = built.asked("play", header(servers, 1, shape.word) + jobs, path=tally.program)[1]
            _, write, read = (int(line.split()[1]) for line in printed.splitlines())
            found = [(tell[kind].lost, tell[kind].blocked) for kind in ("read", "write")], (read, write)
            tally.same((own, shape.requests), found, shape.word)


def code_of_program(program: str, word: str, servers: int | None) -> str:
    """The code that the program tells of votes in a script: in the header of `play` where it is said how many servers
    there are, else in `table`.
    """
    script = f"servers {servers}\nagents 1\nvotes {word}\n" if servers else f"root 1 1 777\ndo 1 1 setvotes / {word}\n"
    _, printed = built.asked("play" if servers else "table", script.encode(), path=program)
    found = re.match(r"fault line (\d): (\w+)", printed)
    return found[2] if found and found[2] != "S2" else ""


def check_faults(tally: Tally) -> None:
    """Faulty words: those whose code the rules say, and random ones against the program."""
    dice = random.Random(tally.given.seed)
    for code, words in FAULTS.items():
        for word in words:
            count, _, bare = word.rpartition(":")
            done = run_tool(*(["--servers", count] if count else []), *(["--"] if bare.startswith("--") else []), bare)
            first = done.out.split("\n")[0]
            tally.holds((done.status, first) == (3, f"fault {code}") if code else done.status == 0, word, code, done)
    for status, some in STATUSES.items():
        for text in some:
            tally.same(run_tool(*(text.split(" ") if text else [])).status, status, text)
    for _ in range(200):
        servers = dice.choice([None, dice.randint(1, 4)])
        word = random_word(dice.randint(1, 5), dice)
        for _ in range(dice.choice([0, 1, 1, 2])):
            place, letter = dice.randrange(len(word) + 1), dice.choice(["", "0", "9", "-", "/", ",", "1,", "x"])
            word = word[:place] + letter + word[place + dice.choice([0, 1]) :] or "/"
        try:
            votes.votes_of(word, servers)
            found = ""
        except votes.Fault as fault:
            found = str(fault)
        tally.same(found, code_of_program(tally.program, word, servers), f"{word} with {servers} servers")


if __name__ == "__main__":
    checks = (check_examples, check_losses, check_faults)
    played.plays(__doc__, "examples, tries of play and words", *checks, program=None, seed=1, words=8, most=30)
