#!/usr/bin/env python3
"""tests/damaged-scripts.py [--cases COUNT] [--from SEED] [PROGRAM]

Damages scripts of tools/compare, and the same as scripts of `serve` and `table`, in one line, and plays them by the
program. Its command `forms` has to tell the same code. The fault has to stay where all is cut off behind the word that
`forms` tells. Where it is that of a list's item, another item in its place has to have another fault, and none may have
it where the item is left out. `./suites explain` has to find something of the fault, and nothing where another code is
told; of a misspelt word and of a number that is too large it has to name what was done. Prints how many of each kind
were found; status 1 where one was not, where `forms` tells another word, or where too few damages have a fault.
"""
import collections
import random
import re
import tempfile

import played

from common import built, forms
from compare import scenario
from explain import explain
from explain.misfits import WORD

FIRSTS = {command: list(forms.lines_of(command, "own")) for command in forms.COMMANDS}
VERBS = list(forms.OPERATIONS)
BYTES = ["", " ", "\t", "\r", *"#;:/,-09r", "u::", "d:", "m::", "\xc2\xa0", "\0", "9" * 20, "4294967296"]
ITEMS = ["u:1:rwz", "u:4294967296:r", "x:1:r", "u::", "m:rwx", "u:1:r,u:1:r", "g:1", "::"]
# Items that are no entries, each with its fault.
FAULTY = {"z": "A9", "u:4294967296:r": "A11"}
NOT_FOUND = "Was it changed since?"
# Of each kind so many damages have a fault in that line at least, so that a program which takes faulty scripts as good
# ones is told.
LEAST = {"misspelt": 0.97, "too large": 0.97, "dropped": 0.8, "added": 0.95, "bytes": 0.75, "items": 0.7}
# Lines that only scripts of `play` have.
OF_PLAY = tuple(word for word in forms.lines_of("play") if word not in {*forms.lines_of("serve"), "begin"})


def script_of(command: str, seed: int) -> list[str]:
    """A script without a fault, as its lines."""
    lines = scenario.Scenario(seed, 30).script().splitlines()
    if command == "play":
        return lines
    first = {place: line.split()[0] for place, line in enumerate(lines)}
    if command == "table":
        kept = [line for place, line in enumerate(lines) if first[place] in ("root", "user", "group", "begin")]
        return [re.sub(r"^begin \d+ (\d+ \S+) \d+", r"do \1", line) for line in kept]
    kept = [re.sub(r"^sweep \d+", "sweep", line) for place, line in enumerate(lines) if first[place] not in OF_PLAY]
    kept = [re.sub(r"^begin \d+", "do", line) for line in kept]
    return [*kept[: len(kept) // 2], "together", *kept[len(kept) // 2 :]]


def misspelt(dice: random.Random, word: str) -> str:
    """A word with two letters exchanged, a letter too many or one too few."""
    place = dice.randrange(len(word) - 1)
    front, one, two, rest = word[:place], word[place], word[place + 1], word[place + 2 :]
    return front + dice.choice([two + one, one + one + two, two]) + rest


def damaged(dice: random.Random, kind: str, command: str, line: str) -> tuple[str, str]:
    """A line with a damage of this kind, and what has to be said of it; the line itself where it does not fit."""
    words = line.split()
    place, wanted = dice.randrange(len(words)), ""
    if kind == "bytes":
        for _ in range(dice.randint(1, 3)):
            at = dice.randrange(len(line) + 1)
            line = line[:at] + dice.choice(BYTES) + line[at + dice.randint(0, 2) :]
        return line, ""
    if kind == "dropped" and words[place] != ";":
        del words[place]
    elif kind == "added":
        words.insert(place + 1, dice.choice(["extra", "7", "/x"]))
    elif kind == "misspelt" and words[place] in (VERBS if place else FIRSTS[command]):
        bad = misspelt(dice, words[place])
        if bad not in (*VERBS, *FIRSTS["play"], *FIRSTS["serve"]):
            wanted, words[place] = f"'{words[place]}' is near", bad
    elif kind == "too large" and words[0] in ("begin", "step") and command == "play" and len(words) > 2:
        wanted, words[2] = "4294967296 is above", "4294967296"
    elif kind == "items" and words[place].count("::") > 1:
        items = words[place].split(",")
        items[dice.randrange(len(items))] = dice.choice(ITEMS)
        words[place] = ",".join(items)
    return " ".join(words), wanted


class Command:
    """The program, and a command whose scripts it plays."""

    def __init__(self, program: str, command: str) -> None:
        self.program, self.command = program, command

    def printed(self, text: str, command: str, *words: str) -> str:
        return built.asked(command, text, *words, path=self.program)[1].strip("\n")

    def fault_of(self, lines: list[str]) -> str:
        """The fault that the program tells of a script; nothing where it tells none."""
        words = ["--agents", "2"] if self.command == "serve" else []
        told = self.printed("".join(f"{line}\n" for line in lines), self.command, *words)
        return told if told.startswith("fault line ") else ""

    def fault_below(self, above: list[str], words: list[str]) -> str:
        """The fault of a line of these words. With a space behind it a carriage return ends no line."""
        return self.fault_of([*above, " ".join(words) + " "]).removeprefix(f"fault line {len(above) + 1}: ")

    def item_differing(self, above: list[str], words: list[str], number: str, place: str) -> str:
        """What is wrong with the place that `forms` tells of an item of the last of these words; "" if nothing."""
        *front, word = words
        if self.printed(word, "forms", "list", number).split("\t")[0] != place:
            return f"as a list its item {number} is not at {place}"
        before, rest = word[: int(place)], re.sub("^[^,#]*", "", word[int(place) :])
        for other, code in FAULTY.items():
            left = self.fault_below(above, [*front, before + other + rest])
            if left != f"{code} item {number}":
                return f"with {other} at {place} it is {left or 'none'}"
        left = self.fault_below(above, [*front, before + rest])
        return f"without the item at {place} it is {left}" if left.endswith(f" item {number}") else ""

    def differing(self, lines: list[str]) -> str | None:
        """What `forms` tells otherwise of a faulty script: "" where it tells the same; nothing of one without a
        fault.
        """
        fault = self.fault_of(lines)
        if not fault:
            return None
        number, code = fault.removeprefix("fault line ").split(": ")
        above = lines[: int(number) - 1]
        script = "".join(f"{line}\n" for line in lines)
        told = self.printed(script, "forms", self.command, number).split("\t")
        if told[1] != code:
            return f"{fault}: forms tells {told[1]}"
        words = WORD.findall(lines[int(number) - 1]) if int(number) <= len(lines) else []
        if int(told[0]) > len(words):
            return "" if int(told[0]) == len(words) + 1 else f"{fault}: there is no word {told[0]}"
        words = words[: int(told[0])]
        left = self.fault_below(above, words)
        if left != code:
            return f"{fault}: up to word {told[0]} it is {left or 'none'}"
        _, is_item, item = code.partition(" item ")
        wrong = self.item_differing(above, words, item, told[4]) if is_item else told[4].replace("-", "")
        return f"{fault}: {wrong}" if wrong else ""


def tried(program: str, path: str, command: str, lines: list[str], at: int) -> tuple[str, str]:
    """The fault of a damaged script, "" where the program finds none in that line; and what is said wrong of it."""
    own = Command(program, command)
    printed, differing = own.fault_of(lines), own.differing(lines)
    if differing or not printed.startswith(f"fault line {at + 1}:"):
        return "", differing or ""
    played.put(path, "".join(f"{line}\n" for line in lines).encode("latin1"))
    said = " ".join(explain.answer(["--of", command, printed, path]).split())
    another = re.sub(": .*", ": N2" if "N2" not in printed else ": N1", printed)
    is_found = NOT_FOUND in " ".join(explain.answer(["--of", command, another, path]).split())
    return printed, said if NOT_FOUND not in said and is_found else f"NOT FOUND {printed}: {said}"


def tries(tally: played.Tally) -> None:
    given, counts = tally.given, collections.Counter[tuple[str, bool]]()
    with tempfile.NamedTemporaryFile(prefix="suites-") as file:
        for seed in range(given.from_, given.from_ + given.cases):
            dice = random.Random(seed)
            kind, command = dice.choice(sorted(LEAST)), dice.choice(["play", "play", "serve", "table"])
            lines = script_of(command, seed)
            for at in dice.choices(range(len(lines)), k=60):
                line, wanted = damaged(dice, kind, command, lines[at])
                if line != lines[at]:
                    lines[at] = line
                    printed, said = tried(tally.program, file.name, command, lines, at)
                    counts[kind, bool(printed)] += 1
                    is_so = "NOT FOUND" not in said and (wanted in said if printed else not said)
                    tally.holds(is_so, f"seed {seed}, {kind}, of {command}, {line!r}: {printed} {wanted}: {said}")
                    break
    for kind, least in LEAST.items():
        faulty, good = counts[kind, True], counts[kind, False]
        print(f"{kind}: {faulty} of {faulty + good} have a fault")
        tally.holds(faulty and faulty >= least * (faulty + good), kind, "too few have a fault")


if __name__ == "__main__":
    played.plays(__doc__, "damaged scripts", tries, program=None, cases=2000, from_=0)
