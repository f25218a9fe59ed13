#!/usr/bin/env python3
"""tests/growth.py [--only NAME] [PROGRAM]

Looks whether some input makes a program slow: each command has inputs of several kinds, in three sizes of which each is
twice the one before, and takes at most 2.3 times as many instructions for twice as much, as valgrind counts them. (A
folder's names are one content that is written whole: so no input of `play` has all its names in one folder.) Prints
what grows more; status 1 where something does.
"""
import random
import typing

import counting
import played
from scripting import Make, header, job, repeated

MOST = 2.3
# A count that is less than this is that of a program which only begins and ends.
LEAST = 600_000
# Inputs that grow more, as is known: a world has with it how each job ended so far.
KNOWN = {"explore-below": 3.0}


def numbered(text: str, before: str = "", numbers: typing.Callable[[int], typing.Iterable[int]] = range) -> Make:
    """A text with each of some numbers in it."""
    return lambda count: before + "".join(text.format(number) for number in numbers(count))


def shuffled(count: int) -> list[int]:
    numbers = list(range(count))
    random.Random(count).shuffle(numbers)
    return numbers


def falling(count: int) -> range:
    return range(count, 0, -1)


def users_to(count: int, perms: str) -> str:
    """Entries of so many users."""
    return ",".join(f"u:{number}:{perms}" for number in range(count))


# ---- acl

BASE = "u::rw,g::r,m::rw,o::r"
USERS = numbered(",u:{}:r", BASE, shuffled)


def both_kinds(count: int) -> str:
    return ",".join([BASE, *(f"{'ug'[number % 2]}:{number * 2654435761 % 2**32}:rx" for number in range(count))])


# ---- table

ROOT, FILES = "root 1 1 777\n", "do 1 1 file /{:06} 666\n"
DEEP = ["".join(f"/{depth}" for depth in range(end)) for end in range(1, 9)]


def many_folders(count: int) -> str:
    made = "".join(f"do 1 1 folder /{number:03} 777\n" for number in range(100))
    return ROOT + made + "".join(f"do 1 1 file /{number % 100:03}/{count - number:06} 666\n" for number in range(count))


def named(count: int) -> str:
    heads = "".join(f"user u{number:05} {number}\n" for number in falling(count))
    return ROOT + heads + f"do 1 1 setacl / u::rwx,u:u{count:05}:r,g::r,m::r,o::r\n"


# ---- play and trace

ALONE, THREE, MADE = header(1, 1, "1/1/1"), header(3, 1), job("file /a 644")
READS = repeated(job("read /a"), THREE + job("file /a 644 ; write /a 6869"))
# A job that a crash leaves behind after some steps.
LEFT = "begin 0 1000 100 0 write {} 00\nstep 0 {}\ncrash 0\nreturn 0\nrun 0\n"


def in_folders(count: int) -> list[str]:
    """Paths of files in a hundred folders."""
    return [f"/{number % 100:02}/{number:06}" for number in shuffled(count)]


def names_made(count: int) -> str:
    made = "".join(job(f"folder /{number:02} 777") for number in range(100))
    return ALONE + made + "".join(job(f"file {path} 644") for path in in_folders(count))


def cached(count: int) -> str:
    made = "".join(job(f"file /{number} 644 ; write /{number} {'00' * 40}") for number in range(64))
    looks = (job(f"read /{number % 64}", site=number % 16) for number in range(count))
    return header(1, 1, "1/1/1", cache="4000 1000 64") + made + "".join(looks)


def many_agents(count: int) -> str:
    begun = "".join(f"begin {agent} 1000 100 0 read /a\n" for agent in range(32))
    steps = "".join(f"step {agent}\n" for agent in range(32))
    return header(1, 32, "1/1/1") + MADE + (begun + steps * 6) * count


def moved_votes(count: int) -> str:
    ways = [f"{','.join(['1'] * 4)}/2/3", f"{','.join(['-'] * 4 + ['1'] * 4)}/2/3"]
    whole = f"{','.join(['1'] * 8)}/4/5"
    jobs = (job(f"setvotes /a {[ways[1], whole, ways[0], whole][number % 4]}") for number in range(count))
    return header(8, 1, ways[0]) + MADE + "".join(jobs)


def left_locks(count: int) -> str:
    paths = [f"/{number % 100:02}/{number:06}" for number in range(count)]
    return names_made(count) + "".join(LEFT.format(path, 2) for path in paths) + job("getvotes /") * count


def silent(count: int) -> str:
    return header(1, 2, "1/1/1") + "begin 0 1000 100 0 list /\n" * count + "run 0\n" + "step 1 3\nrun 1\n" * count


# ---- judge

STOOD = "root 1000 100 755\ndo 1000 100 file /f 606\n"


def called(words: str, reply: str, name: int = 1) -> str:
    return f"call {name} 1000 100 {words}\nret {name} answered {reply}\n"


def calls_in_turn(count: int) -> str:
    turns = (f"{number % 256:02x}" for number in range(count))
    return STOOD + "".join(called(f"write /f {one}", "wrote") + called("read /f", f"read {one}", 2) for one in turns)


def calls_at_once(count: int) -> str:
    begun = "call 1 1000 100 write /f {0}\ncall 2 2000 300 read /f\ncall 3 3000 300 read /f\n"
    told = "ret 2 answered read {1}\nret 1 answered wrote\nret 3 answered read {0}\n"
    turns = [f"{number % 256:02x}" for number in range(count + 1)]
    lines = (begun.format(now) + told.format(now, before) for before, now in zip(turns, turns[1:]))
    return STOOD + "do 1000 100 write /f 00\n" + "".join(lines)


def names_called(count: int) -> str:
    folders = "".join(f"do 1000 100 folder /{number:02} 777\n" for number in range(100))
    return STOOD + folders + "".join(called(f"file {path} 644", "made") for path in in_folders(count))


# ---- serve, explore and may

SERVED = header(3, None, cache="1000 1000 16") + "do 1000 100 0 file /a 644\n"
TOGETHER = "together\nbegin 0 1000 100 0 write /a 00\nbegin 1 1000 100 0 read /a\n"
TWO, MANY = header(2, 2, "1,1/1/2") + MADE, header(3, 64) + MADE + "together\n"
QUESTION = "1000 100 1001 {} r {}\n"
SAME = QUESTION.format(7, "u::r,g::r,o::r")


def served_names(count: int) -> str:
    made = [f"folder /{number:02} 777" for number in range(100)]
    made += [f"file {path} 644" for path in in_folders(count)]
    return header(1, None, "1/1/1") + "".join(f"do 1000 100 0 {words}\n" for words in made)


def content_above(count: int) -> str:
    return TWO + job(f"write /a {'ab' * count}") + TOGETHER


def files_above(count: int) -> str:
    made = "".join(job(f"file /{number} 644") for number in range(count))
    return TWO + made + TOGETHER


def below_many(count: int) -> str:
    return MANY + "".join(f"begin {number % 64} 1000 100 0 read /a\n" for number in range(count))


def waiting(count: int) -> str:
    places = [f"{1 + number % 63}.{number // 63}" for number in range(count)]
    jobs = (f"begin {place.split('.')[0]} 1000 100 0 read /a\n" for place in places)
    waits = ["", *(f"after {place} " for place in places)]
    return MANY + "".join(wait + begun for wait, begun in zip(waits, jobs))


def long_questions(count: int) -> str:
    return QUESTION.format(",".join(map(str, range(33))), f"u::rw,g::r,m::rw,o::r,{users_to(120, 'r')}") * count


Input = tuple[str, list[str], Make, int]


def of_command(command: str, *rows: tuple[str, Make, int], words: typing.Sequence[str] = ()) -> list[Input]:
    """The inputs of a command, which has these words."""
    return [(f"{command}-{name}", [command, *words], make, size) for name, make, size in rows]


def of_words(command: str, *rows: tuple[str, str, Make, int]) -> list[Input]:
    """The inputs of a command that has other words for each."""
    return [(f"{command}-{name}", [command, *words.split()], make, size) for name, words, make, size in rows]


PLAYED = (
    ("reads", READS, 100), ("writes", repeated(job(f"write /a {'00' * 64}"), THREE + MADE), 100),
    ("names-made", names_made, 200), ("cached", cached, 200),
    ("denied", repeated("begin 0 7 7 0 list /\nrun 0\n", header(1, 1, "1/1/1", "1000 100 700"), "audit 0\n"), 200),
    ("failing", repeated("crash 1\n" + job("read /a") + "return 1\n", THREE + MADE), 50),
    ("swept", repeated(LEFT.format("/a", 3) + "sweep 0 0\nrun 0\n", ALONE + MADE), 50),
    ("many-agents", many_agents, 5), ("moved-votes", moved_votes, 40),
    ("lists-set", repeated(job(f"setacl /a u::rwx,g::rwx,m::rwx,o::rwx,{users_to(100, 'rwx')}"), ALONE + MADE), 20),
    ("silent", silent, 1000), ("faulty", lambda count: READS(count) + "nope\n", 300), ("left-locks", left_locks, 60),
)  # fmt: skip
LISTED = LEFT.format("/a", "2\nlocks") + "copies /a\n"
SESSION = (
    *PLAYED[:2], ("rows", repeated("row /a\ncontent /a\nroom\n", ALONE + job("file /a 644 ; write /a 6869")), 200),
    ("refused", repeated("nope\n" + job("read /a"), ALONE + MADE), 100),
    ("locks", repeated(LISTED, ALONE + MADE), 50), ("blanks", repeated(" ", ALONE, "\n"), 100_000),
    ("no-line-end", repeated("x"), 200_000),
)  # fmt: skip
INPUTS: tuple[Input, ...] = (
    *of_command(
        "acl", ("users", USERS, 1000), ("both-kinds", both_kinds, 1000),
        ("defaults", numbered(",d:u:{}:r", BASE, falling), 1000), ("one-user", repeated(",u:7:r", BASE), 1000),
        ("entries", repeated("user:1:rw-\t#effective:r--\n", after="user::rw-\n"), 1000),
        ("remarks", repeated("# owner: lisa\n", after="user::rw-\ngroup::r--\nother::---\n"), 4000),
        ("blank-lines", repeated("\n"), 100_000), ("blanks", repeated(" ", "u::r", "\ng::r\no::r\n"), 100_000),
        ("colons", repeated(":"), 100_000), ("commas", repeated(",", BASE), 50_000), ("tabs", repeated("\t\n"), 50_000),
        ("long-name", repeated("a", "u:", ":r"), 100_000), ("remark", repeated("x", "#", "\nu::r\n"), 400_000),
    ),
    *of_command(
        "table", ("names-rise", numbered(FILES, ROOT), 1000), ("names-fall", numbered(FILES, ROOT, falling), 1000),
        ("names-mixed", numbered(FILES, ROOT, shuffled), 1000), ("many-folders", many_folders, 1000),
        ("made-and-dropped",
         repeated("do 1 1 file /a 666 ; write /a 00 ; drop /a ; file /a 600 ; drop /a\n", ROOT), 500),
        ("named", named, 1000),
        ("deep", repeated(f"do 1 1 {' ; '.join(f'list {path}' for path in DEEP)}\n",
                          ROOT + "".join(f"do 1 1 folder {path} 777\n" for path in DEEP)), 100),
        ("long-list", repeated(f"do 1 1 setacl / u::rwx,g::rwx,m::rwx,o::rwx,{users_to(120, 'rwx')} ; getacl /\n"
                               "do 7 7 list /\n", ROOT), 20),
        ("contents", repeated(f"do 1 1 write /a {'ab' * 3000} ; read /a\n", ROOT + "do 1 1 file /a 666\n"), 20),
        ("content", repeated("ab", ROOT + "do 1 1 file /a 666 ; write /a ", " ; read /a\n"), 30_000),
        ("returns", repeated("\r", ROOT, "\n"), 100_000), ("remarks", repeated("#\n", ROOT), 50_000),
        ("semicolons", repeated(" ;", ROOT + "do 1 1 list /", "\n"), 90_000), ("no-line-end", repeated("x"), 200_000),
        ("votes", repeated("1,", ROOT + "do 1 1 setvotes / ", "1/1/1\n"), 50_000),
        ("bytes-0", repeated("\0", ROOT + "do 1 1 list /", "\n"), 100_000),
        ("list-commas", repeated(",", ROOT + "do 1 1 setacl / ", "\n"), 100_000),
        ("fault-at-the-end", repeated("do 1 1 list / ; getacl / ; getvotes /\n", ROOT, "nope\n"), 500),
    ),
    *of_command("play", *PLAYED),
    *of_command(
        "serve", ("reads", repeated("do 1000 100 0 read /a\n", SERVED), 100),
        ("writes", repeated("do 1000 100 0 write /a 00\n", SERVED), 60), ("names", served_names, 200),
        ("sweeps", repeated("sweep 0\n", SERVED), 200), words=("--agents", "1"),
    ),
    *of_command("trace", *((name, make, max(4, size // 4)) for name, make, size in PLAYED)),
    *of_words(
        "explore", ("above", "", repeated(job("write /a 01"), TWO, TOGETHER), 20),
        ("content-above", "", content_above, 2000), ("files-above", "", files_above, 20),
        ("below", "", repeated("begin 0 1000 100 0 read /a\n", ALONE + MADE + "together\n"), 10),
        ("drawn", "--sample 1", below_many, 128), ("waiting", "--sample 1", waiting, 256),
        ("read-waiting", "--worlds 1", waiting, 1000),
    ),
    *of_command("session", *SESSION, words=("--marks",)),
    *of_command(
        "judge", ("in-turn", calls_in_turn, 200), ("at-once", calls_at_once, 100), ("names", names_called, 400),
        ("contents", repeated(called(f"write /f {'ab' * 2000}", "wrote"), STOOD), 50),
        ("denied", repeated("call 1 7 7 file /x 600\nret 1 denied\n", STOOD), 400),
        ("no-order", lambda count: calls_in_turn(count) + called("read /f", "read ffff"), 200),
        ("faulty", lambda count: calls_in_turn(count) + "nope\n", 200), ("remarks", repeated("#\n", STOOD), 50_000),
        ("no-line-end", repeated("x"), 200_000),
    ),
    # two words: a command, and a line of its script
    *of_words(
        "forms", ("script", "script 1", READS, 20_000), ("play", "play 1000000", READS, 1000),
        ("list", "list 0", USERS, 500), ("item", "list 700", USERS, 1000),
        ("table", "table 1000000", numbered(FILES, ROOT), 2000), ("list-commas", "list 0", repeated(","), 20_000),
        ("long-line", "script 1", repeated("x"), 50_000),
    ),
    *of_command(
        "may", ("questions", numbered(QUESTION.format(7, "u::rw,u:{}:r,g::r,m::r,o::-")), 500),
        ("same", repeated(SAME), 500), ("long", long_questions, 20),
        ("blanks", repeated(" ", "1 1 1 1 r", "u::r,g::r,o::r\n"), 50_000),
        ("fault-at-the-end", repeated(SAME, "", "nope\n"), 500), ("no-line-end", repeated("1"), 400_000),
    ),
)  # fmt: skip


def grows(tally: played.Tally, name: str, counts: list[int]) -> None:
    """Holds counts against one another; one that is too small says nothing."""
    most = max(after / before for before, after in zip(counts, counts[1:]))
    told = f"{name}: {', '.join(f'{count:,}' for count in counts)}: {most:.2f} times"
    tally.holds(counts[0] >= LEAST and most <= KNOWN.get(name, MOST), told)


def inputs(tally: played.Tally) -> bool | None:
    if counting.is_skipped():
        return True
    for name, words, make, size in INPUTS:
        if name.startswith(tally.given.only):
            asked = [tally.program, *words]
            grows(tally, name, [counting.instructions(asked, make(size * times)) for times in (1, 2, 4)])
    return None


if __name__ == "__main__":
    played.plays(__doc__, "inputs", inputs, program=None, only="")
