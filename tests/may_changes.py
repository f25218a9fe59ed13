"""Questions about changes of lists for tests/may-against-the-kernel.py: setfacl makes each change, which is tried
before and after by users, and taken back.
"""
import dataclasses
import os
import re
import subprocess
from typing import Iterable, Iterator

import kernel_trees as trees
from asked_may import accounts, forget, may, unquoted
from kernel_trees import ACCESS, DEFAULT, GRANTED, GROUP, MASK, OTHER, OWNER, OWNING, USER, Dice, Tree, User, letters

BITS = (4, 2, 1)
# User, path and permission.
Power = tuple[str, str, int]
WORDS = {OWNER: "user::", USER: "user:", OWNING: "group::", GROUP: "group:", MASK: "mask::", OTHER: "other::"}
IS_SNAPSHOT = re.compile(r"/(?:k|s)(?:/|$)")


@dataclasses.dataclass
class Count:
    """How much was asked, what of it differs, and what was told as not judged."""

    asked: int = 0
    wrong: int = 0
    left: int = 0

    def add(self, other: "Count") -> None:
        self.asked, self.wrong, self.left = self.asked + other.asked, self.wrong + other.wrong, self.left + other.left

    def differs(self, about: str, told: object, linux: object, lines: list[str]) -> None:
        print(f"{about}: may says {told}, Linux {linux}", *lines, sep="\n  ", flush=True)
        self.wrong += 1


def powers(users: list[User], paths: list[str]) -> set[Power]:
    """What users may, of some paths."""
    found = set()
    for user in users:
        asked = [(path, bit) for path in paths for bit in BITS]
        found |= {
            (user.name, path, bit) for (path, bit), said in zip(asked, trees.tried(user, asked)) if said == GRANTED
        }
    return found


def kept(path: str) -> tuple[int, bytes | None, bytes | None]:
    """The mode and the lists of a path."""
    have = os.listxattr(path)
    values = [os.getxattr(path, which) if which in have else None for which in (ACCESS, DEFAULT)]
    return os.stat(path).st_mode & 0o7777, values[0], values[1]


def put_back(path: str, state: tuple[int, bytes | None, bytes | None]) -> None:
    mode, *values = state
    for which, value in zip((ACCESS, DEFAULT), values):
        if which in os.listxattr(path):
            os.removexattr(path, which)
        if value is not None:
            os.setxattr(path, which, value)
    if values[0] is None:
        os.chmod(path, mode)


def setfacl(words: list[str], path: str) -> bool:
    done = subprocess.run(["setfacl", *words, "--", path], stderr=subprocess.PIPE, text=True)
    return done.returncode == 0


def text_of(entries: Iterable[tuple[int, int, int]]) -> str:
    """A list as `may` tells it."""
    told = []
    for tag, perms, one in sorted(entries, key=lambda entry: (entry[0], entry[2])):
        named = "nobody" if tag == USER and one == 65534 else str(one)
        told.append(WORDS[tag] + (f"{named}:" if tag in (USER, GROUP) else "") + letters(perms))
    return ",".join(told)


def list_of(path: str) -> str:
    """The list of a file, or that of its mode, as `may` tells it."""
    mode = os.lstat(path).st_mode
    of_mode = [(OWNER, mode >> 6 & 7, 0), (OWNING, mode >> 3 & 7, 0), (OTHER, mode & 7, 0)]
    return text_of(trees.unpacked(path) or of_mode)


def an_entry(dice: Dice, is_put: bool) -> str:
    """An entry that is put, or one that is taken away."""
    named = [f"u:{dice.choice(trees.UIDS)}", f"g:{dice.choice(trees.GIDS)}"]
    text = dice.choice(named + ["m:", "u:", "g:", "o:"] * is_put)
    return text + f":{letters(dice.perms())}" * is_put


def moved_in(lines: Iterable[str]) -> set[tuple[str, str, int]]:
    """Who gains and loses what, as it is told: words, a name and a permission."""
    found = set()
    for line in lines:
        match = re.fullmatch(r" *(gains|loses) ([rwx]+): (.*)", line)
        for name in match[3].split(", ") if match else ():
            found |= {(match[1], name, bit) for bit in BITS if letters(bit).strip("-") in match[2]}
    return found


def moved(before: set[Power], after: set[Power], path: str) -> set[tuple[str, str, int]]:
    """The same as it was tried."""
    of_it = [{(name, bit) for name, one, bit in some if one == path} for some in (before, after)]
    return {("gains", *one) for one in of_it[1] - of_it[0]} | {("loses", *one) for one in of_it[0] - of_it[1]}


def users_of(dice: Dice, count: int) -> list[User]:
    return [dice.user()._replace(name=f"n{number}") for number in range(count)]


def loosened(tree: Tree) -> None:
    """Takes attributes away, with which no list can be changed."""
    subprocess.run(["chattr", "-R", "-i", "-a", tree.top], stderr=subprocess.DEVNULL)
    forget()


def can_change(path: str) -> bool:
    """Whether a path is there, no link, and may be changed."""
    return not os.path.islink(path) and os.path.exists(path) and not IS_SNAPSHOT.search(os.path.realpath(path))


def ask_changes(dice: Dice, tree: Tree, until: int, count: Count) -> None:
    """Who gains and who loses?"""
    loosened(tree)
    while count.asked < until:
        path, is_put, computes = dice.choice(tree.paths), dice.random() < 0.6, dice.random() < 0.7
        count.asked += 1
        if not can_change(path):
            continue
        users, text = users_of(dice, 6), an_entry(dice, is_put)
        with accounts(users):
            told = may(["--with" if is_put else "--without", text, *([] if computes else ["--no-mask"]), "--", path])
        if told.status != 0:
            count.left += "not judged" in told.lines[0]
            continue
        before, state = powers(users, [path]), kept(path)
        if not setfacl([*([] if computes else ["-n"]), "-m" if is_put else "-x", text], path):
            continue
        after, now = powers(users, [path]), list_of(path)
        put_back(path, state)
        wanted = moved(before, after, path)
        if moved_in(told.lines) != wanted or now != told.lines[0].rpartition("  would be  ")[2]:
            count.differs(f"{text} {path!r}", f"{moved_in(told.lines)}", f"{wanted}, {now}", told.lines)
        count.asked += len(users) * 3


def below(top: str) -> list[str]:
    """What lies under a folder, and no link."""
    found = [top]
    for place, folders, files in os.walk(top):
        found += [os.path.join(place, name) for name in [*folders, *files]]
    return [path for path in found if not os.path.islink(path)]


def has_entry(path: str, text: str) -> bool:
    tag = {"u": USER, "g": GROUP}[text[0]]
    return any(one[0] == tag and one[2] == int(text.split(":")[1]) for one in trees.unpacked(path))


def ask_trees(dice: Dice, tree: Tree, until: int, count: Count) -> None:
    """Who gains and who loses by a change of each list of a tree?"""
    loosened(tree)
    begun = count.asked
    tops = [path for path in tree.paths if os.path.isdir(path) and can_change(path) and path == os.path.realpath(path)]
    for _ in range(3 if tops else 0):
        top, is_put, users = dice.choice(tops), dice.random() < 0.5, users_of(dice, 4)
        text = an_entry(dice, is_put)
        with accounts(users):
            told = may(["--with" if is_put else "--without", text, f"--under={top}"])
        paths = below(top)
        count.asked += len(paths) * len(users) * 3
        if told.status != 0:
            continue
        before, states = powers(users, paths), {path: kept(path) for path in paths}
        changed = [path for path in paths if is_put or has_entry(path, text)]
        done = all([setfacl(["-m" if is_put else "-x", text], path) for path in changed])
        after = powers(users, paths)
        for path, state in states.items():
            put_back(path, state)
        rows = {unquoted(one): rest.split("; ") for one, _, rest in (line.partition("  ") for line in told.lines)}
        for path in paths if done else ():
            wanted, says = moved(before, after, path), moved_in(rows.get(path, ()))
            if wanted != says:
                count.differs(f"{text} under {top!r}: {path!r}", f"{says}", f"{wanted}", rows.get(path, []))
    count.asked = max(count.asked, begun + (until - begun) // 3)


def ask_defaults(dice: Dice, tree: Tree, until: int, count: Count) -> None:
    """What will new files be?"""
    loosened(tree)
    while count.asked < until:
        folder, is_put = dice.choice([tree.top, *tree.paths]), dice.random() < 0.7
        count.asked += 1
        if not can_change(folder) or not os.path.isdir(folder):
            continue
        users, text, state = users_of(dice, 4), an_entry(dice, is_put), kept(folder)
        with accounts(users):
            told = may(["--with" if is_put else "--without", f"d:{text}", "--", folder])
        if told.status != 0:
            continue
        news = [os.path.join(folder, name) for name in ("new file", "new folder")]
        before = made_in(users, news)
        if setfacl(["-d", "-m" if is_put else "-x", text], folder):
            after = made_in(users, news)
            for what, path, old, new in zip(("file", "folder"), news, before[1], after[1]):
                line = f"  a new {what}  {old}  would be  {new}"
                at = told.lines.index(line) if line in told.lines else -1
                says = moved_in(lines_below(told.lines, at)) if at >= 0 else set()
                wanted = moved(before[0], after[0], path)
                if at < 0 or says != wanted:
                    count.differs(f"d:{text} {folder!r}", f"{says}", f"{wanted}: {line}", told.lines)
                count.asked += len(users) * 3
        put_back(folder, state)


def lines_below(lines: list[str], at: int) -> Iterator[str]:
    """The lines behind one, which begin with more blanks."""
    for line in lines[at + 1 :]:
        if not line.startswith("    "):
            return
        yield line


def made_in(users: list[User], news: list[str]) -> tuple[set[Power], list[str]]:
    """What users may of a file and a folder that root makes, and the lists of these, which are then gone."""
    with open(news[0], "wb", opener=lambda path, flags: os.open(path, flags, 0o666)) as file:
        # what is no program is not executed, but Linux says so only once all else is well
        file.write(b"\x7fELF, or not\n")
    os.mkdir(news[1], 0o777)
    found = powers(users, news), [list_of(path) for path in news]
    os.unlink(news[0])
    os.rmdir(news[1])
    return found


# ---- lint


def split(line: str) -> tuple[str, str]:
    """The path of a line of --lint, and what is said of it."""
    match = re.match(r'("(?:[^"\\]|\\.)*"|[^:]*): (.*)', line)
    return unquoted(match[1]), match[2]


def ask_lint(dice: Dice, tree: Tree, _: int, count: Count) -> None:
    """What is to be mended? Whom an entry does not reach is tried, and whom none is told of reaches the file's folder.
    Each advice is typed, and just those may gain whom it names."""
    loosened(tree)
    users = [User(uid, dice.choice(trees.GIDS), (), f"n{uid}") for uid in trees.UIDS]
    with accounts(users):
        told = may([f"--lint={tree.top}"])
    lines = [split(line) for line in told.lines if not line.startswith("suites: ")]
    stopped = {(path, said.split(" reaches nobody")[0]) for path, said in lines if " reaches nobody" in said}
    before = count.asked
    ask_reach(tree, users, stopped, count)
    for path, said in lines:
        advice = re.search(r": (setfacl .*)", said)
        if advice:
            count.asked += len(users) * 3
            tries_advice(users, advice[1], f"{path!r}: {said}", count)
    count.asked = max(before + 1, count.asked)


def ask_reach(tree: Tree, users: list[User], stopped: set[tuple[str, str]], count: Count) -> None:
    for path in tree.paths:
        if os.path.islink(path) or not os.path.exists(path) or path != os.path.realpath(path):
            continue
        entries = trees.unpacked(path)
        mask = next((perms for tag, perms, _ in entries if tag == MASK), 7)
        for tag, perms, one in entries:
            whom = [user for user in users if tag == USER and user.uid == one or tag == GROUP and user.has(one)]
            if not whom or not perms & mask:
                continue
            reach = [trees.as_user(user, lambda: trees.checked(os.path.dirname(path), 1)) == GRANTED for user in whom]
            entry = text_of([(tag, perms, one)])
            count.asked += 1
            if ((path, entry) in stopped) == any(reach):
                count.differs(f"{path!r} {entry}", (path, entry) in stopped, not any(reach), [])


def tries_advice(users: list[User], command: str, about: str, count: Count) -> None:
    """Types an advice in a shell; nobody may lose by it, and nobody gain whom it does not name."""
    found = subprocess.run(
        ["bash", "-c", f"set -- {command}; printf '%s\\0' \"$@\""], stdout=subprocess.PIPE, check=True
    )
    *flags, _, path = map(os.fsdecode, found.stdout.split(b"\0")[:-1])
    entry, state, before = flags[-1].split(":"), kept(path), powers(users, [path])
    named = whom(path, entry, users)
    done = subprocess.run(["bash", "-c", command], stderr=subprocess.PIPE, text=True)
    after = powers(users, [path])
    put_back(path, state)
    gained = {name for name, _, _ in after - before}
    if done.returncode != 0 or before - after or gained - named:
        count.differs(about, "mends", f"{done.stderr} loses {before - after}, gains {gained - named}", [command])


def whom(path: str, entry: list[str], users: list[User]) -> set[str]:
    """Whom an advice may help."""
    kind, one = entry[0], entry[1]
    if kind == "u":
        return {user.name for user in users if str(user.uid) == one}
    if kind == "g" and one:
        return {user.name for user in users if user.has(int(one))}
    found, group = set[str](), os.stat(path).st_gid
    for tag, perms, number in trees.unpacked(path):
        if perms and tag in (USER, GROUP, OWNING):
            number = group if tag == OWNING else number
            found |= {user.name for user in users if (user.uid == number if tag == USER else user.has(number))}
    return found
