#!/usr/bin/env python3
"""tests/may-against-the-kernel.py [--questions N] [--seed SEED] [--form FORM] [--on KIND] [--mounts] [--if-possible]
                                [PROGRAM]

Compares what `./suites may` tells with what this Linux does, on random trees of files, folders, links, pipes, devices
and scripts with random lists and default lists. Each question is put to `may` by its words, and then tried as that
user, in a process that takes its groups and its number: by opening, executing, making and taking away, of a folder by
access(2). tests/kernel_trees.py does that, and shares no code with `may`. PROGRAM is a build of the program.
FORM is one of those below; without it all are asked, N questions each. KIND is tmpfs, ext4, xfs or btrfs, or all, each
but the first in a loop file; the questions are shared out. With --mounts parts of each tree are mounts with random
flags of ro, noexec, nodev and nosymfollow. What is told as not judged is counted. Before the questions the cases of
tests/may_cases.py are tried on each file system.

Status 1 where anything differs. It needs root and a file system with lists. With --if-possible it says where these
are wanting, and ends well: so `./suites --test` runs some questions.
"""
import argparse
import os
import shutil
import tempfile
from typing import Callable

import asked_may
import kernel_systems
import kernel_trees as trees
import may_cases
import may_changes
import played
from asked_may import accounts, creates, deletes, is_there, may, named_in, sentences, unquoted, wanted
from kernel_trees import DENIED, GRANTED, UNJUDGED, Dice, Tree, User, letters, tried
from may_changes import Count, users_of

# So many questions are asked of one tree.
OF_A_TREE = 400


def ask_users(dice: Dice, tree: Tree, until: int, count: Count) -> None:
    """May this user?"""
    while count.asked < until:
        user, perms = dice.user(), dice.choice([1, 1, 2, 4, 4, 5, 6, 7])
        some = [dice.choice(tree.paths) for _ in range(min(60, until - count.asked))]
        said = tried(user, [(path, perms) for path in some])
        for path, linux, (told, line) in zip(some, said, sentences(user, wanted(perms), some)):
            count.left += told == UNJUDGED
            if told not in (linux, UNJUDGED):
                count.differs(f"{path!r} {letters(perms)} {user}", told, linux, [line])
        count.asked += len(some)


def ask_names(dice: Dice, tree: Tree, until: int, count: Count) -> None:
    """May this user make a name, or take it away?"""
    while count.asked < until:
        count.asked += 1
        user, path = dice.user(), dice.choice(tree.paths)
        if path.endswith("/.") or path.endswith("/..") or path.endswith("//"):
            path = tree.paths[0]
        if is_there(path) and dice.random() < 0.7:
            told, said, line = deletes(user, path)
        else:
            folder = path if os.path.isdir(path) else os.path.dirname(path)
            new = os.path.join(folder, "new" + dice.choice(["", "", "/"]))
            told, said, line = creates(user, path if is_there(path) and dice.random() < 0.3 else new)
        count.left += told == UNJUDGED
        if told not in (said, UNJUDGED):
            count.differs(f"{path!r} {user}", told, said, [line])


def ask_who(dice: Dice, tree: Tree, until: int, count: Count) -> None:
    """Who may? Of some users that have no accounts, as if these were all that have one."""
    while count.asked < until:
        users, path, perms = users_of(dice, 10), dice.choice(tree.paths), dice.choice([1, 1, 2, 4, 5, 6])
        with accounts(users):
            told = may(["--who", wanted(perms), "--", path])
        said = [tried(user, [(path, perms)])[0] for user in users]
        if told.status == 3:
            count.left += "not judged" in told.lines[0]
            if GRANTED in said and "not judged" not in told.lines[0]:
                count.differs(f"who {path!r} {letters(perms)}", "unread", "granted to some", told.lines)
            count.asked += 1
            continue
        may_it = named_in(told.lines)
        for user, linux in zip(users, said):
            says = GRANTED if user.name in may_it else DENIED
            linux = DENIED if linux == trees.UNREAD and any("a script for" in line for line in told.lines) else linux
            if says != linux:
                count.differs(f"who {path!r} {letters(perms)} {user}", says, linux, told.lines)
        count.asked += len(users)


def ask_under(dice: Dice, tree: Tree, until: int, count: Count) -> None:
    """What under the tree, or under a part of it, to which a link may lead?"""
    tops = [path for path in tree.paths if os.path.isdir(path)]
    while count.asked < until:
        user, perms = dice.user(), dice.choice([1, 1, 2, 4, 6])
        top = dice.choice([tree.top, dice.choice(tops or [tree.top])])
        lists = [may([*user.words(), wanted(perms), f"--under={top}", *more]).lines for more in ((), ("--denied",))]
        rows: dict[str, tuple[str, str]] = {}
        for lines, says in zip(lists, (GRANTED, DENIED)):
            for path, _, by in (line.partition("  ") for line in lines if not line.startswith("suites: ")):
                is_left = "not judged here" in by or "is not known" in by or "not followed" in by
                rows[unquoted(path)] = (UNJUDGED if is_left else says, by)
        for (path, (says, by)), linux in zip(rows.items(), tried(user, [(path, perms) for path in rows])):
            count.left += says == UNJUDGED and "not followed" not in by
            linux = DENIED if linux == trees.UNREAD and "a script for" in by else linux
            if says not in (linux, UNJUDGED):
                count.differs(f"under {path!r} {letters(perms)} {user}", says, linux, [by])
        count.asked += max(1, len(rows))


def ask_many(dice: Dice, tree: Tree, until: int, count: Count) -> None:
    """How many paths of a tree may each?"""
    while count.asked < until:
        users, perms = users_of(dice, 6), dice.choice([1, 2, 4])
        with accounts(users):
            told = may(["-v", "--who", wanted(perms), f"--under={tree.top}"])
        paths = [unquoted(line.partition("  ")[0]) for line in may(["0", "r", f"--under={tree.top}"]).lines]
        paths = [path for path in paths if not os.path.islink(path) and os.path.lexists(path)]
        lines = [line.partition("  may ") for line in told.lines if "  may " in line]
        counts = {name: int(rest.split()[1].replace(",", "")) for names, _, rest in lines for name in names.split(", ")}
        for user in users if told.status == 0 else ():
            linux = sum(said == GRANTED for said in tried(user, [(path, perms) for path in paths]))
            if counts[user.name] != linux:
                count.differs(f"{tree.top} {letters(perms)} {user}", f"{counts[user.name]}", f"{linux}", told.lines)
        count.asked += len(users)


FORMS: dict[str, Callable[[Dice, Tree, int, Count], None]] = {
    "user": ask_users,
    "names": ask_names,
    "who": ask_who,
    "under": ask_under,
    "many": ask_many,
    "change": may_changes.ask_changes,
    "changes": may_changes.ask_trees,
    "default": may_changes.ask_defaults,
    "lint": may_changes.ask_lint,
}
NEED_SETFACL = ("change", "changes", "default", "lint")


def is_possible(place: str | None) -> bool:
    """Whether this is root, on a file system that keeps lists."""
    if os.geteuid() != 0 or not place:
        return False
    try:
        with tempfile.NamedTemporaryFile(dir=place) as file:
            os.setxattr(file.name, trees.ACCESS, Dice(1).value())
    except OSError:
        return False
    return True


def ask(form: str, place: str, kind: str, given: argparse.Namespace, questions: int) -> Count:
    """Asks so many questions of a form on a file system."""
    dice, count = Dice(f"{given.seed} {kind} {form}"), Count()
    while count.asked < questions:
        top = tempfile.mkdtemp(prefix="suites-may-", dir=place)
        tree = None
        try:
            tree = Tree(dice, top, given.mounts and form in ("user", "under", "who", "names", "many"), kind == "btrfs")
            asked_may.forget()
            FORMS[form](dice, tree, min(count.asked + OF_A_TREE, questions), count)
        finally:
            if tree:
                tree.close()
            shutil.rmtree(top, ignore_errors=True)
    print(f"{kind}, {form}: {count.asked} questions, {count.wrong} differ, {count.left} told as not judged", flush=True)
    return count


def asks(tally: played.Tally) -> bool | None:
    given, every = tally.given, Count()
    if given.program:
        os.environ["MAY"] = tally.program
    os.umask(0)
    kinds = kernel_systems.KINDS if given.on == "all" else (given.on,)
    forms = [given.form] if given.form else list(FORMS)
    if given.if_possible and not shutil.which("setfacl"):
        print("skipped: changes, which need setfacl (Debian's package `acl`)")
        forms = [form for form in forms if form not in NEED_SETFACL]
    for kind in kinds:
        with kernel_systems.mounted(kind) as place:
            if place and is_possible(place):
                every.add(may_cases.tried(kind, place))
                for form in forms:
                    every.add(ask(form, place, kind, given, -(-given.questions // len(kinds))))
            else:
                print(f"skipped: {kind}, which needs root, and a file system with lists")
    tally.count, tally.wrong = every.asked, every.wrong
    return given.if_possible and not every.asked or None


if __name__ == "__main__":
    played.plays(__doc__, "questions", asks, program=None, questions=2000, seed=1, form=("", *FORMS),
                 on=(*kernel_systems.KINDS, "all"), mounts=False, if_possible=False)  # fmt: skip
