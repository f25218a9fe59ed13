#!/usr/bin/env python3
"""tests/shell.py

Plays the stories of `./suites shell` and of the mount and holds what they print against what is written here; what
setfacl makes of lists against setfacl; and scripts of `./suites import`: the tree that one makes is read again from a
mount, and the script of that is the same. What a mount needs and is not here is told, and that part is skipped. Prints
what differs; status 1 where something does.
"""
import os
import random
import shutil
import subprocess
import tempfile

import mounted
import played

from common import tool
from mount import lists
from shell import changing

SESSION = [mounted.SESSION] if mounted.SESSION else [mounted.SUITES, "session"]
STORY = os.path.join(played.TOP, "examples", "shell", "revocation.shell")
MOUNTED = os.path.join(played.TOP, "examples", "mount", "revocation.sh")
# What is answered in the story of the shell, behind its lines.
ANSWERED = [
    ("lisa> cat /plan", "the plan"),
    ("bob> cat /plan", "Permission denied (denied op 1 suite 1 wants r-- by other::)"),
    ("lisa> cat /plan", "the plan"),
    ("lisa> cat /plan", "Permission denied (denied op 1 suite 1 wants r-- by other::)"),
    ("root> getfacl /plan", "user::rw-"),
]
TOLD = """$ owner: echo "the plan" > plan
$ owner: setfacl -m u:2000:r plan
$ lisa: cat plan
the plan
$ bob: cat plan
cat: m/plan: Permission denied
$ server 0 crashes
$ lisa: cat plan
the plan
$ owner: setfacl -x u:2000 plan
$ server 0 returns, with its old copy
$ lisa: cat plan
cat: m/plan: Permission denied
"""
# A story of mistakes, and what each is answered.
MISTAKES = {
    "cat /no": "No such file or folder (refused F4 op 1)",
    "nonsense": "there is no word 'nonsense'; help tells all",
    "as nobody-at-all": "there is no user nobody-at-all: `user nobody-at-all NUMBER` makes one",
    "chmod 9 /": "a mode has three octal digits",
    "setfacl -m u:1:q /": "that is not understood: u:1:q is no entry",
    "rm /": "That is no path (refused F1 op 1)",
}


def own_session() -> list[str]:
    return ["--session", mounted.SESSION] if mounted.SESSION else []


def shell(story: str, *words: str) -> list[str]:
    told = played.done(tool("shell", *own_session(), *words), story, stderr=subprocess.STDOUT)
    return told.out.splitlines()


def tells_stories(tally: played.Tally) -> None:
    # that its programs are checked builds is told once a day
    played.done(tool("shell", *own_session()))
    told = shell(played.text_of(STORY), "--root", "0:0:755")
    answers = [pair for pair in zip(told, told[1:]) if "> cat" in pair[0] or "> getfacl" in pair[0]]
    tally.holds(answers == ANSWERED, "the story of the shell", answers)
    for line, wanted in MISTAKES.items():
        told = shell(line + "\n")
        tally.holds(told[1:] == [wanted], line, told)
    with tempfile.TemporaryDirectory(prefix="suites-") as room:
        name = os.path.join(room, "journal")
        first = shell("as root:0\nmkdir /d 700\nput /d/f hello\nsave " + room + "/script\n", "--journal", name)
        tally.holds(not [line for line in first if "> " not in line], "what is made", first)
        told = shell("as root:0\ncat /d/f\nls -l /\n", "--journal", name)
        is_there = "hello" in told and "d 0:0      1 u::rwx,g::---,o::---  d" in told
        tally.holds(is_there, "a journal is gone on with", told)
        told = shell("as root:0\ncat /d/f\n", "--script", f"{room}/script")
        tally.holds("hello" in told, "a script that was saved is played", told)
        shell(f"as root:0\nput /f hello\nuser late 7\nrow /f\nsave {room}/late\n")
        with open(f"{room}/late", "rb") as file:
            done = played.done([played.program(), "play"], stdin=file)
        tally.same(done.out, "0.0 10 answered made 1; wrote\n", "a saved script, with a late name")


def changes_lists(tally: played.Tally) -> bool | None:
    """Changes of lists against setfacl."""
    if not shutil.which("setfacl"):
        print("lists skipped: no setfacl")
        return False
    dice = random.Random(5)
    with tempfile.TemporaryDirectory(prefix="suites-", dir=mounted.PLACE) as room:
        for number in range(60):
            path = os.path.join(room, f"d{number}")
            os.mkdir(path, 0o750)
            ours = lists.read("user::rwx,group::r-x,other::---")
            for _ in range(4):
                some = [f"u:{dice.choice((1, 2))}", f"g:{dice.choice((3, 4))}", "u:", "g:", "m:", "o:"]
                entry = dice.choice(some)
                letters = "".join(letter if dice.random() < 0.6 else "-" for letter in "rwx")
                change = dice.choice((
                    ["-m", f"{entry}:{letters}"], ["-m", f"{entry}:{letters}"], ["-m", f"u:2:{letters},g:3:{letters}"],
                    ["-x", some[0]], ["-x", some[1]], ["-b"],
                ))
                if dice.random() < 0.3 and change != ["-b"]:
                    change = ["-d", *change]
                if subprocess.run(["setfacl", *change, path], stderr=subprocess.DEVNULL).returncode:
                    continue
                ours = changing.changed(ours, change, lambda kind, name: int(name)) or ours
                if change == ["-b"]:
                    ours = ours._replace(default=())
                read = subprocess.run(["getfacl", "-cnpE", path], stdout=subprocess.PIPE, text=True).stdout.split()
                theirs = lists.read(",".join(read))
                tally.holds(sorted(ours.access) == sorted(theirs.access), change, ours.text(), theirs.text())
                tally.holds(sorted(ours.default) == sorted(theirs.default), change, ours.text(), theirs.text())
    return None


def imported(folder: str, *words: str) -> played.Done:
    return played.done(tool("import", folder, *words))


def dumped(room: str, script: str) -> str:
    """The short script of the journal of a session that was given a script."""
    journal, short = os.path.join(room, "journal"), os.path.join(room, "short")
    with open(script, "rb") as file:
        subprocess.run([*SESSION, "--journal", journal], stdin=file, stdout=subprocess.DEVNULL, check=True)
    with open(journal, "rb") as file, open(short, "wb") as made:
        subprocess.run([mounted.SUITES, "dump"], stdin=file, stdout=made, check=True)
    return short


def reads_trees(tally: played.Tally) -> None:
    with tempfile.TemporaryDirectory(prefix="suites-", dir=mounted.PLACE) as room:
        top = os.path.join(room, "t")
        os.makedirs(f"{top}/a/b/c")
        for number in range(20):
            played.put(f"{top}/a/f{number}", bytes([number]) * number * 300)
            os.chmod(f"{top}/a/f{number}", 0o400 | number * 5)
        if shutil.which("setfacl"):
            subprocess.run(["setfacl", "-m", "u:1234:rw,g:77:r", f"{top}/a/f3"], check=True)
            subprocess.run(["setfacl", "-d", "-m", "u:1234:rwx", f"{top}/a/b"], check=True)
        status, first, told = imported(top)
        tally.holds((status, told) == (0, ""), "a tree that fits", status, told)
        script = os.path.join(room, "script")
        played.put(script, first)
        with mounted.Mounted("--script", script) as mount:
            status, again, told = imported(mount.top)
            tally.holds((status, again) == (0, first), "a tree, mounted and read again", told)
        with mounted.Mounted("--script", dumped(room, script)) as mount:
            tally.holds(imported(mount.top) == (0, first, ""), "a tree in a journal, dumped, mounted and read again")
        os.symlink("a", f"{top}/link")
        os.mkfifo(f"{top}/pipe")
        os.mkdir(f"{top}/a name")
        with open(f"{top}/long", "wb") as file:
            file.truncate(65_537)
        status, again, told = imported(top, "--at", "/x/y")
        lines = told.splitlines()
        tally.holds(status == 1 and len(lines) == 4, "what does not fit", status, lines)
        tally.holds("folder /x/y/a/b/c 777" in again and "link" not in again, "a tree below a path", again[:300])


def on_mounts(tally: played.Tally) -> bool:
    if not mounted.skipped():
        reads_trees(tally)
        if shutil.which("setpriv") and shutil.which("setfacl"):
            done = played.done([MOUNTED], stderr=subprocess.STDOUT)
            tally.same(done.out, TOLD, "the story of the mount")
    return False


if __name__ == "__main__":
    parts = (changes_lists, tells_stories, on_mounts)
    played.plays(__doc__, "answers of the shell", *parts, width=2000)
