#!/usr/bin/env python3
"""tests/mount-programs.py [--well]

Runs real programs on a mount and beside it in a plain folder, and compares what they leave: cp, mv, tar, sed, vim, git,
sqlite3, gcc, find, diff, getfacl and setfacl. First with all servers up; then (not with --well) with one of three down
throughout; then with servers that crash and return, one at a time, every 50 ms. A program that is not there is told and
passed by; nothing is installed. Prints what differs; status 1 where something does.
"""
import os
import random
import re
import shutil
import subprocess
import tempfile
import threading
import time
from collections.abc import Iterator

import mounted
import played
from mounted import Mounted

from common import text_of

# Every so many seconds a server crashes or returns.
EVERY = 0.05
ROWS = 1000
# What each program does, in a folder of its own: on the mount and in a plain folder it prints and leaves the same.
SCRIPTS = dict(re.findall(r"^## (\w+)\n((?:(?!## ).*\n)+)", text_of("tests", "on-mount.sh"), re.M))
# The programs that a script needs, where that is more than its name says.
NEEDED = {"vim": ["vim.tiny"], "getfacl": ["getfacl", "setfacl"], "append": ["sh"], "diff": ["diff", "patch"]}


def there(name: str) -> bool:
    return all(shutil.which(one) for one in NEEDED.get(name, [name]))


def run(script: str, folder: str) -> tuple[int, str]:
    """What a script prints, and its status. It runs with few of the settings of whoever runs the test."""
    done = subprocess.run(
        ["sh", "-ec", f"umask 022; {script.replace('ROWS', str(ROWS))}"], cwd=folder, stdin=subprocess.DEVNULL,
        stdout=subprocess.PIPE, stderr=subprocess.STDOUT,
        env={"PATH": os.environ["PATH"], "HOME": "/tmp", "LC_ALL": "C"},
    )
    return done.returncode, done.stdout.decode("utf-8", "replace")


def left(folder: str) -> Iterator[tuple[str, str, bytes]]:
    """What stands in a folder: paths, modes and bytes. What git writes with times and places is looked at by git."""
    for top, folders, files in os.walk(folder):
        folders[:] = sorted(one for one in folders if one != ".git")
        for name in sorted([*folders, *files]):
            path = os.path.join(top, name)
            told = os.stat(path)
            data = b"" if os.path.isdir(path) else open(path, "rb").read()
            yield os.path.relpath(path, folder), f"{told.st_mode:o}", data


class Weather(threading.Thread):
    """Servers that crash and return, one at a time."""

    def __init__(self, mount: Mounted) -> None:
        super().__init__(daemon=True)
        self.mount, self.is_over, self.crashes = mount, False, 0

    def run(self) -> None:
        dice = random.Random(7)
        with open(os.path.join(self.mount.top, ".suites:control"), "r+b", buffering=0) as control:
            while not self.is_over:
                server = dice.randrange(3)
                for word in ("crash", "return"):
                    control.write(f"{word} {server}".encode())
                    time.sleep(EVERY)
                self.crashes += 1

    def ends(self) -> None:
        self.is_over = True
        self.join()


def play(tally: played.Tally, plain: dict[str, tuple[tuple[int, str], list[tuple[str, str, bytes]]]], mount: Mounted,
         about: str) -> None:
    """Runs all scripts on a mount, and compares them; says how long that took."""
    spent = []
    for name, (printed, files) in plain.items():
        folder, since = os.path.join(mount.top, name), time.monotonic()
        os.mkdir(folder)
        told = run(SCRIPTS[name], folder)
        spent.append(time.monotonic() - since)
        tally.holds(told == printed, f"{name}, {about}", f"it printed {told}", f"and beside the mount {printed}")
        stand = list(left(folder))
        differ = [one[:2] for one in stand if one not in files] + [one[:2] for one in files if one not in stand]
        tally.holds(not differ, f"{name}, {about}", f"another file stands there: {differ}")
        shutil.rmtree(folder)
    each = ", ".join(f"{name} {seconds:.1f} s" for name, seconds in zip(plain, spent))
    print(f"{about}: {each}, all {sum(spent):.1f} s", flush=True)


def all_weathers(tally: played.Tally) -> None:
    plain = {}
    for name in SCRIPTS:
        if not there(name):
            print(f"{name} is not there")
            continue
        with tempfile.TemporaryDirectory(prefix="suites-", dir=mounted.PLACE) as folder:
            plain[name] = run(SCRIPTS[name], folder), list(left(folder))
            tally.holds(plain[name][0][0] == 0, name, "it fails beside the mount", plain[name][0])
    with Mounted("--root", "0:0:755", journal=True) as mount:
        play(tally, plain, mount, "all servers up")
    if not tally.given.well:
        with Mounted("--root", "0:0:755") as mount:
            mount.control("crash 2")
            play(tally, plain, mount, "a server down")
        with Mounted("--root", "0:0:755") as mount:
            weather = Weather(mount)
            weather.start()
            play(tally, plain, mount, "servers that crash and return")
            weather.ends()
            print(f"{weather.crashes} crashes")


if __name__ == "__main__":
    played.plays(__doc__, "comparisons", mounted.skipped, all_weathers, well=False, width=3000)
