#!/usr/bin/env python3
"""tests/mount-faults.py [--rounds N]

What a mount bears: adapter and session killed (SIGKILL) at random moments under load, N times, and mounted again from
the journal, where all has to be that `close` answered; 4,096 files; and a full server, and the compaction that makes
room. Prints figures, and what differs; status 1 where something does.
"""
import errno
import os
import random
import signal
import time

import mounted
import played
from mounted import Mounted

# A worker's files, and how many workers there are under load.
FILES, LOADED = 8, 6


def work(top: str, number: int, log: str, seconds: float) -> None:
    """Writes files again and again, and notes what was answered: of each line the file and what it has."""
    dice, until, count = random.Random(number), time.monotonic() + seconds, 0
    with open(log, "ab", buffering=0) as noted:
        while time.monotonic() < until:
            name, count = f"w{number}-{dice.randrange(FILES)}", count + 1
            text = f"{name} {count} {'x' * dice.randrange(300)}"
            noted.write(f"begun {text}\n".encode())
            played.put(os.path.join(top, name), text)
            noted.write(f"done {text}\n".encode())


def forked(top: str, room: str, workers: int, seconds: float) -> list[int]:
    """Processes that write."""
    children = []
    for number in range(workers):
        child = os.fork()
        if child == 0:
            try:
                work(top, number, os.path.join(room, f"log{number}"), seconds)
                os._exit(0)
            except OSError:
                os._exit(1)
        children.append(child)
    return children


def answered(log: str) -> tuple[dict[str, str], str]:
    """What was answered last of each file, and what had begun and was not answered."""
    known, begun = dict[str, str](), ""
    with open(log, encoding="ascii") as file:
        for line in file.read().splitlines():
            word, _, text = line.partition(" ")
            begun = text if word == "begun" else ""
            if word == "done":
                known[text.split(" ")[0]] = text
    return known, begun


def is_restored(tally: played.Tally) -> None:
    """Killed under load, and mounted again: what was answered is there; of what was not, either the old or the new."""
    dice, seen, rounds = random.Random(3), 0, tally.given.rounds
    with Mounted("--root", "0:0:777", journal=True) as mount:
        for number in range(rounds):
            children = forked(mount.top, mount.room, LOADED, 60)
            time.sleep(0.2 + dice.random() * 0.6)
            victims = [mount.child.pid, *mount.sessions()]
            dice.shuffle(victims)
            for victim in victims:
                os.kill(victim, signal.SIGKILL)
            mount.child.wait()
            for child in children:
                os.waitpid(child, 0)
            mount.begin()
            for worker in range(LOADED):
                known, begun = answered(os.path.join(mount.room, f"log{worker}"))
                for name, text in known.items():
                    stands = played.text_of(os.path.join(mount.top, name))
                    may_be = {text} | ({begun, ""} if begun.startswith(name + " ") else set())
                    seen += 1
                    tally.holds(stands in may_be, f"round {number}, {name}", f"{stands[:40]!r} and not {text[:40]!r}")
                # what stands is what the next round begins with
                with open(os.path.join(mount.room, f"log{worker}"), "a", encoding="ascii") as file:
                    name = begun.split(" ")[0]
                    path = os.path.join(mount.top, name)
                    if begun and os.path.exists(path):
                        file.write(f"done {played.text_of(path) or name}\n")
        print(f"{rounds} kills under load: {seen} files looked at, journal {os.path.getsize(mount.journal)} bytes")


def filled(mount: Mounted) -> tuple[int, str]:
    """Makes files, a thousand in a folder, until one cannot be made: how many there are, and the error."""
    begun, made, folder = time.monotonic(), 0, ""
    try:
        while True:
            if made % 1000 == 0:
                folder = os.path.join(mount.top, f"d{made // 1000}")
                os.mkdir(folder)
            with open(os.path.join(folder, f"f{made}"), "wb") as file:
                made += 1
                file.write(b"%d" % made)
    except OSError as error:
        told = errno.errorcode[error.errno]
    print(f"{made} files in {time.monotonic() - begun:.0f} s, then {told}")
    return made, told


def is_full(tally: played.Tally) -> None:
    """A server that is full, and compaction."""
    with Mounted("--root", "0:0:777", journal=True) as mount:
        made, told = filled(mount)
        tally.holds(told == "ENOSPC" and made > 4000, f"full after {made} files, {told}")
        tally.holds(os.statvfs(mount.top).f_ffree == 0, "df tells that there is room")
        names = sorted(os.listdir(os.path.join(mount.top, "d1")))
        tally.holds(len(names) == 1000, f"of 1000 files {len(names)} are listed")
        tally.holds(played_bytes(mount, "d1", names), "a file has other bytes")
        for name in names:
            os.unlink(os.path.join(mount.top, "d1", name))
        os.chmod(os.path.join(mount.top, "d2"), 0o750)
        mount.control("crash 2")
        held = os.open(os.path.join(mount.top, "d2", "f2000"), os.O_RDWR)
        try:
            with open(os.path.join(mount.top, "d1", "new"), "wb"):
                told = "no error"
        except OSError as error:
            told = errno.errorcode[error.errno]
        tally.holds(told == "ENOSPC", f"what is dropped keeps its place, and it is {told}")
        begun = time.monotonic()
        said = mount.control("compact")
        print(f"{said.strip()} in {time.monotonic() - begun:.0f} s")
        tally.holds(said.startswith("compact "), f"compaction says {said}")
        played.put(os.path.join(mount.top, "d1", "new"), b"new")
        tally.holds(os.pread(held, 9, 0) == b"2001", "an open file is lost by compaction")
        os.pwrite(held, b"more", 0)
        os.close(held)
        mount.end()
        mount.begin()
        with open(os.path.join(mount.top, "d2", "f2000"), "rb") as file:
            tally.holds(file.read() == b"more", "what was written after compaction is lost")
        tally.holds(os.listdir(os.path.join(mount.top, "d1")) == ["new"], "a dropped file is there again")
        tally.holds(os.stat(os.path.join(mount.top, "d2")).st_mode & 0o777 == 0o750, "a list is another")
        names = sorted(os.listdir(os.path.join(mount.top, "d3")))
        tally.holds(played_bytes(mount, "d3", names), "a file has other bytes after compaction")


def played_bytes(mount: Mounted, folder: str, names: list[str]) -> bool:
    """Whether files have what was written into them: the number behind that of their name."""
    for name in names:
        with open(os.path.join(mount.top, folder, name), "rb") as file:
            if file.read() not in (b"%d" % (int(name[1:]) + 1), b""):
                return False
    return bool(names)


if __name__ == "__main__":
    parts = (mounted.skipped, is_full, is_restored)
    played.plays(__doc__, "things that a mount bears", *parts, rounds=10, most=20)
