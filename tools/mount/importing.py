"""./suites import DIR: a real tree as a script of events that makes it; help/import.txt tells all of it."""
import argparse
import os
import re
import stat
import sys

from common import console
from may.lists import DEFAULT, Unread, kept, of_file, of_mode
from mount import lists, making, rows, words
from mount.making import Thing

NAME = re.compile(r"[A-Za-z0-9._-]{1,64}")
DEEPEST, MOST_NAMES = 8, 1024


class Reader:
    """Reads a real tree, and tells what does not fit."""

    def __init__(self) -> None:
        self.left_out = 0

    def leave(self, path: str, why: str) -> None:
        self.left_out += 1
        print(f"suites: {path!r} is left out: {why}", file=sys.stderr)

    def misfit(self, path: str, told: os.stat_result) -> str:
        if not stat.S_ISDIR(told.st_mode) and not stat.S_ISREG(told.st_mode):
            return "it is neither a file nor a folder"
        if path.count("/") > DEEPEST:
            return "its path has more than eight names"
        is_longer = stat.S_ISREG(told.st_mode) and told.st_size > rows.LONGEST
        return f"it has more than {rows.LONGEST} bytes" if is_longer else ""

    def thing(self, real: str, path: str) -> Thing | None:
        """What stands at a path; none where it does not fit."""
        told = os.lstat(real)
        why = self.misfit(path, told)
        if why:
            self.leave(real, why)
            return None
        if told.st_mode & 0o7000:
            print(f"suites: {real!r} loses its suid, sgid or sticky bit", file=sys.stderr)
        data = b""
        if stat.S_ISREG(told.st_mode):
            with open(real, "rb") as file:
                data = file.read(rows.LONGEST)
        is_folder = stat.S_ISDIR(told.st_mode)
        own = lists.Lists(of_file(real, told.st_mode), kept(real, DEFAULT) or ())
        return Thing(path, is_folder, told.st_uid, told.st_gid, own, None, data)

    def things(self, real: str, path: str) -> list[Thing]:
        """A tree, each folder before what is in it."""
        found, left = list[Thing](), [(real, path)]
        while left:
            real, path = left.pop()
            try:
                thing = self.thing(real, path)
                names = sorted(os.listdir(real)) if thing and thing.is_folder else []
            except (OSError, Unread) as error:
                self.leave(real, os.strerror(error.errno) if isinstance(error, OSError) else str(error))
                continue
            if thing is None:
                continue
            found.append(thing)
            fit = [name for name in names if NAME.fullmatch(name)]
            for name in names:
                if name not in fit:
                    self.leave(os.path.join(real, name), "its name is too long, or has others than A-Za-z0-9._-")
            for name in fit[MOST_NAMES:]:
                self.leave(os.path.join(real, name), "its folder has more than 1,024 names")
            left += [(os.path.join(real, name), f"{path.rstrip('/')}/{name}") for name in reversed(fit[:MOST_NAMES])]
        return found


def folders_above(path: str, owner: int, group: int) -> list[Thing]:
    """The folders that lead to a path, the root folder first: of its owner, and open to be searched."""
    given = lists.Lists(of_mode(0o755))
    names = path.split("/")[1:-1]
    paths = ["/", *("/" + "/".join(names[: depth + 1]) for depth in range(len(names)))]
    return [Thing(one, True, owner, group, given, None, b"") for one in paths]


def main() -> int:
    read = argparse.ArgumentParser(usage="./suites import DIR [--at PATH]", add_help=False, allow_abbrev=False)
    read.add_argument("folder", metavar="DIR")
    read.add_argument("--at", default="/")
    read.add_argument("--servers", type=int)
    read.add_argument("--votes")
    if {"--help", "-h"} & set(sys.argv[1:]):
        return console.print_help("import")
    given = read.parse_args()
    if not re.fullmatch(r"/|(/[A-Za-z0-9._-]{1,64}){1,8}", given.at):
        read.error("--at is a path, as /a/b")
    if not os.path.isdir(given.folder):
        raise console.Stop(f"{given.folder} is no folder")
    reader = Reader()
    things = reader.things(os.path.abspath(given.folder), given.at)
    if not things:
        raise console.Stop(f"{given.folder} cannot be read")
    if given.at != "/":
        things = [*folders_above(given.at, things[0].owner, things[0].group), *things]
    given.root = f"{things[0].owner}:{things[0].group}:777"
    for line in [*words.header(given), *making.making(things)]:
        print(line)
    return 1 if reader.left_out else 0
