#!/usr/bin/env python3
"""tests/granting.py grant|deny [--marks]

In place of a session, for tests of what stands on one: a plain table without access checks. With `grant` each
transaction is done whoever asks, with `deny` each is denied at the root folder. So what a mount over it lets through or
keeps out is decided by nobody else.
"""
import re
import sys

from plain_table import Caller, Node, Refused, Table, names_of, text_of

HEADER = ("servers", "agents", "votes", "root", "cache")
WORDS = {"d": "default", "u": "user", "g": "group", "m": "mask", "o": "other"}


class Granting(Table):
    """A table that lets everybody."""

    def permit(self, node: Node, caller: Caller, wanted: int) -> None:
        pass

    def owns(self, node: Node, caller: Caller) -> bool:
        return True

    def make(self, caller: Caller, names: list[str], init: str, is_folder: bool) -> str:
        return f"{super().make(caller, names, init, is_folder)} {len(self.nodes) - 1}"

    def told(self, line: str) -> str:
        """What a question is told."""
        word, *paths = line.split(" ")
        if word == "room":
            return f"room 0 taken {len(self.nodes)}"
        try:
            number = self.reach(Caller(0, (0,)), names_of(paths[0]))
        except Refused:
            return f"{word} {paths[0]} nothing"
        owner, group, lists, holds = self.nodes[number]
        if word == "content":
            return f"content {paths[0]} {'nothing' if isinstance(holds, dict) else holds or '-'}"
        kind, size = ("folder", 0) if isinstance(holds, dict) else ("file", len(holds) // 2)
        return (f"row {paths[0]} {kind} suite {number} owner {owner} group {group} acl {text_of(lists)}"
                f" votes 1,1,1/2/2 size {size}")


def say(line: str) -> None:
    """Tells a line, its lists as a session does; no path has a colon."""
    print(re.sub(r"\b[dugmo](?=:)", lambda tag: WORDS[str(tag[0])], line))


def main() -> None:
    tree, is_let, jobs, pending = Granting(0, 0, "700"), sys.argv[1] == "grant", 0, ("", "", "")
    for number, line in enumerate(map(str.strip, sys.stdin), 1):
        word = line.split(" ")[0]
        if word == "begin":
            _, _, uid, gids, _, operations = line.split(" ", 5)
            pending = uid, gids, operations
        elif word == "run":
            uid, gids, operations = pending
            end = "denied op 1 suite 0 wants rwx by other::"
            if is_let:
                caller = Caller(int(uid), tuple(map(int, gids.split(","))))
                tree, end = tree.call(caller, [one.split(" ") for one in operations.split(" ; ")])
            say(f"0.{jobs} 1 {end}")
            jobs += 1
        elif word in ("row", "content", "room"):
            say(tree.told(line))
        elif word == "die":
            sys.exit(9)
        elif word not in HEADER and not word.startswith("#"):
            print(f"fault line {number}: S1")
        print(f"= {number}", flush=True)


if __name__ == "__main__":
    main()
