"""A plain table of files and folders in Python, after acl(5): what tests compare the program's verdicts with. It shares
no code with the program.
"""
import copy
import re
import typing

READ, WRITE, SEARCH = 4, 2, 1
BITS = {"r": READ, "w": WRITE, "x": SEARCH, "-": 0}
NAME = re.compile(r"[A-Za-z0-9._-]{1,64}")
MOST_NAMES, MOST_OPERATIONS = 8, 8
MODE = re.compile(r"[0-7]{3}")

# The entries of a list: the tag, and for whom (0 where it is for nobody by name), with the permissions.
Entries = dict[tuple[str, int], int]


class Refused(Exception):
    """Why an operation is refused: the word `denied`, or a code."""


class Lists(typing.NamedTuple):
    """The list of a file or folder, and the default list where it has one."""

    access: Entries
    default: Entries | None


class Node(typing.NamedTuple):
    """A file, which holds the digits of its bytes, or a folder, which holds nodes' numbers by their names."""

    owner: int
    group: int
    lists: Lists
    holds: str | dict[str, int]


class Caller(typing.NamedTuple):
    uid: int
    gids: tuple[int, ...]


def lists_of(text: str) -> Lists:
    """The lists that a word spells."""
    access: Entries = {}
    default: Entries = {}
    for item in text.split(","):
        side, item = (default, item[2:]) if item.startswith("d:") else (access, item)
        tag, who, letters = item.split(":")
        side[tag, int(who or 0)] = sum(BITS[letter] for letter in letters)
    return Lists(access, default or None)


def text_of(lists: Lists) -> str:
    """A word that spells them."""
    sides = (("", lists.access), ("d:", lists.default or {}))
    return ",".join(
        f"{mark}{tag}:{who or ''}:{''.join(letter for letter in 'rwx' if bits & BITS[letter]) or '-'}"
        for mark, entries in sides
        for (tag, who), bits in entries.items()
    )


def of_mode(mode: int) -> Entries:
    return {("u", 0): mode >> 6 & 7, ("g", 0): mode >> 3 & 7, ("o", 0): mode & 7}


def inherited(default: Entries, mode: int) -> Entries:
    """What a new file gets of its folder's default list: the digits of its mode limit the owner, the mask (the group
    where there is none) and the others.
    """
    middle = ("m", 0) if ("m", 0) in default else ("g", 0)
    limits = {("u", 0): mode >> 6 & 7, middle: mode >> 3 & 7, ("o", 0): mode & 7}
    return {tag: bits & limits.get(tag, 7) for tag, bits in default.items()}


def grants(node: Node, caller: Caller, wanted: int) -> bool:
    """Whether a caller has what it wants."""
    entries, mask = node.lists.access, node.lists.access.get(("m", 0), 7)
    if caller.uid == node.owner:
        return entries["u", 0] & wanted == wanted
    if caller.uid and ("u", caller.uid) in entries:
        return entries["u", caller.uid] & mask & wanted == wanted
    groups = [entries["g", 0]] if node.group in caller.gids else []
    groups += [bits for (tag, who), bits in entries.items() if tag == "g" and who and who in caller.gids]
    if groups:
        return any(bits & mask & wanted == wanted for bits in groups)
    return entries["o", 0] & wanted == wanted


Same = typing.TypeVar("Same", bound="Table")


class Table:
    """The table: nodes by their numbers, of which 0 is the root folder."""

    def __init__(self, owner: int, group: int, mode: str) -> None:
        self.nodes = {0: Node(owner, group, Lists(of_mode(int(mode, 8)), None), {})}

    def permit(self, node: Node, caller: Caller, wanted: int) -> None:
        if not grants(node, caller, wanted):
            raise Refused("denied")

    def owns(self, node: Node, caller: Caller) -> bool:
        return caller.uid == node.owner

    def names(self, node: Node) -> dict[str, int]:
        if isinstance(node.holds, str):
            raise Refused("F2")
        return node.holds

    def reach(self, caller: Caller, names: list[str]) -> int:
        """The number of the node that names lead to."""
        number = 0
        for name in names:
            inside = self.names(self.nodes[number])
            self.permit(self.nodes[number], caller, SEARCH)
            if name not in inside:
                raise Refused("F4")
            number = inside[name]
        return number

    def parent(self, caller: Caller, names: list[str]) -> tuple[int, str]:
        """The folder in which the last of these names is put or dropped, and that name."""
        if not names:
            raise Refused("F1")
        folder = self.reach(caller, names[:-1])
        self.names(self.nodes[folder])
        self.permit(self.nodes[folder], caller, WRITE | SEARCH)
        return folder, names[-1]

    def make(self, caller: Caller, names: list[str], init: str, is_folder: bool) -> str:
        given = None if MODE.fullmatch(init) else lists_of(init)
        if names and given and given.default and not is_folder:
            raise Refused("F12")
        folder, name = self.parent(caller, names)
        above = self.nodes[folder]
        default, inside = above.lists.default, self.names(above)
        if name in inside:
            raise Refused("F5")
        if not given:
            mode = int(init, 8)
            access = of_mode(mode) if default is None else inherited(default, mode)
            given = Lists(access, default if is_folder else None)
        number = len(self.nodes)
        self.nodes[folder] = above._replace(holds={**inside, name: number})
        self.nodes[number] = Node(caller.uid, caller.gids[0], given, {} if is_folder else "")
        return "made"

    def drop(self, caller: Caller, names: list[str]) -> str:
        folder, name = self.parent(caller, names)
        inside = self.names(self.nodes[folder])
        if name not in inside:
            raise Refused("F4")
        if self.nodes[inside[name]].holds and not isinstance(self.nodes[inside[name]].holds, str):
            raise Refused("F7")
        left = {one: number for one, number in inside.items() if one != name}
        self.nodes[folder] = self.nodes[folder]._replace(holds=left)
        return "dropped"

    def operation(self, caller: Caller, words: list[str]) -> str:
        """The reply to an operation."""
        verb, path, *more = words
        names = names_of(path)
        if verb in ("file", "folder"):
            return self.make(caller, names, more[0], verb == "folder")
        if verb == "drop":
            return self.drop(caller, names)
        number = self.reach(caller, names)
        node = self.nodes[number]
        if verb == "setacl":
            lists = lists_of(more[0])
            if not self.owns(node, caller):
                raise Refused("denied")
            if lists.default and isinstance(node.holds, str):
                raise Refused("F12")
            self.nodes[number] = node._replace(lists=lists)
            return "set"
        if verb != "getacl" or not self.owns(node, caller):
            self.permit(node, caller, WRITE if verb == "write" else READ)
        if verb == "getacl":
            return f"acl {text_of(node.lists)}"
        if verb == "list":
            return f"list {','.join(sorted(self.names(node))) or '-'}"
        if not isinstance(node.holds, str):
            raise Refused("F6")
        if verb == "write":
            self.nodes[number] = node._replace(holds=more[0].strip("-"))
            return "wrote"
        return f"read {node.holds or '-'}"

    def test(self, caller: Caller, path: str, wanted: str) -> str:
        """Whether a caller is granted some of r, w and x at a path: the way there grants search, and one entry all."""
        node = self.nodes[self.reach(caller, names_of(path))]
        self.permit(node, caller, sum(BITS[letter] for letter in wanted))
        return "granted"

    def call(self: Same, caller: Caller, operations: list[list[str]]) -> tuple[Same, str]:
        """The table after a call, and what is answered: `answered` and the replies, or why it is refused. A test is no
        operation, and leaves the table as it is.
        """
        after, replies = copy.copy(self), list[str]()
        after.nodes = dict(self.nodes)
        if operations[0][0] == "test":
            try:
                return self, f"answered {self.test(caller, *operations[0][1:])}"
            except Refused as refused:
                return self, "denied" if str(refused) == "denied" else f"refused {refused} op 1"
        if len(operations) > MOST_OPERATIONS:
            return self, "refused F10 op 0"
        for place, words in enumerate(operations, 1):
            try:
                replies.append(after.operation(caller, words))
            except Refused as refused:
                return self, "denied" if str(refused) == "denied" else f"refused {refused} op {place}"
        return after, f"answered {'; '.join(replies)}"


def names_of(path: str) -> list[str]:
    """The names of a path."""
    names = path.split("/")[1:] if path != "/" else []
    if not path.startswith("/") or len(names) > MOST_NAMES or any(not is_name(name) for name in names):
        raise Refused("F1")
    return names


def is_name(text: str) -> bool:
    return NAME.fullmatch(text) is not None and text not in (".", "..")
