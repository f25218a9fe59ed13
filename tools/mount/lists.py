"""Access lists as the session tells and takes them, and as modes; their entries are those of `may`."""
from __future__ import annotations

from typing import NamedTuple

from may.lists import (  # noqa: F401
    ACCESS, DEFAULT, GROUP, GROUP_OBJ, KINDS, MASK, OTHER, USER, USER_OBJ, WORDS, Entry, List, find, letters, packed,
    perms_of, unnamed, unpacked,
)


def text_of(entry: Entry) -> str:
    who = str(entry.id) if entry.tag in (USER, GROUP) else ""
    return f"{WORDS[entry.tag][0]}:{who}:{letters(entry.perms)}"


class Lists(NamedTuple):
    """The list of a file or folder, and the default list of a folder, which is empty where it has none."""

    access: List
    default: List = ()

    def text(self) -> str:
        """As an operation takes them."""
        return ",".join([*map(text_of, self.access), *(f"d:{text_of(one)}" for one in self.default)])

    def mode(self) -> int:
        """The nine bits that `stat` shows: those of the mask, where there is one, in place of the group's."""
        perms = {one.tag: one.perms for one in self.access}
        return perms[USER_OBJ] << 6 | perms.get(MASK, perms[GROUP_OBJ]) << 3 | perms[OTHER]

    def with_mode(self, mode: int) -> Lists:
        """What chmod leaves: it changes the owner's entry, that of all others, and the mask or else the group's."""
        middle = MASK if find(self.access, MASK) else GROUP_OBJ
        perms = {USER_OBJ: mode >> 6 & 7, middle: mode >> 3 & 7, OTHER: mode & 7}
        return self._replace(access=tuple(one._replace(perms=perms.get(one.tag, one.perms)) for one in self.access))

    def without_names(self) -> Lists:
        """What Linux leaves where the attribute is removed: the mode."""
        return self._replace(access=unnamed(self.access)).with_mode(self.mode())

    def writable(self) -> Lists:
        """The same, with the owner's `w`."""
        return self.with_mode(self.mode() | 0o200)


def read(text: str) -> Lists:
    """Lists as the session tells them, in entries of long text."""
    found: dict[bool, list[Entry]] = {False: [], True: []}
    for item in text.split(","):
        is_default = item.startswith("default:")
        kind, who, perms = item.removeprefix("default:").split(":")
        found[is_default].append(Entry(KINDS[kind][bool(who)], int(who or 0), perms_of(perms)))
    return Lists(tuple(found[False]), tuple(found[True]))
