"""Access lists of files, as the kernel keeps them, and their texts."""
import errno
import functools
import grp
import operator
import os
import pwd
import shlex
import struct
from typing import Callable, Iterable, NamedTuple, Optional

from common.quoted import letters

ACCESS, DEFAULT = "system.posix_acl_access", "system.posix_acl_default"
VERSION, HEAD, ENTRY = 2, struct.Struct("<I"), struct.Struct("<HHI")
# The number of an entry that names nobody, as the kernel keeps it.
NOBODY = 0xFFFFFFFF
# The tags of acl(5) as the kernel numbers them.
USER_OBJ, USER, GROUP_OBJ, GROUP, MASK, OTHER = 0x01, 0x02, 0x04, 0x08, 0x10, 0x20
WORDS = {USER_OBJ: "user::", USER: "user:", GROUP_OBJ: "group::", GROUP: "group:", MASK: "mask::", OTHER: "other::"}
# The tags by the words of entries: of one that names nobody, and of one that names somebody.
KINDS = {"user": (USER_OBJ, USER), "group": (GROUP_OBJ, GROUP), "mask": (MASK, MASK), "other": (OTHER, OTHER)}
# What a mask limits.
LIMITED = (USER, GROUP_OBJ, GROUP)
# The program takes lists of at most so many entries.
MAX_ENTRIES = 128
BITS = (("r", 4), ("w", 2), ("x", 1))


class Entry(NamedTuple):
    """An entry: its tag, the number of its user or group (0 where it has none), and its permissions."""

    tag: int
    id: int
    perms: int


List = tuple[Entry, ...]


class Unread(Exception):
    """What cannot be read: why, the number of the error, if any, and whether Linux refuses who comes so far."""

    def __init__(self, text: str, number: Optional[int] = None, denies: bool = False) -> None:
        super().__init__(text)
        self.number, self.denies = number, denies


class Bad(Exception):
    """Words that ask for nothing."""


SHORT = {7: "\\a", 8: "\\b", 9: "\\t", 10: "\\n", 11: "\\v", 12: "\\f", 13: "\\r", 34: '\\"', 92: "\\\\"}


def quoted(name: str) -> str:
    """A name as one line shows it: as it is, or quoted as by `ls -Q` where one could not see what it is."""
    if name and name.isprintable() and not set(name) & set("\"\\"):
        return name
    shown = (SHORT.get(byte, chr(byte) if 32 <= byte < 127 else f"\\{byte:03o}") for byte in os.fsencode(name))
    return f'"{"".join(shown)}"'


def shell_quoted(name: str) -> str:
    """A name as a shell takes it: in `$'..'` where it has what is not printed."""
    if name.isprintable():
        return shlex.quote(name)
    shown = (
        f"\\{letter}" if letter in "'\\" else letter
        if letter.isprintable() else "".join(f"\\{byte:03o}" for byte in os.fsencode(letter))
        for letter in name
    )
    return f"$'{''.join(shown)}'"


def of_mode(mode: int) -> List:
    return (Entry(USER_OBJ, 0, mode >> 6 & 7), Entry(GROUP_OBJ, 0, mode >> 3 & 7), Entry(OTHER, 0, mode & 7))


def kept(path: str, which: str) -> Optional[List]:
    """The list of this name that a file has, if it has one."""
    try:
        value = os.getxattr(path, which, follow_symlinks=False)
    except OSError as error:
        if error.errno in (errno.ENODATA, errno.EOPNOTSUPP):
            return None
        raise
    try:
        return unpacked(value)
    except ValueError:
        raise Unread(f"{quoted(path)}: its list is of no known form") from None


def unpacked(value: bytes) -> List:
    """The entries in the value of an extended attribute. One of another form is a `ValueError`."""
    if value[: HEAD.size] != HEAD.pack(VERSION) or (len(value) - HEAD.size) % ENTRY.size:
        raise ValueError
    parts = list(ENTRY.iter_unpack(value[HEAD.size :]))
    if any(tag not in WORDS or perms > 7 for tag, perms, _ in parts):
        raise ValueError
    return tuple(Entry(tag, number if tag in (USER, GROUP) else 0, perms) for tag, perms, number in parts)


def packed(entries: List) -> bytes:
    """The value of an extended attribute that has these entries."""
    numbers = ((one, one.id if one.tag in (USER, GROUP) else NOBODY) for one in entries)
    return HEAD.pack(VERSION) + b"".join(ENTRY.pack(one.tag, one.perms, number) for one, number in numbers)


def of_file(path: str, mode: int) -> List:
    """The list of a file: the one that it has, or the one of its mode."""
    found = kept(path, ACCESS)
    return of_mode(mode) if found is None else found


def fault(entries: List) -> Optional[str]:
    """Why the program takes no such list, although the kernel does, if it does not."""
    if len(entries) > MAX_ENTRIES:
        return f"its list has {len(entries)} entries, and lists of up to {MAX_ENTRIES} are judged here"
    for tag, what in ((USER, "user"), (GROUP, "group")):
        ids = [entry.id for entry in entries if entry.tag == tag]
        for twice in (one for one in ids if ids.count(one) > 1):
            return f"its list names {what} {twice} twice"
    return None


# ---- texts


def perms_of(text: str) -> int:
    return sum(bit for letter, bit in BITS if letter in text)


def number_of(entry: Entry) -> str:
    return str(entry.id)


def name_of(entry: Entry) -> str:
    """The name of an entry's user or group, or its number."""
    try:
        found = pwd.getpwuid(entry.id).pw_name if entry.tag == USER else grp.getgrgid(entry.id).gr_name
        return quoted(found)
    except (KeyError, OverflowError):
        return str(entry.id)


def who(entry: Entry) -> str:
    """Whom an entry is about, as `user:lisa` or `other::`."""
    return WORDS[entry.tag] + (name_of(entry) if entry.tag in (USER, GROUP) else "")


def entry_text(entry: Entry, name: Callable[[Entry], str] = number_of) -> str:
    """An entry as text; `name` tells a number's user or group."""
    named = f"{name(entry)}:" if entry.tag in (USER, GROUP) else ""
    return f"{WORDS[entry.tag]}{named}{letters(entry.perms)}"


def list_text(entries: Iterable[Entry], name: Callable[[Entry], str] = number_of) -> str:
    return ",".join(entry_text(entry, name) for entry in entries)


def kind_of(word: str) -> Optional[str]:
    """The kind of entry that setfacl takes a word or a letter for."""
    return next((kind for kind in KINDS if word in (kind, kind[0])), None)


# ---- parts of a list


def find(entries: Iterable[Entry], tag: int, number: int = 0) -> Optional[Entry]:
    return next((entry for entry in entries if entry.tag == tag and entry.id == number), None)


def mask_of(entries: Iterable[Entry]) -> Optional[int]:
    found = find(entries, MASK)
    return None if found is None else found.perms


def in_order(entries: Iterable[Entry]) -> List:
    return tuple(sorted(entries, key=lambda entry: (entry.tag, entry.id)))


def has_names(entries: Iterable[Entry]) -> bool:
    return any(entry.tag in (USER, GROUP) for entry in entries)


def unnamed(entries: List) -> List:
    """The entries that a mode has too."""
    return tuple(entry for entry in entries if entry.tag in (USER_OBJ, GROUP_OBJ, OTHER))


def union(entries: Iterable[Entry]) -> int:
    """What the mask limits, together: the mask that setfacl computes."""
    return functools.reduce(operator.or_, (entry.perms for entry in entries if entry.tag in LIMITED), 0)


def masked(entries: Iterable[Entry], is_given: bool, computes: bool = True) -> List:
    """The entries in their order, with the mask that setfacl makes where none is given, and computes anew or not."""
    made = list(entries)
    mask, group = find(made, MASK), find(made, GROUP_OBJ)
    if not is_given and (has_names(made) or mask) and (computes or not mask):
        perms = union(made) if computes or group is None else group.perms
        made = [entry for entry in made if entry.tag != MASK] + [Entry(MASK, 0, perms)]
    return in_order(made)
