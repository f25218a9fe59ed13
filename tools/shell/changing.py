"""What setfacl makes of a list: entries that come or go, and the mask that follows from them."""
from collections.abc import Callable, Sequence

from may.lists import GROUP_OBJ, KINDS, MASK, Entry, List, find, kind_of, masked, perms_of, unnamed
from mount import rows
from mount.lists import Lists

Number = Callable[[str, str], int]


def long_text(row: rows.Row) -> str:
    """A file or a folder as `ls -l` has it."""
    return f"{'d' if row.is_folder else '-'} {row.owner}:{row.group} {row.size:6} {row.lists.text()}"


def entry_of(text: str, number: Number, has_bits: bool) -> Entry:
    """An entry as setfacl takes it, with names or numbers, and with letters or a digit."""
    told = text.split(":")
    kind = kind_of(told[0])
    if kind is None:
        raise ValueError(f"{text} is no entry")
    if kind in ("mask", "other") and len(told) == 2 and has_bits:
        told.insert(1, "")
    who = told[1] if len(told) > 1 else ""
    perms = 0
    if has_bits:
        if len(told) != 3 or set(told[2]) - set("rwx-") and told[2] not in tuple("01234567"):
            raise ValueError(f"{text} is no entry")
        perms = int(told[2]) if told[2].isdigit() else perms_of(told[2])
    return Entry(KINDS[kind][bool(who)], number(kind, who) if who else 0, perms)


def bare(entries: List) -> List:
    """The entries of owner, group and all others, the group's cut by the mask."""
    mask = find(entries, MASK)
    cut = {GROUP_OBJ: mask.perms if mask else 7}
    return tuple(one._replace(perms=one.perms & cut.get(one.tag, 7)) for one in unnamed(entries))


def changed(before: Lists, change: Sequence[str], number: Number) -> Lists | None:
    """The lists after a change; none where the words are no change."""
    is_default = "-d" in change
    told = [one for one in change if one != "-d"]
    part = before.default if is_default else before.access
    if told == ["-b"]:
        return before._replace(default=()) if is_default else Lists(bare(before.access), ())
    if len(told) != 2 or told[0] not in ("-m", "-x"):
        return None
    if is_default and not part and told[0] == "-x":
        return before
    if is_default and not part:
        part = unnamed(before.access)
    entries = {(one.tag, one.id): one for one in part}
    some = [entry_of(text, number, told[0] == "-m") for text in told[1].split(",")]
    for one in some:
        if told[0] == "-m":
            entries[one.tag, one.id] = one
        else:
            entries.pop((one.tag, one.id), None)
    after = masked(entries.values(), any(one.tag == MASK for one in some))
    return before._replace(default=after) if is_default else before._replace(access=after)
