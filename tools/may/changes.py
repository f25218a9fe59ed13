"""What a changed entry would do: who gains and who loses. Nothing is changed."""
import functools
import grp
import operator
import os
import pwd
from typing import Iterable, Iterator, NamedTuple, Optional

from may import lists
from may.crowd import Crowd, Seen
from may.everybody import Reach, people
from may.lists import (
    BITS, GROUP_OBJ, KINDS, MASK, OTHER, USER, USER_OBJ, Bad, Entry, List, Unread, find, has_names, kind_of, letters,
    list_text, masked, name_of, perms_of, quoted, unnamed,
)
from may.people import Caller, number, shortened
from may.saying import SAYER
from may.scripts import interpreters, ways_of
from may.telling import short
from may.trees import Tree
from may.ways import EXECUTE, Place, Way, unread

# The owner and the group of what is not made yet.
NOBODY = 0xFFFFFFFF
# With which modes programs make files and folders.
NEW_FILE, NEW_FOLDER = 0o666, 0o777


class Change(NamedTuple):
    """An entry that is put in or taken out, whether the mask is computed anew, and whether it is of a default list."""

    entry: Entry
    is_put: bool
    computes: bool
    is_default: bool = False

    def is_in(self, entries: List) -> bool:
        return find(entries, self.entry.tag, self.entry.id) is not None

    def of(self, entries: List) -> List:
        """The list with it, as setfacl makes it."""
        tag, one = self.entry.tag, self.entry
        left = [entry for entry in entries if (entry.tag, entry.id) != (tag, one.id)]
        if not self.is_put and len(left) == len(entries):
            raise Bad("the list has no such entry")
        if not self.is_put and tag == MASK and has_names(entries):
            raise Bad("a list that names users or groups needs its mask")
        return masked(left + [one] * self.is_put, self.is_put and tag == MASK, self.computes)


def id_of(tag: int, name: str) -> int:
    """The number of a user or a group, by its name, also one in digits, or by its number."""
    try:
        return pwd.getpwnam(name).pw_uid if tag == USER else grp.getgrnam(name).gr_gid
    except (KeyError, ValueError, UnicodeError):
        if name.isascii() and name.isdigit():
            return number(name)
        raise Bad(f"there is no {'user' if tag == USER else 'group'} {shortened(name)}") from None


def read_entry(text: str, has_perms: bool) -> Entry:
    """An entry as setfacl takes it: `user:lisa:rw`, `g:200:r`, `m::rx`; to be taken out, without permissions."""
    bad = Bad(f"{shortened(text)} is no entry: one is told as {'user:lisa:rw' if has_perms else 'user:lisa'}")
    words = text.split(":")
    kind = kind_of(words[0])
    if len(words) == 2 and has_perms and kind in ("mask", "other"):
        words.insert(1, "")
    if not has_perms and len(words) == 1:
        words.append("")
    if kind is None or len(words) != (3 if has_perms else 2) or (has_perms and set(words[2]) - set("rwx-")):
        raise bad
    if words[1] and kind in ("mask", "other"):
        raise bad
    tag = KINDS[kind][bool(words[1])]
    if not has_perms and tag in (USER_OBJ, GROUP_OBJ, OTHER):
        raise Bad(f"each list has {quoted(text)}: it cannot be taken out")
    return Entry(tag, id_of(tag, words[1]) if words[1] else 0, perms_of(words[2]) if has_perms else 0)


def read_change(text: str, is_put: bool, computes: bool) -> Change:
    """A change by its entry; with `d:` before it, one of a folder's default list."""
    head, _, rest = text.partition(":")
    is_default = head in ("d", "default") and bool(rest)
    return Change(read_entry(rest if is_default else text, is_put), is_put, computes, is_default)


def after(place: Place, entries: List) -> Place:
    """A file with another list: what Linux keeps as the mode's group bits is its mask, where it has one."""
    mask, group, other = find(entries, MASK), find(entries, GROUP_OBJ), find(entries, OTHER)
    owner = find(entries, USER_OBJ)
    bits = [entry.perms if entry else 0 for entry in (owner, mask or group, other)]
    return place._replace(entries=entries, mode=place.mode & ~0o777 | bits[0] << 6 | bits[1] << 3 | bits[2])


class Changed:
    """Which files have another list, by their device and number there."""

    def __init__(self) -> None:
        self.lists: dict[tuple[int, int], List] = {}

    def add(self, place: Place, entries: List) -> None:
        self.lists[place.device, place.inode] = entries

    def place(self, place: Place) -> Place:
        entries = None if place.is_link else self.lists.get((place.device, place.inode))
        return place if entries is None else after(place, entries)

    def ways(self, found: Iterable[Way]) -> list[Way]:
        return [one._replace(places=[*map(self.place, one.places)]) for one in found]


class Powers(NamedTuple):
    """Who may read, write and execute something, those alone who come to it; and who comes to it."""

    of_bit: dict[int, Seen]
    to: Seen


def powers(crowd: Crowd, to: Seen, place: Place, programs: list[Way]) -> Powers:
    """What a crowd may of a place to which these come; a script's interpreters count too."""
    crowd.ask((place, bit) for _, bit in BITS)
    found = {bit: to.then(crowd.at(place, bit)) for _, bit in BITS}
    if programs:
        found[EXECUTE] = found[EXECUTE].then(crowd.through(programs))
    return Powers(found, to)


def gained(before: Powers, later: Powers) -> dict[int, int]:
    """Who gains each permission."""
    return {bit: later.of_bit[bit].may & ~before.of_bit[bit].may for _, bit in BITS}


def moved(before: Powers, later: Powers) -> list[tuple[str, int]]:
    """Who gains what and who loses what: words, and people."""
    found = []
    for word, more in (("gains", gained(before, later)), ("loses", gained(later, before))):
        for perms in range(1, 8):
            who = functools.reduce(operator.and_, (one if perms & bit else ~one for bit, one in more.items()))
            found += [(f"{word} {short(perms)}", who)] if who else []
    return sorted(found)


def unjudged_of(*given: Powers) -> list[str]:
    """Why it is not judged who has some permissions."""
    return [seen.why for one in given for seen in one.of_bit.values() if seen.unjudged]


def effect(crowd: Crowd, ways: list[Way], entries: List) -> tuple[Powers, Powers]:
    """What a crowd may of a file before and after a change of its list. A way may lead twice through what is
    changed, and a script may be its own interpreter's."""
    *before, place = ways[0].places
    changed = Changed()
    changed.add(place, entries)
    later = changed.ways([ways[0]._replace(places=before), *ways[1:]])
    return (
        powers(crowd, crowd.along(before), place, ways[1:]),
        powers(crowd, crowd.along(later[0].places), after(place, entries), later[1:]),
    )


def tell_change(callers: list[Caller], change: Change, path: str) -> list[str]:
    """Who gains and who loses what by a change of a file's list, a line each."""
    ways, crowd = ways_of(path, EXECUTE), Crowd(callers)
    if ways[0].end:
        raise ways[0].end
    place = ways[0].places[-1]
    if change.is_default:
        return tell_default(crowd, change, ways[0])
    entries = change.of(place.entries)
    before, later = effect(crowd, ways, entries)
    lines = [f"{quoted(path)}  {list_text(place.entries, name_of)}  would be  {list_text(entries, name_of)}"]
    lines += moved_lines(crowd, before, later)
    away = crowd.every & ~(before.to.may | later.to.may)
    count = bin(away).count("1")
    told = people(crowd.chosen(away)) if count <= 20 else f"{count} users"
    return lines + [f"  stopped on the way, and so left out: {told}"] * bool(away)


def moved_lines(crowd: Crowd, before: Powers, later: Powers) -> list[str]:
    """Who gains and who loses, a line each. Raises `Unread` where that is not judged."""
    for why in unjudged_of(before, later):
        raise Unread(why)
    told = [f"  {what}: {people(crowd.chosen(who))}" for what, who in moved(before, later)]
    return told or ["  nobody gains or loses"]


# ---- what is made in a folder


def umask() -> int:
    now = os.umask(0o077)
    os.umask(now)
    return now


def inherited(default: Optional[List], mode: int) -> List:
    """The list of what is made with this mode in a folder with this default list, if it has one."""
    if default is None:
        return lists.of_mode(mode & ~umask())
    limits = {USER_OBJ: mode >> 6, MASK: mode >> 3, OTHER: mode}
    limits |= {} if find(default, MASK) else {GROUP_OBJ: mode >> 3}
    return tuple(entry._replace(perms=entry.perms & limits.get(entry.tag, 7)) for entry in default)


def new_place(folder: Place, default: Optional[List], is_folder: bool) -> Place:
    """What somebody else makes in a folder."""
    kind, mode = (0o040000, NEW_FOLDER) if is_folder else (0o100000, NEW_FILE)
    group = folder.group if folder.mode & 0o2000 else NOBODY
    made = Place(folder.path, 0, NOBODY, group, kind, (), folder.mount, 0, folder.device)
    return after(made, inherited(default, mode))


def tell_default(crowd: Crowd, change: Change, found: Way) -> list[str]:
    """What a change of a folder's default list does to what will be made there."""
    folder = found.places[-1]
    if not folder.is_folder:
        raise Bad("only a folder has a default list")
    try:
        now = lists.kept(folder.path, lists.DEFAULT)
    except OSError as error:
        raise unread(folder.path, error.errno) from None
    then = change.of(now if now is not None else unnamed(folder.entries) if change.is_put else ())
    told = "none" if now is None else list_text(now, name_of)
    lines = [f"{quoted(found.path)}  default list {told}  would be  {list_text(then, name_of)}"]
    reach = crowd.along([*found.places[:-1], folder._replace(wanted=EXECUTE)])
    for what, is_folder in (("file", False), ("folder", True)):
        old, new = new_place(folder, now, is_folder), new_place(folder, then, is_folder)
        made = f"  a new {what}  {list_text(old.entries, name_of)}  would be  {list_text(new.entries, name_of)}"
        lines.append(made)
        told_of = moved_lines(crowd, powers(crowd, reach, old, []), powers(crowd, reach, new, []))
        lines += [f"  {line}" for line in told_of]
    return lines


# ---- under a tree


def tell_change_under(callers: list[Caller], change: Change, top: str) -> Iterator[str]:
    """Who gains and who loses what by a change of each list of a tree, a line a path; one is taken out where it is.
    Last a sentence; raises `Unread` where something was not judged."""
    tree, crowd, changed = Tree(top), Crowd(callers), Changed()
    for part in tree.parts():
        SAYER.at(len(tree.rows))
        for row in (tree.rows[at] for at in part):
            if row.target is None and (change.is_put or change.is_in(row.place.entries)):
                changed.add(row.place, change.of(row.place.entries))
    reach, later = Reach(crowd, tree), Reach(crowd, tree, changed.place)
    count, why = 0, list(tree.unread)
    for at, row in enumerate(tree.rows):
        if at % 2000 == 0:
            for one in (reach, later):
                one.ask(range(at, min(at + 2000, len(tree.rows))), [bit for _, bit in BITS])
            SAYER.at(at)
        to, then = reach.add(at), later.add(at)
        if row.target is not None:
            continue
        programs = interpreters(Way(row.path, [row.place])) if row.place.is_file else []
        old = powers(crowd, to, row.place, programs)
        new = powers(crowd, then, changed.place(row.place), changed.ways(programs))
        why += unjudged_of(old, new)[:1]
        told = [f"{what}: {people(crowd.chosen(who))}" for what, who in moved(old, new)]
        if told:
            count += 1
            yield f"{quoted(row.path)}  {'; '.join(told)}"
    yield f"lists that would change: {len(changed.lists):,} of {len(tree.rows):,}; paths where who may what: {count:,}"
    if why:
        raise Unread("\n".join(dict.fromkeys(why)))
