"""What in a tree does not do what it says, or lets more than it seems to. Nothing is changed. A command that would mend
something is told only where `--with` or `--without` shows that just those gain whom its entry names, and nobody loses.
"""
import contextlib
import functools
import grp
import pwd
import stat
from typing import Iterable, Iterator, NamedTuple, Optional

from may import linux, lists, mounts, people
from may.changes import Change, after, effect, gained, unjudged_of
from may.crowd import Crowd
from may.everybody import Reach
from may.lists import (
    BITS, GROUP, GROUP_OBJ, LIMITED, MASK, OTHER, USER, USER_OBJ, WORDS, Bad, Entry, Unread, entry_text, fault, find,
    letters, mask_of, name_of, shell_quoted, union, who,
)
from may.saying import SAYER
from may.scripts import interpreters
from may.trees import Row, Tree
from may.ways import SEARCH, WRITE, Place, Way


class Mend(NamedTuple):
    """What may mend something: a change of one path's list, and who should gain by it."""

    change: Change
    path: str
    ways: list[Way]
    named: int

    def command(self) -> str:
        """The setfacl that makes the change, as a shell takes it."""
        entry, flags = self.change.entry, "" if self.change.computes else "-n "
        named = f"{WORDS[entry.tag][0]}:{entry.id if entry.tag in (USER, GROUP) else ''}"
        words = f"-m {named}:{letters(entry.perms)}" if self.change.is_put else f"-x {named}"
        return f"setfacl {flags}{words} -- {shell_quoted(self.path)}"


class Finding(NamedTuple):
    """What is wrong with a path, and what may mend it, the best first."""

    path: str
    what: str
    mends: tuple[Mend, ...] = ()


@functools.cache
def has_account(tag: int, one: int) -> bool:
    try:
        _ = pwd.getpwuid(one) if tag == USER else grp.getgrgid(one)
        return True
    except (KeyError, OverflowError):
        return False


class Lint:
    """A tree, the people of this machine, and what is found."""

    def __init__(self, top: str) -> None:
        self.tree, self.crowd = Tree(top), Crowd(people.accounts())
        self.reach = Reach(self.crowd, self.tree)

    def named(self, entry: Entry, place: Place) -> int:
        """Whom an entry is about."""
        if entry.tag in (USER, USER_OBJ):
            return self.crowd.of_user.get(entry.id if entry.tag == USER else place.owner, 0)
        if entry.tag in (GROUP, GROUP_OBJ):
            return self.crowd.of_group.get(entry.id if entry.tag == GROUP else place.group, 0)
        return self.crowd.every

    def way_to(self, at: int) -> Way:
        """The way to a row, through the folders of the tree."""
        row = self.tree.rows[at]
        path, places, is_top = row.path, [row.place], row.folder is None
        while row.folder is not None:
            row = self.tree.rows[row.folder]
            places.append(row.place._replace(wanted=SEARCH))
        above = self.tree.above.places
        found = Way(path, [*above, *places[::-1]])
        return self.tree.way._replace(path=path) if is_top else found

    def mends(self, at: int, entry: Entry, is_put: bool, named: int) -> tuple[Mend, ...]:
        """Changes of a row's list by one entry: with the mask computed anew, and without."""
        row, to = self.tree.rows[at], self.way_to(at)
        ways = [to, *(interpreters(Way(row.path, [row.place])) if row.place.is_file else ())]
        kinds = (False,) if entry.tag == MASK else (True, False)
        return tuple(Mend(Change(entry, is_put, computes), row.path, ways, named) for computes in kinds)

    def is_good(self, mend: Mend) -> bool:
        """Whether just those gain whom a change should help, and nobody loses."""
        place = mend.ways[0].places[-1]
        if linux.of_kind(place, WRITE) or place.attributes & mounts.APPEND:
            return False
        try:
            entries = mend.change.of(place.entries)
        except Bad:
            return False
        before, later = effect(self.crowd, mend.ways, entries)
        if fault(entries) or unjudged_of(before, later):
            return False
        more = gained(before, later).values()
        helps = mend.named == 0 or any(more)
        harms = any(one & ~mend.named for one in more) or any(gained(later, before).values())
        return helps and not harms

    def ask(self, found: Iterable[Finding]) -> None:
        """Asks at once what is to be known of all that may mend something."""
        wanted: list[tuple[Place, int]] = []
        for mend in (mend for one in found for mend in one.mends):
            place = mend.ways[0].places[-1]
            with contextlib.suppress(Bad):
                for one in (place, after(place, mend.change.of(place.entries))):
                    wanted += [(one, bit) for _, bit in BITS]
        self.crowd.ask(wanted)

    def told(self, found: Finding) -> str:
        """The line of a finding, with the command that would mend it, where one does no harm."""
        mend = next((one for one in found.mends if self.is_good(one)), None)
        return f"{lists.quoted(found.path)}: {found.what}" + (f": {mend.command()}" if mend else "")

    # ---- what is found of one path

    def of_limits(self, at: int, place: Place) -> Iterator[Finding]:
        """Lists that are not judged here."""
        why = fault(place.entries)
        if why:
            yield Finding(self.tree.rows[at].path, why)

    def of_mask(self, at: int, place: Place) -> Iterator[Finding]:
        """Entries of which the mask takes all, and a mask that is empty, so that Linux takes what others have."""
        mask, path = mask_of(place.entries), self.tree.rows[at].path
        if mask is None:
            return
        limited = [entry for entry in place.entries if entry.tag in LIMITED and entry.perms]
        if mask == 0 and limited:
            other = find(place.entries, OTHER)
            perms = other.perms if other else 0
            what = (
                f"its mask is ---, so that Linux gives others::{letters(perms)} to whom it names"
                if perms
                else "its mask is ---, and takes all from whom it names"
            )
            named = 0
            for entry in limited:
                named |= self.named(entry, place)
            yield Finding(path, what, self.mends(at, Entry(MASK, 0, union(place.entries)), True, named))
            return
        for entry in limited:
            if entry.perms & mask == 0:
                what = f"the mask {letters(mask)} takes all of {entry_text(entry, name_of)}"
                wide = Entry(MASK, 0, mask | entry.perms)
                yield Finding(path, what, self.mends(at, wide, True, self.named(entry, place)))

    def of_default(self, at: int, place: Place) -> Iterator[Finding]:
        """What a default list gives that the folder's own list does not."""
        default = lists.kept(place.path, lists.DEFAULT) if place.is_folder else None
        if default is None:
            return
        own_mask, mask = mask_of(place.entries), mask_of(default)
        for entry in default:
            own = find(place.entries, entry.tag, entry.id)
            limited = entry.tag in LIMITED
            gives = entry.perms & (mask if limited and mask is not None else 7)
            has = (own.perms if own else 0) & (own_mask if limited and own_mask is not None else 7)
            if gives & ~has and entry.tag in (USER, GROUP, GROUP_OBJ, OTHER):
                what = f"its default list gives {who(entry)} {letters(gives)}, and the folder's own {letters(has)}"
                yield Finding(self.tree.rows[at].path, what)

    def of_entries(self, at: int, place: Place) -> Iterator[Finding]:
        """Entries of users and groups that have no account, and of the owner, for whom its own entry alone counts."""
        path = self.tree.rows[at].path
        for entry in place.entries:
            if entry.tag == USER and entry.id == place.owner:
                what = f"{entry_text(entry, name_of)} is of the owner, for whom user:: alone counts"
                yield Finding(path, what, self.mends(at, entry, False, 0))
            elif entry.tag in (USER, GROUP) and not has_account(entry.tag, entry.id):
                what = f"{entry_text(entry)} is of nobody with an account here"
                yield Finding(path, what, self.mends(at, entry, False, 0))

    def of_mode(self, at: int, place: Place) -> Iterator[Finding]:
        """Folders and files that all may write, a group that has less than all others, and owners without accounts."""
        path, other, group = self.tree.rows[at].path, place.mode & 7, find(place.entries, GROUP_OBJ)
        mask = mask_of(place.entries)
        of_group = (group.perms if group else 0) & (7 if mask is None else mask)
        if other & WRITE and place.is_folder and other & SEARCH and not place.mode & stat.S_ISVTX:
            yield Finding(path, "all may make and take away names in it, since it is not sticky")
        if other & WRITE and place.is_file:
            yield Finding(path, "all may write it")
        if other & ~of_group and mask != 0:
            what = f"its group has less than all others: group::{letters(of_group)}, other::{letters(other)}"
            yield Finding(path, what)
        if not has_account(USER, place.owner):
            yield Finding(path, f"its owner {place.owner} has no account here")
        if not has_account(GROUP, place.group):
            yield Finding(path, f"its group {place.group} has no entry here")

    def of_reach(self, at: int, place: Place) -> Iterator[Finding]:
        """Entries that the folders on the way make useless to all whom they name."""
        to, mask = self.reach.to[at], mask_of(place.entries)
        for entry in place.entries:
            named = self.named(entry, place) if entry.tag in (USER, GROUP) and entry.perms & (mask or 0) else 0
            if not named or named & (to.may | to.unjudged):
                continue
            yield self.useless(at, entry, named)

    def useless(self, at: int, entry: Entry, named: int) -> Finding:
        """An entry that is of use to nobody: where all whom it names are stopped, and what would let them pass."""
        told, row = f"{entry_text(entry, name_of)} reaches nobody, since", self.tree.rows[at]
        path = row.path
        for place in self.tree.above.places:
            if not named & self.crowd.at(place).may:
                return Finding(path, f"{told} {place.shown} stops whom it names")
        folders = []
        while row.folder is not None:
            folders.append(row.folder)
            row = self.tree.rows[row.folder]
        for folder in reversed(folders):
            place = self.tree.rows[folder].place
            if not named & self.crowd.at(place, SEARCH).may:
                has = find(place.entries, entry.tag, entry.id)
                perms = (has.perms if has else 0) | SEARCH
                mends = self.mends(folder, Entry(entry.tag, entry.id, perms), True, named)
                shown = lists.quoted(self.tree.rows[folder].path)
                return Finding(path, f"{told} {shown} stops whom it names", mends)
        return Finding(path, f"{told} each whom it names is stopped on the way")

    # ---- all of it

    def findings(self, some: Iterable[int]) -> Iterator[Finding]:
        for at in some:
            self.reach.add(at)
            row = self.tree.rows[at]
            for part in (self.of_limits, self.of_mask, self.of_default, self.of_entries, self.of_mode, self.of_reach):
                try:
                    yield from part(at, row.place) if row.target is None else ()
                except Unread as error:
                    self.tree.unread.append(str(error))
                except OSError as error:
                    self.tree.unread.append(f"{lists.quoted(row.path)}: {error.strerror}")

    def unjudged(self, row: Row) -> Optional[str]:
        other = row.place.mount.unjudged(row.place.path) if row.target is None else None
        return f"not judged here: {other}" if other else None

    def lines(self) -> Iterator[str]:
        """A line for each finding, as they are found; what is not judged is kept in `tree.unread`."""
        for some in self.tree.parts():
            self.reach.ask(some, ())
            findings = list(self.findings(some))
            self.ask(findings)
            yield from map(self.told, findings)
            for at in some:
                why = self.unjudged(self.tree.rows[at])
                self.tree.unread += [why] if why and why not in self.tree.unread else []
            SAYER.at(len(self.tree.rows))
