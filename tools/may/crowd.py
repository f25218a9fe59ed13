"""Many people at once: whom of them Linux lets, as bits of a number, of which the first account is the lowest."""
from __future__ import annotations

from typing import Iterable, NamedTuple

from may import linux
from may.lists import GROUP, USER, Unread
from may.people import Caller
from may.program import answers, question
from may.scripts import is_refused
from may.ways import Place, Way


class Seen(NamedTuple):
    """Whom Linux lets at a place, and of whom that is not judged, with the reason."""

    may: int
    unjudged: int = 0
    why: str = ""

    def then(self, other: Seen) -> Seen:
        """Whom Linux lets at both places, one after the other."""
        unjudged = self.unjudged | self.may & other.unjudged
        return Seen(self.may & other.may, unjudged, self.why or (other.why if unjudged else ""))


class Crowd:
    """People, and what was asked of them."""

    def __init__(self, callers: list[Caller]) -> None:
        self.callers, self.every = callers, (1 << len(callers)) - 1
        self.of_user: dict[int, int] = {}
        self.of_group: dict[int, int] = {}
        for at, caller in enumerate(callers):
            self.of_user[caller.uid] = self.of_user.get(caller.uid, 0) | 1 << at
            for group in {caller.gid, *caller.groups}:
                self.of_group[group] = self.of_group.get(group, 0) | 1 << at
        self.seen: dict[object, Seen] = {}

    def chosen(self, bits: int) -> list[Caller]:
        return [caller for at, caller in enumerate(self.callers) if bits >> at & 1]

    def first(self, bits: int) -> Caller:
        return self.callers[(bits & -bits).bit_length() - 1]

    def parts(self, *places: Place) -> list[int]:
        """The people, parted by what lists and Linux can tell of them at places, in the order of the first ones."""
        users, groups = {0}, set[int]()
        for place in places:
            users |= {place.owner, *(entry.id for entry in place.entries if entry.tag == USER)}
            groups |= {place.group, *(entry.id for entry in place.entries if entry.tag == GROUP)}
            if place.folder:
                users.add(place.folder.st_uid)
                groups.add(place.folder.st_gid)
        parts = [self.every] if self.every else []
        chosen = [own[one] for own, ids in ((self.of_user, users), (self.of_group, groups)) for one in ids & own.keys()]
        for some in chosen:
            parts = [piece for part in parts for piece in (part & some, part & ~some) if piece]
        return sorted(parts, key=lambda part: part & -part)

    def key(self, place: Place, wanted: int) -> object:
        """What all that is said of a place stands on."""
        if place.is_link or place.mount.kind in ("proc", "btrfs"):
            return place, wanted
        return place.owner, place.group, place.mode, place.entries, place.mount.id, place.attributes, wanted

    def ask(self, wanted: Iterable[tuple[Place, int]]) -> None:
        """Asks what was not asked yet, all at once."""
        new = {self.key(place, one): (place, one) for place, one in wanted}
        left = [(key, *new[key], part) for key in new if key not in self.seen for part in self.parts(new[key][0])]
        asked = (question(place, self.first(part), one) for _, place, one, part in left if not place.is_link)
        given = iter(answers(asked))
        self.seen |= {key: Seen(0) for key in new if key not in self.seen}
        for key, place, one, part in left:
            said = linux.of_place(place, self.first(part), "" if place.is_link else next(given), one)
            seen = self.seen[key]
            if said.grants is None:
                self.seen[key] = seen._replace(unjudged=seen.unjudged | part, why=said.why)
            elif said.grants:
                self.seen[key] = seen._replace(may=seen.may | part)

    def at(self, place: Place, wanted: int = 0) -> Seen:
        """Whom Linux lets at a place."""
        key = self.key(place, wanted or place.wanted)
        if key not in self.seen:
            self.ask([(place, wanted or place.wanted)])
        return self.seen[key]

    def along(self, places: Iterable[Place]) -> Seen:
        """Whom Linux lets at some places, one after the other, each for what is wanted there."""
        given = list(places)
        self.ask((place, place.wanted) for place in given)
        seen = Seen(self.every)
        for place in given:
            seen = seen.then(self.at(place))
        return seen

    def through(self, ways: Iterable[Way]) -> Seen:
        """Whom Linux lets along ways to their ends, as those to interpreters."""
        seen = Seen(self.every)
        for found in ways:
            seen = seen.then(self.along(found.places))
            if found.end:
                return seen.then(ended(found.end, self.every))
        return seen


def ended(end: Unread, every: int) -> Seen:
    """Whom Linux lets where a way ends before its path."""
    return Seen(0) if is_refused(end) else Seen(0, every, str(end))
