"""Who may? Everybody with an account here, by the entry that grants or denies."""
import collections
import itertools
from typing import Callable, Iterable, Iterator, NamedTuple, Optional

from may import linux, names
from may.crowd import Crowd, Seen
from may.lists import Unread, entry_text, letters, name_of, quoted, who
from may.names import Target
from may.people import Caller
from may.program import answers, decider, granting, question
from may.saying import SAYER
from may.scripts import interpreters, is_refused, ways_of
from may.telling import short
from may.trees import Tree
from may.ways import EXECUTE, SEARCH, Place, Way


class Found(NamedTuple):
    """Where a caller's way ends: at the place that denies or the last one; the answer, and what Linux does there."""

    place: Place
    answer: str
    said: linux.Said


def end_of(caller: Caller, ways: list[Way], told: dict[object, str]) -> Found:
    """Where the way of a caller ends, by what the program answers."""
    found = None
    for number, one in enumerate(ways):
        for place in one.places:
            answer = "" if place.is_link else told[question(place, caller)]
            here = Found(place, answer, linux.of_place(place, caller, answer))
            if not here.said.grants:
                return here
            found = here if number == 0 else found
        if one.end and found:
            # only ways to interpreters end so, since the first one was looked at before
            why = f"a script for {quoted(one.path)}: {one.end}"
            return found._replace(said=linux.Said(False if is_refused(one.end) else None, why))
    assert found
    return found


def ends(callers: list[Caller], ways: list[Way]) -> list[Found]:
    places = [place for one in ways for place in one.places if not place.is_link]
    asked = [question(place, caller) for caller in callers for place in places]
    told: dict[object, str] = dict(zip(asked, answers(asked)))
    return [end_of(caller, ways, told) for caller in callers]


def by_entry(end: Found) -> str:
    """What denied, as the end of a line."""
    if end.said.why:
        return f": {end.said.why}"
    return f" by {entry_text(decider(end.place.entries, end.answer), name_of)}"


def people(part: Iterable[Caller]) -> str:
    return ", ".join(quoted(one.name) for one in part)


def refused(target: Target, verb: str, caller: Caller, found: Found) -> Found:
    """What is told of who may change the folder, but perhaps not this name in it."""
    if not found.said.grants:
        return found
    no = names.no_name(target, caller, verb)
    return found._replace(said=linux.Said(False, no)) if no else found


def tell_who(callers: list[Caller], wanted: int, path: str, verb: str = "") -> list[str]:
    """Who may and who may not, also make or take away a name (`verb`), a line each, by what grants or denies."""
    target: Optional[Target] = names.target_of(path) if verb else None
    ways = [target.way] if target else ways_of(path, wanted)
    if ways[0].end:
        raise ways[0].end
    places = [place for one in ways for place in one.places]
    places += [target.there] if target and target.there else []
    crowd = Crowd(callers)
    parts = [crowd.chosen(part) for part in crowd.parts(*places)]
    firsts = [part[0] for part in parts]
    every, last = ends(firsts, ways), ways[0].places[-1]
    if target:
        every = [refused(target, verb, caller, found) for caller, found in zip(firsts, every)]
    unjudged = next((end.said.why for end in every if end.said.grants is None), None)
    if unjudged:
        raise Unread(unjudged)
    return lines_of(parts, every, last, f"{quoted(path)}  {verb or letters(wanted)}")


def lines_of(parts: list[list[Caller]], every: list[Found], last: Place, head: str) -> list[str]:
    """The lines about parts of people, by where the way of each part ends."""
    # whom Linux lets by the list alone
    listed = [part[0] for part, end in zip(parts, every) if end.said.grants and not end.said.why]
    entries = iter(granting([question(last, caller) for caller in listed]))
    grants: dict[str, list[Caller]] = {}
    stops: dict[tuple[str, str], list[Caller]] = {}
    for part, end in zip(parts, every):
        if end.said.grants:
            by = f"({end.said.why.partition(',')[0]})" if end.said.why else f"by {who(next(entries))}"
            grants.setdefault(by, []).extend(part)
        else:
            where = f"{'denied' if end.place is last else 'stopped'} at {end.place.shown}"
            stops.setdefault((where, by_entry(end)), []).extend(part)
    told = "; ".join(f"{people(part)} {by}" for by, part in grants.items())
    stopped = [f"  {where}: {people(part)}{why}" for (where, why), part in stops.items()]
    return [f"{head}  {told or 'nobody with an account here'}", *stopped]


# ---- under a tree


class Reach:
    """Whom the folders of a tree let pass to what is in them, as they are or as they would be."""

    def __init__(self, crowd: Crowd, tree: Tree, place: Callable[[Place], Place] = lambda place: place) -> None:
        self.crowd, self.tree, self.place = crowd, tree, place
        self.above, self.to_top = (crowd.along(map(place, way.places)) for way in (tree.above, tree.to_top))
        # of each row whom its folder lets come to it, and whom it lets come to what is in it
        self.to: list[Seen] = []
        self.within: list[Seen] = []

    def ask(self, some: range, wanted: Iterable[int]) -> None:
        """Asks at once all that is asked of some rows."""
        places = [self.place(row.place) for row in (self.tree.rows[at] for at in some) if row.target is None]
        searches = [(place, SEARCH) for place in places if place.is_folder]
        self.crowd.ask([*searches, *((place, one) for place in places for one in wanted)])

    def add(self, at: int) -> Seen:
        """Whom the folders let come to a row, which comes behind those before it."""
        row = self.tree.rows[at]
        above = self.above if row.folder is None else self.within[row.folder]
        is_folder = row.target is None and row.place.is_folder
        self.within.append(above.then(self.crowd.at(self.place(row.place), SEARCH)) if is_folder else above)
        self.to.append(self.to_top if row.folder is None else above)
        return self.to[at]


def lines_of_many(paths: dict[int, list[str]], crowd: Crowd, wanted: int, most: Optional[int]) -> Iterator[str]:
    """A line for the people who may the same of many paths, which are told by who alone may something of them."""
    alike: dict[tuple[int, ...], list[Caller]] = {}
    for at, caller in enumerate(crowd.callers):
        alike.setdefault(tuple(may for may in paths if may >> at & 1), []).append(caller)
    counted = [(sum(len(paths[may]) for may in sets), sets, part) for sets, part in alike.items()]
    total = sum(map(len, paths.values()))
    for count, sets, part in sorted(counted, key=lambda one: -one[0]):
        some = list(map(quoted, itertools.islice((path for may in sets for path in paths[may]), most)))
        named = f": {', '.join(some)}{', ..' if count > len(some) else ''}" if count else ""
        yield f"{people(part)}  may {short(wanted)} {count:,} of {total:,}{named}"


def tell_who_under(callers: list[Caller], wanted: int, top: str, has_all: bool) -> tuple[list[str], list[str]]:
    """Who may anything under a tree, a line for people who may the same paths, and why some is not judged."""
    tree, crowd, unjudged = Tree(top), Crowd(callers), collections.Counter[str]()
    reach, paths = Reach(crowd, tree), collections.defaultdict[int, list[str]](list)
    for part in tree.parts():
        reach.ask(part, [wanted])
        for at in part:
            to, row = reach.add(at), tree.rows[at]
            if row.target is not None:
                continue
            seen = to.then(crowd.at(row.place, wanted))
            if wanted & EXECUTE and row.place.is_file and seen.may:
                seen = seen.then(crowd.through(interpreters(Way(row.path, [row.place]))))
            if seen.unjudged:
                unjudged[seen.why] += 1
            paths[seen.may].append(row.path)
        SAYER.at(len(tree.rows))
    left_out = [f"{why} ({count:,} paths)" if count > 1 else why for why, count in unjudged.items()]
    return list(lines_of_many(paths, crowd, wanted, None if has_all else 3)), tree.unread + left_out
