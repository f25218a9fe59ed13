"""Which votes so many servers may have, so that reads and writes go on without some of them (`./suites votes --of`).

Each way to share votes is judged by what it costs and what it bears: how many requests a read and a write of a file
take that has them, in a root folder that has them too, how many servers each may lose, and the chances that each is
blocked, and that it is not done at the first try, since votes or its home are down.
"""
import collections
import fractions
import functools
import itertools
import typing

# Up to so many servers one may have up to MOST votes; of more servers all that have a vote have one.
WITH_WEIGHTS, MOST = 5, 3
Chance = fractions.Fraction


class Shape(typing.NamedTuple):
    """Votes, and what they cost and bear: of a read and of a write each."""

    word: str
    requests: tuple[int, int]
    lost: tuple[int, int]
    blocked: tuple[Chance, Chance]

    def is_better(self, other: "Shape") -> bool:
        """Whether it is as good in all, and better in something."""
        pairs: list[tuple[Chance, Chance]] = [*zip(self.blocked, other.blocked)]
        pairs += [(Chance(own), Chance(theirs)) for own, theirs in zip(self.requests, other.requests)]
        pairs += [(Chance(theirs), Chance(own)) for own, theirs in zip(self.lost, other.lost)]
        return all(own <= theirs for own, theirs in pairs) and any(own < theirs for own, theirs in pairs)


def members(shares: tuple[int, ...], needed: int) -> int:
    """How many servers are asked, in listed order, until they have the votes."""
    return next(count for count in range(1, len(shares) + 1) if sum(shares[:count]) >= needed)


def may_be_lost(shares: tuple[int, ...], needed: int) -> int:
    """So many servers, whichever they are, may be down: those with the most votes are the worst to lose."""
    falling, left = sorted(shares, reverse=True), sum(shares)
    return next(count for count in range(len(shares)) if left - sum(falling[: count + 1]) < needed)


def cases_up(shares: typing.Sequence[int], needed: int, up: Chance) -> tuple[int, int]:
    """In how many cases the votes are up, each weighed as it is likely, and how many servers are down in them."""
    weights = up.numerator, up.denominator - up.numerator
    cases = {0: (1, 0)}
    for share in shares:
        after: dict[int, tuple[int, int]] = collections.defaultdict(lambda: (0, 0))
        for votes, (count, down) in cases.items():
            for is_down, weight in enumerate(weights):
                to = votes if is_down else min(needed, votes + share)
                before = after[to]
                after[to] = before[0] + weight * count, before[1] + weight * (down + is_down * count)
        cases = after
    return cases.get(needed, (0, 0))


@functools.cache
def blocked(shares: tuple[int, ...], needed: int, up: Chance) -> Chance:
    """The chance that fewer votes are up than are needed."""
    return 1 - Chance(cases_up(shares, max(0, needed), up)[0], up.denominator ** len(shares))


def not_at_first(shares: tuple[int, ...], needed: int, up: Chance) -> Chance:
    """The chance that the votes or the home are down, where each server is equally often the home."""
    done = Chance(0)
    for home, share in enumerate(shares):
        others = sorted(shares[:home] + shares[home + 1 :])
        done += up * (1 - blocked(tuple(others), needed - share, up))
    return 1 - done / len(shares)


def requests(shares: tuple[int, ...], r: int, w: int) -> tuple[int, int]:
    """The requests of a read and a write: locks and a fetch of folder and file, prepare, decide, finish."""
    readers, writers = members(shares, r), members(shares, w)
    both = max(readers, writers)
    return readers + 1 + readers + 1 + readers + 1 + readers, readers + 1 + writers + both + 1 + both


def shape_of(shares: tuple[int, ...], r: int, w: int, up: Chance) -> Shape:
    word = f"{','.join(map(str, shares))}/{r}/{w}"
    lost = may_be_lost(shares, r), may_be_lost(shares, w)
    return Shape(word, requests(shares, r, w), lost, (blocked(shares, r, up), blocked(shares, w, up)))


def all_shares(servers: int) -> typing.Iterator[tuple[int, ...]]:
    """The ways to share votes. The server with the most stands first, since it is asked first."""
    most = MOST if servers <= WITH_WEIGHTS else 1
    for falling in itertools.combinations_with_replacement(range(most, -1, -1), servers):
        if falling[0]:
            yield falling


def best(servers: int, lose: tuple[int, int], up: Chance) -> list[Shape]:
    """The shapes whose reads and writes bear these losses, and of which no other one is better, the cheapest first."""
    found: dict[tuple[object, ...], Shape] = {}
    for shares in all_shares(servers):
        total = sum(shares)
        for w in range(total // 2 + 1, total + 1):
            # a read that collected more than it must would be blocked more often
            r = max(1, total - w + 1)
            if may_be_lost(shares, r) >= lose[0] and may_be_lost(shares, w) >= lose[1]:
                shape = shape_of(shares, r, w, up)
                kept = found.setdefault(shape[1:], shape)
                found[shape[1:]] = min(kept, shape, key=lambda one: (len(one.word), one.word))
    shapes = [shape for shape in found.values() if not any(other.is_better(shape) for other in found.values())]
    return sorted(shapes, key=lambda shape: (sum(shape.requests), sum(shape.blocked), shape.word))
