"""How an agent finds the votes of a file or folder, where its cache has no hint: it begins at the opening votes.

It asks the servers that have a vote by the newest votes that it has met, in listed order. One that has a newer copy
of the list and votes tells of newer votes, which count from then on (votes.py tells what that may miss).
"""
import itertools
import typing

# Up to so many servers that matter all sets of them are tried; of more those of up to so many servers.
ALL_OF, FEW = 12, 3


class Word(typing.NamedTuple):
    """Votes as a script writes them: of each server from 0 on, and how many a read and a write collect."""

    shares: tuple[int | None, ...]
    r: int
    w: int

    def text(self) -> str:
        return f"{','.join('-' if share is None else str(share) for share in self.shares)}/{self.r}/{self.w}"


class Found(typing.NamedTuple):
    """How a search ended: with votes enough of the newest that it met, or with so many of those that it needs."""

    is_found: bool
    got: int
    needed: int
    votes: Word


def word_of(text: str) -> Word:
    """The votes that valid text writes down."""
    fields, r, w = text.split("/")
    return Word(tuple(None if field == "-" else int(field) for field in fields.split(",")), int(r), int(w))


class Suite(typing.NamedTuple):
    """A file or folder: the votes with which a search begins, and of each server a version and its votes."""

    opening: Word
    copies: dict[int, tuple[int, Word]]

    def newest(self) -> Word:
        return max(self.copies.values(), key=lambda copy: copy[0])[1] if self.copies else self.opening

    def search(self, down: frozenset[int], is_read: bool = True) -> Found:
        """How a search by a fresh agent ends, where these servers are down and no lock is in the way."""
        version, votes, held, asked = 0, self.opening, set[int](), set[int]()
        while True:
            needed = votes.r if is_read else votes.w
            got = sum(share or 0 for server, share in enumerate(votes.shares) if server in held)
            left = (server for server, share in enumerate(votes.shares) if share and server not in asked)
            server = None if got >= needed else next(left, None)
            if server is None:
                return Found(got >= needed, got, needed, votes)
            asked.add(server)
            if server not in down:
                held.add(server)
                shown = self.copies.get(server, (0, self.opening))
                version, votes = shown if shown[0] > version else (version, votes)

    def is_up(self, down: frozenset[int], is_read: bool = True) -> bool:
        """Whether enough of its own votes are up."""
        votes = self.newest()
        got = sum(share or 0 for server, share in enumerate(votes.shares) if server not in down)
        return got >= (votes.r if is_read else votes.w)

    def matters(self) -> list[int]:
        """The servers that a search may ask, and those of the votes."""
        known = [self.opening, *(votes for _, votes in self.copies.values())]
        return sorted({server for votes in known for server, share in enumerate(votes.shares) if share})

    def is_missed(self, down: frozenset[int], is_read: bool = True) -> bool:
        return self.is_up(down, is_read) and not self.search(down, is_read).is_found

    def missed(self, is_read: bool = True) -> typing.Iterator[frozenset[int]]:
        """The least sets of servers with which down the votes are up and are not found."""
        servers, least = self.matters(), list[frozenset[int]]()
        for size in range(len(servers) + 1 if len(servers) <= ALL_OF else FEW + 1):
            for some in itertools.combinations(servers, size):
                chosen = frozenset(some)
                if not any(one <= chosen for one in least) and self.is_missed(chosen, is_read):
                    least.append(chosen)
                    yield chosen
