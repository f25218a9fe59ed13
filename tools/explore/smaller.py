"""A smaller script with the same answer: events are dropped, one part after the other, as long as jobs end as they did.

What stands above `together` stays as it is. Of an agent one of whose jobs has to end as it did no job before that is
dropped, since jobs are told by their numbers.
"""
import collections
import itertools
import re
import typing

from common import built
from explore import queries

STEPS = re.compile(r"step (\d+) (\d+)$")
OUTCOME = re.compile(r"(\d+\.\d+) \d+ (.*)$")
BEGINS = ("begin", "sweep")


def outcomes(lines: typing.Sequence[str], jobs: typing.Collection[str]) -> dict[str, str] | None:
    """How some jobs end where these lines are played; nothing, where they are not."""
    status, printed = built.asked("play", "\n".join([*lines, ""]))
    told = (OUTCOME.match(line) for line in printed.splitlines())
    found = {one[1]: one[2] for one in told if one and one[1] in jobs}
    return None if status else found


def apart(lines: typing.Iterable[str]) -> list[str]:
    """Events, each on a line of its own."""
    told: list[str] = []
    for line in lines:
        many = STEPS.match(line)
        told += [f"step {many[1]}"] * int(many[2]) if many else [line]
    return told


def joined(events: typing.Iterable[str]) -> list[str]:
    """Events as lines: steps in a row are one."""
    lines: list[str] = []
    for event, alike in itertools.groupby(events):
        count = len(list(alike))
        is_many = count > 1 and event.startswith("step ")
        lines += [f"{event} {count}"] if is_many else [event] * count
    return lines


def agents_begun(lines: typing.Iterable[str]) -> typing.Iterator[str]:
    """The agents that begin jobs in these lines, one for each."""
    for line in lines:
        words = queries.words_of(line.partition("#")[0])
        if words[:1] and words[0] in BEGINS:
            yield words[1]


class Smaller:
    """Drops events of a script, of which the first lines stay, as long as some jobs end as they do."""

    def __init__(self, script: str, above: int, jobs: typing.Collection[str]) -> None:
        lines = script.splitlines()
        self.above, self.events, self.jobs = lines[:above], apart(lines[above:]), jobs
        self.wanted = outcomes(lines, jobs)
        # of each agent the last of these jobs, which begins where so many have begun
        last = dict(sorted((agent, int(number)) for agent, number in (job.split(".") for job in jobs)))
        counts = collections.Counter(agents_begun(self.above))
        self.stays = set[int]()
        for place, (first, agent) in enumerate(event.split()[:2] for event in self.events):
            if first in BEGINS:
                self.stays |= {place} if counts[agent] <= last.get(agent, -1) else set()
                counts[agent] += 1

    def lines(self, places: typing.Iterable[int]) -> list[str]:
        """The script with the events at these places."""
        return [*self.above, *joined(self.events[place] for place in places)]

    def without(self, places: list[int], some: typing.Iterable[int]) -> list[int]:
        """These places without some, where the jobs end as before; else all of them."""
        fewer = [place for place in places if place in self.stays or place not in some]
        is_same = len(fewer) < len(places) and outcomes(self.lines(fewer), self.jobs) == self.wanted
        return fewer if is_same else places

    def least(self) -> str:
        """The script, once no part of it can be dropped any more."""
        agents = [event.split()[1] for event in self.events]
        left, size = list(range(len(agents))), len(agents)
        for own in dict.fromkeys(agents):
            left = self.without(left, {place for place, agent in enumerate(agents) if agent == own})
        while size:
            for some in [left[first : first + size] for first in range(0, len(left), size)]:
                left = self.without(left, set(some))
            size //= 2
        return "\n".join([*self.lines(left), ""])
