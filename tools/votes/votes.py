"""./suites votes VOTES, --script FILE or --of N: what votes bear; help/votes.txt tells all of it."""
import argparse
import collections
import decimal
import fractions
import functools
import itertools
import re
import sys
import typing

from common import console, quoted, text_of
from explain import explain, reasons
from trace.events import events_of
from trace.paths import paths
from votes import search, shapes
from votes.reading import MOST_SERVERS, Fault, Votes, votes_of

MOST_AGENTS = 64
# How many sets of servers, and how many names, are told at most.
TOLD = 20
ABOUT = (
    "Of one file or folder alone: of each folder on its path, from the root folder on, the votes of a read have to"
    " be up too.",
    "And of votes alone. Any server may be the home of a transaction, also one without a vote. If it is lost in the"
    " middle of one that has prepared, what that one locked is in doubt: others end U2 there, until this server is"
    " back and a sweep is made.",
)
MISSED = (
    "Where these servers are down the votes are up and are not found: an agent without a hint in its cache begins at"
    " the opening votes, {}, and ends U1 by them. So nothing can leave its opening servers entirely, and least of all"
    " the root folder."
)
AGENTS = re.compile(rb"^([ \t]*agents[ \t]+)(\d+)", re.M)
SERVERS = re.compile(rb"^[ \t]*servers[ \t]+(\d+)", re.M)
OPENING = re.compile(rb"^[ \t]*votes[ \t]+(\S+)", re.M)
filled = functools.partial(quoted.filled, width=110)
FORM = """VOTES are written as 1,1,1/2/2: the votes of servers 0, 1, .. with commas between them (- for one that is left
out), behind a slash r, the votes that a read collects, and behind another one w, those of a write. With N votes in all,
r and w are at most N, r + w is above N, and so is 2w."""


def chances(
    shares: typing.Sequence[int], needed: int, up: fractions.Fraction
) -> tuple[fractions.Fraction, fractions.Fraction]:
    """The chance that fewer votes are up than are needed; and the mean share of servers that are down else."""
    count, down = shapes.cases_up(shares, needed, up)
    whole = up.denominator ** len(shares)
    return 1 - fractions.Fraction(count, whole), fractions.Fraction(down, count * len(shares))


class LeastSets:
    """The least sets of servers that have at least so many votes: without any one of a set the others have fewer."""

    def __init__(self, shares: typing.Sequence[int], votes: int) -> None:
        self.voters = [(server, share) for server, share in enumerate(shares) if share]
        self.values = sorted({share for _, share in self.voters})
        self.votes = votes

    def count(self) -> int:
        """How many there are: of each set, the last in falling order of votes is the one that is least to be spared."""
        ways, total = collections.Counter({0: 1}), 0
        for share in sorted((share for _, share in self.voters), reverse=True):
            total += sum(sets for votes, sets in ways.items() if votes + share >= self.votes)
            for votes, sets in list(ways.items()):
                if votes + share < self.votes:
                    ways[votes + share] += sets
        return total

    def __iter__(self) -> typing.Iterator[tuple[int, ...]]:
        """The sets, the smallest first, and those of a size in the order of their servers."""
        for size in range(1, len(self.voters) + 1):
            yield from self.of_size(0, size, 0, self.values[-1])

    def of_size(self, place: int, size: int, has: int, least: int) -> typing.Iterator[tuple[int, ...]]:
        """What completes a set with these votes, the fewest of one server among them, by servers from a place on."""
        if size == 0:
            yield ()
            return
        for at in range(place, len(self.voters)):
            server, share = self.voters[at]
            rest = at + 1, size - 1, has + share, min(least, share)
            if self.is_completed(*rest):
                for others in self.of_size(*rest):
                    yield (server, *others)

    def is_completed(self, place: int, size: int, has: int, least: int) -> bool:
        """Whether anything does so: with a server of some votes as the least one, the set has less to spare."""
        wanting = max(self.votes - has, 0)
        for value in self.values:
            spare = self.votes + value - has - wanting
            if value <= least and spare > 0 and self.sums(place, size, value) >> wanting & ((1 << spare) - 1):
                return True
        return False

    @functools.cache
    def sums(self, place: int, size: int, least: int) -> int:
        """The sums of votes that so many of the servers from a place on have, each with at least so many, as bits."""
        if size == 0 or place == len(self.voters):
            return int(size == 0)
        share = self.voters[place][1]
        with_it = self.sums(place + 1, size - 1, least) << share if share >= least else 0
        return self.sums(place + 1, size, least) | with_it


def chance_text(chance: fractions.Fraction) -> str:
    """A chance with two digits, as 2.0e-4."""
    return f"{decimal.Decimal(chance.numerator) / chance.denominator:.1e}" if chance else "0"


def listed(first: str, words: list[str], count: int) -> str:
    """Words behind a first one in lines, and how many more there are."""
    rest = f" and {count - len(words):,} more" if count > len(words) else ""
    text = " ".join(word.replace(" ", "\0") for word in words) + rest
    return filled(text, initial_indent=first, subsequent_indent=" " * len(first)).replace("\0", " ")


def set_text(servers: typing.Iterable[int]) -> str:
    return f"{{{','.join(map(str, sorted(servers)))}}}"


def told_of(kind: str, shares: typing.Sequence[int], needed: int, up: fractions.Fraction) -> list[str]:
    """The lines about a read or a write, which collects so many votes."""
    total = sum(shares)
    blocking = LeastSets(shares, total - needed + 1)
    least = list(itertools.islice(blocking, TOLD))
    blocked, home_down = chances(shares, needed, up)
    may_be_lost = len(least[0]) - 1
    return [
        f"{kind}: {needed} of {total} votes",
        f"    may be lost   {f'any {may_be_lost}' if may_be_lost else 'none'}",
        listed("    stopped by    ", [*map(set_text, least)], blocking.count()),
        f"    blocked       {chance_text(blocked)}",
        f"    U5 at first   {chance_text(home_down)}",
    ]


def told(votes: Votes, up: str) -> list[str]:
    """The lines about votes, where this is written for the chance that a server is up."""
    by_share = collections.defaultdict(list)
    for server, share in enumerate(votes.shares):
        by_share[share].append(str(server))
    lines = [f"{len(votes.shares)} server{'s' * (len(votes.shares) > 1)}, each up with chance {up}"]
    for share, servers in sorted(by_share.items(), reverse=True):
        have = f"{share} vote{'s' * (share > 1)}" if share else "no vote"
        lines.append(listed(f"    {have:<13} ", [f"server{'s' * (len(servers) > 1)}", *servers], 0))
    kinds = [("read and write", votes.r)] if votes.r == votes.w else [("read", votes.r), ("write", votes.w)]
    for kind, needed in kinds:
        lines += told_of(kind, votes.shares, needed, fractions.Fraction(up))
    return lines


def told_of_word(word: str, servers: int | None = None, up: str = "0.99") -> list[str]:
    return [*told(votes_of(word, servers), up), *map(filled, ABOUT)]


def swept(script: bytes, servers: int) -> tuple[bytes, int]:
    """A script behind which all servers are up and swept, so that what is in effect is stored there."""
    agents = int(AGENTS.search(script)[2])
    agent = min(agents, MOST_AGENTS - 1)
    events = [f"return {server}" for server in range(servers)]
    events += [event for server in range(servers) for event in (f"sweep {agent} {server}", f"run {agent}")]
    return AGENTS.sub(rb"\g<1>%d" % (agent + 1), script, count=1) + "\n".join(["", *events, ""]).encode(), len(events)


class Left(typing.NamedTuple):
    """What a script leaves: how many servers, the opening votes, and of each file and folder its path and copies."""

    servers: int
    opening: str
    paths: dict[int, str]
    suites: dict[int, search.Suite]


def left_by(script: bytes) -> Left:
    """What a script leaves once all servers are up and all is swept."""
    header = [word.search(script) for word in (SERVERS, AGENTS, OPENING)]
    longer, count = swept(script, int(header[0][1])) if all(header) else (script, 0)
    try:
        told = events_of(longer, "the script")
    except console.Stop:
        # what is wrong with the script is told of it as it is
        told = events_of(script)
    lines = [event for event in told if event["kind"] == "line"][-count:]
    if any("nothing" in event and event["text"].startswith("sweep") for event in lines):
        text = f"agent {MOST_AGENTS - 1} has a job at the end of the script, and is needed to sweep"
        raise console.Stop(f"{text}: let its job end, or have fewer agents")
    opening, servers = OPENING.search(script)[1].decode(), told[-1]["servers"]
    suites: dict[int, search.Suite] = {}
    for server in servers:
        for copy in server["copies"]:
            if copy["kind"] != "absent":
                suite = suites.setdefault(copy["suite"], search.Suite(search.word_of(opening), {}))
                suite.copies[server["server"]] = copy["prefix"], search.word_of(copy["votes"])
    return Left(len(servers), opening, paths(told), dict(sorted(suites.items())))


def missed_by(suite: search.Suite, is_read: bool) -> list[str]:
    """The least sets of servers with which down the votes are up and not found, each with what is then told."""
    told = ((down, suite.search(down, is_read)) for down in suite.missed(is_read))
    return [f"{set_text(down)}: got {found.got} of {found.needed};" for down, found in itertools.islice(told, TOLD + 1)]


def missed_of(suite: search.Suite) -> tuple[str, ...]:
    """The lines about where the votes of a file or folder are up and not found."""
    read, write = missed_by(suite, True), missed_by(suite, False)
    kinds = [("read and write", read)] if read == write else [("read", read), ("write", write)]
    lines = []
    for kind, words in kinds:
        told = listed("    not found     ", words[:TOLD], len(words)).rstrip(";")
        lines += [f"{kind}: votes that were moved", told] if words else []
    return tuple(lines)


def told_of_script(script: bytes, up: str) -> list[str]:
    left, alike, lines = left_by(script), collections.defaultdict(list), []
    for number, suite in left.suites.items():
        name = f"{left.paths[number]}=suite {number}" if number in left.paths else f"suite {number}"
        alike[suite.newest().text(), missed_of(suite)].append(name)
    for (word, missed), names in alike.items():
        first = [f"votes {word} of", *(f"{name}," for name in names[:TOLD])]
        lines += [listed("", first, len(names) + 1).rstrip(","), *told(votes_of(word, left.servers), up), *missed]
        lines += [filled(MISSED.format(left.opening)), ""] if missed else [""]
    return [*lines, *map(filled, ABOUT)]


def told_of_shapes(servers: int, lose: tuple[int, int], up: str) -> list[str]:
    """A table of the votes that so many servers may have, where reads and writes may lose so many of them."""
    chance = fractions.Fraction(up)
    found = shapes.best(servers, lose, chance)
    if not found:
        text = f"no votes of {servers} servers let reads lose {lose[0]} of them and writes {lose[1]}"
        raise console.Stop(f"{text}: a read needs one server, and a write more than half of all votes")
    wide = max(len("votes"), *(len(shape.word) for shape in found[:TOLD]))
    lines = [
        f"{servers} server{'s' * (servers > 1)}, each up with chance {up}: reads go on without any {lose[0]},"
        f" writes without any {lose[1]}",
        "",
        f"{'':{wide}}  requests     may be lost  blocked            blocked or home down",
        f"{'votes':{wide}}  read  write  read  write  read     write     read     write",
    ]
    for shape in found[:TOLD]:
        votes = search.word_of(shape.word)
        shares = tuple(share or 0 for share in votes.shares)
        first = [chance_text(shapes.not_at_first(shares, needed, chance)) for needed in (votes.r, votes.w)]
        chances = [*map(chance_text, shape.blocked), *first]
        numbers = " ".join(f"{one:<5} {other:<6}" for one, other in (shape.requests, shape.lost))
        lines.append(f"{shape.word:{wide}}  {numbers} {chances[0]:8} {chances[1]:9} {chances[2]:8} {chances[3]}")
    lines += [f"and {len(found) - TOLD} more"] if len(found) > TOLD else []
    return [*lines, "", *map(filled, ABOUT)]


def asked(words: list[str]) -> argparse.Namespace:
    """The words of the command line. A word of votes may begin with a hyphen, as that of no option does."""
    usage = text_of("help", "votes.txt").partition("\n\n")[0].replace("\n", "\n       ")
    read = argparse.ArgumentParser(prog="./suites votes", add_help=False, usage=usage)
    read.add_argument("votes", nargs="?")
    read.add_argument("--script")
    read.add_argument("--servers", type=int)
    read.add_argument("--of", type=int)
    read.add_argument("--lose-read", type=int, default=0)
    read.add_argument("--lose-write", type=int, default=0)
    read.add_argument("--up", default="0.99")
    read.add_argument("-h", "--help", action="store_true")
    hyphened = [word for word in words if re.match(r"-(?!-).*[,/]", word)]
    given = read.parse_args([word for word in words if word not in hyphened] + (["--", *hyphened] if hyphened else []))
    if given.help:
        sys.exit(console.print_help("votes"))
    ways = [given.votes is not None, given.script is not None, given.of is not None]
    is_vain = given.servers is not None and not ways[0] or (given.lose_read or given.lose_write) and not ways[2]
    if sum(ways) != 1 or is_vain:
        read.error("either VOTES are named, or --script FILE, or --of N")
    if ways[2] and not (1 <= given.of <= MOST_SERVERS and min(given.lose_read, given.lose_write) >= 0):
        read.error(f"--of is a number from 1 to {MOST_SERVERS}, and none of them is lost more than once")
    if not re.fullmatch(r"[01]?(\.[0-9]{1,12})?", given.up) or not 0 < fractions.Fraction(given.up or "0") <= 1:
        read.error("--up is a number above 0 and at most 1, as 0.99")
    return given


def main() -> int:
    given = asked(sys.argv[1:])
    if given.script is not None:
        with open(given.script, "rb") as file:
            lines = told_of_script(file.read(), given.up)
        sys.stdout.buffer.write("".join(f"{line}\n" for line in lines).encode("latin1"))
        return 0
    if given.of is not None:
        print("\n".join(told_of_shapes(given.of, (given.lose_read, given.lose_write), given.up)))
        return 0
    try:
        if given.servers is not None and not 1 <= given.servers <= MOST_SERVERS:
            raise Fault("G1", "due")
        lines = told_of_word(given.votes, given.servers, given.up)
    except Fault as fault:
        print(fault_text(given.votes, fault))
        return 3
    print("\n".join(lines))
    return 0


def fault_text(word: str, fault: Fault) -> str:
    """What is told of faulty votes: the rule with its numbers, the form, and what the page says of the code."""
    code = str(fault)
    told = [quoted.sentence(reasons.Of(fault.why, word, "VOTES").text()), "", FORM, ""] if code != "G1" else []
    return "\n".join([f"fault {code}", "", *told, *([explain.explained(code)] if code != "S1" else [])]).rstrip()
