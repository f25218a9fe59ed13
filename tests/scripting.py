"""Scripts as tests and benches write them: a header, and jobs below it."""
import typing

# Makes a text of a size.
Make = typing.Callable[[int], str]


def repeated(text: str, before: str = "", after: str = "") -> Make:
    """The same text again and again."""
    return lambda count: before + text * count + after


def header(
    servers: int = 3,
    agents: int | None = 2,
    votes: str = "1,1,1/2/2",
    root: str = "1000 100 777",
    cache: str = "0 0 0",
) -> str:
    """The header of a script, which for `serve` tells no agents."""
    told = {"servers": servers, "agents": agents, "votes": votes, "root": root, "cache": cache}
    return "".join(f"{word} {value}\n" for word, value in told.items() if value is not None)


def script_of(servers: int, agents: int, votes: str, *lines: str) -> str:
    """A script of these lines, whose agents keep something."""
    return header(servers, agents, votes, cache="4096 4096 16") + "".join(f"{line}\n" for line in lines)


def equal_votes(servers: int) -> str:
    """One vote for each server, and for a read and a write more than half of them."""
    quorum = servers // 2 + 1
    return f"{','.join(['1'] * servers)}/{quorum}/{quorum}"


def job(asked: str, agent: int = 0, who: str = "1000 100", site: int = 0) -> str:
    """A job of an agent, from its beginning to its end: what is asked, for which user and groups, and at which site."""
    return f"begin {agent} {who} {site} {asked}\nrun {agent}\n"


# Eight folders in one another, eight times; and one transaction that goes down all of them.
DEEP = ["".join(f"/{branch}{depth}" for depth in range(8)) for branch in "abcdefgh"]
READ_ALL = " ; ".join(f"getacl {path}" for path in DEEP)


def deep_folders(who: str) -> str:
    """Jobs that make them."""
    made = (f"folder {path[:end]} 777" for path in DEEP for end in range(3, len(DEEP[0]) + 1, 3))
    return "".join(job(asked, who=who) for asked in made)
