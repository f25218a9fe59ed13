"""The words of ./suites mount, which help/mount.txt tells, and the options of a session."""
import argparse
import os
import re

from common import TOP
from common.console import Bad

SERVERS, AGENTS = 3, 2
# The session of these sources.
SESSION = os.path.join(TOP, "suites") + " session"
# The same, or another one, for tests, as the environment has it.
NAMED = os.environ.get("SUITES_SESSION", SESSION)


def options(parser: argparse.ArgumentParser, *more: str, session: str = NAMED) -> None:
    """The options of a session, of which more may tell a number."""
    for name in ("--servers", *more):
        parser.add_argument(name, type=int)
    for name in ("--votes", "--root", "--journal", "--script"):
        parser.add_argument(name)
    # the command of another session, for tests
    parser.add_argument("--session", default=session)


def read(words: list[str]) -> argparse.Namespace:
    parser = argparse.ArgumentParser(
        usage="./suites mount DIR [OPTIONS] | ./suites mount --control DIR LINE..", add_help=False, allow_abbrev=False
    )
    parser.add_argument("--control", action="store_true")
    options(parser, session=SESSION)
    for name in ("--read-only", "--allow-other", "--foreground"):
        parser.add_argument(name, action="store_true")
    parser.add_argument("folder", metavar="DIR")
    parser.add_argument("lines", metavar="LINE", nargs="*")
    given = parser.parse_args(words)
    if given.control and not given.lines:
        parser.error("--control DIR has lines behind it")
    if given.lines and not given.control:
        parser.error("one folder is told")
    check(given)
    return given


def check(given: argparse.Namespace) -> None:
    """Ends the tool where an option of a session is none."""
    agents = getattr(given, "agents", None)
    if given.root is not None and not re.fullmatch(r"\d+:\d+:[0-7]{3}", given.root):
        raise Bad("--root is UID:GID:MODE, as 0:0:755")
    if given.servers is not None and not 1 <= given.servers <= 32:
        raise Bad("there are 1 to 32 servers")
    if agents is not None and not 1 <= agents <= 64:
        raise Bad("there are 1 to 64 agents")


def header(given: argparse.Namespace) -> list[str]:
    servers = given.servers or SERVERS
    votes = given.votes or f"{','.join(['1'] * servers)}/{(servers + 1) // 2}/{servers // 2 + 1}"
    root = given.root or f"{os.getuid()}:{os.getgid()}:755"
    agents = getattr(given, "agents", None) or AGENTS
    return [
        f"servers {servers}", f"agents {agents}", f"votes {votes}", f"root {root.replace(':', ' ')}",
        "cache 16777216 16777216 4096",
    ]
