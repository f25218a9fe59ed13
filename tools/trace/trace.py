"""./suites trace [OPTIONS] < SCRIPT: all that happens in a run; help/trace.txt tells all of it."""
import argparse
import dataclasses
import re
import sys
import tempfile
from collections.abc import Iterable, Iterator, Mapping
from typing import IO, Any

from common import console, quoted
from trace import json_events
from trace.events import BEGIN, OF_SERVERS, STEP, Event, Run, begun
from trace.lines import Lines
from trace.paths import Paths, paths

# So much is written at once of what had to wait.
PIECE = 1 << 20
AGENTS = re.compile(rb"^[ \t]*agents[ \t]+(\d+)", re.M)


def suites_of(event: Event) -> set[int]:
    request = event.get("request", {})
    return {one["suite"] for one in (request, *request.get("parts", ())) if "suite" in one}


def is_of_agent(event: Event, agent: int | None) -> bool:
    """Whether an event is of what an agent does, or of what becomes of servers."""
    words = event.get("text", "").split(None, 2)
    if agent is None or event["kind"] not in ("line", "request") or words[:1] and words[0] in (*OF_SERVERS, "audit"):
        return True
    return agent == (int(words[1]) if words else event["agent"])


class AboutSuite:
    """What of events is about a suite: a request of a transaction that asked for it, and how its job ended."""

    def __init__(self, suite: int, events: Iterable[Event]) -> None:
        self.suite = suite
        self.asked = {event["request"]["t"] for event in events if suite in suites_of(event)}
        self.jobs: dict[int, bool] = {}

    def of(self, event: Event) -> Event | None:
        """What is about it of an event that is no line of the script."""
        if event["kind"] != "request":
            return {**event, "servers": [self.of_server(server) for server in event["servers"]]}
        named, agent = suites_of(event), event["agent"]
        is_about = self.suite in named if named else event.get("request", {}).get("t") in self.asked
        self.jobs[agent] = self.jobs.get(agent, False) or is_about
        was_about = self.jobs.pop(agent) if "end" in event else False
        return event if is_about else {**event, "kind": "end"} if was_about else None

    def of_server(self, server: Event) -> Event:
        own = {what: [one for one in server[what] if one["suite"] == self.suite] for what in ("copies", "locks")}
        return {**server, **own}


@dataclasses.dataclass
class Block:
    """A line of the script with what is kept below it, and whether they are shown."""

    is_shown: bool
    events: list[Event]


def blocks(events: Iterable[Event]) -> Iterator[list[Event]]:
    """Each line of the script, and what there is at the end, with the requests below it."""
    block: list[Event] = []
    for event in events:
        if event["kind"] != "request" and block:
            yield block
            block = []
        block.append(event)
    yield block


def narrowed(events: Iterable[Event], agent: int | None, suite: int | None) -> Iterator[Event]:
    """The events that are about an agent, and about a suite. For a suite they are gone over twice."""
    own = (event for event in events if is_of_agent(event, agent))
    if suite is None:
        yield from own
        return
    about = AboutSuite(suite, events)
    held: list[Block] = []
    waiting: dict[int, Block] = {}
    for head, *below in blocks(event for event in own if event["kind"] != "opening"):
        kept = [*filter(None, map(about.of, below))]
        if head["kind"] == "standing":
            head = about.of(head)
        words = head.get("text", "crash").split()
        if kept or words[0] in OF_SERVERS or "nothing" in head or "audit" in head:
            held.append(Block(True, [head, *kept]))
            if words[0] in STEP and int(words[1]) in waiting:
                # the job came to be about it, so the line that began it is too
                waiting.pop(int(words[1])).is_shown = True
        elif words[0] in BEGIN:
            waiting[int(words[1])] = Block(False, [head])
            held.append(waiting[int(words[1])])
        if not waiting:
            yield from shown_of(held)
            held.clear()
    yield from shown_of(held)


def shown_of(held: Iterable[Block]) -> Iterator[Event]:
    return (event for one in held if one.is_shown for event in one.events)


def asked(words: list[str], name: str, more: Mapping[str, Mapping[str, Any]] | None = None) -> argparse.Namespace:
    """The words of the command line of a tool, with some more, as argparse has them."""
    read = argparse.ArgumentParser(prog=f"./suites {name}", add_help=False)
    read.add_argument("--agent", type=int)
    read.add_argument("--suite")
    for word, how in (more or {}).items():
        read.add_argument(word, **how)
    read.add_argument("-h", "--help", action="store_true")
    read.add_argument("file", nargs="?")
    given = read.parse_args(words)
    if given.help:
        sys.exit(console.print_help(name))
    if given.file is not None:
        raise console.Bad(f"a script is read from standard input: {read.prog} < {quoted.plain(given.file)}")
    return given


def number_of(suite: str | None, known: dict[int, str]) -> int | None:
    """The number of a suite that is named by its path or number."""
    if suite is None or (suite.isdigit() and (int(suite) in known or int(suite) == 0)):
        return None if suite is None else int(suite)
    found = [number for number, path in known.items() if path == suite]
    if not found:
        what = f"file or folder {suite}" if suite.isdigit() else f"path {quoted.plain(suite)}"
        raise console.Stop(f"no {what} is met in this run")
    return found[-1]


def script(agent: int | None = None) -> bytes:
    """The script that is read from standard input; ends the tool where it has no such agent."""
    if 0 in console.CLOSED:
        console.Teller().say("a read failed: standard input is closed")
        sys.exit(6)
    if sys.stderr.isatty():
        console.tell_reading()
    text = sys.stdin.buffer.read()
    count = agent is not None and AGENTS.search(text)
    if count and not 0 <= agent < int(count[1]):
        raise console.Bad(f"there is no agent {agent}: the script has {int(count[1])}, and the first one is 0")
    return text


def text_of(telling: Lines, event: Event) -> bytes:
    return "".join(f"{line}\n" for line in telling.of(event)).encode("latin1")


def write_all(run: Run, out: IO[bytes] | quoted.Terminal, agent: int | None) -> None:
    """Writes a trace, or what is about an agent, while the program plays, until a path is not known; then the rest."""
    found, held = Paths(), tempfile.TemporaryFile()
    # where in what is held an event stands that met such a path, and where among the events
    lacking: list[tuple[int, int]] = []
    telling = Lines(found.known)
    for event in run.play():
        found.learn(event)
        if is_of_agent(event, agent):
            text, telling.lacks, lacks = text_of(telling, event), False, telling.lacks
            if lacks:
                lacking.append((held.tell(), run.begun))
            elif lacking:
                held.write(text)
            else:
                run.progress.make_way()
                out.write(text)
    run.progress.make_way()
    held.seek(0)
    for place, begun in lacking:
        write_from(held, out, place)
        out.write(text_of(telling, next(run.since(begun))))
    write_from(held, out, sys.maxsize)


def write_from(held: IO[bytes], out: IO[bytes] | quoted.Terminal, end: int) -> None:
    """Writes what is held up to this place, in pieces."""
    while True:
        piece = held.read(min(PIECE, end - held.tell()))
        if not piece:
            return
        out.write(piece)


def write_told(run: Run, out: IO[bytes] | quoted.Terminal, events: Iterable[Event], known: dict[int, str]) -> None:
    """Writes events of a run, of which all paths are known."""
    telling = Lines(known)
    for event in events:
        run.progress.make_way()
        out.write(text_of(telling, event))


def main() -> int:
    if "--json" in sys.argv[1:]:
        if len(sys.argv) > 2:
            raise console.Bad("--json stands alone: ./suites trace --json < SCRIPT")
        return json_events.tell()
    given = asked(sys.argv[1:], "trace")
    out: IO[bytes] | quoted.Terminal = sys.stdout.buffer
    if sys.stdout.isatty():
        out = quoted.Terminal(sys.stdout.buffer)
    with Run(script(given.agent)) as run:
        if given.suite is None:
            write_all(run, out, given.agent)
        else:
            known = paths(run.play())
            write_told(run, out, narrowed(run, given.agent, number_of(given.suite, known)), known)
    return 0
