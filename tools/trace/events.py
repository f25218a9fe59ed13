"""The events of a run (docs/EVENTS.md), as the command `trace` tells them of a script, one after another."""
import json
import subprocess
import sys
import tempfile
from collections.abc import Iterator
from typing import Any, NoReturn, TypeVar

from common import built, console

Event = dict[str, Any]
READ = json.JSONDecoder().raw_decode
Own = TypeVar("Own", bound="Player")
OF_SERVERS, BEGIN, STEP = ("crash", "return"), ("begin", "sweep"), ("step", "run")
FAULTY = 3
# What a terminal is told where the program ends so (as `./suites` tells it of the other commands).
EXPLAINED = {6: "the input is above 16 MiB, or a read or a write failed (./suites explain 'status 6')"}


def event_of(line: bytes) -> Event:
    return READ(line.decode())[0]


class Player:
    """The program, which plays a script, or else what is read from standard input, and tells its events."""

    def __init__(self, script: bytes | None, name: str = "") -> None:
        self.given, self.name = None if script is None else tempfile.TemporaryFile(), name
        if self.given:
            self.given.write(script)
            self.given.seek(0)
        self.run = subprocess.Popen([built.program(), "trace", "--json"], stdin=self.given, stdout=subprocess.PIPE)

    def __enter__(self: Own) -> Own:
        return self

    def __exit__(self, *_: object) -> None:
        self.run.kill()
        self.run.communicate()
        if self.given:
            self.given.close()

    def lines(self) -> Iterator[bytes]:
        """The events as lines; gives up where the script is not played to its end."""
        assert self.run.stdout
        fault = b""
        for line in self.run.stdout:
            if line.startswith(b"{"):
                yield line
            else:
                fault = line
        status = self.run.wait()
        if status:
            self.give_up(fault.decode("latin1"), status)

    def __iter__(self) -> Iterator[Event]:
        return map(event_of, self.lines())

    def give_up(self, fault: str, status: int) -> NoReturn:
        """Ends the tool as the program has ended, with what it printed last; of a script that has a name says so."""
        if self.name:
            raise console.Stop(f"{self.name} cannot be played: {fault.strip() or console.ended('trace', status)}")
        sys.stdout.write(fault)
        sys.stdout.flush()
        if status < 0:
            console.Teller().say(console.ended("trace", status))
        elif sys.stderr.isatty() and status == FAULTY:
            console.Teller().say(console.shows(fault.strip()))
        elif sys.stderr.isatty() and status in EXPLAINED:
            console.Teller().say(EXPLAINED[status])
        sys.exit(console.status_of(status))


class Run(Player):
    """A run whose events are kept in a file, so that they can be gone over again."""

    def __init__(self, script: bytes, name: str = "") -> None:
        super().__init__(script, name)
        self.kept, self.begun, self.size, self.progress = tempfile.TemporaryFile(), 0, 0, console.Progress()
        self.count = max(1, script.count(b"\n"))

    def __exit__(self, *about: object) -> None:
        self.progress.end()
        super().__exit__(*about)

    def give_up(self, fault: str, status: int) -> NoReturn:
        self.progress.end()
        super().give_up(fault, status)

    def play(self) -> Iterator[Event]:
        """The events, while the program plays; where each begins in the file is `begun`."""
        played = 0
        for line in self.lines():
            self.begun, self.size = self.size, self.size + self.kept.write(line)
            event = event_of(line)
            played += event["kind"] == "line"
            self.progress.say(f"{100 * played // self.count} % of the script is played")
            yield event

    def since(self, place: int) -> Iterator[Event]:
        """The events from this place of the file on, once the program has played the script to its end."""
        self.kept.seek(place)
        for line in self.kept:
            yield event_of(line)
            place += len(line)
            self.progress.say(f"the script is played, {100 * place // self.size} % of it is looked through")

    def __iter__(self) -> Iterator[Event]:
        return self.since(0)


def events_of(script: bytes, name: str = "") -> list[Event]:
    """All events of a script; gives up where it is not played to its end."""
    with Player(script, name) as player:
        return [*player]


def begun(event: Event) -> tuple[int, int] | None:
    """The agent, and the number of its job, where one begins with a line of the script."""
    is_begun = "nothing" not in event and event.get("text", "").split(None, 1)[:1] in (["begin"], ["sweep"])
    return (event["by"]["agent"], event["by"]["jobs"] - 1) if is_begun else None


def decided(event: Event) -> tuple[int, str] | None:
    """The transaction, and a word for how it ends, where one is decided with a request."""
    verdict = event.get("reply", {}).get("verdict", "aborted")
    is_decided = event.get("request", {}).get("asks") == "decide" and verdict != "aborted"
    return (event["request"]["t"], word_of(verdict)) if is_decided else None


def word_of(verdict: str) -> str:
    """A verdict or a decision in a word: a denial is a refusal."""
    return "refused" if verdict.startswith("denied") else verdict.partition(" ")[0]
