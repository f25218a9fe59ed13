"""What `./suites trace --json` tells besides what the program tells in its events (docs/EVENTS.md): of a line with
which a job begins the job, of an end and of a denial its parts, and each path once it is known. An event that has none
of these goes through as it is.
"""
import json
import sys
import typing

from common import numbers
from trace import events
from trace.paths import Paths

# What stands in an event of which more may be told.
FULLER = (b'"kind":"opening"', b'"kind":"line"', b'"end":{', b'"denials":[{', b'"asks":"prepare"')
# The parts of how a job ended, word by word: a number, or a word.
PARTS = {
    "denied": "op _ suite _ wants _ by _",
    "refused": "code _ op _",
    "U1": "code _ suite _ got _ of _",
    "U2": "code _ server _ holder _",
    "U": "code _ server _",
}


def parts_of(form: str, words: typing.Sequence[str]) -> dict[str, typing.Any]:
    """The words of an ending by their names: where a form has a name the words have it too, but for the first code."""
    names = form.split()[::2]
    values = words if form.startswith("op") else ["code", *words]
    return {name: int(value) if value.isdigit() else value for name, value in zip(names, values[1::2])}


def ended(text: str) -> dict[str, typing.Any]:
    """The parts of how a job ended."""
    how, _, rest = text.partition(" ")
    words = rest.split()
    if how == "answered":
        return {"how": how, "replies": rest.split("; ")}
    if how == "swept":
        return {"how": how, **dict(zip(("broken", "ended", "left"), map(int, words)))}
    form = PARTS[how] if how in PARTS else PARTS.get(words[0], PARTS["U"])
    return {"how": how, **parts_of(form, words)}


class Fuller:
    """A run as far as it was told."""

    def __init__(self) -> None:
        self.servers, self.paths = 0, Paths()

    def of(self, line: bytes) -> bytes:
        """An event, told in full."""
        if not any(mark in line for mark in FULLER):
            return line
        event = json.loads(line)
        if event["kind"] == "opening":
            self.servers = len(event["servers"])
        more = self.begun(event) | self.more_paths(event)
        told = (event.get("at", {}), event.get("audit", {}), *event.get("servers", ()))
        denials = [denial for one in told for denial in one.get("denials", ())]
        if not more and not denials and "end" not in event:
            return line
        if "end" in event:
            event["end"] |= ended(event["end"]["text"])
        for denial in denials:
            denial |= parts_of(PARTS["denied"], denial["denied"].split())
        return json.dumps(event | more, separators=(",", ":")).encode() + b"\n"

    def begun(self, event: events.Event) -> events.Event:
        """The job that begins with a line, where one does."""
        begun = events.begun(event)
        if not begun:
            return {}
        words, (agent, job) = event["text"].split(), begun
        told: events.Event = {"agent": agent, "job": job}
        if words[0] == "sweep":
            return {"begun": {**told, "sweeps": int(words[2])}}
        told |= {"t": numbers.transaction(agent, job), "home": numbers.home(agent, job, self.servers)}
        groups = [int(gid) for gid in words[3].split(",")]
        told |= {"user": int(words[2]), "groups": groups, "site": int(words[4])}
        return {"begun": {**told, "operations": " ".join(words[5:]).split(" ; ")}}

    def more_paths(self, event: events.Event) -> events.Event:
        """The paths that are known since this event, by the numbers of suites."""
        count = len(self.paths.known)
        self.paths.learn(event)
        fresh = [*self.paths.known.items()][count:]
        return {"paths": {str(suite): path for suite, path in fresh}} if fresh else {}


def tell() -> int:
    """Has the program play standard input, and tells its events in full."""
    fuller = Fuller()
    with events.Player(None) as player:
        sys.stdout.buffer.writelines(map(fuller.of, player.lines()))
    return 0
