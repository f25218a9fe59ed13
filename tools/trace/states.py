"""What servers and agents have, by the events of a run (`./suites trace --json`, docs/EVENTS.md), one after another."""
import json
from collections.abc import Iterable

from trace.events import begun

NEVER = {"prefix": 0, "content": 0}


def lock_place(lock: dict) -> tuple[int, int]:
    return lock["t"], lock["suite"]


def entry_place(entry: dict) -> tuple[int, int]:
    return entry["site"], entry["suite"]


def listed(server: dict) -> dict:
    """A server as it is told: copies by suite, and locks by transaction and suite."""
    copies, locks = (server[part] for part in ("copies", "locks"))
    return {**server, "locks": [locks[at] for at in sorted(locks)], "copies": [copies[at] for at in sorted(copies)]}


class Retold:
    """The servers and agents of a run, from its opening on. What is told of them costs as much as it says."""

    def __init__(self, opening: dict) -> None:
        self.servers = [self.server_of(one) for one in opening["servers"]]
        self.bare = [{name: part for name, part in one.items() if name != "cache"} for one in opening["agents"]]
        # the oldest first
        self.caches = [{entry_place(entry): entry for entry in reversed(one["cache"])} for one in opening["agents"]]

    @staticmethod
    def server_of(told: dict) -> dict:
        copies = {copy["suite"]: copy for copy in told["copies"]}
        locks = {lock_place(lock): lock for lock in told["locks"]}
        return {**told, "locks": locks, "copies": copies, "denials": [*told["denials"]]}

    def hear(self, event: dict) -> None:
        """What is told in an event: `at` of a server, and `by` of an agent."""
        if "at" in event:
            self.changed(event["at"])
        if "by" in event:
            self.acted(event["by"])

    def changed(self, at: dict) -> None:
        server = self.servers[at["server"]]
        server["up"], locks = at["up"], server["locks"]
        for lock in at.get("freed", ()):
            del locks[lock_place(lock)]
        for lock in at.get("locks", ()):
            locks[lock_place(lock)] = lock
        for copy in at.get("copies", ()):
            server["copies"][copy["suite"]] = copy
        server["denials"].extend(at.get("denials", ()))

    def acted(self, by: dict) -> None:
        own = self.bare[by["agent"]]
        # what it asks next is told each time; of all else what changed
        own.pop("next", None)
        own.pop("of", None)
        own.update(by)
        if "dropped" in own or "put" in own:
            cache = self.caches[by["agent"]]
            for entry in own.pop("dropped", ()):
                del cache[entry_place(entry)]
            cache.update((entry_place(entry), entry) for entry in own.pop("put", ()))

    def standing(self) -> list[dict]:
        """The servers as `standing` tells them."""
        return [listed(server) for server in self.servers]

    def agents(self) -> list[dict]:
        """The agents as `standing` tells them."""
        return [{**one, "cache": [*reversed(cache.values())]} for one, cache in zip(self.bare, self.caches)]


class Part(Retold):
    """A part of a run, from a moment on: what was told before it is taken in, and comes to an opening of its own, and
    to what a page of the part has to know besides (`before`).
    """

    def __init__(self, opening: dict) -> None:
        super().__init__(opening)
        self.form, self.last = opening["form"], opening
        self.jobs: dict[int, list[str]] = {}
        self.ends: dict[int, dict] = {}
        self.parts: dict[int, list[dict]] = {}
        self.newest: dict[int, dict] = {}
        for server in opening["servers"]:
            self.raise_all(server["copies"])

    def take(self, event: dict, line: str) -> None:
        """Takes in an event, which stands so in a line."""
        self.hear(event)
        self.last = event
        self.raise_all(event.get("at", {}).get("copies", ()))
        asked, number = event.get("request", {}).get("asks"), event.get("by", {}).get("agent")
        # what was prepared is in effect from a decision on
        if asked == "prepare":
            kept = [part for part in event["request"]["parts"] if part["takes"] != "nothing"]
            self.parts.setdefault(number, []).extend(kept if event["reply"]["says"] == "prepared" else ())
        elif asked == "decide" and event["reply"].get("verdict", "").startswith("answered"):
            self.raise_all(self.parts.get(number, ()))
        if "end" in event:
            self.jobs.pop(number, None)
            self.parts.pop(number, None)
            self.ends[number] = event["end"]
        elif begun(event):
            self.jobs[number] = [line]
        elif event["kind"] == "request" and number in self.jobs:
            self.jobs[number].append(line)

    def raise_all(self, copies: Iterable[dict]) -> None:
        for copy in copies:
            now = self.newest.get(copy["suite"], NEVER)
            most = {what: max(copy.get(what, 0), own) for what, own in now.items()}
            if most != now:
                self.newest[copy["suite"]] = most

    def opening(self) -> str:
        """What there is by now, as a line that opens a run."""
        told = {"event": self.last["event"], "line": self.last["line"], "kind": "opening", "form": self.form}
        return json.dumps({**told, "servers": self.standing(), "agents": self.agents()}, separators=(",", ":"))

    def before(self) -> dict:
        """What is in effect, what agents did for the jobs that they have, and how their last jobs ended."""
        return {"newest": self.newest, "jobs": [*self.jobs.values()], "ends": [*self.ends.values()]}
