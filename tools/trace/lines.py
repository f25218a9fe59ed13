"""The lines of a trace, as the command `trace` prints them, of what events tell (docs/EVENTS.md)."""
from collections.abc import Iterable, Iterator

from trace.events import Event, word_of

# Where the reply stands in the line of a request.
REPLY_AT = 56
VERSIONS = ("prefix", "content")


def printed(event: Event) -> Iterator[str]:
    """What `play` prints of an event: how a job ended, and the denials that a server recorded."""
    if "end" in event:
        yield "{agent}.{job} {requests} {text}".format(**event["end"])
    if "audit" in event:
        audit = event["audit"]
        yield f"audit {audit['server']} {len(audit['denials'])}"
        yield from ("t {t} uid {uid} {denied}".format(**denial) for denial in audit["denials"])


def newest(servers: Iterable[Event]) -> dict[int, tuple[int, ...]]:
    """The newest versions that servers have, by the numbers of suites."""
    found: dict[int, tuple[int, ...]] = {}
    for server in servers:
        for copy in server["copies"]:
            own = found.get(copy["suite"], (0, 0))
            found[copy["suite"]] = tuple(max(copy[what], most) for what, most in zip(VERSIONS, own))
    return found


class Lines:
    """Tells events in lines, with the path before each suite whose path is known, and whether one was not."""

    VERDICT = "verdict "

    def __init__(self, known: dict[int, str]) -> None:
        self.known, self.lacks = known, False

    def suite(self, number: int) -> str:
        path = self.known.get(number)
        self.lacks |= path is None
        return f"suite {number}" if path is None else f"{path}=suite {number}"

    def versions(self, told: Event) -> str:
        return " ".join(f"{what} {told[what]}" for what in VERSIONS if what in told)

    def content(self, told: Event) -> str:
        """What a file or folder has, where that is told."""
        if "names" in told:
            return " ".join([" names", *(f"{name}={suite}" for name, suite in told["names"].items())])
        return f" bytes {len(told['bytes']) // 2}" if "bytes" in told else ""

    def part(self, part: Event) -> str:
        left = "keep" if part["takes"] == "nothing" else f"takes {self.versions(part)}{self.content(part)}"
        return f"{self.suite(part['suite'])} {part['mode']} {left}"

    def whose(self, request: Event) -> str:
        """Of which transaction a request is, where it is of one."""
        return f"t {request['t']}" if "t" in request else ""

    def request(self, request: Event | None) -> str:
        if request is None:
            return "asks for more than there is room for"
        words = [self.whose(request), request["asks"], self.suite(request["suite"]) if "suite" in request else ""]
        words += [request.get("mode", ""), "; ".join(map(self.part, request.get("parts", ())))]
        return " ".join(filter(None, [*words, word_of(request.get("decision", request.get("verdict", "")))]))

    def lock(self, lock: Event) -> str:
        return f"t {lock['t']} {self.suite(lock['suite'])} {lock['mode']}{' prepared' if lock['prepared'] else ''}"

    def reply(self, reply: Event) -> str:
        says = reply["says"]
        if says in ("held", "given"):
            return f"{says}, {self.versions(reply)}{self.content(reply)}"
        if says == "busy":
            return f"busy, t {reply['holder']}{' prepared' if reply['prepared'] else ''}"
        if says == "verdict":
            return f"{self.VERDICT}{word_of(reply['verdict'])}"
        if says == "locked":
            return f"locks {'; '.join(map(self.lock, reply['locks']))}" if reply["locks"] else "no locks"
        return says

    def standing(self, servers: Iterable[Event]) -> Iterator[str]:
        """What servers have at the end, and in what a copy is behind another one of the same suite."""
        most = newest(servers)
        for server in servers:
            yield f"= server {server['server']} {'up' if server['up'] else 'down'}"
            for copy in server["copies"]:
                if copy["kind"] != "absent":
                    older = [what for what, one in zip(VERSIONS, most[copy["suite"]]) if copy[what] < one]
                    late = f"   behind: {', '.join(older)}" if older else ""
                    told = f"{self.suite(copy['suite'])} {copy['kind']} {self.versions(copy)}"
                    yield f"    {told} votes {copy['votes']}{late}"
            yield from (f"    {self.lock(lock)}" for lock in server["locks"])

    def of(self, event: Event) -> Iterator[str]:
        if event["kind"] == "line":
            yield f"> {event['text']}"
            if "nothing" in event:
                yield f"  nothing happens: agent {int(event['text'].split()[1])} {event['nothing']}"
        elif event["kind"] == "request":
            asked = f"  {event['agent']} -> s{event['server']}  {self.request(event.get('request'))}"
            yield f"{asked.ljust(REPLY_AT)} : {self.reply(event['reply'])}"
        elif event["kind"] == "standing":
            yield from self.standing(event["servers"])
        yield from printed(event)
