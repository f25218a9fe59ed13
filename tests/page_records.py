"""A run by its records alone (`trace --json`), as tests/page_told.py holds against them what a page says of it: each
method of `Record` tells whether a sentence of one form is so of the moment. It has a check of acl(5) of its own.
"""
import collections
import re
import typing

import played  # noqa: F401

from trace import states
from trace.paths import paths

Event = dict[str, typing.Any]
VERBS = {
    "read it": "r",
    "write it": "w",
    "search it": "x",
    "make or drop a name in it": "wx",
    "see its list and votes": "see",
    "set its list and votes": "own",
}
DOES = {"read": "r", "list": "r", "write": "w", "getacl": "see", "getvotes": "see", "setacl": "own", "setvotes": "own"}


def rights(copy: Event, user: int, groups: list[int]) -> tuple[str, list[set[str]]]:
    """Who a caller is by a list, and the rights of the entries that count, by acl(5)."""
    entries = [item.split(":") for item in copy["list"].split(",") if not item.startswith("default")]
    found = {(kind[0], whom): set(letters) - {"-"} for kind, whom, letters in entries}
    mask = found.get(("m", ""), {*"rwx"})
    if user == copy["owner"]:
        return "the owner", [found["u", ""]]
    if ("u", str(user)) in found:
        return "named in it", [found["u", str(user)] & mask]
    named = [own for (kind, whom), own in found.items() if kind == "g" and int(whom or copy["group"]) in groups]
    return ("in a group of it", [own & mask for own in named]) if named else ("one of all others", [found["o", ""]])


def may(copy: Event, begun: Event, wanted: str) -> bool:
    is_owner = begun["user"] == copy["owner"]
    if wanted == "own" or (wanted == "see" and is_owner):
        return is_owner
    return any({*wanted.replace("see", "r")} <= own for own in rights(copy, begun["user"], begun["groups"])[1])


def wanted_of(operations: list[str], path: str) -> list[str]:
    """All that operations want of a file or folder, each once."""
    found = []
    for verb, target, *_ in map(str.split, operations):
        is_name = verb in ("file", "folder", "drop")
        if is_name and (target.rpartition("/")[0] or "/") == path:
            found.append("wx")
        elif not is_name and target == path:
            found.append(DOES[verb])
        elif target.startswith(path.rstrip("/") + "/") and target != path:
            found.append("x")
    return list(dict.fromkeys(found))


def votes_in(text: str) -> tuple[list[int], int, int]:
    fields, r, w = text.split("/")
    return [0 if one == "-" else int(one) for one in fields.split(",")], int(r), int(w)


def listed(text: str) -> list[int]:
    return [int(one) for one in re.findall(r"\d+", text)]


class Record:
    """A run by its records alone, as far as it was told."""

    def __init__(self, events: list[Event]) -> None:
        self.paths, self.now, self.retold = paths(events), events[0], states.Retold(events[0])
        self.begun, self.job = dict[int, Event](), dict[int, Event]()
        # what a job was shown of each suite, and what each server prepared for it
        self.shown: typing.Any = collections.defaultdict(lambda: collections.defaultdict(dict))
        self.refused: typing.Any = collections.defaultdict(lambda: collections.defaultdict(dict))
        self.parts: dict[int, dict[int, list[Event]]] = collections.defaultdict(dict)
        self.newest: dict[int, list[int]] = {}
        self.stored = list[Event]()
        for server in events[0]["servers"]:
            self.rise(server["copies"])

    def rise(self, copies: typing.Iterable[Event]) -> None:
        for one in copies:
            most = self.newest.setdefault(one["suite"], [0, 0])
            most[:] = max(most[0], one["prefix"]), max(most[1], one.get("content", 0))

    def take(self, event: Event) -> None:
        """An event: what it changes, and what was before it that sentences tell."""
        self.now, asked, reply = event, event.get("request", {}), event.get("reply", {})
        if "begun" in event:
            agent = event["begun"]["agent"]
            self.job[agent] = event["begun"]
            for told in (self.shown, self.refused, self.parts):
                told.pop(agent, None)
        copies: list[Event] = event.get("at", {}).get("copies", [])
        is_end = asked.get("asks") == "finish" and asked["verdict"].startswith("answered")
        before = self.retold.servers[event["server"]]["copies"] if is_end else {}
        fresh = [one for one in copies if self.versions(one) not in (None, self.versions(before.get(one["suite"])))]
        self.stored = fresh if is_end else []
        self.retold.hear(event)
        self.rise(copies)
        agent, server = event.get("agent"), event.get("server")
        if asked.get("asks") in ("poll", "upgrade"):
            into = self.shown if reply["says"] == "held" else self.refused
            into[agent][asked["suite"]][server] = reply if reply["says"] == "held" else reply["says"]
        elif asked.get("asks") == "prepare" and reply["says"] == "prepared":
            self.parts[agent][server] = [part for part in asked["parts"] if part["takes"] != "nothing"]
        elif asked.get("asks") == "decide" and reply.get("verdict", "").startswith("answered"):
            for parts in self.parts[agent].values():
                self.rise(parts)

    @staticmethod
    def versions(copy: Event | None) -> tuple[int, int] | None:
        return (copy["prefix"], copy["content"]) if copy and copy["kind"] != "absent" else None

    def path(self, suite: int) -> str:
        return self.paths.get(suite, f"suite {suite}")

    def part(self, part: Event) -> str:
        content = f" and content {part['content']}" if part.get("takes", "whole") == "whole" else ""
        return f"list {part['prefix']}{content} of {self.path(part['suite'])}"

    def votes(self, one: Event) -> tuple[int, int]:
        """The votes that a gathered suite has, and how many it needs."""
        of, r, w = votes_in(one["votes"])
        counts = [letter == "x" or (letter == "s" and one["mode"] == "shared") for letter in one["held"]]
        return sum(share for share, has in zip(of, counts) if has), w if one["mode"] == "exclusive" else r

    # ---- each sentence against the event: whether it is so

    def line(self, *words: str) -> bool:
        return self.now["kind"] == "line" and self.now["text"].split()[: len(words)] == [*words]

    def reply(self, server: str, asks: str, says: str) -> bool:
        event = self.now
        is_asked = event.get("request", {}).get("asks", "") in asks.split()
        return is_asked and event["server"] == int(server) and event["reply"]["says"] in says.split()

    def held(self, server: str, mode: str, path: str, copy: str, beside: str) -> bool:
        event = self.now
        asked, reply = event["request"], event["reply"]
        is_so = self.reply(server, "poll upgrade", "held") and self.path(asked["suite"]) == path
        is_so &= mode == ("exclusive" if asked["asks"] == "upgrade" else asked["mode"])
        has = (
            "has no copy of it"
            if reply["kind"] == "absent"
            else f"shows list {reply['prefix']} and content {reply['content']}"
        )
        wanted = []
        for name, part in (("list", "prefix"), ("content", "content")):
            others = {
                at: one[part] for at, one in self.shown[event["agent"]][asked["suite"]].items() if at != int(server)
            }
            most = max(others.values(), default=0)
            who = sorted(at for at, version in others.items() if version == most)
            if others and most != reply[part] and not (reply["kind"] == "absent" and part == "content"):
                wanted.append((who, name if most or part == "prefix" else name, most, most > reply[part]))
        told = []
        for one in filter(None, beside.split("; ")):
            found = re.fullmatch(
                r"(servers? .*) showed (?:no (list|content) yet|(list|content) (\d+)(, a newer one|, an older one)?)",
                one,
            )
            if not found:
                return False
            told.append(
                (
                    listed(found[1]),
                    found[2] or found[3],
                    int(found[4] or 0),
                    found[5] != ", an older one" and not found[2],
                )
            )
        return bool(is_so and copy == has and told == wanted)

    def by_list(self, number: str, newer: str, user: str, who: str, mays: str) -> bool:
        agent, suite = self.now["agent"], self.now["request"]["suite"]
        shown = [one for one in self.shown[agent][suite].values() if one["kind"] != "absent"]
        top = max(shown, key=lambda one: one["prefix"])
        begun, is_mixed = self.job[agent], any(one["prefix"] < top["prefix"] for one in shown)
        said = dict[str, bool]()
        for part in mays.split(", but "):
            said |= {wants: not part.startswith("may not") for verb, wants in VERBS.items() if verb in part}
        wanted = {one: may(top, begun, one) for one in wanted_of(begun["operations"], self.path(suite))}
        is_he = listed(user)[-1] == begun["user"] and who == rights(top, begun["user"], begun["groups"])[0]
        return said == wanted and int(number) == top["prefix"] and bool(newer) == is_mixed and is_he

    def by_older(self, server: str, nots: str, verb: str) -> bool:
        agent, suite = self.now["agent"], self.now["request"]["suite"]
        shown = self.shown[agent][suite]
        own, top = shown[int(server)], max(shown.values(), key=lambda one: one["prefix"])
        can = may(own, self.job[agent], VERBS[verb])
        return own["prefix"] < top["prefix"] and can != may(top, self.job[agent], VERBS[verb]) and can == (not nots)

    def votes_told(self, got: str, path: str, of: str) -> bool:
        gathered = self.retold.bare[self.now["agent"]]["gathered"]
        one = next(one for one in gathered if one["suite"] == self.now["request"]["suite"])
        return self.votes(one) == (int(got), int(of)) and self.path(one["suite"]) == path

    def prepared(self, server: str, parts: str) -> bool:
        told = [self.part(part) for part in self.now["request"]["parts"] if part["takes"] != "nothing"]
        return self.reply(server, "prepare", "prepared") and parts == "; ".join(told)

    def in_effect(self, parts: str) -> bool:
        found = dict[str, list[int]]()
        for server, own in self.parts[self.now["agent"]].items():
            for part in own:
                found.setdefault(self.part(part), []).append(server)
        told = [re.fullmatch(r"(.*) at (servers? .*)", one) for one in parts.split("; ")]
        return {one[1]: listed(one[2]) for one in told} == found

    def told_end(self, server: str, t: str, word: str, lets: str) -> bool:
        asked, at = self.now["request"], self.now.get("at", {})
        is_end = asked["t"] == int(t) and asked["verdict"].split()[0] == word and bool(lets) == bool(at.get("freed"))
        return self.reply(server, "finish", "done") and is_end

    def stores(self, parts: str) -> bool:
        return parts.split("; ") == [self.part(one) for one in self.stored]

    def busy(self, t: str, path: str, server: str, prepared: str) -> bool:
        reply = self.now["reply"]
        is_so = reply["holder"] == int(t) and reply["prepared"] == bool(prepared)
        return self.reply(server, "poll upgrade", "busy") and is_so and self.path(self.now["request"]["suite"]) == path

    def begins(self, user: str, agent: str, text: str) -> bool:
        begun = self.now["begun"]
        is_he = begun["user"] == listed(user)[-1] and begun["agent"] == int(agent)
        return is_he and " ; ".join(begun["operations"]) == text

    def ended(self, job: str, agent: str, text: str) -> bool:
        end = self.now["end"]
        plain = re.sub(" “[^”]*”", "", text)
        return (end["job"], end["agent"]) == (int(job), int(agent)) and bare(end["text"]) == bare(plain)

    def decided(self, server: str, t: str, text: str) -> bool:
        asked, verdict = self.now["request"], self.now["reply"].get("verdict", "")
        return (
            self.reply(server, "decide", "verdict")
            and asked["t"] == int(t)
            and bare(verdict) == bare(re.sub(" “[^”]*”", "", text))
        )

    def resolved(self, server: str, t: str, text: str) -> bool:
        verdict = self.now["reply"].get("verdict", self.now["reply"]["says"])
        is_it = self.now["request"]["t"] == int(t) and bare(verdict) == bare(re.sub(" “[^”]*”", "", text))
        return self.reply(server, "resolve", "verdict down undecided none busy") and is_it

    def gives(self, server: str, content: str, path: str) -> bool:
        is_it = self.now["reply"].get("content") == int(content) and self.path(self.now["request"]["suite"]) == path
        return self.reply(server, "fetch", "given") and is_it

    def opens(self, who: str) -> bool:
        having = [one["server"] for one in self.now["servers"] if any(copy["suite"] == 0 for copy in one["copies"])]
        return (who == "each server has") == (len(having) == len(self.now["servers"])) and (
            who.startswith("each") or listed(who) == having
        )

    def nothing(self, agent: str, why: str) -> bool:
        return self.line() and why in self.now["nothing"] and int(agent) == int(self.now["text"].split()[1])

    def steps(self, agent: str, many: str) -> bool:
        words = [*self.now["text"].split(), "1"]
        wanted = (
            "steps until its job has ended"
            if words[0] == "run"
            else "a step"
            if words[2] == "1"
            else f"{words[2]} steps"
        )
        return self.line(words[0], agent) and words[0] in ("step", "run") and many == wanted

    def audits(self, server: str, count: str, plural: str) -> bool:
        return (
            self.line("audit", server)
            and len(self.now["audit"]["denials"]) == int(count)
            and (count == "1") == (not plural)
        )

    def locks(self, server: str, count: str) -> bool:
        return self.reply(server, "locks", "locked") and len(self.now["reply"]["locks"]) == int(count)


def bare(text: str) -> str:
    """A text without bytes, which a page shows cut."""
    return (
        re.sub(r"read [0-9a-f]*(?:… \(\d+ bytes\))?", "read", text)
        .replace("no bytes", "")
        .replace("read -", "read")
        .strip()
    )


def gathered(record: Record) -> typing.Iterator[tuple[int, Event]]:
    """What agents gathered, agent by agent: the one that acts first."""
    acting = record.now.get("by", {}).get("agent", 0)
    for agent in sorted(range(len(record.retold.bare)), key=lambda one: (one != acting, one)):
        own = record.retold.bare[agent]
        yield from ((agent, one) for one in own.get("gathered", ()) if own["stage"] != "idle")


def cards(record: Record) -> list[str]:
    """The votes as cards tell them."""
    votes = [record.votes(one) for _, one in gathered(record)]
    return [f"{got} vote{'s' * (got != 1)}, {of} needed" for got, of in votes]


def bars(record: Record) -> list[str]:
    """The titles of the bars of votes."""
    told = []
    for agent, one in gathered(record):
        shown, refused = record.shown[agent][one["suite"]], record.refused[agent][one["suite"]]
        for server, share in enumerate(votes_in(one["votes"])[0]):
            letter = one["held"][server] if server < len(one["held"]) else "-"
            if not share and letter == "-":
                continue
            has = letter == "x" or (letter == "s" and one["mode"] == "shared")
            is_old = server in shown and shown[server]["prefix"] < one["newest"]
            says = ("old" if is_old else "gave") if has else refused.get(server, "not asked")
            front = f"server {server}: {share} vote{'s' * (share != 1)}, {says}"
            told.append(front + (f", shows list {shown[server]['prefix']}" if server in shown else ""))
    return told


def late(record: Record) -> list[list[object]]:
    """What is marked as old of each copy."""
    told: list[list[object]] = []
    for number, server in enumerate(record.retold.servers):
        for suite, copy in sorted(server["copies"].items()):
            if copy["kind"] != "absent":
                newest = record.newest[suite]
                old = [
                    name
                    for name, own, most in zip(("list", "content"), (copy["prefix"], copy["content"]), newest)
                    if own < most
                ]
                told.append([number, suite, f"stale: {', '.join(old)}" if old else ""])
    return told
