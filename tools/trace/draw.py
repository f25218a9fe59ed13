"""./suites draw [OPTIONS] < SCRIPT > run.svg: a run as a picture; help/draw.txt tells all of it."""
import argparse
import html
import itertools
import sys
import typing
from collections.abc import Iterable, Iterator

from common import console, numbers, quoted
from trace import trace
from trace.events import BEGIN, OF_SERVERS, Event, Run, begun, word_of
from trace.lines import VERSIONS, Lines
from trace.paths import Paths

# The most requests of a picture that is drawn without a word.
MOST = 2000
# A line of names, of an event and of a request; how far names are from the next ones; and what is beside the outer
# lines.
HEAD, BAND, ROW, SCREEN, LEFT, RIGHT, EDGE = 34, 22, 30, 640, 60, 300, 6
# How far agents and servers are from each other where there is room for that, and where they are many; agents from
# servers.
AGENTS_APART, SERVERS_APART, LEAST, GAP = 110, 150, 76, 230
# So much all agents, and all servers, take before they are nearer to each other; and no picture is narrower.
WIDE, NARROW = 1200, 720
# No letter of these fonts at this size is wider.
LETTER, FONT = 6.7, "11px ui-monospace, 'DejaVu Sans Mono', Menlo, Consolas, 'Liberation Mono', monospace"
STYLE = f"""<style>
text {{ font: {FONT}; fill: #222; paint-order: stroke; stroke: #fff; stroke-width: 3px; stroke-linejoin: round }}
.name {{ font-weight: bold; stroke: #eee }} .event {{ font-weight: bold }} .reply {{ fill: #666 }} \
.good {{ fill: #176b2c }} .bad {{ fill: #a3161b }}
.open {{ fill: #8a5a00 }} .key {{ fill: #444 }} .fold {{ stroke: #345; stroke-width: 2 }} .life {{ stroke: #bbb }} \
.ask {{ stroke: #345; stroke-width: 1.2 }} .told {{ stroke: #888; stroke-dasharray: 4 3 }} .down {{ fill: #ddd }} \
.names {{ fill: #eee }}
</style>"""
TIPS = """<defs>
<marker id="a" markerWidth="7" markerHeight="6" refX="7" refY="3" orient="auto">\
<path d="M0 0L7 3L0 6z" fill="#345"/></marker>
<marker id="b" markerWidth="7" markerHeight="6" refX="7" refY="3" orient="auto">\
<path d="M0 0L7 3L0 6z" fill="#888"/></marker>
</defs>"""
# What signs mean, at the foot of a picture, for which so much room is kept; and how much a sign has.
LEGEND, SIGN = 90, 26
SIGNS = (
    ("a request", '<path d="M0 0H14" stroke="#345"/><path d="M20 0l-7 -3v6z" fill="#345"/>'),
    ("its reply", '<path d="M20 0H6" stroke="#888" stroke-dasharray="4 3"/><path d="M0 0l7 -3v6z" fill="#888"/>'),
    ("decided", '<path d="M10 -6l6 6l-6 6l-6 -6z" fill="#176b2c"/>'),
    ("a line of the script", '<circle cx="10" cy="0" r="3" fill="#222"/>'),
    ("the server is down", '<path d="M3 -7h14v14h-14z" fill="#ddd"/>'),
    ("p2 c1: versions of the list and of the content", ""),
)
# So many lines of a script stay on one screen with the arrow below them.
NEAR = 6
# What folds: requests for locks on a suite, and those of which each server gets its own; and replies that say yes.
FOR_LOCKS, FOR_EACH = ("poll", "upgrade"), ("prepare", "finish", "break")
GOOD = ("held", "prepared", "done")
# What happens: a request that is served, a job that ends, a line of the script that is shown itself, and one before all
# of them.
ASKED, ENDED, SAID, STANDS = "asked", "ended", "said", "stands"
# Of which kind, at what, and what tells it: the event of a request, how a job ended, and of a line of the script its
# first word and what is shown of it.
Happening = tuple[str, str, typing.Any]


class Brief(Lines):
    """Tells the requests of an agent, and the replies, in few words."""

    VERDICT = ""

    def __init__(self, known: dict[int, str], agent: int) -> None:
        super().__init__(known)
        self.agent = agent

    def suite(self, number: int) -> str:
        return self.known.get(number, f"suite {number}")

    def versions(self, told: Event) -> str:
        return " ".join(f"{what[0]}{told[what]}" for what in VERSIONS if what in told)

    def content(self, told: Event) -> str:
        return ""

    def part(self, part: Event) -> str:
        return f"{self.suite(part['suite'])} {self.versions(part)}".rstrip()

    def whose(self, request: Event) -> str:
        is_of_others = request["asks"] == "finish" and numbers.job_of(request["t"])[0] != self.agent
        return super().whose(request) if is_of_others or request["asks"] in ("resolve", "break") else ""


class Picture:
    """What is drawn so far, and where it goes on."""

    def __init__(self, agents: list[int], servers: list[int]) -> None:
        self.x: dict[str, int] = {}
        at = LEFT
        for kind, those, apart in (("agent", agents, AGENTS_APART), ("server", servers, SERVERS_APART)):
            step = max(LEAST, min(apart, WIDE // max(1, len(those))))
            self.x |= {f"{kind} {number}": at + place * step for place, number in enumerate(those)}
            at = max(self.x.values(), default=at) + GAP
        self.width = max([x + RIGHT for x in self.x.values()] + [NARROW])
        self.y, self.named, self.parts = HEAD + 14, [20], list[str]()
        self.greys: list[tuple[str, int, int]] = []
        self.down: dict[str, int] = {}
        self.last: dict[str, tuple[int, int]] = {}
        self.foot: int | None = None

    def label(self, x: int, y: int, words: str, room: float, style: str) -> None:
        """A text right of a place, or left of it where the room is negative. What has no room is cut."""
        most, text = int(abs(room) / LETTER), html.escape(quoted.safe(words))
        if len(words) > most:
            text = f"{html.escape(quoted.safe(words[: max(0, most - 1)]))}…<title>{text}</title>"
        style = f' class="{style}"' if style else ""
        anchor = ' text-anchor="end"' if room < 0 else ""
        self.parts.append(f'<text x="{x}" y="{y}"{style}{anchor}>{text}</text>')

    def beside(self, x: int, y: int, words: str, style: str) -> None:
        """A text that has room up to the edge of the picture."""
        self.label(x, y, words, self.width - x - EDGE, style)

    def names_again(self, height: int) -> None:
        """The names of agents and servers stand above what comes next, where it would be a screen from them."""
        if self.y + height > self.named[-1] + SCREEN:
            self.named.append(self.y + 2)
            self.y += BAND

    def said(self, name: str, words: str, below: int = 0) -> None:
        """A line of the script, on one screen with so many lines and the arrow below it. A job before it is over."""
        self.names_again((1 + below) * BAND + ROW)
        self.last.pop(name, None)
        self.parts.append(f'<circle cx="{self.x[name]}" cy="{self.y}" r="3" fill="#222"/>')
        self.beside(self.x[name] + 7, self.y + 4, words, "event")
        self.y += BAND

    def grey(self, server: str, is_down: bool) -> None:
        """From here on the server is down, or up."""
        if is_down:
            self.down.setdefault(server, self.y)
        elif server in self.down:
            self.greys.append((server, self.down.pop(server), self.y))

    def asked(self, agent: int, server: int, words: list[str], decides: bool) -> None:
        self.names_again(ROW)
        a, b, y = self.x[f"agent {agent}"], self.x[f"server {server}"], self.y
        there, back = f"M{a} {y}H{b}", f"M{b} {y + 14}H{a}"
        self.parts.append(
            f'<path d="{there}" class="ask" marker-end="url(#a)"/><path d="{back}" class="told" marker-end="url(#b)"/>'
        )
        self.label(a + 7, y - 4, words[0], b - a - 14, "")
        self.label(b - 10, y + 10, words[1], a - b + 17, "reply")
        if decides:
            self.parts.append(f'<path d="M{b} {y - 6}l6 6l-6 6l-6 -6z" fill="#176b2c"/>')
        self.last[f"agent {agent}"] = b, y + 4
        self.y += ROW

    def folded(self, agent: int, servers: list[tuple[int, bool]], words: str, is_good: bool) -> None:
        """Requests of one phase in one line: the servers that were asked, each with whether it did as it was asked."""
        self.names_again(ROW)
        a, y = self.x[f"agent {agent}"], self.y
        first, last = (choose(self.x[f"server {server}"] for server, _ in servers) for choose in (min, max))
        self.parts.append(f'<path d="M{a} {y}H{last}" class="fold"/>')
        for server, is_done in servers:
            colour = "#345" if is_done else "#a3161b"
            self.parts.append(f'<circle cx="{self.x[f"server {server}"]}" cy="{y}" r="4" fill="{colour}"/>')
        self.label(a + 7, y - 4, words, first - a - 14, "" if is_good else "open")
        self.last[f"agent {agent}"] = last, y + 4
        self.y += ROW

    def legend(self) -> None:
        self.names_again(LEGEND)
        self.foot = self.y - 6
        x, y = LEFT // 2, self.y + 8
        for words, sign in SIGNS:
            begin = SIGN if sign else 0
            if x + begin + len(words) * LETTER > self.width - EDGE:
                x, y = LEFT // 2, y + 18
            self.parts += [f'<g transform="translate({x} {y})">{sign}</g>'] if sign else []
            self.label(x + begin, y + 4, words, self.width - x - begin - EDGE, "key")
            x += begin + int(len(words) * LETTER) + SIGN
        self.y = y + 18

    def ended(self, agent: str, words: str) -> None:
        """How a job ended: beside its last arrow, or below its line of the script where there is none."""
        if agent not in self.last:
            self.names_again(BAND)
            self.last[agent] = self.x[agent], self.y + 4
            self.y += BAND
        x, y = self.last.pop(agent)
        style = (
            "good" if words.startswith(("answered", "swept")) else "open" if words.startswith("undecided") else "bad"
        )
        self.beside(x + 12, y, words, f"event {style}")

    def told(self) -> str:
        width, height = self.width, self.y + 10
        foot = self.foot or height
        self.greys += [(server, top, foot) for server, top in self.down.items()]
        lines = [
            f'<svg xmlns="http://www.w3.org/2000/svg" viewBox="0 0 {width} {height}"'
            f' width="{width}" height="{height}">',
            STYLE,
            TIPS,
            '<rect width="100%" height="100%" fill="#fff"/>',
        ]
        lines += [f'<path d="M{x} {HEAD}V{foot}" class="life"/>' for x in self.x.values()]
        lines += [
            f'<rect x="{self.x[server] - 7}" y="{top}" width="14" height="{bottom - top}" class="down"/>'
            for server, top, bottom in self.greys
        ]
        lines += [f'<rect x="0" y="{top - 14}" width="{width}" height="20" class="names"/>' for top in self.named]
        names = [
            f'<text x="{x}" y="{top}" class="name" text-anchor="middle">{name}</text>'
            for top in self.named
            for name, x in self.x.items()
        ]
        return "\n".join([*lines, *self.parts, *names, "</svg>", ""])


def shown_at(event: Event) -> tuple[str, str] | None:
    """At what a line of the script is shown, and how; nothing where its requests tell all."""
    kind, *words = event["text"].split()
    job = begun(event)
    front = f"job {job[1]} (t {numbers.transaction(*job)}), " if job else ""
    if kind == "begin":
        return f"agent {int(words[0])}", f"{front}user {words[1]}: {' '.join(words[4:])}"
    if kind == "sweep":
        return f"agent {int(words[0])}", f"{front}sweeps server {int(words[1])}"
    if kind == "forget":
        return f"agent {int(words[0])}", f"forgets its cache of site {int(words[1])}"
    if kind in OF_SERVERS:
        return f"server {int(words[0])}", {"crash": "crashes", "return": "restarts"}[kind]
    return None


def happenings(events: Iterable[Event]) -> Iterator[Happening]:
    """What happens in a run, in its order: of which kind, at what, and what tells it."""
    for event in events:
        shown = shown_at(event) if event["kind"] == "line" else None
        if shown and "nothing" in event:
            yield SAID, shown[0], ("nothing", f"{shown[1]} (nothing happens: it has a job)")
        elif shown:
            yield SAID, shown[0], (event["text"].split()[0], shown[1])
        if event["kind"] == "request":
            yield ASKED, f"agent {event['agent']}", event
        if "end" in event:
            yield ENDED, f"agent {event['end']['agent']}", event["end"]["text"]


class Choice:
    """What happens from one request to another, counted from 1; of what was before, what is still so. Of many requests
    only the first are kept.
    """

    def __init__(self, found: Iterable[Happening], first: int, last: int, most: int) -> None:
        # how many requests there were up to the last one, how many of them are chosen, and what happens
        self.count, self.chosen, self.items = 0, 0, list[Happening]()
        before: dict[str, Happening] = {}
        for kind, name, what in found:
            self.count += kind == ASKED
            if first - 1 <= self.count < last if kind == SAID else first <= max(1, self.count) and self.count <= last:
                self.chosen += kind == ASKED
                self.items += [*before.values(), (kind, name, what)] if self.chosen <= most else []
                before.clear()
            elif self.count > last:
                break
            elif kind == ENDED or kind == SAID and what[0] == "return":
                before.pop(name, None)
            elif kind == SAID and what[0] in (*BEGIN, "crash"):
                told = "is down" if what[0] == "crash" else f"begun before, {what[1]}"
                before[name] = STANDS, name, (what[0], told)


def columns(items: list[Happening]) -> tuple[set[int], set[int]]:
    """The numbers of the agents and servers that do something."""
    names = [name for kind, name, _ in items if kind in (ASKED, SAID)]
    names += [f"server {what['server']}" for kind, _, what in items if kind == ASKED]
    agents, servers = ({int(name.split()[1]) for name in names if name.startswith(of)} for of in ("agent", "server"))
    return agents, servers


def phase_of(item: Happening) -> tuple[object, ...] | None:
    """The phase of a request, of which others may stand in one line with it; or nothing."""
    request = item[2].get("request", {}) if item[0] == ASKED else {}
    asks = request.get("asks")
    if asks not in FOR_LOCKS + FOR_EACH:
        return None
    return item[2]["agent"], request["t"], *(("locks", request["suite"]) if asks in FOR_LOCKS else (asks,))


def phases(items: list[Happening], folds: bool) -> Iterator[list[Happening]]:
    """What happens, one by one, or where they are to be folded those requests together that are of one phase."""
    for key, group in itertools.groupby(items, phase_of if folds else lambda item: None):
        yield from [[*group]] if key else ([one] for one in group)


def fold(picture: Picture, requests: list[Event], known: dict[int, str]) -> None:
    agent, request = requests[0]["agent"], requests[0]["request"]
    servers = [(one["server"], one["reply"]["says"] in GOOD) for one in requests]
    good, count = sum(is_good for _, is_good in servers), len(requests)
    if request["asks"] in FOR_LOCKS:
        told = f"locks of {Brief(known, agent).suite(request['suite'])}: {good} of {count}"
    else:
        of_all = f"×{good}" if good == count else f"{good} of {count}"
        told = " ".join(filter(None, [request["asks"], word_of(request.get("verdict", "")), of_all]))
    picture.folded(agent, servers, told, good == count)


def ask(picture: Picture, event: Event, known: dict[int, str]) -> None:
    brief, request, reply = Brief(known, event["agent"]), event.get("request"), event["reply"]
    decides = reply["says"] == "verdict" and request["asks"] in ("decide", "resolve")
    picture.asked(event["agent"], event["server"], [brief.request(request), brief.reply(reply)], decides)


def drawn(
    items: list[Happening], known: dict[int, str], agents: set[int], servers: set[int], folds: bool = False
) -> str:
    """The picture of what happens at these agents and servers."""
    picture, drawn_of = Picture(sorted(agents), sorted(servers)), [*phases(items, folds)]
    for place, some in enumerate(drawn_of):
        kind, name, what = some[0]
        if len(some) > 1:
            fold(picture, [event for _, _, event in some], known)
        elif kind == ASKED:
            ask(picture, what, known)
        elif kind == ENDED:
            picture.ended(name, what)
        elif name in picture.x:
            if what[0] in OF_SERVERS:
                picture.grey(name, what[0] == "crash")
            next_ones = (some[0][0] for some in drawn_of[place + 1 : place + 1 + NEAR])
            picture.said(name, what[1], sum(1 for _ in itertools.takewhile(lambda kind: kind != ASKED, next_ones)))
    if not items:
        picture.beside(LEFT, picture.y, "nothing happens", "event")
    elif any(item[0] == ASKED for item in items):
        picture.legend()
    return picture.told()


def picture(
    events: Iterable[Event], known: dict[int, str], given: argparse.Namespace, everybody: typing.Sequence[int] = (0, 0)
) -> str:
    """The picture of a run, or of the part that is asked for, with all of so many agents and servers."""
    if given.first > given.last:
        raise console.Stop("--from is to be no more than --to")
    found = happenings(trace.narrowed(events, given.agent, trace.number_of(given.suite, known)))
    most = sys.maxsize if given.anyway else MOST
    choice = Choice(found, given.first, given.last, most)
    if given.first > max(1, choice.count):
        raise console.Stop(f"there are {choice.count:,} requests, and no more to begin with at {given.first:,}")
    if choice.chosen > most:
        raise console.Stop(
            f"{choice.chosen:,} requests would be drawn, above {MOST:,}: choose by --agent A, --suite S (a path or a"
            f" number) or --from N --to M (as --from 1 --to {MOST}); --anyway draws them all"
        )
    agents, servers = columns(choice.items)
    return drawn(choice.items, known, agents | {*range(everybody[0])}, servers | {*range(everybody[1])}, given.fold)


def positive(word: str) -> int:
    if int(word) < 1:
        raise ValueError
    return int(word)


def asked(words: typing.Sequence[str]) -> argparse.Namespace:
    more: dict[str, dict[str, typing.Any]] = {
        "--from": {"type": positive, "dest": "first", "default": 1},
        "--to": {"type": positive, "dest": "last", "default": sys.maxsize},
    }
    more |= {word: {"action": "store_true"} for word in ("--fold", "--all", "--anyway")}
    return trace.asked(list(words), "draw", more)


def main() -> int:
    given, found = asked(sys.argv[1:]), Paths()
    with Run(trace.script(given.agent)) as run:
        playing = run.play()
        opening = next(playing)
        for event in playing:
            found.learn(event)
        everybody = [len(opening[those]) if given.all else 0 for those in ("agents", "servers")]
        text = picture(run, found.known, given, everybody)
        run.progress.make_way()
        sys.stdout.buffer.write(text.encode())
    return 0
