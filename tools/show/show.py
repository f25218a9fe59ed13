"""./suites show [OPTIONS] < SCRIPT > run.html: a run as a page that stands alone, or by --live the page of a session
(live.py); help/show.txt tells all of it.
"""
import argparse
import base64
import dataclasses
import hashlib
import json
import os
import re
import sys
import tempfile
import typing
import webbrowser

from common import TOOLS, console, quoted, text_of
from explain import explain, faults
from show import whys
from trace import states, trace
from trace.events import Player

PARTS = os.path.join(TOOLS, "show")
# What stands for what in the page.
FILES = {"STYLE": "style.css", "MODEL": "model.js", "SAYING": "saying.js", "DRAWING": "drawing.js", "PAGE": "page.js"}
# Words of the page that are explained elsewhere than their like.
OWN = {
    "stale": "A copy is stale where one of a newer version is in effect elsewhere:"
    " stored, or left by a decided transaction.",
    "exclusive": "A lock to write: it keeps all others out.",
    "shared": "A lock to read: others may have one too, but none to write.",
    "gathering": "The agent asks for locks of a file or folder, until they have the votes of a quorum.",
    "fetching": "The agent asks a server for a content, which its site's cache does not have.",
    "widening": "A file or folder gets other votes: the agent asks for locks at the servers that get them.",
    "preparing": "The agent asks each server that it locked to prepare: to take what is to be left there.",
    "deciding": "The agent asks the home of the transaction to decide how it ends.",
    "finishing": "The agent tells each server that it locked how the transaction ended.",
    "listing": "A sweep asks a server which locks it has.",
    "resolving": "A sweep asks the home of a transaction how it ended.",
    "telling": "A sweep tells the server how a transaction ended.",
    "breaking": "A sweep breaks a lock of which nothing was prepared.",
    "in doubt": "The home of the transaction is down, and nobody else can tell how it ends: the lock stands till then.",
}
# So many events are shown on a page at most, and what is said of more.
MOST_EVENTS = 60_000
TOO_MANY = (
    "this run has more than {:,} events, as many as a page shows, before the end of line {}: show a part of it, by"
    " lines of the script, as with --from 1 --to 100"
)
CODES = [*(f"F{number}" for number in range(1, 13)), *(f"U{number}" for number in range(1, 8))]


def meanings() -> dict[str, str]:
    """What `explain` knows of the words and codes that the page shows."""
    known = {code: explain.meaning(code) for code in CODES}
    for _, _, code, lines in explain.page():
        for line in lines:
            found = re.match(r"- `([a-z=]+)[^`]*`[^:]*: (.*)", line)
            if found and code in ("answered", "trace"):
                known[found[1]] = f"{found[1]}: {found[2]}".replace("`", "")
        if code in ("answered", "refused", "undecided", "swept", "audit"):
            known[code] = explain.meaning(code).replace("`", "")
    known["denied"] = explain.meaning("F3").replace("F3: ", "denied: ").replace("`", "")
    return {word: " ".join(text.split()) for word, text in {**known, **OWN}.items() if text}


@dataclasses.dataclass
class Shown:
    """The events of a run, or of a part of one, as lines; what a part has to know of what was before; and why jobs
    ended so, by the numbers of events.
    """

    events: list[str]
    before: dict | None = None
    whys: dict[str, list[str]] = dataclasses.field(default_factory=dict)


class Besides(typing.NamedTuple):
    """What a page has besides its run: a script, the name of its data, and these; and whether it asks for more."""

    file: str
    name: str
    data: dict
    asks: bool = False


def events_of(script: bytes) -> list[str]:
    """All events of a script as texts; ends the tool where the script has a fault."""
    with Player(script) as player:
        return [line.decode("latin1").rstrip("\n") for line in player.lines()]


def shown_of(script: bytes, first: int, last: int) -> Shown:
    """The events of lines of a script: all, where the first is 0."""
    with Player(script) as player:
        lines = (line.decode("latin1").rstrip("\n") for line in player.lines())
        opening = next(lines)
        before, kept = states.Part(json.loads(opening)), [opening]
        for line in lines:
            event = json.loads(line)
            if event["line"] > last:
                break
            if event["line"] < first:
                before.take(event, line)
                continue
            kept.append(line)
            if len(kept) > MOST_EVENTS:
                raise console.Stop(TOO_MANY.format(MOST_EVENTS, event['line']))
    ends = [json.loads(kept[at])["event"] for at in (min(1, len(kept) - 1), -1)]
    told = whys.whys_of(script, *ends)
    return Shown([before.opening(), *kept[1:]], before.before(), told) if first > 1 else Shown(kept, None, told)


def embedded(data: object) -> str:
    """Data as JSON, in which nothing can end the element of the page that it stands in."""
    text = json.dumps(data, ensure_ascii=True, separators=(",", ":"))
    return text.replace("<", "\\u003c").replace(">", "\\u003e").replace("&", "\\u0026")


def digest(text: str) -> str:
    """The digest of a script or a style, by which alone a browser lets it run."""
    return f"'sha256-{base64.b64encode(hashlib.sha256(text.encode()).digest()).decode()}'"


def page_of(script: bytes, shown: Shown, besides: Besides | None = None) -> str:
    """The page of a run, or of a part of one, and what it has besides."""
    lines = faults.lines_of(script.decode("utf-8", "replace"))
    data = {"script": lines, **dataclasses.asdict(shown), "meanings": meanings()}
    parts = {name: text_of(PARTS, file) for name, file in FILES.items()}
    styles = [digest(parts["STYLE"])]
    scripts = [digest(text) for name, text in parts.items() if name != "STYLE"]
    parts |= {"MORE": "", "CONNECT": ""}
    if besides:
        data[besides.name], text = besides.data, text_of(PARTS, besides.file)
        scripts.append(digest(text))
        parts["MORE"] = f"<script>{text}</script>\n"
        parts["CONNECT"] = "; connect-src 'self'" if besides.asks else ""
    parts |= {"DATA": embedded(data), "STYLES": " ".join(styles), "SCRIPTS": " ".join(scripts)}
    return re.sub(r"@([A-Z]+)@", lambda found: parts[found[1]], text_of(PARTS, "page.html"))


def opened(page: str, says: str = "") -> bool:
    """Opens a page in a browser, in a file of this user alone that stays; whether one is found."""
    with tempfile.NamedTemporaryFile("w", encoding="utf-8", prefix="run-", suffix=".html", delete=False) as file:
        file.write(page)
    if says:
        console.Teller().say(says.format(file.name))
    return webbrowser.open(f"file://{file.name}")


def main() -> int:
    read = argparse.ArgumentParser(prog="./suites show", add_help=False, allow_abbrev=False)
    read.add_argument("--open", action="store_true")
    read.add_argument("--from", dest="first", type=int, default=0)
    read.add_argument("--to", dest="last", type=int, default=sys.maxsize)
    read.add_argument("--all")
    read.add_argument("-h", "--help", action="store_true")
    read.add_argument("file", nargs="?")
    is_live = "--live" in sys.argv[1:]
    if is_live:
        from mount import words
        from show import live

        read.add_argument("--live", action="store_true")
        words.options(read, "--agents")
    given = read.parse_args()
    if given.help:
        return console.print_help("show")
    if is_live:
        if given.file is not None or given.first or given.last != sys.maxsize:
            raise console.Bad("a page of a session has neither --from nor --to; a script is told by --script FILE")
        return live.main(given)
    if given.all is not None:
        from show import lecture

        return lecture.write(given.all)
    if given.file is not None:
        raise console.Bad(f"a script is read from standard input: {read.prog} < {quoted.plain(given.file)}")
    script = trace.script()
    if not 0 <= given.first <= given.last:
        raise console.Bad("--from and --to are lines of the script, the first before the last")
    page = page_of(script, shown_of(script, given.first, given.last))
    if not given.open:
        sys.stdout.buffer.write(page.encode())
    elif not opened(page, "the page is {}"):
        raise console.Stop("no browser is found here: open the file with one")
    return 0
