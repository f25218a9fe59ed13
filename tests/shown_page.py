#!/usr/bin/env python3
"""tests/shown_page.py

Opens the pages of ./suites show in a headless Chromium, steps through them by keys, and looks whether what they say is
what `trace` tells in lines; and holds their model against what the program tells (by `node`, where that is there).
Without Chromium it prints "skipped: no chromium". Status 1 where something differs.
"""
import dataclasses
import json
import os
import re
import shutil
import sys
import tempfile

import browser
import played
import traced
from played import Tally
from scripting import script_of

from common import text_of
from compare import scenario
from show import show
from trace import states

LOCK = re.compile(r"    t (\d+) suite (\d+) (shared|exclusive)( prepared)?$")
# The most bytes of the page of a story.
MOST_BYTES = 250_000
# What the page shows, as an expression.
SEEN = text_of("tests", "seen.js").rstrip()
EVIL = "</script><script>alert(1)</script><img src=x onerror=alert(2)>"
NAMED = 'a"<img/src=x/onerror=alert(3)>'


class Pages:
    """Pages of scripts, in a folder, which a browser opens."""

    def __init__(self, driver: browser.Browser, folder: str) -> None:
        self.driver, self.folder, self.count = driver, folder, 0

    def open(self, script: str) -> int:
        """Opens the page of a script; answers how many bytes it has."""
        events = show.events_of(script.encode())
        self.count += 1
        page = show.page_of(script.encode(), show.Shown(events))
        self.driver.open(played.put(os.path.join(self.folder, f"{self.count}.html"), page))
        return len(page)

    def seen(self) -> dict:
        return self.driver.value(SEEN)


def ended(lines: list[str]) -> list[dict]:
    """What servers have at the end of a trace, as the page shows it."""
    servers: list[dict] = []
    for line in lines:
        copy, lock = traced.COPY.match(line), LOCK.match(line)
        if line.startswith("= server"):
            servers.append({"up": line.endswith(" up"), "copies": [], "locks": []})
        elif servers and copy:
            servers[-1]["copies"].append([int(number) for number in copy.groups()])
        elif servers and lock:
            servers[-1]["locks"].append(f"{lock[1]} {lock[2]} {lock[3]} {'true' if lock[4] else 'false'}")
    return servers


def agents_at(events: list[dict], place: int) -> list[dict]:
    """What agents do and keep behind an event, as the page shows it, which puts a site's entries together."""
    agents = states.Retold(events[0])
    for event in events[1:place + 1]:
        agents.hear(event)
    shown = []
    for agent in agents.agents():
        sites = list(dict.fromkeys(one["site"] for one in agent["cache"]))
        cache = sorted(agent["cache"], key=lambda one: sites.index(one["site"]))
        shown.append({
            "stage": agent["stage"],
            "gathered": ["{suite} {mode} {newest} {held}".format(**one) for one in agent["gathered"]],
            "cache": ["{site} {suite} {prefix} {content}".format(**one) for one in cache],
        })
    return shown


def printed(lines: list[str]) -> list[str]:
    """The lines of a trace that are those of `play`."""
    return [line for line in lines if line[:1].isdigit() or line.startswith(("audit ", "t "))]


def models(tally: Tally) -> bool:
    """The world behind the last event, as the model comes to it, is the one that the program tells at the end; and the
    worlds of a part of a run, from a line in the middle of the script on, are those of the whole.
    """
    scripts = {**played.stories(), **{f"seed {seed}": scenario.Scenario(seed, 200).script() for seed in range(4)}}
    for name, script in scripts.items() if shutil.which("node") else ():
        modelled(tally, name, dataclasses.asdict(show.Shown(show.events_of(script.encode()))))
        whole, middle = show.shown_of(script.encode(), 0, sys.maxsize), script.count("\n") * 2 // 3
        part, cut = (show.shown_of(script.encode(), middle, last) for last in (sys.maxsize, middle))
        modelled(tally, name, {"whole": whole.events, "part": part.events, "before": part.before})
        tally.holds(len(part.events) < len(whole.events), "a part is shorter", name)
        tally.holds(cut.events == part.events[:len(cut.events)], "a part that ends early", name)
        tally.holds(len(cut.events) < len(part.events), "it ends early", name)
    return False


def modelled(tally: Tally, name: str, given: dict) -> None:
    words = ["node", os.path.join(played.TOP, "tests", "model.js"), os.path.join(show.PARTS, "model.js")]
    done = played.done(words, json.dumps(given).encode())
    tally.same(done.out.strip(), "[]", "model", name, done.err[-300:])


def whole(tally: Tally, pages: Pages) -> None:
    """Stories, stepped by keys to their ends: servers, copies, locks, what agents gathered and keep, and what
    `play` prints.
    """
    for name, script in [*played.stories().items()][::3]:
        size = pages.open(script)
        tally.holds(size < MOST_BYTES, name, "bytes of the page", size)
        lines = traced.lines_of(script)
        begun = pages.seen()
        tally.holds(begun["here"] == 0 and begun["told"] == [], name, "it begins", begun)
        events = [json.loads(line) for line in show.events_of(script.encode())]
        # a third of the way each, then to the end, all by keys: what agents do is looked at where it is stopped
        for place in (begun["last"] // 3, 2 * begun["last"] // 3, begun["last"]):
            pages.driver.press("ArrowRight", place - pages.seen()["here"])
            seen = pages.seen()
            tally.holds(seen["here"] == place, name, "keys lead to", place, seen["here"])
            told = agents_at(events, place)
            tally.holds(seen["agents"] == told, name, "agents", place, seen["agents"], told)
        tally.holds(seen["servers"] == ended(lines), name, "servers", seen["servers"], ended(lines))
        # bytes are shown as a text besides, and long ones are cut
        texts = [re.sub(" “[^”]*”|[0-9a-f]*… \\(\\d+ bytes\\)", "", text) for text in seen["text"]]
        like = [text for text, own in zip(texts, printed(lines)) if own.startswith(text) or "read" in own]
        tally.holds(seen["told"] == printed(lines), name, "what play prints", seen["told"])
        tally.holds(len(like) == len(seen["told"]), name, "what play prints, as a text", texts)
        said = pages.driver.value("document.getElementById('says').textContent")
        tally.holds(len(said) > 10 and "undefined" not in said, name, "a sentence of the moment", said)
        pages.driver.press("ArrowLeft", 2)
        tally.holds(pages.seen()["here"] == max(0, seen["last"] - 2), name, "keys lead back")
        pages.driver.press("Home")
        tally.holds(pages.seen()["servers"] == begun["servers"], name, "Home leads to the beginning")


def hostile(tally: Tally, pages: Pages) -> None:
    """What bytes hold, and names of users in a script, stays text."""
    digits = EVIL.encode().hex()
    asked = f"file /a u::rw,u:{NAMED}:rw,g::r,m::rw,o::- ; write /a {digits}"
    lines = f"user {NAMED} 1001", f"begin 0 1000 100 0 {asked}", "run 0", "begin 0 1000 100 0 read /a", "run 0"
    pages.open(script_of(3, 2, "1,1,1/2/2", *lines))
    pages.driver.press("End")
    driver = pages.driver
    tally.holds(driver.value("document.images.length") == 0, "an image came of a name or of bytes")
    tally.holds(driver.value("document.scripts.length") == 5, "a script came of bytes")
    shown = driver.value("document.getElementById('script').textContent")
    tally.holds(NAMED in shown, "the script is shown as it is", shown)
    world = driver.value("document.getElementById('world').textContent")
    tally.holds("</script><s…" in world or "</script>" in world, "bytes are shown as a text", world)
    page = text_of(pages.folder, f"{pages.count}.html")
    tally.holds(page.count("</script>") == 5, "what bytes hold stands in the page")


def pages_shown(tally: Tally) -> bool:
    with browser.opened(tally) as driver, tempfile.TemporaryDirectory() as folder:
        for part in (whole, hostile) if driver else ():
            part(tally, Pages(driver, folder))
    return False


if __name__ == "__main__":
    played.plays(__doc__, "looked at", models, pages_shown, most=20, width=600)
