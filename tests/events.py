#!/usr/bin/env python3
"""tests/events.py [--seeds N] [PROGRAM]

Holds what is told and drawn of the runs of all stories, of small scripts and of N random ones (12) against the lines
that the program's `trace` prints: what `./suites trace` prints; the objects of `./suites trace --json`, by
docs/events.schema.json, by these lines, and by what servers and agents have at the end; and the pictures of
`./suites draw`, read as XML: each request is an arrow, and nothing is off the canvas. Status 1 where something differs.
"""
import importlib.util
import io
import json
import os
import re
import xml.etree.ElementTree as etree
from collections.abc import Iterator
from typing import Any

import played
import traced
from played import Tally
from scripting import job, script_of

from common import built, text_of, tool
from compare import scenario
from show import show
from trace import json_events, states, trace
from trace.events import Run
from trace.paths import paths

# Most requests that are drawn unasked.
MOST = 2000
LONG = "/a-name-of-more-letters-than-there-is-room-for-between-two-lines"
SCRIPTS = {
    "two": script_of(
        2, 2, "1,1/1/2", job("folder /d 777 ; file /d/f 644 ; write /d/f 6869").rstrip(), "forget 1 0",
        job("read /d/f", 1, "2000 100").rstrip(), "crash 1", job("write /d/f " + "00" * 200).rstrip(), "return 1",
        job("write /d/f 00", 1, "2000 100").rstrip(), "sweep 1 0", "run 1",
    ),
    "twenty": script_of(
        20, 6, ",".join(["1"] * 9 + ["-"] * 10 + ["1"]) + "/6/6", job("file /a 666 ; write /a 00").rstrip(),
        job(f"file {LONG} 600", 5).rstrip(), "crash 12", job("read /a", 3).rstrip(), "begin 0 1000 100 0 read /a",
        "step 0 5", "audit 0",
    ),
    "still": script_of(3, 3, "1/1/1"),
}  # fmt: skip
SVG = "{http://www.w3.org/2000/svg}"


def schema() -> Any:
    """The schema of events, which refuses those that break it; none where there is no library for it, which is said."""
    if not importlib.util.find_spec("jsonschema"):
        print("skipped: no python3-jsonschema, so no event is held against docs/events.schema.json")
        return None
    library = importlib.import_module("jsonschema")
    return library.Draft202012Validator(json.loads(text_of("docs", "events.schema.json")))


def lines_of(events: list[dict]) -> Iterator[str]:
    """What events tell in lines, as far as it is the same words: lines of the script, requests, and what `play`
    prints.
    """
    for event in events[1:-1]:
        if event["kind"] == "line":
            yield f"> {event['text']}"
            if "nothing" in event:
                yield "nothing"
        else:
            asks = event.get("request", {}).get("asks", "full")
            yield f"{event['agent']} -> s{event['server']} {asks} {event['reply']['says']}"
        if "end" in event:
            yield "{agent}.{job} {requests} {text}".format(**event["end"])
        if "audit" in event:
            audit = event["audit"]
            yield f"audit {audit['server']} {len(audit['denials'])}"
            yield from ("t {t} uid {uid} {denied}".format(**item) for item in audit["denials"])


def lines_in(lines: list[str]) -> Iterator[str]:
    """The same of a trace."""
    for line in lines:
        found = traced.REQUEST.match(line)
        if line.startswith("="):
            return
        if found:
            asks = re.match(r"(?:t \d+ )?(\w+)", found[3])[1].replace("asks", "full")
            says = re.match(r"\w+", found[4])[0].replace("locks", "locked").replace("no", "locked")
            yield f"{found[1]} -> s{found[2]} {asks} {says}"
        else:
            yield "nothing" if line.startswith("  nothing") else line


def objects(tally: Tally, name: str, bare: list[str], lines: list[str], rules: Any) -> None:
    """The objects: what they say, by the schema and the lines; and what changed, which comes to what is at the end."""
    fuller = json_events.Fuller()
    events = [json.loads(fuller.of(line.encode())) for line in bare]
    for event in events:
        fault = next(rules.iter_errors(event), None) if rules else None
        tally.holds(fault is None, name, "event", event.get("event"), fault)
    run = states.Retold(events[0])
    for event in events[1:-1]:
        run.hear(event)
    tally.holds(run.standing() == events[-1]["servers"], name, "what changed is not what there is at the end")
    tally.holds(run.agents() == events[-1]["agents"], name, "agents by their changes")
    told = {int(suite): path for event in events for suite, path in event.get("paths", {}).items()}
    tally.same({0: "/", **told}, traced.paths(lines), name, "paths")
    for own, wanted in zip([*lines_of(events), None], [*lines_in(lines), None]):
        tally.same(own, wanted, name, "told")


def written(script: str) -> str:
    """What `./suites trace` writes."""
    out = io.BytesIO()
    with Run(script.encode()) as run:
        trace.write_all(run, out, None)
    return out.getvalue().decode("latin1")


def drawn(script: str, *words: str) -> tuple[int, str, str]:
    done = played.done(tool("draw", *words), script.encode())
    return done.status, done.out.encode("latin1").decode(), done.err


def arrows(text: str) -> list[tuple[int, ...]]:
    """The arrows of a picture's requests: where each begins, how high, and where it ends."""
    ways = [path.get("d") for path in etree.fromstring(text).iter(f"{SVG}path") if path.get("class") == "ask"]
    return [tuple(map(int, re.findall(r"\d+", way))) for way in ways]


def picture(tally: Tally, name: str, script: str, lines: list[str]) -> None:
    """A picture: an arrow for each request, from its agent to its server; whoever acts is named; and all is on it."""
    text = drawn(script, "--anyway")[1]
    root = etree.fromstring(text)
    wide, high = int(root.get("width")), int(root.get("height"))
    texts = [*root.iter(f"{SVG}text")]
    for one in texts:
        is_on = 0 <= int(one.get("x")) <= wide and 0 <= int(one.get("y")) <= high
        tally.holds(is_on, name, "off the canvas", one.text)
        tally.holds((one.text or "").endswith("…") == (one.find(f"{SVG}title") is not None), name, "cut", one.text)
    places = {int(one.get("x")): one.text for one in texts if one.get("class") == "name"}
    asked = [traced.REQUEST.match(line) for line in lines]
    wanted = [(f"agent {found[1]}", f"server {found[2]}") for found in asked if found]
    tally.same([(places[begin], places[end]) for begin, _, end in arrows(text)], wanted, name, "arrows")


def every_script(tally: Tally) -> None:
    rules = schema()
    scripts = {**SCRIPTS, **played.stories()}
    scripts |= {f"seed {seed}": scenario.Scenario(seed, 160).script() for seed in range(tally.given.seeds)}
    for name, script in scripts.items():
        lines = traced.lines_of(script)
        tally.holds(written(script) == traced.told(lines), name, "told otherwise than in lines")
        objects(tally, name, show.events_of(script.encode()), lines, rules)
        picture(tally, name, script, lines)


def commands(tally: Tally) -> None:
    """What the commands print is what is looked at here, and of a fault its line; of too many requests nothing is drawn
    unasked; and the picture in docs/ is that of its story.
    """
    script = next(iter(played.stories().values())).encode()
    words, fuller = [os.path.join(played.TOP, "suites"), "trace", "--json"], json_events.Fuller()
    wanted = b"".join(fuller.of(line.encode() + b"\n") for line in show.events_of(script)).decode()
    tally.same(played.done(words, script)[:2], (0, wanted), "the command")
    tally.same(played.done(words, script + b"none\n")[:2], (3, f"fault line {script.count(10) + 1}: S1\n"), "a fault")
    tally.same(built.asked("trace", "", "--json", "x"), (2, "fault command line\n"), "words")
    own = drawn(SCRIPTS["two"], "--agent", "1")[1]
    every = drawn(SCRIPTS["two"])[1]
    tally.holds(0 < len(arrows(own)) < len(arrows(every)), "--agent 1")
    tally.same(len(arrows(drawn(SCRIPTS["two"], "--from", "5", "--to", "9")[1])), 5, "--from 5 --to 9")
    many = script_of(3, 2, "1,1,1/2/2", job("file /a 666").rstrip(), *[job("read /a").rstrip()] * 250)
    status, text, said = drawn(many)
    tally.holds((status, text) == (1, "") and f"{MOST:,}" in said and "--anyway" in said, "above 2,000", said)
    is_same = text_of("docs", "revocation.svg") == drawn(played.stories()["revocation.script"])[1]
    tally.holds(is_same, "the picture in docs/ is another one: ./suites draw makes it anew")
    folders = {9: {"f": 17, "g": 25}, 17: {"h": 33}, 0: {"a": 1, "d": 9}}
    events = [{"request": {"parts": [{"suite": suite, "names": names}]}} for suite, names in folders.items()]
    tally.same(paths(events), {0: "/", 1: "/a", 9: "/d", 17: "/d/f", 25: "/d/g", 33: "/d/f/h"}, "paths")


if __name__ == "__main__":
    played.plays(__doc__, "looked at", every_script, commands, program=None, most=20, width=600, seeds=12)
