#!/usr/bin/env python3
"""tests/page_told.py [--scripts N] [--lines N] [--planted N]

Plays N random scripts (200), steps through the page of each (`./suites show`) in a headless Chromium, and holds every
sentence that it says, at every moment, against the event that it is about (`trace --json`), with a check of acl(5) of
its own; so the votes and the marks of old copies on its cards. Where a job ended undone it says why. Then errors are
planted into a copy of what the page runs, and each has to be found by the stories and N scripts (4). Without Chromium
it prints "skipped: no chromium". Status 1 where something differs, or a planted error is not found.
"""
import json
import os
import re
import tempfile
import typing

import browser
import played
from page_records import Record, bare, bars, cards, late
from played import Tally
from scripting import script_of

from common import text_of
from compare import scenario
from show import lecture, show
from trace import json_events

# All moments of a page: what is said and why; and of some of them what the page shows, with the votes on its cards, and
# which copies are marked as old.
WALK = """(() => { const all = [];
  for (let at = 0; at <= Page.run.last; at += 1) {
    all.push({ says: Saying.of(Page.run, at), why: Saying.why(Page.run, at) });
    if (at % 16 !== 9 && !(at % 4 === 0 && Page.run.events[at].end)) continue;
    Page.go(at);
    const text = (one) => [...document.querySelectorAll(one)].map((part) => part.textContent);
    Object.assign(all[at], { seen: [...text('#says .sentence'), ...text('#says .why')], votes: text('[data-votes]'),
      bars: [...document.querySelectorAll('.vote')].map((one) => one.title),
      late: [...document.querySelectorAll('[data-server] .copy')].map((one) => [
        Number(one.closest('[data-server]').dataset.server), Number(one.dataset.copy),
        (one.querySelector('.stale') || { textContent: '' }).textContent]) }); }
  return all; })()"""
# Scripts on which the page was wrong once: a refused job that stored nothing, and a job that wants two things. And one
# of a mask that cuts, and of a user of two groups.
REFUSED = (
    "begin 0 1000 100 0 file /a 666 ; write /a 6869",
    "run 0",
    "begin 0 1000 100 0 write /a 00",
    "step 0 4",
    "begin 1 2000 300 0 write /a 01",
    "run 1",
    "run 0",
    "begin 2 2000 300 0 drop /a ; file /a 600 ; read /b",
    "run 2",
)
WANTS_TWO = (
    "begin 0 1000 100 0 file /a 644 ; write /a 6869",
    "run 0",
    "begin 1 2000 300 0 read /a ; write /a 00",
    "run 1",
    "begin 1 2000 300 0 setacl /a u::rw,g::r,o::rw",
    "run 1",
)
MASKED = (
    "begin 0 1000 100 0 file /a u::rw,u:2000:rw,g::r,m::r,o::- ; file /b u::rw,g::-,g:300:r,m::r,o::-",
    "run 0",
    "begin 1 2000 300 0 write /a 00",
    "run 1",
    "begin 1 3000 100,300 0 read /b",
    "run 1",
)
# Errors that are planted: a text of the page's parts, and what stands in its place.
PLANTED = (
    ("(!own || own.kind ===", "(true || own.kind ==="),
    ("others.filter(([, copy]) => copy[part] === most)", "others"),
    ("return own > most ?", "return own >= most ?"),
    ('job.text.split(" ; ").map((operation)', 'job.text.split(" ; ").slice(0, 1).map((operation)'),
    ('count(votes.got, "vote")', 'count(votes.of, "vote")'),
    (
        "[...job.parts, ...kept]",
        "[...job.parts, ...[...job.prepared, server].flatMap((one) => kept.map((part) => ({ ...part, server: one })))]",
    ),
    ("own.some((one) => grants(one, true))", "own.every((one) => grants(one, true))"),
    ("grants(named, true)", "grants(named, false)"),
    ("copy[part] < newest[part]", "copy[part] <= newest[part]"),
    ("run.whys[run.events[place].event]", "run.whys[-1]"),
    ("counts ? votes.of[server] || 0 : 0", "votes.of[server] || 0"),
)
N, S = r"(\d+)", r"(\d+)"
USER = r"(user (?:\S+ \(\d+\)|\d+))"
SHOWS = r"(has no copy of it|shows list \d+ and content \d+)"
MISSED = "it is in the way, and this server's votes are not had."
LOST = "has no lock of this transaction on (.+) any more: a crash or a sweep took it."
# fmt: off
SAID: tuple[tuple[str, typing.Callable[..., object]], ...] = (
    ("The service opens: (each server has|servers? .* ha(?:s|ve)) the root folder.", Record.opens),
    ("The script is played to its end.", lambda own: own.now["kind"] == "standing"),
    (rf"This line does nothing: agent {N} (.*).", Record.nothing),
    (f"Server {S} crashes: it loses the locks that are not prepared, and keeps all else.",
     lambda own, server: own.line("crash", server)),
    (f"Server {S} is back, with the copies that it had.", lambda own, server: own.line("return", server)),
    (f"Agent {N} forgets what its cache has for site (.*).", lambda own, agent, site: own.line("forget", agent, site)),
    (rf"{USER.replace('user', '[Uu]ser', 1)} asks agent {N}: (.*).", Record.begins),
    (f"Agent {N} begins to end what others have left at server {S}.",
     lambda own, agent, server: own.line("sweep", agent, server)),
    (f"Agent {N} takes (a step|\\d+ steps|steps until its job has ended).", Record.steps),
    (f"Server {S} has recorded {N} denial(s?).", Record.audits),
    (rf"Server {S} gives its (shared|exclusive) lock of (.+), and {SHOWS}((?:; .*)?).", Record.held),
    (rf"By list {N}(, the newer)?, {USER} is (the owner|named in it|in a group of it|one of all others): (.*).",
     Record.by_list),
    (rf"By server {S}'s older list alone: may( not)? (.*).", Record.by_older),
    (rf"With that the agent has {N} votes? of (.+); {N} (?:is|are) needed.", Record.votes_told),
    (rf"Transaction {N} has a lock of (.+) at server {S}(, which is prepared)?: {MISSED}", Record.busy),
    (rf"Server {S} {LOST}", lambda own, server, path: own.reply(server, "poll upgrade fetch", "lost")),
    (rf"Server {S} gives content {N} of (.+).", Record.gives),
    (rf"Server {S} has prepared: it is ready to store (.*).", Record.prepared),
    (rf"Server {S} has prepared, with nothing to store()", Record.prepared),
    ("From now on the locks there stand through a crash.", lambda own: own.now["reply"]["says"] == "prepared"),
    (rf"Server {S} does not prepare, since a lock of transaction {N} is gone there.",
     lambda own, server, _: own.reply(server, "prepare", "lost")),
    (rf"Server {S}, the home, records how transaction {N} ends: (.*).", Record.decided),
    ("From now on it is so, whatever crashes.", lambda own: own.now["request"]["asks"] == "decide"),
    (rf"Server {S}, the home, has recorded already that transaction {N} is aborted: a sweep asked before.",
     lambda own, server, t: own.decided(server, t, "aborted")),
    ("In effect: (.*).", Record.in_effect),
    (rf"Server {S} is told how transaction {N} ended \((\w+)\)(, and lets its locks go)?.", Record.told_end),
    ("It stores (.*).", Record.stores),
    (f"Server {S} tells the sweep its locks: {N}.", Record.locks),
    (rf"Server {S}, the home of transaction {N}, tells how it ended: (.*).", Record.resolved),
    (rf"The lock of transaction {N} on (.+) at server {S}, which was not prepared, is broken.",
     lambda own, t, path, server: own.reply(server, "break", "done")),
    (f"Server {S} is down, and answers nothing.",
     lambda own, server: own.now["server"] == int(server) and own.now["reply"]["says"] == "down"),
    (rf"Job {N} of agent {N} has ended: (.*).", Record.ended),
)
# fmt: on
FORMS = [(re.compile(form), holds) for form, holds in SAID]


def is_so(record: Record, sentence: str) -> bool:
    """Whether a sentence is one of those that the page has, and is so of the moment."""
    for form, holds in FORMS:
        found = form.fullmatch(sentence) or form.fullmatch(sentence.rstrip("."))
        if found:
            try:
                return bool(holds(record, *found.groups()))
            except (KeyError, StopIteration, IndexError):
                return False
    return False


def needs(record: Record) -> list[str]:
    """What has to be said besides: what is stored, and how a job ended."""
    told = ["It stores "] if record.stored else []
    return told + (
        ["Job {job} of agent {agent} has ended: ".format(**record.now["end"])] if "end" in record.now else []
    )


def wrong_of(driver: browser.Browser, folder: str, script: str) -> typing.Iterator[tuple[bool, str]]:
    """Each thing that the page of a script says: whether it is so, and what it is."""
    shown = show.shown_of(script.encode(), 0, 1 << 60)
    driver.open(played.put(os.path.join(folder, "page.html"), show.page_of(script.encode(), shown)))
    fuller = json_events.Fuller()
    events = [json.loads(fuller.of(line.encode("latin1") + b"\n")) for line in shown.events]
    record = Record(events)
    for at, (event, seen) in enumerate(zip(events, driver.value(WALK), strict=True)):
        if at:
            record.take(event)
        for sentence in re.split(r"(?<=\.) (?=[A-Z])", seen["says"]):
            yield is_so(record, sentence), f"{at}: {sentence}"
        for wanted in needs(record):
            yield wanted in seen["says"], f"{at}: not said: {wanted}"
        is_undone = not event.get("end", {}).get("text", "answered").startswith(("answered", "swept 0 0 0"))
        if is_undone and event["end"].get("code") != "U7":
            yield bool(seen["why"]) or event["end"]["how"] == "swept", f"{at}: no reason for {event['end']['text']}"
        if "seen" not in seen:
            continue
        yield seen["seen"] == [
            seen["says"],
            *[" ".join(seen["why"])] * bool(seen["why"]),
        ], f"{at}: seen: {seen['seen']}"
        yield seen["votes"] == cards(record), f"{at}: votes {seen['votes']}, and not {cards(record)}"
        yield seen["bars"] == bars(record), f"{at}: votes {seen['bars']}, and not {bars(record)}"
        yield sorted(seen["late"]) == sorted(
            late(record)
        ), f"{at}: marked as old {seen['late']}, and not {late(record)}"


def scripts(count: int, lines: int) -> typing.Iterator[tuple[str, str]]:
    yield "refused", script_of(3, 3, "1,1,1/2/2", *REFUSED)
    yield "wants two", script_of(3, 2, "1,1,1/2/2", *WANTS_TWO)
    yield "masked", script_of(3, 2, "1,1,1/2/2", *MASKED)
    yield from played.stories().items()
    yield from ((f"seed {seed}", scenario.Scenario(seed, lines).script()) for seed in range(count))


def pages_tell(tally: Tally) -> bool:
    given, whole = tally.given, show.text_of
    with browser.opened(tally) as driver, tempfile.TemporaryDirectory() as folder:
        if not driver:
            return False
        for name, script in scripts(given.scripts, given.lines):
            for holds, about in wrong_of(driver, folder, script):
                tally.holds(holds, name, about)
        some = [script for _, script in scripts(given.planted, given.lines)]
        for old, new in PLANTED:
            files = [name for name in show.FILES.values() if old in whole(show.PARTS, name)]
            tally.same(len(files), 1, "files to plant into", old)
            show.text_of = lambda *path, old=old, new=new: whole(*path).replace(old, new)
            found = any(not holds for script in some for holds, _ in wrong_of(driver, folder, script))
            tally.holds(found, "planted, and not found", old)
        show.text_of = whole
    return False


def lectures(tally: Tally) -> None:
    """The folder of a lecture: a page for each of six stories, as `show` has it, and one that leads to them."""
    with tempfile.TemporaryDirectory() as folder:
        lecture.write(folder)
        index, told = text_of(folder, "index.html"), lecture.stories()
        tally.same((len(told), sum(minutes for minutes, *_ in told)), (6, 45), "stories, and minutes")
        for _, path, about, _ in told:
            name, script = os.path.basename(path).removesuffix(".script"), text_of(*path.split("/")).encode()
            page = show.page_of(script, show.shown_of(script, 0, 1 << 60))
            tally.same(text_of(folder, f"{name}.html") == page, True, "a page of the lecture", name)
            tally.holds(f'href="{name}.html">{about}</a>' in index, "the lecture leads to", name)


if __name__ == "__main__":
    played.plays(
        __doc__, "sentences and marks", lectures, pages_tell, most=20, width=600, scripts=200, lines=24, planted=4
    )
