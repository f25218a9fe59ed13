#!/usr/bin/env python3
"""tests/ways_shown.py

Holds the page of all ways (`./suites explore --page`): each way that the program tells stands on it, on a branch whose
lines are those of the way; in a headless Chromium a click on it shows a run that ends so, the one of `--way K`; a
question is answered as by `--ask`, and marks just the ways in which it is so; and the order of decisions is that of
the run. Prints what differs; status 1 where something does. Without Chromium the page alone is looked at.
"""
import json
import os
import re
import tempfile
import typing

import browser
import played
from played import Tally
from shown_page import SEEN

from common import built, tool
from explore import queries
from show import show

EXPLORE = tool("explore")
# Stories with their options, and questions.
SHOWN: tuple[tuple[str, list[str], list[str]], ...] = (
    ("revocation.script", [], ["0.1 answered set and 1.0 answered", "1.0 stopped", "0.1 answered or 1.0 answered"]),
    ("revocation.script", ["--order"], ["0.1 before 1.0", "1.0 stopped", "0.1 answered or 1.0 answered"]),
    ("writer-stops.script", [], []),
    ("read-after-revocation.script", ["--crashes", "1", "--returns", "1"], []),
)
GIVEN = re.compile(r'<script type="application/json" id="given">(.*?)</script>', re.S)
ENDED = re.compile(r"(\d+\.\d+) \d+ (.*)")
# Of each way: the lines on its branch, from the root of the tree on, and whether it is marked.
TREE = """[...document.querySelectorAll('[data-way]')].map((way) => {
  const lines = [];
  for (let part = way.parentElement; part.id !== 'ways'; part = part.parentElement) {
    const own = [...part.children].filter((one) => one.className === 'ending').map((one) => one.textContent);
    if (part.tagName === 'LI') lines.unshift(own);
  }
  return { number: Number(way.dataset.way), lines: lines.flat(), asked: way.classList.contains('asked') };
})"""


def explored(words: list[str], script: bytes) -> str:
    return played.done([*EXPLORE, *words], script).out.encode("latin1").decode()


def ways_in(told: str) -> dict[int, list[str]]:
    """The lines of each way by its number, as the program tells them."""
    ways = dict[int, list[str]]()
    for line in told.splitlines():
        if line.startswith("way "):
            own = ways[int(line.split()[1])] = []
        elif re.match(r"\d", line):
            own.append(line)
    return ways


def data_in(page: str) -> dict[str, typing.Any]:
    return json.loads(GIVEN.search(page)[1])


def texts(line: str) -> str:
    """A line without what a page tells besides: bytes that are a text."""
    return re.sub(r" “[^”]*”", "", line)


def runs(tally: Tally, name: str, words: list[str], script: bytes, data: dict[str, typing.Any]) -> None:
    """The run of each way is that of its script, and ends so."""
    for way in data["ways"]["ways"]:
        number = way["number"]
        leads = explored([*words, "--way", str(number)], script)
        tally.holds("\n".join([*way["script"], ""]) == leads, name, number, "the script of a way")
        events = [*data["events"][: way["shared"]], *way["events"]]
        tally.holds(events == show.events_of(leads.encode()), name, number, "the events of a way")
        text = built.asked("play", leads)[1]
        ends = {found[1]: found[2] for found in map(ENDED.match, text.splitlines()) if found}
        mine = [line.split(" ", 1) for line in way["lines"]]
        tally.holds(all(ends.get(job, "-") == end for job, end in mine), name, number, "how a run ends", ends, mine)
        decided = [json.loads(line) for line in events if '"asks":"decide"' in line and '"verdict"' in line]
        jobs = [f"{one['request']['t'] % 64}.{one['request']['t'] // 64}" for one in decided]
        wanted = [job for job in dict.fromkeys(jobs) if job in dict(mine)]
        is_right = way["decided"] == wanted and all(job in wanted for job, end in mine if end.startswith("answered"))
        tally.holds(is_right, name, number, "the order of decisions", way["decided"], wanted)


def clicked(tally: Tally, driver: browser.Browser, name: str, told: str, answers: int) -> None:
    ways, known = ways_in(told), dict(enumerate(queries.ways_in(told.splitlines()), 1))
    tree = driver.value(TREE)
    tally.holds({one["number"]: [*map(texts, one["lines"])] for one in tree} == ways, name, "the tree", tree[:3])
    for number, lines in ways.items():
        driver.click(f"[data-way='{number}'] button")
        tally.holds(driver.value("Ways.here()") == number, name, number, "a way is shown")
        driver.press("End")
        seen = [ENDED.match(line) for line in driver.value(SEEN)["told"]]
        ends = {found[1]: found[2] for found in seen if found}
        is_so = all(ends.get(line.split()[0], "-") == line.split(" ", 1)[1] for line in lines)
        tally.holds(is_so, name, number, "the run of a way", ends, lines)
    for place in range(answers):
        driver.click(f"#answers li:nth-child({place + 1}) button")
        text = driver.value(f"document.querySelector('#answers li:nth-child({place + 1})').innerText")
        question = queries.read(text.partition(": ")[2])
        marked = [one["number"] for one in driver.value(TREE) if one["asked"]]
        wanted = [one for one in ways if question.holds(known[one])]
        tally.holds(sorted(marked) == wanted, name, text, "what is marked", marked, wanted)


def all_pages(tally: Tally) -> None:
    with browser.opened(tally) as driver, tempfile.TemporaryDirectory() as folder:
        pages(tally, driver, folder)


def pages(tally: Tally, driver: browser.Browser | None, folder: str) -> None:
    for name, options, questions in SHOWN:
        script = played.stories("explore")[name].encode()
        asks = [word for question in questions for word in ("--ask", question)]
        page, told = explored([*options, "--page", *asks], script), explored(options, script)
        data, ways = data_in(page), ways_in(told)
        tally.holds({one["number"]: one["lines"] for one in data["ways"]["ways"]} == ways, name, "the ways")
        tally.holds(data["ways"]["last"] == told.splitlines()[-1], name, "how many there are", data["ways"]["last"])
        answered = explored([*options, *asks], script).splitlines() if asks else []
        wanted = [line for line in answered if re.match("never|always|sometimes", line)]
        tally.holds([one["text"] for one in data["ways"]["answers"]] == wanted, name, "the answers", wanted)
        tally.holds(not asks or len({one["kind"] for one in data["ways"]["answers"]}) == 3, name, "all answers", wanted)
        if len(ways) < 10:
            runs(tally, name, options, script, data)
        if driver:
            driver.open(played.put(os.path.join(folder, f"{name}.html"), page))
            clicked(tally, driver, name, told, len(wanted))


if __name__ == "__main__":
    played.plays(__doc__, "looked at", all_pages, most=20, width=600)
