"""The pages of a lecture as a folder that needs no program, for `./suites show --all DIR`: one for each story that
docs/TEACH.md names in its table, and one that leads to them, with what to ask.
"""
import html
import os
import re
import sys

from common import text_of
from show import show

ROW = re.compile(r"\| (\d+) \| `(examples/play/[\w-]+\.script)`, (.*) \| (.*) \|$", re.M)
INDEX = """<!DOCTYPE html>
<html lang="en"><meta charset="utf-8"><meta name="viewport" content="width=device-width, initial-scale=1">
<title>A lecture on suites</title>
<style>:root {{ color-scheme: light dark; }} body {{ font: 18px/1.5 system-ui, sans-serif; max-width: 44em;
margin: 2em auto; padding: 0 1em; }} li {{ margin: .6em 0; }}</style>
<h1>A lecture of {} minutes</h1>
<p>Each page is stepped by the arrow keys; p shows large type, and nothing of what is to come.</p>
<ol>
{}
</ol>
"""
ITEM = '<li><a href="{}.html">{}</a> ({} minutes)<br>Ask: {}</li>'


def stories() -> list[tuple[int, str, str, str]]:
    """The stories of the lecture: minutes, the script, what it is about, and what to ask."""
    found = ROW.findall(text_of("docs", "TEACH.md"))
    return [(int(minutes), path, about, ask) for minutes, path, about, ask in found]


def write(folder: str) -> int:
    """Writes all pages into a folder, which is made where it is not there; the exit status."""
    os.makedirs(folder, exist_ok=True)
    items, told = list[str](), stories()
    for minutes, path, about, ask in told:
        name = os.path.splitext(os.path.basename(path))[0]
        script = text_of(*path.split("/")).encode()
        page = show.page_of(script, show.shown_of(script, 0, sys.maxsize))
        put(os.path.join(folder, f"{name}.html"), page)
        items.append(ITEM.format(name, html.escape(about), minutes, html.escape(ask)))
    index = os.path.join(folder, "index.html")
    put(index, INDEX.format(sum(minutes for minutes, *_ in told), "\n".join(items)))
    print(os.path.relpath(index))
    return 0


def put(path: str, text: str) -> None:
    with open(path, "w", encoding="utf-8") as file:
        file.write(text)
