"""python3 tools page_words [--each]

Counts the words of the pages that are written by hand: README.md, CONTRIBUTING.md and docs/, without the table of
docs/PROVED.md and what a tool writes between two marks. A word has a letter or a digit. With --each it tells them page
by page. README is to be read in one sitting and all pages in an evening, so each has a bound; status 1 where one is
passed.
"""
import glob
import os
import re

from common import TOP, console, text_of

FRONT, MOST_IN_FRONT, MOST = "README.md", 1_800, 30_000
OF_TABLES = "PROVED.md"
TABLE = re.compile(r"^\|.*\n", re.M)
WRITTEN_BY_TOOLS = re.compile(r"^<!-- [^\n]*: written by [^\n]* -->\n.*?^<!-- end of ", re.M | re.S)


def words_of(path: str) -> int:
    """How many words a page has that are written by hand."""
    text = WRITTEN_BY_TOOLS.sub("", text_of(path))
    if os.path.basename(path) == OF_TABLES:
        text = TABLE.sub("", text)
    return sum(any(map(str.isalnum, word)) for word in text.split())


def counts() -> dict[str, int]:
    below = sorted(glob.glob(os.path.join(TOP, "docs", "*.md")))
    pages = [os.path.join(TOP, FRONT), os.path.join(TOP, "CONTRIBUTING.md"), *below]
    return {os.path.relpath(path, TOP): words_of(path) for path in pages}


def main() -> int:
    read = console.words(__doc__)
    read.add_argument("--each", action="store_true")
    is_each = read.parse_args().each
    found = counts()
    for name, count in sorted(found.items(), key=lambda one: -one[1]) if is_each else ():
        print(f"{count:6}  {name}")
    whole = sum(found.values())
    print(f"told: README has {found[FRONT]:,} words of {MOST_IN_FRONT:,}, all pages by hand {whole:,} of {MOST:,}")
    return 0 if found[FRONT] <= MOST_IN_FRONT and whole <= MOST else 1
