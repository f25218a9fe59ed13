#!/usr/bin/env python3
"""tests/explained.py [PROGRAM]

Holds docs/FAULTS.md, and what `./suites explain` says, against the program and the sources. PROGRAM is `./suites`, if
none is named. All examples of the page are played: the last line that is printed has to be the one that is shown, and
of it `explain` has to say what the page has in brackets, of a fault with its script. Of each fault it has to find
something, and nothing where another code is told. Each command line that the page shows has to end with status 0. Each
code that the sources print, each word of a reply, each word of a line of `trace`, and each line that rows print, has to
stand on the page; each limit that the page or the tools name has to be the one of the sources. Status 1 where something
differs.
"""
import functools
import glob
import os
import re
import tempfile
import typing

import played
import scripting
from played import Tally

from common import built, forms, text_of
from explain import explain, reasons, whys
from explore import queries
from votes import reading

TOP = played.TOP
source = functools.partial(text_of, "crates")

HEADERS: dict[str, list[str]] = {
    "table": ["root 1000 100 777"],
    "play": scripting.header().splitlines(),
    "acl": [],
}
HEADERS = {**HEADERS, **{f"whole {name}": [] for name in HEADERS}}
# What stands in a command line of the page for something of the reader's, and what is put there.
SCRIPT, EXPLORED = "examples/play/quorum-lost.script", "examples/explore/revocation.script"
PUT = {
    "--way K < SCRIPT": f"--way 1 < {EXPLORED}",
    "SCRIPT": SCRIPT,
    "FILE": SCRIPT,
    "LIST": "examples/acl/getfacl.txt",
    "--suite S": "--suite 0",
    "VOTES": "1,1,1/2/2",
    "--servers N": "1,1,1/2/2 --servers 3",
}
# A constant of the sources, and where it is named: parts of the page with the words around it, and a place of the table
# of forms or what the tools have.
LIMITS: tuple[tuple[str, str, list[tuple[str, str]], str | int | None], ...] = (
    ("acl_core/src/acl.rt", "MAX_ENTRIES", [("A8", "more than {} entries")], whys.MAX_ENTRIES),
    ("acl_text/src/names.rt", "MAX_NAME", [("N1", "1 to {} bytes")], whys.MAX_NAME),
    ("suite_content/src/name.rt", "MAX_NAME", [("F1", "of 1 to {} bytes")], None),
    ("suite_content/src/folder_names.rt", "MAX_NAMES", [("F9", "{} names")], None),
    ("suite_content/src/file_bytes.rt", "MAX_CONTENT", [("F8", "More than {} bytes")], None),
    ("file_ops/src/path.rt", "MAX_PATH_NAMES", [("F1", "one to {} times")], None),
    ("file_ops/src/operation.rt", "MAX_OPERATIONS", [("F10", "more than {} operations")], None),
    ("rep_core/src/store.rt", "MAX_SUITES", [("U6", "{} files and folders")], None),
    ("server_lock/src/locked.rt", "MAX_ITEMS", [("U6", "{} requests")], None),
    ("suite_prefix/src/settings.rt", "MAX_AGENTS", [("G1", "1 to {} agents")], "AGENTS"),
    ("suite_prefix/src/settings.rt", "MAX_CACHE", [("G3", "at most {} bytes")], "BUDGET"),
    ("suite_prefix/src/settings.rt", "MAX_SLOTS", [("G3", "{} entries")], "SLOTS"),
    ("suite_prefix/src/forms.rt", "OLD_ENTRIES", [("G4", "no more than {} entries")], whys.OLD_ENTRIES),
    ("suite_prefix/src/forms.rt", "OLD_SERVERS", [], whys.OLD_SERVERS),
    ("vote_core/src/lib.rt", "MAX_SERVERS", [("G1", "1 to {} servers"), ("V2", "there are {} servers")], "SERVERS"),
    ("suite_script/src/scope.rt", "MAX_STEPS", [], "N"),
    ("suite_script/src/scope.rt", "LAST_SITE", [], "SITE"),
    ("suite_script/src/votes.rt", "MAX_COLLECTED", [], reading.MOST_COLLECTED),
    ("suite_script/src/votes.rt", "MAX_VOTES", [], reading.MOST_VOTES),
    ("acl_text/src/caller.rt", "MAX_NUMBERS", [], whys.MAX_NUMBERS),
)
# What is to be said, and what has been mended, by the names of files that stand there.
SAID = os.path.join("tests", "explained.txt")
MENDED = {
    "mended-script": scripting.header() + "begin 0 1000 100 0 file /a 644\nrun 1\n",
    "mended-list": "u::rw,g::r,o::-\n",
}
NOT_FOUND = "Was it changed since?"
WORDS = ("", "one", "two", "three", "four", "five", "six", "seven", "eight", "nine")


def examples() -> typing.Iterator[tuple[str, list[str], list[str], str, str]]:
    """The examples of the page: the code, the words of the command, the lines of the input, the line that is wanted,
    and what is told of it.
    """
    for _, _, code, lines in explain.page():
        for line in lines:
            kind = re.match(r"- ([a-z ]+): ", line)
            for found in explain.EXAMPLE.finditer(line) if kind else ():
                given = [
                    re.sub(r"\\x(..)", lambda mark: chr(int(mark[1], 16)), words)
                    for words in re.findall(explain.SPAN, found[1])
                ]
                if kind[1] == "words":
                    yield code, given[0].split(), [], found[4], found[5]
                else:
                    yield code, [kind[1].split()[-1]], HEADERS[kind[1]] + given, found[4], found[5]


def as_one(text: str) -> str:
    return " ".join(text.split())


def untold(command: str, path: str, fault: str, told: str) -> str | None:
    """What is wrong with what `explain` says of a fault in a file."""
    with open(path, encoding="latin1") as file:
        is_said = any(line.strip() and not line.startswith("#") for line in file)
    # of which command a script is shows in its lines
    ways: list[list[str]] = [["--of", command] if command != "acl" else []]
    for words in ways + ([[]] if is_said else []):
        said = as_one(explain.answer([*words, fault, path]))
        if NOT_FOUND in said:
            return "nothing is found"
        if told and as_one(told) not in said:
            return f"said is: {said}"
    other = re.sub(r"\b[SAVNG]\d.*", "N2" if "N2" not in fault else "N1", fault)
    return None if NOT_FOUND in as_one(explain.answer([other, path])) else f"{other} is found too"


def play_examples(tally: Tally) -> None:
    """Plays the examples."""
    about: dict[str, bool] = {}
    with tempfile.TemporaryDirectory(prefix="suites-") as folder:
        path = os.path.join(folder, "given")
        for code, words, lines, wanted, told in examples():
            text = "".join(line + "\n" for line in lines)
            last, why = built.asked(words[0], text, *words[1:], path=tally.program)[1].splitlines()[-1:], None
            if last != [wanted]:
                why = f"{words} prints {last}"
            elif re.match(r"fault (line|[A-Z])", wanted):
                why = untold(words[0], played.put(path, text.encode("latin1")), wanted, told)
            elif told and told not in as_one(explain.explained(wanted).split("\n\n")[0]):
                why = "explain does not say it"
            tally.holds(not why, f"{code}: of {lines}, {wanted}, is wanted: {told}; {why}")
            about[code] = about.get(code) or f"{code} (" in explain.explained(wanted)
    for code in about:
        tally.fails(not about[code] and f"explain says nothing of {code} where it is printed")


def told_of_lines(tally: Tally) -> None:
    """What is told of words and lines by themselves, of those of stories, and of faults of what has been mended."""
    cases = re.findall(r"^([a-z-]*) ?\| (.*)\n((?:    .*\n)+)", text_of(SAID), re.M)
    tally.fails(len(cases) < 25 and f"{SAID} has {len(cases)} lines")
    with tempfile.TemporaryDirectory(prefix="suites-") as folder:
        for name, line, wanted in cases:
            path = os.path.join(TOP, "examples", "play", f"{name}.script")
            if name in MENDED:
                path = played.put(os.path.join(folder, name), MENDED[name])
            said = as_one(explain.answer([line, path] if name else [line]))
            missing = [words for words in wanted.splitlines() if words.strip() not in said]
            tally.holds(not missing, f"{name}: of {line} explain does not say {missing}: {said[:600]}")


def play_commands(tally: Tally) -> None:
    """Runs the command lines that the page shows."""
    spans = set(re.findall(explain.SPAN, text_of("docs", "FAULTS.md")))
    for command in sorted(span for span in spans if re.match(r"(\./)?suites .*[a-z]", span)):
        line = command if command.startswith("./") else f"./{command}"
        for word, put in PUT.items():
            line = re.sub(rf"(?<![A-Z]){word}(?![A-Z])", put, line)
        # what a script is to be read for, and has none, is help
        if "<" not in line and re.fullmatch(r"\./suites (trace|draw|show|votes|play|table|acl)", line):
            line = f"{line} --help"
        done = played.done(["sh", "-c", line], cwd=TOP)
        tally.holds(done.status == 0 and done.out, f"{command} ends so: {str(done)[:200]}")


def untold_words() -> typing.Iterator[str]:
    """The codes and words that the sources print and of which the page tells nothing."""
    parts = {code: "\n".join(lines) for _, _, code, lines in explain.page()}
    files = glob.glob(os.path.join(TOP, "crates", "suite_*", "src", "*.rt"))
    codes = {code for path in files for code in re.findall(r'b"([SAVNGFU]\d+)\b', source(path))}
    yield from (f"{code} stands in no heading of docs/FAULTS.md" for code in sorted(codes - set(parts)))
    replies = re.findall(
        r'b"([a-z]+) ?"',
        source("suite_script", "src", "outcome.rt").split("fn push_reply")[1].split("fn push_bytes")[0],
    )
    asked = re.findall(r'b" ?([a-z]+)', source("trace", "src", "asked.rt").split("/// A transaction, what it asks")[0])
    told = re.findall(
        r'b"([a-z]+)', source("trace", "src", "told.rt").split("fn push_reply")[1].split("/// The locks of a server")[0]
    )
    for word in replies:
        if not queries.are_replies([word]):
            yield f"explore --ask knows no reply {word}"
        if explain.codes_in(word) != ["answered"]:
            yield f"explain knows no reply {word}"
    for part, words in (
        ("answered", replies),
        ("trace", [word for word in [*asked, *told, "full", "nothing"] if word not in ("t", "crash", "return")]),
    ):
        yield from (f"{part} tells nothing of {word}" for word in sorted(set(words)) if f"- `{word}" not in parts[part])
        if len(set(words)) < 8:
            yield f"of the sources no words of {part} were found: {words}"


def unexplained() -> typing.Iterator[str]:
    """The lines that rows print of which the page tells nothing."""
    parts = {code for _, _, code, _ in explain.page()}
    of = (b"play", b"serve", b"table", b"acl", b"trace")
    rows = [row for row in played.rows() if row["words"][:1] and row["words"][0] in of]
    rows = [row for row in rows if not {b"--help", b"-h"} & set(row["words"])]
    printed = {line for row in rows for line in row["output"].decode("latin1").splitlines()}
    for line in sorted(printed):
        codes = explain.codes_in(" ".join(line.split()))
        if not codes or not set(codes) <= parts or codes == ["transaction"]:
            yield f"explain tells nothing of the line: {line}"
    if len(printed) < 300:
        yield f"only {len(printed)} lines are printed by rows"


def untold_reasons() -> typing.Iterator[str]:
    """The reasons that the command `forms` prints, or the tools find, and for which they have no sentence."""
    tools = text_of("tools", "explain", "whys.py") + text_of("tools", "votes", "reading.py")
    printed = set(re.findall('Reason::.* => b"(.*)"', source("forms", "src", "reason.rt")))
    known = {*reasons.SENTENCES, *reasons.LAID_OUT}
    found = printed | set(re.findall(r'Why\("([a-z-]+)"', tools))
    yield from (f"no sentence has the reason {name}" for name in found - known)
    yield from (f"nobody tells the reason {name}" for name in known - printed - set(re.findall('"([a-z-]+)"', tools)))


def constant(path: str, name: str) -> int:
    """A constant of a source file."""
    return int(re.search(rf"const {name}: \w+ = ([0-9_]+);", source(path))[1].replace("_", ""))


def false_limits() -> typing.Iterator[str]:
    """The limits that are others in the sources."""
    parts = {code: "\n".join(lines) for _, _, code, lines in explain.page()}
    for path, name, told, own in LIMITS:
        number = constant(path, name)
        ways = {f"{number}", f"{number:,}", WORDS[number] if number < len(WORDS) else ""} - {""}
        for code, words in told:
            if not any(re.search(rf"(?<![\d,]){re.escape(words.format(way))}", parts[code]) for way in ways):
                yield f"{code} does not say \"{words.format(number)}\", the {name} of {path}"
        known = int(forms.PLACES[own].most) if isinstance(own, str) else number if own is None else own
        if known != number:
            yield f"{known} stands for {number}, the {name} of {path}"


def of_sources(tally: Tally) -> None:
    for wrong in (untold_words(), unexplained(), untold_reasons(), false_limits()):
        tally.fails(*wrong)
    tally.count += len(LIMITS)


if __name__ == "__main__":
    played.plays(__doc__, "examples, lines, command lines and limits", play_examples, play_commands,
                 told_of_lines, of_sources, program=None)  # fmt: skip
