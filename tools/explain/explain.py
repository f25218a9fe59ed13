"""./suites explain [--of COMMAND] LINE [FILE]

What docs/FAULTS.md says of a code or of a printed line, what a word means, and what stands behind a line in its script;
help/explain.txt tells all of it.
"""
import argparse
import functools
import io
import os
import re
import shlex
import sys
import typing

from common import console, forms, numbers, quoted, text_of
from common.quoted import filled
from explain import explore_lines, faults, judge_lines, meanings, play_lines, table_lines, tool_lines


CODE = re.compile(r"\b([SAVNGFUsavngfu](?:1[0-3]|[1-9]))\b")
SPAN = r"`([^`]*)`"
# The lines of an example, the last line that it prints, and what is told of that.
EXAMPLE = re.compile(rf"({SPAN}(?:, {SPAN})*) prints {SPAN}(?: \({SPAN}\))?")
STATUS = re.compile(r"(?:status |exit )?(\d)$|(?:status |exit )(\d{2,3})$")
FAULT = re.compile(r"fault (?:line (\d+): )?([SAVNG]\d+(?: A\d+)?(?: item \d+)?)(?: (.+))?$")
# A line or an item that no script and no list has.
NONE = re.compile(r"fault (?:.* )?((?:line|item) 0+)\b")
# The parts of the page that tell of a line of such a form: of `explore`, of a session besides what its lines print, of
# a trace, and of a list.
OF_WAYS, OF_TRACE = ("all", "way"), "trace"
KINDS = {
    "all": r"(?:(?:not )?all|sampled):? \d+ ways, \d+ (?:worlds|runs)$"
    r"|sampled \d+ orders(?:, \d+ dropped)?: \d+ ways$",
    "way": r"way \d+(?: in \d+ of \d+ ends|: \d+ (?:worlds at the end|runs), \d+ of them so)?$"
    r"|\d+\.\d+ -$|decided(?: \d+\.\d+)*$",
    "session": r"= (?:restored \d+ lines|\d+)$|(?:row|content|copies|locks|room) |(?:copies|room)$",
    OF_TRACE: r"> |= server|nothing happens|\d+ -> s\d+|t \d+ suite|\S*suite \d+ \w+ prefix",
    "entry": r"(?:default:)?(?:user|group|mask|other):\d*:[r-][w-][x-]",
}
VOTES = re.compile(r"(?:\d+,|-,)*\d+/\d+/\d+$")
MARKED = re.compile(r"= (\d+)$")
# What begins the line of an outcome: an agent and its job, or a job, and how many requests it took; or a transaction.
# An outcome of `explore` tells no requests.
FRONT = re.compile(r"(?:(\d+)\.(\d+)(?: (\d+))?|(\d+) (\d+)|(\d+)) (?=answered|denied|refused|undecided|swept)")
# The number of what was made, or of a transaction.
NUMBERED = re.compile(r"\b(?:(made) ([1-9]\d*)|(?:holder|t) (\d+))\b")
# The part of the page about a line that begins with a word, where it is not called by that word.
PARTS = {"t": "audit", "denied": "F3"}
WHOLE = ("answered", "swept", "audit", "refused", "undecided", "certified", "mismatch", "trace", "transaction")
# What stands in front of a sentence on standard error, and what is told of one of which nothing else is told.
SAYS = "suites: "
OF_ITSELF = "A sentence of `./suites` or of one of its tools, on standard error, which says itself what it means."
FAULTS = ("fault command line", "fault memory", "fault word", "fault journal")


def page() -> typing.Iterator[tuple[str, str, str, list[str]]]:
    """The parts of the page: the title of its group, where to read on, its code, and its lines."""
    group = more = code = ""
    lines: list[str] = []
    for line in [*text_of("docs", "FAULTS.md").splitlines(), "## "]:
        if line.startswith("#"):
            if code:
                yield group, more, code, lines
            code, lines = "", []
            if line.startswith("### "):
                code = line[4:]
            else:
                group, more = line.lstrip("# "), ""
        elif not code and "Read on: " in line:
            more = line[line.index("Read on: "):]
        elif code:
            lines.append(line)


@functools.cache
def parts_by_word() -> dict[str, str]:
    """The parts of the page about lines that begin with a word of another part, as the replies of operations do."""
    told: list[str] = next((lines for _, _, code, lines in page() if code == "answered"), [])
    replies = [found[1] for found in (re.match(r"- `([a-z]+)", line) for line in told) if found]
    return {**dict.fromkeys(replies, "answered"), **PARTS}


def kind_of(text: str) -> str:
    """The part of the page about a line of its form; nothing where no form is its."""
    return next((kind for kind, form in KINDS.items() if re.match(form, text)), "")


def codes_in(text: str) -> list[str]:
    """The parts of the page about a text, the whole before its parts, and about numbers in it."""
    status, front = STATUS.match(text), FRONT.match(text)
    if status:
        return [f"status {status[1] or ('128' if int(status[2]) >= 128 else status[2])}"]
    if kind_of(text):
        return [kind_of(text)]
    rest = text[front.end() :] if front else text
    first = rest.partition(" ")[0]
    parts = parts_by_word()
    found = (
        [parts.get(first, first)]
        if first in (*parts, *WHOLE)
        else [words for words in FAULTS if rest.startswith(words)]
    )
    if first in ("refused", "undecided") or not found:
        found += [code.upper() for code in CODE.findall(rest)]
    return found + (["transaction"] if NUMBERED.search(rest) else [])


def worked_out(text: str) -> list[str]:
    """What the numbers of a line say, one by one."""
    front = FRONT.match(text)
    told = []
    count = front and (front[3] or front[5])
    took = f"; it took {count} request{'s' if int(count) != 1 else ''}" if count else ""
    if front and front[1]:
        told.append(f"Job {front[2]} of agent {front[1]}, both counted from 0{took}.")
    elif front and front[4]:
        told.append(f"Job {front[4]} of the script, counted from 0{took}.")
    elif front:
        told.append(f"Transaction {front[6]} of the script, counted from 0.")
    for made, suite, t in NUMBERED.findall(text):
        if made:
            t, place = numbers.maker_of(int(suite))
            by = f"made by operation {place + 1} of transaction {t}"
            told.append(f"{suite} = {numbers.OPERATIONS} * {t} + {place + 1}: {by}.")
        if not (front and front[6]):
            agent, job = numbers.job_of(int(t))
            of = f"in play and serve transaction {t} is job {job} of agent {agent}"
            told.append(f"{t} = {numbers.AGENTS} * {job} + {agent}: {of}.")
    return list(dict.fromkeys(told))


def shown(line: str) -> str:
    """A line of the page as a terminal is to show it: of an example each line and what it prints by itself."""
    if not line.startswith("- "):
        return filled(line)
    line = re.sub(r"^- whole (\w+):", r"- \1, from the first line on:", line)
    told, place, first = [], 2, "  - "
    for found in EXAMPLE.finditer(line):
        told.append(filled(line[place : found.start()].strip(), initial_indent=first, subsequent_indent="    "))
        told += [f"        {given}" for given in re.findall(SPAN, found[1])]
        told += ["    prints", f"        {found[4]}"]
        told += [filled(f"{found[5]}.", initial_indent="    ", subsequent_indent="    ")] if found[5] else []
        place, first = found.end(), "    "
    rest = filled(line[place:].strip().lstrip(".,; "), initial_indent=first, subsequent_indent="    ")
    return "\n".join(part for part in [*told, rest] if part.strip(" -"))


def about(lines: list[str], text: str) -> list[str]:
    """The lines of a part; of those that tell of a word each only those whose word is in the text, if any is."""
    words = set(re.findall(r"[a-z=]+", text))
    first = {line: re.findall(r"[a-z=]+", re.search(SPAN, line)[1])[:1] for line in lines if line.startswith("- `")}
    kept = [line for line in lines if line not in first or words & {*first[line]}]
    return kept if any(line.startswith("- ") for line in kept) else lines


def explained(text: str) -> str:
    """What there is to say of a text: the page's part, or what its words say; or nothing."""
    as_printed, text = text, " ".join(text.split())
    waits = explore_lines.of_wait(text)
    if waits:
        return f"{filled(waits[0])}\n\n{explained(waits[1])}".rstrip()
    if text.startswith(SAYS) and not tool_lines.of_forms(text, "making"):
        return explained(text.removeprefix(SAYS)) or OF_ITSELF
    line = meanings.own_line(text) if text else None
    # a line of a trace begins with the line of the script
    line = line or (meanings.own_line(text[2:]) if text.startswith("> ") and text[2:] else None)
    if line:
        return line
    word = meanings.one_word(text)
    if word and " " in text:
        return word
    if VOTES.match(text):
        return filled(f"{meanings.meant('VOTES', text)}.")
    inner = tool_lines.within(text)
    if inner:
        return f"A sentence of `./suites shell`, with the session's own words behind it.\n\n{explained(inner)}"
    is_of_tool = not word and kind_of(text) not in (*OF_WAYS, OF_TRACE)
    of_tool = tool_lines.of_tools(as_printed.rstrip()) if is_of_tool else None
    if of_tool or text.startswith("#"):
        return of_tool or "A comment, which says nothing to the program."
    parts = {code: (group, more, lines) for group, more, code, lines in page()}
    told = []
    for code in codes_in(text):
        if code in parts:
            group, more, lines = parts[code]
            lines = "\n".join(about(lines, text) if code in ("answered", "trace") else lines).strip().split("\n")
            told += [f"{code} ({group[0].lower() + group[1:]})", "", *map(shown, lines), ""]
            told += [shown(more), ""] if more else []
    worked = worked_out(text) if told else []
    return "\n".join([*([word, ""] if word else []), *worked, *([""] if worked else []), *told]).rstrip()


def meaning(code: str) -> str:
    """What a code means, in a few sentences: the first lines of its part of the page."""
    lines: list[str] = next((lines for _, _, found, lines in page() if found == code), [])
    return filled(next((line for line in lines if line), ""), initial_indent=f"{code}: ") if lines else ""


def of_file(fault: re.Match[str], path: str, language: str | None) -> str:
    """The line of a script or the item of a list that has a fault, what is wrong with it, and what the code means."""
    name, given = read_file(path)
    text, code = given.decode("latin1"), fault[2]
    nothing = NONE.match(fault[0][: fault.start(3)])
    waiting = [] if nothing or not fault[1] else explore_lines.of_waiting(text, int(fault[1]), quoted.plain(name))
    if nothing:
        told, is_found = [f"{quoted.plain(name)} has no {nothing[1]}: lines and items are counted from 1."], False
    elif waiting:
        told, is_found = waiting, True
    elif fault[1] and judge_lines.is_history(text):
        told, is_found = judge_lines.of_fault(text, name, int(fault[1]), code), True
    elif fault[1]:
        told, is_found = faults.of_script(name, text, int(fault[1]), code, language)
        hints = list(explore_lines.of_together(text, int(fault[1]), quoted.plain(name)))
        told += ["", *hints] if hints else []
    else:
        told, is_found = faults.of_list(name, text, code)
    told = [line if line.startswith("    ") else filled(line) for line in told]
    meant = [meaning(part) for part in CODE.findall(code)]
    more = f"./suites explain {code.split()[0]} tells"
    rest = [*meant, "", f"{more} more."] if is_found else [f"{more} of this code."]
    return "\n".join([*told, "", *rest]).strip()


def asked(words: list[str]) -> argparse.Namespace:
    """The words of the command line: a command, and the text with what follows it."""
    read = argparse.ArgumentParser(prog="./suites explain", add_help=False)
    read.add_argument("--of", choices=forms.COMMANDS)
    read.add_argument("-h", "--help", action="store_true")
    read.add_argument("text", nargs="*")
    return read.parse_args(words)


def read_file(path: str) -> tuple[str, bytes]:
    """The name of a script or list and its bytes; - is standard input."""
    if path == "-":
        return "standard input", sys.stdin.buffer.read()
    with open(path, "rb") as file:
        return path, file.read()


def of_session(marked: re.Match[str], script: str, name: str) -> str:
    """What is told of the mark behind what a session printed for a line of its script."""
    lines = faults.lines_of(script)
    number = int(marked[1])
    if not 0 < number <= len(lines):
        return f"{name} has {len(lines)} lines. Was it changed?"
    return f"What is printed for line {number} of {name} ends here: {quoted.plain(lines[number - 1])}"


def of_printed(text: str, path: str, language: str | None) -> str:
    """What happened behind a line that was printed of a script: what stands there, and for `play` how it came to it."""
    name, given = read_file(path)
    script, shown = given.decode("latin1"), quoted.plain(name)
    if judge_lines.is_history(script):
        return "\n".join(filled(line) for line in judge_lines.of_line(" ".join(text.split()), script, shown))
    marked = MARKED.match(text)
    if marked or tool_lines.of_forms(text, "session"):
        return filled(of_session(marked, script, shown)) if marked else ""
    kind = language or faults.command_of(script)
    if explore_lines.is_explored(script) and (kind == "play" or kind_of(text) in OF_WAYS):
        told = list(explore_lines.of_line(text, script, shown))
    elif tool_lines.of_tools(text):
        told = []
    elif kind == "play":
        told = play_lines.of_line(text, given, shown)
    else:
        told = table_lines.of_line(text, script, shown, kind)
    return "\n".join(filled(line) for line in told)


def with_name(told: str, path: str) -> str:
    """What is told, where the script is known: it stands in the commands that are to be typed."""
    name = "SCRIPT" if path == "-" else shlex.quote(path)
    told = re.sub(r"(?<=< )SCRIPT\b", lambda _: name, told)
    return re.sub(r"(?<=--script )FILE\b", lambda _: name, told)


def answer(words: list[str]) -> str:
    """What is printed for the words of the command line."""
    given = asked(words)
    text = " ".join(given.text)
    if given.help or not text:
        return text_of("help", "explain.txt").strip()
    fault = FAULT.match(text)
    if fault and fault[3]:
        return of_file(fault, fault[3], given.of)
    path = given.text[-1]
    if len(given.text) == 2 and not os.path.isfile(path) and path != "-" and explained(given.text[0]):
        raise console.Stop(f"there is no file {quoted.plain(path)}")
    if len(given.text) > 1 and (path == "-" or os.path.isfile(path)):
        text = " ".join(given.text[:-1]).rstrip()
        told = "\n\n".join(filter(None, [of_printed(text, path, given.of), explained(text)]))
        return with_name(told, path)
    told = explained(text)
    if not told:
        near = quoted.nearest(text, meanings.words())
        like = f"; near {'are' if len(near) > 1 else 'is'} {quoted.either(near, 'and')}" if near else ""
        said = f"nothing that is printed is called so: {quoted.plain(text)}{like} (docs/FAULTS.md has all codes)"
        raise console.Stop(said)
    if fault and fault[1]:
        line = f"Line {fault[1]} of the script, counted from 1 with empty lines and comments."
        line += " With the name of the script behind it this command shows what is wrong there."
        told = f"{filled(line)}\n\n{told}"
    return told


def main() -> int:
    # a script may have bytes that this terminal cannot show
    if isinstance(sys.stdout, io.TextIOWrapper):
        sys.stdout.reconfigure(errors="backslashreplace")
    print(quoted.safe(answer(sys.argv[1:])))
    return 0 if sys.argv[1:] else 2
