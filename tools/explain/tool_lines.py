"""What is told of the lines that tools print: `votes`, `may`, `explore --ask`, `judge`, `session`, `shell`, `import`,
and what they say on standard error. Each is known by its form.

The sentences about `votes` are those of its help where that has them, and what errors of a mount mean is told in its.
"""
import re

from common import forms, text_of
from common.quoted import filled

PERMS = "[r-][w-][x-]"
# A line of `votes`, and what it says.
VOTES = {
    r"\d+ servers?, each up with chance \S+$": "so many servers there are, and each is up with this chance, by itself",
    r"\d+ servers?, each up with chance \S+: reads go on":
        "so many servers there are, each up with this chance, by itself; and so many, whichever they are, may be lost"
        " in each line of the table below",
    r" *(?:no|\d+) votes? +servers? [\d ]+$": "these servers have so many votes of it",
    r" *requests +may be lost +blocked|votes +read +write":
        "the head of the table of `--of`: how many requests a read and a write make where all servers are up, how many"
        " servers may be lost, whichever they are, how often too few votes are up, and how often that or the home is"
        " down",
    r"(?:[\d-]+,)*[\d-]+/\d+/\d+ +\d+ +\d+ +\d+ +\d+ +[\d.e-]+":
        "votes, as scripts write them; how many requests a read and a write make; how many servers may be lost for"
        " each, whichever they are; how often too few votes are up; and how often that or the home is down",
    r"(?:read|write|read and write): (?:\d+ of \d+ votes$|votes that)":
        "so many of all votes a read or a write collects; the lines below it tell what that bears",
}
# The lines of `votes` of which its help tells.
IN_HELP = re.compile(r" *(may be lost|stopped by|blocked|not found|U5 at first)\b")
# A line of `may`, and what it says.
MAY = {
    rf"(?:\S.* )?{PERMS}  ?(?:granted|denied by )":
        "a folder on the way or the file itself, what is wanted of it (each folder on the way wants x, to be"
        " searched), and what its list says. The first that denies is the last line. A note in brackets tells where"
        " Linux does otherwise than the list",
    r".* may (?:not )?(?:[rwx]+|create|delete)(?: |: )":
        "who may do what, or which folder or file wants what, and what the entry that decides grants",
    r" *denied at .*: .* by ": "of `--who`: these are denied there, on the way or at the file itself, by this entry",
    rf"\S.*  {PERMS}  \S":
        "of `--who`: who may, each with the entry that grants it; those whom no list can tell apart are told together",
    r"\S.*  \S+  would be  \S+$": "of `--with` and `--without`: the list as it is, and as it would be then",
    r" *(?:gains|loses) [rwx-]+: ":
        "of `--with` and `--without`: who may do this then and may not now, or the other way round",
    r" *nobody (?:gains|loses)": "of `--with` and `--without`: nothing changes for anybody",
    r"/.*: .*: setfacl ":
        "of `--lint`: what an entry of this list does not do that its writer may have meant, and the command that"
        " mends it. Nothing is changed by `may` itself",
    r"/\S*  by (?:user|group|mask|other|owner)\S*$":
        "of `--under`: a file or folder, and the entry that grants it, or denies it with `--denied`",
}


# A line of `explore --ask`, and what it says.
ASKED = {
    r"(?:never|always) so far: ":
        "what is asked is so in none or in each of the ways that were found; not all was looked at, and another way"
        " may be missing",
    r"never: ": "what is asked is so in none of the ways in which the jobs may end, and all was looked at",
    r"always: ": "what is asked is so in each of the ways in which the jobs may end, and all was looked at",
    r"sometimes: ": "what is asked is so in some way; orders were drawn, and others may be missing",
    r"not found: ": "what is asked is so in none of the ways of orders that were drawn; in another way it may be so",
    r" *as in: \./suites explore ": "what prints the script that leads to a way in which it is so",
    r"sometimes, in \d+ of \d+ ways: ": "what is asked is so in so many of all ways that were found",
    r" *the shortest: \./suites explore ":
        "what prints the script that leads to the first way in which it is so; ways stand by the length of their"
        " scripts",
}

OPERATION = f"(?:{'|'.join(forms.OPERATIONS)})"
# A line of `judge`, or of a history that it reads; parts of it stand in what is said.
JUDGED = {
    r"(?:# )?one table: (\d+) calls?$":
        "there is an order of the {0} calls that keeps time, in which each client was told what one plain table"
        " answers",
    r"(?:# )?no: line (\d+) fits no order$":
        "there is such an order for what was told above line {0} of the history, and none with it: no table could have"
        " answered so there, whatever the calls beside it did. Empty lines and comments count",
    r" +line \d+: (?:do|call|ret) ": "the line of the history that fits no order",
    r" +called at line \d+: call ": "where the call was made that is answered in the line above",
    r" +beside it, line \d+: ":
        "a call that may stand before it or behind it in an order: it was made before the answer, and was not yet told"
        " when the call was made",
    r" +and \d+ more$": "so many more calls ran beside it",
    r" +one table could have told: ":
        "with this answer in the place of the one that fits no order, the history up to there is one table's",
    rf"call (\d+) (\d+) ([\d,]+) ({OPERATION} .*)":
        "of the history: a client calls, under the number {0}, for user {1} of groups {2}: {3}",
    r"(?:# )?(?:do|call \d+) (\d+) ([\d,]+) test (\S+) ([rwx]+)$":
        "of the history: whether user {0} of groups {1} is granted {3} at {2}, as access(2) asks. `--order` tells it"
        " as a comment, since `table` has no tests",
    r"(?:# )?ret (\d+) answered granted$":
        "of the history: the test that was made last under the number {0} was told that it is granted",
    r"(?:# )?ret (\d+) (answered|denied|refused)\b ?(.*)":
        "of the history: the call that was made last under the number {0} was told that it is {1}",
    r"# \d+ (?:answered|denied|refused)\b": "of `--order`: what `table` answers to the line above it",
}
# A line of `session` that answers one that asks.
ASKS = {
    r"row (\S+) nothing$": "the table of this run has nothing at {0}, whichever servers are down",
    r"row (\S+) (file|folder) suite (\d+) owner (\d+) group (\d+) acl (\S+) votes (\S+) size (\d+) prefix (\d+)"
    r" content (\d+)$":
        "the table of this run has a {1} at {0}, whichever servers are down: its number is {2}, its owner user {3} and"
        " its group {4}; its list is {5}, its votes are {6}; it has {7} bytes or names, and its versions are {8} of"
        " the prefix and {9} of the content. No access is checked",
    r"content (\S+) nothing$": "the table of this run has no file at {0}",
    r"content (\S+) (\S+)$": "the bytes of the file that the table of this run has at {0}. No access is checked",
    r"copies (\S+) nothing$": "no name leads to {0}, so no server has anything of it",
    r"copies (\S+) suite (\d+) server (\d+) (up|down) nothing(?: prepared)?$":
        "{0} is suite {1}, and server {2}, which is {3}, has no copy of it. Where `prepared` stands behind that, a"
        " transaction is prepared there and has not ended there",
    r"copies (\S+) suite (\d+) server (\d+) (up|down) prefix (\d+) content (\d+)(?: behind [a-z ]+?)?"
    r"(?: prepared)?$":
        "{0} is suite {1}, and server {2}, which is {3}, has a copy of it, with version {4} of the prefix (kind,"
        " owner, group, lists and votes) and {5} of the content. `behind` tells what of it is older than the newest"
        " copy that a server has, `prepared` that a transaction is prepared there and has not ended there",
    r"locks server (\d+) nothing$": "server {0} has no lock",
    r"locks server (\d+) t (\d+) suite (\d+) (shared|exclusive)(?: prepared| in doubt)?$":
        "at server {0} transaction {1} has a lock on suite {2}, which is {3}. It is `prepared` once the server has"
        " what to change, and `in doubt` while the home of a prepared one is down: nobody else can tell how it ended",
    r"room server (\d+) taken (\d+) of (\d+) unnamed (\d+)$":
        "server {0} has copies of {1} suites, and each keeps one of its {2} places for ever. {3} of them are reached"
        " by no name any more: `--compact` makes their places free",
}
# A line of `shell`, and what it says.
SHELL = {
    r"([\w.:,-]+)> \S": "what was typed, by whom one is: {0}",
    r"server (\d+) (up|down)$": "server {0} is {1}, by the lines so far",
    r"[d-] \d+:\d+ +\d+ \S+  \S": "of `ls -l`: `d` for a folder, owner and group, bytes or names, the list, the name",
    r"there is no word '": "none of its words is called so",
    r"there is no (user|group) ": "neither the script nor this machine has such a {0}; a line of it makes one",
    r"(as|ls|cat|get|put|touch|mkdir|rm|getfacl|setfacl|chmod|votes|save) (?:[A-Z]|\[-)": "how the word {0} is used",
    r".*: there is nothing$": "the table has nothing there, whichever servers are down",
}
# What `import` and `dump` say on standard error.
MADE = {
    r"(?:suites: )?.* is left out: ": "`./suites import`: it does not fit into this service, and the script lacks it",
    r"(?:suites: )?.* loses its suid, sgid or sticky bit$":
        "`./suites import`: the script makes it without that bit, which lists here do not have",
    r"/\S*: .* is made as ": "`./suites dump`: the short script does not make the same there",
}
# An answer that `shell` tells in a sentence, or that it tries again, with the session's own words.
SPOKEN = re.compile(r".* \(((?:denied|refused|undecided) .*)\)$|(undecided U\d.*): tried again$")
ERROR = re.compile(r"E[A-Z]{2,}$")


# The tables of forms by whose lines they are, each with what stands before what is told, and behind it.
TABLES = {
    "ask": (ASKED, "A line of `./suites explore --ask`: ", " ./suites explore --help tells more."),
    "judge": (JUDGED, "A line of `./suites judge`: ", " ./suites judge --help tells more."),
    "session": (ASKS, "A line of `./suites session`: ", " ./suites session --help tells more."),
    "votes": (VOTES, "A line of `./suites votes`: ", ""),
    "may": (MAY, "A line of `./suites may`: ", " ./suites may --help tells more."),
    "shell": (SHELL, "A line of `./suites shell`: ", " ./suites shell --help tells more."),
    "making": (MADE, "What is said by ", ""),
}


def of_forms(text: str, *names: str) -> str | None:
    """What these tables of forms say of a line, with the parts of the line; nothing of any other line."""
    for table, of, more in map(TABLES.__getitem__, names):
        for form, says in table.items():
            found = re.match(form, text)
            if found:
                return filled(f"{of}{says.format(*found.groups(''))}.{more}")
    return None


def of_error(text: str) -> str | None:
    """What is told of an error of a mount, by its name: what its help says; nothing of any other text."""
    if not ERROR.match(text):
        return None
    lines = text_of("help", "mount.txt").partition("What calls are answered:\n")[2].split("\n")
    told, is_told = list[str](), False
    for line in lines:
        parts = re.findall(r"(E[A-Z]{2,}(?:, E[A-Z]{2,})*) +(.*?)(?= {2,}E[A-Z]|$)", line)
        told += [says for names, says in parts if text in names.split(", ")]
        told[-1:] = [f"{told[-1]} {line.strip()}"] if not parts and is_told and line.startswith(" " * 18) else told[-1:]
        is_told = bool(parts) and text in parts[-1][0].split(", ")
    return filled(f"{text}, of a mount (`./suites mount`): {'; '.join(told)}.") if told else None


def within(text: str) -> str | None:
    """The words of the session in a sentence of `shell`; nothing in any other text."""
    found = SPOKEN.match(text)
    return str(found[1] or found[2]) if found else None


def of_votes(text: str) -> str | None:
    """What is told of a line of `votes`; nothing of any other."""
    found = IN_HELP.match(text)
    if found:
        told = re.search(rf"^    {found[1]} +(.*(?:\n {{18}}.*)*)", text_of("help", "votes.txt"), re.M)
        return filled(f"{found[1]} (a line of `./suites votes`): {' '.join(told[1].split())}.") if told else None
    of_form = of_forms(text, "votes")
    if of_form:
        return of_form
    from votes import votes  # its sentences are known
    sentences = " ".join([*votes.ABOUT, votes.MISSED]).split("{}")
    if len(text) > 8 and any(text in " ".join(part.split()) for part in ["|".join(sentences), *sentences]):
        return filled(f"A sentence of `./suites votes`, which says it itself: {text} ./suites votes --help tells more.")
    return None


def of_tools(text: str) -> str | None:
    """What is told of a line that a tool printed, as it stands there; nothing of any other."""
    told = of_forms(text, "ask", "judge", "session") or of_votes(text)
    return told or of_forms(text, "may", "shell", "making") or of_error(text)
