"""The sentences about words that do not fit: one for each reason that the command `forms` tells."""
from collections.abc import Callable

from common import forms
from explain.misfits import Why
from common.quoted import LONG, either, letters, nearest, quoted, short

# What the most number of a place is, and of a part of votes.
MOST = {
    "SERVERS": "the most servers", "AGENTS": "the most agents", "BUDGET": "the most bytes of a cache",
    "QUOTA": "the most bytes of a site", "SLOTS": "the most entries of a cache", "SITE": "the last site",
    "N": "the most steps of a line", "UID": "the last user", "GID": "the last group", "GIDS": "the last group",
    "A": "the last agent", "S": "the last server", "OLD": "the last server", "255": "the most votes of a server",
    "65535": "the most votes that can be collected",
}
# Places of which one speaks in another way.
DUE = {"GIDS": "GIDS are due", "OLD": "servers are due", "VOTES": "VOTES are due"}
OPERATION_ENDS = {"line-ends": "where the line ends", "operation-ends": "before the semicolon"}
KINDS = ("user", "group", "mask", "other")
OF_KIND = {"user": "the owner", "group": "the file's group", "other": "all others", "mask": "the mask"}
MARKS = {
    "\xef\xbb\xbf": "a byte order mark (UTF-8)",
    "\xff\xfe": "the byte order mark of UTF-16",
    "\xfe\xff": "the byte order mark of UTF-16",
}
# Reasons of which faults.py tells, with what it knows of the script.
LAID_OUT = ("elsewhere", "unknown", "names-below", "behind-header", "few")
class Of:
    """What a sentence is about: a reason, the word, its place, and the first word of the form; with its parts."""

    def __init__(self, why: Why, word: str = "", place: str = "", first: str = "") -> None:
        self.why, self.data, self.word, self.place, self.first = why, why.data, word, place, first
        self.quoted, self.part, self.short = quoted(word), quoted(why.part), short(why.part)

    def text(self) -> str:
        if self.place == "OPERATION" and self.why.reason in OPERATION_ENDS:
            return f"an operation is due {OPERATION_ENDS[self.why.reason]}"
        says = SENTENCES[self.why.reason]
        return says.format(*self.data, of=self) if isinstance(says, str) else says(self)


def due(of: Of) -> str:
    means = forms.PLACES[of.place].means if of.place in forms.PLACES else ""
    return DUE.get(of.place, f"{of.place} is due") + (f", {means}" if means else "")


def stands(of: Of) -> str:
    parts = ": of each server, and behind slashes what a read and a write collect" * (of.place == "VOTES")
    return f"{of.quoted} is a word too many" if of.place == "END" else f"{of.quoted} stands where {due(of)}{parts}"


def above(of: Of) -> str:
    most = MOST.get(of.data[0] if of.place == "VOTES" else of.place)
    return f"{of.short} is above {of.data[0]}{f', {most}' if most else ''}"


def many(of: Of) -> str:
    count, most = map(int, of.data)
    if of.place == "GIDS":
        return f"{count} groups; there are at most {most}, the user's own and {most - 1} others"
    what = f"votes of {count} servers" if of.place == "VOTES" else f"there are {count} entries"
    return f"{what}; there are at most {most}"


def no_digits(of: Of) -> str:
    as_digits = f"; as a text it is {of.word.encode('latin1').hex()}" if len(of.word) <= LONG / 2 else ""
    return f"{of.quoted} is not made of hexadecimal digits{as_digits}"


def no_name_byte(of: Of) -> str:
    is_escape = of.why.part == "\\" and of.place != "NAME"
    escape = "; a name with an escape, as getfacl prints it, is not read: write its number" if is_escape else ""
    return f"{of.part} stands in no name{escape}"


def unknown_keyword(of: Of) -> str:
    near = nearest(of.why.part, KINDS)
    like = f"{quoted(near[0])} is near" if near else "user, group, mask and other are"
    return f"{of.part} is no kind of entry; {like}"


# The sentence of each reason, with the parts of `Of` and the data of the reason, or what makes it of these.
SENTENCES: dict[str, str | Callable[[Of], str]] = {
    "due": stands,
    "line-ends": lambda of: f"the line ends, and {due(of)}",
    "operation-ends": lambda of: f"the operation ends, and {due(of)}",
    "comment": "a comment stands in a line of its own, which begins with '#'",
    "semicolon": "{of.part} has a semicolon; between operations it stands alone, with a space on each side",
    # numbers
    "no-number": stands,
    "named": lambda of: f"{stands(of)} (the number of {of.quoted} is {of.data[0]}; names are for lists)",
    "below": "{of.short} is below {0}",
    "above": above,
    "gap": "{of.quoted} has a comma without a number beside it; there are no spaces among the groups",
    "many": many,
    # votes
    "no-votes": stands,
    "no-share": lambda of: f"{of.part} is neither a server's votes nor -"
    if of.why.part
    else f"{of.quoted} has nothing where a server's votes or - are due",
    "no-collected": "{of.part} stands where it is due how many votes are collected",
    "no-server": "{of.quoted} lists no server",
    "beyond-last": "{of.quoted} lists server {0}, and the last one is {1}",
    "all-zero": "all votes in {of.quoted} are 0",
    "read-collects": "a read collects {0}, and all votes together are {1}",
    "write-collects": "a write collects {0}, and all votes together are {1}",
    "read-misses-write": "here r + w is {0}, and N, all votes together, is {1}: a read could miss a write; r + w has to"
    " be above N",
    "writes-disjoint": "here 2w is {0}, and N, all votes together, is {1}: two writes could miss one another; 2w has to"
    " be above N",
    # bytes and names
    "odd-digits": "{of.quoted} has {0} hexadecimal digits, and two make a byte",
    "no-digits": no_digits,
    "length": "the name has {0} bytes, and at most {1} are allowed",
    "no-name-byte": no_name_byte,
    "all-digits": "{of.quoted} is a number, and stands where a name is due",
    "taken": "{of.first} {of.quoted} has a number already, by line {0}",
    # items of lists
    "no-keyword": "a word is due before the first colon: user, group, mask or other",
    "unknown-keyword": unknown_keyword,
    "no-colon": "a colon is missing behind {of.part}",
    "one-colon": lambda of: f"a colon is missing: {of.data[0][0]}::{of.short} is the entry of {OF_KIND[of.data[0]]}",
    "colons": "it has {0} colons, and an entry has two",
    "names-somebody": lambda of: f"the entry of {OF_KIND[of.data[0]]} names nobody, and here it names {of.part}",
    "digit": lambda of: f"{of.part} is a digit; in a list permissions are letters: {letters(int(of.why.part))}",
    "no-permission": lambda of: f"{of.part} is no permission; r, w and x are"
    + (", and X is of setfacl alone" if of.why.part == "X" else ""),
    "twice": "{of.part} stands twice",
    "hyphens": "there are more than three hyphens",
    "marked-nothing": "behind {of.part} an entry is due, as d:u::rwx",
    "nobody": "no {0} is named {of.part}",
    "of-other-kind": lambda of: f"no {of.data[0]} is named {of.part}; a"
    f" {'user' if of.data[0] == 'group' else 'group'} is",
    # lists
    "carriage-return": "{of.quoted} has a carriage return",
    "no-list": "{of.quoted} stands where a list is due, with colons in it",
    "no-mode": "{of.quoted} is no mode, which has three octal digits",
    "lacks": lambda of: f"no item is the entry of {OF_KIND[of.data[0]]}, {of.data[0][0]}::",
    "doubled": lambda of: f"items {either(of.data[1:], 'and')} are of "
    + (f"{of.data[0]} {of.short}" if of.why.part else OF_KIND[of.data[0]]),
    "unmasked": "item {0} names somebody, and no item is a mask, m::",
    # first words
    "blank": "the line has spaces or tabs alone; an empty line has nothing at all",
    "mark": lambda of: f"the file begins with {MARKS[of.why.part]}, which an editor put there; save it as plain ASCII",
    "word-missing": "the word with which the line begins is missing before {of.quoted}",
    "stands-above": "it stands above, in line {0}",
    "again": "{of.quoted} stands in line {0} already",
    # form 1 of the root folder
    "old-default": "the root folder has a default list, which form 1 does not hold",
    "old-entries": "the root folder's list has {0} entries, and form 1 holds {1}",
    "old-server": "the votes list server {0}, and form 1 holds those below {1}",
}


def of_item(code: str, reason: str, item: str, told: str) -> str:
    """What is told of a fault of a list: of an item with that, and of the default list with that."""
    if " item " in code and reason not in ("due", "no-list", "no-mode"):
        return f"item {code.rpartition(' ')[2]} is {quoted(item)}: {told}"
    return f"{told}, in the default list (d:)" if code.startswith("A13") else told
