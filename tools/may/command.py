"""./suites may: who may what on this machine; help/may.txt tells all of it."""
import argparse
import errno
import io
import os
import sys
from typing import Iterable, Iterator, NoReturn, Optional

from common import console
from may import changes, everybody, lint, names, people, telling, under
from may.lists import BITS, Bad, Unread, quoted
from may.saying import SAYER
from may.telling import BAD, DENIED, GRANTED, UNREAD, Judged
from may.trees import Tree
from may.ways import WRITE

VERBS = (names.CREATE, names.DELETE)
# What is asked where no user is.
FORMS = ("who", "without", "with", "lint")


class Parser(argparse.ArgumentParser):
    def error(self, message: str) -> NoReturn:
        raise Bad(message)


def wanted_of(word: str) -> int:
    if not word.strip("-") or set(word) - set("rwx-"):
        raise Bad(f"what is wanted is told in letters of r, w and x, and not as {people.shortened(word)}")
    return sum(bit for letter, bit in BITS if letter in word)


def read(words: list[str], more: list[str]) -> argparse.Namespace:
    """The command line; what it asks for is `form`, by what word. Behind `--` nothing is an option."""
    parser = Parser(add_help=False, allow_abbrev=False)
    for flag in ("-v", "--denied", "--no-mask"):
        parser.add_argument(flag, action="store_true")
    parser.add_argument("-0", action="store_true", dest="zero")
    parser.add_argument("--groups")
    parser.add_argument("--under")
    forms = parser.add_mutually_exclusive_group()
    for form in FORMS:
        forms.add_argument(f"--{form}")
    parser.add_argument("words", nargs="*")
    given = parser.parse_intermixed_args(words)
    given.words += more
    given.form = next((form for form in FORMS if getattr(given, form) is not None), "user")
    given.word = getattr(given, given.form, "")
    if given.form != "user" and (given.groups is not None or given.denied or given.zero):
        raise Bad("--groups, --denied and -0 go with a user")
    if given.form == "lint" and given.under is not None:
        raise Bad("--lint takes one tree")
    if given.no_mask and given.form not in ("without", "with"):
        raise Bad("--no-mask goes with --without and --with")
    if (given.denied or given.zero) and given.under is None:
        raise Bad("--denied and -0 go with --under")
    return given


def tell(told: Judged) -> int:
    for one in told.lines:
        SAYER.line(one)
    (SAYER.error if told.status == UNREAD else SAYER.line)(told.last)
    return told.status


def judged(given: argparse.Namespace, caller: people.Caller, wanted: int, paths: list[str]) -> Iterator[Judged]:
    if not wanted:
        yield from (names.judge_name(caller, given.words[1], path, given.v) for path in paths)
        return
    for path, told in zip(paths, telling.judge_all(caller, wanted, paths, given.v)):
        if told.status == UNREAD and wanted & WRITE and told.last.endswith(os.strerror(errno.ENOENT)):
            how = f"./suites may {quoted(given.words[0])} create {quoted(path)}"
            told = told._replace(last=f"{told.last} (whether it may be made: {how})")
        yield told


def of_user(given: argparse.Namespace) -> int:
    """May this user?"""
    if len(given.words) < 3:
        raise Bad("a user, what it wants and a path are told")
    user, verb, *paths = given.words
    caller, status = people.caller_of(user, given.groups), GRANTED
    wanted = 0 if verb in VERBS else wanted_of(verb)
    for count, told in enumerate(judged(given, caller, wanted, paths)):
        status = max(status, tell(told))
        SAYER.at(count)
    return status


def of_tree(given: argparse.Namespace) -> int:
    """What under a tree may this user?"""
    if len(given.words) != 2:
        raise Bad("a user and what it wants are told")
    caller, wanted = people.caller_of(given.words[0], given.groups), wanted_of(given.words[1])
    tree, unjudged = Tree(given.under), 0
    asked = under.Under(caller, wanted, tree)
    for part in tree.parts():
        for row in asked.rows(part):
            unjudged += row.may is None and not row.is_link
            if row.may == given.denied or given.zero and row.may is None:
                continue
            if given.zero:
                SAYER.raw(os.fsencode(row.path) + b"\0")
            else:
                SAYER.line(f"{quoted(row.path)}  {row.by}")
        SAYER.at(len(tree.rows))
    return ended(tree.unread, unjudged)


def ended(unread: list[str], unjudged: int) -> int:
    """Tells what could not be told, and the status of it."""
    more = [f"{len(unread)} could not be read, {unjudged} are not judged"] if unread or unjudged else []
    return unread_of([*unread, *more])


def unread_of(whys: list[str]) -> int:
    for why in whys:
        SAYER.error(why)
    return UNREAD if whys else GRANTED


def of_many(given: argparse.Namespace) -> int:
    """Who may what under a tree, or who gains and loses there?"""
    if given.words:
        raise Bad("--under takes one tree")
    callers, change, unread = people.accounts(), change_of(given), list[str]()
    if change is None and given.word in VERBS:
        raise Bad(f"--who {given.word} takes paths")
    if change and change.is_default:
        raise Bad("entries with d: say what new files will be: without --under")
    lines: Iterable[str]
    if change:
        lines = changes.tell_change_under(callers, change, given.under)
    else:
        lines, unread = everybody.tell_who_under(callers, wanted_of(given.word), given.under, given.v)
    for one in lines:
        SAYER.line(one)
    return unread_of(unread)


def change_of(given: argparse.Namespace) -> Optional[changes.Change]:
    if given.form == "who":
        return None
    return changes.read_change(given.word, given.form == "with", not given.no_mask)


def of_paths(given: argparse.Namespace) -> int:
    """Who may, or who gains and loses by a change?"""
    if given.under is not None:
        return of_many(given)
    if not given.words:
        raise Bad("a path is told")
    callers, status, change = people.accounts(), GRANTED, change_of(given)
    verb = given.word if given.word in VERBS else ""
    wanted = 0 if change or verb else wanted_of(given.word)
    for path in given.words:
        try:
            if change:
                told = changes.tell_change(callers, change, path)
            else:
                told = everybody.tell_who(callers, wanted, path, verb)
            for one in told:
                SAYER.line(one)
        except (Bad, Unread) as error:
            SAYER.error(str(error) if isinstance(error, Unread) else f"{quoted(path)}: {error}")
            status = UNREAD
    return status


def of_lint(given: argparse.Namespace) -> int:
    """What under a tree is to be mended?"""
    if given.words:
        raise Bad("--lint takes one tree")
    found, status = lint.Lint(given.word), GRANTED
    for one in found.lines():
        SAYER.line(one)
        status = DENIED
    return max(status, ended(found.tree.unread, 0))


def answered(words: list[str]) -> int:
    place = words.index("--") if "--" in words else len(words)
    if {"-h", "--help"} & set(words[:place]):
        return console.print_help("may")
    given = read(words[:place], words[place + 1 :])
    if given.form == "user":
        return of_user(given) if given.under is None else of_tree(given)
    return of_lint(given) if given.form == "lint" else of_paths(given)


def run(words: list[str]) -> int:
    try:
        return answered(words)
    except Bad as error:
        SAYER.error(f"{error} (./suites may --help)")
        return BAD
    except Unread as error:
        return unread_of(str(error).split("\n"))
    except OSError as error:
        if error.errno in (*console.NOT_WRITTEN, errno.ENOMEM) and not error.filename:
            raise
        named = f"{quoted(os.fsdecode(error.filename))}: " if error.filename else ""
        SAYER.error(f"{named}{error.strerror}")
        return UNREAD


def main() -> int:
    for stream in (sys.stdout, sys.stderr):
        if isinstance(stream, io.TextIOWrapper):
            stream.reconfigure(errors="backslashreplace")
    try:
        return run(sys.argv[1:])
    finally:
        SAYER.clear()
