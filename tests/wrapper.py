#!/usr/bin/env python3
"""tests/wrapper.py

Plays `./suites` itself, in a copy of the repository without a build: that help, the version and words that ask for
nothing are answered at once and as the rows have it, that all commands are told, and what a terminal is told. The
program is a small script in place of a build there. Prints each answer that is another; status 1 where one is.
"""
import os
import re
import resource
import shutil
import sys
import tempfile
import typing

import played
from played import Done, Shown, Tally

from common import text_of

COPIED = ("suites", "crates", "crates.txt", "docs", "help", "tools", "CHANGELOG.md", "README.md")
LEFT_OUT = ("out", "__pycache__", "specs", "proofs", "gate", "wrong")
# What `./suites` itself uses besides python3, git and rt.
USED = ("sh", "cat", "find", "sleep", "readlink", "env", "head", "mktemp", "rm")
NO_PYTHON, FAULT = "is not on the path\n", "fault command line\n"
# The most seconds of processor time of an answer, which takes some tenths of one; a build takes a minute and more, and
# beside much other work all takes several times as long.
AT_ONCE = 5.0
# Reads its input, says how much that was, and ends with the status that its last word tells.
PROGRAM = """#!/bin/sh
for word; do :; done
[ "$word" = quick ] && { echo 'fault word 1'; exit 2; }
[ $# = 1 ] && { read -r line; cat > /dev/null; echo "read $line"; exit 0; }
exit "$word"
"""
# In place of the program: each command that has a script is that, with the words behind it.
COMMANDS = """#!/bin/sh
own=${0%/*}/commands
[ -x "$own/$1" ] || exec "$own/suites" "$@"
own=$own/$1
shift
exec "$own" "$@"
"""
# Words that ask for help.
HELP = (
    "help votes", "help trace", "help show", "help --test", "--help", "-h", "help", "play --help", "help play",
    "serve -h", "acl --help", "explain --help", "trace --help",
)  # fmt: skip
# Words that ask for nothing, and what is said of them.
NEAR = {
    "plai": "play is near",
    "vote 1/1/1": "votes is near",
    "--hlep": "--help is near",
    "trace x": "./suites trace < x",
    "table -x": "no option",
    "trace --json x": "--json stands alone",
}
# Standard streams, and what is said with them where the program ends with status 6.
SIX = {
    "< /": "a read failed: standard input is a folder", "<&-": "a read failed: standard input is closed",
    "< big": "the input is above 16 MiB: it has 16,777,217 bytes", "> /dev/full": "a write failed: the disk is full",
    "< /dev/zero": "the input is above 16 MiB", ">&-": "a write failed: standard output is closed",
}
# A script, typed in pieces, and what a terminal is told of it; the program prints no job that ended.
TYPED = (b"hi\nbegin 0 1 1 0 list /\nsweep 0 1\nstep 1 3\nrun 0\n", b"\x04")
SILENT = ("line 3 did nothing: agent 0 has a job (line 2)", "line 4 did nothing: agent 1 has no job",
          "agent 0 has a job that has not ended (line 2); run 0 ends it")
KEEP = "from front import choose, sources; choose.keep_record('{}', sources.Sources(), sources.Kit())"
GIT = "git init -q && git add suites && git -c user.name=a -c user.email=a commit -qm a && git rev-parse --short=12 @"


class Copy:
    """A copy of the repository, and what holds in it."""

    def __init__(self, room: str, tally: Tally | None = None) -> None:
        self.top, self.bare, self.tally = os.path.join(room, "copy"), os.path.join(room, "bare"), tally or Tally()
        self.holds = self.tally.holds
        os.makedirs(self.top)
        for name in COPIED:
            path = os.path.join(played.TOP, name)
            if os.path.isdir(path):
                shutil.copytree(path, os.path.join(self.top, name), ignore=shutil.ignore_patterns(*LEFT_OUT))
            else:
                shutil.copy2(path, self.top)
        os.makedirs(self.bare)
        for name in USED:
            os.symlink(shutil.which(name), os.path.join(self.bare, name))

    def answer(self, *words: str, **how: typing.Any) -> Done:
        """What `./suites` answers to these words."""
        return played.done(["./suites", *words], cwd=self.top, **how)

    def line(self, line: str, given: bytes | None = None, **how: typing.Any) -> Done:
        """What comes of a line of a shell at the top of the copy."""
        return played.done(["sh", "-c", line], given, cwd=self.top, **how)

    def at_once(self, words: str) -> Done:
        """An answer, which has to take no build."""
        before = resource.getrusage(resource.RUSAGE_CHILDREN)
        given = self.answer(*words.split())
        after = resource.getrusage(resource.RUSAGE_CHILDREN)
        spent = after.ru_utime + after.ru_stime - before.ru_utime - before.ru_stime
        is_so = spent < AT_ONCE and not os.path.exists(os.path.join(self.top, "out"))
        self.holds(is_so, f"{words} takes {spent:.1f} s, or a build")
        return given

    def build(self, name: str, text: str) -> None:
        """Puts a script in the place of a command of the checked build, or under `suites` of all that have none."""
        folder = os.path.join(self.top, "out", "commands")
        write(os.path.join(folder, name), text)
        write(os.path.join(self.top, "out", "suites"), COMMANDS)
        self.python(KEEP.format("checked"))

    def python(self, line: str, **how: typing.Any) -> Done:
        """What a line of Python tells that takes from the tools of the copy."""
        how = {"cwd": self.top, "env": {**os.environ, "PYTHONPATH": os.path.join(self.top, "tools")}, **how}
        return played.done([sys.executable, "-c", line], **how)

    def on_terminal(self, words: str, *typed: bytes, **how: typing.Any) -> Shown:
        """What a terminal shows of an answer."""
        return played.on_terminal(["./suites", *words.split()], *typed, cwd=self.top, **how)


def write(path: str, text: str) -> None:
    """Puts a program there."""
    os.makedirs(os.path.dirname(path), exist_ok=True)
    os.chmod(played.put(path, text), 0o755)


def on_a_copy(*parts: typing.Callable[[Copy], object]) -> typing.Callable[[Tally], None]:
    """A part of a test, whose parts are played in one copy."""

    def play(tally: Tally) -> None:
        with tempfile.TemporaryDirectory(prefix="suites-") as room:
            copy = Copy(room, tally)
            for part in parts:
                part(copy)

    return play


def needs_program(words: list[str]) -> bool:
    """Whether it is the program that tells what these words ask for."""
    if words[:1] == ["serve"]:
        return "".join(words[1:2]).partition("=")[0] == "--agents"
    return words[:1] == ["acl"] and words[1:] != ["--help"]


def plays_rows(copy: Copy) -> None:
    """Rows of words that ask for nothing, and of help, where there is neither a build nor python3 to make one."""
    tools = text_of(copy.top, "help", "tools.txt")
    for row in played.rows():
        if row["status"] != 2 and row["title"] != "Help":
            continue
        words = [word.decode() for word in row["words"]]
        told = copy.answer(*words, env={"PATH": copy.bare})
        wanted = (tools if words == ["--help"] else "") + row["output"].decode()
        if needs_program(words):
            copy.holds(told[:2] == (1, "") and told.err.endswith(NO_PYTHON), f"{words} needs no program: {told}")
        else:
            copy.holds(told[:2] == (row["status"], wanted), f"line {row['line']}, {words}: {told}, and not {wanted}")
            copy.holds(bool(told.err) == (told.status == 2), f"{words}: on standard error stands {told.err}")
    # what is not answered there would now be built
    if copy.tally.wrong:
        sys.exit("without a build answers are others")


def answers_at_once(copy: Copy) -> None:
    """What needs no build, and what is told of it."""
    for words in ("", "no", "-x", "play foo", "table -x", "serve 4", "help no"):
        copy.holds(copy.at_once(words)[:2] == (2, FAULT), f"{words} is no fault of the command line")
    for words, said in NEAR.items():
        copy.holds(said in copy.at_once(words).err, f"of {words} is not said: {said}")
    why = copy.at_once("play foo").err
    copy.holds(why == "suites: a script is read from standard input: ./suites play < foo\n", f"play foo: {why}")
    played.put(os.path.join(copy.top, "two"), "servers 1\nagents 2\n")
    for words in ("trace x", "draw --agent 1 x", "trace <&-", "draw < /", "trace --agent 9 < two"):
        done = copy.line(f"exec ./suites {words}")
        is_one = done.out == "" and len(done.err.splitlines()) == 1
        copy.holds(done.status in (2, 6) and is_one, f"{words}: {done}")
    for words in HELP:
        told = copy.at_once(words)
        copy.holds((told.status, told.err) == (0, "") and len(told.out) > 200, f"{words}: {told}")
    for words in ("help", "-h"):
        copy.holds(copy.answer(words) == copy.answer("--help"), f"{words} is another text than --help")
    copy.holds(copy.at_once("explain S1").status == 0, "explain S1")
    done = played.done([sys.executable, "tools", "compare"], cwd=copy.top)
    is_told = done.err.startswith("python3 tools compare SCRIPT..")
    copy.holds(done[:2] == (2, "") and is_told, f"compare.py without words: {done}")
    copy.holds(copy.at_once("--is-fresh").status == 1, "a program is fresh that is not there")


def tells_all_commands(copy: Copy) -> None:
    """Help tells each word that `./suites` knows, and so does README.md."""
    known = " ".join(re.findall(r"\b(?:own|tools|options)='([^']*)'", text_of(copy.top, "suites"))).split()
    page, text = text_of(copy.top, "README.md"), copy.answer("--help").out
    copy.holds(len(known) > 20, f"of ./suites are known: {known}")
    for word in known:
        copy.holds(re.search(rf"^  {word}\b", text, re.M), f"--help tells nothing of {word}")
        copy.holds(re.search(rf"`(?:\./suites )?{word}\b", page), f"README.md tells nothing of {word}")
    for line in ("./suites play < examples/play/server-down.script", "./suites --test"):
        copy.holds(f"  {line} " in text, f"--help does not show {line}")


def tells_version(copy: Copy) -> None:
    """The version is that of CHANGELOG.md, the commit that of git, the kit that of README.md, and the build what is
    there.
    """
    version = re.search("^## (.*)", text_of(copy.top, "CHANGELOG.md"), re.M)[1].strip()
    logic = re.search(r"\(logic `(\w+)`\)", text_of("README.md"))[1]
    told = copy.at_once("--version")
    lines = told.out.splitlines()
    is_so = told.status == 0 and lines[0] == f"suites {version}" and lines[1].startswith(f"kit logic {logic}, ")
    copy.holds(is_so, f"--version: {told}")
    copy.holds(lines[-1].startswith("build none yet"), f"--version without a build: {told}")
    if shutil.which("git"):
        head = copy.line(GIT).out.strip()
        copy.holds(head and f"\ncommit {head}\n" in copy.at_once("--version").out, "--version tells another commit")
        shutil.rmtree(os.path.join(copy.top, ".git"))


def runs_a_build(copy: Copy) -> None:
    """With a build: what --version tells of it, and what goes to the program."""
    copy.build("suites", PROGRAM)
    is_so = copy.answer("--version").out.endswith("\nbuild checked, out/suites\n")
    copy.holds(is_so, "--version does not tell the checked build")
    told = copy.answer("serve", "--agents", "5")
    is_so = told[:2] == (5, "") and told.err.startswith("suites: checked build")
    copy.holds(is_so, f"the program's answer is changed: {told}")
    copy.holds("1 to 64 agents" in copy.answer("serve", "--agents", "2").err, "the limits of agents are not told")
    with open(os.path.join(copy.top, "big"), "wb") as file:
        file.truncate((16 << 20) + 1)
    for streams, why in SIX.items():
        told = copy.line(f"exec ./suites serve --agents 6 {streams}")
        copy.holds(told.status == 6 and why in told.err, f"of status 6 with {streams} is said: {told}")
    copy.holds(copy.answer("serve", "--agents", "143").status == 143, "a status is changed")
    copy.holds(copy.answer("play", "foo")[:2] == (2, FAULT), "play foo with a build")


def tells_a_terminal(copy: Copy) -> None:
    """What a terminal is told besides, with a build."""
    reading = "suites: reading from the terminal"
    shown = copy.on_terminal("play", *TYPED, both=True).text
    copy.holds(reading in shown and "read hi" in shown, f"a terminal that is read is told: {shown}")
    copy.holds(all(line in shown for line in SILENT), f"of what did nothing a terminal is told: {shown}")
    copy.holds("No such process" not in shown, f"a terminal is told of a process: {shown}")
    shown = copy.on_terminal("acl", b"hi\n", b"\x04", both=True).text
    copy.holds(shown.endswith("read hi\n"), f"a terminal is told behind the answer: {shown}")
    for agents, told in (("3", "./suites explain"), ("6", "above 16 MiB")):
        shown = copy.on_terminal(f"serve --agents {agents}", both=True).text
        copy.holds(told in shown, f"of status {agents} a terminal is told {shown}")


if __name__ == "__main__":
    on_terminals = (tells_a_terminal,) if os.path.exists("/dev/ptmx") else ()
    played.plays(__doc__, "answers", on_a_copy(
        plays_rows, answers_at_once, tells_all_commands, tells_version, runs_a_build, *on_terminals,
    ))  # fmt: skip
