"""The program `suites`: the proved one where it is that of the sources, else a checked build, which is made where it is
wanting (tools/front/choose.py).
"""
import contextlib
import functools
import os
import shlex
import shutil
import subprocess
import sys

from common import TOP, console, tool


def kept(what: str) -> str:
    """The path of a file that is kept of the program."""
    return os.path.join(TOP, "out", what)


def kept_choice() -> tuple[str, str] | None:
    """The program that was chosen last, where all stands that it was chosen from: choosing takes longer."""
    with contextlib.suppress(OSError, ValueError, KeyError), open(kept("choice.sh"), encoding="utf-8") as file:
        said = dict(word.split("=", 1) for word in shlex.split(file.read()))
        names = [*said["files"].split("\n"), said["program"]]
        is_same_kit = os.environ.get("PATH") == said["searched"] or shutil.which("rt") == said["rt"]
        is_whole = said["kind"] != "first"
        written = os.fstat(file.fileno()).st_mtime_ns
        if is_same_kit and is_whole and all(os.stat(os.path.join(TOP, one)).st_ctime_ns <= written for one in names):
            return said["kind"], said["program"]
    return None


@functools.cache
def chosen() -> tuple[str, str]:
    """The kind and the path of the program; ends the tool where there is none."""
    choice = kept_choice()
    if not choice:
        done = subprocess.run(tool("choose"), stdin=subprocess.DEVNULL, stdout=subprocess.PIPE, text=True)
        if done.returncode != 0:
            sys.exit(done.returncode)
        kind, path = done.stdout.split()
        choice = kind, path
    return choice[0], os.path.join(TOP, choice[1])


def asked(command: str, given: str | bytes, *words: str, path: str = "") -> tuple[int, str]:
    """With which status a command of the program ends for an input, and what it prints; or of the program at a path."""
    text = given if isinstance(given, bytes) else given.encode("latin1")
    done = subprocess.run([path or program(), command, *words], input=text, stdout=subprocess.PIPE)
    return done.returncode, done.stdout.decode("latin1")


@functools.cache
def program() -> str:
    """The path of the program, where it is not proved with a word of that; ends the tool where there is none."""
    kind, path = chosen()
    if kind == "checked":
        text = "checked build, not proved yet; ./suites --prove proves and builds it"
        if sys.stderr.isatty():
            console.Teller().say(text)
        else:
            console.say_once_a_day(kept("told"), text)
    return path
