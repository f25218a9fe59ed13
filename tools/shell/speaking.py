"""The shell itself: its words, and how each is asked of the session."""
from __future__ import annotations

import argparse
import cmd
import contextlib
import grp
import os
import pwd
import readline
import shlex
import subprocess
import sys
import tempfile
from collections.abc import Callable

from common import TOP, text_of
from mount import beginning, rows, talking
from mount.talking import Ended, Outcome, User
from shell import changing

HISTORY = os.path.join(os.environ.get("XDG_STATE_HOME", os.path.expanduser("~/.local/state")), "suites-shell")
RED, PLAIN = "\033[31m", "\033[0m"


def is_coloured() -> bool:
    """Whether a terminal is told in colour, where nobody wished it otherwise (no-color.org)."""
    return sys.stdout.isatty() and not os.environ.get("NO_COLOR")


class Bad(Exception):
    """What was typed cannot be done, in a sentence."""


def line_of(word: str) -> Callable[[Shell, str], None]:
    """A word that begins a line of the session."""
    return lambda shell, text: shell.of_session(f"{word} {text}")


class Shell(cmd.Cmd):
    """A session that is talked to by hand."""

    def __init__(self, session: talking.Session, script: list[str]) -> None:
        self.is_terminal = sys.stdin.isatty()
        super().__init__()
        self.session, self.lines = session, list(script)
        self.names: dict[str, dict[str, int]] = {"user": {}, "group": {}}
        self.me, self.user = "root", User(0, (0,))
        self.seen, self.last, self.use_rawinput = {"/"}, "", self.is_terminal
        # whether a word is being carried out, of which the session has yet to answer
        self.is_busy = False
        for line in script:
            self.note(line)

    @property
    def prompt(self) -> str:  # type: ignore[override]
        return f"{self.me}> " if self.is_terminal else ""

    # talking

    def say(self, text: str, is_wrong: bool = False) -> None:
        print(f"{RED}{text}{PLAIN}" if is_wrong and is_coloured() else text, flush=True)

    def note(self, line: str) -> None:
        """Learns a name that a line gives, and the paths that it has."""
        told = line.split()
        if len(told) == 3 and told[0] in self.names and told[2].isdigit():
            self.names[told[0]][told[1]] = int(told[2])
        self.seen |= {word for word in told if word.startswith("/")}

    def tell(self, line: str) -> list[str]:
        """Gives a line; one that is not faulty belongs to the script so far."""
        told = self.session.tell(line)[0]
        if beginning.is_kept(line) and not any(one.startswith("fault ") for one in told):
            self.lines.append(line)
            self.note(line)
        self.last = told[-1] if told else self.last
        return told

    def ask(self, operations: str) -> Outcome:
        """A transaction of whom one is, tried again where that helps."""
        gids = ",".join(map(str, self.user.gids))
        for turn in range(1, talking.TRIES + 1):
            begun = self.tell(f"begin 0 {self.user.uid} {gids} 0 {operations}")
            outcome = talking.outcome_of(begun, [] if begun else self.tell("run 0"))
            if outcome is None:
                raise Bad("; ".join(begun) or self.last)
            if outcome.kind != "undecided" or outcome.code() not in talking.AGAIN:
                break
            if turn < talking.TRIES:
                self.say(f"undecided {outcome.rest}: tried again")
        if outcome.kind != "answered":
            raise Bad(self.wrong(outcome))
        return outcome

    def wrong(self, outcome: Outcome) -> str:
        """What came instead of an answer, in a sentence with the session's own words behind."""
        sentence = WRONG.get("denied" if outcome.kind == "denied" else outcome.code(), "It is not done")
        return f"{sentence} ({outcome.kind} {outcome.rest})"

    def onecmd(self, line: str) -> bool:
        if not self.is_terminal and line != "EOF":
            print(f"{self.me}> {line}" if line.strip() and not line.startswith("#") else line, flush=True)
        if line.startswith("#"):
            return False
        self.is_busy, is_over = True, False
        try:
            is_over = bool(super().onecmd(line))
        except Bad as why:
            self.say(str(why), True)
        except ValueError as why:
            self.say(f"that is not understood: {why}", True)
        except OSError as why:
            self.say(f"{why.filename or 'it'}: {why.strerror}", True)
        # a stop within leaves it as it is
        self.is_busy = False
        return is_over

    def emptyline(self) -> bool:
        return False

    def default(self, line: str) -> None:
        raise Bad(f"there is no word '{line.split()[0]}'; help tells all")

    # what a word that is begun may become

    def completenames(self, text: str, *_: object) -> list[str]:
        words = (name.removeprefix("do_") for name in self.get_names() if name.startswith("do_"))
        return [f"{word} " for word in words if word.startswith(text) and word != "EOF"]

    def completedefault(self, text: str, line: str, begin: int, end: int) -> list[str]:  # type: ignore[override]
        """A path that was told of, with its first / or without."""
        lead = "" if text.startswith("/") else "/"
        return sorted(path.removeprefix(lead) for path in self.seen if path.startswith(lead + text))

    def named(self, kind: str) -> set[str]:
        """All names of users or of groups, of the script and of this machine."""
        machine = [one.pw_name for one in pwd.getpwall()] if kind == "user" else [one.gr_name for one in grp.getgrall()]
        return {*self.names[kind], *machine}

    def complete_as(self, text: str, line: str, begin: int, end: int) -> list[str]:
        return sorted(name for name in self.named("user") if name.startswith(text))

    def complete_setfacl(self, text: str, line: str, begin: int, end: int) -> list[str]:
        """An option; behind -m and -x an entry; else a path."""
        before = line[:begin].split()
        if before[-1] in ("-m", "-x"):
            front, colon, name = text.rpartition(":")
            kind = {"u": "user", "g": "group"}.get(front.rpartition(",")[2])
            names = sorted(self.named(kind)) if kind else []
            return [f"{front}:{one}" for one in names if one.startswith(name)]
        if before[-1] in ("setfacl", "-d") and not text.startswith("/"):
            return [f"{one} " for one in ("-m", "-x", "-b", "-d") if one.startswith(text) and one not in before]
        return self.completedefault(text, line, begin, end)

    def complete_server(self, text: str, line: str, begin: int, end: int) -> list[str]:
        return [str(one) for one in self.servers() if str(one).startswith(text)]

    complete_crash = complete_return = complete_sweep = complete_audit = complete_server

    def path(self, word: str) -> str:
        path = "/" + word.strip("/")
        self.seen.add(path)
        return path

    def given(self, text: str, least: int, most: int, form: str) -> list[str]:
        given = shlex.split(text)
        if not least <= len(given) <= most:
            raise Bad(form)
        return given

    # who one is

    def number(self, kind: str, name: str) -> int:
        """The number of a user or a group, by its name in the script or on this machine."""
        if name.isdigit():
            return int(name)
        if name in self.names[kind]:
            return self.names[kind][name]
        with contextlib.suppress(KeyError):
            return pwd.getpwnam(name).pw_uid if kind == "user" else grp.getgrnam(name).gr_gid
        raise Bad(f"there is no {kind} {name}: `{kind} {name} NUMBER` makes one")

    def do_as(self, text: str) -> None:
        (who,) = self.given(text, 1, 1, "as USER, or as UID:GID,GROUP..")
        name, _, groups = who.partition(":")
        uid = self.number("user", name)
        if groups:
            gids = [self.number("group", one) for one in groups.split(",")]
        else:
            try:
                account = pwd.getpwuid(uid) if name.isdigit() or name not in self.names["user"] else None
                gids = os.getgrouplist(account.pw_name, account.pw_gid) if account else [uid]
            except KeyError:
                gids = [uid]
        self.me, self.user = name, User(uid, tuple(dict.fromkeys(gids)))

    def shown(self, told: list[str]) -> None:
        for line in told:
            self.say(line, line.startswith("fault "))

    # files

    def row(self, path: str) -> rows.Row:
        row = rows.row_of(self.session.tell(f"row {path}")[0])
        if row is None:
            raise Bad(f"{path}: there is nothing")
        return row

    def do_ls(self, text: str) -> None:
        given = self.given(text, 0, 2, "ls [-l] [PATH]")
        path = self.path(next((one for one in given if one != "-l"), "/"))
        told = self.ask(f"list {path}").rest.removeprefix("list ")
        for name in [] if told == "-" else told.split(","):
            one = self.path(f"{path.rstrip('/')}/{name}")
            row = self.row(one) if "-l" in given else None
            self.say(f"{changing.long_text(row)}  {name}" if row else name)

    def do_cat(self, text: str) -> None:
        (path,) = self.given(text, 1, 1, "cat PATH")
        data = rows.bytes_of(self.ask(f"read {self.path(path)}").rest.removeprefix("read "))
        self.say(data.decode("utf-8", "backslashreplace").removesuffix("\n"))

    def do_get(self, text: str) -> None:
        path, name = self.given(text, 2, 2, "get PATH FILE")
        data = rows.bytes_of(self.ask(f"read {self.path(path)}").rest.removeprefix("read "))
        with open(name, "wb") as file:
            file.write(data)

    def do_put(self, text: str) -> None:
        path, *texts = self.given(text, 2, 1000, "put PATH TEXT")
        path, data = self.path(path), rows.hex_of(" ".join(texts).encode() + b"\n")
        is_there = rows.row_of(self.session.tell(f"row {path}")[0]) is not None
        self.ask(f"write {path} {data}" if is_there else f"file {path} 644 ; write {path} {data}")

    def do_touch(self, text: str) -> None:
        path, *mode = self.given(text, 1, 2, "touch PATH [MODE]")
        self.ask(f"file {self.path(path)} {(mode or ['644'])[0]}")

    def do_mkdir(self, text: str) -> None:
        path, *mode = self.given(text, 1, 2, "mkdir PATH [MODE]")
        self.ask(f"folder {self.path(path)} {(mode or ['755'])[0]}")

    def do_rm(self, text: str) -> None:
        (path,) = self.given(text, 1, 1, "rm PATH")
        self.ask(f"drop {self.path(path)}")

    do_rmdir = do_rm

    # lists and votes

    def do_getfacl(self, text: str) -> None:
        (path,) = self.given(text, 1, 1, "getfacl PATH")
        for entry in self.ask(f"getacl {self.path(path)}").rest.removeprefix("acl ").split(","):
            self.say(entry)

    def do_setfacl(self, text: str) -> None:
        *change, path = self.given(text, 2, 4, "setfacl [-d] -m ENTRY,.. PATH, or -x ENTRY,.. or -b")
        path = self.path(path)
        before = self.row(path).lists
        after = changing.changed(before, change, self.number)
        if after is None:
            raise Bad("setfacl [-d] -m ENTRY,.. PATH, or -x ENTRY,.. or -b")
        self.ask(f"setacl {path} {after.text()}")

    def do_chmod(self, text: str) -> None:
        mode, path = self.given(text, 2, 2, "chmod MODE PATH")
        if len(mode) != 3 or set(mode) - set("01234567"):
            raise Bad("a mode has three octal digits")
        path = self.path(path)
        self.ask(f"setacl {path} {self.row(path).lists.with_mode(int(mode, 8)).text()}")

    def do_votes(self, text: str) -> None:
        path, *votes = self.given(text, 1, 2, "votes PATH [VOTES]")
        path = self.path(path)
        told = self.ask(f"setvotes {path} {votes[0]}" if votes else f"getvotes {path}").rest
        self.say(told.removeprefix("votes "))

    # servers, and other lines of the session

    do_user, do_group, do_crash, do_return, do_audit, do_row = map(
        line_of, ("user", "group", "crash", "return", "audit", "row")
    )

    def of_session(self, line: str) -> None:
        self.shown(self.tell(line))

    def do_sweep(self, text: str) -> None:
        self.shown([*self.tell(f"sweep 0 {text}"), *self.tell("run 0")])

    def servers(self) -> range:
        return range(next(int(line.split()[1]) for line in self.lines if line.split()[:1] == ["servers"]))

    def do_servers(self, text: str) -> None:
        """Which are up, by the script so far."""
        down = beginning.servers_down(self.lines)
        for server in self.servers():
            self.say(f"server {server} {'down' if str(server) in down else 'up'}")

    def do_raw(self, text: str) -> None:
        self.of_session(text)

    # what came of it

    def script(self) -> str:
        return "".join(f"{line}\n" for line in beginning.as_played(self.lines))

    def do_why(self, text: str) -> None:
        if not self.last:
            raise Bad("nothing was answered yet")
        with tempfile.NamedTemporaryFile("w", suffix=".script", encoding="utf-8") as file:
            file.write(self.script())
            file.flush()
            explain = [os.path.join(TOP, "suites"), "explain", self.last, file.name]
            subprocess.run(explain, stdin=subprocess.DEVNULL)

    def do_save(self, text: str) -> None:
        (name,) = self.given(text, 1, 1, "save FILE")
        with open(name, "w", encoding="utf-8") as file:
            file.write(self.script())

    def do_help(self, arg: str) -> None:
        self.say(text_of("help", "shell.txt").split("\n\n", 2)[2].strip("\n"))

    def do_quit(self, text: str) -> bool:
        return True

    def do_EOF(self, text: str) -> bool:
        if self.is_terminal:
            print()
        return True


    def loop(self) -> None:
        """Reads words until the end. Ctrl-C takes away what is typed, and stops the shell where a word is at work."""
        if self.is_terminal:
            self.say("help tells all words")
        while True:
            try:
                return self.cmdloop()
            except KeyboardInterrupt:
                if self.is_busy or not self.is_terminal:
                    raise
                print("^C", flush=True)


WRONG = {
    "denied": "Permission denied", "F1": "That is no path", "F2": "Not a folder", "F4": "No such file or folder",
    "F5": "It is there already", "F6": "It is a folder", "F7": "The folder is not empty", "F8": "That is too long",
    "F9": "The folder is full", "U1": "Too few servers are up", "U2": "Another transaction is in the way",
    "U5": "Its home is down", "U6": "A server is full",
}


def speak(given: argparse.Namespace) -> int:
    session, script = beginning.begin(given)
    shell = Shell(session, script)
    if shell.is_terminal:
        with contextlib.suppress(OSError):
            readline.read_history_file(HISTORY)
        readline.set_completer_delims(" ")
    try:
        shell.loop()
    except Ended:
        shell.say(f"the session has ended: {session.ended()}", True)
        return 1
    except BaseException:
        # a line may not be answered yet
        session.close(0)
        raise
    finally:
        if shell.is_terminal:
            with contextlib.suppress(OSError):
                os.makedirs(os.path.dirname(HISTORY), exist_ok=True)
                readline.write_history_file(HISTORY)
    session.close()
    return 0
