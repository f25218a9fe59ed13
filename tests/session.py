#!/usr/bin/env python3
"""tests/session.py [--long] [PROGRAM]

Holds sessions. The program is the one that `./suites session` runs, or the one that is named. Prints what differs;
status 1 where something does. Each function here says what it looks at; what is told of servers is worked out by hand,
and what a trace ends with (tests/standing.py). With --long it kills 200 times instead of 20, and hears ten million
lines instead of 200 thousand.
"""
import contextlib
import errno
import os
import random
import resource
import signal
import subprocess
import tempfile
import threading
import time

import played
import spoken
import standing
from played import Tally
from spoken import HEAD, HEADER, Talk, ran, text_of

from common import built
from session import dump

STORY = (
    *HEADER,
    b"# a file, and its change",
    b"user lisa 1001",
    b"begin 0 1000 100 0 file /a 644 ; write /a 6869",
    b"run 0",
    b"crash 2",
    b"begin 1 1000 100 0 write /a 6f6b",
    b"run 1",
)
KEPT = [line for line in STORY if not line.startswith(b"#")]
ASKED = (b"copies /a", b"locks", b"room", b"row /a", b"content /a")
PROBE = (b"return 2", b"begin 0 1000 100 0 read /a", b"run 0", b"audit 0")
LONGEST = 16 * 1024 * 1024


def answers(path: str, tally: Tally, _folder: str) -> None:
    """Each line is answered while no other is written, and by what the same line prints in a whole script."""
    talk = Talk(path)
    told = [talk.say(line) for line in (*STORY, *PROBE)]
    tally.holds(None not in told, "a line was not answered", told)
    whole = ran(path, [], text_of((*STORY, *PROBE)))
    tally.holds(whole == (0, text_of(line for answer in told for line in answer or [])), "line by line", whole)
    tally.holds(talk.end() == 0, "a session without a fault ends with 0")
    script = text_of((*STORY, *PROBE))
    suites = subprocess.run([played.program(), "play"], input=script, stdout=subprocess.PIPE)
    tally.holds(suites.stdout == whole[1], "play", suites.stdout, whole[1])


def goes_on(path: str, tally: Tally, _folder: str) -> None:
    """A line that is too long is told, and bytes that are no text, and the next line is answered."""
    for line, told, status in (
        (b"# " + b"x" * (LONGEST - 2), b"", 0),
        (b"# " + b"x" * (LONGEST - 1), b"fault line 6: S3\n", 3),
        (b"# " + b"x" * (LONGEST - 2) + b"\r", b"", 0),
        (b"x" * (3 * LONGEST), b"fault line 6: S3\n", 3),
    ):
        given = text_of((*HEADER, line, b"begin 0 1000 100 0 file /a 644", b"run 0"))
        tally.holds(ran(path, [], given) == (status, told + b"0.0 10 answered made 1\n"), line[:20], len(line))
    random_bytes = random.Random(1).randbytes(200_000)
    status, told = ran(path, ["--marks"], text_of(HEADER) + random_bytes)
    marks = [line for line in told.splitlines() if line.startswith(b"= ")]
    count = len(HEADER) + random_bytes.count(b"\n") + (not random_bytes.endswith(b"\n"))
    tally.holds(status == 3 and marks == marks_of(count), "bytes that are no text", status)


def marks_of(count: int) -> list[bytes]:
    """The marks of so many lines."""
    return [b"= %d" % (one + 1) for one in range(count)]


def restores(path: str, tally: Tally, folder: str) -> None:
    """A journal cut at each byte: its whole lines are carried out, and nothing else stands in it then."""
    name = spoken.journal(folder)
    status, told = ran(path, ["--journal", name], text_of(STORY))
    tally.holds(status == 0 and told.startswith(b"= restored 0 lines\n"), "a new journal", told)
    whole = HEAD + text_of(KEPT)
    tally.holds(played.got(name) == whole, "what is kept", played.got(name))
    expected: dict[int, bytes] = {}
    for place in range(len(whole) + 1):
        front = whole[:place]
        name = spoken.journal(folder, front)
        lines = front[: front.rfind(b"\n") + 1].splitlines()[1:]
        if len(lines) not in expected:
            expected[len(lines)] = ran(path, [], text_of((*lines, *PROBE)))[1].replace(
                ran(path, [], text_of(lines))[1], b"", 1
            )
        told = ran(path, ["--journal", name], text_of(PROBE))[1]
        right = [line for line in PROBE if len(lines) >= len(HEADER)]
        wanted = b"= restored %d lines\n" % len(lines) + expected[len(lines)]
        tally.holds(renumbered(told, len(lines)) == wanted, place, told)
        tally.holds(played.got(name) == HEAD + text_of((*lines, *right)), "the file", place)
        os.unlink(name)


def renumbered(told: bytes, before: int) -> bytes:
    """What a session told, with the numbers that its faulty lines have where so many lines stand before them."""
    lines = []
    for line in told.splitlines():
        if line.startswith(b"fault line "):
            number, rest = line[len(b"fault line "):].split(b":", 1)
            line = b"fault line %d:" % (int(number) + before) + rest
        lines.append(line)
    return text_of(lines)


def refuses(path: str, tally: Tally, folder: str) -> None:
    """What is no journal is refused by name, and left as it is."""
    for given, why in (
        (b"servers 3\n", b"no journal"),
        (b"some text of somebody", b"no journal"),
        (HEAD[:-1] + b" \n", b"no journal"),
        (HEAD + b"servers 3\nbad\nagents 2\n", b"line 3: S1"),
        (HEAD + text_of(HEADER) + b"crash 7\nrun", b"line 7: S1"),
    ):
        name = spoken.journal(folder, given)
        told = ran(path, ["--journal", name], text_of(PROBE))
        tally.holds(told == (3, b"fault journal %s: %s\n" % (name.encode(), why)), why, told)
        tally.holds(played.got(name) == given, "it is left", why)
    told = ran(path, ["--journal", folder], b"")
    tally.holds(told == (6, b"fault journal %s: failed\n" % folder.encode()), "a folder", told)
    name = spoken.journal(folder)
    first = Talk(path, "--journal", name)
    tally.holds(first.line() == b"= restored 0 lines", "the first session")
    told = ran(path, ["--journal", name], b"")
    tally.holds(told == (6, b"fault journal %s: in use\n" % name.encode()), "the second session", told)
    tally.holds(first.say(b"servers 3") == [] and first.end() == 0, "the first one goes on")
    tally.holds(ran(path, ["--journal", name], b"") == (0, b"= restored 1 lines\n"), "the next one")


def is_full(path: str, tally: Tally, folder: str) -> None:
    """A journal that may not grow any more: told, not carried out, and the session goes on."""
    name = spoken.journal(folder, HEAD + text_of(HEADER))
    size = len(HEAD + text_of(HEADER)) + 20

    def bounded() -> None:
        signal.signal(signal.SIGXFSZ, signal.SIG_IGN)
        resource.setrlimit(resource.RLIMIT_FSIZE, (size, size))

    given = text_of((b"begin 0 1000 100 0 file /a 644", b"crash 1", b"bad", b"run 0"))
    done = subprocess.run(
        [path, "session", "--marks", "--journal", name], input=given, stdout=subprocess.PIPE, preexec_fn=bounded
    )
    told = b"= restored 5 lines\nfault journal\n= 1\n= 2\nfault line 3: S1\n= 3\n= 4\n"
    tally.holds((done.returncode, done.stdout) == (6, told), "a full disk", done)
    kept = played.got(name)
    tally.holds(kept == HEAD + text_of((*HEADER, b"crash 1", b"run 0")), "its journal", kept)


def fails(path: str, tally: Tally, folder: str) -> None:
    """Each call of the system fails in turn."""
    library = played.Library("fail", folder)
    if not library.is_made:
        return
    whole = HEAD + text_of(KEPT)
    right = ran(path, ["--marks", "--journal", spoken.journal(folder)], text_of(STORY))[1]
    for kind in ("READ", "WRITE", "APPEND", "SYNC"):
        for call in range(1, 200):
            name = spoken.journal(folder)
            status, told = ran(path, ["--marks", "--journal", name], text_of(STORY), library.env(**{kind: call}))
            if not library.was_met():
                tally.holds(status == 0 and told == right and call > 1, "no call failed", kind, call)
                break
            kept = played.got(name)
            tally.holds(status == 6, kind, call, status, told)
            if kind in ("READ", "WRITE"):
                tally.holds(whole.startswith(kept) and right.startswith(told), "a front", kind, call, told)
            elif told.startswith(b"fault journal " + name.encode()):
                tally.holds(kept in (b"", HEAD), "a journal that is not made", kind, call, told)
            else:
                number = int(told.partition(b"fault journal\n= ")[2].split(b"\n")[0] or 0)
                others = [b"#" if place == number else line for place, line in enumerate(STORY, 1)]
                wanted = b"= restored 0 lines\n" + ran(path, ["--marks"], text_of(others))[1]
                wanted = wanted.replace(b"\n= %d\n" % number, b"\nfault journal\n= %d\n" % number)
                tally.holds(told == wanted, "all other lines", kind, call, told)
                lines = [line for line in others if line in kept.splitlines()]
                tally.holds(kept == HEAD + text_of(lines), "all others are kept", kind, call, kept)
    name = spoken.journal(folder)
    status, told = ran(path, ["--journal", name], text_of(STORY), library.env(SYNC=4, CUT=2))
    tally.holds(status == 6 and told.count(b"fault journal\n") >= 1, "a journal that is not cut off", told)
    kept = played.got(name)
    tally.holds(whole.startswith(kept) and kept.count(b"\n") == 4, "it takes no line more", kept)


def opens_badly(path: str, tally: Tally, folder: str) -> None:
    """Each call on a journal with a torn line fails in turn: it is told, and no whole line is lost. What is done by
    halves is done on, and what a signal breaks off may be made again.
    """
    library = played.Library("fail", folder)
    if not library.is_made:
        return
    whole = HEAD + text_of(KEPT)
    name = spoken.journal(folder, whole + b"begin 0")
    right = ran(path, ["--journal", name], text_of(PROBE))
    kept = played.got(name)
    name = spoken.journal(folder, whole + b"begin 0")
    tally.holds(ran(path, ["--journal", name], text_of(PROBE), library.env(SHORT=1)) == right, "by halves")
    tally.holds(played.got(name) == kept, "what is kept by halves", played.got(name))
    for kind in ("OPEN", "LOCK", "LOOK", "CUT", "SYNC", "APPEND"):
        for error in (errno.EIO, errno.ENOSPC, errno.EINTR):
            for call in range(1, 100):
                name = spoken.journal(folder, whole + b"begin 0")
                told = ran(path, ["--journal", name], text_of(PROBE), library.env(**{kind: call}, WITH=error))
                got = played.got(name)
                if not library.was_met():
                    tally.holds(told == right and got == kept and call > 1, "no call failed", kind, call)
                    break
                case = kind, call, error, told, got
                if told[1] == b"fault journal %s: failed\n" % name.encode():
                    tally.holds(told[0] == 6 and got in (whole + b"begin 0", whole), "not opened", *case)
                elif b"fault journal\n" in told[1]:
                    tally.holds(told[0] == 6 and got.startswith(whole) and got.endswith(b"\n"), "not kept", *case)
                else:
                    tally.holds(error == errno.EINTR and told == right and got == kept, "made again", *case)


def lacks_memory(path: str, tally: Tally, folder: str) -> None:
    """Each allocation is refused in turn: it is told, and all lines behind it are answered."""
    library = played.Library("refuse", folder)
    if not library.is_made:
        return
    marks = marks_of(len(STORY) + len(PROBE) + len(ASKED))
    for is_kept in (False, True):
        for call in range(1, 5000):
            name = spoken.journal(folder)
            given, env = ["--marks", *(["--journal", name] if is_kept else [])], library.env(FROM=call, TO=call)
            status, told = ran(path, given, text_of((*STORY, *PROBE, *ASKED)), env)
            if not library.was_met():
                break
            lines = told.splitlines()
            if told == b"fault memory\n":
                tally.holds(status == 4, "before the first line", call, status)
                continue
            found = [line for line in lines if line.startswith(b"= ") and b"restored" not in line]
            tally.holds(found == marks, "marks", call, told)
            tally.holds(status in (0, 3, 4, 6) and told.count(b"fault memory\n") <= 1, "told", call, status, told)
            if is_kept:
                kept = played.got(name)[len(HEAD):].splitlines()
                again = ran(path, ["--journal", name], b"")[1]
                tally.holds(again == b"= restored %d lines\n" % len(kept), "restored", call, again)
                os.unlink(name)


def closes_its_end(path: str, tally: Tally, _folder: str) -> None:
    """Who hears the answers is gone: the session ends with 6, and reads no more."""
    talk = Talk(path)
    talk.told.close()
    with contextlib.suppress(BrokenPipeError):
        for _ in range(100_000):
            talk.heard.write(b"bad\n")
    with contextlib.suppress(BrokenPipeError):
        talk.heard.close()
    tally.holds(talk.child.wait(spoken.PATIENCE) == 6, "a reader that closes its end")


def is_killed(path: str, tally: Tally, folder: str, times: int) -> None:
    """Killed under load, again and again: each answered line is in the journal once, in order, and at most one more."""
    name = spoken.journal(folder)
    given = list(HEADER)
    kept: list[bytes] = []
    seed = random.Random(7)
    for turn in range(times):
        talk = Talk(path, "--journal", name)
        told = talk.line()
        found = played.got(name)
        lines = found[len(HEAD):].splitlines()
        tally.holds(told == b"= restored %d lines" % len(lines) and found.endswith(b"\n"), "restored", turn, told)
        tally.holds(lines[: len(kept)] == kept and len(lines) - len(kept) <= 1, "what was answered is there", turn)
        kept = lines
        if turn == 0:
            kept += [line for line in given if talk.say(line) == []]
        killer = threading.Timer(seed.uniform(0.0, 0.05), talk.child.kill)
        # each second time once something was answered, so that there is a load on a slow machine too
        if turn % 2:
            killer.start()
        for step in range(100_000):
            line = b"begin %d 1000 100 0 file /f%d-%d 644 ; write /f%d-%d 00" % (step % 2, turn, step, turn, step)
            both = (line, b"run %d" % (step % 2))
            asked = [one for one in both if talk.say(one) is not None]
            kept += asked
            if step == 0 and turn % 2 == 0:
                killer.start()
            if len(asked) < 2:
                break
        killer.join()
        talk.child.wait()
        talk.told.close()
    last = ran(path, ["--journal", name], b"")
    lines = played.got(name)[len(HEAD):].splitlines()
    tally.holds(last[0] == 0 and lines[: len(kept)] == kept and len(lines) - len(kept) <= 1, "at last", last)
    tally.holds(len(lines) > times, "there was a load", len(lines))


def grows(path: str, tally: Tally, count: int) -> None:
    """So many lines that say nothing, and then some more of another length: memory does not grow with them."""
    child = subprocess.Popen([path, "session"], stdin=subprocess.PIPE, stdout=subprocess.DEVNULL)
    assert child.stdin
    piece = b"# a line that says nothing\n" * 10_000
    sizes = []
    for turn in range(count // 10_000):
        child.stdin.write(piece)
        if turn in (4, count // 10_000 - 1):
            child.stdin.flush()
            time.sleep(0.2)
            sizes.append(int(played.text_of(f"/proc/{child.pid}/statm").split()[1]))
    child.stdin.close()
    tally.holds(child.wait(600) == 0 and sizes[-1] <= sizes[0] + 64, "memory of lines that are done", sizes)


TREE = (
    *HEADER,
    b"user lisa 1001",
    b"begin 0 1000 100 0 folder /d u::rwx,g::r-x,o::r-x,d:u::rwx,d:g::r-x,d:o::---",
    b"run 0",
    b"begin 0 1000 100 0 file /d/f 644 ; write /d/f 6869 ; folder /d/shared 777",
    b"run 0",
    b"begin 0 1000 100 0 setacl /d/shared u::rwx,g::rwx,o::rwx",
    b"run 0",
    b"begin 1 1001 300 0 file /d/shared/x 600 2,1,1/2/3 ; write /d/shared/x 00ff",
    b"run 1",
    b"begin 0 1000 100 0 file /gone 600 ; drop /gone",
    b"run 0",
    b"begin 0 1000 100 0 setacl /d/shared u::r--,u:lisa:rwx,g::-,m::rwx,o::-",
    b"run 0",
    b"begin 0 1000 100 0 setacl /d u::-,g::-,o::-,d:u::rwx,d:g::-,d:o::-",
    b"run 0",
    b"crash 2",
)
PATHS = (b"/", b"/d", b"/d/f", b"/d/shared", b"/d/shared/x", b"/gone")
# What a path has that is the same in a tree that is made anew.
LASTING = (b"owner", b"group", b"acl", b"votes", b"size")


def lasting(row: bytes) -> list[bytes]:
    words = row.split()
    pairs = dict(zip(words[3::2], words[4::2]))
    return words[:3] + [pairs.get(one, b"") for one in LASTING]


def why_not(name: str) -> str:
    """Why a journal is not made short; nothing where it is."""
    try:
        dump.compact(name)
    except dump.console.Stop as stop:
        return str(stop)
    return ""


def is_compacted(path: str, tally: Tally, folder: str) -> None:
    """A journal is made short: the same tree, and names are known; a file that is none, or is in use, is left."""
    name = spoken.journal(folder)
    before = ran(path, ["--journal", name], text_of(TREE + tuple(b"row " + one for one in PATHS)))[1]
    dump.compact(name)
    given = [b"row " + one for one in PATHS] + [b"begin 0 1000 100 0 setacl / u::rwx,u:lisa:r,g::-,m::r,o::-", b"run 0"]
    status, told = ran(path, ["--journal", name], text_of(given))
    rows = [line for line in told.splitlines() if line.startswith(b"row ")]
    wanted = [line for line in before.splitlines() if line.startswith(b"row ")]
    is_same = len(rows) == len(PATHS) and list(map(lasting, rows)) == list(map(lasting, wanted))
    tally.holds(is_same, "the tree", rows, wanted)
    tally.holds(status == 0 and told.splitlines()[-1].endswith(b"answered set"), "names are known", told)
    tally.holds(sum(b"/gone" in line for line in played.got(name).splitlines()) == 0, "what was dropped is gone")
    for wrong in (b"some text\n", HEAD + b"bad\n"):
        name = spoken.journal(folder, wrong)
        tally.holds(why_not(name) != "" and played.got(name) == wrong, "it was compacted, or is not left", wrong)
    name = spoken.journal(folder)
    talk = Talk(path, "--journal", name)
    talk.say(b"servers 3")
    tally.holds("in use" in why_not(name), "it was compacted while it was in use", why_not(name))
    talk.end()
    left = [one for one in os.listdir(folder) if one.startswith("journal-") and "." in one]
    tally.holds(not left, "a file is left", left)


def tells_stories(path: str, tally: Tally, folder: str) -> None:
    """The stories of examples/session."""

    def story(name: str) -> list[bytes]:
        return played.got(os.path.join(played.TOP, "examples", "session", f"{name}.script")).splitlines()

    told = ran(path, [], text_of(story("revocation")))[1].splitlines()
    tally.holds(b"1.1 11 denied op 1 suite 1 wants r-- by user:1001:" in told, "revocation", told)
    have = (b"up prefix 1 content 1 behind prefix", b"down prefix 2 content 1", b"up prefix 2 content 0 behind content")
    lines = standing.of_copies(b"/plan", 1, *have)
    tally.holds([line for line in told if line.startswith(b"copies ")] == lines, "revocation", told, lines)
    tally.holds(told[-1].startswith(b"row /plan file") and b"user:1001:---" in told[-1], "revocation", told)
    name = spoken.journal(folder)
    lines = story("killed")
    place = lines.index(b"kill me")
    talk = Talk(path, "--journal", name)
    for line in lines[: place + 1]:
        talk.say(line)
    talk.child.kill()
    talk.child.wait()
    talk.told.close()
    told = ran(path, ["--journal", name], text_of(lines[place + 1 :]))[1].splitlines()
    ends = [line[-4:] for line in told[1:]]
    tally.holds(told[:1] == [b"= restored 9 lines"] and ends == [b"3230"] * 2, "killed", told)
    name = spoken.journal(folder)
    first = ran(path, ["--journal", name], text_of(story("full")))[1].splitlines()
    dump.compact(name)
    again = ran(path, ["--journal", name], b"room\nrow /\nrow /kept\n")[1].splitlines()
    tally.holds(lasting(first[-1]) == lasting(again[-1]) and first[-2] != again[-2], "full", first, again)
    rooms = [lines[-3:-2] for lines in (first, again)]
    tally.holds(rooms == [standing.of_room((5, 3)), standing.of_room((2, 0))], "full", rooms)


def sessions(tally: Tally) -> None:
    path, is_long = tally.program, tally.given.long
    setattr(built, "program", lambda: path)
    with tempfile.TemporaryDirectory(prefix="suites-") as folder:
        standing.stands(path, tally)
        for part in (
            answers, goes_on, restores, refuses, is_full, fails, opens_badly, lacks_memory, is_compacted,
            tells_stories, closes_its_end,
        ):  # fmt: skip
            part(path, tally, folder)
        is_killed(path, tally, folder, 200 if is_long else 20)
        grows(path, tally, 10_000_000 if is_long else 200_000)


if __name__ == "__main__":
    played.plays(__doc__, "answers of sessions", sessions, program=None, long=False, most=20, width=600)
