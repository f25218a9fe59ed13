#!/usr/bin/env python3
"""tests/ends.py

Looks how `./suites` and its tools end where something ends them: a program that a signal ends, a stream that is closed
or cannot be written, no memory, and a stop. All is played in a copy of the repository, with small scripts in place of
the programs. Prints each end that is another; status 1 where one is.
"""
import contextlib
import os
import signal
import subprocess
import time
import typing

import played
import wrapper
from scripting import header, job

SCRIPT = (header(1, 1, "1/1/1", "1 1 777") + job("list /", who="1 1")).encode()
# In place of a program: it ends by the signal of this number; it is at work.
KILLED = "#!/bin/sh\ncat > /dev/null\nkill -{0} $$\n"
SLEEPS = "#!/bin/sh\necho $$ > {0}\nexec sleep 600\n"
# In place of a session: one that answers each line, one that is killed at once, and one whose answer has no end.
ANSWERS = """#!/bin/sh
number=0
while read -r line; do number=$((number + 1)); echo "= $number"; done
"""
DIES, ENDLESS = "#!/bin/sh\nread -r line\nkill -9 $$\n", "#!/bin/sh\nread -r line\nexec cat /dev/zero\n"
# Programs beside those that talk to a session.
PROGRAMS = {
    "explore": "#!/bin/sh\ncat > /dev/null\necho 'all 0 ways, 0 worlds'\n",
    "trace": "#!/bin/sh\ncat > /dev/null || exit 6\necho '{\"kind\":\"line\",\"text\":\"x\"}'\n",
    "may": "#!/bin/sh\nwhile read -r line; do echo granted; done\n",
    "session": ANSWERS,
}
# What a signal ends, of this number, with which words, and the status and what is told behind the number.
SIGNALS = (
    ("suites", 9, "./suites table", 137, ": killed, as the system does where memory runs out"),
    ("suites", 11, "./suites table", 139, ": a crash"), ("trace", 6, "./suites show", 134, " (SIGABRT)"),
    ("explore", 11, "./suites explore", 139, " (SIGSEGV): a crash"), ("judge", 9, "./suites judge", 137, ""),
    ("forms", 9, "./suites explain 'fault line 1: S1' -", 1, ""), ("may", 11, "./suites may --groups 1 1 r /", 3, ""),
)  # fmt: skip
# What writes, and what reads.
WRITTEN = ("explore", "votes 1/1/1", "explain U1", "votes --help", "may 0 r /", "trace", "shell")
READ = ("trace", "explain x -", "shell")


def asked(copy: wrapper.Copy, line: str, **how: typing.Any) -> played.Done:
    """What comes of a line of a shell, which reads the script."""
    return copy.line(line, SCRIPT, **how)


def holds(copy: wrapper.Copy, words: str, status: int, told: str, **how: typing.Any) -> None:
    """A line of a shell has this status, and standard error this sentence and no other but that of a checked build."""
    done = asked(copy, words, **how)
    lines = [line for line in done.err.splitlines() if not line.startswith("suites: checked build")]
    is_so = done.status == status and any(told in line for line in lines) and "Traceback" not in done.err
    copy.holds(is_so, f"{words}: {done.status}, and not {status} with {told!r}: {lines}")


def by_signals(copy: wrapper.Copy) -> None:
    """A program that a signal ends is told, and the status is that of a shell."""
    for name, number, words, status, why in SIGNALS:
        copy.build(name, KILLED.format(number))
        holds(copy, words, status, f"was ended by signal {number}{why}")
    copy.build("session", DIES)
    for words in ("shell", "show --live", "dump"):
        holds(copy, f"./suites {words}", 1, "the program session was ended by signal 9 (SIGKILL): killed")
    done = asked(copy, "./suites explain 'status 137'")
    copy.holds(done.status == 0 and "signal" in done.out, f"status 137 is not explained: {done}")


def by_streams(copy: wrapper.Copy) -> None:
    """Streams that are closed, and those that cannot be written."""
    for name, text in PROGRAMS.items():
        copy.build(name, text)
    for words in WRITTEN:
        holds(copy, f"./suites {words} > /dev/full", 6, "a write failed: No space left on device")
        holds(copy, f"./suites {words} >&-", 6, "a write failed: standard output is closed")
    for words in READ:
        holds(copy, f"./suites {words} <&-", 6, "a read failed: standard input is closed")
    done = asked(copy, "./suites may 0 r / <&- >&- 2>&-")
    copy.holds(done[:2] == (6, ""), f"all streams closed: {done}")


def by_memory(copy: wrapper.Copy) -> None:
    copy.build("session", ENDLESS)
    holds(copy, "ulimit -v 150000; exec ./suites shell", 4, "out of memory")


def until(is_so: typing.Callable[[], object]) -> bool:
    """Waits until something is so; answers whether it became so."""
    for _ in range(600):
        if is_so():
            return True
        time.sleep(0.1)
    return False


def by_stops(copy: wrapper.Copy) -> None:
    """A stop of `./suites`, or of what talks to a session, stops the program too."""
    kept = os.path.join(copy.top, "process")
    for name, words, wanted in (("suites", "play", 143), ("session", "shell", 130)):
        copy.build(name, SLEEPS.format(kept))
        with contextlib.suppress(FileNotFoundError):
            os.unlink(kept)
        process = subprocess.Popen(["./suites", words], cwd=copy.top, stdin=subprocess.PIPE, start_new_session=True,
                                   stdout=subprocess.DEVNULL, stderr=subprocess.DEVNULL)  # fmt: skip
        until(lambda: os.path.exists(kept) and os.path.getsize(kept))
        child = int(played.text_of(kept))
        process.send_signal(signal.SIGTERM)
        status, is_stopped = process.wait(120), until(lambda: not played.is_alive(child))
        copy.holds(is_stopped and status == wanted, f"{words}: {status}, stopped: {is_stopped}")


if __name__ == "__main__":
    played.plays(__doc__, "ends", wrapper.on_a_copy(by_signals, by_streams, by_memory, by_stops))
