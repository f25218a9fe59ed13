#!/usr/bin/env python3
"""tests/live_page.py

Holds the page of a session (`./suites show --live`): who is answered, what lines are told, and how it ends. Prints what
differs; status 1 where something does.
"""
import contextlib
import json
import os
import signal
import socket
import subprocess
import sys
import tempfile
import time
import typing

import played
from played import Tally

from common import built, text_of, tool
from show import show

DOOR = tool("show", "--live")
OWN = ["--root", "1000:100:755"]
# What is told in the first stories, and what is no part of the script of it.
STORY = ["# the owner makes a plan", "begin 0 1000 100 0 file /plan u::rw,u:2000:r,g::-,m::r,o::- ; write /plan 6869",
         "run 0", "row /plan", "crash 0", "user lisa 2000", "begin 1 1000 100 0 setacl /plan u::rw,g::-,o::-",
         "step 1 3", "nonsense", "run 1", "return 0", "begin 0 2000 2000 0 read /plan", "run 0", "audit 2"]
ASKED, FAULTY = ["row /plan"], ["nonsense"]
MOST = 200_000


class Live:
    """A page that is served, by a child of this process."""

    def __init__(self, *words: str) -> None:
        self.child = subprocess.Popen(
            [*DOOR, *words], stdin=subprocess.DEVNULL, stdout=subprocess.PIPE, stderr=subprocess.PIPE, text=True
        )
        self.address = self.child.stdout.readline().strip()
        self.host, _, rest = self.address.removeprefix("http://").partition("/")
        self.token, self.port = rest.rstrip("/"), int(self.host.rpartition(":")[2])
        # the page has one event at first
        self.epoch, self.have = 0, 1

    def __enter__(self) -> "Live":
        return self

    def __exit__(self, *_: object) -> None:
        self.child.send_signal(signal.SIGINT)
        self.child.communicate(timeout=60)

    def asks(self, request: bytes) -> tuple[int, bytes, bytes]:
        """The status, the head and the body of what is answered; 0 where nothing is."""
        with socket.create_connection(("127.0.0.1", self.port), 60) as way:
            way.sendall(request)
            told = b""
            with contextlib.suppress(ConnectionError):
                while piece := way.recv(1 << 16):
                    told += piece
        head, _, body = told.partition(b"\r\n\r\n")
        return int(head.split()[1]) if head.startswith(b"HTTP/") else 0, head, body

    def request(self, verb: str, path: str, *heads: str, body: bytes = b"", host: str | None = None) -> bytes:
        lines = [f"{verb} {path} HTTP/1.1", f"Host: {self.host if host is None else host}", "Connection: close", *heads]
        return "\r\n".join([*lines, "", ""]).encode() + body

    def posted(self, given: object, *heads: str, kind: str = "application/json", path: str = "") -> bytes:
        body = given if isinstance(given, bytes) else json.dumps(given).encode()
        heads = (f"Content-Type: {kind}", f"Content-Length: {len(body)}", *heads)
        return self.request("POST", path or f"/{self.token}/line", *heads, body=body)

    def script(self) -> list[str]:
        return self.asks(self.request("GET", f"/{self.token}/script"))[2].decode().splitlines()

    def tell(self, line: str) -> dict[str, typing.Any]:
        status, _, body = self.asks(self.posted({"line": line, "epoch": self.epoch, "have": self.have}))
        assert status == 200, status
        told = json.loads(body)
        self.epoch, self.have = told["epoch"], told["kept"] + len(told["events"])
        return told

    def session(self) -> int:
        """The process of the session, below which is none."""
        return played.below(self.child.pid)[-1]


def by_address(live: Live, line: dict[str, object]) -> dict[str, tuple[bytes, int]]:
    """Requests that are refused by what is asked for, and by whom, each with its status."""
    page, other = f"/{live.token}/", f"/{live.token[:-1]}{'ab'[live.token[-1] == 'a']}/"
    return {
        "no token": (live.request("GET", "/"), 404), "another token": (live.request("GET", other), 404),
        "a file": (live.request("GET", f"{page}../show.py"), 404),
        "another host": (live.request("GET", page, host=f"evil.example:{live.port}"), 403),
        "no host": (f"GET {page} HTTP/1.1\r\nConnection: close\r\n\r\n".encode(), 403),
        "a line by another token": (live.posted(line, path=f"{other}line"), 404),
        "another page": (live.posted(line, "Origin: http://evil.example"), 403),
        "a page without origin": (live.posted(line, "Origin: null"), 403),
    }


def by_body(live: Live, line: dict[str, object]) -> dict[str, tuple[bytes, int]]:
    """Requests that are refused by what is sent, each with its status."""

    def with_line(text: object) -> bytes:
        return live.posted(dict(line, line=text))

    body, lines = json.dumps(line).encode(), f"/{live.token}/line"
    typed, length = "Content-Type: application/json", f"Content-Length: {len(body)}"
    return {
        "a form": (live.posted(line, kind="text/plain"), 415),
        "no length": (live.request("POST", lines, typed, body=body), 411),
        "a length below 0": (live.request("POST", lines, typed, "Content-Length: -1", body=body), 411),
        "in pieces": (live.request("POST", lines, typed, length, "Transfer-Encoding: chunked", body=body), 411),
        "much": (live.request("POST", lines, typed, f"Content-Length: {MOST + 1}"), 413),
        "very much": (live.request("POST", lines, typed, f"Content-Length: {10**30}"), 411),
        "no line": (live.posted({"epoch": 0, "have": 1}), 400), "no JSON": (live.posted(b"crash 1"), 400),
        "deep": (live.posted(b"[" * 90_000), 400), "a list": (live.posted([line]), 400),
        "a number": (with_line(1), 400), "less": (live.posted(dict(line, have=-1)), 400),
        "two lines": (with_line("crash 1\ncrash 2"), 400),
        "half a letter": (with_line("# \ud800"), 400),
        "no text": (with_line("crash 1\0"), 400),
        "another verb": (live.request("PUT", lines, typed, length, body=body), 501),
        "what may be asked": (live.request("OPTIONS", lines), 501),
    }


def refuses(tally: Tally, live: Live, line: dict[str, object]) -> None:
    """What is refused is told nothing but a status, and the session hears nothing of it."""
    before = live.script()
    # one that says nothing more keeps nobody else from an answer
    with socket.create_connection(("127.0.0.1", live.port)) as slow:
        slow.sendall(b"POST ")
        for name, (request, wanted) in {**by_address(live, line), **by_body(live, line)}.items():
            status, head, told = live.asks(request)
            tally.holds(status == wanted, name, status, wanted)
            tally.holds(live.token.encode() not in head + told, name, "the token is told", head)
            tally.holds(wanted == 501 or not told, name, "more than a status is told", told)
        tally.holds(live.script() == before, "the session heard what was refused", live.script())


def asks(tally: Tally) -> None:
    """Nobody is answered without the token, for another host or from another page; the page is served on the loopback
    address alone.
    """
    with Live(*OWN) as live:
        line: dict[str, object] = {"line": "crash 1", "epoch": 0, "have": 1}
        refuses(tally, live, line)
        status, head, told = live.asks(live.request("GET", f"/{live.token}/"))
        tally.holds(status == 200 and b"<title>A run of suites</title>" in told, "the page", status)
        for guard in (b"no-store", b"DENY", b"no-referrer", b"nosniff"):
            tally.holds(guard in head, "the head has", guard)
        policy = b"default-src 'none'; style-src 'sha256-"
        tally.holds(policy in told and b"connect-src 'self'" in told, "what the page may do")
        status, _, told = live.asks(live.posted(line, f"Origin: http://{live.host}"))
        tally.holds(status == 200 and json.loads(told)["script"][-1] == "crash 1", "its own page", status)
        with open("/proc/net/tcp", encoding="ascii") as file:
            seats = [words[1] for words in (one.split() for one in file) if words[3] == "0A"]
        tally.holds(f"0100007F:{live.port:04X}" in seats, "it listens on the loopback address", seats)
        tally.holds(f"00000000:{live.port:04X}" not in seats, "it listens for all", seats)
    with Live(*OWN) as again:
        tally.holds(again.token != live.token and len(again.token) > 40, "the token is another one", again.token)


def tells(tally: Tally) -> None:
    """What a line is answered is what `play` prints for the script that is saved; a name may come late, a fault and a
    question are no part of the script, and a journal is gone on with.
    """
    with tempfile.TemporaryDirectory() as folder:
        tells_in(tally, os.path.join(folder, "journal"))


def tells_in(tally: Tally, name: str) -> None:
    with Live(*OWN, "--journal", name) as live:
        answers = [live.tell(line) for line in STORY]
        script = live.script()
        told = {line: answer["told"] for line, answer in zip(STORY, answers) if line in (*ASKED, *FAULTY)}
        for line in FAULTY:
            is_told = told[line][0].endswith(": S1") and answers[STORY.index(line)]["wrong"].startswith("S1")
            tally.holds(is_told and line not in script, "a fault", told[line])
        for line in ASKED:
            tally.holds(told[line][0].startswith("row /plan file") and line not in script, "a question", told[line])
        lines = [one for line, answer in zip(STORY, answers) if line not in told for one in answer["told"]]
        text = "".join(f"{line}\n" for line in script).encode()
        printed = built.asked("play", text)[1].splitlines()
        tally.holds(printed == lines, "what is saved, played", printed, lines)
        tally.holds(any("denied op 1" in one for one in lines), "the story", lines)
        events = show.shown_of(text, 0, sys.maxsize).events[:-1]
        early = STORY.index("user lisa 2000")
        tally.holds([one["kept"] for one in answers].count(0) == 1 and not answers[early]["kept"], "events anew")
        all_of_them: list[str] = []
        for one in answers:
            all_of_them = [*all_of_them[: one["kept"]], *one["events"]] if one["kept"] else one["events"]
        tally.holds(all_of_them[1:] == events[1:], "the events are those of the script", len(all_of_them), len(events))
        live.have = 10**9
        tally.holds(live.tell("locks")["events"] == [], "one who has all")
    with Live(*OWN, "--journal", name) as live:
        again = [line for line in live.script() if not line.startswith("#")]
        tally.holds(sorted(again) == sorted(line for line in script if not line.startswith("#")), "the journal", again)
        tally.holds("nothing" not in live.tell("row /plan")["told"][0], "the journal's file", again)
    path = os.path.join(played.TOP, "examples", "play", "swept-clean.script")
    with Live("--script", path) as live:
        tally.holds(live.script() == text_of(path).splitlines(), "a script is begun with", live.script())


def ends(tally: Tally) -> None:
    """A session that has ended is told, and Ctrl-C ends all."""
    with Live(*OWN) as live:
        live.tell("begin 0 1000 100 0 file /a 644")
        os.kill(live.session(), signal.SIGKILL)
        told = live.tell("run 0")
        tally.holds("The session has ended" in told["ended"] and told["script"] == live.script(), "it ended", told)
        tally.holds("The session has ended" in live.tell("run 0")["ended"], "and is told again")
        page = live.asks(live.request("GET", f"/{live.token}/"))
        tally.holds(page[0] == 200 and b"The session has ended" in page[2], "the page tells it", page[0])
    for number in (signal.SIGINT, signal.SIGTERM):
        live = Live(*OWN)
        session, begun = live.session(), time.monotonic()
        live.child.send_signal(number)
        _, said = live.child.communicate(timeout=60)
        tally.holds(live.child.returncode == 0 and "Traceback" not in said, number.name, live.child.returncode, said)
        tally.holds(time.monotonic() - begun < 20 and not played.is_alive(session), number.name, "the session goes on")


if __name__ == "__main__":
    played.plays(__doc__, "looked at", asks, tells, ends, most=20, width=600)
