"""A session on a page, for `./suites show --live`: the page of the run so far is served, what is clicked on it is a
line of the session, and the run goes on by that.

It is served on the loopback address alone, and to nobody who does not know the address: that has a random token, and a
request without it, or for another host than that, is answered nothing. So another user of this machine does not come to
it, nor another page of the same browser. What is sent is bounded. The session decides all; the events of the run are
those that `trace` tells of the script so far, names first.
"""
import argparse
import contextlib
import dataclasses
import hmac
import http.server
import json
import secrets
import sys
import threading
import typing

from common import console, forms
from explain import explain
from show import show
from mount import beginning, words
from mount.beginning import word_of
from mount.talking import Ended, Session

LOOPBACK = "127.0.0.1"
# The most bytes of a request: a line may write a whole file, in hexadecimal digits. And the seconds that it may take.
MOST_BODY, PATIENCE = 200_000, 30
# So many seconds the session may take to end.
CLOSING = 2
# Nothing is kept, framed, guessed or sent on of what is answered.
GUARDS = {
    "Cache-Control": "no-store",
    "Content-Security-Policy": "frame-ancestors 'none'",
    "Cross-Origin-Opener-Policy": "same-origin",
    "Cross-Origin-Resource-Policy": "same-origin",
    "Referrer-Policy": "no-referrer",
    "X-Content-Type-Options": "nosniff",
    "X-Frame-Options": "DENY",
}
PAGE, SCRIPT, LINE = "", "script", "line"
SENDS_ON = '<!DOCTYPE html><meta http-equiv="refresh" content="0; url={}"><a href="{}">the page</a>\n'


class Refused(Exception):
    """A request that is answered nothing but a status."""

    def __init__(self, status: int) -> None:
        super().__init__(status)
        self.status = status


@dataclasses.dataclass
class Told:
    """What came of a line: what the session told, what was wrong with it, and whether nothing more can be asked; and
    how the run goes on: so many of its events stand, and behind them are these.
    """

    told: list[str]
    wrong: str
    ended: str
    epoch: int
    kept: int
    events: list[str]
    script: list[str]
    whys: dict[str, list[str]]


class Desk:
    """A session with all that it was told, and the events of its run."""

    def __init__(self, session: Session, lines: list[str]) -> None:
        self.session, self.lines, self.ended, self.epoch = session, lines, "", 0
        self.events, self.whys = self.traced()
        # one line after the other, whoever asks
        self.lock = threading.Lock()

    def script(self) -> list[str]:
        return beginning.as_played(self.lines)

    def text(self) -> bytes:
        return "".join(f"{line}\n" for line in self.script()).encode()

    def traced(self) -> tuple[list[str], dict[str, list[str]]]:
        """The events so far, without what tells that the script is played to its end, and why jobs ended so."""
        try:
            shown = show.shown_of(self.text(), 0, sys.maxsize)
            return shown.events[:-1], shown.whys
        except SystemExit as end:
            raise console.Stop(f"the script so far cannot be traced: status {end.code}") from None

    def tell(self, line: str, epoch: int, have: int) -> Told:
        """Gives the session a line. Whoever asks has so many events of those that were told since a name was."""
        with self.lock:
            told, wrong = ([], "") if self.ended else self.given(line)
            kept = min(have, len(self.events)) if epoch == self.epoch else 0
            return Told(told, wrong, self.ended, self.epoch, kept, self.events[kept:], self.script(), self.whys)

    def given(self, line: str) -> tuple[list[str], str]:
        """What the session tells of a line, and what is wrong with it."""
        try:
            told = self.session.tell(line)[0]
        except Ended:
            self.end(f"The session has ended; the script so far can be saved: {self.session.ended()}.")
            return [], ""
        fault = next((one for one in told if one.startswith("fault ")), "")
        if fault == "fault memory":
            self.end("The session was out of memory in this line: begin another one.")
        elif not fault and beginning.is_kept(line):
            self.keep(line)
        return told, explain.meaning(fault.rpartition(" ")[2]) or fault

    def keep(self, line: str) -> None:
        """A line of the script: the run goes on by it, and begins anew where it is a name below what happened."""
        self.lines.append(line)
        if word_of(line) in beginning.NAMES:
            self.epoch += 1
        try:
            self.events, self.whys = self.traced()
        except console.Stop as why:
            self.end(f"The page ends here: {why}.")

    def end(self, why: str) -> None:
        self.ended = why
        console.Teller().say(why)

    def page(self) -> bytes:
        with self.lock:
            root = next(line.split() for line in self.lines if word_of(line) == "root")
            more = {
                "epoch": self.epoch, "ended": self.ended, "user": root[1], "groups": root[2],
                "operations": [operation.form() for operation in forms.OPERATIONS.values()],
            }
            besides = show.Besides("live.js", "live", more, True)
            return show.page_of(self.text(), show.Shown(self.events, None, self.whys), besides).encode()


class Server(http.server.ThreadingHTTPServer):
    """Serves a page on the loopback address, behind a token."""

    daemon_threads, block_on_close = True, False

    def __init__(self, desk: Desk) -> None:
        super().__init__((LOOPBACK, 0), Handler)
        self.desk, self.token = desk, secrets.token_urlsafe(32)
        self.host = f"{LOOPBACK}:{self.server_address[1]}"

    def address(self) -> str:
        return f"http://{self.host}/{self.token}/"

    def handle_error(self, request: object, client_address: object) -> None:
        """Whoever asked may be gone; the next one is served."""
        error = sys.exc_info()[1]
        if not isinstance(error, OSError):
            console.Teller().say(f"a request could not be answered: {error!r}")


class Handler(http.server.BaseHTTPRequestHandler):
    """A request: for the page, for the script so far, or with a line."""

    server: Server
    protocol_version, server_version, sys_version, timeout = "HTTP/1.1", "suites", "", PATIENCE

    def log_message(self, *_: object) -> None:
        """Nothing is told of requests: their addresses have the token."""

    def asked(self) -> str:
        """What is asked for, by who may ask. Of all others the address is not even looked at."""
        own = f"http://{self.server.host}"
        if self.headers.get_all("Host") != [self.server.host] or self.headers.get("Origin", own) != own:
            raise Refused(403)
        parts = self.path.encode("latin1", "replace").split(b"/", 2)
        if len(parts) != 3 or not hmac.compare_digest(parts[1], self.server.token.encode()):
            raise Refused(404)
        return parts[2].decode("latin1")

    def body(self) -> typing.Any:
        """What was sent, which is bounded."""
        length = self.headers.get("Content-Length", "")
        if "Transfer-Encoding" in self.headers or not (length.isascii() and length.isdigit() and len(length) < 10):
            raise Refused(411)
        if int(length) > MOST_BODY:
            raise Refused(413)
        if self.headers.get_content_type() != "application/json":
            raise Refused(415)
        try:
            return json.loads(self.rfile.read(int(length)))
        except (ValueError, RecursionError):
            raise Refused(400) from None

    def line(self) -> bytes:
        given = self.body()
        names = given if isinstance(given, dict) else {}
        line, epoch, have = (names.get(name) for name in ("line", "epoch", "have"))
        if not isinstance(line, str) or not isinstance(epoch, int) or not isinstance(have, int) or have < 0:
            raise Refused(400)
        if not line.replace("\t", "").isprintable():
            raise Refused(400)
        return json.dumps(dataclasses.asdict(self.server.desk.tell(line, epoch, have))).encode()

    def send(self, status: int, kind: str, text: bytes, **more: str) -> None:
        self.send_response(status)
        for name, value in {"Content-Type": kind, "Content-Length": str(len(text)), **GUARDS, **more}.items():
            self.send_header(name, value)
        self.end_headers()
        self.wfile.write(text)

    def answered(self, answers: dict[str, tuple[str, typing.Callable[[], bytes]]]) -> None:
        try:
            asked = self.asked()
            if asked not in answers:
                raise Refused(404)
            kind, text = answers[asked][0], answers[asked][1]()
        except Refused as why:
            # what was sent with it is not read, so nothing more can be asked by this way
            self.close_connection = True
            self.send(why.status, "text/plain", b"", Connection="close")
        else:
            self.send(200, kind, text)

    def do_GET(self) -> None:
        desk = self.server.desk
        self.answered({PAGE: ("text/html; charset=utf-8", desk.page), SCRIPT: ("text/plain; charset=utf-8", desk.text)})

    def do_POST(self) -> None:
        self.answered({LINE: ("application/json", self.line)})


def main(given: argparse.Namespace) -> int:
    words.check(given)
    session, lines = beginning.begin(given, is_ended=False)
    try:
        with contextlib.suppress(KeyboardInterrupt), Server(Desk(session, lines)) as server:
            console.Teller().say("the page is served until Ctrl-C; who knows its address may give the session lines")
            print(server.address(), flush=True)
            # a file sends on there: what stands in a command line is seen by all
            if given.open and not show.opened(SENDS_ON.format(*2 * [server.address()])):
                console.Teller().say("no browser is found here: open the address with one")
            server.serve_forever(poll_interval=0.2)
    finally:
        session.close(CLOSING)
    return 0
