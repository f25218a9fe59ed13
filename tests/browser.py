"""A headless Chromium that a test drives: the protocol of its developer tools goes over two pipes."""
import contextlib
import json
import os
import select
import shutil
import subprocess
import tempfile
import time
from collections.abc import Iterator
from typing import Any

from played import Tally

NAMES = ("chromium", "chromium-browser", "google-chrome")
# How long an answer of the browser may take, and how much of it is read at once.
PATIENCE, PIECE = 60, 1 << 16
KEYS = {"Enter": 13, "ArrowRight": 39, "ArrowLeft": 37, "Home": 36, "End": 35, " ": 32, "Tab": 9, "Escape": 27}


@contextlib.contextmanager
def opened(tally: Tally) -> Iterator["Browser | None"]:
    """A browser, whose console is to have no fault; none where none is installed, which is said."""
    path: str | None = next(filter(None, map(shutil.which, NAMES)), None)
    if not path:
        print("skipped: no chromium")
        yield None
        return
    driver = Browser(path)
    try:
        yield driver
        tally.holds(not driver.faults, "the console has faults", driver.faults[:3])
    finally:
        driver.close()


class Browser:
    """A browser with one page."""

    def __init__(self, path: str, width: int = 1280, height: int = 720) -> None:
        self.profile = tempfile.TemporaryDirectory()
        theirs, self.out = os.pipe()
        self.into, own = os.pipe()
        words = [path, "--headless=new", "--no-sandbox", "--disable-gpu", "--remote-debugging-pipe",
                 "--hide-scrollbars", f"--user-data-dir={self.profile.name}", f"--window-size={width},{height}",
                 "--disable-dev-shm-usage", "--no-first-run", "--disable-background-networking", "about:blank"]
        # the browser reads descriptor 3, and writes descriptor 4
        shell = ["sh", "-c", f'exec "$@" 3<&{theirs} 4>&{own}', "sh", *words]
        silent = subprocess.DEVNULL
        self.process = subprocess.Popen(shell, pass_fds=(theirs, own), stdout=silent, stderr=silent)
        os.close(theirs)
        os.close(own)
        self.number, self.held, self.faults = 0, b"", list[str]()
        target = self.ask("Target.createTarget", {"url": "about:blank"})["targetId"]
        self.session = None
        self.session = self.ask("Target.attachToTarget", {"targetId": target, "flatten": True})["sessionId"]
        for domain in ("Runtime", "Log", "Page"):
            self.ask(f"{domain}.enable")
        self.size(width, height)

    session: str | None = None

    def close(self) -> None:
        with contextlib.suppress(OSError):
            os.close(self.out)
            os.close(self.into)
        self.process.terminate()
        try:
            self.process.wait(10)
        except subprocess.TimeoutExpired:
            self.process.kill()
            self.process.wait()
        with contextlib.suppress(OSError):
            self.profile.cleanup()

    def messages(self) -> Iterator[dict]:
        """What the browser says, as it comes."""
        end = time.monotonic() + PATIENCE
        while True:
            while b"\0" in self.held:
                text, _, self.held = self.held.partition(b"\0")
                yield json.loads(text)
            if not select.select([self.into], [], [], max(0, end - time.monotonic()))[0]:
                raise TimeoutError("the browser does not answer")
            piece = os.read(self.into, PIECE)
            if not piece:
                raise ConnectionError("the browser ended")
            self.held += piece

    def ask(self, method: str, how: dict | None = None) -> dict:
        """Asks the browser for something, and waits for its answer. Faults of the page are kept."""
        self.tell(method, how)
        for said in self.messages():
            if said.get("id") == self.number:
                if "error" in said:
                    raise RuntimeError(f"{method}: {said['error']}")
                return said["result"]
            self.hear(said)
        raise ConnectionError

    def tell(self, method: str, how: dict | None = None) -> None:
        """Asks the browser for something whose answer nobody waits for."""
        self.number += 1
        asked = {"id": self.number, "method": method, "params": how or {}}
        if self.session:
            asked["sessionId"] = self.session
        told = json.dumps(asked).encode() + b"\0"
        while told:
            told = told[os.write(self.out, told):]

    def hear(self, said: dict) -> None:
        what, about = said.get("method"), said.get("params", {})
        if what == "Runtime.exceptionThrown":
            self.faults.append(str(about["exceptionDetails"].get("exception", about["exceptionDetails"])))
        elif what == "Runtime.consoleAPICalled" and about["type"] in ("error", "warning", "assert"):
            self.faults.append(str(about["args"]))
        elif what == "Log.entryAdded" and about["entry"]["level"] == "error":
            self.faults.append(about["entry"]["text"])
        elif what == "Page.javascriptDialogOpening":
            self.faults.append(f"a dialog: {about['message']}")

    def open(self, path: str) -> None:
        """Opens a file, or an address."""
        self.ask("Page.navigate", {"url": path if "://" in path else f"file://{path}"})
        while self.value("document.readyState") != "complete":
            time.sleep(0.02)

    def value(self, text: str) -> Any:
        """What an expression comes to on the page."""
        done = self.ask("Runtime.evaluate", {"expression": text, "returnByValue": True, "awaitPromise": True})
        if "exceptionDetails" in done:
            raise RuntimeError(str(done["exceptionDetails"]))
        return done["result"].get("value")

    def press(self, key: str, times: int = 1) -> None:
        how = {"key": key, "code": "Space" if key == " " else key, "windowsVirtualKeyCode": KEYS[key]}
        how |= {"text": {" ": " ", "Enter": "\r"}[key]} if key in (" ", "Enter") else {}
        for place in range(times):
            self.tell("Input.dispatchKeyEvent", {"type": "keyDown", **how})
            told = self.ask if place % 16 == 15 or place == times - 1 else self.tell
            told("Input.dispatchKeyEvent", {"type": "keyUp", **how})

    def click(self, selector: str) -> None:
        """Clicks the middle of an element."""
        box = self.value(f"(() => {{ const e = document.querySelector({json.dumps(selector)});"
                         " e.scrollIntoView({block: 'nearest'}); const b = e.getBoundingClientRect();"
                         " return [b.left + b.width / 2, b.top + b.height / 2]; })()")
        for kind in ("mousePressed", "mouseReleased"):
            how = {"type": kind, "x": box[0], "y": box[1], "button": "left", "clickCount": 1}
            self.ask("Input.dispatchMouseEvent", how)

    def size(self, width: int, height: int) -> None:
        how = {"width": width, "height": height, "deviceScaleFactor": 1, "mobile": False}
        self.ask("Emulation.setDeviceMetricsOverride", how)