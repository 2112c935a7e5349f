"""A browser without a window, driven through the pipes of its debugging protocol."""

import fcntl
import json
import os
import select
import shutil
import subprocess
import tempfile
import unittest

from tests.served import LONGEST

NAMES = ("chromium", "chromium-browser", "google-chrome", "chrome")
KEYS = {"Tab": 9, "Enter": 13, "ArrowLeft": 37, "ArrowUp": 38, "ArrowRight": 39, "ArrowDown": 40}


def find_browser():
    """Returns the path of a browser, or None."""
    return next((found for found in map(shutil.which, NAMES) if found), None)


needs_browser = unittest.skipUnless(find_browser(), "no chromium is installed, so pages are not looked at in a browser")


class Browser:
    """Holds one page of a browser; `ask` sends a command of the protocol and returns its answer."""

    def __init__(self):
        self.folder = tempfile.TemporaryDirectory()
        ours, theirs = os.pipe(), os.pipe()

        def at_3_and_4():
            high = [fcntl.fcntl(end, fcntl.F_DUPFD, 10) for end in (ours[0], theirs[1])]
            os.dup2(high[0], 3)
            os.dup2(high[1], 4)

        self.process = subprocess.Popen(
            [find_browser(), "--headless", "--no-sandbox", "--disable-gpu", "--remote-debugging-pipe", "--no-first-run",
             f"--user-data-dir={self.folder.name}", "about:blank"], preexec_fn=at_3_and_4, pass_fds=(3, 4),
            stdin=subprocess.DEVNULL, stdout=subprocess.DEVNULL, stderr=subprocess.DEVNULL)
        os.close(ours[0])
        os.close(theirs[1])
        self.to, self.of, self.held = ours[1], theirs[0], b""
        self.number, self.session, self.seen = 0, None, []
        target = self.ask("Target.createTarget", url="about:blank")["targetId"]
        self.session = self.ask("Target.attachToTarget", targetId=target, flatten=True)["sessionId"]
        self.ask("Page.enable")

    def __enter__(self):
        return self

    def __exit__(self, *_):
        """Ends the browser."""
        self.process.kill()
        self.process.wait()
        os.close(self.to)
        os.close(self.of)
        for _ in range(20):
            try:
                self.folder.cleanup()
                return
            except OSError:
                continue

    def read(self):
        """Reads one message."""
        while b"\0" not in self.held:
            if not select.select([self.of], [], [], LONGEST)[0]:
                raise AssertionError("the browser does not answer")
            more = os.read(self.of, 1 << 20)
            if not more:
                raise AssertionError("the browser has ended")
            self.held += more
        message, self.held = self.held.split(b"\0", 1)
        return json.loads(message.decode("utf-8"))

    def ask(self, method, **words):
        """Sends a command, and returns what it is answered."""
        self.number += 1
        message = {"id": self.number, "method": method, "params": words}
        if self.session:
            message["sessionId"] = self.session
        os.write(self.to, json.dumps(message).encode("utf-8") + b"\0")
        while True:
            answer = self.read()
            if answer.get("id") == self.number:
                if "error" in answer:
                    raise AssertionError(f"{method}: {answer['error']}")
                return answer["result"]
            self.seen.append(answer.get("method"))

    def open(self, path, width=1200, dark=False):
        """Shows a file in a window of a width, in light or dark colours."""
        self.ask("Emulation.setDeviceMetricsOverride", width=width, height=800, deviceScaleFactor=1, mobile=width < 600)
        self.ask("Emulation.setEmulatedMedia", features=[{"name": "prefers-color-scheme", "value": "dark" if dark else "light"}])
        self.seen = []
        self.ask("Page.navigate", url="file://" + path)
        while "Page.loadEventFired" not in self.seen:
            self.seen.append(self.read().get("method"))

    def value(self, expression):
        """Returns the value of an expression in the page."""
        told = self.ask("Runtime.evaluate", expression=expression, returnByValue=True)
        if "exceptionDetails" in told:
            raise AssertionError(told["exceptionDetails"])
        return told["result"].get("value")

    def press(self, *keys):
        """Presses keys, one after the other."""
        for key in keys:
            words = {"key": key, "code": key, "windowsVirtualKeyCode": KEYS[key]}
            if key == "Enter":
                words["text"] = "\r"
            self.ask("Input.dispatchKeyEvent", type="keyDown", **words)
            self.ask("Input.dispatchKeyEvent", type="keyUp", **{name: value for name, value in words.items() if name != "text"})

    def click(self, expression):
        """Clicks on the middle of an element."""
        x, y = self.value(f"(() => {{ const at = ({expression}).getBoundingClientRect();"
                          " return [at.x + at.width / 2, at.y + at.height / 2]; })()")
        for kind in ("mousePressed", "mouseReleased"):
            self.ask("Input.dispatchMouseEvent", type=kind, x=x, y=y, button="left", clickCount=1)
