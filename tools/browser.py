"""Leads a browser without a window, for `tools/try_classroom` and `tools/try_workbench`. Chromium or Chrome must be on
the path. It is led by its DevTools protocol over two pipes."""

import base64
import json
import os
import select
import shutil
import subprocess
import time

BROWSERS = ["chromium", "chromium-browser", "google-chrome", "google-chrome-stable"]
FLAGS = ["--headless", "--no-sandbox", "--disable-gpu", "--hide-scrollbars", "--no-first-run",
         "--remote-debugging-pipe"]
KEY_CODES = {"Tab": 9, "Enter": 13, "End": 35, "Home": 36, "ArrowLeft": 37, "ArrowRight": 39, "Delete": 46, "F8": 119}
TEXTS = {"Enter": "\r"}
CONTROL, SHIFT = 2, 8
PATIENCE = 60


class Wrong(Exception):
    """A page isn't as it should be. The argument says how."""


def find_browser():
    """The browser's name, or None."""
    return next(filter(None, map(shutil.which, BROWSERS)), None)


class Browser:
    """A browser that is sent commands over a pipe, and answers over another. Each message ends with a byte of 0."""

    def __init__(self, program, work):
        ask_read, self.ask = os.pipe()
        self.answer, answer_write = os.pipe()
        words = [program, *FLAGS, f"--user-data-dir={work}/profile", "about:blank"]
        leads = f'exec "$@" 3<&{ask_read} 4>&{answer_write}'
        self.process = subprocess.Popen(["bash", "-c", leads, "bash", *words], pass_fds=(ask_read, answer_write),
                                        stdout=subprocess.DEVNULL, stderr=subprocess.DEVNULL)
        os.close(ask_read)
        os.close(answer_write)
        self.number, self.session, self.rest, self.events = 0, None, b"", []

    def message(self):
        while b"\0" not in self.rest:
            if not select.select([self.answer], [], [], PATIENCE)[0]:
                raise Wrong(f"the browser hasn't answered for {PATIENCE} seconds")
            part = os.read(self.answer, 1 << 20)
            if not part:
                raise Wrong("the browser ended")
            self.rest += part
        text, self.rest = self.rest.split(b"\0", 1)
        return json.loads(text)

    def send(self, method, **values):
        """Sends a command, and returns its result. Events that come meanwhile are kept."""
        self.number += 1
        asked = {"id": self.number, "method": method, "params": values}
        if self.session:
            asked["sessionId"] = self.session
        os.write(self.ask, json.dumps(asked).encode() + b"\0")
        while True:
            answer = self.message()
            if answer.get("id") == self.number:
                return self.result_of(answer, method)
            self.events.append(answer)

    @staticmethod
    def result_of(answer, method):
        if "error" in answer:
            raise Wrong(f"{method}: {answer['error']['message']}")
        return answer["result"]

    def wait(self, method):
        while all(event.get("method") != method for event in self.events):
            self.events.append(self.message())

    def open(self, address, width, height):
        """Opens the address in a tab of its own, of that size, and waits until it is loaded."""
        self.session, self.events = None, []
        target = self.send("Target.createTarget", url="about:blank")["targetId"]
        self.session = self.send("Target.attachToTarget", targetId=target, flatten=True)["sessionId"]
        for domain in ("Page", "Runtime", "Log", "Network"):
            self.send(f"{domain}.enable")
        self.send("Emulation.setDeviceMetricsOverride", width=width, height=height, deviceScaleFactor=1, mobile=False)
        self.go(address)

    def go(self, address):
        self.events = []
        self.send("Page.navigate", url=address)
        self.wait("Page.loadEventFired")

    def press(self, key, modifiers=0):
        """Presses a key, and lets it go. `modifiers` is CONTROL, SHIFT, or both added up."""
        code = KEY_CODES.get(key, ord(key[0].upper()))
        values = {"key": key, "code": key, "windowsVirtualKeyCode": code, "modifiers": modifiers}
        typed = {} if modifiers & CONTROL or key not in TEXTS else {"text": TEXTS[key]}
        self.send("Input.dispatchKeyEvent", type="keyDown" if typed else "rawKeyDown", **values, **typed)
        self.send("Input.dispatchKeyEvent", type="keyUp", **values)

    def click(self, x, y, times=1):
        """Clicks so often with the mouse at that point of the window."""
        for count in range(1, times + 1):
            self.mouse("mousePressed", x, y, count)
            self.mouse("mouseReleased", x, y, count)

    def drag(self, start, end):
        """Goes with the mouse from a point of the window to another, with its button held down."""
        self.mouse("mousePressed", *start)
        self.mouse("mouseMoved", *end)
        self.mouse("mouseReleased", *end)

    def mouse(self, kind, x, y, count=1):
        self.send("Input.dispatchMouseEvent", type=kind, x=x, y=y, button="left", clickCount=count)

    def type(self, text):
        """Types the text where the cursor is."""
        self.send("Input.insertText", text=text)

    def value(self, expression):
        """What an expression of the page comes to, waited for where it is a promise."""
        answer = self.send("Runtime.evaluate", expression=expression, awaitPromise=True, returnByValue=True)
        if "exceptionDetails" in answer:
            raise Wrong(f"{expression}: {json.dumps(answer['exceptionDetails'])[:300]}")
        return answer["result"].get("value")

    def until(self, expression, what, seconds=PATIENCE):
        """Waits until the expression is true of the page, and returns what it comes to."""
        ends = time.monotonic() + seconds
        while time.monotonic() < ends:
            value = self.value(expression)
            if value:
                return value
            time.sleep(0.02)
        raise Wrong(f"{what} hasn't come in {seconds} seconds")

    def picture(self):
        return base64.b64decode(self.send("Page.captureScreenshot", format="png")["data"])

    def errors(self):
        """What the console has of errors."""
        for event in self.events:
            method, values = event.get("method"), event.get("params", {})
            level = values.get("type") or values.get("entry", {}).get("level")
            is_told = method in ("Runtime.consoleAPICalled", "Log.entryAdded") and level == "error"
            if is_told or method == "Runtime.exceptionThrown":
                yield json.dumps(values)[:300]

    def addresses(self):
        """All addresses that were asked for since the page was opened."""
        asked = (event for event in self.events if event.get("method") == "Network.requestWillBeSent")
        return [event["params"]["request"]["url"] for event in asked]

    def __enter__(self):
        return self

    def __exit__(self, *_):
        self.process.terminate()
        self.process.wait()
