"""Chromium without a window, told what to do by the DevTools protocol over a pipe, for the scripts beside this file."""
import base64
import json
import os
import select
import shutil
import subprocess
import tempfile
import time

PROGRAMS = ["chromium", "chromium-browser", "google-chrome"]
WORDS = ["--headless", "--no-sandbox", "--disable-gpu", "--hide-scrollbars",
         "--no-first-run", "--remote-debugging-pipe"]
LIMIT = 60  # seconds for an answer


class Failed(Exception):
    """What the browser or the page did otherwise than it had to."""


def found():
    """The browser's program, or None where there is none."""
    return next(filter(None, map(shutil.which, PROGRAMS)), None)


class Browser:
    """A browser with one page. It keeps what the page logs as errors, and the addresses that it asks for."""

    def __init__(self, program):
        self.folder = tempfile.mkdtemp(prefix="browser-")
        ask_read, self.ask = os.pipe()
        self.told, told_write = os.pipe()
        command = [program, *WORDS, f"--user-data-dir={self.folder}", "about:blank"]
        # the browser reads questions from its descriptor 3 and writes answers to 4
        shell = ["sh", "-c", f'exec 3<&{ask_read} 4>&{told_write}; exec "$@"', "sh", *command]
        self.child = subprocess.Popen(
            shell, pass_fds=(ask_read, told_write), stdout=subprocess.DEVNULL, stderr=subprocess.DEVNULL
        )
        os.close(ask_read)
        os.close(told_write)
        self.rest, self.count, self.session = b"", 0, None
        self.errors, self.asked, self.events = [], [], []
        target = self.call("Target.createTarget", url="about:blank")["targetId"]
        self.session = self.call("Target.attachToTarget", targetId=target, flatten=True)["sessionId"]
        for domain in ("Page", "Runtime", "Log", "Network"):
            self.call(f"{domain}.enable")

    def __enter__(self):
        return self

    def __exit__(self, *_):
        self.session = None
        try:
            self.call("Browser.close")
            self.child.wait(timeout=LIMIT)
        except (Failed, OSError, subprocess.TimeoutExpired):
            self.child.kill()
            self.child.wait()
        os.close(self.ask)
        os.close(self.told)
        shutil.rmtree(self.folder, ignore_errors=True)

    def call(self, method, **params):
        """The answer to a question."""
        self.count += 1
        asked = {"id": self.count, "method": method, "params": params}
        if self.session:
            asked["sessionId"] = self.session
        os.write(self.ask, json.dumps(asked).encode() + b"\0")
        until = time.monotonic() + LIMIT
        while True:
            message = self.message(until)
            if message.get("id") == self.count:
                if "error" in message:
                    raise Failed(f"{method}: {message['error']}")
                return message["result"]

    def message(self, until):
        """The next message, noted where it is an event."""
        while b"\0" not in self.rest:
            if not select.select([self.told], [], [], max(0, until - time.monotonic()))[0]:
                raise Failed("the browser is silent")
            piece = os.read(self.told, 1 << 20)
            if not piece:
                raise Failed("the browser has ended")
            self.rest += piece
        text, self.rest = self.rest.split(b"\0", 1)
        message = json.loads(text)
        self.note(message)
        return message

    def note(self, message):
        method, params = message.get("method"), message.get("params", {})
        self.events.append(method)
        if method == "Runtime.exceptionThrown":
            details = params["exceptionDetails"]
            self.errors.append(details.get("exception", {}).get("description") or details["text"])
        elif method == "Runtime.consoleAPICalled" and params["type"] in ("error", "warning", "assert"):
            self.errors.append(" ".join(str(arg.get("value", arg)) for arg in params["args"]))
        elif method == "Log.entryAdded" and params["entry"]["level"] in ("error", "warning"):
            self.errors.append(params["entry"]["text"])
        elif method == "Network.requestWillBeSent":
            self.asked.append(params["request"]["url"])

    def open(self, path):
        """Opens a file and waits until it has loaded."""
        self.events.clear()
        self.asked.clear()
        self.call("Page.navigate", url="file://" + os.path.abspath(path))
        until = time.monotonic() + LIMIT
        while "Page.loadEventFired" not in self.events:
            self.message(until)
        self.frame()

    def frame(self):
        """Waits until the page has drawn what it was asked to."""
        self.value("new Promise((done) => requestAnimationFrame(() => requestAnimationFrame(done)))")

    def value(self, script):
        """What a script in the page gives."""
        answer = self.call("Runtime.evaluate", expression=script, awaitPromise=True, returnByValue=True)
        if "exceptionDetails" in answer:
            raise Failed(f"{script}: {answer['exceptionDetails']}")
        return answer["result"].get("value")

    def size(self, wide, tall, is_phone=False, scheme="dark"):
        """The size of the page's window, and whether light or dark colours are asked for."""
        scale = 2 if is_phone else 1
        screen = {"width": wide, "height": tall, "deviceScaleFactor": scale, "mobile": is_phone}
        self.call("Emulation.setDeviceMetricsOverride", **screen)
        self.call("Emulation.setTouchEmulationEnabled", enabled=is_phone)
        self.call("Emulation.setEmulatedMedia", features=[{"name": "prefers-color-scheme", "value": scheme}])
        self.frame()

    def key(self, name):
        for kind in ("rawKeyDown", "keyUp"):
            self.call("Input.dispatchKeyEvent", type=kind, key=name, code=name, windowsVirtualKeyCode=KEYS.get(name, 0))
        self.frame()

    def mouse(self, kind, x, y, **more):
        self.call("Input.dispatchMouseEvent", type=kind, x=x, y=y, **more)

    def click(self, x, y):
        self.mouse("mousePressed", x, y, button="left", clickCount=1)
        self.mouse("mouseReleased", x, y, button="left", clickCount=1)
        self.frame()

    def tap(self, x, y):
        """A finger that touches the page and leaves it."""
        self.call("Input.dispatchTouchEvent", type="touchStart", touchPoints=[{"x": x, "y": y}])
        self.call("Input.dispatchTouchEvent", type="touchEnd", touchPoints=[])
        self.frame()

    def picture(self, path):
        """Writes a picture of what the window shows."""
        with open(path, "wb") as file:
            file.write(base64.b64decode(self.call("Page.captureScreenshot", format="png")["data"]))

    def print(self, path):
        """Prints the page to a PDF file."""
        with open(path, "wb") as file:
            file.write(base64.b64decode(self.call("Page.printToPDF", printBackground=True)["data"]))


KEYS = {"ArrowUp": 38, "ArrowDown": 40, "ArrowLeft": 37, "ArrowRight": 39, "Enter": 13}
