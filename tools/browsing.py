"""A browser without a window, for the tests of pages: Chromium, or Chrome."""
import base64
import contextlib
import fcntl
import json
import os
import pathlib
import select
import shutil
import subprocess
import time

BROWSERS = ("chromium", "chromium-browser", "google-chrome", "google-chrome-stable")
OPTIONS = ("--headless", "--no-sandbox", "--disable-gpu", "--no-first-run", "--hide-scrollbars", "--remote-debugging-pipe",
           "--window-size=1400,900")
SECONDS = 60
CODES = {"Tab": 9, "Enter": 13, "Escape": 27, "End": 35, "Home": 36, "ArrowLeft": 37, "ArrowUp": 38, "ArrowRight": 39, "ArrowDown": 40, "PageUp": 33,
         "PageDown": 34, " ": 32, "z": 90}


class Failed(Exception):
    """Says what failed."""


class Browser:
    """A browser that takes its orders over two pipes, its file descriptors 3 and 4."""

    def __init__(self, program, folder):
        to_it, from_it = os.pipe(), os.pipe()
        # Descriptors that are none of those that the browser is to have.
        given = [fcntl.fcntl(it, fcntl.F_DUPFD, 10) for it in (to_it[0], from_it[1])]
        words = [program, *OPTIONS, f"--user-data-dir={folder}"]
        command = ["bash", "-c", f'exec "$@" 3<&{given[0]} 4>&{given[1]}', "bash", *words]
        self.process = subprocess.Popen(command, pass_fds=given, stdin=subprocess.DEVNULL, stdout=subprocess.DEVNULL, stderr=subprocess.DEVNULL)
        for it in (*given, to_it[0], from_it[1]):
            os.close(it)
        self.to_it, self.from_it = to_it[1], from_it[0]
        self.read, self.count, self.session, self.events = b"", 0, None, []

    def message(self, until):
        """Returns the next message."""
        while b"\0" not in self.read:
            ready, _, _ = select.select([self.from_it], [], [], max(until - time.monotonic(), 0))
            part = os.read(self.from_it, 1 << 20) if ready else b""
            if not part:
                raise Failed("the browser does not answer")
            self.read += part
        text, _, self.read = self.read.partition(b"\0")
        return json.loads(text)

    def ask(self, method, **arguments):
        """Has the browser do something, and returns its answer."""
        self.count += 1
        message = {"id": self.count, "method": method, "params": arguments} | ({"sessionId": self.session} if self.session else {})
        try:
            os.write(self.to_it, json.dumps(message).encode() + b"\0")
        except OSError as error:
            raise Failed(f"the browser has ended: {error}") from None
        until = time.monotonic() + SECONDS
        while True:
            answer = self.message(until)
            if answer.get("id") == self.count:
                break
            self.events.append(answer)
        if "error" in answer:
            raise Failed(f"{method}: {answer['error']}")
        return answer["result"]

    def open(self, address, is_ready):
        """Opens an address, and waits until a condition holds on the page."""
        if not self.session:
            target = self.ask("Target.createTarget", url="about:blank")["targetId"]
            self.session = self.ask("Target.attachToTarget", targetId=target, flatten=True)["sessionId"]
            for it in ("Network", "Page", "Runtime"):
                self.ask(f"{it}.enable")
        self.events = []
        self.ask("Page.navigate", url=address)
        self.wait(f"document.readyState === 'complete' && {is_ready}", f"{address} is not loaded")

    def wait(self, condition, what):
        """Waits until a condition holds on the page."""
        until = time.monotonic() + SECONDS
        while self.value(f"!!({condition})") != "true":
            if time.monotonic() > until:
                raise Failed(what)
            time.sleep(0.05)

    def be(self, width, height, scheme):
        """Sets how large the page is, and whether it is light or dark."""
        self.ask("Emulation.setDeviceMetricsOverride", width=width, height=height, deviceScaleFactor=1, mobile=False)
        self.ask("Emulation.setEmulatedMedia", features=[{"name": "prefers-color-scheme", "value": scheme}])

    def value(self, expression):
        """Returns the value of an expression on the page, as JSON."""
        answer = self.ask("Runtime.evaluate", expression=f"JSON.stringify({expression})", returnByValue=True)
        if "exceptionDetails" in answer:
            return answer["exceptionDetails"].get("text", "")
        return answer["result"].get("value")

    def press(self, key, modifiers=0, **more):
        """Presses a key, with the modifiers of the protocol: 1 Alt, 2 Ctrl, 8 Shift."""
        for kind in ("rawKeyDown", "keyUp"):
            self.ask("Input.dispatchKeyEvent", type=kind, key=key, code=more.get("code", key), modifiers=modifiers, **({"windowsVirtualKeyCode": CODES[key]} if key in CODES else {}))

    def write(self, text):
        """Types a text."""
        self.ask("Input.insertText", text=text)

    def click(self, selector):
        """Clicks at the middle of what a selector finds."""
        box = json.loads(self.value(f"(it => {{ const b = it.getBoundingClientRect(); return [b.x + b.width / 2, b.y + b.height / 2]; }})"
                                    f"(document.querySelector({json.dumps(selector)}))"))
        for kind in ("mousePressed", "mouseReleased"):
            self.ask("Input.dispatchMouseEvent", type=kind, x=box[0], y=box[1], button="left", clickCount=1)

    def shot(self, path):
        """Writes a picture of the page to a file."""
        pathlib.Path(path).write_bytes(base64.b64decode(self.ask("Page.captureScreenshot", format="png")["data"]))

    def end(self):
        """Ends the browser."""
        with contextlib.suppress(Failed):
            self.session = None
            self.ask("Browser.close")
        with contextlib.suppress(subprocess.TimeoutExpired):
            self.process.wait(10)
        self.process.kill()
        self.process.wait()


def find_browser():
    """Returns the file of a browser, or None."""
    return next(filter(None, map(shutil.which, BROWSERS)), None)
