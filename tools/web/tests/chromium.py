"""A headless Chromium with one page in it, told what to do through a pipe."""
import base64
import json
import os
import select
import shutil
import subprocess
import tempfile
import time

NAMES = ("chromium", "chromium-browser", "google-chrome")

#: A page answers within so many seconds.
LONGEST = 600


def path():
    """Where a Chromium is, if one is there."""
    return next(filter(None, map(shutil.which, NAMES)), None)

#: Bytes are handed to the page in base64.
READ_BYTES = "(one) => one?.base64 === undefined ? one : Uint8Array.from(atob(one.base64), (sign) => sign.charCodeAt(0))"


class Failed(Exception):
    """What the page throws, or that it doesn't answer."""


class Page:
    """The page, at an address. What it logs as an error is kept in `errors`."""

    def __init__(self, address):
        self.errors, self._count, self._read = [], 0, b""
        self._room = tempfile.mkdtemp()
        self._start()
        target = self._ask("Target.createTarget", {"url": "about:blank"}, None)["targetId"]
        self._session = self._ask("Target.attachToTarget", {"targetId": target, "flatten": True}, None)["sessionId"]
        for domain in ("Page", "Runtime", "Log"):
            self._ask(f"{domain}.enable")
        self.size(1400, 900)
        self.go(address)

    def _start(self):
        given, told = os.pipe(), os.pipe()
        flags = "--headless --no-sandbox --disable-gpu --hide-scrollbars --no-first-run --remote-debugging-pipe"
        command = f'exec "$0" {flags} --user-data-dir="$1" 3<&{given[0]} 4>&{told[1]}'
        quiet = dict.fromkeys(("stdin", "stdout", "stderr"), subprocess.DEVNULL)
        words = ["sh", "-c", command, path(), self._room]
        self._browser = subprocess.Popen(words, pass_fds=(given[0], told[1]), start_new_session=True, **quiet)
        os.close(given[0])
        os.close(told[1])
        self._given, self._told = given[1], told[0]

    def close(self):
        """Ends the browser."""
        self._browser.terminate()
        self._browser.wait()
        os.close(self._given)
        os.close(self._told)
        shutil.rmtree(self._room, ignore_errors=True)

    def _ask(self, method, parameters=None, session=""):
        self._count += 1
        message = {"id": self._count, "method": method, "params": parameters or {}}
        if session is not None:
            message["sessionId"] = session or self._session
        rest = json.dumps(message).encode() + b"\0"
        while rest:
            rest = rest[os.write(self._given, rest) :]
        answer = self._answer(self._count)
        if "error" in answer:
            raise Failed(f"{method}: {answer['error']['message']}")
        return answer["result"]

    def _answer(self, number):
        until = time.monotonic() + LONGEST
        while time.monotonic() < until:
            message = self._next(until)
            if message.get("id") == number:
                return message
            self._notice(message)
        raise Failed("the page doesn't answer")

    def _next(self, until):
        while b"\0" not in self._read:
            if not select.select([self._told], [], [], max(0, until - time.monotonic()))[0]:
                raise Failed("the page doesn't answer")
            self._read += os.read(self._told, 1 << 20)
        message, _, self._read = self._read.partition(b"\0")
        return json.loads(message)

    def _notice(self, message):
        told = message.get("params", {})
        if message.get("method") == "Log.entryAdded" and told["entry"]["level"] == "error":
            self.errors.append(told["entry"]["text"])
        if message.get("method") == "Runtime.exceptionThrown":
            self.errors.append(told["exceptionDetails"].get("exception", {}).get("description", "an exception"))

    def go(self, address, until="document.documentElement?.dataset.ready === 'yes'", before=""):
        """Opens an address, and waits until something holds; `before` is run ahead of the page's own scripts, now and later."""
        self._ask("Page.addScriptToEvaluateOnNewDocument", {"source": before})
        self._ask("Page.navigate", {"url": address})
        self.wait(until)

    def wait(self, condition, seconds=300):
        """Waits until something holds in the page."""
        until = time.monotonic() + seconds
        while not self.run(condition):
            if time.monotonic() > until:
                raise Failed(f"it doesn't come to hold: {condition}")
            time.sleep(0.05)

    def run(self, expression):
        """The value of an expression in the page; of a promise what it comes to."""
        told = self._ask("Runtime.evaluate", {"expression": expression, "awaitPromise": True, "returnByValue": True})
        if "exceptionDetails" in told:
            raise Failed(told["exceptionDetails"].get("exception", {}).get("description", "an exception"))
        return told["result"].get("value")

    def call(self, function, *given):
        """Calls a function of JavaScript with these values, which JSON can have; bytes come as an array."""
        return self.run(f"({function})(...{json.dumps(given, default=_bytes)}.map({READ_BYTES}))")

    def size(self, width, height):
        """Gives the page's window this size."""
        self._ask("Emulation.setDeviceMetricsOverride", {"width": width, "height": height, "deviceScaleFactor": 1, "mobile": False})

    def shot(self, file, width, height, dark):
        """Takes a picture of the page at this size."""
        self.size(width, height)
        features = [{"name": "prefers-color-scheme", "value": "dark" if dark else "light"}]
        self._ask("Emulation.setEmulatedMedia", {"features": features})
        time.sleep(0.5)
        with open(file, "wb") as out:
            out.write(base64.b64decode(self._ask("Page.captureScreenshot", {"format": "png"})["data"]))

    def press(self, key, code, modifiers=0, text=""):
        """Presses a key, and lets it go."""
        for kind in ("keyDown" if text else "rawKeyDown", "keyUp"):
            event = {"type": kind, "key": key, "code": key, "windowsVirtualKeyCode": code, "modifiers": modifiers, "text": text}
            self._ask("Input.dispatchKeyEvent", event)

    def point(self, place, click=False):
        """Moves the pointer to a place in the window, and clicks there if that is asked."""
        for kind in ("mouseMoved", "mousePressed", "mouseReleased")[: 3 if click else 1]:
            button = "none" if kind == "mouseMoved" else "left"
            self._ask("Input.dispatchMouseEvent", {"type": kind, "x": place[0], "y": place[1], "button": button, "clickCount": 1})

    def type(self, text):
        """Types a text where the cursor is."""
        self._ask("Input.insertText", {"text": text})


def _bytes(value):
    return {"base64": base64.b64encode(bytes(value)).decode()}
