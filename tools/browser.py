#!/usr/bin/env python3
"""Drives a headless Chromium by its pipe, for the scripts that test pages: no socket and no other package.

`Browser` starts one with a profile of its own, `page` opens a file in a tab of a given size, and a `Tab` evaluates
expressions, presses keys, moves the pointer, and makes pictures. All requests of a tab, all that its console says and
all dialogs that it opens are kept, so that a test can tell that there were none."""
import base64
import json
import os
import select
import shutil
import subprocess
import tempfile
import time

# keys that are no letters: the text that each writes, and its number
KEYS = {"Enter": ("\r", 13), "Escape": ("", 27), "Tab": ("", 9), "Backspace": ("", 8), "Home": ("", 36),
        "End": ("", 35), "ArrowLeft": ("", 37), "ArrowUp": ("", 38), "ArrowRight": ("", 39), "ArrowDown": ("", 40)}


def found():
    """The program of Chromium, installed where that can be done; else None."""
    path = shutil.which("chromium")
    if path is None and shutil.which("apt-get") and os.geteuid() == 0:
        for words in (["update"], ["install", "-y", "chromium"]):
            subprocess.run(["apt-get", *words], stdout=subprocess.DEVNULL, stderr=subprocess.DEVNULL, check=False)
        path = shutil.which("chromium")
    return path


class Browser:
    """A headless Chromium, used by `with`."""

    def __init__(self, program):
        self.folder = tempfile.mkdtemp(prefix="page-browser-")
        its_input, self.output = os.pipe()
        self.input, its_output = os.pipe()

        def pipes():
            # (the browser reads from descriptor 3 and writes to 4)
            spare = os.dup2(its_input, 103), os.dup2(its_output, 104)
            os.dup2(spare[0], 3)
            os.dup2(spare[1], 4)

        words = [program, "--headless=new", "--no-sandbox", "--disable-gpu", "--no-first-run",
                 "--disable-background-networking", "--disable-component-update", "--remote-debugging-pipe",
                 f"--user-data-dir={self.folder}", "about:blank"]
        self.process = subprocess.Popen(words, preexec_fn=pipes, close_fds=False, stdout=subprocess.DEVNULL,
                                        stderr=subprocess.DEVNULL)
        os.close(its_input)
        os.close(its_output)
        self.number, self.kept, self.tabs = 0, b"", {}

    def __enter__(self):
        return self

    def __exit__(self, *_):
        try:
            self.send("Browser.close")
        except OSError:
            pass
        try:
            self.process.wait(timeout=20)
        except subprocess.TimeoutExpired:
            self.process.kill()
        shutil.rmtree(self.folder, ignore_errors=True)

    def send(self, method, session=None, limit=120, **params):
        """What the browser answers to a call."""
        self.number += 1
        message = {"id": self.number, "method": method, "params": params}
        data = json.dumps(message | ({"sessionId": session} if session else {})).encode() + b"\0"
        while data:
            data = data[os.write(self.output, data):]
        end = time.monotonic() + limit
        while True:
            answer = self.read(end)
            if answer.get("id") == self.number:
                if "error" in answer:
                    raise OSError(f"{method}: {answer['error']['message']}")
                return answer["result"]

    def read(self, end):
        """The next message; those that tell of a tab are kept there."""
        while b"\0" not in self.kept:
            ready, _, _ = select.select([self.input], [], [], max(0, end - time.monotonic()))
            data = os.read(self.input, 1 << 20) if ready else b""
            if not data:
                raise OSError("the browser ended or gave no answer")
            self.kept += data
        message, self.kept = self.kept.split(b"\0", 1)
        message = json.loads(message)
        tab = self.tabs.get(message.get("sessionId"))
        if tab is not None and "method" in message:
            tab.heard(message["method"], message["params"])
        return message

    def page(self, path, size, dark=False):
        """A tab of this size that shows a file, or nothing yet."""
        target = self.send("Target.createTarget", url="about:blank")["targetId"]
        session = self.send("Target.attachToTarget", targetId=target, flatten=True)["sessionId"]
        tab = self.tabs[session] = Tab(self, session, target)
        for domain in ("Page", "Network", "Log", "Runtime"):
            tab.send(f"{domain}.enable")
        tab.send("Performance.enable", timeDomain="threadTicks")
        tab.resize(*size)
        tab.colours(dark)
        if path is not None:
            tab.show(path)
        return tab


def held_keys(shift, control):
    """The number that stands for the keys that are held."""
    return (8 if shift else 0) + (2 if control else 0)


class Tab:
    """A tab, and what it did that a test wants to know."""

    def __init__(self, browser, session, target):
        self.browser, self.session, self.target = browser, session, target
        self.requests, self.said, self.dialogs = [], [], []

    def send(self, method, **params):
        return self.browser.send(method, self.session, **params)

    def heard(self, method, params):
        match method:
            case "Network.requestWillBeSent":
                self.requests.append(params["request"]["url"])
            case "Log.entryAdded":
                self.said.append(params["entry"]["text"])
            case "Runtime.consoleAPICalled":
                self.said.append(str(params["args"]))
            case "Runtime.exceptionThrown":
                details = params["exceptionDetails"]
                self.said.append(details.get("exception", {}).get("description", details["text"]))
            case "Page.javascriptDialogOpening":
                self.dialogs.append(params["message"])

    def resize(self, width, height):
        self.send("Emulation.setDeviceMetricsOverride", width=width, height=height, deviceScaleFactor=1, mobile=False)

    def colours(self, dark):
        features = [{"name": "prefers-color-scheme", "value": "dark" if dark else "light"}]
        self.send("Emulation.setEmulatedMedia", features=features)

    def show(self, path):
        self.send("Page.navigate", url=f"file://{os.path.abspath(path)}")

    def processor(self):
        """The seconds of processor time that the tab's main thread has taken."""
        return next(it["value"] for it in self.send("Performance.getMetrics")["metrics"] if it["name"] == "ThreadTime")

    def value(self, text):
        """The value of an expression."""
        answer = self.send("Runtime.evaluate", expression=text, awaitPromise=True, returnByValue=True)
        if "exceptionDetails" in answer:
            raise OSError(f"{text}: {answer['exceptionDetails'].get('exception', {}).get('description')}")
        return answer["result"].get("value")

    def wait(self, text, limit=60):
        """Waits until an expression is true, and gives its value; after so many seconds that is a failure."""
        end = time.monotonic() + limit
        while not (found := self.value(text)):
            if time.monotonic() > end:
                raise OSError(f"after {limit} s this is not so: {text}")
            time.sleep(0.02)
        return found

    def settle(self):
        """Waits until what was to be drawn is drawn."""
        self.value("new Promise((done) => requestAnimationFrame(() => requestAnimationFrame(() => done(1))))")

    def press(self, key, shift=False, control=False):
        text, code = KEYS.get(key, (key, ord(key[0].upper())))
        stroke = {"key": key, "windowsVirtualKeyCode": code, "modifiers": held_keys(shift, control)}
        text = {"text": text} if text and not control else {}
        self.send("Input.dispatchKeyEvent", type="keyDown", **stroke, **text)
        self.send("Input.dispatchKeyEvent", type="keyUp", **stroke)

    def type(self, text):
        for letter in text:
            self.press(letter)

    def mouse(self, kind, x, y, shift=False, control=False, **more):
        held = held_keys(shift, control)
        self.send("Input.dispatchMouseEvent", type=kind, x=x, y=y, modifiers=held, **more)

    def click(self, x, y, count=1):
        for kind in ("mouseMoved", "mousePressed", "mouseReleased"):
            self.mouse(kind, x, y, **({} if kind == "mouseMoved" else {"button": "left", "clickCount": count}))

    def drag(self, start, end, shift=False):
        self.mouse("mouseMoved", *start, shift)
        self.mouse("mousePressed", *start, shift, button="left", clickCount=1)
        for part in (0.3, 0.7, 1):
            place = [round(a + (b - a) * part) for a, b in zip(start, end)]
            self.mouse("mouseMoved", *place, shift, button="left", buttons=1)
        self.mouse("mouseReleased", *end, shift, button="left", clickCount=1)

    def wheel(self, x, y, down, shift=False, control=False):
        self.mouse("mouseWheel", x, y, shift, control, deltaX=0, deltaY=down)

    def touch(self, kind, *fingers):
        """Fingers, each with its number and its place, that begin to touch, move or end."""
        points = [{"id": number, "x": x, "y": y} for number, x, y in fingers]
        self.send("Input.dispatchTouchEvent", type=kind, touchPoints=points)

    def picture(self, path):
        """A picture of what is seen."""
        self.settle()
        data = self.send("Page.captureScreenshot", format="png")["data"]
        with open(path, "wb") as it:
            it.write(base64.b64decode(data))

    def close(self):
        self.browser.send("Target.closeTarget", targetId=self.target)
        del self.browser.tabs[self.session]
