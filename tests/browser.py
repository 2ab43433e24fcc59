"""Drives a browser over two pipes, by the protocol of Chromium's developer tools: messages are JSON, each ended by a zero byte."""

import base64
import json
import os
import select
import shutil
import signal
import subprocess
import tempfile
import time

# A name that leads to this machine, as one of somebody else's may.
ELSEWHERE = "elsewhere.example"
NAMES = ("chromium", "chromium-browser", "google-chrome", "google-chrome-stable", "chrome")


def found():
    """The browser's program, or None where there is none."""
    return next(filter(None, map(shutil.which, NAMES)), None)


class Fault(OSError):
    """What the browser refused, or did not do in time."""


class Browser:
    """A browser without a window, with a profile of its own, which is removed at the end."""

    def __init__(self, program, seconds=20):
        self.seconds, self.calls, self.rest, self.told, self.looks = seconds, 0, b"", [], {}
        self.profile = tempfile.mkdtemp(prefix="amo-browser-")
        asks, self.ask = os.pipe()
        self.hear, answers = os.pipe()
        # It reads from file 3 and writes to file 4. The shell is replaced by it.
        words = ["sh", "-c", f'exec "$0" "$@" 3<&{asks} 4>&{answers}', program, "--headless=new", "--no-sandbox", "--disable-gpu", "--disable-dev-shm-usage",
                 "--no-first-run", "--disable-background-networking", "--disable-component-update", f"--host-resolver-rules=MAP {ELSEWHERE} 127.0.0.1", f"--user-data-dir={self.profile}", "--remote-debugging-pipe"]
        self.process = subprocess.Popen(words, pass_fds=(asks, answers), start_new_session=True, stdin=subprocess.DEVNULL, stdout=subprocess.DEVNULL,
                                        stderr=subprocess.DEVNULL)
        os.close(asks)
        os.close(answers)

    def __enter__(self):
        return self

    def __exit__(self, *_):
        # Its processes are a session of their own, which is its number.
        os.killpg(self.process.pid, signal.SIGKILL)
        self.process.wait()
        os.close(self.ask)
        os.close(self.hear)
        shutil.rmtree(self.profile, ignore_errors=True)

    def read(self, until):
        """The next message; None where none comes in time."""
        while b"\0" not in self.rest:
            if not select.select([self.hear], [], [], max(until - time.monotonic(), 0))[0]:
                return None
            data = os.read(self.hear, 1 << 16)
            if not data:
                raise Fault("the browser ended")
            self.rest += data
        text, self.rest = self.rest.split(b"\0", 1)
        return json.loads(text)

    def send(self, method, session=None, **words):
        """Sends this, and answers its number."""
        self.calls += 1
        message = {"id": self.calls, "method": method, "params": words, **({"sessionId": session} if session else {})}
        data = json.dumps(message).encode() + b"\0"
        while data:
            data = data[os.write(self.ask, data):]
        return self.calls

    def call(self, method, session=None, **words):
        """What the browser answers to this. What it tells meanwhile is kept in `told`, and handed to who looks for it at once."""
        number, until = self.send(method, session, **words), time.monotonic() + self.seconds
        while (heard := self.read(until)) is not None:
            if heard.get("id") == number:
                if "error" in heard:
                    raise Fault(f"{method}: {heard['error']['message']}")
                return heard["result"]
            self.told.append(heard)
            if look := self.looks.get((heard.get("method"), heard.get("sessionId"))):
                look(heard["params"])
        raise Fault(f"{method} took more than {self.seconds} seconds")

    def page(self, scripts=True):
        return Page(self, scripts)


class Page:
    """A page that is shown, in a profile of its own, with scripts or without."""

    def __init__(self, browser, scripts):
        self.browser = browser
        context = browser.call("Target.createBrowserContext")["browserContextId"]
        target = browser.call("Target.createTarget", url="about:blank", browserContextId=context)["targetId"]
        self.session = browser.call("Target.attachToTarget", targetId=target, flatten=True)["sessionId"]
        for domain in ("Page", "Runtime", "Log", "Network"):
            self.call(f"{domain}.enable")
        if not scripts:
            self.call("Emulation.setScriptExecutionDisabled", value=True)

    def call(self, method, **words):
        return self.browser.call(method, self.session, **words)

    def told(self, method):
        """What the browser told of this kind, of this page."""
        return [it["params"] for it in self.browser.told if it.get("method") == method and it.get("sessionId") == self.session]

    def catch(self, pattern, stage, act):
        """Has each request or answer (the stage) of this pattern stopped, and handed to `act`, which names what is to be done with it, with its words."""

        def look(paused):
            method, words = act(paused)
            self.browser.send(f"Fetch.{method}", self.session, requestId=paused["requestId"], **words)

        self.browser.looks["Fetch.requestPaused", self.session] = look
        self.call("Fetch.enable", patterns=[{"urlPattern": pattern, "requestStage": stage}])

    def open(self, url):
        self.call("Page.navigate", url=url)
        self.wait_for("document.readyState === 'complete' || null")

    def value(self, text):
        """The value of this expression there."""
        told = self.call("Runtime.evaluate", expression=text, returnByValue=True, awaitPromise=True)
        if "exceptionDetails" in told:
            raise Fault(f"{text}: {told['exceptionDetails'].get('exception', {}).get('description')}")
        return told["result"].get("value")

    def wait_for(self, text, seconds=10):
        """The value of this expression, once it is something."""
        until = time.monotonic() + seconds
        while (value := self.value(text)) in (None, False, "", 0):
            if time.monotonic() > until:
                raise Fault(f"`{text}` stayed {value!r}")
            time.sleep(0.02)
        return value

    def type(self, selector, text):
        """Writes a text where a person would, and ends it by the return key."""
        self.value(f"document.querySelector({json.dumps(selector)}).focus()")
        self.call("Input.insertText", text=text)
        for kind in ("keyDown", "keyUp"):
            self.call("Input.dispatchKeyEvent", type=kind, key="Enter", code="Enter", windowsVirtualKeyCode=13, text="\r")

    def click(self, selector):
        """Presses the mouse in the middle of what the selector finds."""
        place = self.value(f"(it => {{ it.scrollIntoView({{ block: 'center' }}); const {{ x, y, width, height }} = it.getBoundingClientRect();"
                           f" return [x + width / 2, y + height / 2]; }})(document.querySelector({json.dumps(selector)}))")
        for kind in ("mousePressed", "mouseReleased"):
            self.call("Input.dispatchMouseEvent", type=kind, x=place[0], y=place[1], button="left", clickCount=1)

    def show_as(self, scheme="light", width=1000, height=800):
        """Has the page shown in this scheme of colours, in a window of this size."""
        self.call("Emulation.setEmulatedMedia", features=[{"name": "prefers-color-scheme", "value": scheme}])
        self.call("Emulation.setDeviceMetricsOverride", width=width, height=height, deviceScaleFactor=1, mobile=False)

    def picture(self, path):
        data = self.call("Page.captureScreenshot", format="png", captureBeyondViewport=True)["data"]
        with open(path, "wb") as file:
            file.write(base64.b64decode(data))
