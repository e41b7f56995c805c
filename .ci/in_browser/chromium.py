"""Debian's Chromium without a window, driven over a pipe by its DevTools protocol: a page is opened, asked and pictured."""

import base64
import contextlib
import json
import os
import shutil
import subprocess
import tempfile
import time

from playing.built import fail

PROGRAM = shutil.which("chromium")
# A page of a disk may do what its policy allows and no more, so that nothing of the browser itself is loosened but its sandbox.
WORDS = ["--headless=new", "--no-sandbox", "--disable-gpu", "--disable-dev-shm-usage", "--disable-background-networking", "--no-first-run", "--remote-debugging-pipe"]
LONGEST_WAIT = 60


def version():
    return subprocess.run([PROGRAM, "--version"], capture_output=True, text=True).stdout.split(" built ")[0].strip()


class Page:
    """A page in a browser of its own."""

    def __init__(self, browser, inward, outward, session=None):
        self.browser, self.inward, self.outward, self.session = browser, inward, outward, session
        self.number, self.rest, self.errors = 0, b"", []

    def message(self):
        while b"\0" not in self.rest:
            piece = os.read(self.inward, 1 << 20)
            if not piece:
                fail("the browser ended")
            self.rest += piece
        text, self.rest = self.rest.split(b"\0", 1)
        return json.loads(text)

    def ask(self, method, **words):
        self.number += 1
        asked = {"id": self.number, "method": method, "params": words} | ({"sessionId": self.session} if self.session else {})
        os.write(self.outward, json.dumps(asked).encode() + b"\0")
        while (came := self.message()).get("id") != self.number:
            if came.get("method") in ("Runtime.exceptionThrown", "Log.entryAdded"):
                self.errors.append(json.dumps(came["params"])[:600])
        if "error" in came:
            fail(f"{method}: {came['error']}")
        return came["result"]

    def value(self, code):
        """What an expression gives, awaited."""
        told = self.ask("Runtime.evaluate", expression=code, awaitPromise=True, returnByValue=True, userGesture=True, allowUnsafeEvalBlockedByCSP=False)
        if "exceptionDetails" in told:
            fail(f"{code[:200]}: {json.dumps(told['exceptionDetails'])[:900]}")
        return told["result"].get("value")

    def wait(self, code):
        """Waits until an expression holds; gives the seconds that it took."""
        begun = time.monotonic()
        while not self.value(code):
            if time.monotonic() - begun > LONGEST_WAIT:
                fail(f"it never holds: {code[:300]}")
            time.sleep(0.01)
        return time.monotonic() - begun

    def before(self, code):
        """Runs this before whatever a page has."""
        self.ask("Page.addScriptToEvaluateOnNewDocument", source=code)

    def open(self, url):
        self.ask("Page.navigate", url=url)
        self.wait("document.readyState === 'complete'")

    def look(self, width, height, is_dark=False, is_phone=False):
        self.ask("Emulation.setDeviceMetricsOverride", width=width, height=height, deviceScaleFactor=2 if is_phone else 1, mobile=is_phone)
        self.ask("Emulation.setEmulatedMedia", features=[{"name": "prefers-color-scheme", "value": "dark" if is_dark else "light"}])

    def key(self, name, code=0, text=""):
        for kind in ("keyDown", "keyUp"):
            self.ask("Input.dispatchKeyEvent", type=kind, key=name, code=name, windowsVirtualKeyCode=code, **({"text": text} if text and kind == "keyDown" else {}))

    def picture(self, path, **words):
        with open(path, "wb") as it:
            it.write(base64.b64decode(self.ask("Page.captureScreenshot", format="png", **words)["data"]))


@contextlib.contextmanager
def opened():
    """A new browser with an empty page."""
    (to_read, to_write), (from_read, from_write) = os.pipe(), os.pipe()

    def hand_over():
        os.dup2(to_read, 3)
        os.dup2(from_write, 4)

    with tempfile.TemporaryDirectory(prefix="chromium-", ignore_cleanup_errors=True) as room:
        browser = subprocess.Popen([PROGRAM, *WORDS, f"--user-data-dir={room}", "about:blank"], pass_fds=(3, 4), preexec_fn=hand_over, stdout=subprocess.DEVNULL, stderr=subprocess.DEVNULL)
        os.close(to_read)
        os.close(from_write)
        page = Page(browser, from_read, to_write)
        try:
            target = page.ask("Target.createTarget", url="about:blank")["targetId"]
            page.session = page.ask("Target.attachToTarget", targetId=target, flatten=True)["sessionId"]
            for domain in ("Page", "Runtime", "Log"):
                page.ask(f"{domain}.enable")
            yield page
        finally:
            browser.kill()
            browser.wait()
            os.close(from_read)
            os.close(to_write)
