"""A headless Chromium that a test drives: it is spoken to over two pipes, so nothing but the browser is needed and no port is opened."""

import base64
import fcntl
import json
import os
import select
import shutil
import signal
import subprocess
import tempfile
import time

NAMES = ("chromium", "chromium-browser", "google-chrome", "chrome")
SECONDS = 60


def path():
    """Where the browser is, or none."""
    return next((found for found in map(shutil.which, NAMES) if found), None)


class Browser:
    """A browser with one page. What its console said that is an error stands in `errors`."""

    def __init__(self):
        self.room = tempfile.mkdtemp(prefix="view-browser-")
        (its_in, our_out), (our_in, its_out) = os.pipe(), os.pipe()
        ends = [fcntl.fcntl(it, fcntl.F_DUPFD, 20) for it in (its_in, its_out)]
        words = [path(), "--headless", "--no-sandbox", "--disable-gpu", "--disable-dev-shm-usage", "--no-first-run", "--disable-extensions", "--disable-background-networking", f"--user-data-dir={self.room}", "--remote-debugging-pipe", "about:blank"]
        self.child = subprocess.Popen(words, stdin=subprocess.DEVNULL, stdout=subprocess.DEVNULL, stderr=subprocess.DEVNULL, pass_fds=(3, 4), start_new_session=True, preexec_fn=lambda: (os.dup2(ends[0], 3), os.dup2(ends[1], 4)), env={**os.environ, "DBUS_SESSION_BUS_ADDRESS": "disabled:"})
        for it in (its_in, its_out, *ends):
            os.close(it)
        self.out, self.into, self.rest, self.asked, self.errors, self.session = our_out, our_in, b"", 0, [], None
        page = next(it for it in self.ask("Target.getTargets")["targetInfos"] if it["type"] == "page")
        self.session = self.ask("Target.attachToTarget", targetId=page["targetId"], flatten=True)["sessionId"]
        for domain in ("Page", "Runtime", "Log"):
            self.ask(f"{domain}.enable")

    def close(self):
        """Ends the browser and all that it started."""
        os.close(self.out)
        os.close(self.into)
        try:
            os.killpg(self.child.pid, signal.SIGKILL)
        except ProcessLookupError:
            pass
        self.child.wait()
        shutil.rmtree(self.room, ignore_errors=True)

    def message(self, until):
        """The next message of the browser."""
        while b"\0" not in self.rest:
            if not select.select([self.into], [], [], max(0, until - time.monotonic()))[0]:
                raise TimeoutError("the browser does not answer")
            got = os.read(self.into, 1 << 20)
            if not got:
                raise EOFError("the browser has ended")
            self.rest += got
        text, _, self.rest = self.rest.partition(b"\0")
        return json.loads(text)

    def heed(self, said):
        """Keeps what is an error of the page."""
        given = said.get("params", {})
        if said.get("method") == "Runtime.exceptionThrown":
            self.errors.append(given["exceptionDetails"].get("exception", {}).get("description") or given["exceptionDetails"]["text"])
        if said.get("method") == "Runtime.consoleAPICalled" and given["type"] in ("error", "warning", "assert"):
            self.errors.append(" ".join(str(it.get("value", it.get("description"))) for it in given["args"]))
        if said.get("method") == "Log.entryAdded" and given["entry"]["level"] in ("error", "warning"):
            self.errors.append(given["entry"]["text"])

    def ask(self, method, **params):
        """Asks the browser, and waits for its answer."""
        self.asked += 1
        asked = {"id": self.asked, "method": method, "params": params, **({"sessionId": self.session} if self.session else {})}
        os.write(self.out, json.dumps(asked).encode() + b"\0")
        until = time.monotonic() + SECONDS
        while True:
            said = self.message(until)
            self.heed(said)
            if said.get("id") == self.asked:
                if "error" in said:
                    raise RuntimeError(f"{method}: {said['error']['message']}")
                return said["result"]

    def open(self, address):
        """Opens an address anew, and waits until its script has run."""
        self.ask("Page.navigate", url="about:blank")
        self.ask("Page.navigate", url=address)
        until = time.monotonic() + SECONDS
        while not self.tell("document.readyState === 'complete' && location.href !== 'about:blank'"):
            if time.monotonic() > until:
                raise TimeoutError(address)
            time.sleep(0.02)

    def tell(self, script):
        """The value of a script in the page."""
        found = self.ask("Runtime.evaluate", expression=script, returnByValue=True, awaitPromise=True)
        if "exceptionDetails" in found:
            raise RuntimeError(found["exceptionDetails"].get("exception", {}).get("description", found["exceptionDetails"]["text"]))
        return found["result"].get("value")

    def press(self, key, text="", shift=False):
        """Presses a key and lets it go."""
        for kind in ("keyDown", "keyUp"):
            more = {"text": text} if text and kind == "keyDown" else {}
            self.ask("Input.dispatchKeyEvent", type=kind, key=key, modifiers=8 if shift else 0, windowsVirtualKeyCode={"Enter": 13, "Tab": 9, "Escape": 27}.get(key, 0), **more)

    def type(self, text):
        """Types a text into what has the focus."""
        for letter in text:
            self.press(letter, letter)

    def look(self, wide, high, is_dark=False):
        """Sets the size of the window, and light or dark."""
        self.ask("Emulation.setDeviceMetricsOverride", width=wide, height=high, deviceScaleFactor=1, mobile=False)
        self.ask("Emulation.setEmulatedMedia", features=[{"name": "prefers-color-scheme", "value": "dark" if is_dark else "light"}])

    def picture(self, where, whole=False):
        """Writes a picture of the window, or of the whole page, as PNG."""
        shot = self.ask("Page.captureScreenshot", format="png", captureBeyondViewport=whole)
        with open(where, "wb") as it:
            it.write(base64.b64decode(shot["data"]))
