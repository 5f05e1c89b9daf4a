"""A browser that tests drive: headless Chromium over its debugging socket."""

import base64
import json
import os
import shutil
import subprocess
import tempfile
import time
import urllib.request

import websocket

from running import DEADLINE

NAMES = ("chromium", "chromium-browser", "google-chrome")


def program():
    """Returns the path of the browser, or None if there is none."""
    return next((path for path in map(shutil.which, NAMES) if path), None)


class Gone(ValueError):
    """The page went away while it was asked, since another is loaded in its place."""


class Browser:
    """A browser with one page, which may be started with more words."""

    def __init__(self, path, width=1920, height=1080, more=()):
        self.folder = tempfile.mkdtemp()
        words = [path, "--headless=new", "--no-sandbox", "--disable-gpu", "--disable-dev-shm-usage", "--no-first-run",
                 "--remote-debugging-port=0", "--user-data-dir=" + self.folder,
                 "--window-size=%d,%d" % (width, height), *more, "about:blank"]
        self.child = subprocess.Popen(words, stdin=subprocess.DEVNULL, stdout=subprocess.DEVNULL,
                                      stderr=subprocess.DEVNULL)
        # (Chromium refuses a client that names its origin)
        self.wire = websocket.create_connection(self.page(), timeout=DEADLINE, suppress_origin=True)
        self.number, self.errors = 0, []
        for domain in ("Page", "Runtime", "Log"):
            self.call(domain + ".enable")
        self.size(width, height)

    def page(self):
        """Returns the debugging socket of its page."""
        end, place = time.monotonic() + DEADLINE, os.path.join(self.folder, "DevToolsActivePort")
        while time.monotonic() < end:
            try:
                with open(place, encoding="ascii") as file:
                    port = int(file.readline())
                with urllib.request.urlopen("http://127.0.0.1:%d/json/list" % port, timeout=DEADLINE) as answer:
                    pages = [it for it in json.load(answer) if it["type"] == "page"]
                if pages:
                    return pages[0]["webSocketDebuggerUrl"]
            except (OSError, ValueError):
                pass
            time.sleep(0.1)
        raise OSError("the browser did not start")

    def call(self, method, **given):
        """Returns what the browser answers to a call. Errors that the page tells meanwhile are kept."""
        self.number += 1
        self.wire.send(json.dumps({"id": self.number, "method": method, "params": given}))
        while True:
            told = json.loads(self.wire.recv())
            if told.get("id") == self.number:
                return told.get("result", {})
            self.hear(told)

    def hear(self, told):
        what, given = told.get("method"), told.get("params", {})
        if what == "Runtime.exceptionThrown":
            self.errors.append(given["exceptionDetails"].get("exception", {}).get("description", "an exception"))
        elif what == "Runtime.consoleAPICalled" and given["type"] in ("error", "warning", "assert"):
            self.errors.append(str([it.get("value") for it in given["args"]]))
        elif what == "Log.entryAdded" and given["entry"]["level"] == "error":
            self.errors.append(given["entry"]["text"])

    def open(self, url):
        """Goes to a page, and waits until all of it is there."""
        self.call("Page.navigate", url=url)
        self.waits_for("location.href !== 'about:blank' && document.readyState === 'complete'")

    def run(self, script):
        """Returns the value of an expression on the page."""
        told = self.call("Runtime.evaluate", expression=script, returnByValue=True, awaitPromise=True)
        if "result" not in told:
            raise Gone(script)
        if "exceptionDetails" in told:
            raise ValueError(told["exceptionDetails"].get("exception", {}).get("description", script))
        return told["result"].get("value")

    def waits_for(self, script, patience=DEADLINE):
        """Returns how many seconds pass until an expression is true, or None if they are too many."""
        begun = time.monotonic()
        while time.monotonic() - begun < patience:
            try:
                if self.run(script):
                    return time.monotonic() - begun
            except Gone:
                pass
            time.sleep(0.03)
        return None

    def key(self, name, code=None):
        """Presses a key and lets it go."""
        codes = {"Tab": 9, "Enter": 13, "Escape": 27, "ArrowDown": 40, "ArrowUp": 38, "ArrowLeft": 37,
                 "ArrowRight": 39}
        given = {"key": name, "code": code or name, "windowsVirtualKeyCode": codes.get(name, ord(name[0].upper()))}
        text = {"text": "\r"} if name == "Enter" else {"text": name} if len(name) == 1 else {}
        self.call("Input.dispatchKeyEvent", type="keyDown", **given, **text)
        self.call("Input.dispatchKeyEvent", type="keyUp", **given)

    def size(self, width, height, is_telephone=False):
        self.call("Emulation.setDeviceMetricsOverride", width=width, height=height, deviceScaleFactor=1,
                  mobile=is_telephone)

    def before_each_page(self, script):
        """Has a script run in each page before its own."""
        self.call("Page.addScriptToEvaluateOnNewDocument", source=script)

    def forced_colors(self, is_on):
        value = "active" if is_on else "none"
        self.call("Emulation.setEmulatedMedia", features=[{"name": "forced-colors", "value": value}])

    def zoom(self, width, height, factor):
        """Has the window the size and the pixels that it has if somebody zooms the page by a factor."""
        self.call("Emulation.setDeviceMetricsOverride", width=round(width / factor), height=round(height / factor),
                  deviceScaleFactor=factor, mobile=False)

    def scheme(self, name):
        self.call("Emulation.setEmulatedMedia", features=[{"name": "prefers-color-scheme", "value": name}])

    def picture(self, path):
        """Writes what it shows, as a PNG file."""
        with open(path, "wb") as file:
            file.write(base64.b64decode(self.call("Page.captureScreenshot", format="png")["data"]))

    def end(self):
        self.child.kill()
        self.child.wait()
        shutil.rmtree(self.folder, ignore_errors=True)
