"""Chromium driven over the DevTools protocol through a pipe: standard library alone, no port, no socket."""
import base64
import json
import os
import subprocess
import tempfile
import time
from pathlib import Path

from browsers import Driven

KEYS = {"Enter": 13, "Tab": 9, "Escape": 27, "ArrowDown": 40, "ArrowUp": 38, "ArrowLeft": 37, "ArrowRight": 39, "Delete": 46, "Home": 36,
        "End": 35, "F2": 113, "PageUp": 33, "PageDown": 34, "Backspace": 8}
TEXTS = {"Enter": "\r"}
MODIFIERS = {1: ("Alt", 18), 2: ("Control", 17), 8: ("Shift", 16)}


class Chromium(Driven):
    name, program = "chromium", "chromium"

    def __init__(self, width=1280, height=900):
        read, write_end = os.pipe()
        read_end, write = os.pipe()
        self.profile = tempfile.mkdtemp(prefix="desk-profile-")
        def lent():
            os.dup2(read, 10), os.dup2(write, 11)
            os.dup2(10, 3), os.dup2(11, 4)
        self.process = subprocess.Popen(
            ["chromium", "--headless=new", "--no-sandbox", "--disable-gpu", "--remote-debugging-pipe", "--hide-scrollbars",
             f"--user-data-dir={self.profile}", f"--window-size={width},{height}", "about:blank"],
            preexec_fn=lent, close_fds=False, stdout=subprocess.DEVNULL, stderr=subprocess.DEVNULL)
        os.close(read), os.close(write)
        self.out, self.into, self.number, self.rest, self.events = write_end, read_end, 0, b"", []
        self.media = {}
        target = next(one for one in self.call("Target.getTargets")["targetInfos"] if one["type"] == "page")
        self.session = None
        self.session = self.call("Target.attachToTarget", targetId=target["targetId"], flatten=True)["sessionId"]
        for domain in ("Page", "Runtime", "Log", "Network"):
            self.call(f"{domain}.enable")
        self.size(width, height)

    def call(self, method, **params):
        self.number += 1
        message = {"id": self.number, "method": method, "params": params}
        if getattr(self, "session", None):
            message["sessionId"] = self.session
        os.write(self.out, json.dumps(message).encode() + b"\0")
        while True:
            while b"\0" not in self.rest:
                self.rest += os.read(self.into, 1 << 20)
            one, self.rest = self.rest.split(b"\0", 1)
            answer = json.loads(one)
            if answer.get("id") == self.number:
                if "error" in answer:
                    raise RuntimeError(answer["error"])
                return answer["result"]
            self.events.append(answer)

    def size(self, width, height, scale=1):
        self.call("Emulation.setDeviceMetricsOverride", width=width, height=height, deviceScaleFactor=scale, mobile=False)

    def prefer(self, scheme=None, motion=None):
        """What the person prefers: a light or dark page, and motion or none."""
        self.media.update({name: value for name, value in (("prefers-color-scheme", scheme), ("prefers-reduced-motion", motion)) if value})
        self.call("Emulation.setEmulatedMedia", features=[{"name": name, "value": value} for name, value in self.media.items()])

    def navigate(self, address):
        self.run("addEventListener('beforeunload', (event) => event.stopImmediatePropagation(), true)")  # no question about unsaved work
        self.call("Page.navigate", url=address)
        time.sleep(0.05)

    def run(self, code):
        answer = self.call("Runtime.evaluate", expression=code, returnByValue=True, awaitPromise=True)
        if "exceptionDetails" in answer:
            raise RuntimeError(json.dumps(answer["exceptionDetails"])[:800])
        return answer["result"].get("value")

    def press(self, keys, modifiers=0):
        held = [{"key": key, "windowsVirtualKeyCode": code, "modifiers": modifiers} for bit, (key, code) in MODIFIERS.items() if modifiers & bit]
        for one in held:
            self.call("Input.dispatchKeyEvent", type="rawKeyDown", **one)
        for key in keys:
            code = KEYS.get(key) or (ord(key.upper()) if key.isalnum() else 0)  # a sign's own number is that of another key: . of Delete
            text = {} if key in KEYS and key not in TEXTS or modifiers & 2 else {"text": TEXTS.get(key, key)}
            named = {"key": key, "windowsVirtualKeyCode": code, "modifiers": modifiers}
            self.call("Input.dispatchKeyEvent", type="keyDown", **named, **text)
            self.call("Input.dispatchKeyEvent", type="keyUp", **named)
        for one in reversed(held):
            self.call("Input.dispatchKeyEvent", type="keyUp", **{**one, "modifiers": 0})

    def insert(self, text):
        """A text into what has the focus, at once."""
        self.call("Input.insertText", text=text)

    def mouse(self, kind, x, y):
        moved = kind == "mouseMoved"
        self.call("Input.dispatchMouseEvent", type=kind, x=x, y=y, button="none" if moved else "left", clickCount=0 if moved else 1)

    def drop(self, *paths):
        """Files dropped on the page."""
        for kind in ("dragEnter", "dragOver", "drop"):
            data = {"items": [], "files": [str(path) for path in paths], "dragOperationsMask": 1}
            self.call("Input.dispatchDragEvent", type=kind, x=400, y=600, data=data)

    def saves_to(self, folder):
        self.call("Browser.setDownloadBehavior", behavior="allow", downloadPath=str(folder))

    def print(self):
        """The page as a PDF file's bytes."""
        return base64.b64decode(self.call("Page.printToPDF", preferCSSPageSize=True, printBackground=True)["data"])

    def shot(self, path):
        self.settle()
        Path(path).write_bytes(base64.b64decode(self.call("Page.captureScreenshot", format="png")["data"]))

    def wrong(self):
        """What the browser complained of."""
        found = []
        for one in self.events:
            if one["method"] == "Runtime.exceptionThrown":
                details = one["params"]["exceptionDetails"]
                found.append(str(details.get("exception", {}).get("description", details))[:600])
            if one["method"] == "Log.entryAdded" and one["params"]["entry"]["level"] in ("error", "warning"):
                found.append(one["params"]["entry"]["text"][:400])
        return found

    def asked(self):
        """The addresses that were asked for."""
        return [one["params"]["request"]["url"] for one in self.events if one["method"] == "Network.requestWillBeSent"]

    def close(self):
        self.process.terminate()
        self.process.wait(10)
