"""Firefox driven over WebDriver BiDi, by its own websocket: standard library alone, no driver between."""
import base64
import json
import subprocess
import tempfile
import time
from pathlib import Path

from browsers import Driven
from websocket import WebSocket

# the signs that WebDriver has for keys without a character
KEYS = {"Enter": "\ue007", "Tab": "\ue004", "Escape": "\ue00c", "ArrowDown": "\ue015", "ArrowUp": "\ue013", "ArrowLeft": "\ue012",
        "ArrowRight": "\ue014", "Delete": "\ue017", "Home": "\ue011", "End": "\ue010", "F2": "\ue032", "PageUp": "\ue00e",
        "PageDown": "\ue00f", "Backspace": "\ue003"}
MODIFIERS = {1: "\ue00a", 2: "\ue009", 8: "\ue008"}
PREFERENCES = {"browser.shell.checkDefaultBrowser": False, "datareporting.policy.dataSubmissionEnabled": False,
               "browser.aboutwelcome.enabled": False, "app.update.disabledForTesting": True,
               "browser.download.useDownloadDir": True, "browser.download.folderList": 2, "browser.download.alwaysOpenPanel": False}
# by the browser's own preferences: 0 is dark and 1 is light
PREFERRED = {"dark": ("layout.css.prefers-color-scheme.content-override", 0), "light": ("layout.css.prefers-color-scheme.content-override", 1),
             "reduce": ("ui.prefersReducedMotion", 1), "no-preference": ("ui.prefersReducedMotion", 0)}


def plain(value):
    """A value as the protocol writes it; None for what is no plain value, as an element."""
    if value["type"] == "array":
        return [plain(one) for one in value["value"]]
    if value["type"] == "object":
        return {name: plain(one) for name, one in value["value"]}
    return value["value"] if value["type"] in ("string", "number", "boolean") else None


class Firefox(Driven):
    name, program = "firefox", "firefox-esr"

    def __init__(self, width=1280, height=900):
        self.profile = Path(tempfile.mkdtemp(prefix="desk-profile-"))
        (self.profile / "user.js").write_text("".join(f'user_pref("{name}", {json.dumps(value)});\n' for name, value in PREFERENCES.items()))
        self.process = subprocess.Popen(
            ["firefox-esr", "--headless", "--no-remote", "--profile", str(self.profile), "--remote-debugging-port", "0",
             "--remote-allow-system-access"], stdout=subprocess.DEVNULL, stderr=subprocess.DEVNULL)
        self.number, self.events, self.own = 0, [], None
        self.socket = WebSocket(self._port(), "/session")
        self.call("session.new", capabilities={})
        self.context = self.call("browsingContext.getTree")["contexts"][0]["context"]
        self.call("session.subscribe", events=["log.entryAdded", "network.beforeRequestSent"])
        self.system("Services.prefs.setBoolPref('security.fileuri.strict_origin_policy', true)")  # as people have it, and drivers do not
        self.size(width, height)

    def _port(self):
        """The browser writes the port that it listens at into its profile."""
        file = self.profile / "WebDriverBiDiServer.json"
        for _ in range(600):
            try:
                return json.loads(file.read_text())["ws_port"]
            except (OSError, ValueError):
                time.sleep(0.1)
        raise RuntimeError("firefox does not listen")

    def call(self, method, **params):
        self.number += 1
        self.socket.send(json.dumps({"id": self.number, "method": method, "params": params}))
        while True:
            answer = json.loads(self.socket.receive())
            if answer.get("id") == self.number:
                if answer["type"] == "error":
                    raise RuntimeError(f"{method}: {answer['error']}: {answer['message'][:600]}")
                return answer["result"]
            if "method" not in answer:
                continue  # the late answer to a question that was given up
            self.events.append(answer)

    def size(self, width, height, scale=1):
        self.call("browsingContext.setViewport", context=self.context, viewport={"width": width, "height": height}, devicePixelRatio=scale)

    def system(self, code):
        """A function of the browser's own scope, where preferences are set."""
        if not self.own:
            self.own = self.call("browsingContext.getTree", **{"moz:scope": "chrome"})["contexts"][0]["context"]
        answer = self.call("script.evaluate", expression=code, target={"context": self.own}, awaitPromise=True)
        if answer["type"] == "exception":
            raise RuntimeError(answer["exceptionDetails"]["text"])

    def prefer(self, scheme=None, motion=None):
        for name, number in (PREFERRED[one] for one in (scheme, motion) if one):
            self.system(f"Services.prefs.setIntPref('{name}', {number})")
        self.settle()

    def navigate(self, address):
        self.call("browsingContext.navigate", context=self.context, url=address, wait="complete")
        self.front()

    def front(self):
        """Gives the page the focus: without it, it hears of none, and Tab past its last control goes to the browser's own."""
        self.system("window.focus(); gBrowser.selectedBrowser.focus(); 0")

    def run(self, code):
        answer = self.call("script.evaluate", expression=code, target={"context": self.context}, awaitPromise=True, userActivation=True)
        if answer["type"] == "exception":
            raise RuntimeError(answer["exceptionDetails"]["text"][:800])
        return plain(answer["result"])

    def press(self, keys, modifiers=0):
        held = [sign for bit, sign in MODIFIERS.items() if modifiers & bit]
        acts = [("keyDown", sign) for sign in held]
        for key in keys:
            acts += [("keyDown", KEYS.get(key, key)), ("keyUp", KEYS.get(key, key))]
        acts += [("keyUp", sign) for sign in reversed(held)]
        self._act("key", "keys", [{"type": kind, "value": sign} for kind, sign in acts])

    def _act(self, kind, name, acts):
        self.call("input.performActions", context=self.context, actions=[{"type": kind, "id": name, "actions": acts}])

    def insert(self, text):
        """A text into what has the focus, at once."""
        self.run("document.execCommand('insertText', false, %s)" % json.dumps(text))

    def mouse(self, kind, x, y):
        acts = {"mouseMoved": [{"type": "pointerMove", "x": int(x), "y": int(y)}], "mousePressed": [{"type": "pointerDown", "button": 0}],
                "mouseReleased": [{"type": "pointerUp", "button": 0}]}
        self._act("pointer", "mouse", acts[kind])

    def drop(self, *paths):
        """Files chosen in the page's own field for files: the protocol has no way to drop one."""
        found = self.call("browsingContext.locateNodes", context=self.context, locator={"type": "css", "value": "#file"})["nodes"][0]
        self.call("input.setFiles", context=self.context, element={"sharedId": found["sharedId"]}, files=[str(path) for path in paths])

    def saves_to(self, folder):
        self.call("browser.setDownloadBehavior", downloadBehavior={"type": "allowed", "destinationFolder": str(folder)})

    def print(self):
        """The page as a PDF file's bytes."""
        return base64.b64decode(self.call("browsingContext.print", context=self.context, background=True)["data"])

    def shot(self, path):
        self.settle()
        Path(path).write_bytes(base64.b64decode(self.call("browsingContext.captureScreenshot", context=self.context)["data"]))

    def wrong(self):
        """What the browser complained of."""
        return [str(one["params"]["text"])[:600] for one in self.events
                if one["method"] == "log.entryAdded" and one["params"]["level"] in ("error", "warn")]

    def asked(self):
        """The addresses that were asked for."""
        return [one["params"]["request"]["url"] for one in self.events if one["method"] == "network.beforeRequestSent"
                and one["params"].get("context") == self.context]

    def close(self):
        try:
            self.call("browser.close")
        except (RuntimeError, OSError):
            pass
        self.socket.close()
        self.process.terminate()
        self.process.wait(20)
