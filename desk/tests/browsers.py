"""The browsers that the scenarios run in, behind one interface: chromium by DevTools (devtools.py), firefox-esr by WebDriver BiDi (bidi.py).

What both can do is here, in terms of `run` (a JavaScript expression), `press` (keys), `mouse`, `size` and `prefer`, which each does in its
own way."""
import json
import shutil
import time
from pathlib import Path


class Driven:
    """A browser with one page."""

    name = ""

    def open(self, path):
        self.navigate(Path(path).resolve().as_uri())
        for _ in range(400):
            if self.run("Boolean(document.body && document.body.dataset.ready)"):
                return
            time.sleep(0.05)
        raise RuntimeError(f"the page is not ready in {self.name}: " + json.dumps(self.wrong()))

    def front(self):
        """Gives the page the focus; where it always has it, nothing."""

    def key(self, key, modifiers=0):
        """One key; modifiers: 1 Alt, 2 Ctrl, 8 Shift."""
        self.press([key], modifiers)

    def type(self, text):
        self.press(list(text))

    def paste(self, text):
        """A paste event with this text at what has the focus."""
        self.clipboard("paste", text)

    def copy(self, kind="copy"):
        """The text that a copy or cut event puts into the clipboard."""
        return self.clipboard(kind, "")

    def clipboard(self, kind, text):
        """Firefox takes the text of a made event by `data` and `dataType`, chromium by `clipboardData`."""
        return self.run("((text, kind) => { const d = new DataTransfer(); if (text) d.setData('text/plain', text);"
                        " const e = new ClipboardEvent(kind, {clipboardData: d, data: text, dataType: 'text/plain', bubbles: true,"
                        " cancelable: true}); document.activeElement.dispatchEvent(e);"
                        " return e.clipboardData.getData('text/plain'); })(%s, %s)" % (json.dumps(text), json.dumps(kind)))

    def centre(self, query):
        return self.run("(() => { const e = document.querySelector(%s); e.scrollIntoView({block:'nearest', inline: 'nearest'});"
                        " const b = e.getBoundingClientRect(); return [b.left + b.width / 2, b.top + b.height / 2]; })()" % json.dumps(query))

    def click(self, query):
        self.at(*self.centre(query))

    def at(self, x, y):
        self.mouse("mouseMoved", x, y), self.mouse("mousePressed", x, y), self.mouse("mouseReleased", x, y)
        self.settle()

    def settle(self):
        self.run("new Promise(done => requestAnimationFrame(() => requestAnimationFrame(() => done(0))))")

    def dark(self, on):
        self.prefer(scheme="dark" if on else "light")

    def still(self, on):
        self.prefer(motion="reduce" if on else "no-preference")

    def said(self):
        return self.run("document.getElementById('said').textContent")


def installed():
    """The browsers that are on this machine, by name; None for one that is not."""
    from bidi import Firefox  # pylint: disable=import-outside-toplevel
    from devtools import Chromium  # pylint: disable=import-outside-toplevel
    return {one.name: one if shutil.which(one.program) else None for one in (Chromium, Firefox)}


def asked(names):
    """The browsers of these names, or without a name all that are installed; one that is missing is named as skipped."""
    found = installed()
    for name in names:
        if name not in found:
            raise SystemExit(f"no browser is called {name}: {', '.join(found)}")
    for name in names or found:
        if found[name]:
            yield found[name]
        else:
            print(f"browser: {name} is not installed: skipped")
