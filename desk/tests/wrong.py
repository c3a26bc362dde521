"""Wrong changes put into the desk page by hand (wrong.txt), each of which a test must see.

    python3 desk/tests/wrong.py [PART ..]      puts in each whose file's name has one of the parts, or all; after `make check-desk`
    python3 desk/tests/wrong.py --check        whether each still stands in its file, once; the gate runs this

The changes go into a copy, never into the sources. One that the tests under node see is done with its first failure; one
of a view is looked at in chromium, by the scenarios that wrong.txt names."""
import os
import re
import shutil
import signal
import subprocess
import sys
import tempfile
import time
from pathlib import Path

HERE = Path(__file__).resolve().parent
ROOT = HERE.parents[1]
OUT = Path(tempfile.gettempdir()) / f"desk-wrong-{os.getpid()}"
LEAST, LONGEST = 100, 120  # changes, and seconds that one may take
TESTS = ("pieces.mjs", "drawings.mjs", "built.mjs", "words.mjs")  # the fast ones first


class Edit:
    """One change: the file under desk/, the scenarios of a browser that see it (none: the tests under node), the text and its successor."""

    def __init__(self, head, old, new):
        self.file, _, scenarios = head.partition(" in ")
        self.scenarios = [one for one in scenarios.split(",") if one]
        self.old, self.new = old, new

    def __str__(self):
        return f"{self.file}: {self.old} → {self.new}"


def edits():
    """Three lines each, with blank lines between them: the file and where it is seen, `- ` the text, `+ ` the wrong one, a + alone for none."""
    text = (HERE / "wrong.txt").read_text(encoding="utf-8")
    for part in re.split(r"\n\s*\n", re.sub(r"^#.*\n", "", text, flags=re.M).strip()):
        head, old, new = part.split("\n")
        yield Edit(head, old.removeprefix("- "), "" if new == "+ +" else new.removeprefix("+ "))


def stale(all_edits):
    """The changes that cannot be put in: their text does not stand once in their file, or changes nothing."""
    for one in all_edits:
        count = (ROOT / "desk" / one.file).read_text(encoding="utf-8").count(one.old)
        if count != 1 or one.old == one.new or named(one.scenarios):
            yield f"{one}: the text stands {count} times" + "".join(f"; no scenario is called {name}" for name in named(one.scenarios))


def copied():
    """A copy of what the tests read; what no change is made to is a link."""
    (OUT / "target" / "desk").mkdir(parents=True)
    shutil.copytree(ROOT / "desk", OUT / "desk", ignore=shutil.ignore_patterns("__pycache__"))
    for name in ("python", "examples", "hocsimbur", "target/wasm32", "target/release", "target/linux"):
        if (ROOT / name).exists():
            (OUT / name).symlink_to(ROOT / name)
    for name in ("expected.json", "hocsimbur.html"):
        shutil.copy(ROOT / "target/desk" / name, OUT / "target/desk" / name)


def built():
    """Builds the copy's page; its complaint, where it cannot be built."""
    made = subprocess.run([sys.executable, "-B", OUT / "desk/build.py", OUT / "target/wasm32/hocsimbur.wasm", OUT / "target/desk/hocsimbur.html"],
                          capture_output=True, text=True, check=False)
    return made.stderr if made.returncode else ""


def under_node(files):
    """The first test under node that fails; nothing where all pass."""
    env = {**os.environ, "EXPECTED": str(OUT / "target/desk/expected.json"), "FIRST": "1"}
    for file in files:
        try:
            asked = subprocess.run(["node", OUT / "desk/tests" / file], capture_output=True, text=True, env=env, check=False, timeout=LONGEST)
        except subprocess.TimeoutExpired:
            return f"not done after {LONGEST} s"
        if asked.returncode:
            found = re.search(r"not ok - (.*)", asked.stdout)
            return found[1] if found else "the tests do not run: " + (asked.stderr.strip().splitlines() or [""])[-1]
    return ""


class Seen(Exception):
    """What a scenario found wrong."""


class Stops(list):
    """What is wrong, as the scenarios gather it: the first ends them."""

    def append(self, one):
        raise Seen(one)

    def extend(self, more):
        for one in more:
            raise Seen(one)


def late(*_):
    raise TimeoutError(f"not done after {LONGEST} s")


def in_browser(scenarios):
    """The first thing that some scenarios find wrong with the copy's page in chromium, or that they cannot be gone through."""
    sys.path.insert(0, str(HERE))
    import common  # pylint: disable=import-outside-toplevel
    common.wrong = common.wrong if isinstance(common.wrong, Stops) else Stops()
    import page  # pylint: disable=import-outside-toplevel
    from devtools import Chromium  # pylint: disable=import-outside-toplevel
    browser = Chromium()
    signal.signal(signal.SIGALRM, late), signal.alarm(LONGEST)
    try:
        browser.open(OUT / "target/desk/hocsimbur.html")
        for part in [one for one in page.SCENARIOS if one.__name__ in scenarios]:
            part(browser)
        common.wrong.extend(browser.wrong())
    except Exception as error:  # pylint: disable=broad-except
        return str(error) if isinstance(error, Seen) else repr(error)
    finally:
        signal.alarm(0)
        browser.close()
    return ""


def named(scenarios):
    """Those of the scenarios that page.py does not have."""
    text = (HERE / "page.py").read_text(encoding="utf-8")
    return [one for one in scenarios if not re.search(rf"^SCENARIOS = \([^)]*\b{one}\b", text, re.M)]


def main():
    asked = [one for one in sys.argv[1:] if one != "--check"]
    everything = list(edits())
    old = list(stale(everything))
    for one in old:
        print(f"wrong: {one}")
    if len(everything) < LEAST:
        print(f"wrong: {len(everything)} changes, fewer than {LEAST}")
    if old or len(everything) < LEAST and not asked:
        return 1
    if "--check" in sys.argv:
        print(f"desk: wrong changes that still apply: {len(everything)}")
        return 0
    copied()
    unseen, start = [], time.monotonic()
    chosen = [one for one in everything if not asked or any(part in f"{one} {one.scenarios}" for part in asked)]
    try:
        for one in sorted(chosen, key=lambda edit: bool(edit.scenarios)):
            file, began = OUT / "desk" / one.file, time.monotonic()
            text = file.read_text(encoding="utf-8")
            file.write_text(text.replace(one.old, one.new), encoding="utf-8")
            said = built() if one.scenarios or not one.file.endswith(".js") else ""
            if not said:
                said = in_browser(one.scenarios) if one.scenarios else under_node(TESTS)
            file.write_text(text, encoding="utf-8")
            if not one.file.endswith(".js"):
                built()
            if not said:
                unseen.append(one)
            by = f"\n     by: {said.strip().splitlines()[-1][:150]}" if said else ""
            print(f"{'seen' if said else 'UNSEEN'} {time.monotonic() - began:4.1f} s  {one}{by}", flush=True)
    finally:
        shutil.rmtree(OUT)
    print(f"wrong: {len(chosen)} changes, {len(unseen)} unseen, {time.monotonic() - start:.0f} s")
    for one in unseen:
        print(f"wrong: no test sees {one}")
    return 1 if unseen else 0


if __name__ == "__main__":
    sys.exit(main())
