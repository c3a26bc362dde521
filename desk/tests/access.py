"""Whether everyone can use the page: names, roles, focus, keys and contrast in every view and state, light, dark and on a narrow screen.

    python3 desk/tests/access.py [chromium] [firefox]      page.py runs it too"""
import json
import sys
from pathlib import Path

sys.dont_write_bytecode = True
from common import NAMES, PAGE, cell, same, wrong  # noqa: E402
from browsers import asked  # noqa: E402

AUDIT = (Path(__file__).resolve().parent / "audit.js").read_text(encoding="utf-8").split("\n", 1)[1]
WIDTHS = ((1280, 900), (375, 812))


def to(b, row, name):
    """A cell chosen by keys from its line's first, which is in sight however narrow the screen is."""
    b.click(cell(row, "station")), b.press(["ArrowRight"] * NAMES.index(name)), b.settle()


def empty(b):
    """The page as it is opened; later, a new sheet."""
    if not b.run("document.body.classList.contains('empty')"):
        b.click("#view-lines"), b.click("#new")


def sample(b):
    b.click("#sample"), to(b, 5, "rods")


def curve(b):
    to(b, 5, "fault"), b.click("[data-key='rwhole range']"), b.run("document.querySelector('.plot').focus()"), b.key("ArrowRight")


def undecided(b):
    b.click("[data-key='rnear']"), to(b, 15, "depth")


def mapped(b):
    to(b, 5, "rods"), b.click("#varied [data-key='two inputs']"), b.run("document.querySelector('.map td.now').focus()")


def typing(b):
    b.click("#varied [data-key='one input']"), to(b, 5, "depth"), b.type("60")


def refused(b):
    b.key("Enter"), b.key("ArrowUp")


def to_fill_in(b):
    b.click("#undo"), to(b, 5, "soil"), b.key("Delete")


def offered(b):
    b.click("#undo"), to(b, 5, "soil"), b.type("187.5"), b.key("Enter")


def taken(b):
    b.click("#undo"), to(b, 5, "fault"), b.type("4.4kA"), b.key("Enter"), b.key("ArrowUp")


def chosen_range(b):
    b.click("#undo"), to(b, 2, "soil"), b.key("ArrowDown", 8), b.key("ArrowRight", 8)


def stations(b):
    b.click("#view-stations"), b.click('#stations [data-key="104"]')


def wrong_wire(b):
    b.run("document.querySelector('[data-key=\"110 wire\"]').select()"), b.insert("95"), b.key("Enter")


def cleared(b):
    b.run("['readings', 'currents', 'side'].forEach((id) => { const e = document.getElementById(id); e.value = '';"
          " e.dispatchEvent(new Event('input')); })"), b.settle()


def site(b):
    b.run("document.querySelector('[data-key=\"110 wire\"]').focus()"), b.key("Escape"), b.click("#view-site"), cleared(b)
    for place, text in (("#readings", "1 10.4\n2 4.55\n5 1.62\n10 0.71"), ("#currents", "1000 0\n400 0"), ("#side", "60")):
        b.click(place), b.insert(text), b.settle()
    b.click("#side-said summary")


def wrong_site(b):
    b.click("#side-said summary"), b.click("#side"), b.insert("x")


STATES = (empty, sample, curve, undecided, mapped, typing, refused, to_fill_in, offered, taken, chosen_range, stations, wrong_wire, site, wrong_site)


def tabbed(b, where):
    """Tab from the head of the page to its end: every control, in the order of the page, each with a focus that is seen."""
    b.run("(document.activeElement.blur(), getSelection().removeAllRanges(), document.getElementById('open').focus(), 0)")
    b.key("Tab", 8)
    seen = []
    for _ in range(400):
        here = json.loads(b.run(FOCUSED))
        if not here or here["number"] in [one["number"] for one in seen]:
            break
        seen.append(here)
        if here["sheet"]:
            b.key("Escape")
        b.key("Tab")
    b.front()
    names = [one["told"] for one in seen]
    for one, other in zip(seen, seen[1:]):
        if one["number"] > other["number"]:
            wrong.append(f"{where}: Tab goes from {one['told']} back to {other['told']}")
    wrong.extend(f"{where}: the focus is not seen at {one['told']}" for one in seen if not one["seen"])
    missed = [one for one in json.loads(b.run(STOPS)) if one not in names]
    wrong.extend(f"{where}: Tab does not come to {one}" for one in missed)
    same(f"{where}: the page ends", len(seen) < 400, True)
    return len(seen)


NAMED = """const told = (e) => e.tagName.toLowerCase() + (e.id ? '#' + e.id : '') + (e.dataset?.key ? '[' + e.dataset.key + ']' : '')
  + (e.dataset?.c ? ' cell' : '') + ' ' + (e.getAttribute('aria-label') ?? e.textContent).trim().slice(0, 24);"""
FOCUSED = """(() => { const e = document.activeElement; %s
  if (!e || e === document.body || e === document.documentElement) return 'null';
  const s = getComputedStyle(e), ring = s.outlineStyle !== 'none' && parseFloat(s.outlineWidth) >= 2;
  return JSON.stringify({told: told(e), sheet: Boolean(e.closest('#sheet')), seen: ring || e.matches('.editor'),
    number: [...document.querySelectorAll('*')].indexOf(e)}); })()""" % NAMED
STOPS = """(() => { %s
  return JSON.stringify([...document.querySelectorAll('button, input, select, textarea, summary, [tabindex="0"]')].filter((e) =>
    e.checkVisibility({visibilityProperty: true}) && e.getClientRects().length && !e.disabled && e.tabIndex === 0).map(told)); })()""" % NAMED


def unnamed(b):
    """Chromium's own tree for those who listen: every node that takes the focus has a name."""
    if b.name != "chromium":
        return []
    found = []
    for node in b.call("Accessibility.getFullAXTree")["nodes"]:
        has = {one["name"]: one["value"].get("value") for one in node.get("properties", [])}
        role = node.get("role", {}).get("value")
        if has.get("focusable") and not node.get("ignored") and role not in ("gridcell", "RootWebArea") and not node["name"].get("value"):
            found.append(f"{role} without a name")
    return found


def access(b, counts=None):
    """Every state in light and dark, wide and narrow."""
    counts = {} if counts is None else counts
    b.open(b.run("location.pathname"))
    for width in WIDTHS:
        b.size(*width)
        for state in STATES:
            state(b), b.settle()
            for dark in (False, True):
                b.dark(dark), b.settle()
                where = f"{state.__name__}, {width[0]} px, {'dark' if dark else 'light'}"
                if state is not typing:  # what is typed ends when the focus goes
                    b.still(True)
                told = json.loads(b.run(f"JSON.stringify({AUDIT.rstrip().rstrip(';')})"))
                wrong.extend(f"{where}: {one}" for one in told["found"])
                for kind, ratio in told["lowest"].items():
                    counts[kind] = min(counts.get(kind, 99), ratio)
                counts["states"] = counts.get("states", 0) + 1
                counts["elements"] = counts.get("elements", 0) + told["texts"]
            b.dark(False), b.still(False)
            wrong.extend(f"{state.__name__}: {one}" for one in unnamed(b))
            if state in (empty, sample, mapped, refused, offered, stations, site):
                same(f"{state.__name__}, stops of Tab", tabbed(b, f"{state.__name__}, {width[0]} px") > 5, True)
    b.size(*WIDTHS[0]), b.click("#view-lines"), b.click("#new"), b.settle()
    cleared(b)
    print(f"browser: {b.name}, {counts['states']} pictures of states, {counts['elements']:,} elements; least contrast: text "
          f"{counts['text']:.2f}, borders of controls {counts['edge']:.2f}, drawings {counts['drawn']:.2f}")


def main():
    for kind in asked(sys.argv[1:]):
        b = kind()
        try:
            b.open(PAGE)
            access(b)
        finally:
            b.close()
    print("\n".join(dict.fromkeys(wrong)))
    return 1 if wrong else 0


if __name__ == "__main__":
    sys.exit(main())
