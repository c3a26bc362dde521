"""What the tests of the page share: the product's modules, the cells of the sheet, and what was found wrong."""
import json
import sys
from pathlib import Path

HERE = Path(__file__).resolve().parent
ROOT = HERE.parents[1]
PAGE = ROOT / "target/desk/hocsimbur.html"
sys.path[:0] = [str(ROOT / "python"), str(HERE)]
sys.dont_write_bytecode = True
from hocsimbur.sheets import names  # noqa: E402

NAMES = [name.name for name in names.NAMES]
wrong = []


def same(what, found, wanted):
    if found != wanted:
        wrong.append(f"{what}: {found!r}, not {wanted!r}")


def cell(row, name):
    return f'#sheet td[data-r="{row}"][data-c="{NAMES.index(name)}"]'


def plain(text):
    return text.replace("\u00a0", " ").strip()


def told(browser):
    """What the page says of each line: verdict, nearest limit, wire, fault; or the refusal."""
    return json.loads(browser.run("""JSON.stringify([...document.querySelectorAll('#sheet tbody tr:not(.blank, .space)')].map(tr =>
      [...tr.querySelectorAll('[class^=r-]')].filter(td => !td.hidden).map(td => td.textContent)))"""))
