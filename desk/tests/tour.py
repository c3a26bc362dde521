"""A tour by keyboard alone: a yard is entered cell by cell, refused in words, mended, undone and done again, varied, licensed and saved.

No step uses the mouse, and no element is given the focus but by a key."""
import json
import re
import tempfile
import time
from pathlib import Path

from common import NAMES, cell, plain, same, told
from hocsimbur.portfolio import licence
from hocsimbur.sheets import layout

YARD = "7,1,400,2500,102,500,500,500,70,3180,600,10,11,11,7000,500,100,4,3000,1,1,60".split(",")
HERE = "(e => e.dataset.key ?? (e.dataset.c ? e.dataset.r + ',' + e.dataset.c : e.id))(document.activeElement)"


def text(b, query):
    return plain(b.run(f"document.querySelector({json.dumps(query)})?.textContent ?? ''"))


def go(b, wanted, back=False):
    """Tab until what has this key or id has the focus; where that is in the sheet Escape first."""
    for _ in range(150):
        here = b.run(HERE)
        if here == wanted:
            return
        if "," in (here or "") and not here.startswith("yard"):
            b.key("Escape")
        b.key("Tab", 8 if back else 0)
    same(f"Tab comes to {wanted}", b.run(HERE), wanted)


def heard(b):
    """What those who listen hear."""
    return plain(b.run("document.getElementById('live').textContent"))


def tour(b):
    b.open(b.run("location.pathname"))  # a page as it is opened
    b.front(), b.settle()
    go(b, "type"), b.key("Enter"), b.settle()
    same("the first cell", b.run(HERE), "0,0")
    for value in YARD:
        b.type(value), b.key("Tab")
    b.settle()
    same("a line is typed", [told(b)[0][0], b.run(HERE)], ["unsafe", "1,0"])
    same("heard", heard(b), "line 2 unsafe, touch 4.8 % above")
    b.key("ArrowUp"), b.settle()
    depth = NAMES.index("depth")
    b.press(["ArrowRight"] * depth), b.type("60"), b.key("Enter"), b.key("ArrowUp"), b.settle()
    same("refused in words", told(b)[0], ["refuseddepth: 60 mm is not in 250..2500"])
    same("at the cell", text(b, "#callout"), "depth 60 mm is not in 250..2500line 2, depth (column 16); refusal 5")
    same("described", b.run("document.activeElement.getAttribute('aria-describedby')"), "callout")
    b.key("F2"), b.key("End"), b.key("0"), b.key("Enter"), b.key("ArrowUp"), b.settle()
    same("mended", [told(b)[0][0], text(b, cell(0, "depth"))], ["unsafe", "600"])
    same("heard", heard(b).startswith("line 2 unsafe, touch "), True)
    b.key("z", 2), b.settle()
    same("undone", [text(b, cell(0, "depth")), told(b)[0][0].startswith("refused")], ["60", True])
    b.key("y", 2), b.settle()
    same("done again", [text(b, cell(0, "depth")), told(b)[0][0]], ["600", "unsafe"])
    b.key("z", 10), b.settle()
    same("nothing more to do again", text(b, cell(0, "depth")), "600")
    b.key("Home"), b.key(" ", 8), b.settle()
    same("the whole line", b.copy().split("\t"), [*YARD[:depth], "600", *YARD[depth + 1:]])
    b.key("ArrowRight"), b.press(["ArrowRight"] * (NAMES.index("rods") - 1)), b.settle()
    # what if: the curve of the chosen column
    go(b, "plot"), b.key("End"), b.key("ArrowLeft"), b.settle()
    same("a value of the curve", b.run("document.activeElement.getAttribute('aria-valuenow')"), "199")
    same("in words", plain(b.run("document.activeElement.getAttribute('aria-valuetext')")).startswith("199 mesh "), True)
    b.key("Enter"), b.settle()
    same("taken over", [text(b, cell(0, "rods")), b.run(HERE)], ["199", "plot"])
    same("said", plain(b.said()), "Rods 199, was 4")
    b.key("z", 2), b.settle()
    same("one step", text(b, cell(0, "rods")), "4")
    go(b, "fault", True), b.key(" "), b.settle()
    go(b, "plot"), b.key("Home"), b.key("PageUp"), b.key("Enter"), b.settle()
    same("another input, and safe", [int(text(b, cell(0, "fault"))) < 3180, told(b)[0][0]], [True, "safe"])
    # the map
    go(b, "two inputs", True), b.key("Enter"), b.settle()
    same("the map", b.run("document.querySelectorAll('.map td').length > 100"), True)
    go(b, "map 0")
    same("its input", b.run("document.activeElement.value"), "rods")
    for _ in range(10):
        if b.run(HERE).startswith("yard"):
            break
        b.key("Tab")
    b.key("ArrowRight"), b.settle()
    yard = b.run(HERE)
    b.key("Enter"), b.settle()
    same("both taken over", [text(b, cell(0, "rods")), text(b, cell(0, "space"))], re.findall(r"\d+", yard))
    b.key("z", 2), b.settle()
    go(b, "one input", True), b.key(" "), b.settle()
    # the views, by the arrows of their tabs
    go(b, "view-lines", True), b.key("ArrowRight"), b.settle()
    same("stations", [b.run(HERE), b.run("document.getElementById('panel-stations').hidden")], ["view-stations", False])
    go(b, "7 name"), b.type("Elm"), b.key("Enter"), b.settle()
    go(b, "7-3"), b.key(" "), b.settle()
    same("a season is taken out", text(b, "#stations .why"), "Seasons 2 and 4 have no line")
    go(b, "7-2", True), b.key(" "), go(b, "7-4"), b.key(" "), b.settle()
    same("released", text(b, "#stations .badge"), "RELEASED")
    go(b, "view-stations", True), b.key("End"), b.settle()
    same("site", [b.run(HERE), b.run("document.getElementById('panel-site').hidden")], ["view-site", False])
    go(b, "readings"), b.type("2 10"), b.key("Enter"), b.type("4 5"), b.settle()
    same("soil", text(b, "#readings-said b"), "column soil: 126 Ω·m")
    go(b, "soil"), b.key("Enter"), b.settle()
    go(b, "side"), b.type("70"), b.settle()
    same("fewest", " conductors each way" in text(b, "#side-said b"), True)
    go(b, "tried"), b.key(" "), b.settle(), time.sleep(0.05), b.settle()
    same("the yards tried", b.run("document.querySelectorAll('.tried tbody tr').length > 0"), True)
    b.key(" "), b.settle()
    go(b, "view-site", True), b.key("ArrowRight"), b.settle()
    same("round to the lines", b.run(HERE), "view-lines")
    folder = Path(tempfile.mkdtemp(prefix="desk-"))
    b.saves_to(folder), b.key("s", 2)
    for _ in range(60):
        if (folder / "yards.csv").exists() and (folder / "licence.csv").exists():
            break
        time.sleep(0.05)
    time.sleep(0.1)
    [case] = layout.cases((folder / "yards.csv").read_bytes())
    granted = licence.read((folder / "licence.csv").read_bytes()).stations
    same("saved", [case["soil"], case["depth"], [(one.station, one.name, one.seasons) for one in granted]], [126, 600, [(7, "Elm", (1,))]])
    same("said", b.said(), "yards.csv and licence.csv saved by the browser as downloads")
    same("the name", text(b, "#name"), "yards.csv")
    go(b, "new", True), b.key("Enter"), b.settle()
