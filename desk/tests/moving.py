"""Real input: moving in the sheet as in a spreadsheet, lines chosen and removed, files of several kinds, and what the page says beside it."""
import json
import tempfile
from pathlib import Path

from common import NAMES, cell, plain, same
from hands import dropped

AT = "document.activeElement.dataset.r + ',' + document.activeElement.dataset.c"
LAST = len(NAMES) - 1


def text(b, query):
    return plain(b.run(f"document.querySelector({json.dumps(query)})?.textContent ?? ''"))


def at(b, *keys, modifiers=0):
    """Where the focus is after some keys."""
    b.press(keys, modifiers), b.settle()
    return tuple(map(int, b.run(AT).split(",")))


def moving(b):
    """Arrows, Home, End, pages, Ctrl with arrows; past the last column the next line begins; lines by their numbers; fill, select, edit."""
    b.click("#sample"), b.settle()
    same("opened at its first cell", b.run(AT), "0,0")
    same("not above the first", at(b, "ArrowUp", "ArrowLeft"), (0, 0))
    same("End", at(b, "End"), (0, LAST))
    same("Tab past the end", at(b, "Tab"), (1, 0))
    same("and back", at(b, "Tab", modifiers=8), (0, LAST))
    same("Home", at(b, "Home"), (0, 0))
    same("a page", [at(b, "PageDown"), at(b, "PageUp")], [(10, 0), (0, 0)])
    same("Enter", [at(b, "Enter"), at(b, "Enter", modifiers=8)], [(1, 0), (0, 0)])
    same("to the end of what is filled", at(b, "ArrowDown", modifiers=2), (35, 0))
    same("and to the last row", at(b, "ArrowDown", modifiers=2), (39, 0))
    same("back to what is filled", at(b, "ArrowUp", modifiers=2), (35, 0))
    same("to the side", at(b, "ArrowRight", modifiers=2), (35, LAST))
    same("the whole sheet", [at(b, "Home", modifiers=2), at(b, "End", modifiers=2)], [(0, 0), (35, LAST)])
    b.key("a", 2), b.settle()
    same("all lines", [len(b.copy().split("\n")), len(b.copy().split("\n")[0].split("\t"))], [36, len(NAMES)])
    b.click(cell(2, "soil")), b.key("d", 2), b.settle()
    same("as the line above", text(b, cell(2, "soil")), text(b, cell(1, "soil")))
    b.click("#undo"), b.settle()
    same("and not before", text(b, cell(2, "soil")) == text(b, cell(1, "soil")), False)
    # typing: arrows end it, F2 keeps them in the text
    b.click(cell(3, "soil")), b.type("9"), b.key("ArrowRight"), b.settle()
    same("an arrow ends what is typed", [text(b, cell(3, "soil")), b.run(AT)], ["9", "3,3"])
    b.key("z", 2), b.click(cell(3, "soil")), b.key("F2"), b.key("End"), b.key("ArrowLeft"), b.type("7"), b.settle()
    same("F2 keeps them", b.run("document.activeElement.value").count("7"), 1)
    b.key("Tab"), b.settle()
    same("in the text", [text(b, cell(3, "soil"))[-2], b.run(AT)], ["7", "3,3"])
    b.key("z", 2), b.click(cell(3, "soil")), b.type("19"), b.key("F2"), b.key("ArrowLeft"), b.type("7"), b.key("Enter"), b.settle()
    same("F2 while typing", text(b, cell(3, "soil")), "179")
    b.key("z", 2), b.settle()
    b.click(cell(3, "soil")), b.type("8"), b.key("Enter", 8), b.settle()
    same("Shift and Enter go up", b.run(AT), "2,2")
    b.key("z", 2), b.settle()
    # lines
    b.click('#sheet th.ln[data-r="4"]'), b.settle()
    same("a line by its number", len(b.copy().split("\t")), len(NAMES))
    x, y = b.centre('#sheet th.ln[data-r="2"]')
    b.mouse("mouseMoved", x, y), b.mouse("mousePressed", x, y)
    x, y = b.centre('#sheet th.ln[data-r="4"]')
    b.mouse("mouseMoved", x, y), b.mouse("mouseReleased", x, y), b.settle()
    same("several by drawing", len(b.copy().split("\n")), 3)
    first = text(b, cell(5, "soil"))
    b.click("#remove"), b.settle()
    same("removed", [text(b, cell(2, "soil")), text(b, "#totals").startswith("13 stations")], [first, True])
    b.click("#undo"), b.settle()
    x, y = b.centre(cell(2, "soil"))
    b.mouse("mouseMoved", x, y), b.mouse("mousePressed", x, y)
    x, y = b.centre(cell(4, "thick"))
    b.mouse("mouseMoved", x, y), b.mouse("mouseReleased", x, y), b.settle()
    same("a range by drawing", [len(b.copy().split("\n")), len(b.copy().split("\n")[0].split("\t"))], [3, 3])
    same("is marked", b.run("document.querySelectorAll('#sheet td.in').length"), 9)
    # a paste with names goes under its own names, wherever the chosen cell is
    b.click("#new"), b.click(cell(0, "fault"))
    b.paste("soil\tfault\n130\t4100\n"), b.settle()
    same("under its names", [text(b, cell(0, "soil")), text(b, cell(0, "fault"))], ["130", "4100"])
    same("said", b.said().startswith("1 line pasted; "), True)
    b.click("#new"), b.settle()
    b.click("#undo"), b.settle()
    same("undone", [text(b, cell(0, "soil")), b.said()], ["130", "undone: new sheet"])
    b.click("#redo"), b.settle()
    same("done again", [text(b, cell(0, "soil")), b.said()], ["", "done again: new sheet"])


def telling(b):
    """Words beside the sheet: heads and units, the hint of a column, the name, live words, and files that are refused or told."""
    heads = json.loads(b.run("""JSON.stringify([...document.querySelectorAll('#sheet thead tr:last-child th')].map((e) =>
      [e.firstChild.textContent, e.querySelector('small').textContent.trim()]))"""))
    same("heads", [heads[NAMES.index(name)][1] for name in ("soil", "split", "dia", "space", "xr")], ["Ω·m", "‰", "0.1 mm", "mm", ""])
    same("answers", [tuple(one) for one in heads[len(NAMES):]], [("Verdict", ""), ("Nearest limit", ""), ("Wire", "kcmil"), ("Safe up to", "A")])
    same("heads are the names", [one[0] for one in heads[:len(NAMES)]], NAMES)
    same("groups", b.run("[...document.querySelectorAll('#sheet thead .g')].map((e) => e.textContent + e.colSpan).join()"),
         "Line2,Ground3,Times, body4,Fault3,Grid5,Rods3,System2,Answers of the library4")
    b.click("#sample"), b.settle()
    same("said", b.said(), "Sample portfolio: 36 lines, and a licence of 13 stations")
    b.click(cell(5, "metal")), b.settle()
    same("the metal of a number", text(b, "#hint").startswith("metal: copper"), True)
    b.click(cell(5, "soil")), b.settle()
    same("the meaning of a column", [text(b, "#hint").startswith("soil: "), text(b, "#hint").endswith("10..5000")], [True, True])
    same("which line", text(b, "#title h2"), "104 Birch Hollow, east yard season 2, line 7")
    b.type("100"), b.key("Enter"), b.settle()
    same("not saved", text(b, "#name"), "portfolio.csv (not saved)")
    b.key("z", 2), b.settle()
    same("heard", text(b, "#live").startswith("line 8 safe, "), True)
    # red where the line's own fault current is above what is safe
    red = "document.querySelector('#sheet td[data-r=\"%d\"]').parentNode.querySelector('.r-upto span').className"
    same("above what is safe", [b.run(red % 5), b.run(red % 0)], ["red", ""])
    same("a bar in words", plain(b.run("document.querySelector('#sheet td[data-r=\"5\"]').parentNode.querySelector('.bar').getAttribute('aria-label')"))
         .startswith("mesh at 1"), True)
    folder = Path(tempfile.mkdtemp(prefix="desk-"))
    names = ",".join(NAMES)
    line = "7,1,400,2500,102,500,500,500,70,3180,600,10,11,11,7000,500,100,4,3000,1,1,60"
    for name, lines, said in (("bare.csv", [line], "bare.csv: 1 line; no line of names: the columns were taken in the order of the sheet"),
                              ("wide.csv", [line + ",5"], "wide.csv: 1 line; values past the last column were left out; no line of names: the columns "
                                                          "were taken in the order of the sheet"),
                              ("two.csv", [names, line, line.replace("7,1", "7,2", 1)], "two.csv: 2 lines"),
                              ("readings.csv", ["metres,ohms", "2.5,7.3"], "readings.csv: four-pin readings, in the Site view"),
                              ("currents.csv", ["in_phase,quadrature", "1000,0"], "currents.csv: a staged test, in the Site view")):
        (folder / name).write_text("\n".join([*lines, ""]))
        same(name, dropped(b, folder / name), said)
    same("read", b.run("[document.getElementById('readings').value, document.getElementById('currents').value].join('|')"), "2.5 7.3|1000 0")
    same("its name", text(b, "#name"), "two.csv")
    for place in ("readings", "currents"):
        b.run(f"document.getElementById('{place}').value = ''")
    # a line for the next season, and a fifth has none left
    b.click(cell(1, "soil")), b.click("#season"), b.settle()
    same("the next season", [text(b, cell(2, "season")), b.run(AT), b.said()], ["3", "2,2", "season 3 of station 7, a copy: set its soil"])
    b.click("#season"), b.click("#season"), b.settle()
    same("none is left", b.said(), "a copy; all four seasons have a line already")
    b.click("#new"), b.settle()
    same("a new sheet", [b.said(), text(b, "#name")], ["New sheet; undo brings the former one back", "new sheet"])
    same("the page is empty", b.run("document.body.classList.contains('empty')"), True)
