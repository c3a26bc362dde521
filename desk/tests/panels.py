"""Real input into what stands beside the sheet: the map over two inputs, the licence, and cells with units."""
import json
import tempfile
import time
from pathlib import Path

from common import NAMES, ROOT, cell, plain, same, told
from hands import dropped
from hocsimbur import core
from hocsimbur.core import Refused
from hocsimbur.portfolio import decision, licence, reasons
from hocsimbur.sheets import layout, spreadsheet

def shown(b, row, name):
    return b.run(f"document.querySelector('{cell(row, name)}').textContent")


def imported(b, name, said, cautious=False):
    """What `import` says of a cell in line 7 of the sample: the digits and its sentences, or the refusal without its place."""
    lines = (ROOT / "examples/portfolio.csv").read_text().splitlines()
    cells = lines[6].split(",")
    cells[NAMES.index(name)] = f'"{said}"'
    lines[6] = ",".join(cells)
    try:
        made = spreadsheet.make("\n".join([*lines, ""]).encode(), cautious)
    except spreadsheet.Refusals as refusals:
        return refusals.said[0].split(": ", 1)[1]
    found = [one for one in made.changes.told() if one.startswith(("1 value", "1 diameter"))] + made.rounded
    return [layout.cells(layout.lines(made.sheet)[6])[NAMES.index(name)], "; ".join(found)]


def units(b):
    """Units and decimals in cells: taken as `import` takes them, rounded only where the person says so, all in its words."""
    b.click("#sample"), b.settle()
    for name, said in (("fault", "3.9kA"), ("shock", "0.4s"), ("clear", "18 cycles"), ("dia", "4/0"), ("split", "55%"), ("soil", "400.0"), ("space", "8m")):
        b.click(cell(5, name)), b.type(said), b.key("Enter"), b.settle()
        same(f"{said} taken", [shown(b, 5, name), text(b, "#said")], imported(b, name, said))
        same(f"{said} told at the cell", text(b, "#callout").startswith(f"{name} 1 "), True)
        same("and moved on", b.run("document.activeElement.dataset.r"), "6")
        b.key("z", 2), b.settle()
    for name, said in (("soil", "187.5"), ("thick", "4in"), ("xr", "16.2"), ("rodlen", "23ft"), ("dia", "11.75 mm"), ("layer", "2.00005 kohm m")):
        b.click(cell(5, name)), b.type(said), b.key("Enter"), b.settle()
        words = imported(b, name, said).removesuffix(", or give --round cautious")
        digits, report = imported(b, name, said, cautious=True)
        same(f"{said} stays", [shown(b, 5, name), told(b)[5][0].startswith("refused")], [said, True])
        same(f"{said} is told", text(b, "#callout").startswith(f"{name} {words}{report.rsplit(': ', 1)[1]}"), True)
        same("heard", plain(b.run("document.getElementById('live').textContent")), f"{words}; Enter writes {digits}")
        same("not moved on", b.run("document.activeElement.dataset.r + document.activeElement.dataset.c"), f"5{NAMES.index(name)}")
        b.key("Enter") if name != "thick" else b.click("#callout button")
        b.settle()
        same(f"{said} rounded", [shown(b, 5, name), text(b, "#said")], [digits, report.split("; 1 value")[-1].split("); ")[-1]])
        b.key("z", 2), b.settle()
        same("one step", shown(b, 5, name), said)
        b.key("z", 2), b.settle()
    for name, said in (("depth", "18in"), ("space", "23.5ft"), ("rods", "4.5"), ("fault", "4 kg"), ("shock", "-5")):
        b.click(cell(5, name)), b.type(said), b.key("Enter"), b.settle()
        if name != "fault":
            same(f"{said} has no side", text(b, "#callout"), f"{name} {imported(b, name, said)}")
            same("no button", b.run("document.querySelector('#callout button')"), None)
        b.key("Escape"), b.click("#undo"), b.settle()
    b.click(cell(4, "soil")), b.paste("187.5\t2.5 kohm m\t4in\t0.5s"), b.settle()
    same("pasted", [shown(b, 4, name) for name in ("soil", "layer", "thick", "shock")], ["187.5", "2500", "4in", "500"])
    same("told", text(b, "#said").startswith("1 line pasted; 1 value: kohm m made Ω·m (line 6, layer, 2.5 kohm m is 2500); 1 value: s made ms "
                                             "(line 6, shock, 0.5s is 500); left as it is: line 6, soil: 187.5 is not"), True)
    b.click(cell(4, "thick")), b.settle()
    same("by layer and soil", text(b, "#callout"), "thick 4in is 101.6 mm, not a whole number of mm; the cautious side is down where the layer "
                                                   "is more resistive than the soil, else up")
    b.click(cell(4, "soil")), b.key("Enter"), b.click(cell(4, "thick")), b.key("Enter"), b.settle()
    same("one after the other", [shown(b, 4, name) for name in ("soil", "thick")], ["188", "101"])
    same("judged", told(b)[4][0], "safe")
    folder = Path(tempfile.mkdtemp(prefix="desk-"))
    sheet = (ROOT / "examples/portfolio.csv").read_text().replace(",8900,", ",8.9kA,")
    (folder / "units.csv").write_text(sheet)
    count = sheet.count("8.9kA")
    same("opened", dropped(b, folder / "units.csv"), f"units.csv: 36 lines; {count} values: kA made A (line 2, fault, 8.9kA is 8900)")
    same("not as in its file", text(b, "#name"), "units.csv (not saved)")
    same("no warning", b.run("document.getElementById('said').className"), "")
    b.click("#sample"), b.settle()


HEADS = {"soil": "Soil [ohm m]", "thick": "thick (in)", "shock": "shock [cycles]", "fault": "Fault current (kA)", "space": "space (m)",
         "depth": "Depth (m)"}
UNDER = dict(zip(NAMES, "9,1,400,2500,4,30,500,500,70,3.18,600,10,11,11,7,0.5,100,0,0,0,1,60".split(",")))


def table(sign, *called, **heads_):
    """A text as a spreadsheet writes it: a title, heads with units, and a line for each name of a station."""
    names_ = ["name", *({**dict(zip(NAMES, NAMES)), **HEADS, **heads_}.values())]
    lines = [[one, *{**UNDER, "season": str(season)}.values()] for season, one in enumerate(called, 1)]
    return "".join(sign.join(line) + "\n" for line in [["Yards of 2026"], names_, *lines])


def heads(b):
    """A title, units in the heads of columns and names of stations, pasted and opened: read as by `import`, in its words."""
    b.click("#new"), b.click(cell(0, "station")), b.paste(table("\t", "Elm")), b.settle()
    cells = ("soil", "thick", "shock", "fault", "space", "depth")
    same("by their heads", [shown(b, 0, name) for name in cells], ["400", "4 in", "500", "3180", "7000", "500"])
    whole = spreadsheet.make(table("\t", "Elm").replace("\t4\t", "\t5\t").encode())
    wanted = "; ".join(one.replace("line 3,", "line 2,") for one in whole.changes.told() if "tabs made commas" not in one)
    said = b.said()
    same("told", said.split("; left as it is: ")[0],
         "1 line pasted; " + wanted.replace("1 value: in made mm (line 2, thick, 5 is 127)", "")
         .replace("; ; ", "; ").rstrip("; "))
    same("left", said.split("; left as it is: ")[1].startswith("line 2, thick: 4 is 101.6 mm, not a whole number of mm; the cautious"),
         True)
    b.click(cell(0, "thick")), b.key("Enter"), b.settle()
    same("rounded", [shown(b, 0, "thick"), told(b)[0][0]], ["101", "unsafe"])
    b.key("F2")
    same("a keyboard with letters", b.run("document.activeElement.inputMode"), "text")
    b.key("Escape"), b.click("#view-stations"), b.settle()
    same("named", b.run("document.querySelector('[data-key=\"9 name\"]').value"), "Elm")
    same("all seasons are asked", text(b, "#stations .why").split("; ")[1], "seasons 2, 3 and 4 have no line")
    b.click("#view-lines"), b.click(cell(0, "station")), b.paste(table("\t", "Elm", depth="Depth (kA)")), b.settle()
    same("another unit", b.said(), "Nothing was pasted: line 2, depth (column 17): "
                                   "'Depth (kA)' has the unit 'kA'; depth may have mm, cm, m, in or ft")
    same("the sheet stays", shown(b, 0, "depth"), "500")
    folder = Path(tempfile.mkdtemp(prefix="desk-"))
    (folder / "heads.csv").write_text(table(";", "Elm", "Elm", thick="thick (mm)", remark="remark").replace(";4;", ";102;"))
    (folder / "twice.csv").write_text(table(";", "Elm", "Ash"))
    same("opened", dropped(b, folder / "heads.csv").split("; ")[:2],
         ["heads.csv: 2 lines", "1 line above the names: left out (line 1, 'Yards of 2026')"])
    same("judged", [line[0] for line in told(b)], ["unsafe", "unsafe"])
    same("not as in its file", text(b, "#name"), "heads.csv (not saved)")
    same("two names", dropped(b, folder / "twice.csv"),
         "twice.csv was not opened: line 4, name (column 1): station 9 is 'Ash' here and 'Elm' above")
    b.click("#sample"), b.settle()


YARDS = """JSON.stringify([...document.querySelectorAll('.map td')].map(e => [e.dataset.key, e.title]))"""


def text(b, query):
    return plain(b.run(f"document.querySelector({json.dumps(query)}).textContent"))


def chosen(b, place, name):
    """An input of the map, chosen in its list."""
    b.run(f"(() => {{ const s = document.querySelectorAll('#whatif select')[{place}]; s.value = '{name}';"
          " s.dispatchEvent(new Event('change')); })()"), b.settle()


def answered(case):
    """What the native library says of a yard, as a cell of the map has it."""
    try:
        return core.rows(layout.text([case]))[0].verdict.name.lower()
    except Refused as refused:
        return f"refused, number {refused.number}"


def outside(b):
    """The counts are the command's, and a station that the licence does not name is not asked."""
    b.click("#sample"), b.settle()
    sheet, granted = ((ROOT / "examples" / f"{name}.csv").read_bytes() for name in ("portfolio", "licence"))
    whole = decision.portfolio(sheet, licence.read(granted))
    counted = reasons.totals(reasons.summed(reasons.counts(one) for one in whole.stations), True)
    same("totals", text(b, "#totals"), "".join(part for told in counted for part in told))
    b.click(cell(36, "station")), b.paste("9\t1\t130\t2500\t102\t500\t500\t1000\t70\t8900\t420\t14\t12\t12\t6000\t600\t134\t24\t3000\t1\t2\t60")
    b.settle()
    same("the same totals", text(b, "#totals"), "".join(part for told in counted for part in told))
    b.click(cell(36, "soil")), b.settle()
    same("not asked", text(b, "#station .decision"), "Not asked: Station 9 of the sheet is not in the licence, and nothing is said of it.")
    b.click("#view-stations"), b.settle()
    same("its group", "Not in the licence (1)" in text(b, "#stations"), True)
    b.click("#stations input[aria-label='Season 1 of station 9 is in the licence']"), b.settle()
    same("ticked it is asked", text(b, "#totals").startswith("14 stations: 5 released, 9 held. "), True)
    b.click("#undo"), b.click("#undo"), b.click("#view-lines"), b.settle()


LEAVING = """(() => { const e = new Event('beforeunload', {cancelable: true}); dispatchEvent(e); return e.defaultPrevented; })()"""


EMPTIED = "for (const id of ['readings', 'currents', 'side']) document.getElementById(id).value = ''"


def typed(b, key, said):
    """A text typed into a field of the licence in the place of what stands there."""
    b.run(f"document.querySelector('[data-key=\"{key}\"]').select()"), b.insert(said), b.key("Enter"), b.settle()


def saved(b, button, *names):
    """The files that the browser saved at a click of a button, as texts."""
    folder = Path(tempfile.mkdtemp(prefix="desk-"))
    b.saves_to(folder)
    b.click(button)
    for _ in range(60):
        if all((folder / name).exists() for name in names):
            break
        time.sleep(0.05)
    return [(folder / name).read_bytes() if (folder / name).exists() else b"" for name in names]


def licensing(b):
    """Names and wires are typed into the licence, refused in the command's words, saved with the sheet, and read by the command."""
    b.click("#sample"), b.click("#view-stations"), b.settle()
    b.run(EMPTIED)
    same("nothing to lose", b.run(LEAVING), False)
    typed(b, "104 name", 'Birch "Hollow"; <b>east</b>')
    typed(b, "118 wire", "4/0")
    same("its own area", "495 of 211 too small" in text(b, "#stations"), True)
    same("the focus stays", b.run("document.activeElement.dataset.key"), "118 wire")
    same("a licence to lose", [b.run(LEAVING), text(b, "#name")], [True, "portfolio.csv (not saved)"])
    typed(b, "110 wire", "95")
    try:
        licence.read(b"station,name,seasons,wire\n7,a,1,95\n")
    except licence.LicenceRefused as refused:
        same("refused at the cell", text(b, "#wire-110-refused"), str(refused).removeprefix("licence line 2, "))
    same("and marked", b.run("document.querySelector('[data-key=\"110 wire\"]').getAttribute('aria-invalid')"), "true")
    sheet, granted = saved(b, "#save", "portfolio.csv", "licence.csv")
    same("the sheet", sheet, (ROOT / "examples/portfolio.csv").read_bytes())
    whole = licence.read(granted)
    same("what is saved", [(one.station, one.name, one.wire) for one in whole.stations if one.station in (104, 110, 118)],
         [(104, 'Birch "Hollow"; <b>east</b>', ""), (110, "Carrow Mill", ""), (118, "Dunmore", "4/0")])
    same("what is refused is still to lose", b.run(LEAVING), True)
    b.run("document.querySelector('[data-key=\"110 wire\"]').focus()"), b.key("Escape"), b.settle()
    same("given up", [b.run(LEAVING), b.run("document.querySelector('#wire-110-refused')")], [False, None])
    asked = decision.portfolio(sheet, whole)
    counted = reasons.totals(reasons.summed(reasons.counts(one) for one in asked.stations), True)
    same("the command's totals", text(b, "#totals"), "".join(part for told in counted for part in told))
    b.click("#undo"), b.settle()
    same("one step", b.run("document.querySelector('[data-key=\"118 wire\"]').value"), "")
    b.click("#view-lines"), b.click("#new"), b.click(cell(0, "station"))
    b.paste("\n".join("\t".join(str(case[name]) for name in NAMES) for case in layout.cases(sheet)[:6])), b.settle()
    b.click("#view-stations"), b.settle()
    same("no licence", "No licence was handed over" in text(b, "#stations"), True)
    typed(b, "101 name", "Ash")
    same("a licence of both", saved(b, "#licence", "licence.csv"), [b"station,name,seasons\n101,Ash,1 2 3 4\n104,,1 2 3 4\n"])
    b.click("#view-site"), b.click("#new"), b.settle()
    b.run(EMPTIED)
    same("no text", b.run(LEAVING), False)
    b.click("#readings"), b.insert("2.5 7.3\n5 3"), b.settle()
    same("a text to lose", b.run(LEAVING), True)
    same("readings", saved(b, "#readings-said [data-key='save readings']", "readings.csv"), [b"metres,ohms\n2.5,7.3\n5,3\n"])
    same("saved", b.run(LEAVING), False)
    b.run("document.getElementById('readings').value = ''"), b.click("#view-lines"), b.settle()


def mapped(b):
    """The map over two inputs: every cell is the native library's answer; a click or Enter takes both values over, in one step."""
    b.click("#sample"), b.click(cell(5, "rods")), b.click("#varied [data-key='two inputs']"), b.settle()
    case = layout.cases((ROOT / "examples/portfolio.csv").read_bytes())[5]
    found = json.loads(b.run(YARDS))
    same("cells", len(found) > 200, True)
    for key, title in found:
        rods, space = (int(one) for one in key.removeprefix("yard ").split(","))
        rodlen, place = (case["rodlen"], case["place"]) if rods else (0, 0)
        made = {**case, "rods": rods, "rodlen": rodlen, "place": place, "space": space}
        same(f"yard {key}", title.split(": ", 1)[1].removesuffix(", the present values"), answered(made))
    same("the present values", b.run("document.querySelector('.map td.now').dataset.key"), f"yard {case['rods']},{case['space']}")
    same("one cell in the order of Tab", b.run("document.querySelectorAll('.map td[tabindex=\"0\"]').length"), 1)
    values = [f"document.querySelector('{cell(row, name)}').textContent" for row in (4, 5) for name in ("rods", "space")]
    b.click(".map td[data-key='yard 60,8000']"), b.settle()
    same("both taken over, in both lines", [b.run(one) for one in values], ["60", "8000"] * 2)
    same("and marked", b.run("document.querySelector('.map td.now').dataset.key"), "yard 60,8000")
    b.click("#undo"), b.settle()
    same("one step", [b.run(one) for one in values], ["20", "7000"] * 2)
    b.run("document.querySelector('.map td.now').focus()"), b.key("ArrowRight"), b.key("ArrowDown"), b.settle()
    same("told", text(b, "#whatif .readout").startswith("Rods 30, Spacing 8 m: "), True)
    b.key("Enter"), b.settle()
    same("by keys", [b.run(one) for one in values], ["30", "8000"] * 2)
    same("the focus stays", b.run("document.activeElement.dataset.key"), "yard 30,8000")
    b.click("#undo"), b.settle()
    chosen(b, 0, "thick"), chosen(b, 1, "layer")
    same("a rule is broken", [title for key, title in json.loads(b.run(YARDS)) if key.startswith("yard 0,")][0].split(": ")[1],
         "refused, number 6")
    chosen(b, 0, "layer")
    same("chosen twice they change places", b.run("[...document.querySelectorAll('#whatif select')].map(e => e.value).join()"), "layer,thick")
    b.size(375, 812), b.settle()
    same("as wide as the screen", b.run("document.documentElement.scrollWidth <= innerWidth"), True)
    b.size(1280, 900), b.settle(), chosen(b, 0, "rods"), chosen(b, 1, "space"), b.click("#varied [data-key='one input']"), b.settle()


def reached(b, most=400):
    """What Tab reaches from where the focus is, one after the other, up to the end of the page."""
    found = []
    for _ in range(most):
        b.key("Tab")
        found.append(b.run("(e => e.dataset.key || e.id || e.tagName)(document.activeElement)"))
        if found[-1] == "BODY" or found[-2:-1] == found[-1:]:  # past the end the focus is the browser's
            break
    b.front()
    return found


def by_keys(b):
    """Keys alone reach every control that is new, and each has a name."""
    b.click("#sample"), b.click(cell(5, "rods")), b.key("Escape")
    there = reached(b)
    same("the choice", [key in there for key in ("one input", "two inputs", "rods")], [True] * 3)
    b.run("document.querySelector('#varied [data-key=\"two inputs\"]').focus()"), b.key("Enter"), b.settle()
    there = reached(b)
    same("the map", [one for one in there if one.startswith(("map ", "yard "))], ["map 0", "map 1", "yard 20,7000"])
    b.run("document.querySelector('#varied [data-key=\"one input\"]').focus()"), b.key("Enter"), b.settle()
    b.run("document.getElementById('view-stations').focus()"), b.key("Enter"), b.settle()
    there = reached(b)
    same("the licence", [key in there for key in ("104", "104 name", "104-1", "104 wire", "licence")], [True] * 5)
    b.run("document.getElementById('view-site').focus()"), b.key("Enter"), b.settle()
    for place, said in (("readings", "1 10.4"), ("currents", "1000 0\n400 0"), ("side", "60")):
        b.run(f"document.getElementById('{place}').focus()"), b.insert(said), b.settle()
    b.run("document.getElementById('view-site').focus()")
    there = reached(b)
    same("the site", [key in there for key in ("readings", "soil", "save readings", "currents", "split", "save currents", "side", "yard", "tried")],
         [True] * 9)
    unnamed = """JSON.stringify([...document.querySelectorAll('button, input, select, textarea, summary, [role=grid], [role=gridcell]')]
      .filter(e => e.getClientRects().length && !(e.labels?.length || e.getAttribute('aria-label') || e.textContent.trim()))
      .filter(e => !e.closest('#sheet')).map(e => e.outerHTML.slice(0, 80)))"""
    for view in ("lines", "stations", "site"):
        b.click(f"#view-{view}"), b.settle()
        same(f"without a name, {view}", json.loads(b.run(unnamed)), [])
    b.run(EMPTIED), b.click("#view-lines"), b.click("#new"), b.settle()
