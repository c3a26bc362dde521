"""Real input: keys, pasted text, ranges, the curve, dropped files."""
import hashlib
import json
import re
import tempfile
import time
from pathlib import Path

from common import NAMES, ROOT, cell, plain, same, told
from hocsimbur import core
from hocsimbur.portfolio import licence


def keys(b):
    """Typing, moving, undo, refusal, completion."""
    b.click(cell(0, "station"))
    line = "7,1,400,2500,102,500,500,500,70,3180,600,10,11,11,7000,500,100,0,0,0,1,60".split(",")
    for value in line:
        b.type(value), b.key("Tab")
    b.settle()
    same("typed line", told(b)[0][0], "unsafe")
    same("after the last column", b.run("document.activeElement.dataset.r + ',' + document.activeElement.dataset.c"), "1,0")
    b.click(cell(0, "soil")), b.type("100")
    same("while typing", told(b)[0][0], "safe")
    b.key("Escape"), b.settle()
    same("after Escape", told(b)[0][0], "unsafe")
    b.type("100"), b.key("Enter"), b.settle()
    same("after Enter", told(b)[0][0], "safe")
    b.key("z", 2), b.settle()
    same("after undo", told(b)[0][0], "unsafe")
    b.key("y", 2), b.settle()
    same("after redo", told(b)[0][0], "safe")
    b.click(cell(0, "depth")), b.type("60"), b.key("Enter"), b.key("ArrowUp"), b.settle()
    same("refused", told(b)[0], ["refuseddepth: 60 mm is not in 250..2500"])
    same("at the cell", plain(b.run("document.getElementById('callout').textContent")),
         "depth 60 mm is not in 250..2500line 2, depth (column 16); refusal 5")
    same("the cell is marked", b.run(f"document.querySelector('{cell(0, 'depth')}').getAttribute('aria-invalid')"), "true")
    b.key("z", 2), b.settle()
    b.click(cell(0, "station")), b.key("End", 8), b.run("document.execCommand('copy')")
    b.key("ArrowDown"), b.key("Home")
    b.paste("\t".join(["7", "2"] + line[2:])), b.settle()
    same("pasted below", told(b)[1][0], "unsafe")
    b.paste("\t".join(["7", "1"] + line[2:])), b.settle()
    same("twice", told(b)[1], ["refusedstation 7, season 1 stands already in line 2; a station has one line for a season"])
    b.key("z", 2), b.key("z", 2), b.settle()


def ranges(b):
    """Ranges: chosen with Shift, copied, cut, filled down, cleared; lines added and removed."""
    def text(row, name):
        return b.run(f"document.querySelector('{cell(row, name)}').textContent")
    b.click("#sample"), b.click(cell(0, "soil"))
    b.key("ArrowDown", 8), b.key("ArrowRight", 8)
    same("copied", b.copy(), "130\t2500\n185\t2500")
    b.click(cell(4, "soil")), b.paste("1\t2\n3\t4"), b.settle()
    same("pasted", [text(4, "soil"), text(4, "layer"), text(5, "soil"), text(5, "layer")], ["1", "2", "3", "4"])
    same("cut", b.copy("cut"), "1\t2\n3\t4")
    same("cleared", [text(4, "soil"), text(5, "layer")], ["", ""])
    same("to fill in", told(b)[4][0], "to fill insoil: no value stands here; it must be a whole number of Ω·m, 10..5000")
    b.click("#undo"), b.click("#undo"), b.click(cell(0, "soil")), b.key("ArrowDown", 8), b.key("ArrowDown", 8), b.key("d", 2), b.settle()
    same("filled down", [text(1, "soil"), text(2, "soil")], ["130", "130"])
    b.key("Delete"), b.settle()
    same("deleted", text(1, "soil"), "")
    b.click("#undo"), b.click("#undo"), b.click(cell(8, "soil")), b.click("#season"), b.settle()
    same("season added", [text(9, "station"), text(9, "season")], ["110", "3"])
    b.click("#remove"), b.settle()
    same("line removed", text(9, "station"), "118")
    b.click("#undo"), b.click("#undo"), b.settle()
    same("not saved", b.run("document.getElementById('name').textContent"), "portfolio.csv")
    b.click(cell(5, "soil")), b.click("#station .next .do"), b.settle()
    same("a change applied", [b.run("document.querySelector('#station .badge').textContent"), text(4, "rods"), text(5, "rods")],
         ["RELEASED", "52", "52"])
    b.click("#undo"), b.settle()
    same("and undone", b.run("document.querySelector('#station .badge').textContent"), "HELD")


def paste(b):
    """Excel's text with names in another order and case, numbers as people write them; a range without names."""
    order = NAMES[::-1]
    values = dict(zip(NAMES, "9,1,400,2500,102,500,500,500,70,3180,600,10,11,11,7000,500,100,0,0,0,1,60".split(",")))
    values.update(fault="3 180", soil="400.0", space="7E+03")
    b.click("#new"), b.click(cell(0, "station"))
    b.paste("\t".join(name.title() for name in order) + "\r\n" + "\t".join(values[name] for name in order) + "\r\n"), b.settle()
    same("names in another order", told(b)[0][0], "unsafe")
    b.click(cell(0, "fault")), b.paste("2500\r\n"), b.settle()
    same("one cell pasted", told(b)[0][0], "safe")
    b.paste("3,180"), b.settle()
    same("ambiguous", told(b)[0], ["refusedfault: '3,180' may be 3180 or 3.180 with decimals; write it in digits alone"])
    b.key("z", 2), b.settle()
    b.click("#new")


def drawn(b):
    """What if: a click takes the value over, in all lines of the station where it is of the yard; keys do the same."""
    b.click("#sample"), b.click(cell(5, "rods"))
    x, y = b.run("(()=>{const r=document.querySelector('.plot').getBoundingClientRect();return [r.left+r.width*.6,r.top+r.height*.5]})()")
    b.mouse("mouseMoved", x, y), b.settle()
    count = int(b.run("document.querySelector('.plot').getAttribute('aria-valuenow')"))
    b.at(x, y)
    same("rods of both lines", [b.run(f"document.querySelector('{cell(row, 'rods')}').textContent") for row in (4, 5)], [str(count)] * 2)
    same("safe then", told(b)[5][0], "safe")
    b.run("document.querySelector('.plot').focus()"), b.key("Home"), b.key("Enter"), b.settle()
    same("no rods", [b.run(f"document.querySelector('{cell(5, name)}').textContent") for name in ("rods", "rodlen", "place")], ["0"] * 3)
    b.click("#undo"), b.click("#undo"), b.settle()
    same("undone", b.run(f"document.querySelector('{cell(5, 'rods')}').textContent"), "20")
    b.click(cell(5, "fault")), b.settle()
    same("edge of the curve is the headroom", "up to 3,476 A" in plain(b.run("document.querySelector('.under').textContent")), True)


PAPER = (1039, 700)  # A4 across without its margins


def printed(b):
    """A print names the sheet with its SHA-256, the library, and the command that makes the formal report."""
    b.click("#sample"), b.print(), b.settle()
    lines = json.loads(b.run("JSON.stringify([...document.querySelectorAll('#printed span')].map(e => e.textContent))"))
    digest = hashlib.sha256((ROOT / "examples/portfolio.csv").read_bytes()).hexdigest()
    same("sheet", lines[0], f"portfolio.csv, SHA-256 {digest}")
    same("library", lines[1].startswith(f"Hocsimbur {core.version()}, "), True)
    same("report", lines[2], "This is a print of the desk page. The formal report: "
                             "hocsimbur report portfolio.csv --licence licence.csv -o report.html")
    b.click(cell(0, "soil")), b.type("131"), b.key("Enter"), b.print(), b.settle()
    text = b.run("document.getElementById('printed').textContent")
    same("changed", "portfolio.csv (not saved)" in text and digest not in text, True)
    b.click("#undo"), b.settle()
    if b.name == "chromium":  # only it shows what is printed on the screen
        wide = b.run("[innerWidth, innerHeight]")
        b.size(*PAPER), b.call("Emulation.setEmulatedMedia", media="print"), b.run("dispatchEvent(new Event('beforeprint'))"), b.settle()
        for query in ("#sheet", ".pf"):
            same(f"{query} fits the paper", b.run(f"document.querySelector('{query}').offsetWidth <= innerWidth"), True)
        b.run("dispatchEvent(new Event('afterprint'))"), b.call("Emulation.setEmulatedMedia", media="")
        b.prefer(), b.size(*wide), b.settle()


def hostile(b):
    """Markup stays text, long names do not widen the page, and what is no sheet is refused in words."""
    folder = Path(tempfile.mkdtemp(prefix="desk-"))
    def file(name, text):
        (folder / name).write_bytes(text if isinstance(text, bytes) else text.encode())
        return folder / name
    b.click("#sample"), b.click("#view-stations")
    names_ = ["<img src=x onerror=\"document.title='run'\">", "<script>document.title='run'</script>", "W" * 3000, "\u202eevil", "a&amp;b"]
    quoted = ['"' + one.replace('"', '""') + '"' for one in names_]
    lines = [f"{station},{name},1 2" for station, name in zip((101, 104, 110, 118, 126), quoted)]
    said = dropped(b, file("l.csv", "\n".join(["station,name,seasons", *lines[:3], *lines[4:], ""])))
    same("licence", said, "l.csv: a licence of 4 stations")
    same("a name is text", names_[0] in b.run("document.getElementById('stations').textContent"), True)
    same("no element of it", b.run("document.querySelectorAll('img, main script').length"), 0)
    for view in ("#view-stations", "#view-lines"):
        b.click(view), b.click(cell(8, "soil")) if view == "#view-lines" else None, b.settle()
        same(f"as wide as the screen, {view}", b.run("document.documentElement.scrollWidth <= innerWidth"), True)
    wrong_name = "l2.csv was not opened: licence line 2, name: it has a character that cannot be printed"
    same("an invisible sign", dropped(b, file("l2.csv", "\n".join(["station,name,seasons", lines[3], ""]))), wrong_name)
    b.click(cell(0, "soil")), b.paste("<b>7</b>"), b.settle()
    same("a cell is text", told(b)[0], ["refusedsoil: '<b>7</b>' is no number; it must be a whole number of Ω·m, 10..5000"])
    same("nothing ran", b.run("document.title"), "Ground-grid desk")
    for name, text in (("nul.csv", b"station,season\n1,\0\n"), ("book.xlsx", b"PK\x03\x04abc")):
        same(name, dropped(b, file(name, text)),
             f"{name} is a spreadsheet file and no text; copy its cells and paste them here, or save it as CSV")
    same("bytes", dropped(b, file("huge.csv", "1\n" * 5_000_000)),
         "huge.csv was not opened: 10,000,000 bytes, at most 8,388,608 are taken")
    same("lines", dropped(b, file("long.csv", ",".join(NAMES) + "\n" + "1\n" * 1_000_000)),
         "long.csv was not opened: 1,000,000 lines of values, at most 10,000 are taken; split it into several")
    b.click("#new"), b.settle()


def site(b):
    """What is measured at a site goes into the chosen line, and a yard into every line of its station."""
    def taken(button, *cells):
        b.click(button), b.click("#view-lines"), b.settle()
        found = [b.run(f"document.querySelector('{cell(row, name)}').textContent") for row, name in cells]
        b.click("#view-site"), b.settle()
        return found

    def typed(place, *lines):
        b.click(place), b.insert("\n".join(lines)), b.settle()
    b.click("#sample"), b.click(cell(1, "soil")), b.click("#view-site"), b.settle()
    typed("#readings", "1 10.4", "2 4.55", "5 1.62", "10 0.71")
    same("soil", plain(b.run("document.querySelector('#readings-said b').textContent")), "column soil: 55 Ω·m")
    same("heard", plain(b.run("document.getElementById('live').textContent")), "column soil: 55 Ω·m")
    same("soil in the line", taken("#readings-said button", (0, "soil"), (1, "soil")), ["130", "55"])
    typed("#currents", "1000 0", "400 0")
    same("split in the line", taken("#currents-said button", (1, "split")), ["600"])
    typed("#side", "60")
    words = plain(b.run("document.querySelector('#side-said b').textContent"))
    same("fewest", " conductors each way, " in words, True)
    across = words.split()[0]
    count = int(re.search(r"; (\d+) yards? tried", words)[1])
    b.click("#side-said summary"), b.settle()
    listed = json.loads(b.run("JSON.stringify([...document.querySelectorAll('.tried tbody tr')].map(e => e.className))"))
    same("yards tried", listed, ["unsafe"] * (count - 1) + ["safe"])
    same("heard", plain(b.run("document.querySelector('.tried summary').textContent")), f"The {count} yards tried")
    b.click("#side-said summary"), b.settle()
    same("in every season", taken("#side-said button", *((row, "across") for row in range(4))), [across] * 4)
    typed("#side", "x")
    same("refused", plain(b.run("document.querySelector('#side-said .red').textContent")), "side: '60x' is no number")
    b.run("['readings', 'currents', 'side'].forEach((id) => { document.getElementById(id).value = ''; })")
    b.click("#view-lines"), b.click("#new"), b.settle()


MANY = 2000


def many_lines(b):
    """A portfolio of 500 stations: all of it judged, only what is seen drawn, keys and the printer as with few lines."""
    rest = "2500,102,500,500,1000,70,8900,420,14,12,12,6000,600,134,24,3000,1,2,60"
    soils = [50 + 37 * i % 251 for i in range(MANY)]
    folder = Path(tempfile.mkdtemp(prefix="desk-"))
    path = folder / "many.csv"
    path.write_text("\n".join([",".join(NAMES), *(f"{i // 4 + 1},{i % 4 + 1},{soil},{rest}" for i, soil in enumerate(soils)), ""]))
    same("said", dropped(b, path), f"many.csv: {MANY} lines")
    drawn_rows = "document.querySelectorAll('#sheet tbody tr').length"
    place = "document.activeElement.dataset.r + ',' + document.activeElement.dataset.c"
    same("rows drawn", b.run(drawn_rows) < 120, True)
    same("totals", plain(b.run("document.getElementById('totals').textContent")).startswith("500 stations: "), True)
    b.click(cell(0, "fault")), b.key("End", 2), b.settle()
    same("the last cell", b.run(place), f"{MANY - 1},{len(NAMES) - 1}")
    same("its line", b.run(f"document.querySelector('{cell(MANY - 1, 'soil')}').textContent"), str(soils[-1]))
    b.run("document.getElementById('pane').scrollTop = 20000"), b.settle()
    same("the chosen cell is not drawn", b.run(f"document.querySelector('{cell(MANY - 1, 'soil')}')"), None)
    b.key("ArrowUp"), b.settle()
    same("and a key finds it", b.run(place), f"{MANY - 2},{len(NAMES) - 1}")
    b.click(cell(MANY - 2, "fault")), b.type("100"), b.key("Enter"), b.settle()
    same("typed", b.run(f"document.querySelector('{cell(MANY - 2, 'fault')}').textContent"), "100")
    b.run(f"addEventListener('beforeprint', () => {{ window.printed = {drawn_rows}; }})")
    b.print()
    b.settle()
    same("all lines are printed", b.run("window.printed") >= MANY, True)
    same("after printing", b.run(drawn_rows) < 120, True)
    big = folder / "big.csv"
    big.write_text(",".join(NAMES) + "\n" + f"1,1,100,{rest}\n" * 10001)
    same("too many", dropped(b, big), "big.csv was not opened: 10,001 lines of values, at most 10,000 are taken; split it into several")
    b.click("#new"), b.settle()


def dropped(b, *paths):
    """Files dropped on the page, and what it then says."""
    b.drop(*paths)
    time.sleep(0.3)
    b.settle()
    return b.run("document.getElementById('said').textContent")


def opened(b):
    """Dropped files: a sheet with its licence, wrong licences in the product's words, a sheet without lines, an old one."""
    folder = Path(tempfile.mkdtemp(prefix="desk-"))
    same("both", dropped(b, ROOT / "examples/licence.csv", ROOT / "examples/portfolio.csv"), "licence.csv: a licence of 13 stations")
    same("names", "Birch Hollow, east yard" in b.run("document.body.textContent"), True)
    licences = (["7,a,1,2"], ["0,a,1"], ["x,a,1"], ["7,a,1", "7,b,2"], ["7,a,"], ["7,a,1 5"], ["7,a,1:2"], ["7,a,2 2"], [], ['"7,a,1'])
    for place, lines_ in enumerate(licences):
        text = "\n".join(["station,name,seasons", *lines_, ""])
        path = folder / f"l{place}.csv"
        path.write_text(text)
        try:
            licence.read(text.encode())
        except licence.LicenceRefused as refused:
            if place < 9:
                same(f"licence {lines_}", dropped(b, path), f"l{place}.csv was not opened: {refused}")
    same("no lines", dropped(b, ROOT / "examples/refused-4.csv"),
         "refused-4.csv was not opened: the sheet has names but no line of values")
    same("the sheet stays", len(told(b)), 36)
    dropped(b, ROOT / "examples/refused-2-ms.csv")
    same("an old sheet", [line[0] for line in told(b)], ["safe", "unsafe"])


DROP = """((name, text) => { const d = new DataTransfer(); d.items.add(new File([text], name));
  const sent = (kind) => { const e = new DragEvent(kind, {dataTransfer: d, bubbles: true, cancelable: true}); document.body.dispatchEvent(e); };
  sent('dragover'); const marked = document.body.classList.contains('drop'); sent('drop'); return marked; })"""


def dropping(b):
    """A file that is dragged over the page is shown a place, and dropped it is opened."""
    text = (ROOT / "examples/portfolio.csv").read_text()
    same("a place for it", b.run(f"{DROP}('dropped.csv', {json.dumps(text)})"), True)
    time.sleep(0.3)
    same("dropped", [b.said(), b.run("document.body.classList.contains('drop')")], ["dropped.csv: 36 lines", False])
    b.click("#new"), b.settle()
