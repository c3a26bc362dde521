"""The report and the desk page in a real browser, by hand. Of the report: nothing overflows a narrow or a wide screen, the PDF has one page
for the portfolio and one for each station, with DejaVu Sans as the only font too, the head of a long portfolio repeats, and 1,000 stations
open within two seconds. Of the desk page: what desk/tests/page.py asks, in chromium and firefox.

    python3 tests/browser.py [--out target/browser] [--picture docs/report.png]

It needs the shared library and the page (`make libraries desk`), and installs Debian's chromium, firefox-esr, poppler-utils and fonts-dejavu
where they are missing.
The folder then has the pages as report-1280-*.png, report-375-*.png and report.pdf with its pages as pictures, to be looked at.
What is wrong is printed, and the exit status is then 1.
"""

import argparse
import functools
import html
import http.server
import json
import os
import re
import shutil
import subprocess
import sys
import threading
from pathlib import Path

ROOT = Path(__file__).resolve().parents[1]
sys.path[:0] = [str(ROOT / "python"), str(ROOT / "desk" / "tests")]

import page as desk  # noqa: E402
from hocsimbur.portfolio import advice, decision, licence  # noqa: E402
from hocsimbur.report import document  # noqa: E402
from hocsimbur.sheets.files import File  # noqa: E402

WIDTHS = (375, 768, 1280)
SHOT = 1600          # height of a screenshot
KEPT, SMALLER, MOST_BYTES = (1000, 1300), 0.85, 200_000  # of the picture for README
LEAST_WINDOW = 500   # chromium makes no narrower window, so that a narrow page stands in a frame
DATE = "1 July 2026"
DEJAVU = "/usr/share/fonts/truetype/dejavu"
SHEETS = {"report.html": "portfolio.csv", "utility.html": "utility.csv", "extreme.html": "extreme.csv"}
MEASURE = """<!DOCTYPE html><body style="margin:0">
<iframe id="page" src="PAGE" width="WIDTH" height="900" style="border:0"></iframe><pre id="told"></pre>
<script>onload = () => {
  const view = document.getElementById('page').contentWindow, root = view.document.documentElement, wide = [];
  const all = view.document.createElement('style');
  all.textContent = '.station{content-visibility:visible!important}';
  view.document.head.append(all);
  for (const one of view.document.querySelectorAll('main *')) {
    const box = one.getBoundingClientRect(), hidden = one.closest('.vh, .to');
    const name = one.tagName + '.' + (one.getAttribute('class') || '');
    if (!hidden && box.width && (box.right > WIDTH + 0.5 || box.left < -0.5))
      wide.push(name + ' ' + one.textContent.slice(0, 40) + ' ends at ' + Math.round(box.right));
  }
  document.getElementById('told').textContent = JSON.stringify({scroll: root.scrollWidth, wide: wide.slice(0, 5)});
}</script>"""
OPEN = """<!DOCTYPE html><body><script>
const start = performance.now(), frame = document.createElement('iframe');
frame.width = 1280; frame.height = 900;
const drawn = name => frame.contentWindow.requestAnimationFrame(() => frame.contentWindow.requestAnimationFrame(
  () => fetch('/took/' + name + '/' + Math.round(performance.now() - start))));
frame.onload = () => drawn('whole');
frame.src = 'thousand.html';
document.body.append(frame);
const look = () => frame.contentDocument && frame.contentDocument.querySelector('.key') ? drawn('first') : setTimeout(look, 20);
look();
</script>"""
FRAME = """<!DOCTYPE html><body style="margin:0;overflow:hidden"><iframe src="PAGE" width="WIDTH" height="60000"
style="border:0;margin-top:-TOPpx"></iframe>"""


def install():
    """The browsers and the reader of PDF files."""
    if all(map(shutil.which, ("chromium", "firefox-esr", "pdfinfo"))):
        return
    subprocess.run(["apt-get", "update"], check=True)
    subprocess.run(["apt-get", "install", "-y", "chromium", "firefox-esr", "poppler-utils", "fonts-dejavu"], check=True)


class Quiet(http.server.SimpleHTTPRequestHandler):
    def log_message(self, *words):
        pass


def served(folder, handler=Quiet):
    """The address of a folder, served on this machine alone."""
    server = http.server.ThreadingHTTPServer(("127.0.0.1", 0), functools.partial(handler, directory=str(folder)))
    threading.Thread(target=server.serve_forever, daemon=True).start()
    return f"http://127.0.0.1:{server.server_address[1]}"


def chromium(*arguments, fonts=None):
    """What the browser writes on standard output; with a file of fonts it knows those alone."""
    command = ["chromium", "--headless", "--no-sandbox", "--disable-gpu", "--hide-scrollbars", *arguments]
    env = {**os.environ, "FONTCONFIG_FILE": str(fonts)} if fonts else None
    return subprocess.run(command, check=True, stdout=subprocess.PIPE, stderr=subprocess.DEVNULL, timeout=600, env=env).stdout.decode("utf-8")


def only_dejavu(folder):
    """A file of fonts with DejaVu alone."""
    file = folder / "fonts.conf"
    file.write_text(f'<?xml version="1.0"?><!DOCTYPE fontconfig SYSTEM "fonts.dtd"><fontconfig><dir>{DEJAVU}</dir>'
                    f"<cachedir>{folder}/fonts</cachedir></fontconfig>", encoding="utf-8")
    return file


def rendered(sheet, name, granted):
    """The report of a sheet, and its portfolio."""
    portfolio = decision.portfolio(sheet, granted)
    changes = {one.station: advice.changes(one) for one in portfolio.stations if not one.released}
    return document.render(portfolio, [File(name, sheet)], document.Options(DATE), changes), portfolio


def overflow(folder, address, name, width):
    """What is wider than a screen of this width."""
    (folder / "measure.html").write_text(MEASURE.replace("PAGE", name).replace("WIDTH", str(width)), encoding="utf-8")
    dumped = chromium(f"--window-size={max(width, LEAST_WINDOW)},1000", "--dump-dom", f"{address}/measure.html")
    found = re.search(r'<pre id="told">(.*?)</pre>', dumped, re.S)
    told = json.loads(html.unescape(found[1])) if found and found[1] else {"scroll": None, "wide": ["nothing was measured"]}
    wrong = [f"{name} at {width} px: {one}" for one in told["wide"]]
    return wrong if told["scroll"] == width else [*wrong, f"{name} at {width} px: the page is {told['scroll']} px wide"]


def shot(folder, address, name, width, top, height, picture):
    """A picture of a part of the page."""
    text = FRAME.replace("PAGE", name).replace("WIDTH", str(width)).replace("TOP", str(top))
    (folder / "frame.html").write_text(text, encoding="utf-8")
    chromium(f"--window-size={max(width, LEAST_WINDOW)},{height}", f"--screenshot={picture}", f"{address}/frame.html")


def keep(address, picture):
    """The picture of the first page that README shows."""
    size = f"--window-size={KEPT[0]},{KEPT[1]}"
    chromium(f"--force-device-scale-factor={SMALLER}", size, f"--screenshot={picture}", f"{address}/report.html")
    return [] if picture.stat().st_size < MOST_BYTES else [f"{picture} has more than {MOST_BYTES} bytes"]


def printed(folder, address, name, fonts=None):
    """The text of each page of the PDF."""
    pdf = folder / name.replace(".html", "-dejavu.pdf" if fonts else ".pdf")
    chromium(f"--print-to-pdf={pdf}", "--no-pdf-header-footer", f"{address}/{name}", fonts=fonts)
    text = subprocess.run(["pdftotext", "-layout", str(pdf), "-"], check=True, stdout=subprocess.PIPE).stdout.decode("utf-8")
    size = subprocess.run(["pdfinfo", str(pdf)], check=True, stdout=subprocess.PIPE).stdout.decode("utf-8")
    wrong = [] if re.search(r"Page size: .*\(A4\)", size) else [f"{name}: the PDF is not A4"]
    return text.split("\f")[:-1], wrong


def judge_pages(name, pages, portfolio, first):
    """One page for each station with a line, in order, after the portfolio's, each of which has the table's head."""
    stations = [one for one in portfolio.stations if one.lines]
    ordered = [one.station for one in stations if not one.released] + [one.station for one in stations if one.released]
    wrong = [] if len(pages) == first + len(ordered) else [f"{name}: {len(pages)} pages, not {first} and {len(ordered)}"]
    wrong += [f"{name}: page {place} of the portfolio has no head" for place, page in enumerate(pages[:first], 1)
              if "Decision" not in page.replace(" ", "")]
    for place, (page, station) in enumerate(zip(pages[first:], ordered), first + 1):
        if not re.match(rf"\s*{station}\b", page):
            wrong.append(f"{name}: page {place} does not start with station {station}")
        if f"Page {place} of {len(pages)}" not in page:
            wrong.append(f"{name}: page {place} has no number")
    return wrong


def examples():
    """The sheet and the licence of the examples."""
    folder = ROOT / "examples"
    return (folder / "portfolio.csv").read_bytes(), licence.read((folder / "licence.csv").read_bytes())


def utility():
    """A utility's sheet, 61 stations with four seasons: the lines of the example again and again."""
    names, *lines = examples()[0].decode("ascii").splitlines()
    values = [line.split(",")[2:] for line in lines]
    made = [",".join([str(station), str(season), *values[(4 * station + season) % len(values)]])
            for station in range(1, 62) for season in range(1, 5)]
    return "".join(line + "\n" for line in [names, *made]).encode("ascii"), None


def extreme():
    """Values at their ends, with the longest numbers, and a name of one long word."""
    names = examples()[0].split(b"\n")[0]
    high = b"5000,10000,300,3000,3000,3000,70,80000,1000,40,25,25,30000,2500,300,200,10000,1,11,60"
    low = b"5000,0,0,3000,9,3000,50,80000,1000,40,2,2,2500,250,50,0,0,0,11,50"
    lines = [b"65535,%d,%s" % (season, high if season % 2 else low) for season in range(1, 5)]
    strip = b"65534,1,10,100,20,9,9,9,70,100,1,1,2,25,2500,250,300,1,1000,1,1,50"
    granted = licence.Licence((licence.Licensed(65535, "Llanfairpwllgwyngyllgogerychwyrndrobwllllantysiliogogogoch & <b>", (1, 2, 3, 4)),
                               licence.Licensed(65534, "", (1, 2, 3, 4))))
    return b"\n".join([names, *lines, strip, b""]), granted


def judge(folder, address):
    """All that is wrong."""
    wrong = []
    for name, (sheet, granted), first, one_each in (("report.html", examples(), 1, True), ("utility.html", utility(), None, True),
                                                    ("extreme.html", extreme(), 1, False)):
        text, portfolio = rendered(sheet, SHEETS[name], granted)
        (folder / name).write_text(text, encoding="utf-8")
        for width in WIDTHS:
            wrong += overflow(folder, address, name, width)
        for fonts in (None, only_dejavu(folder)):
            pages, complaints = printed(folder, address, name, fonts)
            wrong += complaints
            count = sum(bool(one.lines) for one in portfolio.stations)
            if one_each:
                wrong += judge_pages(name, pages, portfolio, len(pages) - count if first is None else first)
            print(f"browser: {name}{', DejaVu alone' if fonts else ''}: {len(pages)} pages for {count} stations with a line")
    return wrong


class Timed(Quiet):
    """Serves a folder, and keeps what a page reports by asking for /took/EVENT/MILLISECONDS."""

    took = {}
    loaded = threading.Event()

    def do_GET(self):
        found = re.fullmatch(r"/took/(\w+)/(\d+)", self.path)
        if not found:
            super().do_GET()
            return
        self.took[found[1]] = int(found[2])
        self.send_response(204)
        self.end_headers()
        if found[1] == "whole":
            self.loaded.set()


def opened(folder):
    """Whether the first page of 1,000 stations is drawn within two seconds."""
    names, *lines = examples()[0].decode("ascii").splitlines()
    values = [line.split(",")[2:] for line in lines]
    made = [",".join([str(station), str(season), *values[(4 * station + season) % len(values)]])
            for station in range(1, 1001) for season in range(1, 5)]
    text, _ = rendered("".join(line + "\n" for line in [names, *made]).encode("ascii"), "thousand.csv", None)
    (folder / "thousand.html").write_text(text, encoding="utf-8")
    (folder / "open.html").write_text(OPEN, encoding="utf-8")
    address = served(folder, Timed)
    command = ["chromium", "--headless", "--no-sandbox", "--disable-gpu", "--remote-debugging-port=0", f"--user-data-dir={folder}/profile",
               "--window-size=1280,1000", f"{address}/open.html"]
    browser = subprocess.Popen(command, stdout=subprocess.DEVNULL, stderr=subprocess.DEVNULL)
    Timed.loaded.wait(120)
    browser.terminate()
    browser.wait()
    first, whole = Timed.took.get("first"), Timed.took.get("whole")
    print(f"browser: 1,000 stations, {len(text.encode()):,} bytes: the first page drawn after {first} ms, the whole read after {whole} ms")
    return [] if first is not None and first <= 2000 else [f"the first page of 1,000 stations was drawn after {first} ms"]


def main():
    parser = argparse.ArgumentParser(description=__doc__.split("\n")[0])
    parser.add_argument("--out", type=Path, default=ROOT / "target" / "browser", help="the folder for what is made")
    parser.add_argument("--picture", type=Path, help="where to keep the picture of the first page")
    asked = parser.parse_args()
    install()
    folder = asked.out.resolve()
    folder.mkdir(parents=True, exist_ok=True)
    address = served(folder)
    wrong = judge(folder, address) + opened(folder) + desk.judge()
    for width, parts in ((1280, 3), (375, 4)):
        for part in range(parts):
            shot(folder, address, "report.html", width, part * SHOT, SHOT, folder / f"report-{width}-{part + 1}.png")
    subprocess.run(["pdftoppm", "-r", "110", "-png", str(folder / "report.pdf"), str(folder / "page")], check=True)
    if asked.picture:
        wrong += keep(address, asked.picture.resolve())
    for complaint in wrong:
        print(f"browser: {complaint}")
    print(f"browser: {len(wrong)} things are wrong; the pictures are in {folder}")
    return 1 if wrong else 0


if __name__ == "__main__":
    sys.exit(main())
