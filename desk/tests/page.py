"""The desk page in chromium and firefox against the native library: real input (hands.py), then decisions, 300 random lines and refusals.

tests/browser.py runs it; by itself, after `make libraries desk`: python3 desk/tests/page.py [chromium] [firefox] [-s SCENARIO,..]
Without a name it runs in each browser that is installed."""
import argparse
import json
import os
import random
import re
import subprocess
import sys
import time

from access import access
from common import NAMES, PAGE, ROOT, cell, plain, same, told, wrong
from browsers import asked
from hands import drawn, dropping, hostile, keys, many_lines, opened, paste, printed, ranges, site
from moving import moving, telling
from panels import by_keys, licensing, mapped, outside, units
from panels import heads
from tour import tour
from hocsimbur.portfolio import advice, decision, licence, lines, reasons
from hocsimbur.portfolio.compared import margin as margin_of
from hocsimbur.sheets import checking, layout, names


DRAWN = 50  # lines that the page draws whole


def stations(b):
    """Decisions, sentences and changes as the command tells them."""
    sheet = (ROOT / "examples/portfolio.csv").read_bytes()
    granted = licence.read((ROOT / "examples/licence.csv").read_bytes())
    b.click("#sample")
    for one in decision.portfolio(sheet, granted).stations:
        if not one.lines:
            continue
        row = next(i for i, case in enumerate(layout.cases(sheet)) if case["station"] == one.station)
        b.click(cell(row, "station")), b.settle()
        said = plain(b.run("document.querySelector('#station .decision').textContent"))
        same(f"decision {one.station}", said, plain(" ".join(reasons.decision(one))))
        said = [reasons.differences(one), reasons.outside(one), *reasons.undecided(one), reasons.current(one)]
        said += [] if one.answer.small_wire else [reasons.wire(one)]
        said = [plain(text) for text in said if text] + ["Caution: " + plain(text) for text in reasons.cautions(one)]
        shown = json.loads(b.run("JSON.stringify([...document.querySelectorAll('#station .asides li')].map(e => e.textContent))"))
        same(f"asides {one.station}", [plain(text) for text in shown], said)
        wanted = [plain(change.words) for change in advice.changes(one)]
        found = json.loads(b.run("""JSON.stringify([...document.querySelectorAll('#station .next li')].map(e => {
          const s = e.querySelector('small'), t = s ? s.textContent : ''; if (s) s.remove();
          const v = e.querySelector('.verb'); if (v) v.remove(); return e.textContent + (t ? '@' + t : ''); }))"""))
        same(f"changes {one.station}", [re.sub("@", ", " if text.startswith("yard") else "; ", plain(text)) for text in found], wanted)
    b.click("#view-stations"), b.settle()
    same("released", b.run("document.querySelectorAll('#stations .badge.released').length"), 4)
    b.click("#stations input[aria-label='Season 3 of station 104 is in the licence']"), b.settle()
    same("season without a line", "season 3 has no line" in plain(b.run("document.querySelector('#stations').textContent")).lower(), True)
    b.click("#undo"), b.click("#view-lines")


def random_case(rng, number):
    case = {}
    for name in names.NAMES:
        case[name.name] = rng.choice(name.only) if name.only else rng.randint(name.low, name.high)
    case.update(station=number, season=1)
    if rng.random() < 0.3:
        case.update(layer=0, thick=0)
    if rng.random() < 0.4:
        case.update(rods=0, rodlen=0, place=0)
    else:
        case.update(rods=rng.randint(1, 200), place=rng.randint(1, 2))
    case["fault"] = rng.choice([case["fault"], rng.randint(100, 5000)])
    return case


def many(b):
    """Random lines, judged by the page and by the native library."""
    rng = random.Random(80)
    cases = [random_case(rng, number) for number in range(1, 301)]
    counts = {}
    for part in (cases[first:first + DRAWN] for first in range(0, len(cases), DRAWN)):
        b.click("#new"), b.click(cell(0, "station"))
        b.paste("\n".join("\t".join(str(case[name]) for name in NAMES) for case in part)), b.settle()
        asked = subprocess.run([str(ROOT / "hocsimbur"), "verdict", "--csv", "-"], input=layout.text(part), stdout=subprocess.PIPE,
                               check=False, env={**os.environ, "PYTHONDONTWRITEBYTECODE": "1"})
        same("the command's verdicts", [line[0] for line in told(b)], [line.split(",")[2] for line in asked.stdout.decode().split()[1:]])
        for one, said in zip(lines.gather(layout.text(part)), told(b)):
            near = one.nearest
            wire = f"{one.row.kcmil:,}" + (f" > {decision.kcmil(one.case['dia']):,}" if one.small_wire else "")
            word = one.row.verdict.name.lower()
            counts[word] = counts.get(word, 0) + 1
            margin = plain(f"{margin_of(near)} {near.limit}")
            same(f"random line {one.number}", [plain(text) for text in said],
                 [word, margin, wire, f"{one.headroom:,}" if one.headroom else "none"])
    print("browser: desk page, random lines:", counts)


def refusals(b):
    """Spoilt cells: the page's words are those of `hocsimbur check`, but for what the page itself mends or a text cannot hold."""
    rng, base = random.Random(81), "7,1,400,2500,102,500,500,500,70,3180,600,10,11,11,7000,500,100,4,3000,1,1,60".split(",")
    texts = ["", "-5", "62.5", "1234567", "4 kA", "abc", "0", "99999", "1", "3", "250000", ".5", "12x", "+-", "7.25"]
    spoilt = []
    for place, name in enumerate(NAMES):
        for text in texts:
            line = list(base)
            line[0], line[place] = str(len(spoilt) + 1) if place else text, text
            spoilt.append(line)
    rng.shuffle(spoilt)
    compared = 0
    for first in range(0, len(spoilt), DRAWN):
        part = spoilt[first:first + DRAWN]
        b.click("#new"), b.click(cell(0, "station"))
        b.paste("\n".join("\t".join(line) for line in part)), b.settle()
        taken = [["4000" if one == "4 kA" and name == "fault" else one for name, one in zip(NAMES, line)] for line in part]  # as by import
        sheet = "".join(",".join(line) + "\n" for line in [NAMES, *taken]).encode()
        wanted = {found.line: found for found in reversed(checking.check(sheet))}  # the first of each line
        for number, said in enumerate(told(b), 2):
            found = wanted.get(number)
            if (len(said) == 1) != (found is not None):
                wrong.append(f"refusal of line {number}: {said}, {found}")
            elif found:
                compared += 1
                words = found.said.split(": ", 1)[1]
                name = NAMES[found.column - 1] + ": " if found.column else ""
                word = "to fill in" if "no value stands here" in words else "refused"
                same(f"words of {part[number - 2]}", plain(said[0]), plain(f"{word}{name}{words}"))
    print("browser: desk page, refusals compared:", compared)


def closed(b):
    """Nothing may be fetched, and nothing was."""
    same("fetch", b.run("fetch('https://example.com').then(() => 'open', () => 'closed')"), "closed")
    same("picture", b.run("new Promise(d => { const i = new Image(); i.onload = () => d('open'); i.onerror = () => d('closed');"
                          " i.src = 'https://example.com/a.png'; })"), "closed")
    other = json.dumps((ROOT / "examples/licence.csv").as_uri())
    same("file", b.run(f"fetch({other}).then(() => 'open', () => 'closed')"), "closed")


SCENARIOS = (keys, ranges, moving, telling, paste, units, drawn, mapped, site, stations, outside, licensing, by_keys, opened, dropping, many,
             heads,
             refusals, printed, hostile, many_lines, tour, access)


def driven(kind, scenarios):
    """What is wrong with the page in one browser."""
    wrong.clear()
    b = kind()
    try:
        b.open(PAGE)
        for part in scenarios:
            before, start = len(wrong), time.monotonic()
            try:
                part(b)
            except Exception as error:  # pylint: disable=broad-except; what cannot be gone through is wrong
                wrong.append(f"{part.__name__}: {error!r}")
            took = time.monotonic() - start
            print(f"browser: desk page in {b.name}, {part.__name__}: {'as it should be' if len(wrong) == before else 'WRONG'}, {took:.1f} s")
        wrong.extend(b.wrong())
        same("asked for", [url for url in b.asked() if not re.match("file:|blob:|about:|data:", url)], [])
        closed(b)
    finally:
        b.close()
    return [f"{b.name}: {one}" for one in wrong]


def judge(names=(), scenarios=SCENARIOS):
    """What is wrong with the page in the browsers of these names, or in all that are installed."""
    return [one for kind in asked(names) for one in driven(kind, scenarios)]


def main():
    parser = argparse.ArgumentParser(description=__doc__.split("\n")[0])
    parser.add_argument("browser", nargs="*", help="chromium or firefox")
    parser.add_argument("-s", "--scenarios", default="", help="names of scenarios, with commas between them")
    given = parser.parse_args()
    chosen = [part for part in SCENARIOS if not given.scenarios or part.__name__ in given.scenarios.split(",")]
    found = judge(given.browser, chosen)
    print("\n".join(found[:25]))
    return 1 if found else 0


if __name__ == "__main__":
    sys.exit(main())
