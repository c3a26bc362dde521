"""Times of the desk page in chromium: to interactive, and from a keystroke to the verdict and to the next picture, with 256 lines.

    python3 desk/tests/measure.py"""
import gzip
import json
import random
import statistics
import sys
from pathlib import Path

HERE = Path(__file__).resolve().parent
sys.path.insert(0, str(HERE))
sys.dont_write_bytecode = True
from devtools import Chromium as Browser  # noqa: E402

LINE = "1,130,2500,102,500,500,1000,70,8900,420,14,12,12,6000,600,134,24,3000,1,2,60"

WATCH = """(() => { window.times = []; let t0 = 0;
  addEventListener('keydown', () => { t0 = performance.now(); }, true);
  const row = document.querySelector('#sheet td[data-r="ROW"]').parentNode;
  new MutationObserver(() => { if (!t0) return; const seen = performance.now() - t0, from = t0; t0 = 0;
    requestAnimationFrame(() => setTimeout(() => times.push([seen, performance.now() - from])));
  }).observe(row, {childList: true, subtree: true, characterData: true});
})()"""


def spent(b):
    return {one["name"]: one["value"] for one in b.call("Performance.getMetrics")["metrics"]}


def main():
    page = HERE.parents[1] / "target/desk/hocsimbur.html"
    print(f"page: {page.stat().st_size:,} bytes")
    print(f"compressed: {len(gzip.compress(page.read_bytes(), 9)):,} bytes")
    ready = []
    for _ in range(5):
        b = Browser()
        try:
            b.open(page)
            ready.append(int(b.run("document.body.dataset.ready")))
        finally:
            b.close()
    print("time to interactive, ms from navigation, five cold starts:", sorted(ready))
    b = Browser()
    try:
        b.open(page)
        b.click('#sheet td[data-r="0"][data-c="0"]')
        lines = [f"{i // 4 + 1},{i % 4 + 1},{100 + i}," + ",".join(LINE.split(",")[2:]) for i in range(256)]
        b.run("window.t = performance.now()")
        b.paste("\n".join(lines).replace(",", "\t"))
        print("256 lines pasted, judged and drawn, ms:", round(b.run("performance.now() - t"), 1))
        b.settle()
        print("judged:", b.run("document.getElementById('totals').textContent"))
        b.call("Performance.enable", timeDomain="threadTicks")  # processor time, which other work on the machine does not stretch
        for row in (0, 200):
            b.run(f"document.getElementById('pane').scrollTop = {24 * row}"), b.settle()
            b.click(f'#sheet td[data-r="{row}"][data-c="9"]')
            b.run(WATCH.replace("ROW", str(row)))
            rng, before = random.Random(1), spent(b)
            for _ in range(20):
                b.type(str(rng.randint(1000, 9999)))
                b.key("Escape")
                b.settle()
            times, after = json.loads(b.run("JSON.stringify(times)")), spent(b)
            spans = ("ScriptDuration", "LayoutDuration", "TaskDuration")
            print(f"row {row}, processor time of the page's thread a keystroke, ms: "
                  + ", ".join(f"{name} {(after[name] - before[name]) * 10:.1f}" for name in spans))
            for word, place in (("verdict in the page", 0), ("picture of the whole page", 1)):
                found = sorted(one[place] for one in times)
                print(f"row {row}, keystroke to {word}, ms: median {statistics.median(found):.1f}, worst {found[-1]:.1f} of {len(found)}")
    finally:
        b.close()


if __name__ == "__main__":
    main()
