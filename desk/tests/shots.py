"""Pictures of the states of the desk page in target/browser, each as light-*, dark-* and 375-*.png, and the print as print-*.png; with a path,
also the one that README shows.

    python3 desk/tests/shots.py [docs/desk.png]"""
import shutil
import subprocess
import sys
from pathlib import Path

HERE = Path(__file__).resolve().parent
sys.path.insert(0, str(HERE))
sys.dont_write_bytecode = True
from access import cleared, to  # noqa: E402
from common import PAGE  # noqa: E402
from devtools import Chromium  # noqa: E402

OUT = HERE.parents[1] / "target" / "browser"
WIDE, NARROW, SMALLER = (1280, 900), (375, 812, 2), 0.75  # the last of the picture for README
OTHERS = {"narrow-768": (768, 1024), "wide-1600": (1600, 1000), "wide-1024": (1024, 800)}


def typed(b, row, name, text):
    to(b, row, name), b.type(text), b.key("Enter"), b.key("ArrowUp"), b.settle()


def hover(b, part):
    x, y = b.run("(() => { const r = document.querySelector('.plot').getBoundingClientRect();"
                 " return [r.left + r.width * %s, r.top + r.height * .5]; })()" % part)
    b.mouse("mouseMoved", x, y), b.settle()


def empty(b):
    b.click("#new")


def sample(b):
    b.click("#sample"), to(b, 5, "fault")


def what_if(b):
    to(b, 5, "rods"), hover(b, .6)


def mapped(b):
    b.mouse("mouseMoved", 5, 5), b.click("#varied [data-key='two inputs']")


def undecided(b):
    b.click("#varied [data-key='one input']"), to(b, 15, "depth")


def typing(b):
    to(b, 5, "depth"), b.type("60")


def refused(b):
    b.key("Enter"), b.key("ArrowUp")


def unit_taken(b):
    b.click("#undo"), to(b, 5, "fault"), b.type("4.4kA"), b.key("Enter")


def rounding(b):
    b.click("#undo"), to(b, 5, "soil"), b.type("187.5"), b.key("Enter")


def station(b):
    b.click("#undo"), to(b, 5, "soil")


def stations(b):
    b.click("#view-stations"), b.click('#stations [data-key="152"]')


def licence(b):
    for key, text in (("104 name", "Birch Hollow"), ("118 wire", "4/0"), ("110 wire", "95")):
        b.run(f"document.querySelector('[data-key=\"{key}\"]').select()"), b.insert(text), b.key("Enter"), b.settle()


def site(b):
    b.key("Escape"), b.click("#undo"), b.click("#undo"), b.click("#view-lines"), to(b, 5, "soil"), b.click("#view-site"), cleared(b)
    for place, text in (("#readings", "1 10.4\n2 4.55\n5 1.62\n10 0.71"), ("#currents", "1000 0\n400 0"), ("#side", "60")):
        b.click(place), b.insert(text), b.settle()
    b.click("#side-said summary")


# each with what a narrow screen is scrolled to
STATES = ((empty, "body"), (sample, "body"), (what_if, "#middle"), (mapped, "#middle"), (undecided, "#middle"), (typing, "body"),
          (refused, "body"), (unit_taken, "body"), (rounding, "body"), (station, "#station"), (stations, "body"), (licence, "body"), (site, "body"))


def pictures(b):
    """Every state, light, dark and narrow."""
    for state, top in STATES:
        name = state.__name__.replace("_", "-")
        b.size(*WIDE), b.settle(), state(b), b.settle(), b.shot(OUT / f"light-{name}.png")
        b.dark(True), b.shot(OUT / f"dark-{name}.png"), b.dark(False)
        if state is what_if and len(sys.argv) > 1:
            b.size(*WIDE, SMALLER), b.shot(sys.argv[1]), b.size(*WIDE)
        b.size(*NARROW), b.settle()
        if state in (refused, rounding):
            b.key("ArrowLeft"), b.key("ArrowRight"), b.settle()  # the cell comes into sight again
        b.run(f"document.querySelector('{top}').scrollIntoView()"), b.settle()
        b.shot(OUT / f"375-{name}.png"), b.run("scrollTo(0, 0)")
    b.click("#side-said summary"), b.click("#view-lines"), cleared(b)
    for name, size in OTHERS.items():
        b.size(*size), b.settle(), to(b, 5, "fault"), b.shot(OUT / f"{name}.png")


def printed(b):
    """The print, as a PDF file and, where the reader is installed, as pictures of its pages."""
    b.size(*WIDE), b.settle(), to(b, 5, "fault"), (OUT / "print.pdf").write_bytes(b.print())
    if shutil.which("pdftoppm"):
        subprocess.run(["pdftoppm", "-r", "80", "-png", str(OUT / "print.pdf"), str(OUT / "print")], check=True)


def main():
    OUT.mkdir(parents=True, exist_ok=True)
    b = Chromium()
    try:
        b.open(PAGE)
        pictures(b), printed(b)
        for one in b.wrong():
            print(one)
    finally:
        b.close()


if __name__ == "__main__":
    main()
