"""What --help says of each command, with an example that a test runs at the top of the repository."""
from __future__ import annotations

from typing import Dict, NamedTuple

from .. import __version__

ABOUT = """Substation ground grids after IEEE Std 80: verdicts, release, reports and refusals in words.
Every number comes from the proved library; what is shown is rounded outward."""

STATUSES = """exit status:
  0  all is well
  1  something is refused
  2  something is unsafe, undecided or held
  3  the arguments are wrong, or input or output failed

`hocsimbur COMMAND --help` shows an example."""


class Text(NamedTuple):
    """A command in short, at length, and its example: a command line with what it prints."""

    short: str
    long: str
    example: str


COMMANDS: Dict[str, Text] = {
    "check": Text(
        "every refusal of sheets, in words",
        "Every wrong cell of every line, and stations and seasons that stand twice; nothing is computed.\n"
        "With --csv: refused, number, line, column.",
        """  $ hocsimbur check examples/refused-5.csv
  line 2, depth (column 16): 60 mm is not in 250..2500
  line 3, depth (column 16): 60 mm is not in 250..2500
  2 lines are refused; nothing was computed
"""),
    "verdict": Text(
        "the verdict and the wire needed of each line",
        "Safe, unsafe or undecided, and the least conductor size, of each line of a sheet.",
        """  $ hocsimbur verdict tests/sample.csv
  station  season  verdict  wire needed
        7       1  unsafe      17 kcmil
        7       2  safe        17 kcmil
  2 lines: 1 safe, 1 unsafe, 0 undecided
"""),
    "rows": Text(
        "both ends of every voltage, current and resistance",
        "Everything that is computed of each line, as two ends that enclose the exact value.",
        """  $ hocsimbur rows tests/sample.csv
  station 7, season 1: unsafe; 17 kcmil needed
                        lower      upper
  grid current      1,957.957  1,957.958  A
  decrement factor   1.026183   1.026184
  tolerable touch     840.547    840.548  V
  mesh              1,027.839  1,027.841  V  22.3 % above
  tolerable step    2,696.095  2,696.098  V
  step                625.691    625.692  V  76.7 % below
  resistance           2.7756     2.7757  Ω
  potential rise     5,434.68   5,434.70  V

  station 7, season 2: safe; 17 kcmil needed
                        lower      upper
  grid current      1,957.957  1,957.958  A
  decrement factor   1.026183   1.026184
  tolerable touch     809.961    809.963  V
  mesh                256.959    256.961  V  68.2 % below
  tolerable step    2,573.753  2,573.755  V
  step                156.422    156.424  V  93.9 % below
  resistance           0.6939     0.6940  Ω
  potential rise     1,358.67   1,358.68  V
"""),
    "margins": Text(
        "how far each line is from its limits, worst first",
        "How far mesh and step voltage lie above or below what is tolerable, the worst line first.\n"
        "With --csv: per mille, in the sheet's order.",
        """  $ hocsimbur margins tests/sample.csv
  station  season  verdict   mesh V  touch limit V        margin  step V  step limit V        margin
        7       1  unsafe   1,027.9          840.5  22.3 % above   625.7       2,696.0  76.7 % below
        7       2  safe       257.0          809.9  68.2 % below   156.5       2,573.7  93.9 % below
"""),
    "summary": Text(
        "counts of safe, unsafe and undecided seasons of each station",
        "How many seasons of each station are safe, unsafe and undecided, and the one with the highest mesh voltage.\n"
        "That one need not be the worst where the surface layers of the seasons differ.",
        """  $ hocsimbur summary crates/summary/stdin
  station  seasons  safe  unsafe  undecided  highest mesh in season
        7        3     1       2          0                       1
       12        2     2       0          0                       1
        3        1     0       1          0                       4
"""),
    "release": Text(
        "which stations may be released, and why others are held",
        "A station is released where every season of the licence has a line, every line is safe, all lines describe one yard and\n"
        "the wire is large enough.",
        """  $ hocsimbur release examples/seasons.csv
  note: without --licence every station is asked in all four seasons; --seasons 1,2 asks others
  station 210  HELD      season 2: mesh 10.3 % above tolerable touch; no line for seasons 3, 4; voltages safe up to 3,627 A where there is a line; wire up to 31,481 A
  1 station: 0 released, 1 held. 2 season lines: 1 safe, 1 unsafe, 0 undecided; 2 seasons without a line.
"""),
    "report": Text(
        "a page for every station, in one HTML file",
        "One HTML file with the portfolio and a page for each station, for a browser or paper.\n"
        "The same sheet, licence and date give the same bytes.",
        """  $ hocsimbur report tests/sample.csv --date '1 July 2026' -o july.html
  july.html: 1 station: 0 released, 1 held. 2 season lines: 1 safe, 1 unsafe, 0 undecided; 2 seasons without a line.
"""),
    "next": Text(
        "the least single changes that make a held station safe",
        "For a station that is held, the least single changes that are answered safe in every season.\n"
        "With --csv: every cell of the sheet that a change sets.",
        """  $ hocsimbur next examples/portfolio.csv --licence examples/licence.csv --station 118
  station 118 Dunmore  HELD      wire: 495 kcmil needed, 5.0 mm solid has 38; voltages safe up to 67,751 A; wire up to 2,822 A
    wire: 17.9 mm, solid and round (now 5.0 mm); a stranded one must be thicker
"""),
    "fewest": Text(
        "the fewest conductors and rods for a square yard",
        "The fewest conductors each way, then rods at the perimeter, with which a square yard of a side is safe; all else is as in\n"
        "the one line of the sheet, or the line chosen by --station and --season.\n"
        "With --csv: found, conductors, rods, yards tried; or none, yards tried; with --list too: a line for each yard tried.",
        """  $ hocsimbur fewest examples/rods.csv --station 303 --side 60m
  9 conductors each way, 7.5 m apart, and 28 rods at the perimeter; 63 yards tried
"""),
    "wenner": Text(
        "the soil from four-pin readings",
        "The apparent resistivity of each reading, the least, greatest and mean, and the value for the column soil.\n"
        "A reading is a distance in m, or with a unit as 10ft, and a resistance in Ω; what is no whole mm or mΩ is rounded to both sides.",
        """  $ hocsimbur wenner --reading 1,10 --reading 2,4.5 --reading 3,2.5
  reading   distance  resistance  lower Ω·m  upper Ω·m
  1              1 m        10 Ω     62.831     62.832
  2              2 m       4.5 Ω     56.548     56.549
  3              3 m       2.5 Ω     47.123     47.124
  least                              47.123     47.124
  greatest                           62.831     62.832
  mean                               55.501     55.502
  column soil: 56 Ω·m
"""),
    "staged": Text(
        "the split from a staged test",
        "The grid's part of an injected current, less the branches, and the value for the column split.\n"
        "A current is IN-PHASE,QUADRATURE in A, or SIZE@ANGLE in A and degrees (or 20∠0); all share one phase reference, and a branch counts\n"
        "positive away from the grid. Parts of sizes at angles are rounded to mA so that the split is not too small.",
        """  $ hocsimbur staged --injected 1000,0 --branch 400,0
            in-phase A  quadrature A
  injected   1,000.000         0.000
  branch 1     400.000         0.000
  grid         600.000         0.000
  column split: 600 per mille
"""),
    "carry": Text(
        "today's sheet of one of the former 18 names",
        "Copies ms to shock, clear and wire, lines to across and along, and sets hz to 60.\n"
        "Several sheets, or a folder, go into the folder of -o; a refused one is reported and leaves nothing there.",
        """  $ hocsimbur carry examples/refused-2-ms.csv
  station,season,soil,layer,thick,shock,clear,wire,body,fault,split,xr,across,along,space,depth,dia,rods,rodlen,place,metal,hz
  101,1,60,0,0,300,300,300,70,2800,600,12,11,11,5000,600,105,0,0,0,2,60
  102,1,150,0,0,300,300,300,70,2800,600,12,11,11,5000,600,105,0,0,0,2,60
"""),
    "carry-back": Text(
        "a sheet of the former 18 names of today's",
        "The way back of carry, where the three times are equal, across is along and hz is 60.",
        """  $ hocsimbur carry-back tests/sample.csv
  station,season,soil,layer,thick,ms,body,fault,split,xr,lines,space,depth,dia,rods,rodlen,place,metal
  7,1,400,2500,102,500,70,3180,600,10,11,7000,500,100,0,0,0,1
  7,2,100,2500,102,500,70,3180,600,10,11,7000,500,100,0,0,0,1
"""),
    "import": Text(
        "a sheet of what a spreadsheet wrote",
        "Takes away what spreadsheets add (byte-order mark, carriage returns, semicolons, quotes, spaces, blank lines, a title, empty cells),\n"
        "reads units in cells and heads (0.5s, 8.7kA, 18in, 30 cycles, 4/0, soil [ohm m]), and reports each kind of change on standard error.\n"
        "A value that is no whole number is refused with the cautious side, or with --round cautious rounded to it.",
        """  $ hocsimbur import examples/refused-2-semicolons.csv
  3 lines: semicolons made commas
  station,season,soil,layer,thick,shock,clear,wire,body,fault,split,xr,across,along,space,depth,dia,rods,rodlen,place,metal,hz
  101,1,60,0,0,300,300,600,70,2800,600,12,11,11,5000,600,105,0,0,0,2,60
  102,1,150,0,0,300,300,600,70,2800,600,12,11,11,5000,600,105,0,0,0,2,60
"""),
    "version": Text(
        "the versions of this package and of the library",
        "The versions of this package and of the library that it asks.",
        f"""  $ hocsimbur version
  hocsimbur {__version__}, library {__version__}
"""),
}
