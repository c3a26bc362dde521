"""The sentences about a station as templates: margins, reasons to hold, the greatest fault current, differences, cautions, candidates.

Each function of the product is called with tokens for the values that its sentence tells."""
from __future__ import annotations

from types import SimpleNamespace as Fake
from unittest import mock

from hocsimbur.core import Pair, Verdict
from hocsimbur.portfolio import advice, candidates, decision, licence, reasons
from hocsimbur.portfolio.compared import Compared, margin, share
from hocsimbur.sheets import names
from hocsimbur.sheets.files import Place
from templates import HEADER, template

HERE = Place("", 2)  # a line of a sheet that is the only one


def compared(limit, voltage=(1, 2), tolerable=(3, 4), margin=0):
    return Compared(limit, Pair(*voltage), Pair(*tolerable), margin)


def margins():
    """Margins and what is above or overlaps, of touch and of step."""
    size = share(4242)
    limits = {}
    for limit in ("touch", "step"):
        one = compared(limit, margin=4242)
        limits[limit] = {"kind": one.kind, "above": template(reasons.voltage_above(one), share=size),
                         "overlapping": reasons.voltage_overlapping(one)}
    return {
        "above": template(margin(compared("touch", (9, 9), (3, 4), 4242)), share=size),
        "below": template(margin(compared("touch", (1, 2), (3, 4), -4242)), share=size),
        "least": margin(compared("touch")), "overlapping": margin(compared("touch", (1, 9), (3, 4))), "limits": limits,
        "percent": template(size, number="424.2"),
    }


def line_of(season=3, **more):
    case = dict.fromkeys(HEADER, 7)
    return Fake(season=season, headroom=more.pop("headroom", 5), small_wire=False, area=0,
                row=Fake(kcmil=1, verdict=1), compared=(), nearest=compared("touch", margin=-4242), case={**case, **more})


def station_of(**more):
    base = {"released": False, "seasons": (1, 2), "lines": (line_of(),), "missing": (), "differs": (), "fault": 515151,
            "wire_to": 999999, "reasons": (), "licensed": Fake(by_licence=False), "worst": line_of(), "size": SIZES[0]}
    return Fake(**{**base, **more})


def released(count, licensed):
    made = reasons.decision(station_of(released=True, seasons=tuple(range(count)), licensed=Fake(by_licence=licensed)))
    return template(made[1], margin=share(4242) + " below", limit="touch", season="season 3").replace("{season}", "season {season}")


SIZES = (decision.Size(424242, 1717, 535353), decision.Size(424242, 1717, 535353, solid=False))  # by the diameter, by the licence


def told():
    """Reasons to hold, each as its head and detail."""
    def of(reason, **tokens):
        made = reasons.told(reason)
        return [template(made.head, **{k: v for k, v in tokens.items() if str(v) in made.head}), made.detail]
    solid, own = (reasons.told(decision.SmallWire(size)) for size in SIZES)
    return {
        "unsafe": of(decision.Unsafe(7, HERE, (compared("touch"),)), season=7)[0],
        "undecided": of(decision.Undecided(7, HERE, (compared("touch"),)), season=7)[0],
        "missing": [reasons.told(decision.Missing((7,), True)).head, of(decision.Missing((7,), False), list=7)[0],
                    of(decision.Missing((7, 8), False), list="7 and 8")[0]],
        "yard": reasons.told(decision.OtherYard(("depth",))).head,
        "wire": [solid.head, template(solid.detail, needed="424,242", diameter="171.7", own="535,353"),
                 template(own.detail, needed="424,242", own="535,353")],
    }


def current():
    """The greatest fault current in a sentence, by what is so of the station."""
    most = names.BY_NAME["fault"].high
    tokens = {"by": "season 3", "now": "now 7\u00a0A"}
    def of(fault, **more):
        return reasons.current(station_of(fault=fault, lines=(line_of(headroom=fault),), **more))
    wired = reasons.current(station_of(lines=(line_of(headroom=515151),), wire_to=4242))
    return {
        "none": template(of(0), **tokens), "most": template(of(most), now=tokens["now"]),
        "most_where": template(of(most, missing=(2,)), now=tokens["now"]),
        "to": template(of(515151), fault="515,151\u00a0A", **tokens),
        "at_most": template(of(515151, missing=(2,)), fault="515,151\u00a0A", **tokens),
        "tail": template(wired[wired.rindex(";"):-1], wire="4,242"),
        "now": template(reasons.now(station_of()), fault="7\u00a0A").replace("{fault}", "{fault}\u00a0A"),
        "now_up_to": template(reasons.now(station_of(differs=("fault",))), fault="7\u00a0A").replace("{fault}", "{fault}\u00a0A"),
        "short": [reasons.greatest(station_of(fault=0)), template(reasons.greatest(station_of()), fault="515,151"),
                  template(reasons.greatest(station_of(missing=(2,))), fault="515,151"),
                  template(reasons.greatest(station_of(fault=most)), fault=f"{most:,}"),
                  template(reasons.greatest(station_of(fault=most, missing=(2,))), fault=f"{most:,}")],
    }


def differences():
    two = (line_of(3, soil=515151), line_of(4))
    def of(names_, missing=()):
        return reasons.differences(station_of(lines=two, differs=names_, missing=missing))
    def both(names_, **tokens):
        return [template(of(names_), **tokens), template(of(names_, (2,)), **tokens)]
    return {"none": both(()), "soil": both(("soil",), by="season 3", soil="515,151"),
            "also": both(("soil", "depth"), columns="soil and depth"),
            "other": both(("depth",), columns="depth")}


def asides():
    undecided = line_of(7)
    undecided.compared = (compared("touch", (10, 40), (20, 30)),)
    few = line_of(1, place=1, rods=3)
    strand = line_of(1, place=0, dia=16)
    strand.row = Fake(kcmil=3, verdict=1)
    return {
        "outside": [template(reasons.outside(station_of(lines=(line_of(7),))), list="7"),
                    template(reasons.outside(station_of(lines=(line_of(7), line_of(8)))), list="7 and 8")],
        "undecided": template(reasons.undecided(station_of(lines=(undecided,)))[0], season="Season 7", kind="mesh", limit="touch",
                              voltage="0.010 to 0.040", tolerable="0.020 to 0.030").replace("{season}", "Season {season}"),
        "wire": [template(reasons.wire(station_of(size=SIZES[0])), needed="424,242", diameter="171.7", own="535,353"),
                 template(reasons.wire(station_of(size=SIZES[1])), needed="424,242", own="535,353")],
        "few": template(reasons.cautions(station_of(lines=(few,)))[0], rods="3 rods"),
        "stranded": reasons.cautions(station_of(lines=(strand,)))[0],
    }


def tried():
    """The words of each kind of candidate."""
    case = {**dict.fromkeys(HEADER, 7), "across": 3, "along": 4, "space": 8888, "rods": 110, "rodlen": 7770, "place": 1, "layer": 2424,
            "thick": 113, "shock": 1717}
    def first(kind, **more):
        return next(kind(({**case, **more},))).words
    yard = template(first(candidates.spacing), space="8.988", now="8.888", yard="17.976 × 26.964")
    grid = template(first(candidates.conductors), across="5 conductors", along="× 7", finer="4.444", was="3 × 4", space="8.888")
    return {
        "rods": template(first(candidates.rods), count=111, length="7.77", had=110), "none": "none", "inside": "inside",
        "conductors": grid.replace("{across}", "{across} conductors").replace("{along}", "× {along}"), "spacing": yard,
        "thickness": template(first(candidates.thickness), value=120, now=113),
        "resistivity": template(first(candidates.resistivity), value="2,500", now="2,424"),
        "layer": template(first(candidates.layer), value=20, rock="2,500"),
        "shock": template(first(candidates.shock), value=1710, now="1,717"),
        "kinds": {one.name: one.none for one in candidates.OF_YARD + candidates.OF_LAYER + candidates.OF_BARE + candidates.OF_SHOCK},
        "constants": {"fewest_rods": candidates.FEWEST_RODS, "rod_length": candidates.ROD_LENGTH, "rock": candidates.ROCK,
                      "steps": candidates.STEPS},
    }


def advised():
    """What `next` says around its candidates; the library's answers are put in its place, since only the words are wanted."""
    case = {**dict.fromkeys(HEADER, 7), "season": 3, "dia": 171}
    wide = {"small": lambda cases: [True] * len(cases), "enough": lambda cases: [False] * len(cases)}
    with mock.patch.object(advice.asking, "small_wires", wide["enough"]):
        wire = template(advice.thicker_wire((case,)).words, wire="wire: ", value="17.2", now="17.1")
    with mock.patch.object(advice.asking, "small_wires", wide["small"]):
        no_wire = template(advice.thicker_wire((case,)).words, wire="wire: ")
    area = Fake(area=717)
    larger, no_larger = (advice.larger_wire(Fake(licensed=area, lines=(Fake(row=Fake(kcmil=needed)),))).words for needed in (919, 99999))
    yards = {}
    with mock.patch.object(advice, "nearest", lambda lines: "NEAREST"):
        for word, answer in (("safe", Verdict.SAFE), ("unsafe", Verdict.UNSAFE)):
            with mock.patch.object(advice.asking, "verdicts", lambda cases, answer=answer: [answer]):
                agree, that = advice.agreed_yards((case,), ("depth",))
            made = template(that.words, yard="yard: ", season="season 3")
            yards[word] = made.replace("{season}", "season {season}").replace("{yard}", "")
    with mock.patch.object(advice.core, "margins", lambda sheet: [Fake(mesh=-4242, step=-9999)]):
        near = template(advice.nearest((case,)), share="424.2 %", limit="touch", season="season 3").replace("{season}", "season {season}")
    with mock.patch.object(advice, "lengths", mock.Mock(side_effect=[(0, 0), (4242 * 10 ** 6, 0), (4242 * 10 ** 6, 0), (0, 0)])):
        more, less = (template(advice.added((), ())[2:], length="4,242", name="conductor") for _ in range(2))
    return {
        "wire": wire.replace("{wire}", ""), "no_wire": no_wire.replace("{wire}", ""),
        "larger": template(larger, wire="wire: ", needed="919", now="717").replace("{wire}", ""),
        "no_larger": template(no_larger, wire="wire: ").replace("{wire}", ""),
        "agree": template(agree.words, yard="yard: ", columns="depth").replace("{yard}", ""),
        "yards": {word: text.replace(", NEAREST", "") for word, text in yards.items()}, "nearest": near, "more": more, "less": less,
        "missing": [template(advice.missing_lines(decision.Missing(seasons, False)).words, missing="missing: ", seasons=said)
                    .replace("{missing}", "")
                    for seasons, said in (((7,), "season 7"), ((7, 8), "seasons 7 and 8"))],
    }


def licences():
    """Refusals of a licence."""
    def of(*lines, **tokens):
        try:
            licence.read("\n".join(("station,name,seasons,wire", *lines)).encode())
        except licence.LicenceRefused as refused:
            return template(str(refused), **tokens)
        raise SystemExit(f"extract: the licence {lines} is not refused")
    return {
        "cells": of("7,a,1,,5", line="line 2", count="5 cells", columns="not 4").replace("{count}", "{count} cells")
        .replace("{columns}", "not {columns}"),
        "station": of("42x,a,1,", line="line 2", text="42x"),
        "name": of("7,a\x07,1,", line="line 2"), "again": of("4242,a,1,", "4242,b,1,", line="line 3", earlier="line 2", station="4242"),
        "none": of("7,a,,", line="line 2"), "season": of("7,a,1 42,", line="line 2", text="42"),
        "twice": of("7,a,3 3,", line="line 2", text="3 3"), "wire": of("7,a,1,42x", line="line 2", text="42x"), "no_station": of(),
        "counted": template(*licence.wires(licence.Licence((licence.Licensed(7, "", (1,), wire="42x", area=424242),))), wire="42x",
                            area="424242"),
    }


def totals():
    """The counts of a portfolio, as pieces in bold and after them, without and with a licence; and what is said of the licence itself."""
    def of(*numbers, licensed):
        return reasons.totals(reasons.Counts(*numbers, 0), licensed)
    tokens = {"lines": "17,171", "safe": "4,242", "unsafe": "5,151", "undecided": "7,778"}
    found = {}
    for licensed in (True, False):
        one, many = (of(count, 1, 4242, 5151, 7778, missing, licensed=licensed) for count, missing in ((1, 1), (6161, 2323)))
        whole, alone = of(2, 1, 4242, 5151, 7778, 0, licensed=licensed), of(2, 1, 1, 0, 0, 0, licensed=licensed)
        head, gone = template(many[3].detail, **tokens).split("; ")
        found[str(licensed)] = {
            "stations": [template(one[0].head, count=1), template(many[0].head, count="6,161")],
            "released": template(many[1].head, count=1), "held": template(many[2].head, count="6,160"),
            "lines": [template(alone[3].detail.split("; ")[0], lines="1 season", safe="1 safe", unsafe="0 unsafe", undecided="0 undecided")
                      .replace("{lines}", "{lines} season").replace("{safe}", "{safe} safe").replace("{unsafe}", "{unsafe} unsafe")
                      .replace("{undecided}", "{undecided} undecided"), head],
            "missing": [whole[3].detail.split("; ")[1], template(one[3].detail.split("; ")[1], count=1), template(gone, count="2,323")],
        }
    def notes(licensed, *others):
        return reasons.notes(Fake(licensed=licensed, unlicensed=others, seasons=(1, 2, 3, 4)))[0]
    few, many = range(41, 43), range(1001, 1001 + reasons.NAMED + 42)
    return {**found, "named": reasons.NAMED, "notes": {
        "no_licence": notes(False),
        "outside": [template(notes(True, 4242), list="4242"),
                    template(notes(True, *few), count="2 stations", list="41 and 42").replace("{count}", "{count} stations")],
        "more": template(notes(True, *many)[-len("1020 and 42 more."):], last="1020", count="42").replace("{last}", "").removesuffix("."),
    }}
