"""What the product's Python modules say, as data for the page: names, ranges, labels, refusals and the sentences about a station.

Sentences are functions in the product; each is called here with tokens for values, and becomes a template with {names} for them, so that
the page has the product's own words and no second set of them."""
from __future__ import annotations

import dataclasses
from types import SimpleNamespace as Fake

from hocsimbur import core
from hocsimbur.core import Refused
from hocsimbur.portfolio.licence import MOST_AREA
from hocsimbur.portfolio.lines import YARD
from hocsimbur.report import drawing, pages, plan, style, tables
from hocsimbur.sheets import catalogue, forms, labels, names, spreadsheet, words
from cell_words import cell_words
from head_words import head_words
from sentences import advised, asides, current, differences, licences, margins, released, told, totals, tried
from site_words import site_words
from templates import HEADER, template


def said(number, column, **values):
    """What is said of a refusal in line 2, without its place."""
    line = [str(values.get(name, 7)) for name in HEADER]
    sheet = "\n".join([",".join(HEADER), ",".join(line), ""]).encode()
    return words.refusal(Refused(number, 2, column), words.Asked(sheet)).split(": ", 1)[1]


FORMS = {  # a text of each kind that `forms` tells apart, and what of it is quoted
    "point": "4242.00", "zero": "04242", "digits": "4242424", "sign": "-4242", "letters": "4242 kA", "other": "x4242",
}


def form(column, name, kind, text):
    tokens = {"text": text}
    if kind == "point":
        tokens["whole"] = "4242"
    if kind == "zero":
        tokens["whole"] = "4242"
    made = template(said(3, column, **{name: text}), **tokens)
    return made.replace("has 7 digits", "has {count} digits") if kind == "digits" else made


def refusals():
    range_, forms_ = {}, {}
    for column, name in enumerate(HEADER, 1):
        range_[name] = template(said(5, column, **{name: 424242}), value=424242)
        forms_[name] = {kind: form(column, name, kind, text) for kind, text in FORMS.items()}
        forms_[name]["empty"] = said(3, column, **{name: ""})
        # a fraction in the column's range, and one above every range
        forms_[name]["fraction"] = form(column, name, "fraction", f"{names.BY_NAME[name].low}.42")
        forms_[name]["outside"] = form(column, name, "outside", "424242.42")
    sheet = "\n".join([",".join(HEADER), *[",".join(["4141", "3"] + ["7"] * 20)] * 2, ""]).encode()
    repeated = words.refusal(Refused(7, 3, 0), words.Asked(sheet, line_numbers=[1, 5151, 6161])).split(": ", 1)[1]
    many = words.Asked(b"x\n" + b"1\n" * 300)
    try:
        spreadsheet.exact("4,242", "\t")
        ambiguous = ""
    except ValueError as error:
        ambiguous = template(str(error), text="4,242", joined="4242", parted="4.242")
    return {
        "range": range_, "form": forms_, "ambiguous": ambiguous,
        "layer": template(said(6, HEADER.index("layer") + 1, layer=424, thick=515), layer=424, thick=515),
        "rods": template(said(6, HEADER.index("rods") + 1, rods=424, rodlen=515, place=626), rods=424, rodlen=515, place=626),
        "repeated": template(repeated, station=4141, season="season 3", earlier="line 5151").replace("{season}", "season {season}"),
        "lines": template(words.refusal(Refused(4, 258, 0), many).split(": ", 1)[1], count=300),
        "no_lines": words.refusal(Refused(4, 2, 0), words.Asked(b"x\n")).split(": ", 1)[1],
        "missing_name": template(forms.missing_names(HEADER[:20], HEADER), names="metal and hz are", count=20),
        "unknown_name": template(forms.unknown_name("qqqq", HEADER, HEADER), name="qqqq"),
        "own_fault": words.OWN_FAULT,
    }


def shown(label):
    """How a label shows its numbers, found by asking it."""
    kind = {"1,234": "grouped", "123.4": "tenths", "1.234": "metres"}.get(label.show(1234)) if label.label != "Rod place" else "place"
    zero = label.show(0) if kind != "place" else ""
    return {"label": label.label, "unit": label.unit, "kind": kind, "zero": zero if zero.isalpha() else ""}


def fields(kind):
    """The numbers of an answer, each with the count of its numbers."""
    return [[one.name, 2 if "Pair" in str(one.type) else 1] for one in dataclasses.fields(kind)]


def quantities(listed):
    """What a table of the report shows of a line: name in HTML, unit, which pair, and its decimals."""
    found = []
    for one in listed:
        for part in ("row", "working"):
            kind = core.Row if part == "row" else core.Working
            pairs = {name: object() for name, count in fields(kind) if count == 2}
            try:
                got = one.pair(Fake(**{part: Fake(**pairs)}))
            except AttributeError:
                continue
            name = next(name for name, pair in pairs.items() if pair is got)
            found.append({"name": one.name, "unit": one.unit, "part": part, "pair": name, "scale": one.scale, "places": one.places})
    return found


def css():
    """The rules for marks, badges and bars, as the report has them."""
    marks = style.CSS[style.CSS.index("/* marks and badges"):style.CSS.index("/* page 1 */")]
    bars = style.CSS[style.CSS.index("/* bars */"):style.CSS.index("/* a station */")]
    return (marks + bars).replace("#fff", "var(--page)")


def data():
    """All of it."""
    return {
        "names": [{**dataclasses.asdict(one), "allowed": one.allowed} for one in names.NAMES],
        "former": names.FORMER, "metals": names.METALS,
        "wires": {name: wire.kcmil for name, wire in catalogue.WIRES.items()}, "most_area": MOST_AREA,
        "places": labels.PLACES, "labels": {name: shown(label) for name, label in labels.LABELS.items()}, "yard": YARD,
        "row": fields(core.Row), "working": fields(core.Working), "release": fields(core.Release),
        "lines": core.LINES, "sheet_bytes": core.SHEET_BYTES,
        "results": quantities(tables.RESULTS), "workings": quantities(tables.WORKING), "formulas": tables.FORMULAS,
        "shapes": drawing.SHAPES, "verdicts": {int(verdict): word for verdict, word in words.VERDICTS.items()},
        "scale": {"limit": drawing.LIMIT, "least": drawing.LEAST_TOP, "most": drawing.MOST_TOP, "step": drawing.STEP},
        "plan": {"left": plan.LEFT, "top": plan.TOP, "width": plan.WIDTH, "height": plan.HEIGHT, "whole": plan.WHOLE_WIDTH,
                 "bars": plan.SCALE_BARS,
                 "dot": plan.DOT, "small_dot": plan.SMALL_DOT, "short": plan.SHORT},
        "numbers": {one.name.lower(): int(one) for one in core.Refusal},
        "refusals": refusals(), "margins": margins(), "told": told(), "current": current(), "differences": differences(),
        "asides": asides(),
        "released": {str(licensed): [released(count, licensed) for count in (1, 2, 3, 4)] for licensed in (True, False)},
        "tried": tried(), "advised": advised(), "site": site_words(), "cells": cell_words(), "heads": head_words(), "licences": licences(),
        "totals": totals(), "proved": pages.PROVED,
    }
