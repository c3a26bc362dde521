"""The words about what is measured at a site, and about the fewest conductors for a side, as templates."""
from __future__ import annotations

from hocsimbur.command import measured, yards
from hocsimbur.core import Fewest, Pair, Refused, Soil, Split
from hocsimbur.sheets import amounts, site, words
from hocsimbur.sheets.forms import Unclear
from templates import template

TOKEN = (515151, 515151)


def refused(number, line=0, **asked):
    return words.refusal(Refused(number, line, 0), words.Asked(**asked))


def unclear(made, *arguments, **tokens):
    """What is said of arguments that are no amount."""
    try:
        made(*arguments)
    except Unclear as error:
        return template(str(error), **tokens)
    raise SystemExit(f"extract: {arguments} is an amount")


def refusals():
    """By number; of the count of readings both sentences."""
    return {
        12: [refused(12), template(refused(12, readings=[TOKEN] * 77), count=77)],
        13: template(refused(13, 42, readings=[TOKEN] * 42), line=42, value="515.151"),
        14: template(refused(14, 42, readings=[TOKEN] * 42), line=42, value="515.151"),
        15: template(refused(15, side=515151), side="515.151"),
        17: template(refused(17, parts=[TOKEN] * 43), count=42),
        18: template(refused(18, parts=[(0, 0)] * 42 + [(5151515, 0)]), where="branch 42", part="in-phase", value="5,151.515"),
        19: refused(19),
    }


def amounts_words():
    """What is said of a text that is no amount; `what` is distance, resistance or, of a side or a part of a current, nothing."""
    return {
        "no_number": unclear(amounts.decimal, "4.2.4", text="4.2.4"),
        "thousands": unclear(amounts.decimal, "4,242", text="4,242"), "comma": unclear(amounts.decimal, "4,24", text="4,24"),
        "far": unclear(site.reading, "42424242", "1", what="distance", text="42424242"),
        "far_part": unclear(site.rectangular, "9" * 40, "0"),
        "part": unclear(amounts.whole, "4.2424", 1000, "A", "mA", text="4.2424"),
        "side": unclear(amounts.whole, "4.2424", 1000, "m", "mm", text="4.2424"),
    }


def soil():
    varied = Soil(Pair(10 ** 6, 10 ** 6), Pair(4242424, 4242424), Pair(2, 2), 424242)
    warning, outside = measured.soil_notes(varied)
    many = [(place, 1) for place in range(42)], [(place + 1, 1) for place in range(42)]
    return {
        "times": measured.VARIED, "varied": template(warning, times="4.2 times").replace("{times}", "{times} times"),
        "outside": template(outside, soil="424,242"), "column": template(measured.soil_column(varied), soil="424,242"),
        "rounded": [*measured.rounding_notes([(1, 1)], [(2, 1)]), template(*measured.rounding_notes(*many), count=42)],
    }


def split():
    made = Split(0, 0, 424242)
    return {"outside": template(*measured.split_notes(made, 0), split="424,242"),
            "column": template(measured.split_column(made), split="424,242")}


def fewest():
    found = {rods: yards.said(Fewest(True, 5, rods, 4242), 515148) for rods in (77, 0)}
    tokens = {"lines": "5 conductors", "spacing": "128.787", "tried": "4242 yards"}
    return {
        "rods": template(found[77], rods="77", **tokens).replace("{lines}", "{lines} conductors"),
        "no_rods": template(found[0], **tokens).replace("{lines}", "{lines} conductors"),
        "tried": [yards.said(Fewest(True, 5, 0, 1), 4000).split("; ")[1].replace(" tried", ""), "{count} yards"],
        "none": template(yards.said(Fewest(False, 0, 0, 4242), 1), tried=4242),
        "untried": template(yards.said(Fewest(False, 0, 0, 0), 515151), side="515.151"),
        "head": yards.LIST_HEAD, "rod_counts": yards.RODS,
    }


def site_words():
    """All of it."""
    return {"refusals": refusals(), "amounts": amounts_words(), "soil": soil(), "split": split(), "fewest": fewest()}
