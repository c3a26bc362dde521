"""How `import` reads the heads of columns: the names that a head may have, and its sentences as templates."""
from __future__ import annotations

from hocsimbur.sheets import forms, spreadsheet, units
from templates import HEADER, template

LINE = "7,1,400,2500,102,500,500,500,70,3180,600,10,11,11,7000,500,100,4,3000,1,1,60".split(",")


def asked(heads=None, lines=(LINE,), above=()):
    """What `import` makes of lines under some heads, with lines above them; or what it refuses."""
    text = "".join(",".join(line) + "\n" for line in [*above, heads or HEADER, *lines])
    try:
        return spreadsheet.make(text.encode())
    except spreadsheet.Refusals as refusals:
        return refusals.said


def told(one, many, **tokens):
    """How one change of a kind and how several are counted; `one` and `many` are what `import` made."""
    counts = ((one, 1), (many, 2))
    return [template(made.changes.told()[0], **tokens).replace(f"{count} ", "{count} ", 1) for made, count in counts]


def called(**heads):
    """The names, some of them written otherwise."""
    return [heads.get(name, name) for name in HEADER]


def left_out(*more):
    return asked([*HEADER, *more], [[*LINE, *["4"] * len(more)]])


def head_words():
    """All of it."""
    refused = asked(called(soil="sol", hz="qqqqqqq"))
    again = asked(called(soil="layer", layer="layer"))[0].split(": ", 1)[1]
    unit, none = (asked(called(**heads))[0] for heads in ({"fault": "fault [qqq]"}, {"rods": "rods [qqq]"}))
    names = asked(["name", *HEADER], [["North", *LINE], ["South", *LINE]])[0]
    return {
        "few": spreadsheet.FEW, "most": spreadsheet.HEADS, "labels": spreadsheet.LABELLED, "station_name": spreadsheet.STATION_NAME,
        "title": told(asked(above=[["4242"]]), asked(above=[["4242"], ["x"]]), line="line 1", text="4242"),
        "lower": told(asked(called(soil="SOIL")), asked(called(soil="SOIL", hz="HZ")), made="SOIL is soil"),
        "read": told(asked(called(soil="Soil []")), asked(called(soil="Soil []", hz="Frequency")), made="Soil [] is soil"),
        "called": template(asked(["name", *HEADER], [["North", *LINE]]).changes.told()[0], place="column 1").replace("{place}",
                                                                                                                     "column {place}"),
        "left_out": told(left_out("qqqq"), left_out("qqqq", "x"), place="23", head="qqqq"),
        "again": template(again, name="layer", place="column 3").replace("{place}", "column {place}"),
        "unit": template(unit.split(": ", 1)[1], head="fault [qqq]", unit="'qqq'", allowed=units.allowed("fault"), name="fault")
        .replace("{unit}", "'{unit}'"),
        "no_unit": template(none.split(": ", 1)[1], head="rods [qqq]", unit="'qqq'", name="rods").replace("{unit}", "'{unit}'"),
        "near": template(refused[0], line="line 1", place="column 3", head="sol'", near="soil")
        .replace("{place}", "column {place}").replace("{head}", "{head}'"),
        "unknown": template(refused[1], line="line 1", place="column 22", head="qqqqqqq").replace("{place}", "column {place}"),
        "missing": template(refused[2].split(": ", 1)[1], names="soil and hz are", count="are 20", form="has 22")
        .replace("{count}", "are {count}").replace("{form}", "has {form}"),
        "named": template(names.split(": ", 1)[1], station="station 7", name="South", other="North").replace("{station}",
                                                                                                             "station {station}"),
        "where": template(names.split(": ", 1)[0], line="line 3", name="name", place="column 1").replace("{place}", "column {place}"),
        "short": forms.LONGEST,
    }
