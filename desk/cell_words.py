"""How `import` reads a cell: units with their factors, the cautious sides with their reasons, and its sentences as templates."""
from __future__ import annotations

from fractions import Fraction

from hocsimbur.sheets import catalogue, forms, names, rounding, spreadsheet, units
from hocsimbur.sheets.amounts import shown
from templates import HEADER, template

SOUND = dict(zip(HEADER, "7,1,400,2500,102,500,500,500,70,3180,600,10,11,11,7000,500,100,4,3000,1,1,60".split(",")))
TAIL = ", or give --round cautious"  # what the command offers, and the page by a button


def made(cautious=False, *lines, **cells):
    """What `import` makes of lines, each with some cells; or what it refuses, without its place."""
    sheet = [",".join(HEADER)] + [",".join(f'"{one}"' for one in {**SOUND, **line}.values()) for line in (lines or (cells,))]
    try:
        return spreadsheet.make("\n".join([*sheet, ""]).encode(), cautious)
    except spreadsheet.Refusals as refusals:
        return refusals.said[0].split(": ", 1)[1]


def told(text, name):
    """How one change of a kind and how several are counted, with the first example in line 2; the first line of changes is of quotes."""
    one, many = (made(False, *[{**{name: text}, "season": season} for season in range(1, count + 1)]).changes.told()[1] for count in (1, 4))
    return one, many


def changes():
    made_, away, digits, wire = told("42424.2kA", "fault"), told("42424 A", "fault"), told("42424.0", "fault"), told("95 mm2", "dia")
    own = catalogue.WIRES["95 mm2"]
    def both(pair, **tokens):
        return [template(text, count=f"{count} {noun}", **tokens).replace("{count}", "{count} " + noun)
                for text, count, noun in zip(pair, (1, 4), (pair[0].split()[1].rstrip(":"), pair[1].split()[1].rstrip(":")))]
    return {
        "made": [one.replace("{made}", "{unit} made {own}")
                 for one in both(made_, where="line 2, fault", text="42424.2kA", number="42424200", made="kA made A")],
        "away": [one.replace("{unit}", "unit {unit}")
                 for one in both(away, where="line 2, fault", text="42424 A", number="42424", unit="unit A")],
        "digits": both(digits, where="line 2, fault", text="42424.0", number="42424"),
        "wire": [one.replace("{dia}", "{dia},").replace("{mm}", "{mm} mm").replace("{kcmil}", "{kcmil} kcmil")
                 for one in both(wire, where="line 2, dia", text="95 mm2", dia=f"{own.dia},", mm=f"{shown(Fraction(own.dia, 10))} mm",
                                 kcmil=f"{own.kcmil} kcmil")],
    }


def refusals():
    whole = {name.name: forms.whole_number(name.unit) for name in names.NAMES}
    bare, unit = made(soil="424.5"), made(layer="5151.5 ohm m")
    if not (bare.endswith(TAIL) and unit.endswith(TAIL)):
        raise SystemExit(f"extract: '{bare}' does not end with '{TAIL}'")
    head, tail = template(bare.removesuffix(TAIL), text="424.5", own=whole["soil"], side="up", whole="425").split("; ")
    neither = made(depth="424.5")
    out = made(split="0.42").removeprefix(template(head, text="{text}", own="{own}").format(text="0.42", own=whole["split"]))
    outside, other = out.split("; ")
    return {
        "outside": template(outside, range="1..1000"), "other_unit": "; " + template(other, name="split", allowed=units.allowed("split")),
        "whole": whole, "no_number": template(made(soil="x4242"), text="x4242", own=whole["soil"]),
        "unit": template(made(fault="42 qqq"), text="42 qqq", unit="qqq", name="fault", allowed=units.allowed("fault")),
        "cycles": template(made(shock="42 cycles", hz="55"), text="42 cycles"), "below": template(made(soil="-42"), text="-42"),
        "no_size": template(made(dia="99 mm2"), text="99 mm2"),
        "bare": head, "with_unit": template(unit.split("; ")[0], text="5151.5 ohm m", number="5151.5", unit="Ω·m,", own=whole["layer"])
        .replace("{unit}", "{unit},"),
        "cautious": tail, "neither": template(neither, text="424.5", own=whole["depth"], advice=rounding.advice("depth")),
    }


def rounded():
    bare = made(True, soil="424.5").rounded[0]
    unit = made(True, layer="5151.5 ohm m").rounded[0]
    why = {name: rounding.DIRECTIONS[name].why for name in ("soil", "layer")}
    note = made(dia="4/0").rounded[0]
    wire = catalogue.WIRES["4/0"]
    return {
        "bare": template(bare, where="line 2, soil", text="424.5", side="up", whole="425", why=why["soil"]),
        "with_unit": template(unit, where="line 2, layer", text="5151.5 ohm m", number="5151.5", unit="Ω·m,", side="down", whole="5151",
                              why=why["layer"]).replace("{unit}", "{unit},"),
        "note": template(note, name="4/0", kcmil=f"has {wire.kcmil}", solid=f"of {1000 * wire.dia * wire.dia // 64516} ")
        .replace("{kcmil}", "has {kcmil}").replace("{solid}", "of {solid} "),
    }


def cell_words():
    """All of it."""
    return {
        "units": {name: {unit: [factor.numerator, factor.denominator] for unit, factor in units.UNITS[name].items()}
                  for name in HEADER if name in units.UNITS},
        "cycles": units.CYCLES, "in_cycles": [name for name in HEADER if units.known(name, "cycles")],
        "allowed": {name: units.allowed(name) for name in HEADER}, "dia": {name: wire.dia for name, wire in catalogue.WIRES.items()},
        "sides": {name: {"side": one.side, "why": one.why, "advice": rounding.advice(name)} for name, one in rounding.DIRECTIONS.items()
                  if name in HEADER},
        "by_layer": rounding.BY_LAYER, "neither": rounding.NEITHER, "up": rounding.UP, "down": rounding.DOWN,
        "changes": changes(), "refusals": refusals(), "rounded": rounded(),
    }
