"""The small drawings of a report, in SVG, since browsers may leave out backgrounds in print: marks, badges, bars and their axis.

All coordinates are whole numbers: a bar's are per mille of its limit."""
from __future__ import annotations

from dataclasses import dataclass
from html import escape
from typing import Iterable, Sequence

from ..core import Verdict
from ..portfolio.decision import Portfolio, Station

LIMIT = 1000  # per mille: where the limit stands on every bar
LEAST_TOP, MOST_TOP, STEP = 1250, 2000, 250

SHAPES = {
    "safe": '<circle cx="80" cy="80" r="56"/>',
    "unsafe": '<path d="M80 16 150 144H10z"/>',
    "undecided": '<path d="M80 8 152 80 80 152 8 80z"/>',
    "none": '<path class="box" d="M12 12h136v136H12z"/><path d="M40 71h80v19H40z"/>',
    "released": '<circle cx="80" cy="80" r="72"/><path class="inner" d="m46 82 25 26 45-52"/>',
    "held": '<path d="M50 8h60l42 42v60l-42 42H50L8 110V50z"/><path class="dash" d="M42 70h76v21H42z"/>',
    "caution": '<path class="line" d="M80 18 150 142H10z"/><path d="M72 62h16v42H72zM72 114h16v16H72z"/>',
}

_BASE = '<rect class="base" x="0" y="2" width="4" height="16"/>'

_WORDS = {Verdict.SAFE: "safe", Verdict.UNSAFE: "unsafe", Verdict.UNDECIDED: "undecided"}


@dataclass(frozen=True)
class Scale:
    """The one scale of all bars of a report: 0 to `top` per mille of the limit; a bar beyond it is cut."""

    top: int
    greatest: int  # the greatest share of the report, per mille

    @property
    def cuts(self) -> bool:
        return self.greatest > self.top


def scale(portfolio: Portfolio) -> Scale:
    """From 0 to the next 25 % over the greatest share, at least 125 % and at most 200 %."""
    shares = [LIMIT + line.nearest.margin for station in portfolio.stations for line in station.lines]
    greatest = max(shares, default=LIMIT)
    return Scale(min(MOST_TOP, max(LEAST_TOP, -(-greatest // STEP) * STEP)), greatest)


def word(verdict: Verdict) -> str:
    """The word of a verdict, which is also its mark's name."""
    return _WORDS[verdict]


def mark(kind: str) -> str:
    """A mark, for the eye alone: a word stands next to it."""
    return f'<svg class="mark {kind}" viewBox="0 0 160 160" aria-hidden="true" focusable="false">{SHAPES[kind]}</svg>'


def badge(station: Station) -> str:
    """The decision as a mark and a word."""
    kind = "released" if station.released else "held"
    return f'<span class="badge {kind}">{mark(kind)}{kind.upper()}</span>'


def _limit_line() -> str:
    return f'<rect class="limit" x="{LIMIT - 4}" y="0" width="8" height="20"/>'


def bar(share: int, scale_: Scale, ident: str, title: str, others: Sequence[int] = ()) -> str:
    """A bar of a share per mille of its limit, with the limit's line over its whole height; `others` are white ticks."""
    shown = min(share, scale_.top)
    parts = [_BASE, f'<rect class="fill" x="0" y="5" width="{min(shown, LIMIT)}" height="10"/>']
    if shown > LIMIT:
        parts.append(f'<rect class="over" x="{LIMIT}" y="5" width="{shown - LIMIT}" height="10"/>')
    parts += [f'<rect class="tick" x="{max(0, min(other, scale_.top) - 5)}" y="5" width="9" height="10"/>' for other in others]
    if share > scale_.top:
        parts.append(f'<path class="cut" d="M{scale_.top - 60} 5l25 5-25 5M{scale_.top - 30} 5l25 5-25 5"/>')
    return _svg(scale_, parts, ident, title)


def no_bar(scale_: Scale, ident: str, title: str) -> str:
    """The place of a bar of a season without a line."""
    return _svg(scale_, [_BASE], ident, title)


def _svg(scale_: Scale, parts: Iterable[str], ident: str, title: str) -> str:
    return (f'<svg class="bar" viewBox="0 0 {scale_.top} 20" preserveAspectRatio="none" role="img" aria-labelledby="{ident}">'
            f'<title id="{ident}">{escape(title)}</title>{"".join(parts)}{_limit_line()}</svg>')


def between(scale_: Scale) -> str:
    """The limit's line alone, which joins the bars above and below it."""
    return (f'<svg class="bar" viewBox="0 0 {scale_.top} 20" preserveAspectRatio="none" aria-hidden="true" focusable="false">'
            f'{_limit_line()}</svg>')


def axis(scale_: Scale) -> str:
    """0, 50 and 100 % over the bars."""
    marks = ((0, "0"), (500, "50"), (LIMIT, "100 % limit"))
    spans = "".join(f'<span style="left:calc(100% * {place} / {scale_.top})">{text}</span>' for place, text in marks)
    return f'<span class="axis" aria-hidden="true">{spans}</span>'
