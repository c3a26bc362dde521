"""Questions about single lines, many at a time: each line is put under a station of its own, so that one sheet answers for all of them.

Station and season decide nothing in a row, and `core.release` then speaks of one line each."""
from __future__ import annotations

from math import isqrt
from typing import Callable, Dict, List, Sequence, TypeVar

from .. import core
from ..sheets import layout
from ..sheets.names import BY_NAME, KF

Case = Dict[str, int]
Answer = TypeVar("Answer")

FAULT_LEAST, FAULT_MOST = BY_NAME["fault"].low, BY_NAME["fault"].high


def _alone(cases: Sequence[Case]) -> bytes:
    """A sheet with each case as season 1 of a station of its own, 1 and up."""
    return layout.text([dict(case, station=number, season=1) for number, case in enumerate(cases, 1)])


def _each(cases: Sequence[Case], ask: Callable[[bytes, int], List[Answer]]) -> List[Answer]:
    """An answer for each case, however many there are."""
    answers: List[Answer] = []
    for first in range(0, len(cases), core.LINES):
        part = cases[first:first + core.LINES]
        answers += ask(_alone(part), len(part))
    return answers


def verdicts(cases: Sequence[Case]) -> List[core.Verdict]:
    """The verdict of each case."""
    return [row.verdict for row in _each(cases, lambda sheet, count: core.rows(sheet))]


AREA = "own area"  # a case may have, besides its columns, its conductor's own cross-section in kcmil; without it, or with 0, it is a solid round


def with_area(case: Case, area: int) -> Case:
    """A case whose conductor has this cross-section of its own, in whole kcmil."""
    return {**case, AREA: area}


def small_wires(cases: Sequence[Case]) -> List[bool]:
    """Of each case, whether its conductor is too small."""
    answers: List[bool] = []
    for first in range(0, len(cases), core.LINES):
        part = cases[first:first + core.LINES]
        sheet = _alone([{name: case[name] for name in case if name != AREA} for case in part])
        licence = [(number, 1, case.get(AREA, 0)) for number, case in enumerate(part, 1)]
        answers += [answer.small_wire > 0 for answer in core.release(sheet, licence)]
    return answers


def greatest(cases: Sequence[Case], name: str, low: int, high: int, good: Callable[[List[Case]], List[bool]]) -> List[int]:
    """For each case the greatest value of a column in low..high that is good, low - 1 where none is: by halving, all cases at once.

    Good must hold up to some value and fail beyond it."""
    lower, upper = [low - 1] * len(cases), [high + 1] * len(cases)
    while any(above - below > 1 for below, above in zip(lower, upper)):
        open_ones = [i for i in range(len(cases)) if upper[i] - lower[i] > 1]
        tried = [(lower[i] + upper[i]) // 2 for i in open_ones]
        answers = good([dict(cases[i], **{name: value}) for i, value in zip(open_ones, tried)])
        for i, value, well in zip(open_ones, tried, answers):
            if well:
                lower[i] = value
            else:
                upper[i] = value
    return lower


def _guess(case: Case, row: core.Row) -> int:
    """About the greatest fault current in A for which a conductor is enough: (needed kcmil) = kA · Kf · √s · Df.

    Only a guess: the library is asked at it and one ampere above."""
    own = case.get(AREA) or 1000 * case["dia"] * case["dia"] // 64516
    per_ampere = KF[case["metal"]] * row.factor.upper  # 10^-14 kcmil for an ampere and the root of a second
    return isqrt((own * 10 ** 14) ** 2 * 1000 // (per_ampere * per_ampere * case["wire"]))


def wires_enough_to(cases: Sequence[Case], rows: Sequence[core.Row]) -> List[int]:
    """For each case the greatest fault current in A at which its conductor is large enough; at 100 A every one in range is.

    The library is asked at a guess and one ampere above; where that does not settle it, by halving."""
    def enough(asked: List[Case]) -> List[bool]:
        return [not small for small in small_wires(asked)]

    guesses = [max(FAULT_LEAST, min(_guess(case, row), FAULT_MOST)) for case, row in zip(cases, rows)]
    at = enough([dict(case, fault=guess) for case, guess in zip(cases, guesses)])
    above = enough([dict(case, fault=min(guess + 1, FAULT_MOST)) for case, guess in zip(cases, guesses)])
    settled = [good and (guess == FAULT_MOST or not better) for guess, good, better in zip(guesses, at, above)]
    halved = iter(greatest([case for case, done in zip(cases, settled) if not done], "fault", FAULT_LEAST, FAULT_MOST, enough))
    return [guess if done else next(halved) for guess, done in zip(guesses, settled)]
