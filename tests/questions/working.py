"""The working of a case: the quantities that IEEE Std 80-2013, Annex B, prints between a record and its row.

Written from the documents, separately from the crate `working`, on the calculator's exact fractions, with a judge of what
the program `questions` answers to a question of kind `working`: a lower and an upper end of each quantity.
"""

from collections import namedtuple
from fractions import Fraction
from functools import lru_cache

from tests.calculator import calculator as calc
from tests.calculator.calculator import LOWER, Quantity, Refusal

KIND = "working"
MILLIONTH, HUNDRED_THOUSANDTH = Fraction(1, 10**6), Fraction(1, 10**5)


def share(name, units, of_lower=MILLIONTH):
    """Ends at most this share of the lower one apart."""
    return Quantity(name, units, of_lower, LOWER, 0)


# In the order in which they are printed: name, units in one, and the allowed width. Lengths are in micrometres, Ks is
# per metre, driven is rho * Ki * IG / LM in millivolts.
QUANTITIES = (
    share("cs", 10**9), share("root_time", 10**8), share("side", 10**6),
    share("lc", 10**6), share("lr", 10**6), share("lt", 10**6), share("lm", 10**6), share("ls", 10**6),
    share("n", 10**7), share("ki", 10**10), share("kii", 10**9, HUNDRED_THOUSANDTH), share("kh", 10**9),
    share("km", 10**7, HUNDRED_THOUSANDTH), share("ks", 10**7, HUNDRED_THOUSANDTH),
    Quantity("driven", 1000, MILLIONTH, LOWER, 3),
)
Working = namedtuple("Working", [quantity.name for quantity in QUANTITIES])
EXACT = ("lc", "lr", "lt", "ls")  # whole micrometres, so that both ends are equal


def cs(case):
    """Equation 27: Cs = 1 - 0.09 (1 - rho/rhos) / (2 hs + 0.09); 1 for bare soil."""
    if case.layer == 0:
        return Fraction(1)
    edge = Fraction("0.09")
    return 1 - edge * (1 - Fraction(case.soil, case.layer)) / (2 * calc.metres(case.thick) + edge)


@lru_cache(maxsize=4096)
def working(case, k):
    """The quantities at depth k, in one, metres, per metre and volts."""
    calc.check_depth(k)
    n = calc.as_pair(calc.n_ends(calc.grid_of(case), k))
    mesh_length = calc.mesh_length(case, k)
    return Working(*map(calc.as_pair, (
        cs(case),
        calc.root_ends(calc.seconds(case.shock), 2, k),
        calc.area_root_ends(case, k),
        calc.conductor_length(case),
        calc.rod_length(case),
        calc.total_length(case),
        mesh_length,
        calc.step_length(case),
        n,
        calc.ki(n),
        calc.kii_ends(case, k),
        calc.kh_ends(case, k),
        calc.km_ends(case, k),
        calc.ks_ends(case, k),
        calc.driving_ends(case, k) / mesh_length,
    )))


def pairs_of(answer):
    """The answered pairs by name."""
    return Working(*zip(answer[::2], answer[1::2]))


def judge(case, answer, depths):
    """What is wrong with an answer; empty when right."""
    wanted = calc.check_record(case)
    if wanted or isinstance(answer, Refusal):
        return [] if answer == wanted else [f"{answer}, not {wanted}"]
    if len(answer) != 2 * len(QUANTITIES):
        return [f"{len(answer)} numbers, not {2 * len(QUANTITIES)}"]
    pairs, complaints = pairs_of(answer), []
    for at, (quantity, pair) in enumerate(zip(QUANTITIES, pairs)):
        ends_at = {k: working(case, k)[at] for k in depths}
        allowed = quantity.share * pair[0] + quantity.plus
        complaints += calc.judge_pair(quantity.name, pair, ends_at, quantity.units, allowed)
    return complaints + [f"{name}: {getattr(pairs, name)} is not one number"
                         for name in EXACT if len(set(getattr(pairs, name))) > 1]


def value(answer, name):
    """Both ends of a quantity in an answer, in one, metres, per metre or volts."""
    at = Working._fields.index(name)
    return calc.Pair(*(Fraction(end, QUANTITIES[at].units) for end in pairs_of(answer)[at]))
