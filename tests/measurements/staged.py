"""The split from a staged test, in exact whole numbers, after request (l) of document 02 and equation
50 of IEEE Std 81.2; and the tests that the program `questions` is asked for the split of, which tests/questions/questions.py stores.

A test is a line: the injected current's in-phase and quadrature part in milliamperes, then those of
each branch.
"""

import random
from itertools import product
from math import isqrt

from tests.calculator.calculator import Refusal

KIND = "split"
MOST_NUMBERS = 64  # what the program takes of one line
SEED, RANDOM_TESTS = 1, 400

MOST_BRANCHES = 16
MOST_PART = 1_000_000
PER_MILLE = 1000

# Lines that are no list of numbers.
BROKEN = ("x", "1,2,3,x", "1,,2,3", "1,2,3,", ",1,2,3", "+1,2,3,4", " 1,2,3,4", "1;2;3;4",
          "1,2,3,4-", "-,1,2,3", "--1,2,3,4", "1.0,2,3,4")


def check(numbers):
    """The refusal of some numbers, or nothing."""
    count = len(numbers)
    if count % 2 == 1 or count < 4 or count > 2 + 2 * MOST_BRANCHES:
        return Refusal(17, 0, 0)
    if any(abs(number) > MOST_PART for number in numbers):
        return Refusal(18, 0, 0)
    if numbers[:2] == (0, 0):
        return Refusal(19, 0, 0)
    return None


def pairs_of(numbers):
    """The currents, each with its two parts: the injected one first."""
    return list(zip(numbers[::2], numbers[1::2]))


def grid_current(numbers):
    """What of the injected current is in no branch, part by part."""
    (in_phase, quadrature), *branches = pairs_of(numbers)
    for branch in branches:
        in_phase -= branch[0]
        quadrature -= branch[1]
    return in_phase, quadrature


def square(current):
    return current[0] ** 2 + current[1] ** 2


def smallest_split(injected, grid):
    """The smallest whole number whose square is not below a million times the squares' quotient."""
    quotient = -(-PER_MILLE**2 * square(grid) // square(injected))
    root = isqrt(quotient)
    return root if root * root == quotient else root + 1


def answer(numbers):
    """A refusal, or the grid's two parts and the split."""
    refusal = check(numbers)
    if refusal:
        return refusal
    grid = grid_current(numbers)
    return (*grid, smallest_split(numbers[:2], grid))


def judge(numbers, given):
    """What is wrong with an answer, by the words of the request; empty when right."""
    refusal = check(numbers)
    if refusal or isinstance(given, Refusal):
        return [] if isinstance(given, Refusal) and given == refusal else [f"{given}, not {refusal}"]
    *grid, split = given
    (injected, *branches), wrong = pairs_of(numbers), []
    for part, name in enumerate(("in-phase", "quadrature")):
        if grid[part] + sum(branch[part] for branch in branches) != injected[part]:
            wrong.append(f"branches and grid do not make the injected current: {name}")
    wanted = PER_MILLE**2 * square(grid)
    if split < 0 or split**2 * square(injected) < wanted:
        wrong.append(f"the split {split} is too small")
    if split > 0 and (split - 1) ** 2 * square(injected) >= wanted:
        wrong.append(f"the split {split} is not the smallest")
    return wrong


# ---- the tests that are stored


def refused_tests(pick):
    """Every refusal at its limits, and the order of the three."""
    for count in (*range(2, 6), 33, 34, 35, 36, 37, 63, MOST_NUMBERS):
        yield tuple(pick.randint(-MOST_PART, MOST_PART) for _ in range(count))
        yield (0,) * count
        yield (MOST_PART + 1,) * count
        yield (0, 0, *(-MOST_PART - 1,) * (count - 2))
    yield (5,)
    sizes = MOST_PART, MOST_PART + 1, 10**9, 10**18 - 1
    for size, sign, place in product(sizes, (1, -1), range(4)):
        numbers = [pick.randint(1, 999) for _ in range(4)]
        numbers[place] = sign * size
        yield tuple(numbers)
    for place in range(34):
        numbers = [pick.randint(-99, 99) for _ in range(34)]
        numbers[place] = pick.choice((1, -1)) * (MOST_PART + 1)
        yield tuple(numbers)
    yield from ((0, 0, 1, 1), (0, 1, 1, 1), (1, 0, 1, 1), (0, 0, 0, 0), (0, 0, MOST_PART + 1, 0),
                (0, 0, 1), (0, 0, MOST_PART + 1))


def random_tests(pick, count):
    """Parts of both signs and of several sizes, 1 to 16 branches."""
    for number in range(count):
        most = 10 ** pick.randint(0, 6)
        parts = [pick.randint(-most, most) for _ in range(4 + 2 * (number % MOST_BRANCHES))]
        if parts[:2] == [0, 0]:
            parts[pick.randint(0, 1)] = pick.choice((1, -1))
        yield tuple(parts)


def with_grid(injected, grid, pick, branches=1):
    """A test with this grid current; nothing where a part would be out of its range."""
    left = [injected[part] - grid[part] for part in (0, 1)]
    parts = []
    for others in range(branches - 1, -1, -1):
        # a share that leaves no more than the other branches can have
        for part in (0, 1):
            low = max(-MOST_PART, left[part] - others * MOST_PART)
            high = min(MOST_PART, left[part] + others * MOST_PART)
            if low > high:
                return None
            share = pick.randint(low, high)
            parts.append(share)
            left[part] -= share
    return (*injected, *parts)


def edge_tests(pick):
    """No grid current, a split that is a whole number and those next to it, the largest splits."""
    for branches in (1, 2, MOST_BRANCHES):
        yield with_grid((pick.randint(1, 999), pick.randint(-999, -1)), (0, 0), pick, branches)
    for split in (0, 1, 2, 9, 10, 99, 333, 600, 999, 1000, 1001, 1100, 1999):
        x, y = pick.randint(1, 450), -pick.randint(1, 450)
        injected = (PER_MILLE * x, PER_MILLE * y)
        for grid in ((split * x, split * y), (-split * y, split * x)):
            for more in (-1, 0, 1):
                yield with_grid(injected, (grid[0] + more, grid[1]), pick, 4)
    # with one milliampere injected: a root with a small rest, whose digits are all 0
    for whole in (1, 499, 500, 501, 15_999_999, 16_000_000):
        for offset in (0, 1, -1, 2):
            yield with_grid((1, 0), (whole, offset), pick, MOST_BRANCHES)
            yield with_grid((0, -1), (offset, -whole), pick, MOST_BRANCHES)
    # the largest splits and the largest grid current
    for signs in product((MOST_PART, -MOST_PART), repeat=2):
        for injected in ((1, 0), (0, 1), (-1, 0), (1, 1), (MOST_PART,) * 2, (MOST_PART, -MOST_PART)):
            yield (*injected, *signs * MOST_BRANCHES)
    for size in range(1, 40):
        injected = pick.randint(-9, -1), pick.randint(1, 9)
        yield with_grid(injected, (pick.randint(-size, size), size), pick, 2)


def all_lines():
    """The stored lines: tests with each its numbers, and lines that are none."""
    pick = random.Random(SEED)
    tests = [*refused_tests(pick), *edge_tests(pick), *random_tests(pick, RANDOM_TESTS)]
    lines = [",".join(map(str, test)) for test in dict.fromkeys(tests) if test is not None]
    return [*lines, "", *BROKEN]
