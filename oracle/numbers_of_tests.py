"""How many tests a writing may make, for cases (paper 02, "Best found so far")."""

from bisect import bisect_left
from dataclasses import replace

from depot_map import LARGEST_NUMBER, read_map
from legs import LegSearch
from outcome import RefusedCall
from reader import check_work_length
from writer import ALL_TESTS, check_stretch, fewest_legs, leg_is_usable, legs_in_order, skip_lines

# Numbers that are 0 where only their lowest 8, 16 or 31 bits are looked at, and the greatest.
WIDE_NUMBERS = (256, 65_536, 2 ** 31, LARGEST_NUMBER)


def lines_left(given):
    """The map and the lines that remain after the offsets, or None where a call is refused before its legs are looked at."""
    try:
        check_work_length(given.work_length)
        depot_map = read_map(given.map_bytes)
        check_stretch(depot_map, given.lines, given.pos, given.neg)
    except RefusedCall:
        return None
    return depot_map, skip_lines(depot_map, given.lines, given.pos, given.neg)[0]


def leg_count(line_count):
    return len(legs_in_order(line_count))


def any_tests(rng, line_count):
    """A number of tests for so many lines: none, one, a few, around the end of the first rows of legs, around all, far more than all, or any up to all."""
    all_legs = leg_count(line_count)
    numbers = rng.choice([(0,), (1,), range(2, 8), range(line_count - 1, line_count + 2), range(2 * line_count - 2, 2 * line_count + 1), (all_legs - 1,),
                          (all_legs,), (all_legs + 1,), WIDE_NUMBERS, range(all_legs + 1), range(all_legs + 1)])
    return max(0, rng.choice(numbers))


def given_all_tests(rng, given):
    """The call with tests for all legs: exactly as many, or more. Where legs do not come to be tested, any number does."""
    left = lines_left(given)
    if left is None:
        return replace(given, tests=any_tests(rng, len(given.lines)))
    all_legs = leg_count(len(left[1]))
    return replace(given, tests=rng.choice([all_legs, all_legs, all_legs + 1, ALL_TESTS, rng.choice(WIDE_NUMBERS[1:])]))


def with_all_tests(recipe):
    """What another recipe makes, with tests for all legs."""
    def with_tests(rng, turn):
        label, given = recipe(rng, turn)
        return label, given_all_tests(rng, given)
    return with_tests


def all_with_all_tests(recipes):
    return {name: with_all_tests(recipe) for name, recipe in recipes.items()}


def first_decided(depot_map, lines):
    """The least number of tests with which the answer is not 26. With more it is not 26 either, so that halving finds it."""
    search, count = LegSearch(depot_map), len(lines)
    in_order = legs_in_order(count)
    good = {(start, end) for start, end in in_order if leg_is_usable(search, lines[start:end], end == count)}

    def decided(tests):
        tested_good = good.intersection(in_order[:tests])
        return fewest_legs(count, tested_good) is not None or fewest_legs(count, tested_good.union(in_order[tests:])) is None
    return bisect_left(range(len(in_order) + 1), True, key=decided)


def telling_tests(rng, depot_map, lines):
    """A number of tests around where the answer becomes another: the last with 26, the first without, some number between that and all, or any."""
    first, all_legs = first_decided(depot_map, lines), leg_count(len(lines))
    return rng.choice([first - 1, first, rng.randrange(first, max(first, all_legs - 1) + 1), any_tests(rng, len(lines))])
