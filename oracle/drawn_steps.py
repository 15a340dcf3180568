"""Steps from which maps are drawn (paper 02, "Bearings from the drawing"). Those at the edges of sectors are common."""

from dataclasses import replace
from functools import lru_cache
from itertools import product

from depot_map import Steps
from fields import FIRST_EASTS, GREATEST_STEP, QUARTER_SECTORS, sector

# 20 m along a line that runs in one of these directions.
EASTWARD, WESTWARD, NORTHWARD, SOUTHWARD = Steps(200, 0), Steps(-200, 0), Steps(0, 200), Steps(0, -200)
STEP_RANGE = range(-GREATEST_STEP, GREATEST_STEP + 1)
ENDS_OF_RANGE = [Steps(east, north) for east, north in product((-GREATEST_STEP, 0, GREATEST_STEP), repeat=2) if (east, north) != (0, 0)]


def turned(steps, quarters):
    """The steps turned clockwise by quarters."""
    east, north = steps
    for _ in range(quarters):
        east, north = north, -east
    return Steps(east, north)


@lru_cache(maxsize=1)
def all_steps():
    """All 251,000 that a map may have."""
    return [Steps(east, north) for east, north in product(STEP_RANGE, repeat=2) if (east, north) != (0, 0)]


@lru_cache(maxsize=1)
def steps_at_edges():
    """In each row from west to east and in each column from south to north, the steps nearest to each edge on both sides, or on it."""
    found = set()
    for north, first_easts in FIRST_EASTS.items():
        for east in [east for first in (0, *first_easts) for east in (first - 1, first) if east <= GREATEST_STEP]:
            found |= {turned(steps, quarters) for steps in ((east, north), (north, east)) for quarters in range(4)}
    return sorted(found)


def in_sectors(steps):
    """The steps of each sector."""
    sectors = [[] for _ in range(32)]
    for pair in steps:
        sectors[sector(pair)].append(pair)
    return sectors


@lru_cache(maxsize=1)
def steps_in_sectors():
    """Of each sector all steps, and those at its edges."""
    return list(zip(in_sectors(all_steps()), in_sectors(steps_at_edges())))


def steps_of_sector(rng, number):
    """Any steps of a sector, every other time at one of its edges."""
    return rng.choice(rng.choice(steps_in_sectors()[number % 32]))


def sides_of_edge(rng, edge):
    """Steps that are one apart: the last before an edge, and the first beyond it or on it. The sector of the edge's number starts there."""
    quarters, inside = divmod(edge % 32, QUARTER_SECTORS)
    rows = [(north, (0, *first_easts)[inside]) for north, first_easts in FIRST_EASTS.items()]
    north, first = rng.choice([(north, first) for north, first in rows if first <= GREATEST_STEP])
    return turned((first - 1, north), quarters), turned((first, north), quarters)


def around_an_edge(rng):
    """Steps of two neighbouring sectors, two of each."""
    edge = rng.randrange(32)
    return [steps_of_sector(rng, edge - before) for before in (0, 1, 0, 1)]


def any_steps(rng):
    """Steps anywhere, at an edge, along a multiple of 45 degrees, or as long or as short as can be."""
    length = rng.choice([1, 2, 200, GREATEST_STEP - 1, rng.randrange(1, GREATEST_STEP)])
    along = turned(rng.choice([(0, length), (length, length)]), rng.randrange(4))
    return rng.choice([rng.choice(all_steps()), rng.choice(steps_at_edges()), along, rng.choice(ENDS_OF_RANGE)])


def redrawn(rng, depot_map):
    """The map with other steps of the same sectors on each line."""
    lines = tuple(replace(line, steps_out=steps_of_sector(rng, sector(line.steps_out)), steps_back=steps_of_sector(rng, sector(line.steps_back)))
                  for line in depot_map.lines)
    return replace(depot_map, lines=lines)
