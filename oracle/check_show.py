"""Holds the printing program to what show.py says, in folders with files at the edges of its buffers.

Usage: python3 oracle/check_show.py PROGRAM. Folders with different prints are named, and the status is 1.
"""

import random
import subprocess
import sys
import tempfile
from dataclasses import replace
from pathlib import Path

from depot_map import (GREATEST_LATITUDE, GREATEST_LONGITUDE, LARGEST_NUMBER, LONGEST_LINE, MOST_BANS, MOST_LINES, MOST_NODES, DepotMap, Line, Node, Steps,
                       map_numbers, map_to_bytes, numbers_to_bytes)
from fields import DISTANCE_STEP, GREATEST_STEP
from read_recipes import around, bytes_of_legs, longest_reference
from sample_maps import ridge_map
from show import shown
from test_meridian import RIDGE_ACROSS, from_the_ridge_across
from test_points import HYDRANT
from test_scope_paper import RIDGE, THREE_POINTS, THREE_POINTS_HALF_WAY, TWO_POINTS

# Each takes two bytes.
LONGEST_STEPS = Steps(GREATEST_STEP, GREATEST_STEP)
# More than any buffer that the program could keep for a map or a reference.
FAR = 200_000


def ridge_with_count_of_bans(number, *pairs):
    return numbers_to_bytes(map_numbers(ridge_map())[:-1] + [number, *pairs])


def ridge_with_last_steps(*numbers):
    """The ridge with other numbers for the steps back of line 3."""
    return numbers_to_bytes(map_numbers(ridge_map())[:-3] + [*numbers, 0])


def longest_map():
    """Every number as long as it can be in a map that is accepted. Up to three lines join the same two nodes; D tells them apart."""
    nodes = tuple(Node(GREATEST_LONGITUDE - 100 * number, GREATEST_LATITUDE) for number in range(MOST_NODES))
    ring = 384
    lines = tuple(Line(128 + number % ring, 128 + (number + 1) % ring, LONGEST_LINE - DISTANCE_STEP * (number // ring), 7, 7, LONGEST_STEPS, LONGEST_STEPS)
                  for number in range(MOST_LINES))
    bans = tuple((first, first + 1) for first in range(128, 128 + MOST_BANS))
    return DepotMap(nodes, lines, bans)


def longest_maps():
    """The longest map that is accepted, and one as long as can be whose pairs name no line: refusal 23, and 2 where a byte is left over."""
    depot_map = longest_map()
    longest, reference = map_to_bytes(depot_map), bytes_of_legs(depot_map, [(1_000,)])
    yield "longest map", {"map.bin": longest, "ref.bin": reference}
    yield "longest map and a byte", {"map.bin": longest + b"\x00", "ref.bin": reference}
    wrong_pairs = map_to_bytes(replace(depot_map, bans=((LARGEST_NUMBER, LARGEST_NUMBER),) * MOST_BANS))
    yield "longest map with wrong pairs", {"map.bin": wrong_pairs, "ref.bin": reference}
    yield "longest map with wrong pairs and a byte", {"map.bin": wrong_pairs + b"\x00", "ref.bin": reference}


def ring_reading(line_count):
    """A map of 16 nodes and a reference of 64 legs around it, of 1,024 lines or of one more."""
    depot_map, legs = around(16, 64)
    if line_count == 1_024:
        legs[-1] = legs[-1][:-1]
    return {"map.bin": map_to_bytes(depot_map), "ref.bin": bytes_of_legs(depot_map, legs)}


def longest():
    _, given = longest_reference(random.Random(1), 0)
    return {"map.bin": given.map_bytes, "ref.bin": given.reference}


def folders():
    """For each folder a name and its files."""
    yield "the ridge, positive offset 5000", {"map.bin": RIDGE, "ref.bin": THREE_POINTS_HALF_WAY}
    yield "the ridge, two points", {"map.bin": RIDGE, "ref.bin": TWO_POINTS}
    yield "a point along a line", {"map.bin": RIDGE, "ref.bin": HYDRANT}
    yield "no files", {}
    yield "no map", {"ref.bin": THREE_POINTS}
    yield "no reference", {"map.bin": RIDGE}
    yield "bytes left over", {"map.bin": RIDGE + bytes(FAR), "ref.bin": THREE_POINTS}
    yield "fault before the bytes left over", {"map.bin": ridge_with_count_of_bans(513) + bytes(FAR)}
    yield "number without an end", {"map.bin": b"\xff" * FAR}
    yield "last count without an end", {"map.bin": ridge_with_count_of_bans(b"\x80" * FAR)}
    yield "last number without an end", {"map.bin": ridge_with_count_of_bans(1, 0, b"\x80" * FAR)}
    yield "the ridge with a turn banned, two points", {"map.bin": map_to_bytes(ridge_map((0, 2))), "ref.bin": TWO_POINTS}
    yield "legs that meet in a banned turn", {"map.bin": map_to_bytes(ridge_map((0, 1))), "ref.bin": THREE_POINTS}
    yield "a line banned after itself", {"map.bin": map_to_bytes(ridge_map((0, 0))), "ref.bin": THREE_POINTS}
    yield "a step out of range", {"map.bin": ridge_with_last_steps(50, 501), "ref.bin": THREE_POINTS}
    yield "both steps zero", {"map.bin": ridge_with_last_steps(250, 250), "ref.bin": THREE_POINTS}
    yield "steps of another sector, two points", {"map.bin": ridge_with_last_steps(50, 290), "ref.bin": TWO_POINTS}
    yield "the ridge across the meridian", {"map.bin": RIDGE_ACROSS, "ref.bin": from_the_ridge_across(THREE_POINTS_HALF_WAY)}
    yield "a point at 17,999,999", {"map.bin": RIDGE_ACROSS, "ref.bin": from_the_ridge_across(THREE_POINTS).replace(b"\x03\xe8", b"\x03\xe7")}
    yield from longest_maps()
    for length in (459, 460, 511, 512, 513, FAR):
        yield f"reference of {length} bytes", {"map.bin": RIDGE, "ref.bin": (THREE_POINTS + bytes(FAR))[:length]}
    yield "longest reference", longest()
    for line_count in (1_024, 1_025):
        yield f"{line_count} lines", ring_reading(line_count)


def main():
    program = Path(sys.argv[1]).resolve()
    differ = False
    for name, files in folders():
        with tempfile.TemporaryDirectory() as folder:
            for file_name, contents in files.items():
                (Path(folder) / file_name).write_bytes(contents)
            printed = subprocess.run([program], cwd=folder, check=True, capture_output=True, text=True).stdout
            if printed != shown(Path(folder)) + "\n":
                print(f"{name}: {printed[:60]!r}, not {shown(Path(folder))[:60]!r}")
                differ = True
    sys.exit(1 if differ else 0)


if __name__ == "__main__":
    main()
