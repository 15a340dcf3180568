"""Worked cases of paper 02, "Best found so far": small maps, a stretch on each, and by hand the answer to every number of tests.

The pentagon is the smallest stretch on which the best found so far can exceed the fewest. What is found ends with a tested leg, from some place k to the last
place. A better choice that is still open has an untested leg, and so one that starts behind k, at m. It saves points only if m is reached in fewer legs than k.
So k takes two legs at least: k is 2 or more, m is 3 or more, and there are four lines or more.

    legs by start and end, in the order of their tests: 0-1, 0-2, 0-3, 0-4, 1-2, 1-3, 1-4, 2-3, 2-4, 3-4

Good legs of the pentagon are 0-1, 0-3, 1-2, 2-4 and 3-4. Only differences decide that: one line leaves each node, so that there is one way from any node to
another. Nodes 0, 1, 2, 4, 3 make a ring of five sides. Neighbours in this ring differ by 30,000 at most, east and north, which fits 16 bits. Others differ by
40,000 at least, which does not fit.

           4                  up to 8 tests: no tested leg that is good ends at place 4
                              9 tests: 0-1, 1-2, 2-4 is found, and 0-3, 3-4 is still open
      3          2            10 tests: 0-3, 3-4 is found

        0      1
"""

from dataclasses import replace
from typing import NamedTuple

from depot_map import DepotMap, Line, Node, map_to_bytes
from drawn_steps import EASTWARD, WESTWARD
from outcome import Refused, StretchWritten
from reference import LONGEST_REFERENCE

PENTAGON_NODES = (Node(0, 0), Node(30_000, 0), Node(40_000, 30_000), Node(-10_000, 30_000), Node(20_000, 50_000))
# Legs of 10,000, 10,000 and 20,000. D is 1, 1 and 3. Differences: 30,000 is 7530, 10,000 is 2710, -20,000 is B1E0, 20,000 is 4E20.
PENTAGON_FOUR_POINTS = bytes.fromhex("0B 000000 000000 1B 68 01 7530 0000 1B 68 01 2710 7530 1B 68 03 B1E0 4E20 1B 18")
# Legs of 30,000 and 10,000. D is 5 and 1. Differences: -10,000 is D8F0.
PENTAGON_THREE_POINTS = bytes.fromhex("0B 000000 000000 1B 68 05 D8F0 7530 1B 68 01 7530 4E20 1B 18")


class WorkedCase(NamedTuple):
    """A stretch without offsets on a map, the length of the byte buffer, the good legs, and the answer to 0 tests, 1 test, and so on, up to one test for each
    leg. Any greater number of tests has the last answer."""
    depot_map: DepotMap
    stretch: tuple
    byte_room: int
    good_legs: tuple
    answers: tuple

    def map_bytes(self):
        return map_to_bytes(self.depot_map)


def line(start, end, length=10_000):
    """FRC 3, FOW 3, drawn from west to east."""
    return Line(start, end, length, 3, 3, EASTWARD, WESTWARD)


def pentagon():
    """The best found so far has a point too many, and with one test more it has not."""
    depot_map = DepotMap(PENTAGON_NODES, tuple(line(number, number + 1) for number in range(4)))
    answers = (Refused(26),) * 9 + (StretchWritten(PENTAGON_FOUR_POINTS, 9, 1), StretchWritten(PENTAGON_THREE_POINTS, 10, 0))
    return WorkedCase(depot_map, (0, 1, 2, 3), LONGEST_REFERENCE, ((0, 1), (0, 3), (1, 2), (2, 4), (3, 4)), answers)


def pentagon_in_a_short_buffer():
    """With 9 tests the reference is too long for the buffer, and with 10 it is not."""
    case = pentagon()
    return case._replace(byte_room=len(PENTAGON_FOUR_POINTS) - 1, answers=case.answers[:9] + (Refused(11),) + case.answers[10:])


def open_pentagon():
    """The pentagon with node 4 further east, too far from node 3. With 9 tests leg 3-4 counts as good all the same, and the excess is 1; in truth it is 0."""
    case = pentagon()
    depot_map = replace(case.depot_map, nodes=PENTAGON_NODES[:4] + (Node(50_000, 50_000),))
    # Node 4 is now 10,000 east of node 2, and not 20,000 west.
    reference = PENTAGON_FOUR_POINTS.replace(bytes.fromhex("B1E0 4E20"), bytes.fromhex("2710 4E20"))
    answers = (Refused(26),) * 9 + (StretchWritten(reference, 9, 1), StretchWritten(reference, 10, 0))
    return WorkedCase(depot_map, case.stretch, LONGEST_REFERENCE, case.good_legs[:4], answers)


def twins():
    """A line with another just like it: 26 while nothing is tested, and 10 then."""
    depot_map = DepotMap(PENTAGON_NODES[:2], (line(0, 1), line(0, 1)))
    return WorkedCase(depot_map, (0,), LONGEST_REFERENCE, (), (Refused(26), Refused(10)))


def twins_first():
    """The same with a line behind. No leg from the start is good, and so 10 is given before the last leg is tested, which is good."""
    depot_map = DepotMap(PENTAGON_NODES[:3], (line(0, 1), line(0, 1), line(1, 2)))
    return WorkedCase(depot_map, (0, 2), LONGEST_REFERENCE, ((1, 2),), (Refused(26), Refused(26), Refused(10), Refused(10)))


def far_line_last():
    """Two lines, the second of which ends too far away from both nodes. While its leg is not tested it counts as good, and 26 is given."""
    depot_map = DepotMap(PENTAGON_NODES[:2] + (Node(70_000, 0),), (line(0, 1), line(1, 2)))
    return WorkedCase(depot_map, (0, 1), LONGEST_REFERENCE, ((0, 1),), (Refused(26), Refused(26), Refused(26), Refused(10)))


def long_leg_last():
    """Three lines, two of which are too long together, and the second has a twin. So no leg from place 1 is good: 1-2 by the twin, 1-3 by its length.

    With 4 tests 1-3 is not tested. It counts as good although it is too long, and 26 is given.
    """
    depot_map = DepotMap(tuple(Node(1_000 * number, 0) for number in range(4)),
                         (line(0, 1, 1_000_000), line(1, 2, 1_000_000), line(2, 3, 1_000_000), line(1, 2, 1_000_000)))
    return WorkedCase(depot_map, (0, 1, 2), LONGEST_REFERENCE, ((0, 1), (2, 3)), (Refused(26),) * 5 + (Refused(10), Refused(10)))


WORKED_CASES = {make.__name__: make() for make in (pentagon, pentagon_in_a_short_buffer, open_pentagon, twins, twins_first, far_line_last, long_leg_last)}
