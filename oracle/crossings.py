"""Where readings and stretches cross the 180th meridian, for tests that ask whether its edges occur."""

from typing import NamedTuple

from depot_map import Node
from fields import brought_round, code_pair
from reference import take_apart

HALF_CIRCLE = 18_000_000


class Move(NamedTuple):
    """From a node by a difference of longitudes to where it leads, and whether a node is there."""
    start: Node
    difference: int
    end: Node
    found: bool

    def crosses(self):
        """Whether it leads over the meridian: the plain longitudes are half a circle apart then, or more."""
        return abs(self.end.longitude - self.start.longitude) >= HALF_CIRCLE


def reading_moves(depot_map, reference):
    """The moves from point to point, up to the first point with no node."""
    nodes = set(depot_map.nodes)
    first, *later = take_apart(reference).points
    start = next((node for node in nodes if code_pair(node) == (first.longitude, first.latitude)), None)
    for point in later:
        if start not in nodes:
            return
        end = Node(brought_round(start.longitude + point.longitude), start.latitude + point.latitude)
        yield Move(start, point.longitude, end, end in nodes)
        start = end


def stretch_moves(depot_map, lines):
    """A move along each line."""
    for line in lines:
        start, end = depot_map.nodes[depot_map.lines[line].start_node], depot_map.nodes[depot_map.lines[line].end_node]
        yield Move(start, brought_round(end.longitude - start.longitude), end, True)
