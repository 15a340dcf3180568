"""What a call of a writer or of a reader answers, and how the printing program shows it."""

from dataclasses import dataclass
from typing import Optional


@dataclass(frozen=True)
class Refused:
    """A refusal by its number in the scope paper's table. Refusals 16, 17 and 18 carry a point or a leg."""
    number: int
    place: Optional[int] = None


@dataclass(frozen=True)
class StretchRead:
    """An accepted read: the lines, and for each offset the least and the greatest that give its byte."""
    lines: tuple
    positive_span: tuple
    negative_span: tuple


@dataclass(frozen=True)
class PointRead:
    """An accepted read of a point along a line: the leg's lines, the offset's least and greatest, orientation and side as in the bytes, 0 to 3."""
    lines: tuple
    span: tuple
    orientation: int
    side: int


@dataclass(frozen=True)
class StretchWritten:
    """An accepted write of a stretch: the bytes, the leg tests made, and by how many points at most these bytes exceed the fewest."""
    reference: bytes
    tests: int
    excess: int


@dataclass(frozen=True)
class PointWritten:
    """An accepted write of a point along a line. Its writer is given no number of tests."""
    reference: bytes


class RefusedCall(Exception):
    """Raised where a rule is broken; the entry points turn it into their answer."""

    def __init__(self, number, place=None):
        super().__init__(number, place)
        self.refused = Refused(number, place)


def outcome_of(call, *arguments):
    """What a call gives back, or the refusal that it raises."""
    try:
        return call(*arguments)
    except RefusedCall as refusal:
        return refusal.refused


def heading(outcome):
    """The first row of what is printed of an accepted read."""
    if isinstance(outcome, PointRead):
        # The scope paper shows no program for points. This form follows that of stretches.
        least, greatest = outcome.span
        return f"lines {len(outcome.lines)} offset {least} {greatest} orientation {outcome.orientation} side {outcome.side}"
    least_positive, greatest_positive = outcome.positive_span
    least_negative, greatest_negative = outcome.negative_span
    return f"lines {len(outcome.lines)} pos {least_positive} {greatest_positive} neg {least_negative} {greatest_negative}"


def written_heading(outcome):
    """The same of an accepted write. Of a stretch the tests made and the excess stand behind the count of bytes."""
    count = f"bytes {len(outcome.reference)}"
    return f"{count} tests {outcome.tests} excess {outcome.excess}" if isinstance(outcome, StretchWritten) else count


def outcome_text(outcome):
    """The text that the scope paper's printing program gives ("The tie at the ridge")."""
    if isinstance(outcome, Refused):
        place = "" if outcome.place is None else f" {outcome.place}"
        return f"refused {outcome.number}{place}"
    if isinstance(outcome, (StretchWritten, PointWritten)):
        # The scope paper shows no program for the writers. This form follows the reader's: count, then data.
        return f"{written_heading(outcome)}\n{outcome.reference.hex().upper()}"
    return "\n".join([heading(outcome)] + [str(line) for line in outcome.lines])
