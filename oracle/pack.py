"""Packs cases for the test programs, with what each must print: crates/NAME/data/cases.bin and crates/NAME/stdout.

Usage: python3 oracle/pack.py [--check]. With --check nothing is written; files that differ are named, and the status is 1.
"""

import argparse
import sys
from collections import Counter
from dataclasses import replace
from functools import lru_cache
from pathlib import Path

from cases import (as_by_itself_cases, best_found_cases, large_message_cases, leg_cases, leg_cases_across, long_received_cases, map_cases,
                   meridian_map_cases, meridian_point_read_cases, meridian_point_write_cases, meridian_read_cases, meridian_write_cases, message_cases,
                   of_message_cases, point_read_cases, point_read_cases_across, point_read_edge_cases, point_write_cases, point_write_cases_across,
                   point_write_edge_cases, points_for_stretches_cases, random_source, read_cases, read_cases_across, received_cases, start_cases, stretch_leg,
                   two_portions_cases, with_other_tests, write_cases, write_cases_across)
from depot_map import LATITUDE_SHIFT, LONGITUDE_SHIFT, MOST_BANS, MOST_LINES, map_to_bytes
from drawn_steps import ENDS_OF_RANGE, steps_at_edges
from fields import sector
from legs import LegSearch, list_length
from meridian_recipes import ACROSS
from message import Part, bytes_of_part
from message_calls import ADD, ASK, CLOSE, OPEN, START, Call, History, buffers_after, history_outcome, reading_outcome, received_outcome
from message_recipes import EACH_FRONT, LARGE, ON_LARGE_MAP, START_REFUSED, STARTED_AGAIN, TWO_PORTIONS
from numbers_of_tests import any_tests, given_all_tests
from of_message_recipes import LARGE_MAP, LONG_MESSAGE, every_changed_map, every_small_map, every_wrong_front
from outcome import Refused, heading, outcome_text, written_heading
from point_along_line import read_point
from point_read_recipes import composed_point_from, point_read_outcome
from point_write_recipes import PointInput, many_points_on_a_map, point_write_outcome
from read_recipes import changed_in_a_byte, composed_from, read_outcome
from reader import LEAST_WORK_LENGTH, read
from received_recipes import LONG, every_damage
from recipes import until_found
from sample_maps import MapBuilder, full_sample, full_size_sample, joining_pairs, sample_across
from write_recipes import many_on_a_map, write_outcome

CRATES = Path(__file__).parent.parent / "crates"
SUM_MODULUS = 4_294_967_291
# What a program's buffer holds of cases.bin, and the lengths of the buffers that the programs with calls have for the work area, for lines and for bytes.
MOST_CASE_BYTES = 1_048_576
WORK_ROOM, READS_LINE_ROOM = 14_340, 65_480
WRITES_LINE_ROOM, WRITES_BYTE_ROOM = 80, 480
POINTS_LINE_ROOM, POINTS_BYTE_ROOM = 1_100, 40
MESSAGE_ROOM, OF_MESSAGE_LINE_ROOM = 16_400, 1_100
MOST_PART_BYTES = 65_535
# The first byte of a part: a new buffer, calls of a message in it, a received message that is asked for a reference, the map from here on, and readings out of
# a message, of a stretch or of a point.
NEW_BUFFER, CALLS, RECEIVED, MAP, READINGS = 0, {OPEN: 1, ADD: 2, CLOSE: 3, ASK: 4, START: 6}, 5, 7, {False: 8, True: 9}
# The recipe whose maps would take too much room.
FULL_SIZE = "full size"
FULL_SIZE_ACROSS = FULL_SIZE + ACROSS
# Recipes of writings whose maps take much room and that soon have had all their edges. So many cases of each will do.
CASES_OF_LARGE_MAPS = {"longest reference": 15, "tie that a ban decides": 32, "all but one line skipped": 40, "around the block": 24,
                       "refusal 21, in skipped lines": 36}
# The same of histories, whose starts have cases of their own, and of readings out of a message.
CASES_OF_HISTORIES = {ON_LARGE_MAP: 3, "long references": 27, "short buffer": 28, "one or two bytes of length": 42, "byte by byte": 32, "full buffer": 28,
                      "every number": 36, "out of order": 20, TWO_PORTIONS: 0, EACH_FRONT: 0, STARTED_AGAIN: 0, START_REFUSED: 0}
CASES_OF_STARTS = {STARTED_AGAIN: 24, START_REFUSED: 54}
CASES_OF_READINGS = {LONG_MESSAGE: 2, LARGE_MAP: 8}


def packed(parts):
    """Parts one after another, each behind its length in two bytes, low byte first."""
    parts = list(parts)
    if max(map(len, parts)) > MOST_PART_BYTES:
        raise RuntimeError("a part is too long")
    return b"".join(len(part).to_bytes(2, "little") + part for part in parts)


def number_sum(numbers):
    """A sum that tells the numbers and their order."""
    total = 0
    for number in numbers:
        total = (total * 257 + number) % SUM_MODULUS
    return total


def map_row(outcome):
    if isinstance(outcome, Refused):
        return outcome_text(outcome)
    bans = bans_by_second_line(outcome.bans)
    numbers = [number for node in outcome.nodes for number in (node.longitude + LONGITUDE_SHIFT, node.latitude + LATITUDE_SHIFT)]
    numbers += [number for line in outcome.lines for number in line_numbers(line)]
    numbers += [number for ban in bans for number in ban]
    return f"nodes {len(outcome.nodes)} lines {len(outcome.lines)} bans {len(bans)} sum {number_sum(numbers)}"


def line_numbers(line):
    """A line's numbers, with the sectors in place of the steps."""
    return [line.start_node, line.end_node, line.length, line.frc, line.fow, sector(line.steps_out), sector(line.steps_back)]


def bans_by_second_line(bans):
    """Each once, in the order of their second lines; of one second line, those whose first listing is last come first."""
    first_listings = dict.fromkeys(bans)
    return sorted(reversed(first_listings), key=lambda ban: ban[1])


def map_of_different_bans():
    """A map as large as can be, with the most banned turns that there can be, each listed once."""
    rng = random_source("different bans", 1, 0)
    depot_map = full_sample(rng).depot_map
    return replace(depot_map, bans=tuple(rng.sample(joining_pairs(depot_map.lines), MOST_BANS)))


def maps_of_steps_at_edges():
    """Maps of two nodes and up to 1,024 lines. All together they have every pair of steps at an edge of a sector, half of them out and half of them back,
    and the ends of the range out and back."""
    pairs = steps_at_edges()
    lines = [*zip(pairs[::2], pairs[1::2]), *zip(ENDS_OF_RANGE, ENDS_OF_RANGE)]
    for first in range(0, len(lines), MOST_LINES):
        builder = MapBuilder()
        start, end = builder.row_of_nodes(2)
        for steps_out, steps_back in lines[first:first + MOST_LINES]:
            builder.line(start, end, 1, steps_out=steps_out, steps_back=steps_back)
        yield builder.build()


def test_maps():
    cases = [(case.map_bytes, case.expected) for case in map_cases(seed=1, count=720)]
    full = map_of_different_bans()
    cases.append((map_to_bytes(full), full))
    cases += [(case.map_bytes, case.expected) for case in meridian_map_cases(seed=1, count=60)]
    cases += [(map_to_bytes(depot_map), depot_map) for depot_map in maps_of_steps_at_edges()]
    return packed(map_bytes for map_bytes, _ in cases), [map_row(expected) for _, expected in cases]


def words(numbers):
    """Numbers of four bytes each, low byte first."""
    return b"".join(number.to_bytes(4, "little") for number in numbers)


def leg_words(leg):
    """Two nodes, the first line's marks, lowest class and D; then 1 and the last line's marks, or 0."""
    def marks(marks):
        return [marks.frc, marks.fow, marks.sector]

    last = [0, 0, 0, 0] if leg.last_marks is None else [1] + marks(leg.last_marks)
    return words([leg.start_node, leg.end_node] + marks(leg.first_marks) + [leg.lowest_frc, leg.distance_byte] + last)


def leg_row(depot_map, readings):
    if readings.how_many != "one":
        return readings.how_many
    lines = readings.lines
    whole = " ".join(map(str, lines))
    return f"one {lines[0]} {lines[-1]} {list_length(depot_map, lines)} {len(lines)}: {whole}"


def full_size_samples(kind, plain, across):
    """Some full-size samples, and some more whose maps lie across the meridian. Each comes with its random source."""
    for turn in range(plain + across):
        rng = random_source(kind, 1, turn)
        sample = full_size_sample(rng, turn)
        yield rng, sample if turn < plain else sample_across(sample)


def full_map_legs(plain, across, legs):
    """Many legs on each of some full-size maps; the map stands with the first of its legs only."""
    parts, rows = [], []
    for rng, sample in full_size_samples("full-size legs", plain, across):
        search = LegSearch(sample.depot_map)
        for number in range(legs):
            leg = stretch_leg(rng, sample)
            parts += [map_to_bytes(sample.depot_map) if number == 0 else b"", leg_words(leg)]
            rows.append(leg_row(sample.depot_map, search.readings(leg)))
    return parts, rows


def test_legs():
    parts, rows = full_map_legs(plain=12, across=0, legs=40)
    for case in [*leg_cases(seed=1, count=1_600, left_out=FULL_SIZE), *leg_cases_across(seed=1, count=80, left_out=FULL_SIZE_ACROSS)]:
        parts += [case.map_bytes, leg_words(case.leg)]
        rows.append(leg_row(case.depot_map, case.expected))
    return packed(parts), rows


def refusal_row(outcome):
    """A refusal leaves the buffers as they were, and refusal 1 the work area too."""
    return f"{outcome_text(outcome)}{work_text(outcome)} rest kept"


def work_text(outcome):
    """What stands in the work area after a call."""
    return f" work {'kept' if outcome == Refused(1) else 'cleared'}"


def lines_text(outcome):
    """What the printing program shows before the lines, and a sum over the lines."""
    return f"{heading(outcome)} sum {number_sum(outcome.lines)}"


def read_row(_, outcome):
    """The answer, and what stands in the work area and in the line buffer behind the lines handed back."""
    if isinstance(outcome, Refused):
        return refusal_row(outcome)
    return f"{lines_text(outcome)} work cleared rest kept"


def many_reads(rng, sample, references, compose):
    """References on a map, every other one with a byte changed."""
    for number in range(references):
        given = until_found(lambda: compose(rng, sample))
        yield changed_in_a_byte(rng, given) if number % 2 else given


def full_map_reads(plain, across, references):
    """Inputs and outcomes of many references on each of some full-size maps."""
    for rng, sample in full_size_samples("full-size reads", plain, across):
        for given in many_reads(rng, sample, references, composed_from):
            yield given, read_outcome(given)


def on_small_maps(make_cases, count, left_out=FULL_SIZE):
    for case in make_cases(seed=1, count=count, left_out=left_out):
        yield case.given, case.expected


def by_map(calls):
    """The same calls, each once, those on one map one after another."""
    groups = {}
    for given, outcome in calls:
        groups.setdefault(given.map_bytes, {})[given] = outcome
    return [call for group in groups.values() for call in group.items()]


def check_room(calls, fits):
    """The programs lend parts of buffers that they have."""
    if not all(given.work_length <= WORK_ROOM and fits(given) for given, _ in calls):
        raise RuntimeError("the program's buffers are too short for a case")


def packed_calls(calls, subject, numbers, row):
    """A case has three parts: a map, what is read or written on it, and numbers. The last number is 1 where the map
    is that of the case before; its own part is empty then."""
    parts, rows, map_before = [], [], None
    for given, outcome in by_map(calls):
        same = given.map_bytes == map_before
        map_before = given.map_bytes
        parts += [b"" if same else given.map_bytes, subject(given), words([*numbers(given), int(same)])]
        rows.append(row(given, outcome))
    return packed(parts), rows


def test_reads():
    """The subject is a reference; the numbers are the lengths of the work area and of the line buffer."""
    calls = [*on_small_maps(read_cases, 3_120), *full_map_reads(plain=8, across=1, references=49),
             *on_small_maps(read_cases_across, 104, FULL_SIZE_ACROSS), *on_small_maps(meridian_read_cases, 120),
             *on_small_maps(points_for_stretches_cases, 22)]
    check_room(calls, lambda given: given.line_room <= READS_LINE_ROOM)
    return packed_calls(calls, lambda given: given.reference,
                        lambda given: [given.work_length, given.line_room], read_row)


def write_row(outcome, read_back):
    """The answer, what stands in the work area and in the byte buffer behind the bytes, and how they are read."""
    if isinstance(outcome, Refused):
        return refusal_row(outcome)
    reference = outcome.reference
    return f"{written_heading(outcome)} sum {number_sum(reference)} work cleared rest kept read {lines_text(read_back(reference))}"


def stretch_row(given, outcome):
    return write_row(outcome, lambda reference: read(given.map_bytes, reference, LEAST_WORK_LENGTH, WRITES_LINE_ROOM))


def full_map_writes(plain, across, stretches):
    """Each stretch with all tests, and with any number of them."""
    for rng, sample in full_size_samples("full-size writes", plain, across):
        for made in many_on_a_map(rng, sample.depot_map, stretches):
            for given in (given_all_tests(rng, made), replace(made, tests=any_tests(rng, len(made.lines)))):
                yield given, write_outcome(given)


def few_of_some(made, most):
    """The cases but for those of some recipes beyond what will do."""
    counts = Counter()
    for case in made:
        recipe = case.label.split(":")[0]
        counts[recipe] += 1
        if counts[recipe] <= most.get(recipe, counts[recipe]):
            yield case


def test_writes():
    """The subject is a stretch, four bytes a line; the numbers are the offsets, the number of tests, and the lengths of the work area and of the byte
    buffer."""
    made = [*few_of_some(write_cases(seed=1, count=2_730, left_out=FULL_SIZE), CASES_OF_LARGE_MAPS),
            *write_cases_across(seed=1, count=105, left_out=FULL_SIZE_ACROSS), *meridian_write_cases(seed=1, count=128)]
    made += [*with_other_tests("other tests", 1, made), *best_found_cases(seed=1, count=405)]
    calls = [*((case.given, case.expected) for case in made), *full_map_writes(plain=8, across=2, stretches=24)]
    check_room(calls, lambda given: len(given.lines) <= WRITES_LINE_ROOM and given.byte_room <= WRITES_BYTE_ROOM)
    return packed_calls(calls, lambda given: words(given.lines),
                        lambda given: [given.pos, given.neg, given.tests, given.work_length, given.byte_room], stretch_row)


def full_map_points(plain, across, points):
    """On each of some full-size maps many points to be read, and many to be written."""
    for rng, sample in full_size_samples("full-size point calls", plain, across):
        for given in many_reads(rng, sample, points, composed_point_from):
            yield given, point_read_outcome(given)
        for given in many_points_on_a_map(rng, sample.depot_map, points):
            yield given, point_write_outcome(given)


def is_written(given):
    return isinstance(given, PointInput)


def point_fits(given):
    return given.byte_room <= POINTS_BYTE_ROOM if is_written(given) else given.line_room <= POINTS_LINE_ROOM


def point_numbers(given):
    """0 to read or 1 to write, the lengths of the work area and of the line buffer or byte buffer; to write also line, offset, orientation and side."""
    if is_written(given):
        return [1, given.work_length, given.byte_room, given.line, given.offset, given.orientation, given.side]
    return [0, given.work_length, given.line_room, 0, 0, 0, 0]


def point_row(given, outcome):
    if is_written(given):
        return write_row(outcome, lambda reference: read_point(given.map_bytes, reference, WORK_ROOM, POINTS_LINE_ROOM))
    return read_row(given, outcome)


def test_points():
    """The subject is the reference to be read, empty where a point is written."""
    calls = [*on_small_maps(point_read_cases, 840), *on_small_maps(point_read_edge_cases, 480), *on_small_maps(point_write_cases, 648),
             *on_small_maps(point_write_edge_cases, 320), *full_map_points(plain=5, across=1, points=40),
             *on_small_maps(point_read_cases_across, 84, FULL_SIZE_ACROSS), *on_small_maps(point_write_cases_across, 81, FULL_SIZE_ACROSS),
             *on_small_maps(meridian_point_read_cases, 120), *on_small_maps(meridian_point_write_cases, 72)]
    check_room(calls, point_fits)
    return packed_calls(calls, lambda given: b"" if is_written(given) else given.reference, point_numbers, point_row)


@lru_cache(maxsize=4)
def buffer_sum(buffer):
    """The last ones are kept, since most calls leave the buffer as it is."""
    return number_sum(buffer)


def message_row(answered, buffer):
    """What is printed for a call of a message that is being written, with its buffer after the call."""
    answer = answered.answer
    if isinstance(answer, Part):
        return f"bytes {answer.byte_count} sum {number_sum(bytes_of_part(buffer, answer))}"
    if isinstance(answer, Refused):
        text = outcome_text(answer)
    else:
        text = f"open {answer.byte_count} {answer.added}" if answer.is_open else f"closed {answer.byte_count}"
    return f"{text} sum {buffer_sum(buffer)}"


def received_row(answered, message):
    """The same for a received message."""
    return f"from {answered.answer.start} {message_row(answered, message)}"


def history_rows(room, answered):
    """Without what a start leaves of the work area."""
    return [message_row(*call) for call in zip(answered, buffers_after(room, answered))]


class MessageParts:
    """The parts of test_messages and their rows. The map that a call is on stands before it where it is another than that of the call before."""

    def __init__(self):
        self.parts, self.rows = [], []
        # That of the program before the first one.
        self.map_bytes = b""

    def put(self, kind, data=b"", row=None):
        self.parts.append(bytes([kind]) + data)
        if row is not None:
            self.rows.append(row)

    def put_map(self, map_bytes):
        if map_bytes != self.map_bytes:
            self.put(MAP, map_bytes)
            self.map_bytes = map_bytes

    def put_history(self, history, answered):
        if history.room > MESSAGE_ROOM:
            raise RuntimeError("the program's buffer is too short for a message")
        self.put(NEW_BUFFER, words([history.room]))
        for call, found, row in zip(history.calls, answered, history_rows(history.room, answered)):
            if call.kind == START:
                self.put_map(call.map_bytes)
                row += work_text(found.answer)
            data = {START: words([call.work_length]), ADD: call.portion, ASK: words([call.number])}
            self.put(CALLS[call.kind], data.get(call.kind, b""), row)

    def put_received(self, received):
        self.put(RECEIVED, words([received.number]) + received.message, received_row(received_outcome(received), received.message))

    def put_reading(self, given, outcome):
        """The lengths of the work area and of the line buffer, the count of the message's bytes, the message and the reference."""
        self.put_map(given.map_bytes)
        numbers = words([given.work_length, given.line_room, len(given.message)])
        self.put(READINGS[given.is_point], numbers + given.message + given.reference, read_row(given, outcome))


def starts_without_a_map():
    """On no bytes at all, which are the program's map before the first one."""
    return History(9, (Call(START), Call(START, work_length=0), Call(START, work_length=WORK_ROOM)))


def histories():
    """Those that start on one map one after another. The one without a map stands first."""
    made = [*few_of_some(message_cases(seed=1, count=630, left_out=LARGE), CASES_OF_HISTORIES),
            *few_of_some(start_cases(seed=1, count=198), CASES_OF_STARTS), *two_portions_cases(seed=1, count=98), *large_message_cases(seed=1, count=8)]
    groups = {b"": [(starts_without_a_map(), history_outcome(starts_without_a_map()))]}
    for case in made:
        groups.setdefault(case.given.calls[0].map_bytes, []).append((case.given, case.expected))
    return [history for group in groups.values() for history in group]


def received_messages():
    made = [*received_cases(seed=1, count=540, left_out=LONG), *long_received_cases(seed=1, count=9)]
    return [*(case.given for case in made), *every_damage(random_source("damaged messages", 1, 0))]


def readings_of_messages():
    """Those on one map one after another, as by_map puts them."""
    made = [*few_of_some(of_message_cases(seed=1, count=575), CASES_OF_READINGS), *as_by_itself_cases(seed=1, count=172)]
    calls = [(case.given, case.expected) for case in made]
    more = [*every_small_map(random_source("small maps", 1, 0)), *every_wrong_front(random_source("wrong fronts", 1, 0)),
            *every_changed_map(random_source("changed maps", 1, 0))]
    calls += [(given, reading_outcome(given)) for given in more]
    check_room(calls, lambda given: given.line_room <= OF_MESSAGE_LINE_ROOM)
    return by_map(calls)


def test_messages():
    """A part is a call, a new buffer for a message that is written, or a map. Its first byte says which; only calls print a row."""
    made = MessageParts()
    for history, answered in histories():
        made.put_history(history, answered)
    for received in received_messages():
        made.put_received(received)
    for given, outcome in readings_of_messages():
        made.put_reading(given, outcome)
    return packed(made.parts), made.rows


PROGRAMS = {"test_maps": test_maps, "test_legs": test_legs, "test_reads": test_reads, "test_writes": test_writes,
            "test_points": test_points, "test_messages": test_messages}


def files():
    """Each file's path and contents."""
    for name, make in PROGRAMS.items():
        data, rows = make()
        if len(data) > MOST_CASE_BYTES:
            raise RuntimeError(f"{len(data)} bytes are too many for {name}")
        yield CRATES / name / "data" / "cases.bin", data
        yield CRATES / name / "stdout", "".join(row + "\n" for row in rows).encode()


def main():
    parser = argparse.ArgumentParser(description="Pack cases for the test programs.")
    parser.add_argument("--check", action="store_true", help="compare with the files that are there")
    check = parser.parse_args().check
    differ = False
    for path, contents in files():
        if not check:
            path.parent.mkdir(parents=True, exist_ok=True)
            path.write_bytes(contents)
        elif not path.exists() or path.read_bytes() != contents:
            print(f"{path.relative_to(CRATES.parent)} is not what oracle/pack.py makes")
            differ = True
    sys.exit(1 if differ else 0)


if __name__ == "__main__":
    main()
