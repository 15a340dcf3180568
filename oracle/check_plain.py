"""Holds the plain Rust implementation (bench) to the stored cases, as oracle/pack.py makes them.

Usage: python3 oracle/check_plain.py ANSWER. ANSWER is the program of bench/src/bin/answer.rs. Each case in crates/NAME/data/cases.bin is given to it, and what
it answers must be what crates/NAME/stdout says. Cases with different answers are printed, and the status is 1.
"""

import argparse
import re
from itertools import islice

from answers import answers, hexadecimal, report
from message_calls import ADD, ASK, START, Call, History, ReadingOfMessage, Received, answered_in
from pack import CALLS, CRATES, MAP, NEW_BUFFER, POINTS_LINE_ROOM, READINGS, RECEIVED, WRITES_LINE_ROOM, history_rows, number_sum, received_row
from reader import LEAST_WORK_LENGTH

# Several rows of one history are one here.
NEXT_ROW = "; "


def parts_of(data):
    """The parts that were packed."""
    at = 0
    while at < len(data):
        start = at + 2
        at = start + int.from_bytes(data[at:start], "little")
        yield data[start:at]


def numbers_in(part):
    return [int.from_bytes(part[at:at + 4], "little") for at in range(0, len(part), 4)]


def in_groups(parts, size):
    return zip(*[iter(parts)] * size)


def call(kind, map_bytes, *words):
    return " ".join(map(str, [kind, hexadecimal(map_bytes), *words]))


def map_calls(parts):
    return [call("map", map_bytes) for map_bytes in parts]


def leg_calls(parts):
    """An empty map is that of the leg before."""
    calls, map_before = [], b""
    for map_bytes, leg in in_groups(parts, 2):
        map_before = map_bytes or map_before
        *numbers, is_last, frc, fow, sector = numbers_in(leg)
        calls.append(call("leg", map_before, *numbers, *([frc, fow, sector] if is_last else [])))
    return calls


def cases_on_maps(parts):
    """Maps, references or stretches, and numbers."""
    map_before = b""
    for map_bytes, subject, numbers in in_groups(parts, 3):
        *numbers, same = numbers_in(numbers)
        map_before = map_before if same else map_bytes
        yield map_before, subject, numbers


def read_calls(parts):
    return [call("read", map_bytes, hexadecimal(reference), *numbers) for map_bytes, reference, numbers in cases_on_maps(parts)]


def write_calls(parts):
    return [call("write", map_bytes, *numbers, *numbers_in(stretch)) for map_bytes, stretch, numbers in cases_on_maps(parts)]


def point_calls(parts):
    calls = []
    for map_bytes, reference, (to_write, work_length, room, *point) in cases_on_maps(parts):
        given = point if to_write else [hexadecimal(reference)]
        calls.append(call("write_point" if to_write else "read_point", map_bytes, *given, work_length, room))
    return calls


def message_call(part, map_bytes):
    """A call in a history."""
    kind = next(kind for kind, first in CALLS.items() if first == part[0])
    if kind == START:
        return Call(kind, map_bytes=map_bytes, work_length=numbers_in(part[1:])[0])
    return Call(kind, portion=part[1:] if kind == ADD else b"", number=numbers_in(part[1:])[0] if kind == ASK else 0)


def message_reading(part, map_bytes):
    """A reading out of a message: three numbers, the message and the reference."""
    work_length, line_room, count = numbers_in(part[1:13])
    return ReadingOfMessage(map_bytes, part[13:13 + count], part[13 + count:], part[0] == READINGS[True], work_length, line_room)


def messages_in(parts):
    """Histories, received messages and readings out of a message. A map stands until the next one; before the first it has no bytes."""
    found, map_bytes = [], b""
    for part in parts:
        if part[0] == NEW_BUFFER:
            found.append(History(*numbers_in(part[1:]), calls=()))
        elif part[0] == MAP:
            map_bytes = part[1:]
        elif part[0] == RECEIVED:
            found.append(Received(part[5:], *numbers_in(part[1:5])))
        elif part[0] in READINGS.values():
            found.append(message_reading(part, map_bytes))
        else:
            found[-1] = History(found[-1].room, found[-1].calls + (message_call(part, map_bytes),))
    return found


def message_calls(parts):
    return [message.row() for message in messages_in(parts)]


def map_row(answer):
    """The program has no sum: it answers this only if the map, put into bytes again, gives the same bytes."""
    return re.sub(r"map of (\d+) nodes and (\d+) lines", r"nodes \1 lines \2", answer)


def lines_row(answer):
    """The count and the spans, of a point orientation and side too, and the sum over the lines."""
    words = answer.split()
    if words[0] == "refused":
        return answer
    first = 9 if "side" in words else 8
    return " ".join([*words[:first], "sum", str(number_sum(map(int, words[first:])))])


def written_row(answer, read_back):
    """The count of bytes, of a stretch tests and excess too, and the sum over the bytes."""
    *heading, reference = answer.split()
    return f"{' '.join(heading)} sum {number_sum(bytes.fromhex(reference))} read {lines_row(read_back)}"


def simple_rows(row):
    def rows_of(program, calls):
        return [row(answer) for answer in answers(program, calls)]
    return rows_of


def call_rows(reader, line_room):
    """The bytes of each acceptance of a writer are read back, by a reader and with a line buffer of that length."""
    def rows_of(program, calls):
        rows = answers(program, calls)
        written = [index for index, answer in enumerate(rows) if answer.startswith("bytes")]
        read_calls = [f"{reader} {calls[index].split()[1]} {rows[index].split()[-1]} {LEAST_WORK_LENGTH} {line_room}" for index in written]
        read_back = dict(zip(written, answers(program, read_calls)))
        return [written_row(answer, read_back[index]) if index in read_back else lines_row(answer) for index, answer in enumerate(rows)]
    return rows_of


def message_row(call, answer):
    """The rows of a history, by what the program says of each change in the buffer; or that of a received message or of a reading."""
    kind, given = call.split()[:2]
    if kind not in ("message", "received"):
        return lines_row(answer)
    answered = [answered_in(word) for word in answer.split()]
    if any(isinstance(item.answer, str) for item in answered):
        return answer
    if kind == "received":
        return NEXT_ROW.join(received_row(item, bytes.fromhex(given.strip("-"))) for item in answered)
    return NEXT_ROW.join(history_rows(int(given), answered))


def message_rows(program, calls):
    return [message_row(call, answer) for call, answer in zip(calls, answers(program, calls))]


def in_calls(calls, rows):
    """The stored rows, joined where a call has several: a history has one for each of its calls."""
    rows = iter(rows)
    return [NEXT_ROW.join(islice(rows, len(call.split()) - 2 if call.startswith("message ") else 1)) for call in calls] + list(rows)


def stored_row(row):
    """What a row says of the answer. The rest is about memory and sums that the plain implementation does not have."""
    row = re.sub(r" work (kept|cleared)( rest kept)?", "", row)
    row = re.sub(r"^(nodes \d+ lines \d+) bans \d+ sum \d+$", r"\1", row)
    return re.sub(r"^one .*:", "one", row)


PROGRAMS = {
    "test_maps": (map_calls, simple_rows(map_row)),
    "test_legs": (leg_calls, simple_rows(str)),
    "test_reads": (read_calls, simple_rows(lines_row)),
    "test_writes": (write_calls, call_rows("read", WRITES_LINE_ROOM)),
    "test_points": (point_calls, call_rows("read_point", POINTS_LINE_ROOM)),
    "test_messages": (message_calls, message_rows),
}


def differences(program, name):
    """The count of cases, and those that are answered otherwise: the call, what is stored and the answer."""
    make_calls, rows_of = PROGRAMS[name]
    calls = make_calls(parts_of((CRATES / name / "data" / "cases.bin").read_bytes()))
    stored = in_calls(calls, [stored_row(row) for row in (CRATES / name / "stdout").read_text().splitlines()])
    if len(stored) != len(calls):
        raise RuntimeError(f"{len(calls)} cases, {len(stored)} rows")
    rows = rows_of(program, calls)
    return len(calls), [row for row in zip(calls, stored, rows) if row[1] != row[2]]


def main():
    parser = argparse.ArgumentParser(description="Hold the plain Rust implementation to the stored cases.")
    parser.add_argument("answer")
    program = parser.parse_args().answer
    groups = []
    for name in PROGRAMS:
        count, found = differences(program, name)
        groups.append((f"{name}: {count} cases in plain Rust", found))
    report(groups)


if __name__ == "__main__":
    main()
