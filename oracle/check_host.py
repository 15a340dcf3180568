"""Holds the C functions to this implementation, on cases of the readers and of the writers, of stretches and of points along a line, of messages, and of
readings out of a message.

Usage: python3 oracle/check_host.py PROGRAM COUNT [--seed N]. PROGRAM is that of tests/answer.c. Calls with different answers are printed, and the status is 1.
"""

import argparse
from dataclasses import replace

from answers import answers, hexadecimal, report
from cases import (best_found_cases, meridian_point_read_cases, meridian_point_write_cases, meridian_read_cases, meridian_write_cases, message_cases,
                   of_message_cases, point_read_cases, point_read_cases_across, point_write_cases, point_write_cases_across, random_source, read_cases,
                   read_cases_across, received_cases, write_cases, write_cases_across)
from host_calls import MOST_LINES, line_bytes
from message_calls import START, history_outcome, outcome_row, reading_outcome, received_outcome
from numbers_of_tests import any_tests
from outcome import outcome_text
from point_read_recipes import point_read_outcome
from point_write_recipes import point_write_outcome
from read_recipes import read_outcome
from reader import LEAST_WORK_LENGTH
from write_recipes import write_outcome


def one_row(outcome):
    return outcome_text(outcome).replace("\n", " ")


def with_meridian(seed, count, make_cases, make_cases_across, make_meridian_cases):
    """As many cases as are asked for, of which every fifth lies at the meridian: shifted to it, or with edges of its own."""
    tenth = count // 10
    return [*make_cases(seed, count - 2 * tenth), *make_cases_across(seed, tenth), *make_meridian_cases(seed, tenth)]


def calls_of_a_reader(kind, cases, outcome):
    """Rows for the program and expected answers. "A line buffer holds a quarter of its bytes, rounded down": up to three bytes more change nothing."""
    for index, case in enumerate(cases):
        given = replace(case.given, work_length=LEAST_WORK_LENGTH, line_room=min(case.given.line_room, MOST_LINES))
        room = 4 * case.given.line_room + index % 4
        yield f"{kind} {hexadecimal(given.map_bytes)} {hexadecimal(given.reference)} {room}", one_row(outcome(given))


def read_calls(seed, count):
    return calls_of_a_reader("read", with_meridian(seed, count, read_cases, read_cases_across, meridian_read_cases), read_outcome)


def read_point_calls(seed, count):
    cases = with_meridian(seed, count, point_read_cases, point_read_cases_across, meridian_point_read_cases)
    return calls_of_a_reader("read_point", cases, point_read_outcome)


def write_cases_for_c(seed, count):
    """Every fifth case is one whose answer depends on the number of tests. Of the others, every other one has any number of tests instead of all."""
    fifth = count // 5
    for index, case in enumerate(with_meridian(seed, count - fifth, write_cases, write_cases_across, meridian_write_cases)):
        tests = any_tests(random_source("tests from C", seed, index), len(case.given.lines))
        yield replace(case.given, tests=tests) if index % 2 else case.given
    for case in best_found_cases(seed, fifth):
        yield case.given


def write_calls(seed, count):
    """Likewise. Every fifth stretch has one to three bytes too many, "a byte list whose length is no multiple of four"."""
    for index, made in enumerate(write_cases_for_c(seed, count)):
        given = replace(made, work_length=LEAST_WORK_LENGTH)
        stretch = line_bytes(given.lines)
        if index % 5 == 4:
            stretch += bytes(index // 5 % 3 + 1)
            given = replace(given, lines=())
        numbers = f"{given.pos} {given.neg} {given.tests} {given.byte_room}"
        yield f"write {hexadecimal(given.map_bytes)} {hexadecimal(stretch)} {numbers}", one_row(write_outcome(given))


def write_point_calls(seed, count):
    for case in with_meridian(seed, count, point_write_cases, point_write_cases_across, meridian_point_write_cases):
        given = replace(case.given, work_length=LEAST_WORK_LENGTH)
        numbers = f"{given.line} {given.offset} {given.orientation} {given.side} {given.byte_room}"
        yield f"write_point {hexadecimal(given.map_bytes)} {numbers}", one_row(point_write_outcome(given))


def history_from_c(history):
    """The same calls with a full work area: from C none is lent. Starts that were refused for it may be accepted, and so what comes behind them is another."""
    return replace(history, calls=tuple(call._replace(work_length=LEAST_WORK_LENGTH) if call.kind == START else call for call in history.calls))


def message_calls(seed, count):
    histories = [history_from_c(case.given) for case in message_cases(seed, count)]
    return [(history.row_for_c(), outcome_row(history_outcome(history))) for history in histories]


def received_calls(seed, count):
    return [(case.given.row(), outcome_row(received_outcome(case.given))) for case in received_cases(seed, count)]


def of_message_calls(seed, count):
    """As calls_of_a_reader has them."""
    for index, case in enumerate(of_message_cases(seed, count)):
        given = replace(case.given, work_length=LEAST_WORK_LENGTH, line_room=min(case.given.line_room, MOST_LINES))
        yield f"{given.subject()} {4 * case.given.line_room + index % 4}", one_row(reading_outcome(given))


KINDS = {"read": read_calls, "write": write_calls, "read_point": read_point_calls, "write_point": write_point_calls, "message": message_calls,
         "received": received_calls, "of_message": of_message_calls}


def differences(program, calls):
    """The calls that the program answers otherwise, each with what is expected and the answer."""
    rows = answers(program, [row for row, _ in calls])
    return [(row, expected, answer) for (row, expected), answer in zip(calls, rows) if answer != expected]


def main():
    parser = argparse.ArgumentParser(description="Hold the C functions to the oracle.")
    parser.add_argument("program")
    parser.add_argument("count", type=int)
    parser.add_argument("--seed", type=int, default=1)
    arguments = parser.parse_args()
    groups = []
    for kind, make_calls in KINDS.items():
        found = differences(arguments.program, list(make_calls(arguments.seed, arguments.count)))
        groups.append((f"{kind}: {arguments.count} calls from C", found))
    report(groups)


if __name__ == "__main__":
    main()
