"""Holds the C functions to the calls and the messages of docs/FORMAT.md, and the page's last section to what its commands print.

Usage: python3 oracle/check_format_page.py PROGRAM. PROGRAM is that of tests/answer.c; the printing program and the archive are built. What differs is printed,
and the status is 1.
"""

import subprocess
import sys
from itertools import islice

from answers import answers, report
from format_page import PAGE, format_page
from outcome import outcome_text


def call_differences(program, calls):
    rows = answers(program, [call.row() for call in calls])
    expected = [outcome_text(call.answer).replace("\n", " ") for call in calls]
    return [(call.text, answer) for call, answer, good in zip(calls, rows, expected) if answer != good]


def message_differences(program, examples):
    """Each example is one row for the program, or one for each number that is asked for."""
    rows = iter(answers(program, [row for example in examples for row in example.rows()]))
    found = []
    for example in examples:
        answered = list(islice(rows, len(example.rows())))
        if example.seen(answered) != example.said:
            found.append((example.text, *answered))
    return found


def command_differences(commands):
    """The commands run one after another in one shell, which prints a row of its own before each."""
    mark = "=== next ==="
    script = "\n".join(f"echo '{mark}'\n{command.text}" for command in commands)
    ran = subprocess.run(["bash", "-c", script], cwd=PAGE.parent.parent, check=False, stdout=subprocess.PIPE, stderr=subprocess.STDOUT, text=True)
    printed = ran.stdout.split(mark + "\n")[1:]
    if len(printed) != len(commands):
        raise RuntimeError(f"{len(commands)} commands, {len(printed)} ran")
    return [(command.text, text) for command, text in zip(commands, printed) if text != command.printed]


def main():
    page = format_page()
    # A C host has no work area to lend.
    calls = [call for call in page.calls if call.work is None]
    report([(f"docs/FORMAT.md: {len(calls)} calls from C", call_differences(sys.argv[1], calls)),
            (f"docs/FORMAT.md: {len(page.messages)} messages from C", message_differences(sys.argv[1], page.messages)),
            (f"docs/FORMAT.md: {len(page.commands)} commands", command_differences(page.commands))])


if __name__ == "__main__":
    main()
