"""What a program answers to calls, one a row, and what is printed where it is not what is expected (check_plain.py, check_host.py)."""

import subprocess
import sys


def hexadecimal(data):
    return data.hex() or "-"


def answers(program, calls):
    """What the program answers to each call."""
    ran = subprocess.run([program], input="".join(call + "\n" for call in calls), check=True, capture_output=True, text=True)
    rows = ran.stdout.splitlines()
    if len(rows) != len(calls):
        raise RuntimeError(f"{len(calls)} calls, {len(rows)} answers")
    return rows


def report(groups):
    """Prints how many answers of each group differ, and their rows. The status is 1 where there are any."""
    differ = False
    for heading, found in groups:
        print(f"{heading}, {len(found)} differ")
        for row in found:
            print(" | ".join(row))
            differ = True
    sys.exit(1 if differ else 0)
