"""Prints how much there is of what: definitions, code, proofs, tests. Usage: python3 docs/counts.py (make counts)."""

import re
from pathlib import Path

ROOT = Path(__file__).parent.parent
CRATES = ROOT / "crates"


def lines_of(pattern):
    """Lines of the files, without blank ones, comments and imports."""
    count = 0
    for path in sorted(CRATES.glob(pattern)):
        text = re.sub(r"^(pub |ghost )?use [^{}\n]*(\{[^}]*\})?.*$", "", path.read_text(), flags=re.MULTILINE)
        rows = (row.strip() for row in text.splitlines())
        count += sum(1 for row in rows if row and not row.startswith(("--", "//")))
    return count


def stored_cases(name):
    return (CRATES / name / "stdout").read_text().splitlines()


def counts():
    """What is counted, and how many there are."""
    written, points_told = stored_cases("test_writes"), stored_cases("test_points")
    before = sum(lines_of(f"model/specs/{name}.antt") for name in ("AsBefore", "Tenfold"))
    points = sum(lines_of(f"model/specs/{name}.antt") for name in ("PointAlong", "PointTrip", "HostPointTrip"))
    of_messages = ("Message", "MessageCall", "MessageStart", "MessageHistory", "HostMessage", "Front", "OfMessage", "MessageTrip", "HostMessageTrip")
    messages = sum(lines_of(f"model/specs/{name}.antt") for name in of_messages)
    promises = lines_of("model/specs/**/*.antt")
    rest = promises - before - points - messages
    yield "lines of definitions that demand 3 rests on (crates/model/specs without AsBefore, Tenfold, points and messages)", rest
    yield "lines of definitions that the claim of points needs besides (PointAlong, PointTrip, HostPointTrip)", points
    yield f"lines of definitions of messages ({', '.join(of_messages)})", messages
    yield "lines of all definitions (crates/*/specs)", lines_of("*/specs/**/*.antt")
    yield "lines of code (crates/*/src)", lines_of("*/src/**/*.rt")
    yield "lines of proofs (crates/*/proofs)", lines_of("*/proofs/**/*.antt")
    yield "edits that must be refused (crates/*/must-fail)", len(list(CRATES.glob("*/must-fail/*.edit")))
    yield "stored cases: maps", len(stored_cases("test_maps"))
    yield "stored cases: legs", len(stored_cases("test_legs"))
    yield "stored cases: readings", len(stored_cases("test_reads"))
    yield "stored cases: writings", len(written)
    yield "of these accepted, and read back", sum(row.startswith("bytes ") for row in written)
    yield "stored cases: points, read and written", len(points_told)
    yield "of these written, accepted, and read back", sum(row.startswith("bytes ") for row in points_told)
    yield "stored cases: calls of messages", len(stored_cases("test_messages"))
    yield "tests of the unrelated implementation (oracle)", sum(len(re.findall(r"^    def test_", path.read_text(), re.MULTILINE))
                                                               for path in (ROOT / "oracle").glob("test_*.py"))
    yield "random calls in the gate (make differential)", int(re.search(r"^CALLS = (\d+)", (ROOT / "Makefile").read_text(), re.MULTILINE)[1])


if __name__ == "__main__":
    for what, count in counts():
        print(f"{count:>9,}  {what}")
