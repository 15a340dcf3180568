"""Makes docs/FIGURES.md anew: what the benchmark, the count of searches and the test of the stack print, as tables.

Usage: python3 docs/figures.py [--bench FILE] [--count FILE] [--stack FILE] [--gate FILE]  (make figures; make figures GATE=FILE)

FILE has what `make bench`, `make count`, `target/host/stack` and `time make test` printed. The first three are run where no file is given; without the last,
what the page says of the gate stays.
"""

import argparse
import re
import subprocess
from pathlib import Path

ROOT = Path(__file__).parent.parent
PAGE = ROOT / "docs" / "FIGURES.md"
GATE_HEADING = "## The gate"

INTRODUCTION = """\
# Figures

`make figures` makes this page anew. It takes some minutes. Times are those of one machine and of one run: another will have others, but much the same ratios.

## Calls

Each row is the mean over up to eight inputs of the best of many rounds, in microseconds; the proved function and plain Rust take turns in one process. The maps
have 512 nodes and about 1,024 lines. Those of "random" go one way, two from each node and any number to it; "random roads" have a line each way. There are no
banned turns but where a row names them: 512 spread over the map, or all at the junction with most turns, where they are listed many times. Plain Rust is
that of `bench/src`, written for speed. A ratio below 1 says that the proved function is faster.
One row decodes 100 maps one after another, so that the processor has learnt none of them; its times are of all 100.
Readings of over 2,304 lines are made twice; a C host's lists have 1,024 at most, so those rows are left out of the aim of 1.2.
Points are written on any lines that are not refused and, in the rows with "others alike", on lines whose class, form of way and sector some other line has at
one end too: only there has anything to be searched for.
A row of offsets is of all spans or bytes that it names, each by a call of its own: 256 spans to a leg, and a byte for each offset.
A row of "tests" writes stretches of 64 lines, which have 2,080 legs, with so many leg tests; the other rows of stretches have tests for all. Many calls with
few tests are refused. Plain Rust answers what the tests would give and makes only those that matter to it.
A row of messages is of the C functions, which both sides are called as: of so many calls where it names a number of them, else of one whole message. A morning
puts as many references as fit into a message, each at once, and asks for every one of them. Whole messages start on a map of few bytes.
"""

OF_MESSAGE = """\
## Readings out of a message

A reading out of a message / the same reading by itself = how many times as long it takes: the C functions of the proved side, and plain Rust. The sum over the
map's bytes is what it takes more. The aim is 1.1 at most.
"""

SEARCHES = """\
## Searches

One search back from a line up to a limit, against three plain ones: proved µs / plain µs = ratio. The last three maps are made against the search. Reader
and writer in plain Rust use the heap of nodes and lines.
"""

EFFORT = """\
## Searches and leg tests of the writer

Means over the stretches of a row. A leg test of the proved writer is counted where it asks a search; most are answered by the table.
"""

STACK = """\
## Stack

What a thread used that made one call and nothing else, its own part (about 4,400 bytes) with it. The first call links functions of the C library, which takes
more.
"""

GATE = f"""\
{GATE_HEADING}

`make figures GATE=FILE` puts the seconds of the gate's parts here, from what `time make test` printed into FILE. `rt ci` runs first, and the other parts after
it, two at a time.
"""


def printed(file_name, command):
    if file_name is not None:
        return Path(file_name).read_text()
    return subprocess.run(command, cwd=ROOT, check=True, stdout=subprocess.PIPE, text=True, shell=True).stdout


def table(heading, rows):
    lines = [" | ".join(row) for row in [heading, ["---"] * len(heading)] + rows]
    return "".join(f"| {line} |\n" for line in lines)


def bench_rows(text):
    """Rows of the benchmark: what, proved, plain, ratio."""
    rows = [[part.strip() for part in line.split(" | ")] for line in text.splitlines() if line.count(" | ") == 3]
    return [row for row in rows if row[0] != "what"]


def with_commas(text):
    return re.sub(r"\d{4,}", lambda digits: f"{int(digits[0]):,}", text)


def calls_table(rows):
    calls = [row for row in rows if not row[0].startswith("search")]
    calls.sort(key=lambda row: ("decode", "read", "write", "read point", "write point", "offsets", "message").index(row[0].split(",")[0]))
    return table(["call", "proved µs", "plain µs", "ratio"], [[with_commas(row[0])] + row[1:] for row in calls])


def of_message_table(text):
    rows = re.findall(r"^out of a message / by itself, (.*): proved (.*), plain (.*)$", text, re.MULTILINE)
    return table(["reading", "proved µs", "plain µs"], [[with_commas(row[0]), *row[1:]] for row in rows])


def search_table(rows):
    searches = [re.fullmatch(r"search, (.*), limit (\d+), (.*)", row[0]) for row in rows]
    cells, limits = {}, []
    for search, (_, ours, plain, ratio) in zip(searches, rows):
        if search:
            cells.setdefault((search[1], search[3]), {})[search[2]] = f"{ours} / {plain} = {ratio}"
            limits += [search[2]] if search[2] not in limits else []
    heading = ["map", "plain search"] + [f"limit {int(limit):,}" for limit in limits]
    return table(heading, [[*names] + [row.get(limit, "") for limit in limits] for names, row in cells.items()])


def effort_table(bench, count):
    efforts = {}
    row_form = r"^(write, .*), (plain Rust|proved): ([\d.]+) searches, ([\d.]+) leg tests$"
    for what, whose, searches, leg_tests in re.findall(row_form, bench + count, re.MULTILINE):
        efforts.setdefault(what, {})[whose] = [searches, leg_tests]
    rows = [[what] + row.get("proved", ["", ""]) + row.get("plain Rust", ["", ""]) for what, row in efforts.items()]
    return table(["stretches", "proved: searches", "leg tests", "plain Rust: searches", "leg tests"], rows)


def stack_table(text):
    return table(["call", "bytes used", "of"], [[what, f"{int(used):,}", f"{int(whole):,}"]
                                                for what, used, whole in re.findall(r"^(openlr_.*): (\d+) of (\d+) bytes of stack$", text, re.MULTILINE)])


def gate_section(file_name):
    if file_name is None:
        page = PAGE.read_text() if PAGE.exists() else ""
        return page[page.index(GATE_HEADING):] if GATE_HEADING in page else GATE
    text = Path(file_name).read_text()
    rows = re.findall(r"^(\w+): (\d+) s$", text, re.MULTILINE)
    whole = re.search(r"^real\s+(\d+)m([\d.]+)s$", text, re.MULTILINE)
    if whole:
        rows.append(("the whole gate", f"{60 * int(whole[1]) + round(float(whole[2]))}"))
    return GATE + "\n" + table(["part", "seconds"], [list(row) for row in rows])


def main():
    parser = argparse.ArgumentParser()
    for name in ("bench", "count", "stack", "gate"):
        parser.add_argument(f"--{name}")
    files = parser.parse_args()
    gate = gate_section(files.gate)
    bench = printed(files.bench, "make --silent bench")
    count = printed(files.count, "make --silent count")
    stack = printed(files.stack, "make --silent target/host/stack && target/host/stack")
    rows = bench_rows(bench)
    sections = [INTRODUCTION + "\n" + calls_table(rows), OF_MESSAGE + "\n" + of_message_table(bench), SEARCHES + "\n" + search_table(rows),
                EFFORT + "\n" + effort_table(bench, count), STACK + "\n" + stack_table(stack), gate]
    PAGE.write_text("\n".join(sections))


if __name__ == "__main__":
    main()
