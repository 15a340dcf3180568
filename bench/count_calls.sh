#!/usr/bin/env bash
# Counts the searches and the leg tests of the proved writer for each writing row of the benchmark, a stretch's mean. It needs gdb and takes half a
# minute. `make count ALSO=relaxation::relax` counts the calls of another function too, for each search; with that one it takes some minutes.
#
# A leg test is counted where it asks a search, for a sole way or for other first and last lines; one that the table answers is not.
#
# In the archive that is measured, search and leg test stand inside the functions that call them. Here the same proved functions are compiled with no
# optimization, so that each is called: by a copy of the toolchain (links to it) whose clang gets -O0 as its last word. The archive is not left behind.
set -euo pipefail
cd "$(dirname "$0")/.."

toolchain=$(dirname "$(dirname "$(readlink -f "$(command -v rt)")")")/toolchain
copy=$(mktemp -d)
trap 'rm -rf "$copy" target/staticlib/libmeasured.a' EXIT
cp -rs "$toolchain" "$copy"
clang=toolchain/bin/clang
rm "$copy/$clang"
printf '#!/bin/sh\nexec "%s" "$@" -O0\n' "$toolchain/bin/clang" >"$copy/$clang"
chmod +x "$copy/$clang"

# The benchmark links the archive for C too. Nothing of it is counted.
make --no-print-directory archive >/dev/null
# This builds the libraries that `measured` stands on. Over these its archive is made once more.
(cd crates/measured && rt lib >/dev/null)
python3 tools/archive.py measured target/staticlib/libmeasured.a --toolchain "$copy/toolchain" >/dev/null
cargo build --release --offline --quiet --manifest-path bench/Cargo.toml --target-dir target/count --features measured --bin bench
cat >"$copy/count.py" <<'END'
import os

row_file = os.environ["ROW_FILE"]
tests = ["sole_ways::test::test_sole", "leg_tests::leg_search::test_leg"]
names = ["search::search", *tests, *os.environ.get("ALSO", "").split()]
breakpoints = [gdb.Breakpoint(name) for name in names]
for breakpoint in breakpoints:
    if breakpoint.pending:
        raise gdb.GdbError(f"there is no function {breakpoint.location}")
for row in range(27):
    for breakpoint in breakpoints:
        breakpoint.hit_count = 0
        breakpoint.ignore_count = 1_000_000_000
    gdb.execute(f"run once {row} >{row_file}", to_string=True)
    what, stretches = open(row_file).read().rsplit(", stretches ", 1)
    means = [breakpoint.hit_count / int(stretches) for breakpoint in breakpoints]
    others = [f", {mean / means[0]:.0f} calls of {name} a search" for name, mean in zip(names[3:], means[3:])]
    print(f"{what}, proved: {means[0]:.1f} searches, {means[1] + means[2]:.1f} leg tests{''.join(others)}", flush=True)
END
ROW_FILE=$copy/row gdb -batch -nx -x "$copy/count.py" target/count/release/bench | grep -v '^[[B]'
