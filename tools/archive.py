"""Makes the archive of a static library over the libraries that stand in the crates' out/, which must be of the sources as they are.

Usage: python3 tools/archive.py CRATE FILE [--toolchain DIR]   FILE is made, as target/staticlib/libopenlr.a

`rt ci` proves a static library and makes no archive of it. `rt lib` makes one, but passes over each library that `rt ci` built, and proves it once more: in a
fresh clone that takes about as long as `rt ci`. So the compiler is called here, with the words that `rt lib` has for it. It proves CRATE before it makes FILE.
Right after `rt ci` in a clean clone the libraries are those that it proved. With --toolchain another clang compiles FILE than the toolchain's own.
"""

import argparse
import shutil
import subprocess
import sys
from pathlib import Path

ROOT = Path(__file__).resolve().parent.parent
KIT = Path(shutil.which("rt")).resolve().parent.parent


def uses():
    """What each crate is built on, as crates.txt has it."""
    rows = [row.partition("#")[0].partition(":") for row in (ROOT / "crates.txt").read_text().splitlines()]
    return {head.split()[0]: libraries.split() for head, _, libraries in rows if head.strip()}


def below(name, found):
    """The repository's libraries below a crate, each after those that it is built on."""
    order = []
    for library in found[name]:
        if library in found:
            order += [other for other in [*below(library, found), library] if other not in order]
    return order


def library_folder(name):
    return ROOT / "crates" / name / "out" / "rlib"


def words_for(crate, archive, toolchain):
    found = uses()
    words = ["--crate-name", crate, "src/lib.rt", "--crate-type", "staticlib"]
    for name in ["std", *found[crate]]:
        folder = library_folder(name) if name in found else KIT / "rlibs"
        words += ["--extern", f"{name}={folder / name}.rlib"]
    for folder in [KIT / "rlibs", *map(library_folder, below(crate, found))]:
        words += ["-L", f"dependency={folder}"]
    words += ["--antt-project", KIT / "rattle/logic/antt-project.json", "--logic-built", KIT / "logic_built"]
    return words + ["--toolchain", toolchain, "-o", archive]


def main():
    parser = argparse.ArgumentParser()
    parser.add_argument("crate")
    parser.add_argument("file", type=Path)
    parser.add_argument("--toolchain", type=Path, default=KIT / "toolchain")
    given = parser.parse_args()
    archive = given.file.resolve()
    archive.parent.mkdir(parents=True, exist_ok=True)
    words = words_for(given.crate, archive, given.toolchain.resolve())
    sys.exit(subprocess.run([KIT / "bin" / "rattle", "build", *words], cwd=ROOT / "crates" / given.crate, stdin=subprocess.DEVNULL).returncode)


if __name__ == "__main__":
    main()
