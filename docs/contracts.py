"""Prints every function of the crates with its contract, a line for each clause, its closures' too, and what types and traits' laws promise in the place of
clauses; or which of these lines have changed since a revision.
Usage: python3 docs/contracts.py [--signatures] [--since REVISION]   (make contracts, make contracts SINCE=REVISION)

With --signatures a function's line has its parameters and its result as well. Of a revision in an older spelling every clause is told as changed that was
respelled since."""

import argparse
import difflib
import re
import subprocess
from pathlib import Path

ROOT = Path(__file__).parent.parent
FUNCTION = re.compile(r"^\s*(?:#\[[^]]*\] )*(pub )?(?:extern \"C\" )?fn (\w+)")
CLAUSE = re.compile(r"\s*(requires|ensures)\*? ")
# A block of functions of a type, or of a trait's for a type, and a struct.
BLOCK = re.compile(r"^impl(?:<[^{]*?>)? (?:([A-Z]\w*(?:<[^{]*>)?) for )?([A-Z]\w*)")
STRUCT = re.compile(r"^(pub )?struct (\w+).*[^;]$")
# What each value of a struct meets, or what a block promises of a trait's function.
FACT = re.compile(r"^\s*(?:pub )?ghost (\w+)(?::| =) (\{.*)$")


def sources(revision):
    """The path and the text of each file of code, in order."""
    if revision is None:
        return [(path.relative_to(ROOT).as_posix(), path.read_text()) for path in sorted(ROOT.glob("crates/*/src/**/*.rt"))]

    def git(*words):
        return subprocess.run(["git", "-C", ROOT, *words], check=True, capture_output=True, text=True).stdout

    names = git("ls-tree", "-r", "--name-only", revision, "crates").splitlines()
    return [(name, git("show", f"{revision}:{name}")) for name in sorted(names) if re.fullmatch(r"crates/\w+/src/.*\.rt", name)]


def module_of(path):
    """The module of a file, as code names it."""
    parts = Path(path).with_suffix("").parts
    return "::".join(part for part in (parts[1], *parts[3:]) if part not in ("lib", "main"))


def owners(text):
    """Each row of a file, with the struct or the block that it stands in: whether that is public, and its name. A trait's functions are as public as it is."""
    public, owner = "", ""
    for row in text.splitlines():
        struct, block = STRUCT.match(row), BLOCK.match(row)
        if struct:
            public, owner = struct[1] or "", struct[2]
        elif block:
            public, owner = ("pub " if block[1] else ""), (f"{block[2]} as {block[1]}" if block[1] else block[2])
        elif row == "}":
            public, owner = "", ""
        yield row, public, owner


def functions(text):
    """Each function of a file: its name with `pub` before it, its signature, and the clauses of its contract. A closure with clauses follows its function,
    under the same name and with no signature, and so does what a type promises of each of its values, or a block of a trait's function."""
    rows = owners(text)
    for row, public, owner in rows:
        fact = FACT.match(row)
        if fact:
            said = fact[2]
            while not re.search(r"\}[,;]$", said):
                said += " " + next(rows)[0].strip()
            yield public + owner, None, [f"{fact[1]} {said[:-1]}"]
            continue
        found = FUNCTION.match(row)
        if not found and not CLAUSE.match(row):
            continue
        heads, clauses = [], []
        while not re.search(r"(^|\s)\{$", row):
            if CLAUSE.match(row):
                clauses.append(row.strip())
            elif clauses:
                clauses[-1] += " " + row.strip()
            else:
                heads.append(row.strip())
            row = next(rows)[0]
        if not found:
            yield f"{name}, closure", None, clauses
            continue
        heads.append(row.strip().removesuffix("{"))
        # A signature is told alike whether the layout has it in one line or in several.
        signature = re.sub(r"\( | (?=\))", lambda found: found[0].strip(), " ".join(heads)).replace(",)", ")")
        name = (found[1] or public) + (f"{owner}::" if owner else "") + found[2]
        yield name, signature.strip(), clauses


def contracts(revision, signatures):
    """A line for each function and for each clause of its contract, at a revision or, without one, as the files are."""
    for path, text in sources(revision):
        for name, signature, clauses in functions(text):
            public = "pub " if name.startswith("pub ") else ""
            whole = f"{public}{module_of(path)}::{name.removeprefix('pub ')}"
            if signature is not None:
                yield f"{whole}: {signature}" if signatures else whole
            for clause in clauses:
                yield f"{whole}: {clause}"


def changes(revision, signatures):
    """The lines that are gone since a revision, with - before them, and the new ones, with +."""
    rows = difflib.unified_diff(list(contracts(revision, signatures)), list(contracts(None, signatures)), lineterm="", n=0)
    return [row for row in rows if not row.startswith(("---", "+++", "@@"))]


def main():
    words = argparse.ArgumentParser(description="Every function's contract, or what changed in them.")
    words.add_argument("--signatures", action="store_true")
    words.add_argument("--since", metavar="REVISION")
    given = words.parse_args()
    for row in changes(given.since, given.signatures) if given.since else contracts(None, given.signatures):
        print(row)


if __name__ == "__main__":
    main()
