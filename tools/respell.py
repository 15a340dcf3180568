#!/usr/bin/env python3
"""Respells the repository's own definitions and lemmas in snake case, as today's Rattle spells them.

usage: python3 tools/respell.py [--check]      at the top of the repository, right after port.py has run

A name is turned where a file of specs/ or of proofs/ declares it and no file takes a name of that spelling from another library: `workLength` becomes
`work_length`, and `reading-free` becomes `reading_free`. Types, facts, modules and generated names stay, and so do names of src/ and strings. Names that would
fall together with another name in scope are turned as TOGETHER says. Pages are turned between backquotes. A second run changes nothing.
"""

import os
import re
import sys

TOKEN = re.compile(r"--[^\n]*|\"(?:[^\"\\]|\\.)*\"|[^\s(){}\[\].,;:\"`«»@|]+")
DECLARED = re.compile(r"\s*(?:pub |abbrev |unfoldable |private )*([^\s:(){}\[\].,\"]+)(?: [({].*)? : ")
PARAMETER = re.compile(r"[({]([^\s:(){}]+(?: [^\s:(){}]+)*) : ")
RULESET = re.compile(r"\s*(?:pub |abbrev )*ruleset (?:pub )?([^\s:(){}\[\].,=]+)")
USE = re.compile(r"^(?:ghost )?(?:pub )?use ([^;{\n]*?)\.?\{([^}]*)\}", re.M)
OWN = re.compile(r"Rattle\.(\w+)\.(?:specs|proofs)\b")
# Lemmas that would otherwise meet the definition of their name: one that would have its function's name ends in _lem.
TOGETHER = {
    name: name.replace("-", "_") + "_lem"
    for name in """
    byte-p byte-r banned-meeting buffer-shown first-leg host-stretch host-written in-first last-leg leg-of legs-before
    line-of map-refused memory-after nearly-east north-east offset-byte over-the-top point-status
    slanted-bytes tested-good three-beyond three-points two-beyond two-points without-place
    """.split()
}
# The same, where port.py has turned the lemma's name already.
IN_A_FILE = {"crates/model/proofs/Nodes.antt": {"same_codes": "same_codes_lem"}}


def files(root, ends):
    for folder, inside, names in os.walk(root):
        inside[:] = sorted(d for d in inside if d not in ("out", "must-fail", "data", ".git", "target"))
        for name in sorted(names):
            if name.endswith(ends):
                yield os.path.join(folder, name)


def read(path):
    with open(path, encoding="utf-8") as it:
        return it.read()


def snake(name):
    parts = re.sub(r"(?<=[a-z0-9₀-₉])([A-Z])", r"-\1", name).split("-")
    return "_".join(parts).lower()


def turnable(name):
    if not re.match(r"[a-z]", name) or not re.fullmatch(r"[\w'-]+", name):
        return False
    if "-" in name and any(part[:1].isupper() and len(part) > 2 for part in name.split("-")):
        return False
    return bool(re.search(r"[A-Z-]", name))


def of_function(path):
    """A file of the proof of one function, whose names are those of its goals."""
    return os.path.basename(path) in ("Proof.antt", "Answers.antt", "Invariants.antt") and "/proofs/" in path and os.path.dirname(path).split("/proofs")[-1] != ""


def table():
    crates = set(os.listdir("crates"))
    names, foreign = set(), set()
    for path in files("crates", ".antt"):
        text = read(path)
        for where, items in USE.findall(text):
            own = OWN.match(where)
            if not (own and own.group(1) in crates):
                foreign |= {item.split(" as ")[0].strip() for item in items.split(",")}
        for line in text.split("\n"):
            if line.lstrip().startswith("--"):
                continue
            found = DECLARED.match(line)
            if found and not (of_function(path) and re.search(r": (tie|goal)\.", line)):
                names.add(found.group(1))
            found = RULESET.match(line)
            if found:
                names.add(found.group(1))
    return {name: TOGETHER.get(name, snake(name)) for name in sorted(names - foreign) if turnable(name)}, names, foreign


def turned(text, names, code):
    def one(found):
        it = found.group(0)
        if it.startswith("--"):
            return re.sub(r"`([^`]*)`", lambda m: "`" + TOKEN.sub(one, m.group(1)) + "`", it)
        if it.startswith('"'):
            return it
        return names.get(it, it)

    if code:
        # In Rust a comment begins with //: only what stands between backquotes there is a name.
        lines = []
        for line in text.split("\n"):
            at = line.find("//")
            head, tail = (line, "") if at < 0 else (line[:at], line[at:])
            lines.append(TOKEN.sub(one, head) + re.sub(r"`([^`]*)`", lambda m: "`" + TOKEN.sub(one, m.group(1)) + "`", tail))
        return "\n".join(lines)
    return TOKEN.sub(one, text)


def page(text, names):
    return re.sub(r"`([^`\n]*)`", lambda m: "`" + TOKEN.sub(lambda t: names.get(t.group(0), t.group(0)), m.group(1)) + "`", text)


def scopes(every):
    """Names that fall together: two names of a file, declared or taken, that have one spelling afterwards."""
    for path in files("crates", (".antt", ".rt")):
        text = read(path)
        here = set()
        for _, items in USE.findall(text):
            here |= {item.split(" as ")[-1].strip() for item in items.replace("\n", " ").split(",")}
        names = {**every, **IN_A_FILE.get(path, {})}
        if path.endswith(".antt"):
            for line in text.split("\n"):
                found = DECLARED.match(line)
                if found:
                    here.add(found.group(1))
            for found in PARAMETER.findall(text):
                here |= set(found.split())
        else:
            here |= set(re.findall(r"(?:let (?:mut )?|fn |mod |\b)([a-z_0-9]+)(?= ?[:=(;])", re.sub(r"//[^\n]*", "", text)))
        by = {}
        for name in here:
            by.setdefault(names.get(name, name), set()).add(name)
        for new, old in by.items():
            if len(old) > 1:
                yield path, new, sorted(old)


def main(argv):
    names, declared, foreign = table()
    if "--check" in argv:
        for name, new in names.items():
            print(name, "->", new)
        print(sorted(n for n in declared & foreign if turnable(n)))
        for path, new, old in scopes(names):
            print("together:", path, new, old)
        return 0
    for path in files("crates", (".antt", ".rt")):
        text = read(path)
        new = turned(text, {**names, **IN_A_FILE.get(path, {})} if "sameCodes" in text else names, path.endswith(".rt"))
        if new != text:
            with open(path, "w", encoding="utf-8") as it:
                it.write(new)
    for path in ["README.md", *files("docs", ".md")]:
        text = read(path)
        new = page(text, names)
        if new != text:
            with open(path, "w", encoding="utf-8") as it:
                it.write(new)
    return 0


if __name__ == "__main__":
    raise SystemExit(main(sys.argv[1:]))
