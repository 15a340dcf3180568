#!/usr/bin/env python3
"""Compares what was promised before the port with what is promised now, but for spelling.

usage: python3 tools/compare_port.py OLD NEW      two checkouts: one in the older Rattle's spelling, one in today's

It reads definitions (every file of specs/), the statements of lemmas (every file of proofs/ but the proofs of functions) and the signatures and clauses of all
functions, and takes case, dashes, underscores, parentheses, brackets, imports and comments out of both sides. Where a word then differs it prints the words
around it, the old and the new. What it knows of spelling: `now (x .entry)` of the older clauses is `x.now` or `x.old`, `now (x .exit)` is `x.new`, and a result
bound by λ is `result`.
"""

import difflib
import os
import re
import sys

# Files that have another name today.
MOVED = {"crates/openlr/src/message.rt": "crates/openlr/src/messages.rt"}
# Words of the library that have another name today.
TODAY = {"getd": "getor", "listmem": "mem"}


def words(text):
    """The words of a text without what is only spelling."""
    text = re.sub(r" \.(?=[A-Za-z0-9])", ".", text.replace("\u2033", "''").replace("\u2032", "'"))
    found = re.findall(r"[A-Za-z0-9_'₀-₉·@-]+|[^\sA-Za-z0-9_]", text)
    plain = [re.sub(r"[-_·]", "", word).lower() for word in found]
    return [TODAY.get(word, word) for word in plain if word not in "()⌜⌝«»◌"]


def without_comments(text):
    text = re.sub(r"(?m)^(?:pub )?(?:ghost )?use .*$", "", text)
    return re.sub(r"(?:--|//).*", "", text)


def differences(old, new):
    for kind, i, j, k, l in difflib.SequenceMatcher(None, old, new, autojunk=False).get_opcodes():
        if kind != "equal":
            yield f"    {' '.join(old[max(0, i - 5) : i])} [ {' '.join(old[i:j])} => {' '.join(new[k:l])} ] {' '.join(old[j : j + 3])}"


def read(path):
    with open(path, encoding="utf-8") as it:
        return it.read()


def files(root, folder, ends):
    for at, inside, names in os.walk(os.path.join(root, "crates")):
        inside[:] = sorted(d for d in inside if d not in ("out", "must-fail", "data"))
        if f"/{folder}" in at:
            for name in sorted(names):
                if name.endswith(ends):
                    yield os.path.relpath(os.path.join(at, name), root)


def statements(text):
    """The statement of each lemma of a file, by its name."""
    found = {}
    for m in re.finditer(r"(?m)^( *)(?:pub |abbrev |unfoldable )*([^\s:(){}]+)((?: [({][^\n]*)?) :(?= |\n)((?:.*)(?:\n\1 +.*)*)", without_comments(text)):
        name = re.sub(r"(_lem)?$", "", m.group(2))
        found.setdefault(re.sub(r"[-_]", "", name).lower(), []).append(words(m.group(3) + m.group(4)))
    return found


def functions(text):
    """The head and the clauses of each function of a file, in order."""
    text = re.sub(r"(?m)^\s*(?://.*|#\[.*\]\s*)$", "", text)
    head = r"(?m)^( *)((?:pub )?(?:extern \"C\" )?(?:const )?fn (\w+)[\s\S]*?)\n?\1\{$|^ *((?:pub )?fn (\w+)\([^\n]*\)(?: -> [^\n{]*)?) \{"
    for m in re.finditer(head, text):
        whole = m.group(2) or m.group(4)
        at = re.search(r"\n\s*(?:requires|ensures)\b", whole)
        clauses = re.findall(r"\b(requires|ensures)\b(?:\s+\w+)?\s*\{([\s\S]*?)\}(?=\s*(?:requires|ensures)\b|\s*$)", whole[at.start() :] if at else "")
        yield m.group(3) or m.group(5), words(whole[: at.start()] if at else whole), clauses


def older(clause):
    clause = clause.replace("⌜", "").replace("⌝", "")
    bound = re.match(r"\s*λ (\S+)\.\s*", clause)
    if bound:
        clause = clause[bound.end() :]
        if bound.group(1) != "_":
            clause = re.sub(r"(?<![\w.'-])" + re.escape(bound.group(1)) + r"(?![\w'-])", "result", clause)
    clause = re.sub(r"\bnow \((\w+) \.(entry|exit)\)", r"\1@\2", clause)
    clause = re.sub(r"\bnow (\w+)", r"\1@entry", clause)
    return re.sub(r"(\w+) \.entry\b", r"\1", clause)


def newer(clause):
    return re.sub(r"\b(\w+)\.new\b", r"\1@exit", re.sub(r"\b(\w+)\.(?:now|old)\b", r"\1@entry", clause))


def of_functions(old, new):
    count = 0
    for path in files(old, "src", ".rt"):
        now = os.path.join(new, MOVED.get(path, path))
        if not os.path.exists(now):
            print(f"{path}: gone")
            continue
        today = {}
        for name, head, clauses in functions(read(now)):
            today.setdefault(name, []).append((head, clauses))
        for name, head, clauses in functions(read(os.path.join(old, path))):
            count += 1
            if not today.get(name):
                print(f"{path}: fn {name} is gone")
                continue
            new_head, new_clauses = today[name].pop(0)
            said = [(kind, words(older(it))) for kind, it in clauses]
            says = [(kind, words(newer(it))) for kind, it in new_clauses]
            if head != new_head:
                print(f"{path}: the signature of {name}", *differences(head, new_head), sep="\n")
            if [kind for kind, _ in said] != [kind for kind, _ in says]:
                print(f"{path}: {name} has other clauses")
            for (_, a), (_, b) in zip(said, says):
                if a != b:
                    print(f"{path}: a clause of {name}", *differences(a, b), sep="\n")
    return count


def main(old, new):
    definitions = 0
    for path in files(old, "specs", ".antt"):
        definitions += 1
        if not os.path.exists(os.path.join(new, path)):
            print(f"{path}: gone")
            continue
        a, b = (words(without_comments(read(os.path.join(root, path)))) for root in (old, new))
        if a != b:
            print(path, *differences(a, b), sep="\n")
    lemmas = 0
    for path in files(old, "proofs", ".antt"):
        if os.path.basename(path) in ("Proof.antt", "Walk.antt") or not os.path.exists(os.path.join(new, path)):
            continue
        today = statements(read(os.path.join(new, path)))
        for name, said in statements(read(os.path.join(old, path))).items():
            lemmas += 1
            if name not in today:
                print(f"{path}: {name} is gone")
            elif said != today[name]:
                print(f"{path}: {name}", *differences([w for it in said for w in it], [w for it in today[name] for w in it]), sep="\n")
    count = of_functions(old, new)
    print(f"{definitions} files of definitions, {lemmas} names in files of lemmas, {count} functions")


if __name__ == "__main__":
    main(*sys.argv[1:])
