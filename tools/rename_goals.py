#!/usr/bin/env python3
"""Turns the walks by hand, proofs/F/Proof.antt, from the older names of goals, places and steps to today's.

usage: python3 tools/rename_goals.py NAMES CRATE

NAMES is the names.json that `rt check --generated DIR --old-names` writes in the folder CRATE. A name that it does not know is printed and left. Answers that
today's walk no longer asks for go, and one that it asks anew is left to `search rules`.
"""

import json
import os
import re
import sys

WORD = r"[\w'₀-₉-]+"


def norm(name):
    name = re.sub(r"^Is(?=[A-Z])", "", re.sub(r"_lem$", "", name)).replace("_", "-").lower()
    for old, new in (("overflow-", ""), ("in-bounds-", "")):
        if name.startswith(old):
            name = new + name[len(old) :]
    return name


def turn(path, r, where):
    with open(path, encoding="utf-8") as it:
        text = it.read()
    needs = {norm(old): new for old, new in r["needs"]}
    by_name = {new: new for _, new in r["needs"]}
    places = {norm(p[0]): n for p, n in zip(r["places"], r["places_by_name"])}
    steps = {}
    for p in r["places"]:
        if p[2][0]:
            steps[norm(p[2][0])] = p[2][1]
    # A test of a loop had the number of an if.
    for (old, new), _ in r["loops"]:
        steps[norm(old)] = new
        needs.update({})
    unknown = []

    def goal(found):
        name = found.group(1)
        new = needs.get(norm(name)) or by_name.get(name) or {it.replace("_", "-"): it for it in by_name}.get(name.replace("_", "-"))
        if new is None:
            unknown.append("goal " + name)
            return found.group(0)
        return "tie.Need-" + new

    text = re.sub(r"\btie\.Need-(" + WORD + ")", goal, text)
    for (old, new), _ in r["loops"]:
        text = re.sub(r"\btie\.(invariant|decreases)-" + re.escape(old.replace("_", "-")) + r"(?![\w'-])", r"tie.\1-" + new, text)

    def place(found):
        name = found.group(1)
        if name in r["places_by_name"] or name.startswith(("Need-", "invariant", "decreases")) or name in ("close", "spec", "ensures"):
            return found.group(0)
        new = places.get(norm(name))
        if new is None:
            unknown.append("place " + name)
            return found.group(0)
        return "tie." + new

    text = re.sub(r"\btie\.(" + WORD + ")", place, text)
    parents = {n: p[1] for p, n in zip(r["places"], r["places_by_name"])}
    counted = {p[0]: n for p, n in zip(r["places"], r["places_by_name"])}
    parents = {n: counted.get(up) for n, up in parents.items()}
    # A whole arm of a match is one step; a place within it is taken for the whole.
    longest = {}
    for known in r["arms"]:
        if known:
            longest[known[0]] = max(known[1], longest.get(known[0], 0))
    whole = {}
    for n, known in zip(r["places_by_name"], r["arms"]):
        if known and known[1] == longest[known[0]]:
            whole[known[0]] = n
    within = {n: whole[known[0]] for n, known in zip(r["places_by_name"], r["arms"]) if known}
    up = dict(parents)
    for n, known in zip(r["places_by_name"], r["arms"]):
        if known and within[n] == n:
            parents[n] = n
            for _ in range(known[1]):
                parents[n] = up[parents[n]]
    text = re.sub(r"\btie\.(In[-_]" + WORD + ")", lambda m: "tie." + within.get(m.group(1), m.group(1)), text)
    at_goal = {need[1]: at[1] for need, at in zip(r["needs"], r["asked_at"])}
    # The place that each helper takes, and how many arguments stand before it.
    takes, skips = {}, {}
    flat = re.sub(r" :\n +", " : ", text)
    for name, of in re.findall(r"(?m)^(?:pub |abbrev )*(" + WORD + r") : (?:\([\w']+ : )?tie\.([A-Z]" + WORD + r")", flat):
        if not of.startswith("Need-"):
            takes[name] = of
    for given, members in re.findall(r"(?m)^module _ ((?:[({](?![^()]*: tie\.)[^()]*[)}] ?)+)where\n((?:[ ]+[^\n]*\n|\n)*)", flat):
        for name, of in re.findall(r"(?m)^ {2,4}(?:pub |abbrev )*(" + WORD + r") : \(" + WORD + r" : tie\.(" + WORD + ")", members):
            takes[name] = of
            skips[name] = sum(len(it.split()) for it in re.findall(r"\(([^:()]*) :", given))

    for of, members in re.findall(r"(?m)^module _ \(" + WORD + r" : tie\.(" + WORD + r")[^\n]*\n((?:[ ]+[^\n]*\n|\n)*)", flat):
        for name in re.findall(r"(?m)^ {2,4}(?:pub |abbrev )*(" + WORD + r") : ", members):
            takes[name] = of
    callees = {p[2][1]: p[3] for p in r["places"] if p[3]}
    # What an arm of a match knows, by the step and the path that had it: the longest path first.
    fields = {}
    for known in r["arms"]:
        for field, step, of in known[2] if known else []:
            if of and (f"{known[0]}.{field}", of) not in fields.setdefault(norm(step), []):
                fields[norm(step)].append((f"{known[0]}.{field}", of))
    arms = {known[0] for known in r["arms"] if known}
    for of in fields.values():
        of.sort(key=lambda it: -len(it[1]))
    gives = set(re.findall(r"(?m)^(?:pub |abbrev )*(" + WORD + r") : tie\.[A-Z][^→\n]*→ tie\.[A-Z]", text))

    def depth(here, there):
        n = 0
        while here is not None and here != there:
            here, n = parents.get(here), n + 1
        return n if here == there else None

    def one(block):
        member = re.match(r"  (?:pub |abbrev )*" + WORD + r" :\s+\((" + WORD + r") : tie\.(" + WORD + ")", block)
        inner = member or re.match(r"module _ \((" + WORD + r") : tie\.(" + WORD + ")", block)
        head = inner or re.search(r"(?m)^(?:pub |abbrev )*(" + WORD + r") : (?:\([\w']+ : )?tie\.(Need-)?(" + WORD + ")", block)
        if not head or not inner and head.group(3).startswith(("invariant", "decreases")):
            return block
        here = head.group(2) if inner else at_goal.get(head.group(3)) if head.group(2) else head.group(3)
        param = re.match(r"(?:pub |abbrev )*" + WORD + r" : \((" + WORD + r") : tie\.", block)
        clause = re.search(r"(?m)^" + re.escape(head.group(1)) + " (" + WORD + ") ", block)
        me = inner.group(1) if inner else param.group(1) if param else clause.group(1) if clause and not head.group(2) else "c"
        made = re.match(r"(?:abbrev )?(" + WORD + r") : (?:\(\w+ : )?tie\.(" + WORD + r")[^→\n]*→ tie\.(" + WORD + r")[^\n]*\n", block)
        if made and made.group(1) in gives:
            n = depth(made.group(2), made.group(3))
            if n is not None:
                body = block[made.end() :]
                me = re.match(re.escape(made.group(1)) + " (" + WORD + ") =", body).group(1)
                return made.group(0) + f"{made.group(1)} {me} = {me}{'.before' * n}\n\n" + "".join(re.findall(r"(?m)^--[^\n]*\n", body))
        alias = {me}
        for _ in range(3):
            for name, of in re.findall(r"\blet (" + WORD + r") = (" + WORD + r")(?:\.before)* in", block):
                if of in alias:
                    alias.add(name)

        def chain(found):
            root, step = found.group(1), found.group(3)
            if root not in alias:
                return found.group(0)
            new = steps.get(norm(step)) or steps.get(norm(re.sub(r"[0-9]+$", "", step)))
            if new is None and (step in ("args", "requires", "ranges") or step in steps.values() or step in arms):
                new = step
            if new is None:
                unknown.append(f"step {step}")
                return found.group(0)
            return f"{me}.{new}"

        def arm(found):
            root, step, path = found.group(1), found.group(2), found.group(3).split(".")[1:]
            if root not in alias:
                return found.group(0)
            for field, of in fields.get(norm(step), []):
                if path[: len(of)] == of:
                    return ".".join([me, field, *path[len(of) :]])
            return found.group(0)

        # What a let takes of an arm is named where it is used.
        for name, root, step, rest in re.findall(r"\blet (" + WORD + r") = (" + WORD + r")(?:\.before)*\.(?!before\b)(" + WORD + r")((?:\.(?:given|[0-9]+))*) in", block):
            if root in alias and norm(step) in fields and rest:
                used = re.sub(r"(?<![\w.'₀-₉-])" + re.escape(name) + r"((?:\.[0-9]+)+)(?![\w'₀-₉-])", lambda m: arm(re.match(r"(.*?)\.(.*?)((?:\..*)?)$", f"{root}.{step}{rest}{m.group(1)}")), block)
                left = re.sub(r"\blet " + re.escape(name) + " = ", "", used)
                if not re.search(r"(?<![\w.'₀-₉-])" + re.escape(name) + r"(?![\w'₀-₉-])", left):
                    block = re.sub(r"(?m)^ *let " + re.escape(name) + r" = [^\n]* in\n", "", used, count=1)

        def own(found):
            if found.group(1) not in alias:
                return found.group(0)
            place = here
            while place:
                for known in [a for n, a in zip(r["places_by_name"], r["arms"]) if n == place and a]:
                    for field, step, of in known[2]:
                        if not of and norm(step) == norm(found.group(2)):
                            return f"{me}.{known[0]}.{field}.{found.group(3)}"
                place = up.get(place)
            return found.group(0)

        block = re.sub(r"(?<![\w.'₀-₉-])(" + WORD + r")(?:\.before)*\.(match[0-9]*)\.(keys[0-9]+)", own, block)
        block = re.sub(r"(?<![\w.'₀-₉-])(" + WORD + r")(?:\.before)*\.(?!before\b)(" + WORD + r")((?:\.(?:given|ensures|[0-9]+))+)(?![\w'₀-₉-])", arm, block)
        block = re.sub(r"(?<![\w.'₀-₉-])(" + WORD + r")((?:\.before)*)\.(?!before\b)(" + WORD + ")", chain, block)

        def call(found):
            name, root = found.group(1), found.group(3)
            if name not in takes or root not in alias or len((found.group(2) or "").split()) != skips.get(name, 0):
                return found.group(0)
            n = depth(here, takes[name])
            if n is None:
                unknown.append(f"place of {name} at {here}")
                return found.group(0)
            return f"{name} {found.group(2) or ''}{me}{'.before' * n}"

        block = re.sub(r"(?<![\w.'₀-₉-])(" + WORD + r") ()(" + WORD + r")(?:\.before)*(?![\w.'₀-₉-])", call, block)
        for name, k in skips.items():
            if k:
                block = re.sub(r"(?<![\w.'₀-₉-])(" + re.escape(name) + r") ((?:[\w.'₀-₉-]+ ){" + str(k) + "})(" + WORD + r")(?:\.before)*(?![\w.'₀-₉-])", call, block)
        # A member that is a place further out.
        for name, to in re.findall(r"(?m)^  (?:abbrev )?(" + WORD + r") : tie\.(" + WORD + r")[^\n→]*\n  \1 = " + re.escape(me) + r"(?:\.before)*\n", block) if inner else []:
            n = depth(here, to)
            if n is not None:
                block = re.sub(r"(?m)^(  " + re.escape(name) + " = " + re.escape(me) + r")(?:\.before)*$", lambda m: m.group(1) + ".before" * n, block)
        # A helper that gives a place.
        for name in gives:
            to = re.search(r"(?m)^(?:pub |abbrev )*" + re.escape(name) + r" : tie\.[A-Z][^→\n]*→ tie\.(" + WORD + ")", text).group(1)

            def given(m):
                if m.group(2):
                    return f"{me}." + (steps.get(norm(m.group(2))) or m.group(2))
                there = to
                for _ in range(m.group(1).count("before")):
                    there = parents.get(there)
                n = depth(here, there)
                if n is None:
                    unknown.append(f"place of {name} at {here}")
                    return m.group(0)
                return me + ".before" * n

            block = re.sub(r"\(" + re.escape(name) + r" (?:" + "|".join(map(re.escape, alias)) + r")(?:\.before)*\)((?:\.before)+(?![\w'₀-₉-])|)(?:\.(?!before\b)(" + WORD + "))?", lambda m: given(m) if m.group(1) or m.group(2) else m.group(0), block)
        bound = dict(re.findall(r"\blet (" + WORD + r") = " + re.escape(me) + r"\.(" + WORD + r") in", block))

        def auto(found):
            step = found.group(2) if found.group(1) == me + "." else bound.get(found.group(2))
            names = r["params"].get(callees.get(step), [])
            n = found.group(4).count("1")
            if n >= len(names):
                unknown.append(f"auto of {step} at {here}")
                return found.group(0)
            return f"{found.group(1) or ''}{found.group(2)}.{found.group(3)}.{names[n]}"

        block = re.sub(r"(?<![\w.'₀-₉-])(" + re.escape(me) + r"\.)?(" + WORD + r")\.(auto|new)((?:\.1)*\.0)(?![\w'₀-₉-])", auto, block)
        # What a call leaves, by its parameters.
        for name, step in re.findall(r"\blet (" + WORD + r") = " + re.escape(me) + r"\.(" + WORD + r")\.(?:new|auto) in", block):
            names = r["params"].get(callees.get(step), [])
            block = re.sub(r"(?<![\w.'₀-₉-])" + re.escape(name) + r"((?:\.1)*\.0)(?![\w'₀-₉-])", lambda m: f"{name}.{names[m.group(1).count('1')]}" if m.group(1).count("1") < len(names) else m.group(0), block)
        # A test that is a negation is told without it now.
        block = re.sub(r"not-(?:true|false) (?:" + WORD + r"(?:\.[\w'-]+)*\.result) ("+ re.escape(me) + r"\.if-not-" + WORD + r"\.(?:true|false))", r"\1", block)
        for name in [*(alias - {me})] * 3:
            if len(re.findall(r"(?<![\w.'₀-₉-])" + re.escape(name) + r"(?![\w'₀-₉-])", block)) == 1:
                block = re.sub(r"(?m)^ *let " + re.escape(name) + r" = " + WORD + r"(?:\.before)* in\n", "", block)
                block = re.sub(r"let " + re.escape(name) + r" = " + WORD + r"(?:\.before)* in ", "", block)
        return block

    pieces = re.split(r"(?m)(?=^(?:pub |abbrev )*" + WORD + r" : |^module _ \(" + WORD + r" : tie|^  (?:pub |abbrev )*" + WORD + r" :\s+\(" + WORD + r" : tie)", text)
    text = "".join(one(it) for it in pieces)

    # Answers that are no longer asked for.
    for goal_name in [it.split(" ", 1)[1] for it in unknown if it.startswith("goal ")]:
        gone = re.search(r"(?m)^(" + WORD + r") : tie\.Need-" + re.escape(goal_name) + r"(?![\w'-])[^\n]*\n(?:unfolding[^\n]*\n)?\1\b[^\n]*\n(?:[ ]+[^\n]*\n)*\n?", text)
        if gone:
            text = text[: gone.start()] + text[gone.end() :]
            unknown.remove("goal " + goal_name)
            print(f"{where}: no longer asked for: {goal_name}")

    # The answers, as today's walk asks for them.
    answers = {}
    for name, need in re.findall(r"(?m)^(" + WORD + r") : tie\.Need-(" + WORD + ")", text):
        answers.setdefault(need, name)
    found = re.search(r"(?m)^pub (" + WORD + r") : [^\n]*statement M\n\1 =\n    tie\.close\n    (?:\(tie\.spec\n((?:    [^\n]*\n?)*)|tie\.spec)", text)
    if found and found.group(2) is not None:
        given = [it.strip() for it in found.group(2).replace(")", "").split("\n") if it.strip()]
        loops = [it for it in given if re.search(r"(?m)^(?:abbrev )?" + re.escape(it) + r" : tie\.(invariant|decreases)", text)]
        args, new = list(loops), []
        for _, need in r["needs"]:
            if need in answers:
                args.append(answers[need])
                continue
            name = need
            while re.search(r"(?m)^" + re.escape(name) + r"\b", text):
                name += "-new"
            new.append(f"{name} : tie.Need-{need}{''.join(' ' + it for it in loops)}\n{name} c = search rules\n\n")
            args.append(name)
        text = text[: found.start()] + "".join(new) + f"pub {found.group(1)} : {{M : Type 1}} → statement M\n{found.group(1)} =\n    tie.close\n    (tie.spec\n" + "\n".join("    " + it for it in args) + ")\n"
        if new and "rules}" not in text:
            unknown.append("rules are not imported")
    with open(path, "w", encoding="utf-8") as it:
        it.write(text)
    for it in sorted(set(unknown)):
        print(f"{where}: {it}")


def main(names, crate):
    with open(names, encoding="utf-8") as it:
        all_names = json.load(it)
    name = os.path.basename(os.path.abspath(crate))
    stem = f"Rattle-{name}-proofs."
    for folder, _, files in os.walk(os.path.join(crate, "proofs")):
        if "Proof.antt" not in files:
            continue
        path = os.path.relpath(folder, os.path.join(crate, "proofs")).replace("/", ".")
        r = all_names.get(stem + path + ".Lts")
        if r is None:
            print(f"{name}: no names of {path}")
            continue
        turn(os.path.join(folder, "Proof.antt"), r, f"{name}::{path}")


if __name__ == "__main__":
    main(*sys.argv[1:])
