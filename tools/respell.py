#!/usr/bin/env python3
"""Respells this repository's own names of specs/ and proofs/: words in snake case; a dash stays only between two names of definitions.

usage: python3 tools/respell.py        at the top of the repository, once, right after the toolchain's own script

Types, modules and facts (upper camel case), names of src/, names that the checker makes (goals, steps) and strings keep their spelling.
It rewrites .antt files, clauses and ghost imports of .rt files, and must-fail edits, and stops where two names would fall together.
"""

import glob
import re
import sys

# Names of the library that a lemma's name may begin or end with.
LIBRARY = {"length", "take", "drop", "append", "map", "cond", "suc", "not", "and", "or", "eqb", "leb", "ltb", "slice_get", "slice_set", "slice_index", "get_or"}
# What may stand in a name.
NAME = re.compile(r"[^\s(){}.,;\[\]|λ→×∷≡`\"]+")
SIGNATURE = re.compile(r"^\s*(?:abbrev\s+|unfoldable\s+)?(?:pub\s+)?(?:abbrev\s+|data\s+|record\s+|ruleset\s+)?([^\s(){}.,;]+)(?:\s+\([^)]*\))*\s*:\s")
LOCAL = re.compile(r"\blet\s+([^\s(){}.,;:=]+)\s*[:=]")
GOAL = re.compile(r"^\s*(?:abbrev\s+)?(?:pub\s+)?([^\s]+)\s*:\s*(?:goal|need|needs)\.")


def files(pattern):
    return sorted(f for f in glob.glob(pattern, recursive=True) if "/out/" not in f)


def is_answer_file(path):
    return path.endswith(("/Answers.antt", "/Invariants.antt", "/Choices.antt"))


def code_of(line):
    return line.split("--")[0] if not line.lstrip().startswith("--") else ""


def snake(name):
    words = re.sub(r"([a-z0-9])([A-Z])", r"\1_\2", name)
    return "".join(p.lower() if re.match(r"^[a-z]", name) and p.isascii() else p for p in words)


def main():
    antt = files("crates/*/specs/**/*.antt") + files("crates/*/proofs/**/*.antt")
    own, goals, local = set(), set(), set()
    for path in antt:
        for line in open(path, encoding="utf-8"):
            code = code_of(line)
            goal = GOAL.match(code)
            if goal:
                goals.add(goal.group(1))
                continue
            signature = SIGNATURE.match(code)
            if signature:
                own.add(signature.group(1))
            local.update(LOCAL.findall(code))
    names = {n for n in own | local if n not in goals and re.match(r"^[a-z]", n)}
    # fields of records and local functions in camel case are not all found above: take each such token
    library = re.compile(r"^(cases_Bool|discr.*)$")
    for path in antt:
        for line in open(path, encoding="utf-8"):
            for token in NAME.findall(code_of(line)):
                if re.match(r"^[a-z][a-z0-9_]*[A-Z][A-Za-z0-9_]*$", token) and not library.match(token):
                    names.add(token)
    defined = {snake(n) for n in own if "-" not in n} | LIBRARY
    renamed = {}
    for name in sorted(names):
        if "-" in name and re.search(r"[A-Za-z]", name):
            parts = [snake(p) for p in name.split("-")]
            keep = all(p in defined or not re.match(r"^[a-z]", p) for p in parts)
            new = ("-" if keep else "_").join(parts)
            new = re.sub(r"_(\+\+)$", r"-\1", new)
        else:
            new = snake(name)
        if new != name:
            renamed[name] = new
    # a definition may have the name of the function that it speaks of; a lemma that would have its function's name gets _lem
    used = set()
    for path in antt:
        for line in open(path, encoding="utf-8"):
            if not re.search(r"\.proofs\..*\.(Goals|Given)\b", line):
                used.update(NAME.findall(code_of(line)))
    for old, new in renamed.items():
        if "-" in old and (new in used or any(n == new for o, n in renamed.items() if "-" not in o)):
            renamed[old] = new + "_lem"
    clash = False
    seen = {}
    for old, new in renamed.items():
        if new in seen:
            print(f"respell: {old} and {seen[new]} would both be {new}", file=sys.stderr)
            clash = True
        seen[new] = old
        if new in used:
            print(f"respell: {old} would be {new}, which is a name already", file=sys.stderr)
            clash = True
    if "--list" in sys.argv:
        for old, new in renamed.items():
            print(old, new)
        return
    if clash and "--anyway" not in sys.argv:
        raise SystemExit(1)

    # in an answer file the names behind c, w, l and goal are the checker's
    chain = re.compile(r"(?<![^\s(){},;\[\]|λ→×∷≡`\"])(c|w|l|goal)(\.[^\s(){}.,;\[\]|λ→×∷≡`\"]+)+")

    def turn(text, known, answers=False):
        kept = [m.span() for m in chain.finditer(text)] if answers else []

        def word(m):
            inside = any(a <= m.start() < b for a, b in kept)
            return m.group(0) if inside else known.get(m.group(0), m.group(0))

        return NAME.sub(word, text)

    camel = {o: n for o, n in renamed.items() if "-" not in o}
    for path in antt:
        text = open(path, encoding="utf-8").read()
        lines = []
        for line in text.split("\n"):
            at = line.find("--") if code_of(line) != line else -1
            code, comment = (line, "") if at < 0 else (line[:at], line[at:])
            lines.append(turn(code, renamed, is_answer_file(path)) + turn(comment, camel))
        new = "\n".join(lines)
        if new != text:
            open(path, "w", encoding="utf-8").write(new)
    for path in files("crates/*/src/**/*.rt") + files("crates/*/must-fail/*.edit"):
        text = open(path, encoding="utf-8").read()
        imported = set()
        for names_in in re.findall(r"ghost use [\w.]+\.\{([^}]*)\};", text):
            imported.update(NAME.findall(names_in))
        known = {o: n for o, n in renamed.items() if o in camel or o in imported}
        new = turn(text, known)
        if new != text:
            open(path, "w", encoding="utf-8").write(new)


main()
