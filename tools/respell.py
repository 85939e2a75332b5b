#!/usr/bin/env python3
"""Spells the repository's own definitions, lemmas and record fields in snake case, as Rattle now does.

usage: respell.py [--check]     at the top of the repository

Each name with a dash that a specs/ or proofs/ file of this repository declares, or that a `let`
there binds, gets underscores, as `line-check` becomes `line_check`: in .antt files, in the
clauses and `ghost use` items of .rt files, and in the code spans of README.md and docs/. Names of
the library, the labels that Rattle makes (behind `goal.`, and steps behind `c.` and `l.`), names
of src/, strings, comments' plain words and the files of must-fail/ stay as they are.
--check writes nothing. A name whose new spelling a file already has otherwise is shown on a line
that begins `met:`.
"""

import pathlib
import re
import sys

ROOT = pathlib.Path.cwd()
NAME = r"[A-Za-z_][\w']*(?:-[\w']+)+"
TOKEN = re.compile(rf"(?<![\w'\-])({NAME})(?![\w'\-])")
DECLARED = re.compile(rf"^ *(?:(?:unfoldable|abbrev|pub|data|record|axiom|pattern) +)*({NAME}) *(?:\{{[^{{}}\n]*\}} *)*:(?= |$)(?! *goal\.)", re.M)
BOUND = re.compile(rf"\blet +({NAME})(?= *[:=])")
# A label or a step that Rattle names after the code.
MADE = re.compile(r"(?:\bgoal|\bc|\bl)(?:\.[\w'\-]+)*\.$")
CLAUSE = re.compile(r"(?:\b(?:requires|ensures)\b\s*\*?\s*(?:\w+\s*)?|\bghost\s+(?:\w+\s*[:=]\s*)?)\{")


def files(suffix):
    return sorted(p for p in (ROOT / "crates").rglob("*" + suffix) if "out" not in p.parts)


def own_names():
    names = set()
    for p in files(".antt"):
        text = re.sub(r"--[^\n]*", "", p.read_text())
        names |= set(DECLARED.findall(text))
        names |= {n for n in BOUND.findall(text)}
    return names


def snake_names():
    """Names that are in snake case already: a page may still show them with dashes."""
    declared = re.compile(r"^ *(?:(?:unfoldable|abbrev|pub|data|record) +)*([a-z]\w*_\w+) *(?:\{[^{}\n]*\} *)*:(?= |$)", re.M)
    return {n for p in files(".antt") for n in declared.findall(p.read_text())}


def spelled(text, names, met, where):
    def turn(m):
        name = m[1]
        before = text[max(0, m.start() - 120):m.start()]
        if name not in names or MADE.search(before):
            return name
        new = name.replace("-", "_")
        if new in present:
            met.add((where, new))
        return new

    present = set(re.findall(r"(?<![\w'\-])[A-Za-z_]\w*(?![\w'\-])", text))
    return TOKEN.sub(turn, text)


def clauses(text):
    """Where the clauses and the ghost items of a source file stand."""
    spans = [m.span() for m in re.finditer(r"\bghost\s+use\b[^;]*;", text)]
    for m in CLAUSE.finditer(text):
        depth, at = 1, m.end()
        while depth and at < len(text):
            depth += {"{": 1, "}": -1}.get(text[at], 0)
            at += 1
        spans.append((m.end(), at))
    return sorted(spans)


def source(text, names, met, where):
    out, at = [], 0
    for start, end in clauses(text):
        if start < at:
            continue
        out += [text[at:start], spelled(text[start:end], names, met, where)]
        at = end
    return "".join(out + [text[at:]])


def page(text, names, met, where):
    return re.sub(r"`[^`\n]+`", lambda m: spelled(m[0], names, set(), where), text)


def main():
    names = own_names()
    shown = names | {n.replace("_", "-") for n in snake_names()}
    met, turned = set(), 0
    jobs = [(p, spelled) for p in files(".antt")] + [(p, source) for p in files(".rt")]
    jobs += [(p, page) for p in [ROOT / "README.md", *sorted((ROOT / "docs").glob("*.md"))] if not p.name.startswith("PORT")]
    for p, way in jobs:
        old = p.read_text()
        new = way(old, shown if way is page else names, met, p.relative_to(ROOT))
        if new != old:
            turned += 1
            if "--check" not in sys.argv:
                p.write_text(new)
    for where, name in sorted(met, key=str):
        print(f"met: {where}: {name}")
    print(f"{len(names)} names, {turned} files")


main()
