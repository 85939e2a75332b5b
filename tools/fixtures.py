#!/usr/bin/env python3
"""The stored inputs and expected outputs of the programs, made anew by the generator and the reference.

    fixtures.py write    writes them
    fixtures.py check    fails where a stored file differs, or the reference errs on an edge or refuses an example
"""
import pathlib
import re
import subprocess
import sys

import generate
import reference

ROOT = pathlib.Path(__file__).parent.parent
TOOLS = ROOT / "tools"


def run(*words, stdin=None):
    done = subprocess.run([sys.executable, *map(str, words)], input=stdin, stdout=subprocess.PIPE, check=False)
    return done.stdout


def made():
    """Each file with what it should hold."""
    cases = run(TOOLS / "generate.py")
    calls = run(TOOLS / "generate_units.py")
    corroded = ROOT / "examples/corroded.sheet"
    return {
        ROOT / "crates/cases/stdin": cases,
        ROOT / "crates/cases/stdout": run(TOOLS / "reference.py", "cases", stdin=cases),
        ROOT / "crates/unit_cases/stdin": calls,
        ROOT / "crates/unit_cases/stdout": run(TOOLS / "reference_units.py", stdin=calls),
        ROOT / "crates/carry/data/corroded.sheet": corroded.read_bytes(),
        ROOT / "crates/carry/stdout": run(TOOLS / "reference.py", "carry", corroded),
    }


def spelled(outcome):
    """An outcome of edges.txt as the program prints it."""
    return re.sub(r"^1 (\d+) (\d+)(?=;|$)", lambda m: reference.refusal(int(m[1]), int(m[2])), outcome)


def wrong_edges(files):
    answers = files[ROOT / "crates/cases/stdout"].decode().splitlines()
    for (room, parts, outcome), answer in zip(generate.edges(), answers):
        if answer != spelled(outcome):
            yield f"edge {room} {parts}: {outcome!r} by hand, {answer!r} by the reference"


def refused_examples():
    for path in sorted((ROOT / "examples").glob("*.sheet")):
        try:
            reference.Sheet(512).read(path.read_bytes())
        except reference.Refused as r:
            yield f"{path}: {reference.refusal(r.number, r.place)}"


def main(args):
    if args not in (["write"], ["check"]):
        print(__doc__, file=sys.stderr)
        return 2
    files = made()
    if args == ["write"]:
        for path, data in files.items():
            path.parent.mkdir(parents=True, exist_ok=True)
            path.write_bytes(data)
    faults = [*wrong_edges(files), *refused_examples()]
    faults += [f"{path} is not what the tools make" for path, data in files.items()
               if not path.exists() or path.read_bytes() != data]
    for fault in faults:
        print(fault, file=sys.stderr)
    return 1 if faults else 0


if __name__ == "__main__":
    sys.exit(main(sys.argv[1:]))
