#!/usr/bin/env python3
"""Writes the input of the program `cases`: the edges of the format, and wiring sheets, good, damaged
and garbage.

    generate.py > crates/cases/stdin

A line for each sheet: how many wires the table has room for, and the sheet's bytes (`-` for none,
else parts with commas between: hexadecimal bytes, perhaps `*TIMES`). The same seed gives the same
lines on every machine.
"""
import pathlib
import random
import re

SEED = 20261118
STATES = ["ok", "out", "back", "dead"]
WORDS = ["boards", "wire", "note", "ok", "out", "back", "dead", "Boards", "WIRE", "wires", "0", "1", "7", "8",
         "00", "007", "128", "129", "999", "1000", "-1", "+1", "1.", "x", "2x", "ok1", "~", "!", "boards5"]


def plan(rng):
    count = rng.choice([1, 2, 3, 5, 8, 13, 40, 127, 128])
    free = [(b, p) for b in range(count) for p in range(8)]
    rng.shuffle(free)
    wires = []
    for _ in range(rng.choice([0, 1, 2, 5, 12, 20])):
        if len(free) < 2:
            break
        first = free.pop()
        other = [e for e in free if e[0] != first[0]]
        if not other:
            break
        second = rng.choice(other)
        free.remove(second)
        wires.append((*first, *second, rng.choice(STATES)))
    return count, wires


def lines_of(count, wires):
    return [f"boards {count}"] + ["wire %d %d %d %d %s" % w for w in wires]


def loose(rng, line):
    words = line.split()
    gap = lambda: " " * rng.choice([1, 1, 1, 2, 3])
    return " " * rng.choice([0, 0, 1, 2]) + gap().join(words) + " " * rng.choice([0, 0, 1])


def dressed(rng, lines):
    out = []
    for line in lines:
        while rng.random() < 0.2:
            out.append(rng.choice(["", "   ", "note", "note anything ~!@#", " note 1 2 3 4 5 6 7 8"]))
        out.append(loose(rng, line))
    return out


def joined(rng, lines):
    end = rng.choice(["\n", "\n", "\n", "", "\n\n", "\n \n"])
    return ("\n".join(lines) + end).encode()


def changed_word(rng, lines):
    at = rng.randrange(len(lines))
    words = lines[at].split() or [""]
    k = rng.randrange(len(words))
    words[k] = rng.choice(WORDS)
    if rng.random() < 0.2:
        words.insert(k, rng.choice(WORDS))
    if rng.random() < 0.2:
        words.pop()
    return lines[:at] + [" ".join(words)] + lines[at + 1:]


def moved_line(rng, lines):
    lines = list(lines)
    line = lines.pop(rng.randrange(len(lines)))
    if rng.random() < 0.5:
        lines.insert(rng.randrange(len(lines) + 1), line)
    lines.insert(rng.randrange(len(lines) + 1), line)
    return lines


def padded_line(rng, lines):
    at = rng.randrange(len(lines))
    return lines[:at] + [lines[at].ljust(rng.choice([59, 60, 61, 62]))] + lines[at + 1:]


def one_board(rng, lines):
    at = rng.randrange(len(lines))
    words = lines[at].split()
    if words[0] == "wire":
        words[3] = words[1]
    return lines[:at] + [" ".join(words)] + lines[at + 1:]


def changed_byte(rng, data):
    data = bytearray(data)
    at = rng.randrange(len(data) + 1)
    kind = rng.randrange(3)
    if kind == 0:
        data.insert(at, rng.choice([0, 9, 10, 13, 31, 32, 48, 126, 127, 128, 255]))
    elif data:
        at = min(at, len(data) - 1)
        if kind == 1:
            del data[at]
        else:
            data[at] = rng.randrange(256)
    return bytes(data)


def garbage(rng):
    if rng.random() < 0.3:
        return bytes(rng.randrange(256) for _ in range(rng.randrange(40)))
    return joined(rng, [" ".join(rng.choices(WORDS, k=rng.randrange(8))) for _ in range(rng.randrange(1, 6))])


def sheet(rng):
    count, wires = plan(rng)
    room = rng.choice([512, 512, 512, len(wires), max(0, len(wires) - 1), 0])
    lines = lines_of(count, wires)
    kind = rng.randrange(9)
    if kind == 0:
        return 512, joined(rng, lines)
    if kind == 1:
        return room, joined(rng, dressed(rng, lines))
    if kind == 2:
        return room, joined(rng, dressed(rng, changed_word(rng, lines)))
    if kind == 3:
        return room, joined(rng, changed_word(rng, changed_word(rng, lines)))
    if kind == 4:
        return room, joined(rng, dressed(rng, moved_line(rng, lines)))
    if kind == 5:
        return room, changed_byte(rng, joined(rng, dressed(rng, lines)))
    if kind == 6:
        return room, joined(rng, padded_line(rng, dressed(rng, lines)))
    if kind == 7:
        return room, joined(rng, dressed(rng, one_board(rng, lines)))
    return rng.choice([0, 1, 4]), garbage(rng)


def full_sheet():
    """128 boards whose 1,024 ports all have a wire."""
    lines = ["boards 128"]
    for b in range(0, 128, 2):
        lines += [f"wire {b} {p} {b + 1} {p} {STATES[p % 4]}" for p in range(8)]
    return "\n".join(lines).encode() + b"\n"


def unescaped(text):
    return re.sub(r"\\n|\\t|\\x([0-9a-f]{2})", lambda m: {"\\n": "\n", "\\t": "\t"}.get(m[0]) or chr(int(m[1], 16)), text)


def edges():
    """The rows of edges.txt: room, the sheet's parts as (bytes, times), and what becomes of it."""
    for row in (pathlib.Path(__file__).parent / "edges.txt").read_text().splitlines():
        if row and not row.startswith("#"):
            room, text, outcome = row.split("|")
            parts = []
            for piece in re.split(r"(\{.*?\*\d+\})", text[1:-1]):
                many = re.fullmatch(r"\{(.*?)\*(\d+)\}", piece)
                byte, times = (many[1], int(many[2])) if many else (piece, 1)
                if byte:
                    parts.append((unescaped(byte).encode("latin-1"), times))
            yield int(room), parts, outcome.strip()


def encoded(parts):
    return ",".join(data.hex() + (f"*{times}" if times > 1 else "") for data, times in parts) or "-"


def main():
    rng = random.Random(SEED)
    for room, parts, _ in edges():
        print(f"{room} {encoded(parts)}")
    print(f"512 {full_sheet().hex()}")
    print(f"511 {full_sheet().hex()}")
    print(f"512 {full_sheet().hex()},{b'wire 0 0 1 0 ok'.hex()}")
    for _ in range(3000):
        room, data = sheet(rng)
        print(f"{room} {data.hex() or '-'}")


if __name__ == "__main__":
    main()
