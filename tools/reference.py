#!/usr/bin/env python3
"""An independent reader of wiring sheets, to compare the proved one with.

    reference.py carry SHEET     what `carry SHEET` prints
    reference.py cases < CASES   what the program `cases` prints for its input

It follows docs/SHEET.md and shares nothing with the proved reader: it works with
regular expressions on whole lines, and looks for a taken port in a set.
"""
import re
import sys

WHY = {
    1: "the sheet has more than 32768 bytes",
    2: "the line has more than 60 bytes",
    3: "the line holds a byte outside 32 to 126",
    4: "the first word is not boards, wire or note",
    5: "a boards line has 2 words, a wire line 6",
    6: "a number is one to three digits without a needless leading 0",
    7: "boards comes once, and before any wire",
    8: "a count, board or port is out of range",
    9: "the state is not ok, out, back or dead",
    10: "both ends are on one board",
    11: "a port already has a wire",
    12: "the wire table has no record left",
}
NUMBER = re.compile(r"0|[1-9][0-9]{0,2}")


class Refused(Exception):
    def __init__(self, number, place):
        super().__init__(number, place)
        self.number, self.place = number, place


def text_lines(data):
    parts = data.split(b"\n")
    if parts[-1] == b"":
        parts.pop()
    return parts


class Sheet:
    """What was read so far; `room` is how many wires the table holds."""

    def __init__(self, room):
        self.room, self.count, self.wires, self.ports = room, None, [], set()

    def read(self, data):
        if len(data) > 32768:
            raise Refused(1, 0)
        lines = text_lines(data)
        for n, line in enumerate(lines, 1):
            number = self.line(line)
            if number:
                raise Refused(number, n)
        if self.count is None:
            raise Refused(7, len(lines) + 1)

    def line(self, line):
        """0, or the number of the line's fault."""
        if len(line) > 60:
            return 2
        if re.search(rb"[^\x20-\x7e]", line):
            return 3
        words = line.decode("ascii").split()
        if not words or words[0] == "note":
            return 0
        due = {"boards": 2, "wire": 6}.get(words[0])
        if due is None:
            return 4
        if len(words) != due:
            return 5
        numbers = words[1:2] if due == 2 else words[1:5]
        if not all(NUMBER.fullmatch(w) for w in numbers):
            return 6
        if (due == 2) == (self.count is not None):
            return 7
        values = [int(w) for w in numbers]
        return self.boards(values[0]) if due == 2 else self.wire(values, words[5])

    def boards(self, count):
        if count not in range(1, 129):
            return 8
        self.count = count
        return 0

    def wire(self, values, state):
        a, p, b, q = values
        if max(a, b) >= self.count or max(p, q) > 7:
            return 8
        if state not in ("ok", "out", "back", "dead"):
            return 9
        if a == b:
            return 10
        if {(a, p), (b, q)} & self.ports:
            return 11
        if len(self.wires) == self.room:
            return 12
        self.ports |= {(a, p), (b, q)}
        self.wires.append((a, p, b, q, state))
        return 0


def refusal(number, place):
    return f"refused: layer 1, number {number}, place {place} ({WHY[number]})"


def carry(path):
    sheet = Sheet(512)
    with open(path, "rb") as f:
        data = f.read(32769)
    try:
        sheet.read(data)
    except Refused as r:
        print(refusal(r.number, r.place))
        return 1
    print(f"read {sheet.count} boards, {len(sheet.wires)} wires")
    for n, (a, p, b, q, s) in enumerate(sheet.wires):
        print(f"wire {n}: board {a} port {p}, board {b} port {q}, {s}")
    return 0


def decoded(text):
    """`-` for no bytes, else parts with commas between: hexadecimal bytes, perhaps `*TIMES`."""
    data = b""
    for part in text.split(",") if text != "-" else []:
        digits, _, times = part.partition("*")
        data += bytes.fromhex(digits) * int(times or 1)
    return data


def cases():
    for line in sys.stdin:
        room, text = line.split()
        sheet = Sheet(int(room))
        try:
            sheet.read(decoded(text))
            answer = f"{sheet.count} boards, {len(sheet.wires)} wires"
        except Refused as r:
            answer = refusal(r.number, r.place)
        table = "".join(f"; {n} {a} {p} {b} {q} {s}" for n, (a, p, b, q, s) in enumerate(sheet.wires))
        print(answer + table)
    return 0


def main(args):
    if args[:1] == ["carry"] and len(args) == 2:
        return carry(args[1])
    if args == ["cases"]:
        return cases()
    print(__doc__, file=sys.stderr)
    return 2


if __name__ == "__main__":
    sys.exit(main(sys.argv[1:]))
