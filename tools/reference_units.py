#!/usr/bin/env python3
"""Independent address books and policies, to compare the proved ones with.

    reference_units.py < CALLS   what the program `unit_cases` prints for its input

They follow docs/BOOKS.md and docs/POLICIES.md and share nothing with the proved code: a book is a
dictionary of tuples, a run spelling is read by slicing and written by grouping equal ports, a mask is a
list of ports.
"""
import itertools
import sys

UNTOUCHED = 170


def path_list(data):
    """The ports that path bytes spell, or None."""
    return tuple(data) if len(data) <= 127 and all(b < 8 for b in data) else None


def run_list(data):
    """The ports that run bytes spell, or None."""
    if len(data) % 2 or any(p > 7 for p in data[0::2]) or 0 in data[1::2] or sum(data[1::2]) > 127:
        return None
    return tuple(itertools.chain.from_iterable([p] * n for p, n in zip(data[0::2], data[1::2])))


def run_bytes(ports):
    return list(itertools.chain.from_iterable((p, len(list(g))) for p, g in itertools.groupby(ports)))


class Book:
    """Each call answers what the program prints for it."""

    def __init__(self, widest, read, spell):
        self.widest, self.read, self.spell, self.rows = widest, read, spell, {}

    def clear(self):
        self.rows = {}
        return "ok"

    def start(self, row):
        if row > 127:
            return "no"
        self.rows[row] = ()
        return "yes"

    def extend(self, row, source, port):
        ports = self.rows.get(source)
        if row > 127 or port > 7 or ports is None or len(ports) == 127:
            return "no"
        self.rows[row] = ports + (port,)
        return "yes"

    def depth(self, row):
        return str(len(self.rows[row])) if row in self.rows else "none"

    def shared(self, a, b):
        if a not in self.rows or b not in self.rows:
            return "none"
        pairs = zip(self.rows[a], self.rows[b])
        return str(len(list(itertools.takewhile(lambda p: p[0] == p[1], pairs))))

    def spells(self, *data):
        return "no" if self.read(data) is None else "yes"

    def names(self, row, *data):
        return "yes" if row in self.rows and self.read(data) == self.rows[row] else "no"

    def write(self, row, room):
        memory, answer = [UNTOUCHED] * room, "none"
        if row in self.rows and room >= self.widest:
            data = self.spell(self.rows[row])
            memory[:len(data)] = data
            answer = str(len(data))
        while memory and memory[-1] == UNTOUCHED:
            memory.pop()
        return answer + "".join(f".{b}" for b in memory)


def ports(mask):
    return [p for p in range(8) if mask >> p & 1]


def lowest(last, board, permitted, free):
    return ports(permitted)[0]


def lowest_free(last, board, permitted, free):
    return (sorted(set(ports(permitted)) & set(ports(free))) or ports(permitted))[0]


def turning(last, board, permitted, free):
    before = last.get(board, 7)
    pick = min(ports(permitted), key=lambda p: (p - before - 1) % 8)
    if board < 128:
        last[board] = pick
    return pick


class Bench:
    """Both books and all policies; `answer` says what the program prints for a line."""

    def __init__(self):
        self.new()

    def new(self):
        self.books = [Book(127, path_list, list), Book(254, run_list, run_bytes)]
        self.last = {}
        return "new"

    def offer(self, board, _, permitted, free):
        rules = (lowest, lowest_free, turning)
        return " ".join(str(rule(self.last, board, permitted, free) if permitted else 0) for rule in rules)

    def answer(self, line):
        name, *numbers = line.split()
        numbers = list(map(int, numbers))
        if name in ("new", "offer"):
            return getattr(self, name)(*numbers)
        return " ".join(getattr(book, name)(*numbers) for book in self.books)


def main():
    bench = Bench()
    for line in sys.stdin:
        print(bench.answer(line))


if __name__ == "__main__":
    main()
