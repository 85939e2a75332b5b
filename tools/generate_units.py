#!/usr/bin/env python3
"""Writes the input of the program `unit_cases`: calls on address books and offers to policies, one to a
line: a word and numbers below 256.

    generate_units.py > crates/unit_cases/stdin

The same seed gives the same lines on every machine.
"""
import itertools
import random

SEED = 20261118


def call(name, *numbers):
    return " ".join(map(str, (name, *numbers)))


def runs(rng, ports):
    """Pairs that spell the ports, the runs cut at random."""
    data = []
    for port, group in itertools.groupby(ports):
        left = len(list(group))
        while left:
            count = rng.randint(1, left)
            data += [port, count]
            left -= count
    return data


def damaged(rng, data):
    data = list(data)
    at = rng.randrange(len(data) + 1)
    kind = rng.randrange(4)
    if kind == 0:
        data.insert(at, rng.choice([0, 1, 7, 8, 127, 128, 255]))
    elif data:
        at = min(at, len(data) - 1)
        if kind == 1:
            del data[at]
        else:
            data[at] = rng.choice([0, 1, 2, 7, 8, 126, 127, 128, 255])
    return data


def some_bytes(rng, lists, row):
    """Bytes that spell the row's list, or another's, in one book or the other; or damaged; or anything."""
    choice = rng.randrange(8)
    if choice < 6 and lists:
        near = lists[row] if choice < 4 and row in lists else rng.choice(list(lists.values()))
        data = runs(rng, near) if rng.random() < 0.6 else list(near)
        return damaged(rng, data) if choice in (3, 5) else data
    if choice == 6:
        return [rng.choice([0, 1, 2, 7, 8]) for _ in range(rng.randrange(7))]
    return [rng.randrange(256) for _ in range(rng.randrange(6))]


CALLS = {"start": 2, "extend": 9, "depth": 2, "shared": 3, "spells": 2, "names": 6, "write": 4, "clear": 0.5}


def script(rng):
    """Calls on one new pair of books."""
    yield "new"
    rows = rng.sample([0, 1, 2, 3, 5, 64, 126, 127], 3) + [rng.choice([4, 128, 255])]
    some_ports = rng.choice([[1], [0, 7], [0, 1, 2, 3, 4, 5, 6, 7], [3, 4, 8]])
    yield call("start", rows[0])
    lists = {rows[0]: []}
    for _ in range(rng.randrange(4, 24)):
        row, port = rng.choice(rows), rng.choice(some_ports)
        source = rng.choice(list(lists)) if lists and rng.random() < 0.8 else rng.choice(rows)
        name = rng.choices(list(CALLS), CALLS.values())[0]
        if name == "clear":
            lists = {}
            yield "clear"
        elif name == "start":
            if row < 128:
                lists[row] = []
            yield call("start", row)
        elif name == "extend":
            row = source if rng.random() < 0.3 else row
            for _ in range(rng.choice([1, 1, 1, 2, 5, 40]) if row == source else 1):
                if row < 128 and source in lists and len(lists[source]) < 127 and port < 8:
                    lists[row] = lists[source] + [port]
                yield call("extend", row, source, port)
        elif name == "depth":
            yield call("depth", row)
        elif name == "shared":
            yield call("shared", row, source)
        elif name == "spells":
            yield call("spells", *some_bytes(rng, lists, row))
        elif name == "names":
            row = source if rng.random() < 0.5 else row
            yield call("names", row, *some_bytes(rng, lists, row))
        else:
            yield call("write", source if rng.random() < 0.7 else row, rng.choice([0, 126, 127, 128, 253, 254, 254, 255]))


def edges():
    """The edges of the rules: rows, lengths, ports, counts, and one list cut in many ways."""
    yield from ["new", "start 0"] + ["extend 0 0 1"] * 4
    for data in ([1, 4], [1, 2, 1, 2], [1, 1] * 4, [1, 3], [1, 5], [1, 4, 0, 0], [1, 0, 1, 4], [1, 4, 1], [1, 1, 1, 1], [1] * 3):
        yield call("names", 0, *data)
        yield call("spells", *data)
    yield from ["write 0 254", "write 0 127", "write 0 126"]
    for data in ([], [0], [7], [8], [0, 1], [7, 1], [8, 1], [7, 0], [7, 127], [7, 128], [7, 255], [7, 64, 7, 64], [7, 64, 7, 63], [3] * 127, [3] * 128, [3, 1] * 127, [3, 1] * 128):
        yield call("spells", *data)
        yield call("names", 0, *data)
        yield call("names", 1, *data)
    yield from ["new", "start 5"] + ["extend 5 5 3"] * 127
    yield from ["depth 5", "extend 5 5 3", "extend 6 5 0", "depth 5", "depth 6", "write 5 127", "write 5 126", "write 5 254", "write 5 253"]
    for data in ([3] * 127, [3] * 126, [3] * 128, [3, 127], [3, 64, 3, 63], [3, 128], [3, 126], [3, 1] * 127):
        yield call("names", 5, *data)
    yield from ["new", "start 0"] + [call("extend", 0, 0, k % 2) for k in range(127)] + ["write 0 254", "depth 0"]
    yield from ["new", "start 0", "names 0", "names 1", "spells", "write 0 254", "write 1 254", "depth 0", "depth 1", "shared 0 0", "shared 0 1", "shared 1 0"]
    yield from ["new", "start 127", "start 128", "start 255", "extend 127 127 7", "extend 127 127 8", "extend 128 127 7", "extend 3 128 7", "extend 3 4 7", "depth 127", "depth 128", "shared 127 127", "shared 127 128", "clear", "depth 127", "shared 127 127"]
    yield from ["new", "start 1", "extend 1 1 2", "extend 2 1 3", "extend 3 2 3", "extend 4 3 2", "extend 4 4 2", "write 4 254", "shared 3 4", "shared 2 4", "shared 1 4", "start 4", "shared 3 4"]


def offers(rng):
    """Offers to new policies."""
    yield "new"
    boards = rng.sample([0, 1, 2, 63, 126, 127, 128, 200, 255], rng.randint(1, 3))
    masks = rng.choice([[rng.randrange(256)], [rng.randrange(256), rng.randrange(256)], range(256), [0, 1, 128, 255]])
    for _ in range(rng.randrange(1, 30)):
        permitted = rng.choice(masks)
        free = permitted & rng.randrange(256) if rng.random() < 0.8 else rng.randrange(256)
        yield call("offer", rng.choice(boards), rng.randrange(256), permitted, free)


def offer_edges():
    """Every mask, and one board going round: 127 remembers its last pick, 128 does not."""
    yield "new"
    for mask in range(256):
        yield call("offer", mask % 128, 0, mask, mask & 170)
    for board in (127, 128):
        yield "new"
        for mask in [255] * 17 + [90] * 9 + [0] + [90] * 3 + [128] * 2 + [129] * 3:
            yield call("offer", board, 0, mask, 0)


def lines(rng, books, policies):
    yield from edges()
    for _ in range(books):
        yield from script(rng)
    yield from offer_edges()
    for _ in range(policies):
        yield from offers(rng)


def main():
    for line in lines(random.Random(SEED), 800, 400):
        print(line)


if __name__ == "__main__":
    main()
