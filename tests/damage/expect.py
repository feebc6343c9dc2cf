#!/usr/bin/env python3
"""The recording that program `damage` is run on, and what it should print, worked out from document 01 alone.

  tests/damage/expect.py        compares crates/damage/stdin and stdout with what it works out
  tests/damage/expect.py write  writes them
"""
import os
import random
import sys

HERE = os.path.dirname(os.path.abspath(__file__))
CRATE = os.path.join(HERE, "..", "..", "crates", "damage")


def bits_of(value, width):
    return [(value >> (width - 1 - i)) & 1 for i in range(width)]


def pack(starts, stations):
    """stations: for each a list of (origin, number, level, stamp)."""
    n = len(stations)
    bits = bits_of(n, 4)
    for p in range(n):
        bits += bits_of(len(stations[p]), 8) + bits_of(starts[p] % 4096, 12)
    for events in stations:
        for origin, number, level, stamp in events:
            bits += bits_of(origin, 4) + bits_of(number, 8) + bits_of(level % 4096, 12)
            for count in stamp:
                bits += bits_of(count, 8)
    while len(bits) % 8:
        bits.append(0)
    return bytes(int("".join(map(str, bits[i : i + 8])), 2) for i in range(0, len(bits), 8))


class Short(Exception):
    pass


class Reader:
    def __init__(self, data):
        self.bits = "".join(f"{b:08b}" for b in data)
        self.at = 0

    def take(self, k):
        if self.at + k > len(self.bits):
            raise Short()
        v = int(self.bits[self.at : self.at + k], 2)
        self.at += k
        return v


def check(data):
    """The refusal number, 0 if accepted: no byte 1; 2; too short 1; too long 3; padding 4; then record by record 5, 6, 7."""
    if not data:
        return 1
    r = Reader(data)
    n = r.take(4)
    if not 1 <= n <= 8:
        return 2
    try:
        m = []
        for _ in range(n):
            m.append(r.take(8))
            r.take(12)
        stamps, records = {}, []
        for p in range(1, n + 1):
            stamps[p, 0] = [0] * n
            for e in range(1, m[p - 1] + 1):
                origin, number = r.take(4), r.take(8)
                r.take(12)
                stamps[p, e] = [r.take(8) for _ in range(n)]
                records.append((p, e, origin, number))
    except Short:
        return 1
    rest = r.bits[r.at :]
    if len(rest) >= 8:
        return 3
    if "1" in rest:
        return 4
    for p, e, origin, number in records:
        if origin > n or origin == p:
            return 5
        if origin == 0 and number != 0:
            return 6
        if origin != 0 and not 1 <= number <= m[origin - 1]:
            return 6
        want = list(stamps[p, e - 1])
        if origin:
            want = [max(a, b) for a, b in zip(want, stamps[origin, number])]
        want[p - 1] += 1
        if want != stamps[p, e]:
            return 7
    return 0


def recording():
    """Six stations (so that there is padding), forty events, messages in and out of sending order."""
    rng = random.Random(20)
    n = 6
    starts = [rng.randint(-2048, 2047) for _ in range(n)]
    events = [[] for _ in range(n)]
    stamps = [[[0] * n] for _ in range(n)]
    for _ in range(40):
        p = rng.randrange(n)
        q = rng.randrange(n)
        stamp = list(stamps[p][-1])
        origin = number = 0
        if q != p and len(stamps[q]) > 1 and rng.random() < 0.6:
            origin, number = q + 1, rng.randint(1, len(stamps[q]) - 1)
            stamp = [max(a, b) for a, b in zip(stamp, stamps[q][number])]
        stamp[p] += 1
        stamps[p].append(stamp)
        events[p].append((origin, number, rng.randint(-2048, 2047), stamp))
    return pack(starts, events)


def counts(replies):
    table = {}
    for k in replies:
        table[k] = table.get(k, 0) + 1
    return "".join(f"{k} {table[k]}\n" for k in sorted(table))


def expected(data):
    cut = [check(data[:k]) for k in range(len(data))]
    flips = [check(data[:i] + bytes([data[i] ^ (1 << b)]) + data[i + 1 :]) for i in range(len(data)) for b in range(8)]
    return "cut short\n" + counts(cut) + "one bit flipped\n" + counts(flips)


def main():
    data = recording()
    assert check(data) == 0
    text = expected(data).encode()
    if sys.argv[1:] == ["write"]:
        open(os.path.join(CRATE, "stdin"), "wb").write(data)
        open(os.path.join(CRATE, "stdout"), "wb").write(text)
        return
    same = open(os.path.join(CRATE, "stdin"), "rb").read() == data and open(os.path.join(CRATE, "stdout"), "rb").read() == text
    print("the stored files are what was worked out" if same else "the stored files differ from what was worked out")
    sys.exit(0 if same else 1)


main()
