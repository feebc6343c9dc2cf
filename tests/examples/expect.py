#!/usr/bin/env python3
"""The jobs of program `examples` and what it should print, and the files of program `verdicts`, worked out from document 01 alone.

  tests/examples/expect.py              compares crates/examples/stdin and stdout, crates/verdicts/stdin and stdout with what it works out
  tests/examples/expect.py write        writes them
  tests/examples/expect.py reply < job  prints the reply to a job
"""
import itertools
import os
import sys

HERE = os.path.dirname(os.path.abspath(__file__))
CRATES = os.path.join(HERE, "..", "..", "crates")


# Reading a job.

class Refused(Exception):
    def __init__(self, number, station=0, event=0):
        self.reply = (number, station, event)


def field(data, at, k):
    """The k bits from bit `at` on, most significant first."""
    whole = int.from_bytes(data, "big")
    return (whole >> (8 * len(data) - at - k)) & ((1 << k) - 1)


def signed(value, k):
    return value - (1 << k) if value >> (k - 1) else value


class Condition:
    def __init__(self, data):
        """The first 38 bytes of a job."""
        self.kind, self.k = field(data, 0, 2), field(data, 2, 6)
        self.low, self.high = signed(field(data, 8, 16), 16), signed(field(data, 24, 16), 16)
        self.asked = [field(data, 40 + p, 1) == 1 for p in range(8)]
        self.windows = [
            (signed(field(data, 48 + 32 * p, 16), 16), signed(field(data, 64 + 32 * p, 16), 16)) for p in range(8)
        ]

    def in_order(self):
        if self.kind == 3 or self.k > 8:
            return False
        if self.kind != 1 and self.k != 0:
            return False
        if self.kind != 2 and (self.low, self.high) != (0, 0):
            return False
        if self.low > self.high:
            return False
        for asked, (low, high) in zip(self.asked, self.windows):
            if (self.kind == 2 or not asked) and (low, high) != (0, 0):
                return False
            if low > high:
                return False
        return True

    def holds(self, levels):
        asked = [p for p in range(8) if self.asked[p]]
        inside = [p for p in asked if self.windows[p][0] <= levels[p] <= self.windows[p][1]]
        if self.kind == 0:
            return len(inside) == len(asked)
        if self.kind == 1:
            return len(inside) >= self.k
        return self.low <= sum(levels[p] for p in asked) <= self.high


class Recording:
    def __init__(self, data):
        if not data:
            raise Refused(1)
        bits = 8 * len(data)
        self.n = n = field(data, 0, 4)
        if not 1 <= n <= 8:
            raise Refused(2)
        header = 4 + 20 * n
        if bits < header:
            raise Refused(1)
        self.m = [field(data, 4 + 20 * p, 8) for p in range(n)]
        size = 24 + 8 * n
        end = header + size * sum(self.m)
        if bits < end:
            raise Refused(1)
        if bits - end >= 8:
            raise Refused(3)
        if bits > end and field(data, end, bits - end):
            raise Refused(4)
        self.level = [[signed(field(data, 12 + 20 * p, 12), 12)] for p in range(n)]
        self.stamp = [[[0] * n] for p in range(n)]
        messages = []
        at = header
        for p in range(n):
            for e in range(1, self.m[p] + 1):
                record = field(data, at, size)
                counts = [(record >> 8 * (n - 1 - q)) & 255 for q in range(n)]
                head = record >> 8 * n
                messages.append((p, e, head >> 20, (head >> 12) & 255))
                self.level[p].append(signed(head & 4095, 12))
                self.stamp[p].append(counts)
                at += size
        for p, e, origin, number in messages:
            self.check(p, e, origin, number)

    def check(self, p, e, origin, number):
        """The event e of the station at place p: 5, 6, 7."""
        place = (p + 1, e)
        if origin > self.n or origin == p + 1:
            raise Refused(5, *place)
        if origin == 0 and number != 0:
            raise Refused(6, *place)
        if origin != 0 and not 1 <= number <= self.m[origin - 1]:
            raise Refused(6, *place)
        rule = list(self.stamp[p][e - 1])
        if origin:
            rule = [max(pair) for pair in zip(rule, self.stamp[origin - 1][number])]
        rule[p] += 1
        if rule != self.stamp[p][e]:
            raise Refused(7, *place)

    def consistent(self, cut):
        return all(self.stamp[p][cut[p]][q] <= cut[q] for p in range(self.n) for q in range(self.n) if p != q)


# The verdicts.

def cuts(m):
    """All cuts in the order of their ranks: station 1 moves fastest."""
    for back in itertools.product(*(range(k + 1) for k in reversed(m))):
        yield back[::-1]


def stepped(cut, p, by):
    return cut[:p] + (cut[p] + by,) + cut[p + 1 :]


def verdicts(condition, recording):
    """The witness or None, and the path or None where Def is yes."""
    n, m = recording.n, recording.m
    witness = None
    avoiding = set()
    for cut in cuts(m):
        if not recording.consistent(cut):
            continue
        levels = [recording.level[p][cut[p]] for p in range(n)] + [0] * (8 - n)
        if condition.holds(levels):
            witness = witness or cut
        elif sum(cut) == 0 or any(cut[p] and stepped(cut, p, -1) in avoiding for p in range(n)):
            avoiding.add(cut)
    full = tuple(m)
    if full not in avoiding:
        return witness, None
    backwards = []
    cut = full
    while sum(cut):
        p = min(p for p in range(n) if cut[p] and stepped(cut, p, -1) in avoiding)
        backwards.append(p + 1)
        cut = stepped(cut, p, -1)
    return witness, backwards[::-1]


def judged(job):
    if len(job) < 38:
        raise Refused(1)
    condition = Condition(job[:38])
    if not condition.in_order():
        raise Refused(8)
    recording = Recording(job[38:])
    if any(condition.asked[recording.n :]):
        raise Refused(9)
    box = 1
    for k in recording.m:
        box *= k + 1
    if box > 65536:
        raise Refused(10)
    return verdicts(condition, recording)


def line(words, numbers):
    return words + "".join(f" {x}" for x in numbers) + "\n"


def reply(job):
    """The printed text of the reply to a job."""
    try:
        witness, path = judged(job[:22500])
    except Refused as refusal:
        return line("refused", refusal.reply)
    poss = line("poss no", []) if witness is None else line("poss yes", witness)
    return poss + (line("def yes", []) if path is None else line("def no", path))


# The examples.

def packed(fields):
    """(value, bits) pairs one behind the other, and zero bits up to a whole byte."""
    text = "".join(format(value % (1 << k), f"0{k}b") for value, k in fields)
    text += "0" * (-len(text) % 8)
    return bytes(int(text[i : i + 8], 2) for i in range(0, len(text), 8))


def condition(kind, k=0, low=0, high=0, windows=None, asked=()):
    """windows: those of the asked stations."""
    windows = windows or {}
    asked = set(asked) | set(windows)
    fields = [(kind, 2), (k, 6), (low, 16), (high, 16)] + [(int(s in asked), 1) for s in range(1, 9)]
    for s in range(1, 9):
        fields += [(end, 16) for end in windows.get(s, (0, 0))]
    return packed(fields)


def recording(starts, events):
    """events: for each station a list of (origin, sender's number, level, stamp)."""
    n = len(starts)
    fields = [(n, 4)]
    for start, own in zip(starts, events):
        fields += [(len(own), 8), (start, 12)]
    for own in events:
        for origin, number, level, stamp in own:
            fields += [(origin, 4), (number, 8), (level, 12)] + [(count, 8) for count in stamp]
    return packed(fields)


def local_steps(counts, level=0):
    n = len(counts)
    return recording([level] * n, [[(0, 0, level, [e * (p == q) for q in range(n)]) for e in range(1, counts[p] + 1)] for p in range(n)])


def examples():
    first = (0, 0, 1, [1, 0])
    a = recording([0, 0], [[first], [(1, 1, 1, [1, 1])]])
    b = recording([0, 0], [[first], [(0, 0, 1, [0, 1])]])
    e = recording([0], [[]])
    nine = recording([0, 0], [[first], [(1, 1, 1, [0, 1])]])
    ten = recording([0, 0], [[(2, 1, 0, [1, 1])], [(1, 1, 0, [1, 1])]])
    eleven = recording([0, 0], [[(0, 0, 0, [1, 0])], [(1, 1, 0, [1, 1]), (1, 1, 0, [1, 2])]])
    sum_1 = condition(2, low=1, high=1, asked=[1, 2])
    sum_of_all = condition(2, low=1, high=1, asked=range(1, 9))
    high_low = condition(0, windows={1: (1, 1), 2: (0, 0)})
    low_high = condition(0, windows={1: (0, 0), 2: (1, 1)})
    lowest = local_steps([0] * 8, level=-2048)
    yield "1: A, sum 1 to 1", sum_1 + a
    yield "2: B, sum 1 to 1", sum_1 + b
    yield "3: B, station 1 at 1 together with station 2 at 0", high_low + b
    yield "4: A, station 1 at 1 together with station 2 at 0", high_low + a
    yield "5: A, station 1 at 0 together with station 2 at 1", low_high + a
    yield "6: B, station 1 at 0 together with station 2 at 1", low_high + b
    yield "7: E, Together, none asked", condition(0) + e
    yield "8: E, sum 1 to 1, none asked", condition(2, low=1, high=1) + e
    yield "9: A with station 2's stamp 0 1", sum_1 + nine
    yield "10: two receipts of each other", sum_1 + ten
    yield "11: one message received twice", sum_1 + eleven
    yield "12: counts 255, 255", sum_1 + local_steps([255, 255])
    yield "12: eight counts of 3", sum_of_all + local_steps([3] * 8)
    yield "12: counts 255, 255, 1", sum_1 + local_steps([255, 255, 1])
    yield "12: seven counts of 3 and a 4", sum_of_all + local_steps([3] * 7 + [4])
    yield "12: eight counts of 255", sum_of_all + local_steps([255] * 8)
    yield "13: eight stations at -2048, sum -16384 to -16384", condition(2, low=-16384, high=-16384, asked=range(1, 9)) + lowest
    yield "13: eight stations at -2048, sum -16383 to 16376", condition(2, low=-16383, high=16376, asked=range(1, 9)) + lowest


def part(data):
    """The bytes behind their length in two bytes, high first."""
    return len(data).to_bytes(2, "big") + data


def files():
    """The stored files, by their names."""
    table = list(examples())
    whole = table[0][1]
    jobs = b"".join(part(f"{name}\n".encode()) + part(job) for name, job in table)
    printed = "".join(f"{name}\n{reply(job)}" for name, job in table)
    return {
        "examples/stdin": jobs,
        "examples/stdout": printed.encode(),
        "verdicts/stdin": whole,
        "verdicts/stdout": reply(whole).encode(),
    }


def main():
    if sys.argv[1:] == ["reply"]:
        sys.stdout.write(reply(sys.stdin.buffer.read()))
        return
    same = True
    for name, data in files().items():
        path = os.path.join(CRATES, name)
        if sys.argv[1:] == ["write"]:
            open(path, "wb").write(data)
        else:
            same = same and open(path, "rb").read() == data
    if not sys.argv[1:]:
        print("the stored files are what was worked out" if same else "the stored files differ from what was worked out")
    sys.exit(0 if same else 1)


if __name__ == "__main__":
    main()
