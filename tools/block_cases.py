#!/usr/bin/env python3
"""Writes crates/block_cases/stdin and stdout: random lists of values with their blocks in the encodings, made here from the
description in docs/FORMATS.md. bench/blocks.py takes its blocks for measurements.
"""
import random
from datetime import date


def vint(n):
    out = b""
    while n >= 128:
        out += bytes([n % 128 + 128])
        n //= 128
    return out + bytes([n])


def value(v):
    if v is None:
        return b"\0"
    if v is True or v is False:
        return b"\4" if v else b"\3"
    if isinstance(v, int):
        return b"\1" + v.to_bytes(8, "big", signed=True)
    if isinstance(v, date):
        return b"\5" + v.toordinal().to_bytes(4, "big")
    return b"\2" + len(v).to_bytes(4, "big") + v


def rank(v):
    """The order of values: NULL, false, true, numbers, dates, texts by their bytes."""
    if v is None:
        return (0,)
    if v is True or v is False:
        return (1, v)
    if isinstance(v, int):
        return (2, v)
    return (3, v) if isinstance(v, date) else (4, v)


def same(a, b):
    return rank(a) == rank(b)


def plain(vs):
    return b"\4" + vint(len(vs)) + b"".join(map(value, vs))


def rle(vs):
    runs = []
    for v in vs:
        if runs and same(runs[-1][0], v):
            runs[-1][1] += 1
        else:
            runs.append([v, 1])
    return b"\1" + vint(len(runs)) + b"".join(value(v) + vint(n) for v, n in runs)


def deltas(ns, base):
    return b"".join(vint(0 if n is None else n - base + 1) for n in ns)


def delta(vs):
    """Of numbers and NULL, or of dates and NULL with another tag."""
    kinds = {rank(v)[0] for v in vs} - {0}
    if kinds == {3}:
        days = [None if v is None else v.toordinal() for v in vs]
        base = min(n for n in days if n is not None)
        return b"\5" + vint(len(vs)) + base.to_bytes(4, "big") + deltas(days, base)
    if kinds - {2}:
        return None
    base = min((v for v in vs if v is not None), default=0)
    return b"\2" + vint(len(vs)) + base.to_bytes(8, "big", signed=True) + deltas(vs, base)


def dictionary(vs):
    words = []
    for v in sorted(vs, key=rank):
        if not words or not same(words[-1], v):
            words.append(v)
    places = {rank(v): i for i, v in enumerate(words)}
    return b"\3" + vint(len(words)) + b"".join(map(value, words)) + vint(len(vs)) + b"".join(vint(places[rank(v)]) for v in vs)


def line(vs):
    blocks = [rle(vs), delta(vs), dictionary(vs), plain(vs)]
    auto = min((len(b), b[0]) for b in blocks if b is not None)[1]
    return " ".join("-" if b is None else b.hex() for b in (blocks[3], blocks[0], blocks[1], blocks[2])) + f" {auto}"


GREATEST = 2**63 - 1


def lists(r):
    small = lambda: r.randrange(-3, 4)
    any_int = lambda: r.choice([0, 1, -1, 127, 128, GREATEST, -GREATEST, r.randrange(-GREATEST, GREATEST + 1)])
    text = lambda: r.choice([b"", b"a", b"b", b"ab", "é".encode(), b"north", b"south"])
    truth = lambda: r.choice([True, False])
    near = lambda: date(2024, 2, r.randrange(1, 30))
    any_day = lambda: r.choice([date.min, date.max, date(1970, 1, 1), date.fromordinal(r.randrange(1, date.max.toordinal() + 1))])
    anything = lambda: r.choice([None, small, any_int, text, truth, near, any_day])
    for _ in range(1500):
        length = r.choice([1, 1, 2, 3, 4, 5, 8, 13])
        make = r.choice([small, any_int, text, truth, near, any_day, lambda: None, "mixed", "runs", "rising", "days"])
        nulls = r.choice([0, 0, 0.2])
        if make == "mixed":
            kinds = [anything() for _ in range(length)]
            vs = [k() if callable(k) else k for k in kinds]
        elif make == "runs":
            v, vs = small(), []
            for _ in range(length * 3):
                if r.random() < 0.3:
                    v = r.choice([small, text, truth, near])()
                vs.append(v)
        elif make == "rising":
            start = any_int() // 2
            vs = [start + i * r.choice([1, 1, 100]) for i in range(length)]
        elif make == "days":
            start = r.randrange(1, date.max.toordinal() - 10**5)
            vs = [None if r.random() < nulls else date.fromordinal(start + i * r.choice([1, 1, 100, 7000])) for i in range(length)]
        else:
            vs = [None if r.random() < nulls else make() for _ in range(length)]
        yield vs
    yield [date(2024, 1, 1), date(2024, 1, 3)]
    yield [7] * 1024
    yield list(range(1024))
    yield [i % 130 for i in range(1024)]
    yield [None] * 1024
    yield [b"x%d" % (i % 5) for i in range(300)]
    yield [date.fromordinal(738_000 + i) for i in range(1024)]
    yield [None if i % 9 == 0 else date.fromordinal(1 + i * i * 3) for i in range(1024)]


def speed(name):
    """The PLAIN block of 1,024 numbers of the kind that an encoding is for."""
    r = random.Random(5)
    kinds = {
        "RLE": [i // 64 for i in range(1024)],
        "DELTAVAL": [r.randrange(10**6, 2 * 10**6) for _ in range(1024)],
        "BLOCK_DICT": [r.randrange(40) * 10**9 for _ in range(1024)],
        "PLAIN": [r.randrange(-(10**15), 10**15) for _ in range(1024)],
    }
    kinds["AUTO"] = kinds["DELTAVAL"]
    return plain(kinds[name]).hex()


def main():
    lines = [line(vs) for vs in lists(random.Random(11))]
    with open("crates/block_cases/stdin", "w") as out:
        out.write("\n".join(lines) + "\n")
    with open("crates/block_cases/stdout", "w") as out:
        out.write(f"{len(lines)} lists, 0 wrong\n")


if __name__ == "__main__":
    main()
