#!/usr/bin/env python3
"""Write tests/viewer/vectors.txt: plan bytes with the answers that the specification asks for.

The answers come from the plain reader below, which shares nothing with the library, and the cases that a person can
check by hand are written with their answers, which must agree with it. Run: make_vectors.py > vectors.txt
A line is: refusal number, read figure, write figure, the bytes in hexadecimal ("-" for none), and a word on the case.
"""
import random

SHORT, PROCESSORS, RESOURCES, ENTRIES, KIND, SET, LENGTH = 1, 3, 4, 5, 6, 7, 8


def read(data):
    """The refusal number, the read figure and the write figure of plan bytes."""
    limits = ((PROCESSORS, 32), (RESOURCES, 64), (ENTRIES, 64))
    counts = []
    for place, (number, most) in enumerate(limits):
        if place >= len(data):
            return SHORT, 0, 0
        if not 1 <= data[place] <= most:
            return number, 0, 0
        counts.append(data[place])
    processors, resources, entries = counts
    longest = {0: 0, 1: 0}
    for i in range(entries):
        entry = data[3 + 11 * i : 14 + 11 * i]
        if len(entry) < 11:
            return SHORT, 0, 0
        kind, names, ticks = entry[0], int.from_bytes(entry[1:9], "little"), int.from_bytes(entry[9:11], "little")
        if kind > 1:
            return KIND, 0, 0
        if names == 0 or any(names >> r & 1 for r in range(resources, 64)):
            return SET, 0, 0
        if ticks == 0:
            return LENGTH, 0, 0
        longest[kind] = max(longest[kind], ticks)
    figure = longest[0] + longest[1]
    return 0, figure, (processors - 1) * figure


def entry(kind, names, ticks):
    return bytes([kind]) + names.to_bytes(8, "little") + ticks.to_bytes(2, "little")


def plan(processors, resources, entries):
    return bytes([processors, resources, len(entries)]) + b"".join(entries)


def by_hand():
    """Cases whose answers are written here, worked out by hand."""
    f = plan(4, 3, [entry(1, 4, 30), entry(1, 6, 20), entry(1, 1, 40), entry(0, 3, 10), entry(0, 4, 5)])
    one = entry(0, 1, 7)
    yield "plan F", f, (0, 50, 150)
    yield "plan F and more bytes", f + bytes([9, 9, 9]), (0, 50, 150)
    for end in range(len(f)):
        yield f"plan F cut after {end} bytes", f[:end], (1, 0, 0)
    yield "nothing", b"", (1, 0, 0)
    for m, answer in ((0, (3, 0, 0)), (1, (0, 7, 0)), (2, (0, 7, 7)), (16, (0, 7, 105)), (17, (0, 7, 112)), (32, (0, 7, 217)), (33, (3, 0, 0)), (255, (3, 0, 0))):
        yield f"{m} processors", plan(m, 1, [one]), answer
    for n, answer in ((0, (4, 0, 0)), (1, (0, 7, 7)), (64, (0, 7, 7)), (65, (4, 0, 0)), (255, (4, 0, 0))):
        yield f"{n} resources", plan(2, n, [one]), answer
    yield "no entry", bytes([2, 1, 0]), (5, 0, 0)
    yield "64 entries, 707 bytes", plan(2, 1, [one] * 64), (0, 7, 7)
    yield "64 entries, 706 bytes", plan(2, 1, [one] * 64)[:-1], (1, 0, 0)
    yield "64 entries, 708 bytes", plan(2, 1, [one] * 64) + b"\1", (0, 7, 7)
    yield "65 entries", plan(2, 1, [one] * 65), (5, 0, 0)
    yield "255 entries counted, none there", bytes([2, 1, 255]), (5, 0, 0)
    for kind, answer in ((0, (0, 3, 3)), (1, (0, 3, 3)), (2, (6, 0, 0)), (255, (6, 0, 0))):
        yield f"kind {kind}", plan(2, 1, [entry(kind, 1, 3)]), answer
    yield "empty set", plan(2, 3, [entry(0, 0, 3)]), (7, 0, 0)
    yield "bit 63 of 64 resources", plan(2, 64, [entry(0, 1 << 63, 3)]), (0, 3, 3)
    yield "bit 63 of 63 resources", plan(2, 63, [entry(0, 1 << 63, 3)]), (7, 0, 0)
    yield "all 64 resources", plan(2, 64, [entry(1, (1 << 64) - 1, 3)]), (0, 3, 3)
    yield "all 64 bits of 63 resources", plan(2, 63, [entry(1, (1 << 64) - 1, 3)]), (7, 0, 0)
    for n in range(1, 65):
        yield f"highest of {n} resources", plan(2, n, [entry(1, 1 << (n - 1), 3)]), (0, 3, 3)
        if n < 64:
            yield f"one above {n} resources", plan(2, n, [entry(1, 1 << n, 3)]), (7, 0, 0)
    for ticks, answer in ((0, (8, 0, 0)), (1, (0, 1, 1)), (255, (0, 255, 255)), (256, (0, 256, 256)), (65535, (0, 65535, 65535))):
        yield f"length {ticks}", plan(2, 1, [entry(0, 1, ticks)]), answer
    largest = [entry(0, 1, 65535), entry(1, 1, 65535)]
    yield "largest figures", plan(32, 1, largest), (0, 131070, 4063170)
    yield "3 before 4", bytes([0, 0, 0]), (3, 0, 0)
    yield "4 before 5", bytes([1, 0, 0]), (4, 0, 0)
    yield "3 before short", bytes([0]), (3, 0, 0)
    yield "4 before short", bytes([1, 65]), (4, 0, 0)
    yield "5 before an entry's fault", bytes([1, 1, 65]) + entry(2, 0, 0), (5, 0, 0)
    yield "6 before 7 and 8", plan(1, 1, [entry(2, 0, 0)]), (6, 0, 0)
    yield "7 before 8", plan(1, 1, [entry(1, 0, 0)]), (7, 0, 0)
    yield "an entry short before its kind", plan(1, 1, [entry(2, 0, 0)])[:-1], (1, 0, 0)
    yield "8 of an earlier entry before 6 of a later", plan(1, 1, [entry(1, 1, 0), entry(2, 1, 1)]), (8, 0, 0)
    yield "8 of an earlier entry before short", plan(1, 1, [entry(1, 1, 0), one])[:-1], (8, 0, 0)
    yield "a fault past the count", plan(2, 1, [one]) + entry(2, 0, 0), (0, 7, 7)
    yield "reads alone", plan(3, 2, [entry(0, 1, 4), entry(0, 2, 9)]), (0, 9, 18)
    yield "writes alone", plan(3, 2, [entry(1, 1, 4), entry(1, 2, 9)]), (0, 9, 18)


def at_random(count):
    """Plans of any size, half of them damaged, with the answers of the reader above."""
    rng = random.Random(20261115)
    for i in range(count):
        resources = rng.randint(1, 64)
        entries = [
            entry(rng.randint(0, 1), rng.randint(1, (1 << resources) - 1), rng.randint(1, 65535))
            for _ in range(rng.choice((1, 2, 5, 20, 64)))
        ]
        data = bytearray(plan(rng.randint(1, 32), resources, entries))
        if i % 2:
            for _ in range(rng.randint(1, 3)):
                data[rng.randrange(len(data))] = rng.choice((0, 1, 2, 33, 65, 255))
            if rng.random() < 0.3:
                del data[rng.randrange(len(data)) :]
        yield f"random {i}", bytes(data), read(data)


def main():
    for word, data, answer in by_hand():
        assert read(data) == answer, (word, read(data), answer)
        print(*answer, data.hex() or "-", word)
    for word, data, answer in at_random(200):
        print(*answer, data.hex() or "-", word)


main()
