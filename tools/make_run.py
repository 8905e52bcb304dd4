#!/usr/bin/env python3
"""Makes the bundled stored run and the text that `keep` prints for it.

    tools/make_run.py RUN TEXT

writes the bytes to RUN and the text to TEXT, both from the lists below. The program has no part in it.
"""
import sys

FIBRES = 12
STRIPS = 256


def zero_suppressed(left, right, clusters=()):
    """A record of two common modes and clusters (first strip, values): its bytes and its lines."""
    body = [left % 256, left // 256, right % 256, right // 256]
    lines = ["zero-suppressed, common modes %d %d" % (left, right)]
    for first, values in clusters:
        body += [first, len(values)] + list(values)
        last = first + len(values) - 1
        lines.append("  strips %d..%d: %s" % (first, last, " ".join(str(v) for v in values)))
    return record(0xEA, body), lines


def raw(code, name, words):
    """A record of 256 words: its bytes and its lines."""
    assert len(words) == STRIPS
    body = [byte for w in words for byte in (w % 256, w // 256)]
    lines = [name]
    for first in range(0, STRIPS, 16):
        lines.append("  %3d: %s" % (first, " ".join("%4d" % w for w in words[first:first + 16])))
    return record(code, body), lines


def processed_raw(words):
    return raw(0xF2, "processed raw", words)


def virgin_raw(words):
    return raw(0xE6, "virgin raw", words)


def record(code, body):
    size = 3 + len(body)
    return bytes([size % 256, size // 256, code] + body)


EMPTY = zero_suppressed(0, 0)

# Clusters of one strip and of many, on both chips, one that ends at 127 before one that begins at 128,
# the least gap of two free strips, a chip that is one cluster, and the largest common modes and values.
CLUSTERS = [
    zero_suppressed(100, 300, [(5, [30, 40])]),
    EMPTY,
    zero_suppressed(1023, 0, [(0, [255])]),
    zero_suppressed(0, 1023, [(255, [1])]),
    zero_suppressed(412, 398, [(124, [9, 60, 44, 12]), (128, [7, 81, 20])]),
    zero_suppressed(256, 255, [(10, [3, 17, 5]), (15, [22]), (18, [0, 8]), (200, [11, 12, 13, 14, 15])]),
    zero_suppressed(500, 501, [(0, [(3 * i + 1) % 256 for i in range(128)])]),
    zero_suppressed(502, 503, [(128, [255 - i for i in range(128)])]),
    zero_suppressed(77, 78, [(0, [i % 7 for i in range(128)]), (128, [i % 5 for i in range(128)])]),
    EMPTY,
    zero_suppressed(1, 2, [(i, [i // 3]) for i in range(0, 255, 3)]),
    zero_suppressed(640, 320, [(126, [90, 91]), (254, [92, 93])]),
]

QUIET = [zero_suppressed(330 + f, 340 + f) for f in range(FIBRES)]

FLAT = [processed_raw([(300 + 16 * f + (s % 9)) % 1024 for s in range(STRIPS)]) for f in range(FIBRES)]

SAMPLES = [virgin_raw([(37 * s + 101 * f) % 1024 for s in range(STRIPS)]) for f in range(FIBRES)]

LAST = [zero_suppressed(100 + f, 200 + f, [(10 * f, [f, 2 * f, 3 * f])]) for f in range(FIBRES)]

RUN = [CLUSTERS, QUIET, FLAT, SAMPLES, LAST]


def column(records):
    yield "fibre   bytes"
    for fibre, (data, _) in enumerate(records):
        yield "%5d%8d" % (fibre, len(data))


def text(run):
    total = 0
    for number, records in enumerate(run):
        size = sum(len(data) for data, _ in records)
        total += size
        yield "event %d: %d bytes" % (number, size)
        yield from column(records)
        for fibre, (_, lines) in enumerate(records):
            yield "fibre %d: %s" % (fibre, lines[0])
            yield from lines[1:]
    yield "%d events, %d bytes" % (len(run), total)


def main():
    if len(sys.argv) != 3:
        sys.exit("usage: make_run.py RUN TEXT")
    with open(sys.argv[1], "wb") as out:
        for records in RUN:
            for data, _ in records:
                out.write(data)
    with open(sys.argv[2], "w") as out:
        for line in text(RUN):
            out.write(line + "\n")


main()
