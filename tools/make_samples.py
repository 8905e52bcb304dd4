#!/usr/bin/env python3
"""Makes the bundled run of samples and the two lists of setting words that go with it.

    tools/make_samples.py SUPPRESSED RAW SAMPLES

writes the setting words of zero suppression to SUPPRESSED, those of processed raw to RAW, and 1,230 Clocks of
twelve samples, little-endian 16-bit numbers, to SAMPLES. Always the same: the noise comes from a fixed seed.

Fibres 0 to 5 read all their strips, fibres 6 to 10 sixteen of each chip. What is wrong on purpose:
fibre 6 has a bad error bit on its left chip, fibre 7 another header on its right chip, fibre 8 begins its
frames ten samples late and so is never in step, fibre 9 is inverted, fibre 10 reads its left chip alone and
fibre 11 neither.
"""
import random
import struct
import sys

FIBRES = 12
QUIET, TICK, FRAME = 'quiet', 'tick', 'frame'
LOW, HIGH = 100, 700
LATE, INVERTED, OFF = 8, 9, 11

# what comes down the line, and how many samples each takes
LINE = [(QUIET, 30), (TICK, 70), (TICK, 70), (TICK, 70), (FRAME, 280), (FRAME, 280), (TICK, 70), (FRAME, 280), (TICK, 70), (QUIET, 10)]
HEADERS = [0x5A, 0x5B, 0x80]


def strip_of_place(place):
    n = place // 2
    return 128 * (place % 2) + 32 * (n % 4) + 8 * (n // 4 % 4) + n // 16


def enable_of(fibre):
    return {10: 2, OFF: 0}.get(fibre, 3)


def is_valid(fibre, strip):
    return (fibre < 6 and strip % 64 != 13) or (6 <= fibre <= 10 and strip % 128 < 16)


def pedestal_of(fibre, strip):
    return 80 + (7 * strip + 13 * fibre) % 60


def words(mode):
    yield 0x10000000 | mode
    for fibre in range(FIBRES):
        yield 0x20000000 | fibre << 24 | enable_of(fibre) << 6 | (fibre == INVERTED) << 5 | 12
        yield 0x50000000 | fibre << 24 | 128
        yield 0x50010000 | fibre << 24 | 120
        for strip in range(256):
            if is_valid(fibre, strip):
                yield 0x30000000 | fibre << 24 | strip << 16 | 1 << 10 | pedestal_of(fibre, strip)
                yield 0x40000000 | fibre << 24 | strip << 16 | 25 << 8 | 12


def level_values(levels):
    return [HIGH if level else LOW for level in levels]


def frame(fibre, event, noise):
    header = HEADERS[event]
    left, right = header, header ^ (fibre == 7 and 0x10)
    levels = [1] * 6
    for bit in range(7, -1, -1):
        levels += [left >> bit & 1, right >> bit & 1]
    levels += [fibre != 6, 1]
    data = []
    for place in range(256):
        strip = strip_of_place(place)
        u = pedestal_of(fibre, strip) + 40 + 15 * event + 9 * (strip // 128) + noise.randrange(-5, 6)
        u += HITS.get((event, fibre, strip), 0)
        u = min(u, 1023)
        data.append(1023 - u if fibre == INVERTED else u)
    return level_values(levels) + data


# what hits add: single strips, pairs, one strip off scale, both sides of the gap between the chips
HITS = {
    (0, 0, 5): 60, (0, 0, 6): 90, (0, 0, 7): 14,
    (0, 1, 127): 80, (0, 1, 128): 85,
    (0, 2, 40): 16, (0, 2, 41): 17, (0, 2, 200): 1000,
    (0, 9, 3): 50, (0, 10, 4): 70,
    (1, 3, 0): 40, (1, 3, 255): 45, (1, 4, 60): 30, (1, 4, 62): 33,
    (2, 5, 100): 120, (2, 5, 101): 200, (2, 5, 102): 240, (2, 0, 13): 500,
}


def line_of(fibre, noise):
    samples, event = [], 0
    if fibre == LATE:
        samples += level_values([0] * 10)
    for what, length in LINE:
        if what == FRAME:
            samples += frame(fibre, event, noise)
            event += 1
        elif what == TICK:
            samples += level_values([1, 1] + [0] * (length - 2))
        else:
            samples += level_values([0] * length)
    total = sum(length for _, length in LINE)
    return samples[:total]


def main():
    suppressed, raw, out = sys.argv[1:]
    for path, mode in ((suppressed, 10), (raw, 18)):
        with open(path, 'w') as f:
            f.write('# setting words of the bundled run, mode %d\n' % mode)
            for word in words(mode):
                f.write('%08X\n' % word)
    noise = random.Random(2026)
    lines = [line_of(fibre, noise) for fibre in range(FIBRES)]
    with open(out, 'wb') as f:
        for clock in zip(*lines):
            f.write(struct.pack('<12H', *clock))


main()
