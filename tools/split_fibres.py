#!/usr/bin/env python3
"""Splits vectors of fibres into what the program `fibres` reads and what it must print.

    tools/split_fibres.py VECTORS QUESTIONS ANSWERS

VECTORS has a block of `name value ..` lines for each fibre and an empty line behind it. The lines EA, F2 and E6 are
the fibre's records as hexadecimal bytes: they go to ANSWERS, as `block N EA ..`, and all other lines to QUESTIONS.
The program has no part in it.
"""
import sys

RECORDS = ("EA", "F2", "E6")


def main():
    if len(sys.argv) != 4:
        sys.exit("usage: split_fibres.py VECTORS QUESTIONS ANSWERS")
    with open(sys.argv[1]) as vectors:
        lines = vectors.read().splitlines()
    block = 0
    with open(sys.argv[2], "w") as questions, open(sys.argv[3], "w") as answers:
        for line in lines:
            name = line.split(" ")[0]
            if name in RECORDS:
                answers.write("block %d %s\n" % (block, line))
            else:
                questions.write(line + "\n")
            if not line:
                block += 1


main()
