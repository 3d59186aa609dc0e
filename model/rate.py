#!/usr/bin/env python3
"""The rate of the end line: hardware swaps for each 1,000 finished calls.

    rate.py < PAIRS

Reads pairs `h f`, one to a line, and prints the rate of each on a line of its
own.  Written from the papers alone, in whole numbers; see README.md.
"""

import sys

MOST = 4294967295  # "any 32-bit numbers"


def rate(h, f):
    """"h x 1000 / f" (document 01), "rounded to the nearest whole, and an exact
    half goes to the even neighbour [..] With no finished call it is still 0."
    (change request 4)"""
    if f == 0:
        return 0
    thousands = h * 1000
    below = thousands // f
    above = below + 1
    # how far off the two neighbours are, in parts of f
    to_below = thousands - below * f
    to_above = above * f - thousands
    if to_below < to_above:
        return below
    if to_above < to_below:
        return above
    return below if below % 2 == 0 else above


def run(text):
    """The rates for a text of pairs, as text."""
    rates = []
    for line in text.splitlines():
        h, f = map(int, line.split(" "))
        if not (0 <= h <= MOST and 0 <= f <= MOST):
            raise ValueError("no 32-bit numbers: " + line)
        rates.append("%d\n" % rate(h, f))
    return "".join(rates)


def main():
    sys.stdout.write(run(sys.stdin.read()))


if __name__ == "__main__":
    main()
