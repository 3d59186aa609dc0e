#!/usr/bin/env python3
"""Writes the pairs for which the C example asks the rate.

    make_rate_pairs.py [FILE]      (FILE is ../examples/c/pairs if left out)

Each line is `h f`, hardware swaps and then finished calls.  Everything is the
same on every run.  That the halves and what lies next to them are there is
checked; rate.py is not used.
"""

import os
import sys
from fractions import Fraction

import draw

HERE = os.path.dirname(os.path.abspath(__file__))

MOST = 4294967295
TOP = 2147483648  # the highest bit alone


def small():
    """All of them up to 12, 0 and 0 among them."""
    return [(h, f) for f in range(13) for h in range(13)]


def of_the_paper():
    return [(1, 2000), (3, 2000), (0, 2000), (2, 2000), (4, 2000), (5, 2000)]


def none_finished():
    return [(h, 0) for h in (13, 999, 1000, 65535, 65536, TOP - 1, TOP,
                             MOST - 1, MOST)]


def greatest():
    """The greatest number and its neighbours in each place and in both."""
    others = (0, 1, 2, 3, 7, 16, 125, 500, 999, 1000, 1001, 2000, 65535, 65536,
              TOP - 1, TOP, TOP + 1, MOST - 15, MOST - 2, MOST - 1, MOST)
    return [pair for other in others
            for pair in ((MOST, other), (other, MOST))] + [
        (MOST - 1, 2), (MOST - 1, MOST - 1), (TOP, TOP), (TOP - 1, TOP),
        (TOP, TOP - 1)]


def halves():
    """2000 h / f is odd, with quotients of every size."""
    found = [(h, 16) for h in range(1, 32, 2)]
    found += [(h, 2000) for h in (7, 9, 1999, 2001, 4001, MOST, MOST - 2)]
    found += [(h, 80) for h in (1, 3)] + [(h, 400) for h in (1, 3)]
    # 62.5 times an odd number
    for times in (2, 3, 5, 1000, 65537, 134217728, 268435454, 268435455):
        found += [(odd * times, 16 * times) for odd in (1, 3, 13, 15)]
    # half of an odd number
    for times in (2, 1048576, 2147482, 2147483):
        found += [(odd * times, 2000 * times) for odd in (1, 3, 1997, 1999)]
    # above all 32-bit numbers
    found += [(h, f) for f in (16, 80, 400) for h in (MOST - 2, MOST)]
    for h, f in found:
        assert Fraction(1000 * h, f).denominator == 2, (h, f)
    return found


def beside_halves():
    """One more or less in either place."""
    near = []
    for h, f in halves():
        near += [(h, f - 1), (h, f + 1), (h - 1, f), (h + 1, f)]
    return [(h, f) for h, f in near if h <= MOST and f <= MOST]


def nearest_to_halves():
    """As near to a half as f lets it: 2000 h / f is an odd number and 1 / f
    more or less."""
    found = []
    for f in (13, 17, 101, 999, 1001, 1999, 2001, 65537, 1000003, 16777259,
              TOP - 1, TOP + 1, TOP + 11, 3000000019, MOST - 8, MOST - 4,
              MOST - 2):
        inverse = pow(1000, -1, f)
        for rest in (f // 2, f // 2 + 1):
            h = inverse * rest % f
            assert 1000 * h % f == rest
            found += [(h, f), (h + f, f),
                      (h + (MOST - h) // f * f, f)]
    return [(h, f) for h, f in found if h <= MOST]


def wide():
    """Where 1000 h, the rate or twice the rest no longer fits."""
    found = [(h, f) for h in (4294966, 4294967, 4294968, 8589934)
             for f in (1, 7, 16, 1000)]
    found += [(h, f) for h in (TOP, TOP + 4, 3000000000)
              for f in (499, 500, 501, 999, 1000)]
    return found + [(3, TOP), (TOP // 1000, TOP), (3221225, 3221225472),
                    (2684354, TOP + 5), (MOST // 2000, MOST),
                    (MOST // 2000 + 1, MOST)]


def drawn(count):
    """Of all sizes, and some whose rate is near a small whole number."""
    d = draw.Draw(4)

    def number():
        bits = d.between(1, 32)
        return d.below(1 << bits)

    found = [(number(), number()) for _ in range(count)]
    for _ in range(count // 2):
        f = d.between(2000, MOST)
        found.append((d.between(0, 7) * f // 2000 + d.below(3), f))
    return found


def pairs():
    every = (small() + of_the_paper() + none_finished() + greatest() + halves()
             + beside_halves() + nearest_to_halves() + wide() + drawn(160))
    found = list(dict.fromkeys(every))
    for h, f in found:
        assert 0 <= h <= MOST and 0 <= f <= MOST, (h, f)
    return found


def kinds(found):
    """How many pairs are of each kind; none of them may be missing."""
    count = dict.fromkeys(("no finished call", "whole", "half, even below",
                           "half, odd below", "nearest below a half",
                           "nearest above a half", "other"), 0)
    for h, f in found:
        if f == 0:
            kind = "no finished call"
        else:
            below, rest = divmod(1000 * h, f)
            kind = ("whole" if rest == 0 else
                    {0: ("half, even below", "half, odd below")[below % 2],
                     -1: "nearest below a half",
                     1: "nearest above a half"}.get(2 * rest - f, "other"))
        count[kind] += 1
    assert all(count.values()), count
    return count


def text(found):
    return "".join("%d %d\n" % pair for pair in found)


def main():
    path = (sys.argv[1] if len(sys.argv) > 1
            else os.path.join(HERE, "..", "examples", "c", "pairs"))
    found = pairs()
    count = kinds(found)
    os.makedirs(os.path.dirname(os.path.abspath(path)), exist_ok=True)
    with open(path, "w") as file:
        file.write(text(found))
    print("%d pairs: %s" % (len(found), ", ".join(
        "%s %d" % item for item in count.items())))


if __name__ == "__main__":
    main()
