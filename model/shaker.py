#!/usr/bin/env python3
"""The shaker of change request 6: a session drawn from a seed.

    shaker.py SEED N V B LENGTH

prints what `shake SEED N V B LENGTH` prints.  Written from document 02 (CR 6),
document 01's questions and sessions, and the design page on arguments, alone.
Sentences of CR 6 are quoted in the comments where they decide something.
"""

import os
import sys
from collections import Counter

import cells
import reader

USAGE = "usage: shake SEED N V B LENGTH"

# "Refused: 17, a length of 0 or above 3,000 actions"
MOST_LENGTH = 3000


class Generator:
    """"The generator's state is a 32-bit number"; the seed is the state before
    the first draw."""

    def __init__(self, seed):
        self.state = seed

    def draw(self):
        """"each draw replaces it by 1664525 x state + 1013904223, wrapping at
        32 bits, and yields the new state divided by 65,536, rounded down." """
        self.state = (1664525 * self.state + 1013904223) % 2 ** 32
        return self.state // 65536


def refusal(n, v, b, length):
    """"17 ... checked after document 01's questions on N, V and B": the first
    one answered no, or 0.  The pool is the tool's own, of 5 x B words."""
    number = cells.open_refusal(n, v, b, range(cells.WORDS * b), None)
    if number:
        return number
    if not 1 <= length <= MOST_LENGTH:
        return 17
    return 0


def draw_actions(seed, n, v, b, length):
    """The drawn actions; their numbers are such that none is refused."""
    generator = Generator(seed)
    # "The session opens with N, V, B and all values 0."
    model = cells.open_cells(n, v, b, [0] * (cells.WORDS * b), [0] * v, False)
    actions = []
    for _ in range(length):
        # "Each action draws a task (draw mod N)."
        task = generator.draw() % n
        # "If that task is busy, it steps."
        if model.tasks[task].busy:
            action = reader.Step(task)
            model.step(task)
        else:
            action = draw_begin(generator, task, v)
            model.act(action.word, *action)
        actions.append(action)
    return actions


def draw_begin(generator, task, v):
    """"If idle, a draw mod 2 picks read (0) or swap (1), one mod V the cell,
    and for a swap one mod 4 the expected and one mod 4 the new value." """
    swaps = generator.draw() % 2 == 1
    cell = generator.draw() % v
    if not swaps:
        return reader.Read(task, cell)
    expected = generator.draw() % 4
    new = generator.draw() % 4
    return reader.Swap(task, cell, expected, new)


def line_of(action):
    return "(%s %s)\n" % (action.word, " ".join(map(str, action)))


def shake(seed, n, v, b, length):
    """What is printed for these five numbers: "The text printed, one action a
    line without `again`"; "a refusal prints only `(bad R)`"."""
    number = refusal(n, v, b, length)
    if number:
        return b"(bad %d)\n" % number
    opening = "(open %d %d %d (%s))\n" % (n, v, b, " ".join(["0"] * v))
    actions = draw_actions(seed, n, v, b, length)
    return (opening + "".join(map(line_of, actions))).encode("ascii")


def shake_arguments(arguments):
    """What is printed for a list of arguments, each a run of bytes.  "A wrong
    number of arguments, or one that is no number by question 14, prints `(bad
    14)`" (the design page)."""
    try:
        numbers = reader.numbers(arguments, 5)
    except reader.Bad as bad:
        return b"(bad %d)\n" % bad.number
    return shake(*numbers)


# ------------------------------------------------------ the stored cases

ARGUMENTS = 5


class Trace:
    """What a case came by, for coverage; no part of the printed text."""

    def __init__(self):
        self.refusals = Counter()  # number -> how often


def run_args(arguments, rest=b"", trace=None):
    """What is printed for a stored case: its lines are the arguments, and
    nothing follows."""
    if rest:
        raise ValueError("more than the arguments: %r" % rest)
    text = shake_arguments(arguments)
    if trace and text.startswith(b"(bad "):
        trace.refusals[int(text[5:-2])] += 1
    return text


def main():
    text = shake_arguments([os.fsencode(word) for word in sys.argv[1:]])
    sys.stdout.buffer.write(text)
    if text == b"(bad 14)\n":
        print(USAGE, file=sys.stderr)


if __name__ == "__main__":
    main()
