"""What every tool on a session asks first (change requests 8, 9 and 11).

"a tool on a session first asks 12 to 15 and the open's questions", and "a
refusal prints only `(bad R)`" (change request 6).
"""

import os
import sys

import cells
import reader


def take_session(data):
    """The open and the actions of a session file; Bad with the number of the
    first question answered no: 12 to 15, then 1 to 5.  The pool is the tool's
    own, of 5 x B words."""
    opening, actions = reader.read_session(data)
    number = cells.open_refusal(opening.n, opening.v, opening.b,
                                range(cells.WORDS * opening.b), opening.values)
    if number:
        raise reader.Bad(number)
    return opening, actions


def bad(number):
    """"a refusal prints only `(bad R)`"."""
    return b"(bad %d)\n" % number


def stored(numbers, data=b""):
    """A stored case of a tool with arguments: each on a line of its own, and then
    the session."""
    return b"".join(b"%d\n" % number for number in numbers) + data


def arguments_of(data, count):
    """The arguments of a stored case, and the session."""
    *lines, rest = data.split(b"\n", count)
    if len(lines) != count:
        raise ValueError("fewer than %d lines: %r" % (count, data))
    return lines, rest


class Stored:
    """A tool with arguments as a program of its stored cases."""

    def __init__(self, tool):
        self.Trace = tool.Trace
        self.run_args = tool.run_args
        self.count = tool.ARGUMENTS

    def run(self, data, trace=None):
        return self.run_args(*arguments_of(data, self.count), trace)


def main(usage, count, run):
    """A tool with so many arguments as a program.  "prints `(bad 14)` on
    standard output and a usage line on standard error, before anything is read"
    (the design page)."""
    arguments = [os.fsencode(word) for word in sys.argv[1:]]
    try:
        numbers = reader.numbers(arguments, count)
    except reader.Bad as refused:
        sys.stdout.buffer.write(bad(refused.number))
        print(usage, file=sys.stderr)
        return
    # One byte more than question 12 allows is enough to answer it.
    data = sys.stdin.buffer.read(reader.MOST_BYTES + 1)
    sys.stdout.buffer.write(run(*numbers, data))
