#!/usr/bin/env python3
"""The tool `bus` of change request 11: how long do the calls keep the bus?

    bus.py LL LH SL SH HL HH < SESSION

prints what `bus LL LH SL SH HL HH` prints: the low and the high time of a load,
of a store and of a hardware swap, in tenths of a nanosecond.  Written from
document 02 (CR 11, 12 and 13), document 01 and the design page, alone.
"""

from collections import Counter

import cells
import reader
import tools

USAGE = "usage: bus LL LH SL SH HL HH"

# "Refused: 21, a low time above its high one; then 22, a time above 1,000,000."
MOST_TIME = 1000000

# The times are in tenths of a nanosecond, the totals in whole ones.
TENTHS = 10


class Call:
    """A finished call: its task, how many calls that task finished before, and
    the lines that it did.  "In the [..] bus lines [..] an add is one call" (change
    request 13), with the lines of all its reads and swaps."""

    def __init__(self, task, n, lines):
        self.task = task
        self.n = n
        self.lines = lines

    def total(self, times):
        """The bus time, if a load, a store and a hardware swap take these."""
        load, store, hard = times
        _, loads, stores, hards = cells.counts_of(self.lines)
        return loads * load + stores * store + hards * hard


class Trace:
    """What a call of the tool came by, for coverage; no part of the text."""

    def __init__(self):
        self.refusals = Counter()  # number -> how often
        self.calls = []


def finished_calls(opening, actions):
    """"each finished call, in order of finishing"; a withdrawn one "ends there
    without finishing" (change request 12)."""
    n, v, b, values = opening
    model = cells.open_cells(n, v, b, [0] * (cells.WORDS * b), values, False)
    lines = [[] for _ in range(n)]
    before = [0] * n
    for action in actions:
        task = action.task
        if isinstance(action, reader.Step) and task < n:
            record = model.tasks[task]
            if record.busy:
                lines[task].append((record.line, record.wanted_by))
        result = model.act(action.word, *action)
        if isinstance(result, cells.Finished):
            yield Call(task, before[task], lines[task])
            lines[task] = []
            before[task] += 1
        elif isinstance(action, reader.Drop) and result is None:
            lines[task] = []


def whole_down(tenths):
    """"the least rounded down"."""
    return tenths // TENTHS


def whole_up(tenths):
    """"and the greatest up"."""
    return (tenths + TENTHS - 1) // TENTHS


def times_refusal(ranges):
    """Every range is asked 21 before any is asked 22."""
    for low, high in ranges:
        if low > high:
            return 21
    for low, high in ranges:
        if low > MOST_TIME or high > MOST_TIME:
            return 22
    return 0


def bus_line(call, lows, highs):
    """`(bus T n least greatest)`"""
    return "(bus %d %d %d %d)\n" % (
        call.task, call.n, whole_down(call.total(lows)),
        whole_up(call.total(highs)))


def all_line(calls, lows, highs):
    """`(all least greatest T n)`: "over all finished calls, added before
    rounding; T n is the call with the greatest total before rounding, the first
    to finish where several share it, or `none` if no call finished"."""
    if not calls:
        return "(all 0 0 none)\n"
    least = sum(call.total(lows) for call in calls)
    greatest = sum(call.total(highs) for call in calls)
    longest = calls[0]
    for call in calls:
        if call.total(highs) > longest.total(highs):
            longest = call
    return "(all %d %d %d %d)\n" % (whole_down(least), whole_up(greatest),
                                    longest.task, longest.n)


def run(load_low, load_high, store_low, store_high, hard_low, hard_high, data,
        trace=None):
    """What is printed for the six numbers and a session file's bytes."""
    trace = trace or Trace()
    lows = load_low, store_low, hard_low
    highs = load_high, store_high, hard_high
    try:
        opening, actions = tools.take_session(data)
        number = times_refusal(list(zip(lows, highs)))
        if number:
            raise reader.Bad(number)
    except reader.Bad as bad:
        trace.refusals[bad.number] += 1
        return tools.bad(bad.number)
    trace.calls = list(finished_calls(opening, actions))
    text = "".join(bus_line(call, lows, highs) for call in trace.calls)
    return (text + all_line(trace.calls, lows, highs)).encode("ascii")


ARGUMENTS = 6


def run_args(arguments, data, trace=None):
    """What is printed for a list of arguments, each a run of bytes.  "A wrong
    number of arguments, or one that is no number by question 14, prints `(bad
    14)` [..] before anything is read" (the design page)."""
    try:
        numbers = reader.numbers(arguments, 6)
    except reader.Bad as bad:
        return tools.bad(bad.number)
    return run(*numbers, data, trace)


def main():
    tools.main(USAGE, 6, run)


if __name__ == "__main__":
    main()
