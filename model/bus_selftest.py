#!/usr/bin/env python3
"""Self test of bus.py: what change request 11 says, told another way.

    bus_selftest.py [COUNT]

COUNT drawn sessions with drawn times: the counts of each finished call are its
row of the table (session.Trace has the path), the totals are fractions and their
floor and ceiling, and the bus lines stand in the order of the session's done
lines.  With small ranges every choice of times is gone through: the least and the
greatest total are met, and none is beyond them.  Then the refusals in their order
on a grid, and the arguments.
"""

import itertools
import math
import sys
from fractions import Fraction

import bus
import cells
import draw
import session
import tools
from cases_calls import P1, P9
from make_bus_cases import draw_times
from nudge_selftest import bad_arguments

MOST = bus.MOST_TIME


def check(what, found, wanted):
    if found != wanted:
        print("bus_selftest: %s\n  found  %r\n  wanted %r"
              % (what, found, wanted))
        sys.exit(1)


# ------------------------------------------------------------ drawn sessions

def totals_by_row(lines, times):
    """In nanoseconds, of the row of each read and swap in a call's lines, with
    times in tenths."""
    rows = [cells.PATHS[cells.path_of(part)] for part in cells.parts_of(lines)]
    return sum(Fraction(count * time, 10) for _, *counts in rows
               for count, time in zip(counts, times))


def wanted_text(data, times):
    """What is printed, by the table."""
    trace = session.Trace()
    session.run(data, trace)
    before = {}
    lines, least, greatest = [], [], []
    for task, _, done in trace.calls:
        n = before.get(task, 0)
        before[task] = n + 1
        least.append(totals_by_row(done, times[0::2]))
        greatest.append(totals_by_row(done, times[1::2]))
        lines.append("(bus %d %d %d %d)" % (
            task, n, math.floor(least[-1]), math.ceil(greatest[-1])))
    if lines:
        longest = lines[greatest.index(max(greatest))].split(" ")
        lines.append("(all %d %d %s %s)" % (
            math.floor(sum(least)), math.ceil(sum(greatest)), longest[1],
            longest[2]))
    else:
        lines.append("(all 0 0 none)")
    return "".join(line + "\n" for line in lines).encode()


def drawn_sessions(count, adds=(), seed=2011):
    drawn = draw.Draw(seed)
    calls = 0
    for _ in range(count):
        n, v = drawn.between(2, 5), drawn.between(1, 2)
        data = draw.text(draw.draw_session(
            drawn, n, v, cells.least_blocks(n, v), draw.Style(
                length=drawn.between(5, 150), hot_cells=v, values=3,
                burst=drawn.between(1, 8), refusals=drawn.pick((0, 5)),
                halts=drawn.below(2), runs_out=drawn.pick((0, 30)),
                drops=drawn.pick((0, 5, 15)), adds=adds and drawn.pick(adds))))
        times = draw_times(drawn)
        wanted = wanted_text(data, times)
        check("bus %s of\n%s" % (times, data.decode()),
              bus.run(*times, data), wanted)
        calls += wanted.count(b"(bus ")
    return calls


def every_choice_of_times():
    """"Both ends are met by some choice of times within the ranges before
    rounding": of one call, each access may take any time of its range."""
    times = (1, 3, 0, 2, 8, 11)
    ranges = [range(low, high + 1) for low, high in zip(times[0::2],
                                                        times[1::2])]
    calls = list(bus.finished_calls(*tools.take_session(draw.text(P9))))
    check("P9's calls", [(call.task, call.n) for call in calls],
          [(1, 0), (0, 0), (0, 1), (0, 2)])
    for call in calls:
        totals = {0}
        for line, _ in call.lines:
            kind = (0 if line in cells.LOAD_LINES else
                    1 if line in cells.STORE_LINES else 2)
            totals = {total + time for total in totals
                      for time in ranges[kind]}
        check("the ends", (call.total(times[0::2]), call.total(times[1::2])),
              (min(totals), max(totals)))


# ------------------------------------------------------- refusals, arguments

def refusals_in_order():
    """Each question by itself; 21 of any range before 22 of any."""
    data = draw.text(P1)
    some = (0, 1, MOST, MOST + 1, 2 ** 32 - 1)
    for times in itertools.product(some, repeat=6):
        lows, highs = times[0::2], times[1::2]
        wanted = 0
        if any(time > MOST for time in times):
            wanted = 22
        if any(low > high for low, high in zip(lows, highs)):
            wanted = 21
        check("refusal of %s" % (times,), bus.times_refusal(
            list(zip(lows, highs))), wanted)
    for times in ((2, 1, 0, 0, 0, 0), (0, MOST + 1, 0, 0, 0, 0)):
        check("12 to 15 before", bus.run(*times, b"(\n"), b"(bad 13)\n")
        check("the open's before", bus.run(*times, b"(open 0 1 3 (5))\n"),
              b"(bad 1)\n")
    check("21", bus.run(2, 1, 0, MOST + 1, 0, 0, data), b"(bad 21)\n")
    check("22", bus.run(1, 1, 0, MOST + 1, 0, 0, data), b"(bad 22)\n")


def arguments():
    data = draw.text(P1)
    good = b"1 2 3 4 5 6".split(b" ")
    check("good ones", bus.run_args(good, data), bus.run(1, 2, 3, 4, 5, 6,
                                                         data))
    check("a stored case", tools.Stored(bus).run(tools.stored(range(1, 7), data)),
          b"(bus 0 0 1 3)\n(bus 1 0 0 1)\n(all 2 4 0 0)\n")
    lists = list(bad_arguments(6, good))
    for words in lists:
        for text in (data, b"", b"(" * 70000):
            check("arguments %r" % (words,), bus.run_args(words, text),
                  b"(bad 14)\n")
    return len(lists)


def main():
    count = int(sys.argv[1]) if len(sys.argv) > 1 else 300
    refusals_in_order()
    refused = arguments()
    every_choice_of_times()
    calls = drawn_sessions(count)
    print("bus_selftest: %d drawn sessions with %d finished calls agree with the "
          "table; %d lists of arguments are refused" % (count, calls, refused))


if __name__ == "__main__":
    main()
