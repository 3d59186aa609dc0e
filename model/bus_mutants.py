#!/usr/bin/env python3
"""How telling the cases of bus are: wrong readings of change request 11, each one
edit of bus.py or of the model's lines, must print something else for at least one
case.  The stored cases have numbers only; wrong readings of the arguments must
print something else for one of bus_selftest.py's lists.

Prints for each wrong reading who tells it (with -a, how many do), and ends with
1 if some reading is told by none.
"""

import sys

import draw
import make_bus_cases
import mutants
import nudge_selftest
import tools
from cases_calls import P1

TOTAL = "return loads * load + stores * store + hards * hard"
DOWN = "return tenths // TENTHS"
UP = "return (tenths + TENTHS - 1) // TENTHS"
ASK_21 = """    for low, high in ranges:
        if low > high:
            return 21
"""
ASK_22 = """    for low, high in ranges:
        if low > MOST_TIME or high > MOST_TIME:
            return 22
"""
BUS = """(bus %d %d %d %d)\\n" % (
        call.task, call.n, whole_down(call.total(lows)),
        whole_up(call.total(highs)))"""
NONE = 'return "(all 0 0 none)\\n"'
LEAST = "least = sum(call.total(lows) for call in calls)"
GREATEST = "greatest = sum(call.total(highs) for call in calls)"
LONGER = "if call.total(highs) > longest.total(highs):"
ALL = """(all %d %d %d %d)\\n" % (whole_down(least), whole_up(greatest),
                                    longest.task, longest.n)"""
LOWS = "lows = load_low, store_low, hard_low"
HIGHS = "highs = load_high, store_high, hard_high"
TAKE = "opening, actions = tools.take_session(data)\n"
ASK = """        number = times_refusal(list(zip(lows, highs)))
        if number:
            raise reader.Bad(number)
"""
CALLS = "trace.calls = list(finished_calls(opening, actions))"
STEP = """            if record.busy:
                lines[task].append((record.line, record.wanted_by))
"""
ACTED = "        result = model.act(action.word, *action)\n"
FINISHED = """            lines[task] = []
            before[task] += 1
"""
DROPPED = "elif isinstance(action, reader.Drop) and result is None:"
NUMBERS = "numbers = reader.numbers(arguments, 6)"

STORES = "STORE_LINES = frozenset((4, 5, 6, 7, 8, 16, 18, 22, 23, 26, 27))"
LOADS = "LOAD_LINES = frozenset((1, 3, 10, 11, 12, 15, 17, 19, 20, 21, 24))"
HARD = "HARD_LINES = frozenset((2, 30))"

# What is misread; the text replaced; the text put there.
MISREADINGS = [
    # totals and rounding
    ("rounded before adding", "    least = sum(call.total(lows) for call in"
     " calls)\n    greatest = sum(call.total(highs) for call in calls)\n",
     "    least = 10 * sum(whole_down(call.total(lows)) for call in calls)\n"
     "    greatest = 10 * sum(whole_up(call.total(highs)) for call in calls)\n"),
    ("the least rounded before adding", LEAST,
     "least = 10 * sum(whole_down(call.total(lows)) for call in calls)"),
    ("the greatest rounded before adding", GREATEST,
     "greatest = 10 * sum(whole_up(call.total(highs)) for call in calls)"),
    ("each kind is rounded before adding", TOTAL,
     "return sum(-(-time // 10) * 10 for time in (loads * load,"
     " stores * store, hards * hard))"),
    ("times are rounded before multiplying", TOTAL,
     "return 10 * (loads * (load // 10) + stores * (store // 10)"
     " + hards * (hard // 10))"),
    ("the greatest rounded down", UP, "return tenths // TENTHS"),
    ("the least rounded up", DOWN, "return -(-tenths // TENTHS)"),
    ("the least rounded to the nearest", DOWN, "return (tenths + 5) // TENTHS"),
    ("the greatest rounded to the nearest", UP, "return (tenths + 5) // TENTHS"),
    ("the greatest always up by one", UP, "return tenths // TENTHS + 1"),
    ("in tenths", DOWN, "return tenths"),
    ("the greatest in tenths", UP, "return tenths"),
    ("least and greatest exchanged", LOWS + "\n    " + HIGHS,
     HIGHS.replace("highs =", "lows =") + "\n    "
     + LOWS.replace("lows =", "highs =")),
    ("the greatest is printed first", BUS, BUS.replace(
        "whole_down(call.total(lows)),\n        whole_up(call.total(highs))",
        "whole_up(call.total(highs)),\n        whole_down(call.total(lows))")),
    ("both are the least", BUS, BUS.replace("total(highs)", "total(lows)")),
    ("both are the greatest", BUS, BUS.replace("total(lows)", "total(highs)")),
    ("lows and highs are given apart", "def run(load_low, load_high, store_low,"
     " store_high, hard_low, hard_high, data,", "def run(load_low, store_low,"
     " hard_low, load_high, store_high, hard_high, data,"),
    ("stores are given first", "def run(load_low, load_high, store_low,"
     " store_high,", "def run(store_low, store_high, load_low, load_high,"),
    ("hardware swaps are given first", "def run(load_low, load_high, store_low,"
     " store_high, hard_low, hard_high, data,", "def run(hard_low, hard_high,"
     " load_low, load_high, store_low, store_high, data,"),
    ("totals have 32 bits, in tenths", "    greatest = sum(call.total(highs)"
     " for call in calls)\n", "    greatest = sum(call.total(highs) for call in"
     " calls) % 2 ** 32\n"),
    ("totals have 32 bits, in nanoseconds", UP, UP + " % 2 ** 32"),
    ("totals stop at 32 bits", UP,
     "return min((tenths + TENTHS - 1) // TENTHS, 2 ** 32 - 1)"),
    ("a call's total has 24 bits", TOTAL, TOTAL.replace("return ", "return (")
     + ") % 2 ** 24"),
    # counts
    ("taking a block is a load too", TOTAL, TOTAL.replace(
        "loads *", "(loads + ((4, 0) in self.lines)) *")),
    ("a hardware swap is a load too", TOTAL, TOTAL.replace(
        "loads * load", "(loads + hards) * load")),
    ("a hardware swap is a load and a store", TOTAL,
     "return (loads + hards) * load + (stores + hards) * store"),
    ("loads are not counted", TOTAL, TOTAL.replace("loads * load", "0")),
    ("stores are not counted", TOTAL, TOTAL.replace("stores * store", "0")),
    ("hardware swaps are not counted", TOTAL, TOTAL.replace("hards * hard",
                                                            "0")),
    ("only one hardware swap is counted", TOTAL, TOTAL.replace(
        "hards *", "min(hards, 1) *")),
    ("at most two hardware swaps are counted", TOTAL, TOTAL.replace(
        "hards *", "min(hards, 2) *")),
    ("a deciding part is done once", TOTAL, TOTAL.replace(
        "loads *", "(loads - 2 * ((3, 25) in self.lines and (3, 28) in"
        " self.lines)) *")),
    ("finished calls' accesses go to the next", FINISHED,
     "            before[task] += 1\n"),
    ("withdrawn calls' accesses go to the next", DROPPED, "elif False:"),
    ("a refused drop forgets accesses", DROPPED,
     "elif isinstance(action, reader.Drop):\n"
     "            lines[0] = []\n        elif False:"),
    ("a drop forgets every task's accesses", DROPPED, DROPPED
     + "\n            lines = [[] for _ in range(n)]"),
    ("withdrawn calls are told too", DROPPED, DROPPED
     + "\n            yield Call(task, before[task], lines[task])"),
    ("withdrawn calls are counted in n", DROPPED, DROPPED
     + "\n            before[task] += 1"),
    ("unfinished calls are told too", CALLS,
     "trace.calls = list(finished_calls(opening, actions))\n"
     "    if not trace.calls and actions:\n"
     "        trace.calls = [Call(0, 0, [])]"),
    ("refused steps are counted", STEP, STEP.replace(
        "record.busy", "True").replace("record.line,", "record.line or 10,")),
    ("begins are loads", ACTED, ACTED
     + "        if task < n and action.word in ('read', 'swap'):\n"
     "            lines[task].append((10, 0))\n"),
    # n and the order
    ("n is counted from 1", BUS, BUS.replace("call.n,", "call.n + 1,")),
    ("n is counted from 1 in all", ALL, ALL.replace("longest.n)",
                                                    "longest.n + 1)")),
    ("n counts the calls of all tasks", "            before[task] += 1\n",
     "            before = [number + 1 for number in before]\n"),
    ("T and n are exchanged", BUS, BUS.replace("call.task, call.n",
                                               "call.n, call.task")),
    ("T and n are exchanged in all", ALL, ALL.replace(
        "longest.task, longest.n", "longest.n, longest.task")),
    ("in the order of tasks", CALLS, CALLS.replace("list(finished_calls("
     "opening, actions))", "sorted(finished_calls(opening, actions),"
     " key=lambda call: call.task)")),
    ("in the order of totals", CALLS, CALLS.replace("list(finished_calls("
     "opening, actions))", "sorted(finished_calls(opening, actions),"
     " key=lambda call: -call.total(highs))")),
    # the longest
    ("the last of equals", LONGER, LONGER.replace(">", ">=")),
    ("the lowest task of equals", "    longest = calls[0]\n    for call in"
     " calls:\n", "    calls = sorted(calls, key=lambda call: call.task)\n"
     "    longest = calls[0]\n    for call in calls:\n"),
    ("the longest after rounding", LONGER, "if whole_up(call.total(highs)) >"
     " whole_up(longest.total(highs)):"),
    ("the longest by the least total", LONGER,
     LONGER.replace("highs", "lows")),
    ("the longest by the sum of both", LONGER, "if call.total(highs) +"
     " call.total(lows) > longest.total(highs) + longest.total(lows):"),
    ("the longest by the spread", LONGER, "if call.total(highs) -"
     " call.total(lows) > longest.total(highs) - longest.total(lows):"),
    ("the longest by its steps", LONGER,
     "if len(call.lines) > len(longest.lines):"),
    ("the longest by its hardware swaps", LONGER, "if"
     " cells.counts_of(call.lines)[3] > cells.counts_of(longest.lines)[3]:"),
    ("the shortest", LONGER, LONGER.replace(">", "<")),
    ("the last call", LONGER, "if True:"),
    ("the longest of a task by its calls' sum", LONGER, "if sum(c.total(highs)"
     " for c in calls if c.task == call.task) > sum(c.total(highs) for c in"
     " calls if c.task == longest.task):"),
    ("all are the longest's", LEAST, LEAST.replace("sum", "max")),
    ("all are the longest's, the greatest", GREATEST,
     GREATEST.replace("sum", "max")),
    # what is printed
    ("no call prints nothing", NONE, 'return ""'),
    ("no call prints none alone", NONE, 'return "(all none)\\n"'),
    ("no call prints task and number 0", NONE, 'return "(all 0 0 0 0)\\n"'),
    ("all comes first", "return (text + all_line(trace.calls, lows, highs))",
     "return (all_line(trace.calls, lows, highs) + text)"),
    ("all is not printed", "return (text + all_line(trace.calls, lows, highs))",
     "return text"),
    # refusals
    ("22 before 21", ASK_21 + ASK_22, ASK_22 + ASK_21),
    ("range by range", ASK_21 + ASK_22, """    for low, high in ranges:
        if low > high:
            return 21
        if high > MOST_TIME:
            return 22
"""),
    ("equal times are refused", ASK_21, ASK_21.replace(">", ">=")),
    ("a low time above the high one is taken", ASK_21, ""),
    ("a low time above the high one is exchanged", ASK_21,
     "    ranges = [sorted(pair) for pair in ranges]\n"),
    *(("the %s's range is not asked 21" % kind, ASK_21,
       ASK_21.replace("in ranges", "in ranges[:%d] + ranges[%d:]"
                      % (at, at + 1)))
      for at, kind in enumerate(("load", "store", "hardware swap"))),
    *(("the %s's range is not asked 22" % kind, ASK_22,
       ASK_22.replace("in ranges", "in ranges[:%d] + ranges[%d:]"
                      % (at, at + 1)))
      for at, kind in enumerate(("load", "store", "hardware swap"))),
    ("1,000,000 is refused", ASK_22, ASK_22.replace(">", ">=")),
    ("1,000,001 is taken", ASK_22, ASK_22.replace("MOST_TIME",
                                                  "MOST_TIME + 1")),
    ("any time is taken", ASK_22, ""),
    ("21 before 12 to 15", "        " + TAKE + ASK, ASK + "        " + TAKE),
    ("21 before the open's", "        " + TAKE,
     "        reader.read_session(data)\n" + ASK + "        " + TAKE),
    ("times are asked only if a call finished", ASK, ASK.replace(
        "if number:", "if number and any(finished_calls(opening, actions)):")),
]

# The same of what each line does to memory, in cells.py.
LINE_MISREADINGS = [
    ("the fill's X is no store", STORES, STORES.replace("(4, ", "(")),
    ("the fill is no store", STORES, STORES.replace("4, 5, 6, 7, 8, ", "")),
    ("the fill is one store", STORES, STORES.replace("5, 6, 7, 8, ", "")),
    ("the fill is the figure's four stores and a load", LOADS + "\n" + STORES,
     LOADS.replace("(1,", "(1, 4,") + "\n" + STORES.replace("(4, ", "(")),
    *(("line %d is no store" % line, STORES, STORES.replace(
        ", %d" % line, "")) for line in (16, 18, 22, 23, 26, 27)),
    *(("line %d is no load" % line, LOADS, LOADS.replace(", %d" % line, ""))
      for line in (3, 10, 11, 12, 15, 17, 19, 20, 21, 24)),
    ("line 1 is no load", LOADS, LOADS.replace("(1, ", "(")),
    ("line 2 is no hardware swap", HARD, HARD.replace("2, 30", "30,")),
    ("line 30 is no hardware swap", HARD, HARD.replace("2, 30", "2,")),
    ("line 2 is a load too", LOADS, LOADS.replace("(1,", "(1, 2,")),
    ("line 30 is a store too", STORES, STORES.replace("27", "27, 30")),
]

# The same of the arguments, told by bus_selftest.py's lists.
ARGUMENT_MISREADINGS = [
    ("too few are taken", NUMBERS, "numbers = reader.numbers((arguments +"
     " [b'9'] * 6)[:max(6, len(arguments))], 6)"),
    ("too many are taken", NUMBERS, "numbers = reader.numbers(arguments[:6],"
     " 6)"),
    ("three are taken as points", NUMBERS, "numbers = reader.numbers([word for"
     " word in arguments for _ in range(2)] if len(arguments) == 3 else"
     " arguments, 6)"),
    ("an empty one is left out", NUMBERS, "numbers = reader.numbers([word for"
     " word in arguments if word], 6)"),
    ("leading zeros are taken", NUMBERS, "numbers = reader.numbers("
     "[word.lstrip(b'0') or word[-1:] for word in arguments], 6)"),
    ("one is parted at its spaces", NUMBERS,
     "numbers = reader.numbers(b' '.join(arguments).split(b' '), 6)"),
    ("a decimal point is taken", NUMBERS, "numbers = reader.numbers("
     "[word.replace(b'.', b'') for word in arguments], 6)"),
    ("numbers beyond 32 bits are asked 22", NUMBERS, "if len(arguments) == 6"
     " and b'4294967296' in arguments:\n            return tools.bad(22)\n"
     "        " + NUMBERS),
    ("the session is read before", NUMBERS, "tools.take_session(data)\n"
     "        " + NUMBERS),
]


def misread(old, new, where="bus"):
    return mutants.edited(("cells", "bus"), where, old, new)["bus"]


def main():
    cases = make_bus_cases.make()
    files = mutants.by_size(cases.files)
    lists = {repr((words, end)): (words, end)
             for words in nudge_selftest.bad_arguments(
                 6, b"1 2 3 4 5 6".split(b" "))
             for end in (draw.text(P1), b"(")}
    refused = {name: b"(bad 14)\n" for name in lists}

    def stored_run(*edit):
        return tools.Stored(misread(*edit)).run

    def args_run(edit):
        run_args = misread(*edit).run_args
        return lambda case: run_args(*case)

    return mutants.report(
        [(what, mutants.tellers(stored_run(*edit), files, cases.prints))
         for what, *edit in MISREADINGS]
        + [(what, mutants.tellers(stored_run(*edit, "cells"), files,
                                  cases.prints))
           for what, *edit in LINE_MISREADINGS]
        + [(what, mutants.tellers(args_run(edit), lists, refused))
           for what, *edit in ARGUMENT_MISREADINGS])


if __name__ == "__main__":
    sys.exit(main())
