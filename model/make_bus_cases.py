"""The cases of bus, which make_tool_cases.py writes.

Each file's first six lines are the arguments; the rest is the session.
Everything is the same on every run.  The cases must come by each row of the
table that an opening reaches, and by every rest of a total, rounded down and
up.
"""

from collections import Counter

import bus
import cells
import draw
import make_cases
import shaker
import tools
from cases_calls import P1, P9, P10, path_scripts
from cases_drop_tools import bus_drop_cases
from cases_refusals import padded
from script import Script, contend, turn_blocks

MOST = bus.MOST_TIME

# The kept files, and what is printed for them, stay below this many bytes.
MOST_DATA = 250000
MOST_PRINTED = 400000

# Times as they are given: of a load, a store and a hardware swap, low and high.
COUNTS = (1, 10, 100, 1000, 10000, 100000)
ONE_POINT = (3, 3, 7, 7, 41, 41)
RANGE = (11, 17, 13, 29, 101, 997)
WIDE = (0, MOST, 0, MOST, 0, MOST)
ALL_MOST = (MOST,) * 6

# What the cases come by, each at least so often.
WANTED = {
    **{"least, rest %d" % rest: 20 for rest in range(10)},
    **{"greatest, rest %d" % rest: 20 for rest in range(10)},
    **{"all, least, rest %d" % rest: 2 for rest in range(10)},
    **{"all, greatest, rest %d" % rest: 2 for rest in range(10)},
    "a range of one point": 20, "a range from 0": 20, "a time of 1,000,000": 10,
    "no call finished": 5, "unfinished calls": 20, "withdrawn calls": 20,
    "the longest is the first": 10, "the longest is the last": 10,
    "the longest is between": 10,
    "several share the greatest total": 30,
    "several share it after rounding only": 10,
    "another has the greatest least total": 5,
    "the totals of all are more than the rounded ones": 5,
    "the totals of all are less than the rounded ones": 20,
    "several tasks": 40, "a task finishes several": 40,
}


class Cases(make_cases.Cases):
    def __init__(self):
        super().__init__(tools.Stored(bus))
        self.seen = Counter()
        self.paths = Counter()
        self.refusals = Counter()

    def bus(self, name, times, data):
        """A call of the tool; hands back its trace."""
        if not isinstance(data, bytes):
            data = draw.text(data)
        trace = self.add(name, tools.stored(times, data))
        self.refusals += trace.refusals
        if not trace.refusals:
            self.paths.update(cells.path_of(lines) for call in trace.calls
                              for lines in cells.parts_of(call.lines))
            self.seen.update(seen_in(trace, times, data))
        return trace

    def timed(self, name, times, data):
        assert not self.bus(name, times, data).refusals, name

    def refused(self, name, times, data, number):
        trace = self.bus("bad_%02d_%s" % (number, name), times, data)
        assert list(trace.refusals) == [number], (name, trace.refusals)


def seen_in(trace, times, data):
    """What a call of the tool came by, of WANTED's names."""
    lows, highs = times[0::2], times[1::2]
    if any(low == high for low, high in zip(lows, highs)):
        yield "a range of one point"
    if 0 in lows:
        yield "a range from 0"
    if MOST in highs:
        yield "a time of 1,000,000"
    opening, actions = tools.take_session(data)
    model = cells.open_cells(*opening[:3], [0] * (5 * opening.b),
                             opening.values, False)
    results = [(action.word, model.act(action.word, *action))
               for action in actions]
    if ("drop", None) in results:
        yield "withdrawn calls"
    if any(record.busy for record in model.tasks):
        yield "unfinished calls"
    if not trace.calls:
        yield "no call finished"
        return
    least = [call.total(lows) for call in trace.calls]
    greatest = [call.total(highs) for call in trace.calls]
    for total in least:
        yield "least, rest %d" % (total % 10)
    for total in greatest:
        yield "greatest, rest %d" % (total % 10)
    yield "all, least, rest %d" % (sum(least) % 10)
    yield "all, greatest, rest %d" % (sum(greatest) % 10)
    if sum(least) // 10 > sum(total // 10 for total in least):
        yield "the totals of all are more than the rounded ones"
    if -(-sum(greatest) // 10) < sum(-(-total // 10) for total in greatest):
        yield "the totals of all are less than the rounded ones"
    if len({call.task for call in trace.calls}) > 1:
        yield "several tasks"
    if any(call.n for call in trace.calls):
        yield "a task finishes several"
    if len(greatest) == 1:
        return
    longest = greatest.index(max(greatest))
    yield "the longest is %s" % {0: "the first", len(greatest) - 1: "the last"
                                 }.get(longest, "between")
    if greatest.count(max(greatest)) > 1:
        yield "several share the greatest total"
    rounded = [-(-total // 10) for total in greatest]
    if rounded.index(max(rounded)) != longest:
        yield "several share it after rounding only"
    if least.index(max(least)) != longest:
        yield "another has the greatest least total"


# ---------------------------------------------------------------- the rows

def paper_cases(cases):
    for name, lines in (("p1", P1), ("p9", P9), ("p10", P10),
                        ("p5", ["(open 2 1 5 (5))", "(swap 0 0 5 5)",
                                "(again 3 (step 0))"]),
                        ("p6", ["(open 2 1 5 (5))", "(swap 0 0 4 6)",
                                "(again 8 (step 0))"])):
        for times_name, times in (("counts", COUNTS), ("range", RANGE),
                                  ("one_point", ONE_POINT), ("wide", WIDE),
                                  ("all_most", ALL_MOST), ("zero", (0,) * 6)):
            cases.timed("%s_%s" % (name, times_name), times, lines)


def row_cases(cases):
    """Each row that an opening reaches, and of each kind of access alone."""
    for name, path, script in path_scripts():
        for number, (times_name, times) in enumerate((
                ("counts", COUNTS), ("range", RANGE),
                ("loads", (9, 10, 0, 0, 0, 0)), ("stores", (0, 0, 9, 10, 0, 0)),
                ("hard", (0, 0, 0, 0, 9, 10)))):
            n, v, b, p, q, k = ((2, 1, 4, 0, 1, 0), (3, 2, 7, 2, 0, 1),
                                (2, 1, 5, 1, 0, 0))[number % 3]
            values = [100 + i for i in range(v)]
            values[k] = 5
            s = Script(n, v, b, values)
            script(s, p, q, k)
            cases.timed("row_%s_%s" % (name, times_name), times, s.lines)
        assert path in cases.paths, path


# ----------------------------------------------------------- times and totals

def rounding_cases(cases):
    """One read, of three loads, by every rest; one swap of ten accesses; several
    whose rests come to a whole."""
    read = ["(open 2 1 5 (5))", "(read 0 0)", "(again 3 (step 0))"]
    swap = ["(open 2 1 5 (5))", "(swap 1 0 5 7)", "(again 10 (step 1))"]
    for low in range(10):
        cases.timed("rest_read_%d" % low, (low, low + 3, 0, 0, 0, 0), read)
        cases.timed("rest_swap_%d" % low, (low, low, 0, 2 * low, 0, 0), swap)
    for count in (2, 3, 7, 10):
        for times in ((1, 1, 0, 0, 0, 0), (3, 4, 0, 0, 0, 0)):
            cases.timed("rest_%d_reads_%d" % (count, times[0]), times, [
                "(open 2 1 5 (5))",
                "(again %d (read 0 0) (again 3 (step 0)))" % count])
    for times in ((33, 33, 33, 33, 33, 33), (1, 9, 1, 9, 1, 9),
                  (999999, MOST, 999999, MOST, 999999, MOST),
                  (MOST, MOST, 0, 0, 0, 0), (0, 0, MOST, MOST, 0, 0),
                  (0, 0, 0, 0, MOST, MOST), (0, 1, 0, 1, 0, 1)):
        cases.timed("times_%s" % "_".join(map(str, times)), times, P9)


def longest_cases(cases):
    """Which call has the greatest total."""
    def reads(*tasks):
        return ["(read %d 0)" % t for t in tasks] + [
            "(again 3 (step %d))" % t for t in tasks]

    first = "(open 4 1 9 (5))"
    for name, order in (("up", (0, 1, 2, 3)), ("down", (3, 2, 1, 0)),
                        ("twice", (2, 1)), ("middle", (1, 3, 0))):
        lines = [first, *reads(*order)]
        if name == "twice":
            lines += reads(*order)
        for times in (ONE_POINT, RANGE, (0,) * 6):
            cases.timed("same_%s_%d" % (name, times[1]), times, lines)
    # a swap of six loads and four stores, a no of five and three, a read of
    # three: by the times one or the other is longer, or they are the same
    swap = ["(swap 1 0 5 7)", "(again 10 (step 1))"]
    no = ["(swap 2 0 4 7)", "(again 8 (step 2))"]
    read = ["(read 3 0)", "(again 3 (step 3))"]
    late = ["(swap 0 0 5 8)", "(again 2 (step 0))", "(swap 1 0 5 9)",
            "(again 4 (step 1))", "(again 3 (step 1))", "(again 11 (step 0))"]
    for name, lines in (("snr", swap + no + read), ("nsr", no + swap + read),
                        ("rns", read + no + swap), ("srn", swap + read + no),
                        ("rnsrns", (read + no + swap) * 2),
                        ("late", late + read)):
        for at, times in enumerate((
                (1, 2, 3, 4, 5, 6), (0, 0, 2, 5, 9, 90), (7, 7, 0, 0, 0, 0),
                (0, 0, 0, 0, 1, 10), (1, 1, 1, 1, 1, 1), (50, 60, 1, 2, 0, 0))):
            cases.timed("longest_%s_%d" % (name, at), times, [first, *lines])
    # the same by other counts: three loads against two hardware swaps and so on;
    # a read of an active block is 3/0/0, of a decided one 5/0/1
    s = Script(3, 1, 7, [5])
    s.read(2, 0).out(2)
    contend(s, 0, 1, 0)
    s.read(2, 0).out(2).swap(1, 0, 9, 9).out(1).swap(0, 0, 9, 4).out(0)
    s.read(1, 0).out(1).swap(2, 0, 4, 5).out(2)
    for at, times in enumerate((
            (1, 10, 0, 0, 0, 0), (0, 3, 0, 3, 0, 3), (10, 10, 20, 20, 30, 30),
            (0, 5, 0, 2, 0, 1), (1, 4, 2, 6, 8, 9), (9, 9, 1, 8, 0, 40),
            (0, 7, 0, 7, 0, 7), (5, 6, 5, 6, 50, 60), (0, 1, 0, 12, 0, 25))):
        cases.timed("mixed_%d" % at, times, s.lines)


def list_cases(cases):
    """No finished call, unfinished ones, refused actions, repeated forms."""
    for name, lines in (
            ("open_alone", ["(open 3 2 8 (1 2))"]),
            ("begun_only", ["(open 2 1 5 (5))", "(read 0 0)",
                            "(swap 1 0 5 7)"]),
            ("unfinished", ["(open 2 1 5 (5))", "(swap 0 0 5 7)",
                            "(again 9 (step 0))"]),
            ("refused", ["(open 2 1 5 (5))", "(again 5 (step 0))",
                         "(read 2 0)"]),
            ("again_0", ["(open 2 1 5 (5))", "(again 0 (read 0 0))"])):
        for times in (RANGE, ALL_MOST):
            cases.timed("none_%s_%d" % (name, times[0]), times, lines)
    # an unfinished call's accesses are not counted, a refused action's neither
    lines = P10[:-1] + ["(again 5 (step 0))"]
    cases.timed("left_p10", COUNTS, lines)
    cases.timed("left_p10_before", COUNTS, P10[:-2] + ["(again 3 (step 0))"])
    between = ["(step 2)", "(read 0 0)", "(read 9 0)", "(swap 1 0 1 4294967295)"]
    for name, case in (("p1", P1), ("p9", P9), ("p10", P10)):
        cases.bus("refused_between_%s" % name, COUNTS, case[:1] + [
            more for line in case[1:] for more in (line, *between)])
    cases.timed("again", RANGE, [
        "(open 2 1 5 (5))", "(again 12 (read 0 0) (again 3 (step 0))"
        " (swap 1 0 5 5) (again 3 (step 1)))"])
    for n in (2, 3, 8, 32):
        steps = " ".join("(step %d)" % t for t in range(n))
        cases.bus("in_step_%d" % n, COUNTS, [
            draw.opening_line(n, 1, 1 + 2 * n, [5]),
            *("(swap %d 0 5 %d)" % (t, 6 + t) for t in range(n)),
            "(again 21 %s)" % steps])
    for n, v, b in ((2, 1, 4), (3, 2, 7), (32, 16, 79)):
        s = Script(n, v, b, [5] * v)
        turn_blocks(s, 0, n - 1, 6, v - 1)
        cases.timed("turned_n_%d" % n, RANGE, s.lines)


def long_cases(cases):
    """Totals beyond 32 bits: in tenths, and in whole nanoseconds."""
    cases.timed("long_reads", (0, MOST, 0, 0, 0, 0), [
        "(open 1 1 3 (5))", "(again 1500 (read 0 0) (again 3 (step 0)))"])
    meeting = ("(swap 0 0 %d 7) (swap 1 0 %d %d) (again 2 (step 0))"
               " (again 7 (step 1)) (again 5 (step 0)) (again 14 (step 1))"
               " (again 6 (step 0))")
    cases.timed("long_meetings", ALL_MOST, [
        "(open 2 1 5 (5))", "(again 900 %s %s)" % (meeting % (5, 5, 9),
                                                   meeting % (9, 9, 5))])


def refusal_cases(cases):
    good = draw.text(P1)
    for at in range(3):
        name = ("load", "store", "hard")[at]

        def times(low, high, others=(1, 2)):
            return others * at + (low, high) + others * (2 - at)

        cases.refused("%s_by_one" % name, times(8, 7), good, 21)
        cases.refused("%s_most" % name, times(MOST, 0), good, 21)
        cases.refused("%s_32_bits" % name, times(2 ** 32 - 1, 0), good, 21)
        cases.timed("edge_%s_same" % name, times(7, 7), good)
        cases.timed("edge_%s_most" % name, times(MOST, MOST), good)
        cases.refused("%s_high" % name, times(0, MOST + 1), good, 22)
        cases.refused("%s_both" % name, times(MOST + 1, MOST + 1), good, 22)
        cases.refused("%s_32_bits" % name, times(0, 2 ** 32 - 1), good, 22)
        cases.refused("%s_all_32_bits" % name, times(2 ** 32 - 1, 2 ** 32 - 1),
                      good, 22)
        # 21 of one range before 22 of any
        cases.refused("%s_before_22" % name,
                      times(2, 1, (0, MOST + 1)), good, 21)
        cases.refused("%s_before_22_same" % name,
                      times(MOST + 2, MOST + 1), good, 21)
        cases.refused("%s_before_22_later" % name,
                      times(MOST + 1, MOST, (5, MOST + 7)), good, 21)
    cases.refused("all", (1, 0, 1, 0, 1, 0), good, 21)
    cases.refused("all", (MOST + 1,) * 6, good, 22)
    # the session's come first
    bad = (2, 1, 0, MOST + 1, 0, 0)
    for number, name, data in (
            (12, "bytes", padded(P1, 65537)),
            (13, "two_spaces", ["(open 2 1 5 (5))", "(step  0)"]),
            (14, "no_open", ["(step 0)"]), (14, "empty_file", b""),
            (15, "actions", ["(open 2 1 5 (5))", "(again 65536 (step 0))"]),
            (1, "n_33", ["(open 33 1 128 (5))"]),
            (2, "v_0", ["(open 1 0 3 ())"]),
            (3, "b_few", ["(open 2 1 3 (5))"]),
            (3, "b_129", ["(open 2 1 129 (5))"]),
            (4, "values", ["(open 2 1 5 ())"]),
            (5, "none", ["(open 2 1 5 (4294967295))"])):
        cases.refused(name, bad, data, number)
        if number != 12:
            cases.refused(name + "_good_times", RANGE, data, number)
    cases.refused("no_call", (1, 0, 0, 0, 0, 0), ["(open 2 1 5 (5))"], 21)
    cases.refused("no_call", (0, 0, 0, 0, 0, MOST + 1), ["(open 2 1 5 (5))"],
                  22)


# ------------------------------------------------------------------- drawn

def draw_times(drawn):
    times = []
    for _ in range(3):
        most = drawn.pick((10, 100, 1000, MOST))
        low, high = sorted((drawn.below(most + 1), drawn.below(most + 1)))
        times += [low, drawn.pick((low, high, high))]
    return times


def drawn_cases(cases):
    drawn = draw.Draw(1111)
    for seed in range(1, 41):
        n, v = 2 + seed % 4, 1 + seed % 2
        lines = draw.draw_session(
            draw.Draw(11000 + seed), n, v, cells.least_blocks(n, v), draw.Style(
                length=60 + 4 * seed, hot_cells=v, values=3, burst=1 + seed % 7,
                refusals=(0, 0, 5)[seed % 3], halts=seed % 2,
                runs_out=(0, 20, 50)[seed % 3]), 100)
        cases.bus("drawn_n_%d_s%d" % (n, seed), draw_times(drawn), lines)
    for seed in range(8):
        cases.timed("shaken_s%d" % seed, draw_times(drawn), shaker.shake(
            seed, 2 + seed, 1 + seed % 3, 30, 100 + 30 * seed))


def make():
    cases = Cases()
    paper_cases(cases)
    row_cases(cases)
    rounding_cases(cases)
    longest_cases(cases)
    list_cases(cases)
    long_cases(cases)
    refusal_cases(cases)
    drawn_cases(cases)
    bus_drop_cases(cases, COUNTS, draw_times)
    for kind, count in WANTED.items():
        assert cases.seen[kind] >= count, (kind, cases.seen[kind])
    assert set(cases.seen) == set(WANTED), set(cases.seen) - set(WANTED)
    assert set(cells.PATHS) - {cells.UNREACHED} == set(cases.paths)
    assert set(cases.refusals) == {1, 2, 3, 4, 5, 12, 13, 14, 15, 21, 22}
    assert sum(map(len, cases.files.values())) < MOST_DATA
    assert sum(map(len, cases.prints.values())) < MOST_PRINTED
    return cases


def say(cases):
    return "%d finished calls; %d calls of the tool refused" % (
        sum(cases.paths.values()), sum(cases.refusals.values()))
