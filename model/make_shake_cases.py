"""The cases of the shaker, which make_tool_cases.py writes.

Each file has the five arguments, each on a line of its own.  Everything is the
same on every run.  Each drawn session is checked to be one that the reader takes
with just its actions, none of them refused when run.
"""

from collections import Counter

import cells
import draw
import make_cases
import reader
import session
import shaker
import tools

MOST = reader.MOST_NUMBER

# The kept answers stay below this many bytes.
MOST_PRINTED = 400000


class Cases(make_cases.Cases):
    def __init__(self):
        super().__init__(tools.Stored(shaker))
        self.seen = session.Trace()  # of the drawn sessions' runs
        self.sets = []
        self.refused_sets = 0

    def shakes(self, name, sets, *refusals):
        """A case of each of these sets; with refusals, all of them are refused,
        by these numbers, else none is."""
        given = Counter()
        for number, five in enumerate(sets):
            case = "%s_%d" % (name, number)
            given += self.add(case, tools.stored(five)).refusals
            if not refusals:
                runs_unrefused(five, self.seen)
        self.sets += sets
        self.refused_sets += sum(given.values())
        assert set(given) == set(refusals), (name, given)
        assert sum(given.values()) == (len(sets) if refusals else 0), name


def runs_unrefused(five, seen):
    """"The text printed [..] is a session that the reader accepts with exactly
    these actions, and none of them is refused when run." """
    text = shaker.shake(*five)
    _, n, v, b, length = five
    opening, actions = reader.read_session(text)
    assert opening == (n, v, b, (0,) * v), five
    assert actions == shaker.draw_actions(*five), five
    assert len(actions) == length == text.count(b"\n") - 1, five
    assert b"again" not in text, five
    trace = session.Trace()
    printed = session.run(text, trace)
    assert not trace.refusals, (five, trace.refusals)
    assert b"(end " in printed, five
    seen.paths += trace.paths


# ----------------------------------------------------------------- refusals

def refused_cases(cases):
    wrong = (256, 257, 65536, 65537, 2 ** 31, MOST - 1, MOST)
    cases.shakes("refused_01", [(5, n, 1, 128, 10)
                                for n in (0, 33, 34, 255, *wrong)], 1)
    cases.shakes("refused_02", [(5, 1, v, 128, 10)
                                for v in (0, 17, 18, 255, *wrong)], 2)
    few = [(n, v, cells.least_blocks(n, v) - 1)
           for n, v in ((1, 1), (1, 2), (2, 1), (1, 16), (32, 1), (5, 4),
                        (32, 16))]
    cases.shakes("refused_03_few", [(5, n, v, b, 10) for n, v, b in few]
                 + [(5, 1, 1, 0, 10), (5, 2, 2, 4, 10)], 3)
    cases.shakes("refused_03_many", [(5, n, v, b, 10)
                                     for n, v in ((1, 1), (32, 16))
                                     # some that would do with 8 or 16 bits
                                     for b in (129, 130, 259, 336, 65539,
                                               65616, *wrong)], 3)
    cases.shakes("refused_17", [(5, n, v, b, length)
                                for n, v, b in ((1, 1, 2), (32, 16, 128))
                                for length in (0, 3001, 3002, 4096, 65535,
                                               65536, 65537, 68536, 2 ** 31,
                                               MOST - 1, MOST)], 17)
    # two and more wrong: the earlier question's number
    cases.shakes("refused_01_first", [
        (5, 33, 17, 128, 10), (5, 0, 0, 128, 10), (5, 33, 1, 129, 10),
        (5, 0, 1, 0, 10), (5, 33, 1, 128, 0), (5, 0, 1, 3, 3001),
        (5, 33, 17, 129, 3001), (5, 0, 0, 0, 0), (MOST,) * 5, (0,) * 5], 1)
    cases.shakes("refused_02_first", [
        (5, 1, 17, 129, 10), (5, 1, 0, 0, 10), (5, 32, 17, 128, 0),
        (5, 1, 0, 3, 3001), (5, 1, 17, 2, 0), (5, 32, 0, 129, 3001)], 2)
    cases.shakes("refused_03_first", [
        (5, 1, 1, 1, 0), (5, 1, 1, 1, 3001), (5, 32, 16, 78, 0),
        (5, 32, 16, 129, 0), (5, 32, 16, 129, 3001), (5, 1, 1, 0, MOST)], 3)
    # the seed is never asked
    cases.shakes("refused_whatever_the_seed", [
        (seed, n, v, b, length) for seed in (0, MOST)
        for n, v, b, length in ((33, 1, 128, 10), (1, 17, 128, 10),
                                (1, 1, 1, 10), (1, 1, 3, 0))], 1, 2, 3, 17)


# --------------------------------------------------------- drawn sessions

def limit_cases(cases):
    cases.shakes("seeds", [(seed, 3, 2, 7, 60) for seed in (
        0, 1, 2, 3, 65535, 65536, 2 ** 31 - 1, 2 ** 31, 2 ** 31 + 1,
        MOST - 65536, MOST - 1, MOST)])
    # a draw mod 1 is a draw
    cases.shakes("one_task_one_cell", [(seed, 1, 1, 2, 120)
                                       for seed in (0, 7, MOST)])
    cases.shakes("one_task", [(11, 1, 16, 17, 120), (12, 1, 5, 7, 120)])
    cases.shakes("one_cell", [(13, 32, 1, 64, 200), (14, 5, 1, 11, 200)])
    cases.shakes("blocks", [(15, n, v, b, 90) for n, v in (
        (1, 1), (2, 1), (32, 1), (1, 16), (32, 16))
        for b in (cells.least_blocks(n, v), 128)])
    cases.shakes("sizes_next_to_limits", [
        (16, n, v, cells.least_blocks(n, v) + more, 40)
        for n, v, more in ((31, 15, 0), (31, 16, 1), (32, 15, 0), (2, 2, 1))]
        + [(16, 32, 16, 127, 40)])
    cases.shakes("lengths", [(17, 4, 2, 10, length) for length in (
        1, 2, 3, 4, 5, 9, 10, 11, 99, 100, 101, 255, 256, 257)])
    cases.shakes("length_1", [(seed, 32, 16, 79, 1) for seed in range(20)])
    cases.shakes("lengths_of_one_task", [(18, 1, 1, 3, length)
                                         for length in (1, 2, 3, 4, 5, 12)])
    cases.shakes("longest", [
        (0, 32, 16, 79, 3000), (1, 2, 1, 4, 3000), (MOST, 1, 1, 2, 3000),
        (2024, 32, 16, 128, 3000), (31337, 32, 1, 64, 2999),
        (65536, 5, 3, 12, 3000)])


def drawn_cases(cases):
    drawn = draw.Draw(6)
    for number in range(8):
        sets = []
        for _ in range(6):
            n = drawn.pick((drawn.between(1, 32), drawn.between(2, 4)))
            v = drawn.pick((drawn.between(1, 16), drawn.between(1, 2)))
            least = cells.least_blocks(n, v)
            sets.append((drawn.below(2 ** 32), n, v,
                         drawn.pick((least, 128, drawn.between(least, 128))),
                         drawn.pick((drawn.between(1, 60),
                                     drawn.between(60, 400)))))
        cases.shakes("drawn_%d" % number, sets)


def make():
    cases = Cases()
    refused_cases(cases)
    limit_cases(cases)
    drawn_cases(cases)
    assert set(cells.PATHS) - {cells.UNREACHED} == set(cases.seen.paths)
    assert sum(map(len, cases.prints.values())) < MOST_PRINTED
    assert len(set(cases.sets)) == len(cases.sets)
    return cases


def say(cases):
    return ("%d sets of five numbers, %d of them refused; %d finished calls"
            % (len(cases.sets), cases.refused_sets,
               sum(cases.seen.paths.values())))
