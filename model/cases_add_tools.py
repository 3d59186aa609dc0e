"""Cases of adds (change request 13), of nudge and of bus: "In the done, end and bus
lines and in CR 9 an add is one call"."""

import cells
import draw
from cases_add import (NONE, crowd, left_at_each_step, longest_try, lose,
                       turns)
from cases_moments import THREES, opened
from script import Script, contend


# ---------------------------------------------------------------------- nudge

def store_and_load(first, amount, tries, values=(5, 7)):
    """Task 0's store of 7, in place of 5, stands next to the load of task 1's
    add."""
    s = Script(3, 1, 6, values[:1]).swap(0, 0, *values).step(0, 7)
    s.add(1, 0, amount, tries).step(1, 1)
    return s.step(first).step(1 - first).out(0)


def race_cases(cases):
    """The load before the store: the add's first swap is lost.  So the exchange
    makes spent of added, over of either, or leaves steps lacking."""
    for first in (0, 1):
        for tries in (1, 2, 8):
            for name, amount in (("fine", 2), ("over", NONE - 6), ("0", 0),
                                 ("over_both", NONE)):
                s = store_and_load(first, amount, tries)
                name = "add_%d_first_r_%d_%s" % (first, tries, name)
                cases.named(name, s.out(1).lines, (1, 0), (0, 0))
            # 7 would be over, and 5 is not
            s = store_and_load(first, NONE - 6, tries, (7, 5)).out(1)
            cases.named("add_%d_first_r_%d_fine_then" % (first, tries), s.lines,
                        (1, 0))
        for steps in (11, 12, 22, 23, 24):
            s = store_and_load(first, 2, 2).steps(1, steps - 2)
            if not s.model.tasks[1].busy:
                # so many steps are there, some of them refused
                cases.named("add_%d_first_steps_%d" % (first, steps), s.lines,
                            (1, 0))


def short_cases(cases):
    """The add's steps are just those that it needs; after the exchange it needs
    more, and calls after it are not begun, or it is dropped."""
    s = store_and_load(0, 2, 2).out(1)
    for name, more in (
            ("alone", []), ("read_after", ["(read 1 0)", "(again 3 (step 1))"]),
            ("add_after", ["(add 1 0 1 1)", "(again 13 (step 1))"]),
            ("drop_after", ["(drop 1)", "(again 11 (step 1))"]),
            ("steps_after", ["(again 11 (step 1))"]),
            ("add_after_drop", ["(drop 1)", "(add 1 0 1 1)",
                                "(again 13 (step 1))"])):
        cases.all_named("add_short_%s" % name, [*s.lines, *more])


def grid_cases(cases, kept):
    """Two adds, or an add and a swap: so many steps of one, then of the other,
    then both run out."""
    for a in (1, 2, 4, 6, 7, 9, 11, 12):
        for b in (1, 2, 5, 7, 8, 10, 12):
            s = Script(3, 1, 6, [5]).add(0, 0, 2, 1 + a % 2)
            (s.swap(1, 0, 5, 9) if b % 2 else s.add(1, 0, 3, 1))
            s.steps(0, a).steps(1, b).out(a % 2).out(1 - a % 2)
            kept(cases, "add_grid_%d_%d" % (a, b), s.lines, 6)


def at_30_cases(cases):
    """Two adds at line 30, in both orders."""
    for first in (0, 1):
        for tries in (1, 2):
            s = Script(3, 1, 6, [5])
            contend(s, 0, 1, 0)
            s.add(0, 0, 1, tries).add(1, 0, 2, tries).part(0).part(1)
            s.until(0, 30).until(1, 30).step(first).step(1 - first)
            s.out(0).out(1).read(2, 0).out(2)
            cases.all_named("add_at_30_%d_first_r_%d" % (first, tries),
                            s.lines)


def named_cases(cases):
    """An add is one call, however many reads and swaps it has; 18 for one that is
    withdrawn or unfinished."""
    first = "(open 2 1 4 (5))"
    add = ["(add 0 0 1 3)", "(again 13 (step 0))"]
    read = ["(read 0 0)", "(again 3 (step 0))"]
    cases.named("add_then_read", [first, *add, *read], (0, 0), (0, 1))
    cases.refused("add_then_read", 0, 2, [first, *add, *read], 18)
    for steps in (0, 3, 12):
        left = ["(add 0 0 1 3)", "(again %d (step 0))" % steps]
        name = "add_after_%d" % steps
        cases.refused(name, 0, 0, [first, *left], 18)
        cases.refused(name + "_dropped", 0, 0, [first, *left, "(drop 0)"], 18)
        cases.named(name + "_dropped_then_read", [
            first, *left, "(drop 0)", *read], (0, 0))
    cases.refused("add_refused", 0, 0, [first, "(add 0 0 1 9)",
                                        "(again 13 (step 0))"], 18)
    s = Script(2, 1, 4, [5]).add(0, 0, 2, 3)
    lose(s, 0, 1, 0, 2).out(0).read(0, 0).out(0)
    cases.all_named("add_third_try", s.lines)


def nudge_add_cases(cases, kept):
    race_cases(cases)
    short_cases(cases)
    grid_cases(cases, kept)
    at_30_cases(cases)
    named_cases(cases)


# ------------------------------------------------------------------------ bus

def row_cases(cases, times):
    """Sums of rows."""
    for name, value, amount, tries in (
            ("added", 5, 2, 1), ("over", 5, NONE, 8), ("0", 5, 0, 1),
            ("top", NONE - 2, 1, 3)):
        s = Script(1, 1, 2, [value]).add(0, 0, amount, tries).out(0)
        cases.timed("add_%s" % name, times, s.lines)
    for tries in (1, 2, 5, 8):
        n, v, b, p, q, r, k = THREES[tries % 4]
        s = opened(n, v, b, k).add(p, k, 3, tries)
        cases.timed("add_spent_r_%d" % tries, times,
                    lose(s, p, q, k, tries).lines)
        s = opened(n, v, b, k).add(p, k, 3, tries)
        lose(s, p, q, k, tries - 1).out(p).read(p, k).out(p)
        cases.timed("add_added_r_%d" % tries, times, s.lines)
        for wins in (True, False):
            s = opened(n, v, b, k).add(p, k, 2, tries)
            for at in range(tries):
                longest_try(s, p, q, r, k, wins and at == tries - 1)
            cases.timed("add_longest_r_%d_%s" % (
                tries, "added" if wins else "spent"), times, s.lines)


def left_cases(cases, times):
    """An add that is withdrawn or unfinished has no line, nor have its reads and
    swaps; n counts finished calls, an add as one."""
    for name in ("active", "second", "decided"):
        for done, s in left_at_each_step(name, THREES[0]):
            if done % 5 != 2:
                continue
            cases.timed("add_left_%s_after_%d" % (name, done), times, s.lines)
            s.drop(0).add(0, 0, 1, 2).out(0).read(0, 0).out(0)
            cases.timed("add_drop_%s_after_%d" % (name, done), times, s.lines)


def meeting_cases(cases, times):
    for bursts in ((1,), (3, 2), (5, 7), (13,)):
        s = Script(3, 1, 6, [5]).add(0, 0, 1, 4).add(1, 0, 2, 2)
        turns(s.swap(2, 0, 5, 9), (0, 1, 2), bursts)
        s.add(2, 0, 1, 1).out(2).read(0, 0).out(0)
        cases.timed("add_turns_%s" % "_".join(map(str, bursts)), times, s.lines)
    for n, bursts in ((4, (3,)), (8, (5,)), (32, (13,))):
        cases.timed("add_crowd_n_%d" % n, times, crowd(n, 1, 8, bursts).lines)


def bus_add_cases(cases, times, draw_times):
    row_cases(cases, times)
    left_cases(cases, times)
    meeting_cases(cases, times)
    cases.bus("add_again", times, [
        "(open 2 1 4 (5))", "(again 6 (add 0 0 1 2) (again 13 (step 0))"
        " (add 1 0 0 1) (again 6 (step 1)) (add 1 0 1 9))"])
    drawn = draw.Draw(1113)
    for seed in range(1, 16):
        n, v = 2 + seed % 3, 1 + seed % 2
        cases.bus("add_drawn_n_%d_s%d" % (n, seed), draw_times(drawn),
                  draw.draw_session(
                      draw.Draw(13800 + seed), n, v, cells.least_blocks(n, v),
                      draw.Style(length=60 + 8 * seed, hot_cells=v, values=3,
                                 burst=1 + seed % 5, right_guess=80,
                                 refusals=(0, 5)[seed % 2],
                                 runs_out=(0, 30)[seed % 2],
                                 drops=(0, 0, 9)[seed % 3],
                                 adds=(40, 80)[seed % 2]), 100))
