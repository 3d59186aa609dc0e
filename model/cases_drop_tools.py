"""Cases of drops (change request 12), of nudge and of bus.

An exchange of a drop with a neighbour never matters, as nobody else sees it (see
nudge_selftest.py); what matters is that it is there: a call that an exchange makes
longer is withdrawn by it."""

import cells
import draw
from cases_attempts import to_23
from cases_calls import P1, P9, P10
from cases_drop import early, late
from script import Script


# ---------------------------------------------------------------------- nudge

def read_next_to_27(s):
    """Task 1's read finds C false, and task 0 sets it next: exchanged, the read
    has three steps more, and the same answer."""
    s.swap(0, 0, 5, 7).step(0, 2).swap(2, 0, 5, 8).step(2, 7).step(0, 1)
    return s.read(1, 0).step(1, 2).step(1).step(0)


def swap_next_to_27(s):
    """The same of a swap that has stored: task 1's line 24 and task 0's 27."""
    s.swap(0, 0, 5, 7).step(0, 2).swap(1, 0, 5, 8).step(1, 8).step(0, 1)
    return s.step(1).step(0).step(1)


def longer_cases(cases):
    """A drop that is refused, as the call has ended; after the exchange it
    withdraws it."""
    for name, script in (("read", read_next_to_27), ("swap", swap_next_to_27)):
        def lines(*more):
            return [*script(Script(3, 1, 6, [5])).lines, *more]

        steps, drop = "(again 4 (step 1))", "(drop 1)"
        read = ["(read 1 0)", "(again 6 (step 1))"]
        cases.named("drop_%s_longer" % name, lines(drop, steps), (1, 0))
        cases.named("drop_%s_too_late" % name, lines(steps, drop), (1, 0))
        cases.named("drop_%s_after_one_step" % name,
                    lines("(step 1)", drop, "(again 3 (step 1))"), (1, 0))
        cases.named("drop_%s_without" % name, lines(steps), (1, 0))
        # another call of the same task answers as it did
        cases.named("drop_%s_then_the_same" % name,
                    lines(drop, *read, drop, *read), (1, 0), (1, 1), (1, 2))
        # the next call is begun only because of the drop
        cases.named("drop_%s_lets_begin" % name, lines(drop, *read), (1, 1))
        cases.named("drop_%s_does_not_let_begin" % name,
                    lines("(drop 2)", *read), (1, 1))
        # refused ones next to it
        cases.named("drop_%s_others_between" % name, lines(
            "(drop 7)", drop, "(drop 4294967295)", steps), (1, 0))


def separate_cases(cases):
    """A store and a load of it: with a drop between them they are no neighbours;
    beside them it changes nothing."""
    def lines(*actions):
        s = Script(3, 1, 6, [5])
        s.swap(0, 0, 5, 7).step(0, 7).read(1, 0).step(1, 1)
        return [*s.lines, *actions, "(again 2 (step 1))"]

    store, load, drop = "(step 0)", "(step 1)", "(drop 0)"
    for name, actions in (("between", (store, drop, load)),
                          ("after", (store, load, drop)),
                          ("load_first", (load, store, drop)),
                          ("before_the_store", (drop, store, load)),
                          ("of_another_between", (store, "(drop 2)", load)),
                          ("of_no_task_between", (store, "(drop 9)", load))):
        cases.named("drop_%s_store_and_load" % name, lines(*actions), (1, 0))


def store_cases(cases):
    """Stores of a swap that is withdrawn, next to what decides whether they
    count; the other calls are named."""
    for first, second in ((0, 1), (1, 0)):
        s = Script(3, 1, 6, [5])
        to_23(s, 0, 1, 0)
        s.step(first).step(second).drop(0).out(1).read(2, 0).out(2)
        s.read(0, 0).out(0)
        cases.all_named("drop_late_store_%d_first" % first, s.lines)
    for name, script in (("late", lambda s: late(s, 0, 1, 0, 24)),
                         ("early", lambda s: early(s, 0, 0))):
        s = Script(3, 1, 6, [5])
        script(s).read(2, 0).step(2, 1).drop(0).step(2, 1)
        s.swap(0, 0, s.value(0), 4).step(0, 2).out(2).out(0).out(1)
        cases.all_named("drop_%s_store_seen" % name, s.lines)
    # two tasks at 30, one of them dropped
    s = Script(3, 1, 6, [5])
    s.swap(0, 0, 5, 7).swap(1, 0, 5, 9).step(0, 3).step(1, 2)
    s.until(0, 30).until(1, 30).drop(0).step(1)
    s.swap(0, 0, 9, 3).out(0).read(2, 0).out(2)
    cases.all_named("drop_at_30", s.lines)


def named_cases(cases):
    """18 for a withdrawn call; how many of a task's calls finished before counts
    no withdrawn one."""
    first = "(open 2 1 4 (5))"
    read = ["(read 0 0)", "(again 3 (step 0))"]
    for steps in (0, 2):
        dropped = ["(read 0 0)", "(again %d (step 0))" % steps, "(drop 0)"]
        name = "drop_after_%d" % steps
        cases.refused(name, 0, 0, [first, *dropped], 18)
        cases.refused(name + "_steps_after", 0, 0, [
            first, *dropped, "(again 3 (step 0))"], 18)
        cases.refused(name + "_second", 0, 1, [first, *read, *dropped], 18)
        cases.refused(name + "_second_first", 0, 1, [first, *dropped, *read],
                      18)
        cases.named(name + "_then", [first, *dropped, *read, *dropped, *read],
                    (0, 0), (0, 1))
    cases.refused("drop_store", 0, 0, [first, "(swap 0 0 5 7)",
                                       "(again 9 (step 0))", "(drop 0)"], 18)
    # 19 counts drops
    lines = [first, *read, "(again 998 (read 1 0) (drop 1))"]
    cases.named("drop_actions_2000", lines, (0, 0))
    cases.refused("drop_actions_2001", 0, 0, [*lines, "(drop 0)"], 19)


def nudge_drop_cases(cases):
    longer_cases(cases)
    separate_cases(cases)
    store_cases(cases)
    named_cases(cases)


# ------------------------------------------------------------------------ bus

def bus_drop_cases(cases, times, draw_times):
    """A withdrawn call's accesses are counted for nobody."""
    first = "(open 2 1 4 (5))"
    swap, drop = "(swap 0 0 5 7)", "(drop 0)"
    for steps in (0, 1, 8, 9):
        dropped = [swap, "(again %d (step 0))" % steps, drop]
        name = "drop_after_%d" % steps
        cases.timed(name + "_alone", times, [first, *dropped])
        cases.timed(name + "_then_a_read", times, [
            first, *dropped, "(read 0 0)", "(again 3 (step 0))"])
        cases.timed(name + "_between", times, [
            first, "(read 0 0)", "(again 3 (step 0))", *dropped, "(read 1 0)",
            "(again 3 (step 1))", "(swap 0 0 3 4)", "(again 2 (step 0))", drop,
            "(read 0 0)", "(again 3 (step 0))"])
    for line in (1, 2, 3, 4, 7, 30):
        s = Script(2, 1, 4, [5])
        s.swap(0, 0, 5, 7).swap(1, 0, 5, 9).step(0, 2).step(1, 7).step(0, 5)
        s.until(1, line).drop(1).out(0).read(1, 0).out(1)
        s.swap(1, 0, s.value(0), 4).out(1)
        cases.timed("drop_at_%d_of_p10" % line, times, s.lines)
    for name, lines in (("p1", P1), ("p9", P9), ("p10", P10)):
        # refused ones: an idle task's, and of no task
        cases.bus("drop_refused_%s" % name, times, lines[:1] + ["(drop 1)"] + [
            more for line in lines[1:] for more in (line, "(drop 2)")]
            + ["(drop 0)", "(drop 0)"])
    cases.bus("drop_again", times, [
        first, "(again 9 (read 0 0) (again 2 (step 0)) (drop 0) (read 1 0)"
        " (again 3 (step 1)) (drop 1))"])
    drawn = draw.Draw(1112)
    for seed in range(1, 11):
        n, v = 2 + seed % 3, 1 + seed % 2
        cases.bus("drop_drawn_n_%d_s%d" % (n, seed), draw_times(drawn),
                  draw.draw_session(
                      draw.Draw(12800 + seed), n, v, cells.least_blocks(n, v),
                      draw.Style(length=60 + 8 * seed, hot_cells=v, values=3,
                                 burst=1 + seed % 5, right_guess=80,
                                 refusals=(0, 5)[seed % 2],
                                 runs_out=(0, 30)[seed % 2],
                                 drops=(4, 9, 18)[seed % 3]), 100))
