"""Cases of calls: the table's paths, the paper's cases, halts, the pool, meetings, rates, contention."""

import cells
import draw
from script import Script, contend, counted, turn_blocks


# ------------------------------------------------------------ table's paths

def path_scripts():
    """Name, the table's path, and the script in which task p takes it; cell k
    holds 5 at first and task q is the other one."""

    def read_active(s, p, q, k):
        s.read(p, k).out(p)

    def read_decided(s, p, q, k):
        contend(s, p, q, k)
        s.read(p, k).out(p)

    def equal_active(expected):
        def script(s, p, q, k):
            s.swap(p, k, expected, expected).out(p)
        return script

    def equal_decided(expected):
        def script(s, p, q, k):
            contend(s, p, q, k)
            s.swap(p, k, expected, expected).out(p)
        return script

    def no_from_22(s, p, q, k):
        s.swap(p, k, 4, 6).out(p)

    def yes_from_26(s, p, q, k):
        s.swap(p, k, 5, 7).out(p)

    def yes_from_25(s, p, q, k):
        s.swap(q, k, 5, 7).swap(p, k, 5, 9)
        s.step(q, 2).step(p, 7).step(q, 2).out(p)

    def no_from_28_by_17(s, p, q, k):
        s.swap(p, k, 5, 7).swap(q, k, 5, 9)
        s.step(p, 2).step(q, 7).step(p, 2).out(q).out(p)

    def no_from_28_by_17_alone(s, p, q, k):
        contend(s, p, q, k)
        s.swap(p, k, 4, 6).out(p)

    def by_19(expected):
        def script(s, p, q, k):
            s.swap(p, k, expected, 7).swap(q, k, 5, 9)
            s.step(p, 3).step(q, 2).out(p)
        return script

    def by_21(expected):
        def script(s, p, q, k):
            s.swap(p, k, expected, 7).swap(q, k, 5, 9)
            s.step(p, 6).step(q, 4).out(p)
        return script

    def by_17_yes(s, p, q, k):
        contend(s, p, q, k)
        s.swap(p, k, 9, 4).out(p)

    def by_17_no(s, p, q, k):
        s.swap(p, k, 5, 7).swap(q, k, 5, 9)
        s.step(p, 2).step(q, 7).step(p, 5).out(q).out(p)

    def by_19_no(s, p, q, k):
        s.swap(p, k, 5, 7).swap(q, k, 5, 9)
        s.step(p, 3).step(q, 2).until(p, 30).out(q).out(p)

    def by_21_no(s, p, q, k):
        s.swap(p, k, 5, 7).swap(q, k, 5, 9)
        s.step(p, 6).step(q, 4).until(p, 30).out(q).out(p)

    def by_25_yes(s, p, q, k):
        s.swap(q, k, 5, 7).swap(p, k, 5, 9)
        s.step(q, 2).step(p, 7).step(q, 5).out(p)

    def by_25_no(s, p, q, k):
        s.swap(q, k, 5, 7).swap(p, k, 5, 9)
        s.step(q, 2).step(p, 7).step(q, 5).until(p, 30).out(q).out(p)

    return [
        ("read_active", "read_active", read_active),
        ("read_decided", "read_decided", read_decided),
        ("equal_active_yes", "read_active", equal_active(5)),
        ("equal_active_no", "read_active", equal_active(4)),
        ("equal_decided_yes", "read_decided", equal_decided(9)),
        ("equal_decided_no", "read_decided", equal_decided(5)),
        ("no_from_22", "no_from_22", no_from_22),
        ("yes_from_26", "yes_from_26", yes_from_26),
        ("yes_from_25", "yes_from_25", yes_from_25),
        ("no_from_28_by_17", "no_from_28_by_17", no_from_28_by_17),
        ("no_from_28_by_17_alone", "no_from_28_by_17",
         no_from_28_by_17_alone),
        ("no_from_28_by_19", "no_from_28_by_19", by_19(4)),
        ("no_from_28_by_21", "no_from_28_by_21", by_21(4)),
        ("end_at_30_by_17_yes", "end_at_30_by_17", by_17_yes),
        ("end_at_30_by_17_no", "end_at_30_by_17", by_17_no),
        ("end_at_30_by_19_yes", "end_at_30_by_19", by_19(5)),
        ("end_at_30_by_19_no", "end_at_30_by_19", by_19_no),
        ("end_at_30_by_21_yes", "end_at_30_by_21", by_21(5)),
        ("end_at_30_by_21_no", "end_at_30_by_21", by_21_no),
        ("end_at_30_by_25_yes", "end_at_30_by_25", by_25_yes),
        ("end_at_30_by_25_no", "end_at_30_by_25", by_25_no),
    ]


# N, V, B, the task that takes the path, the other task, the cell.
PLACES = [
    (2, 1, 4, 0, 1, 0),
    (2, 1, 5, 1, 0, 0),
    (3, 2, 7, 2, 0, 1),
    (5, 4, 15, 3, 4, 2),
    (32, 16, 79, 31, 30, 15),
    (32, 16, 128, 17, 31, 0),
]


def path_cases(cases):
    taken = set()
    for name, path, script in path_scripts():
        for n, v, b, p, q, k in PLACES:
            values = [100 + i for i in range(v)]
            values[k] = 5
            s = Script(n, v, b, values)
            script(s, p, q, k)
            trace = cases.add("path_%s_t%d_k%d" % (name, p, k), s.lines)
            task, finished, lines = trace.calls[-1]
            assert (task, cells.path_of(lines)) == (p, path), name
            assert not trace.refusals, name
            if name.endswith(("_yes", "_no")):
                assert finished.answer == name.endswith("_yes"), name
            taken.add(path)
    assert taken == set(cells.PATHS) - {cells.UNREACHED}


# ----------------------------------------------------- cases from the paper

P_START = ["(open 2 1 5 (5))", "(swap 0 0 5 7)", "(swap 1 0 5 9)",
           "(again 2 (step 0))", "(again 7 (step 1))"]
P1 = ["(open 2 1 5 (5))", "(swap 0 0 5 7)", "(again 10 (step 0))",
      "(read 1 0)", "(again 3 (step 1))"]
P9 = P_START + ["(again 2 (step 0))", "(again 5 (step 1))",
                "(again 3 (step 0))", "(swap 0 0 9 4)", "(again 13 (step 0))",
                "(swap 0 0 4 6)", "(again 10 (step 0))"]
P10 = P_START + ["(again 5 (step 0))", "(again 14 (step 1))",
                 "(again 6 (step 0))"]


def paper_cases(cases):
    cases.accepted("p1", P1)
    cases.accepted("p2_n_32", ["(open 32 1 65 (5))"])
    cases.refused("p2_n_33", ["(open 33 1 67 (5))"], 1)
    cases.accepted("p3_b_4", ["(open 2 1 4 (5))"])
    cases.refused("p3_b_3", ["(open 2 1 3 (5))"], 3)
    cases.accepted("p4_most", ["(open 2 1 5 (4294967294))"])
    cases.refused("p4_none", ["(open 2 1 5 (4294967295))"], 5)
    cases.accepted("p5", ["(open 2 1 5 (5))", "(swap 0 0 5 5)",
                          "(again 3 (step 0))"])
    cases.accepted("p6", ["(open 2 1 5 (5))", "(swap 0 0 4 6)",
                          "(again 8 (step 0))"])
    cases.refused("p7", ["(open 2 1 5 (5))", "(step 0)"], 11)
    cases.refused("p8", ["(open 2 1 5 (5))", "(read 2 1)",
                         "(swap 2 1 5 7)"], 7, 7)
    cases.accepted("p9", P9)
    cases.accepted("p10", P10)


# ------------------------------------------------------------- halted tasks

# For each line, how task 0 comes to have it next: cell 0 holds 5, task 1 may
# help and is run out afterwards.
def reach_read(steps):
    def script(s):
        s.read(0, 0).step(0, steps)
    return script


def reach_decision_of_read(steps):
    def script(s):
        contend(s, 0, 1, 0)
        s.read(0, 0).step(0, 3 + steps)
    return script


def reach_swap(steps, expected=5):
    def script(s):
        s.swap(0, 0, expected, 77).step(0, steps)
    return script


def reach_25(steps):
    def script(s):
        s.swap(1, 0, 5, 7).swap(0, 0, 5, 77)
        s.step(1, 2).step(0, 7).step(1, 2).step(0, 2 + steps).out(1)
    return script


def reach_27_on(steps):
    def script(s):
        s.swap(0, 0, 5, 77).swap(1, 0, 5, 9)
        s.step(0, 2).step(1, 7).step(0, 1 + steps).out(1)
    return script


REACH = [
    ("10", (10, 0), reach_read(0)),
    ("11", (11, 0), reach_read(1)),
    ("12", (12, 0), reach_read(2)),
    ("13_load_v", (1, 13), reach_decision_of_read(0)),
    ("13_swap_d", (2, 13), reach_decision_of_read(1)),
    ("13_load_d", (3, 13), reach_decision_of_read(2)),
    *((str(line), (line, 0), reach_swap(line - 15))
      for line in range(15, 22)),
    ("22", (22, 0), reach_swap(7, expected=4)),
    ("23", (23, 0), reach_swap(7)),
    ("24", (24, 0), reach_swap(8)),
    ("25_load_v", (1, 25), reach_25(0)),
    ("25_swap_d", (2, 25), reach_25(1)),
    ("25_load_d", (3, 25), reach_25(2)),
    ("26", (26, 0), reach_swap(9)),
    ("27", (27, 0), reach_27_on(0)),
    ("28_load_v", (1, 28), reach_27_on(1)),
    ("28_swap_d", (2, 28), reach_27_on(2)),
    ("28_load_d", (3, 28), reach_27_on(3)),
    *((str(line), (line, 0), reach_27_on(line)) for line in range(4, 9)),
    ("30", (30, 0), reach_27_on(9)),
]


def go_on_alone(s, task, times):
    """A task's swaps and reads one after another, none other moving."""
    for i in range(times):
        s.swap(task, 0, s.value(0), 20 + i).out(task)
        s.read(task, 0).out(task)
        s.swap(task, 0, 3, 4).out(task)


def halt_cases(cases):
    def opened(name, next_line, script):
        s = Script(4, 1, 8, [5])
        script(s)
        assert s.next_line(0) == next_line, name
        return s

    for name, next_line, script in REACH:
        s = opened(name, next_line, script)
        go_on_alone(s, 2, 3)
        trace = cases.add("halt_at_%s_others_alone" % name, s.lines)
        assert trace.next_lines[0] == next_line and not trace.refusals

        s = opened(name, next_line, script)
        turn_blocks(s, 2, 3, 7)
        trace = cases.add("halt_at_%s_blocks_turn" % name, s.lines)
        assert trace.next_lines[0] == next_line and not trace.refusals

        s = opened(name, next_line, script)
        turn_blocks(s, 3, 1, 6)
        s.out(0)
        go_on_alone(s, 0, 1)
        cases.accepted("late_at_%s_blocks_turned" % name, s.lines)

        s = opened(name, next_line, script)
        s.swap(2, 0, s.value(0), 8).step(2, 5).out(0).out(2)
        s.read(3, 0).out(3)
        cases.accepted("late_at_%s_one_between" % name, s.lines)

    # Every task but two halts, each at its own line.
    s = Script(32, 1, 64, [5])
    for task in range(30):
        value = s.value(0)
        if task % 3 == 0:
            s.read(task, 0).step(task, 1 + task % 2)
        else:
            s.swap(task, 0, value, 100 + task).step(task, 1 + task // 3)
        turn_blocks(s, 30, 31, 1)
    turn_blocks(s, 30, 31, 40)
    cases.accepted("halt_30_tasks_at_their_lines", s.lines)


# ------------------------------------------------------------------- the pool

def halt_at_30(s, task, q, cell=0):
    """The task ends up at line 30 with a replaced block held."""
    value = s.value(cell)
    s.swap(task, cell, value, 1000 + task).swap(q, cell, value, 2000 + task)
    s.step(task, 3).step(q, 2).until(task, 30).out(q)
    assert s.next_line(task) == (30, 0)


def pool_cases(cases):
    """Blocks go round the pool while halted tasks hold and have taken some."""
    for n, v, b in ((3, 1, 6), (3, 1, 7), (3, 1, 128), (4, 2, 9), (8, 1, 16),
                    (8, 1, 17), (8, 4, 19), (16, 1, 32), (32, 1, 64),
                    (32, 1, 65), (32, 16, 79)):
        s = Script(n, v, b, [5] * v)
        for task in range(n - 2):
            halt_at_30(s, task, n - 2, task % v)
        turn_blocks(s, n - 2, n - 1, b // 2 + 4)
        s.read(n - 1, 0).out(n - 1)
        name = "n_%d_v_%d_b_%d" % (n, v, b)
        cases.accepted("pool_halted_at_30_%s" % name, s.lines)
        for task in range(n - 2):
            s.out(task)
        turn_blocks(s, 0, n - 1, 5)
        cases.accepted("pool_late_at_30_%s" % name, s.lines)

    for n, v, b in ((2, 1, 4), (2, 2, 5), (3, 3, 8), (2, 1, 5), (2, 1, 128)):
        s = Script(n, v, b, [5] * v)
        for turn in range(b + 3):
            turn_blocks(s, turn % 2, 1 - turn % 2, 1, turn % v)
        cases.accepted("pool_turns_n_%d_v_%d_b_%d" % (n, v, b), s.lines)

    # A halted read and a halted swap hold a block that is replaced.
    for steps in range(1, 4):
        s = Script(4, 1, 8, [5])
        contend(s, 2, 3, 0)
        s.read(0, 0).step(0, steps).swap(1, 0, 9, 50).step(1, steps)
        turn_blocks(s, 2, 3, 10)
        s.out(0).out(1)
        cases.accepted("pool_replaced_while_held_%d" % steps, s.lines)
    # A taken block, not yet installed, stays its task's while the others go
    # round the pool on another cell.
    for n, v, b, p in ((4, 2, 9, 0), (4, 2, 10, 0), (5, 3, 12, 1),
                       (32, 16, 79, 0), (32, 16, 79, 28)):
        q, r, t = p + 1, p + 2, p + 3
        s = Script(n, v, b, [5] * v)
        s.swap(p, 0, 5, 77).swap(q, 0, 5, 9).step(p, 3).step(q, 2)
        s.until(p, 30)
        turn_blocks(s, r, t, b // 2 + 2, v - 1)
        s.out(p)
        turn_blocks(s, r, t, 1, v - 1)
        s.read(r, 0).out(r).read(t, v - 1).out(t).out(q)
        s.swap(r, 0, 77, 78).out(r).swap(t, v - 1, 5, 6).out(t)
        cases.accepted("pool_taken_n_%d_v_%d_b_%d_t%d" % (n, v, b, p), s.lines)
    last_block_cases(cases)
    # One task alone: its block is released with its call.
    s = Script(1, 1, 2, [5])
    for i in range(6):
        s.swap(0, 0, s.value(0), i).out(0)
    cases.accepted("pool_one_task", s.lines)


def one_block_left(n, v, more=0):
    """Line 4 where one block alone is unused (change request 10): p, the last
    task, holds a replaced block, every other but r has its own and has taken one;
    r, the task before it, who replaced the last one, has taken one for the other
    cell."""
    p, r = n - 1, n - 2
    s = Script(n, v, cells.least_blocks(n, v) + more, [5] * v)
    contend(s, p, r, 1)
    for task in range(n - 2):
        halt_at_30(s, task, r)
    value = s.value(0)
    s.swap(p, 0, value, 7).swap(r, 0, value, 8).step(p, 3).step(r, 2)
    return s.until(p, 4).out(r).swap(r, 1, 9, 6).until(r, 30)


def last_block_cases(cases):
    for n, v, more in ((2, 2, 0), (3, 2, 0), (4, 3, 0), (8, 2, 0), (8, 2, 1),
                       (16, 16, 0), (32, 2, 0), (32, 16, 0)):
        p, r = n - 1, n - 2
        s = one_block_left(n, v, more)
        b = s.model.b
        unused = [block for block in range(b) if not s.model.is_used(block)]
        assert s.next_line(p) == (4, 0) and len(unused) == 1 + more
        name = "pool_last_block_n_%d_v_%d_b_%d" % (n, v, b)
        s.step(p)
        assert s.model.tasks[p].installing in unused
        cases.accepted(name, s.lines)
        s.out(r).out(p)
        for task in range(n - 2):
            s.out(task)
        turn_blocks(s, 0, n - 1, 3)
        s.read(0, 0).out(0).read(0, 1).out(0)
        cases.accepted(name + "_all_end", s.lines)


# ------------------------------------------- single meetings, rates, contention

def meeting_cases(cases):
    # Reads at each moment of a contended swap.
    for at in range(0, 17):
        s = Script(3, 1, 7, [5])
        s.swap(0, 0, 5, 7).swap(1, 0, 5, 9).step(0, 2).step(1, 7)
        for moment in range(17):
            if moment == at:
                s.read(2, 0).out(2)
            task = 0 if moment < 3 else 1
            if s.model.tasks[task].busy:
                s.step(task)
        s.out(0).out(1)
        cases.accepted("meet_read_at_%d_of_p10" % at, s.lines)
    # Two swaps: the first takes some steps, the second runs out, then the
    # first does.
    for steps in range(1, 10):
        s = Script(2, 1, 5, [5])
        s.swap(0, 0, 5, 7).step(0, steps).swap(1, 0, 5, 9).out(1).out(0)
        s.read(1, 0).out(1)
        cases.accepted("meet_second_runs_out_after_%d" % steps, s.lines)
        s = Script(2, 1, 5, [5])
        s.swap(0, 0, 5, 7).step(0, steps).swap(1, 0, 7, 5).out(1).out(0)
        s.read(1, 0).out(1)
        cases.accepted("meet_there_and_back_after_%d" % steps, s.lines)
        s = Script(2, 1, 5, [5])
        s.swap(0, 0, 4, 7).step(0, min(steps, 7)).swap(1, 0, 5, 4).out(1)
        s.out(0)
        cases.accepted("meet_wrong_guess_after_%d" % steps, s.lines)
        s = Script(3, 1, 7, [5])
        s.swap(0, 0, 5, 7).step(0, steps).swap(1, 0, 5, 5).out(1)
        s.swap(2, 0, 7, 7).out(2).out(0)
        cases.accepted("meet_equal_values_after_%d" % steps, s.lines)
    # Step for step together.
    for n in (2, 3, 5, 8, 32):
        cases.add("meet_in_step_%d" % n, [
            draw.opening_line(n, 1, 2 * n, [5]),
            *("(swap %d 0 5 %d)" % (t, 6 + t) for t in range(n)),
            "(again 21 %s)" % " ".join("(step %d)" % t for t in range(n))])
        cases.add("meet_in_step_same_new_%d" % n, [
            draw.opening_line(n, 1, 2 * n, [5]),
            *("(swap %d 0 5 6)" % t for t in range(n)),
            "(again 15 %s)" % " ".join("(step %d)" % t for t in range(n))])
    # The same meeting on two cells at once does not mix.
    s = Script(4, 2, 10, [5, 5])
    for k, p, q in ((0, 0, 1), (1, 2, 3)):
        s.swap(p, k, 5, 7).swap(q, k, 5, 9).step(p, 2).step(q, 7)
    s.step(0, 2).step(2, 5).out(1).out(3).out(0).out(2)
    cases.accepted("meet_on_two_cells", s.lines)


def rate_cases(cases):
    cases.accepted("rate_none_finished", ["(open 2 1 5 (5))"])
    cases.accepted("rate_none_finished_busy", [
        "(open 2 1 5 (5))", "(read 0 0)", "(swap 1 0 5 7)"])
    # hardware swaps of an unfinished call are not counted
    cases.accepted("rate_unfinished_hard", P10[:-3] + ["(again 5 (step 0))"])
    cases.accepted("rate_unfinished_hard_3", P10[:-2] + [
        "(again 13 (step 1))"])
    for more in (1, 2, 3, 5, 9, 12, 60, 3995, 3996, 3997):
        lines = P9 + ["(again %d (read 0 0) (again 3 (step 0)))" % more]
        cases.accepted("rate_4_of_%d" % (4 + more), lines)
    for more in (1, 4, 5, 11):
        lines = P10 + ["(again %d (swap 0 0 9 9) (again 6 (step 0)))" % more]
        cases.add("rate_equal_swaps_%d" % more, lines)
    s = Script(3, 1, 7, [5])
    contend(s, 0, 1, 0)
    for i in range(7):
        s.read(2, 0).out(2)
    cases.accepted("rate_reads_of_decided", s.lines)
    for i in range(2):
        s.swap(2, 0, 9, 9).out(2).swap(2, 0, 8, 8).out(2)
    s.swap(2, 0, 9, 4).out(2).read(2, 0).out(2)
    cases.accepted("rate_reads_of_decided_then_replaced", s.lines)
    rounded_cases(cases)


# Hardware swaps and finished calls for which 1000 h / f is a whole and a half;
# 1 and 3 in 2,000 are those of change request 4.
HALVES = [(h, 16) for h in range(1, 32, 2)] + [
    (2, 32), (6, 32), (10, 32), (46, 32), (3, 48), (9, 48), (1, 80), (3, 80),
    (7, 80), (7, 112), (21, 112), (2, 160), (6, 160), (1, 400), (3, 400),
    (401, 400), (403, 400), (1, 2000), (3, 2000)]


def next_to_halves():
    """1000 h / f is as near to a half as f lets it, from below and above."""
    for f in (3, 7, 9, 11, 13, 17, 19, 21, 23, 27, 29, 31, 33, 18, 26, 34, 399,
              401):
        beside = 1 + (f % 2 == 0)
        for off in (-beside, beside):
            yield next((h, f) for h in range(1, f)
                       if 2 * (1000 * h % f) == f + off)
    # by one finished call more or less
    yield from ((h, f) for h in (1, 3) for f in (1999, 2001))


def rounded_cases(cases):
    """Rates at a half and on both sides of it, each with an even and with an
    odd whole below it."""
    kinds = set()
    for h, f in dict.fromkeys([*HALVES, *next_to_halves()]):
        whole, rest = divmod(1000 * h, f)
        kind = ("half" if 2 * rest == f else
                "below_half" if 2 * rest < f else "above_half",
                ("even", "odd")[whole % 2])
        assert rest and (kind[0] == "half") == ((h, f) in HALVES), (h, f)
        kinds.add(kind)
        name = "rate_%s_after_%s_%d_of_%d" % (*kind, h, f)
        cases.accepted(name, counted(h, f))
        up = kind[0] == "above_half" or kind == ("half", "odd")
        assert cases.prints[name].endswith(
            b"\n(end %d 0 %d %d)\n" % (f, h, whole + up)), name
    assert len(kinds) == 6, kinds


def contention_cases(cases):
    def drawn(name, seed, n, v, b, style, again=30):
        lines = draw.draw_session(draw.Draw(seed), n, v, b, style, again)
        cases.add(name, lines)

    for seed in range(1, 6):
        drawn("heavy_32_on_16_s%d" % seed, seed, 32, 16, 80, draw.Style(
            length=3000, hot_cells=16, values=5, burst=1 + seed,
            refusals=seed % 2, halts=2 * seed))
    for seed in range(1, 4):
        drawn("heavy_32_on_1_s%d" % seed, 100 + seed, 32, 1, 65, draw.Style(
            length=2500, values=3, burst=2 * seed, halts=5 * seed))
        drawn("heavy_32_on_3_of_16_s%d" % seed, 200 + seed, 32, 16, 80 + seed,
              draw.Style(length=2000, hot_cells=3, values=3, burst=3 * seed,
                         runs_out=10 * seed, refusals=2))
        drawn("heavy_8_on_2_s%d" % seed, 300 + seed, 8, 2, 18, draw.Style(
            length=2000, hot_cells=2, values=4, burst=4, runs_out=10,
            halts=seed))
    for seed in range(1, 61):
        n = 2 + seed % 5
        v = 1 + seed % 3
        drawn("drawn_n_%d_v_%d_s%d" % (n, v, seed), 1000 + seed, n, v,
              cells.least_blocks(n, v) + seed % 2, draw.Style(
                  length=60 + 3 * seed, hot_cells=1 + seed % 2, values=3,
                  burst=1 + seed % 8, refusals=(0, 0, 4)[seed % 3],
                  halts=seed % 3, runs_out=(0, 20, 50)[seed % 3],
                  reads=(10, 20, 40)[seed % 3], equal=(5, 15)[seed % 2]))
