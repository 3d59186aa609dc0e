"""Cases of moments (change request 8): each rule with each of its moments, calls
left unfinished, calls that share an action, blocks that live many times."""

import cells
import draw
import shaker
from cases_attempts import inactive, to_23
from cases_calls import P1, P9, P10, PLACES, REACH, path_scripts
from cases_refusals import padded
from script import Script, contend, turn_blocks

NONE = cells.NONE


def opened(n, v, b, k, value=5):
    values = [100 + i for i in range(v)]
    values[k] = value
    return Script(n, v, b, values)


# N, V, B, three tasks and the cell.
THREES = [
    (3, 1, 6, 0, 1, 2, 0),
    (3, 1, 7, 2, 1, 0, 0),
    (4, 2, 9, 1, 3, 0, 1),
    (32, 16, 79, 31, 0, 17, 15),
]


# ----------------------------------------------------- finished, by each rule

def path_cases(cases):
    """Each of the table's paths; then the other task's call is run out."""
    for name, _, script in path_scripts():
        for number, (n, v, b, p, q, k) in enumerate(PLACES[1:5]):
            s = opened(n, v, b, k)
            script(s, p, q, k)
            if number % 2:
                s.out(q)
            cases.accepted("path_%s_t%d_k%d" % (name, p, k), s.lines)


def observer_scripts():
    """Name and script: o's call on block b of the cell, whose moment is told by
    when b was decided.  p and q make b inactive."""

    def begin(s, o, k, kind):
        if kind == "read":
            s.read(o, k)
        elif kind == "no":
            s.swap(o, k, 4, 6)
        else:
            s.swap(o, k, kind, kind)

    for kind in ("read", 5, 9, 8, "no"):
        name = {"read": "r2", "no": "c5"}.get(kind, "c1_%s" % kind)

        def decided_before(s, o, p, q, k, kind=kind):
            to_23(s, p, q, k)
            s.out(p)
            begin(s, o, k, kind)

        def decided_just_after_the_load(s, o, p, q, k, kind=kind):
            to_23(s, p, q, k)
            s.until(p, 2)
            begin(s, o, k, kind)
            s.step(o).step(p)

        def inactive_before_decided_by_another(s, o, p, q, k, kind=kind):
            to_23(s, p, q, k)
            begin(s, o, k, kind)
            s.until(o, 1).out(p)

        def inactive_before_decided_by_itself(s, o, p, q, k, kind=kind):
            to_23(s, p, q, k)
            s.step(p)
            begin(s, o, k, kind)
            s.until(o, 3).out(p)

        def active_at_the_load(s, o, p, q, k, kind=kind):
            s.swap(q, k, 5, 7).swap(p, k, 5, 9).step(q, 2).step(p, 7)
            begin(s, o, k, kind)
            s.step(o).step(q, 2).step(p, 1)
            s.until(o, 1).out(p)

        def decided_and_replaced_since(s, o, p, q, k, kind=kind):
            s.swap(q, k, 5, 7).swap(p, k, 5, 9).step(q, 2).step(p, 7)
            begin(s, o, k, kind)
            s.step(o).step(q, 2).step(p, 1).out(p).out(q)
            s.swap(p, k, 9, 4).out(p).swap(q, k, 4, 3).out(q)

        for script in (decided_before, decided_just_after_the_load,
                       inactive_before_decided_by_another,
                       inactive_before_decided_by_itself, active_at_the_load,
                       decided_and_replaced_since):
            yield "%s_%s" % (name, script.__name__), script


def observer_cases(cases):
    for name, script in observer_scripts():
        for n, v, b, o, p, q, k in THREES[1:3]:
            s = opened(n, v, b, k)
            script(s, o, p, q, k)
            s.out(o).out(p).out(q)
            cases.accepted("at_%s_t%d" % (name, o), s.lines)


def store_cases(cases):
    """C3 and C4: p's store, and when q makes the block inactive."""
    for n, v, b, p, q, r, k in THREES:
        # q makes it inactive after so many steps of p
        for steps in range(4, 11):
            s = opened(n, v, b, k)
            s.swap(q, k, 5, 7).swap(p, k, 5, 9).step(q, 2).step(p, steps)
            s.step(q, 2).out(p).out(q)
            s.read(r, k).out(r)
            cases.add("store_inactive_after_%d_t%d_k%d" % (steps, p, k),
                      s.lines)
        # a late store, and q has loaded the value before it or not, or has
        # decided before it
        for steps in range(4):
            s = opened(n, v, b, k)
            to_23(s, p, q, k)
            s.step(q, steps)
            if s.model.tasks[q].busy:
                s.step(p).out(q).out(p)
            else:
                s.out(p)
            s.read(r, k).out(r)
            cases.accepted("store_late_after_%d_t%d_k%d" % (steps, p, k),
                           s.lines)
        # an early store that p finds inactive after it: q has loaded it, has
        # decided it, has ended
        for steps in range(1, 4):
            s = opened(n, v, b, k)
            s.swap(q, k, 5, 7).swap(p, k, 5, 9).step(q, 2).step(p, 8)
            s.step(q, 2 + steps).step(p, 2).out(q).out(p)
            s.read(r, k).out(r)
            cases.accepted("store_seen_after_%d_t%d_k%d" % (steps, p, k),
                           s.lines)
    # a swap to and fro, both by the store
    s = Script(2, 1, 5, [5])
    for _ in range(4):
        s.swap(0, 0, 5, 7).out(0).swap(1, 0, 7, 5).out(1)
    cases.accepted("store_to_and_fro", s.lines)


# --------------------------------------------------------------- unfinished

def halt_cases(cases):
    """Task 0 halts before each line; the others go on for a while, or it is run
    out after them."""
    for name, next_line, script in REACH:
        for late in (False, True):
            s = Script(4, 1, 8, [5])
            script(s)
            assert s.next_line(0) == next_line, name
            s.read(3, 0).out(3)
            turn_blocks(s, 2, 3, 2)
            if late:
                s.out(0)
            else:
                assert s.next_line(0) == next_line, name
            cases.accepted("%s_at_%s" % ("late" if late else "halt", name),
                           s.lines)
        s = Script(4, 1, 9, [5])
        script(s)
        cases.accepted("stop_at_%s" % name, s.lines)


def unfinished_cases(cases):
    for n, v, b, p, q, r, k in THREES:
        def add(name, s):
            cases.accepted("left_%s_t%d_k%d" % (name, p, k), s.lines)

        # a late store: not decided; decided by q, by a read, by itself; decided
        # for the value before it
        for line in (24, 1, 2, 3):
            s = opened(n, v, b, k)
            to_23(s, p, q, k)
            s.step(p).until(p, line)
            add("late_store_at_%d_alone" % line, s)
            s.until(q, 3)
            add("late_store_at_%d_then_q_decides" % line, s)
            s.out(q)
            add("late_store_at_%d_then_q_ends" % line, s)
            s.swap(q, k, 9, 4).out(q)
            add("late_store_at_%d_then_replaced" % line, s)
            s.read(q, k).out(q).swap(r, k, 4, 5).out(r)
            add("late_store_at_%d_long_ago" % line, s)

            s = opened(n, v, b, k)
            to_23(s, p, q, k)
            s.step(p).until(p, line).read(r, k).out(r)
            add("late_store_at_%d_then_a_read" % line, s)

            s = opened(n, v, b, k)
            to_23(s, p, q, k)
            s.until(q, 2).step(p).until(p, line).out(q)
            add("late_store_at_%d_other_value" % line, s)
        s = opened(n, v, b, k)
        to_23(s, p, q, k)
        s.until(q, 3).step(p)
        add("late_store_after_the_decision", s)
        s.until(p, 30)
        add("late_store_lost_at_30", s)

        # a store on an active block: at 24 and 26; then q makes it inactive;
        # then p sees that
        for steps in (8, 9):
            s = opened(n, v, b, k)
            s.swap(p, k, 5, 9).step(p, steps)
            add("store_and_%d" % steps, s)
            s.read(r, k).out(r)
            s.swap(q, k, 9, 6).step(q, 4)
            add("store_and_%d_then_inactive" % steps, s)
            if steps == 8:
                s.step(p)
                add("store_saw_it", s)
                s.step(p)
                add("store_saw_it_and_loaded", s)
                s.step(p)
                add("store_saw_it_and_decided", s)
            s.out(q)
            add("store_and_%d_then_replaced" % steps, s)
            s.swap(r, k, 6, 5).out(r).read(q, k).out(q)
            add("store_and_%d_long_ago" % steps, s)

        # q, on its way by 17, has stored nothing, and the block is decided for
        # its new value
        for steps in range(4):
            s = opened(n, v, b, k)
            s.swap(q, k, 5, 9).swap(p, k, 5, 9).step(q, 2).step(p, 7)
            s.step(q, 1 + steps).out(p)
            add("never_stored_by_17_and_%d" % steps, s)
        # the same by 19; by 21 the value that is there is its new one
        for steps in range(3):
            s = opened(n, v, b, k)
            s.swap(q, k, 5, 9).step(q, 3).swap(p, k, 5, 9).step(p, 7)
            s.step(q, 3 + steps).out(p)
            add("never_stored_by_19_and_%d" % steps, s)
            s = opened(n, v, b, k)
            s.swap(q, k, 4, 5).step(q, 6).swap(p, k, 5, 9).step(p, 4)
            s.step(q, 1 + steps).out(p)
            add("never_stored_by_21_and_%d" % steps, s)
        # and where it would take a block for it
        s = opened(n, v, b, k)
        contend(s, p, q, k)
        for line in (1, 2, 3, 4, 5, 8, 30):
            if line == 1:
                s.swap(p, k, 9, 4)
            s.until(p, line)
            add("replacing_at_%d" % line, s)
        s.swap(q, k, 9, 3).out(q)
        add("replacing_too_late", s)

        # reads, and swaps of equal values, halted at each of their lines
        for kind in ("read", 5, 9):
            s = opened(n, v, b, k)
            inactive(s, p, q, k)
            for line in (11, 12, 1, 2, 3):
                if line == 11:
                    if kind == "read":
                        s.read(r, k)
                    else:
                        s.swap(r, k, kind, kind)
                s.until(r, line)
                add("%s_at_%d" % (kind, line), s)


# ----------------------------------------------------- calls at one action

def shared_decision(s, tasks, p, q, k):
    """Every task is about to attempt D of one block; reads, swaps of equal
    values, and swaps of another value."""
    to_23(s, p, q, k)
    s.step(p)
    for number, t in enumerate(tasks):
        if number % 4 == 0:
            s.read(t, k)
        elif number % 4 == 1:
            s.swap(t, k, 9, 9)
        elif number % 4 == 2:
            s.swap(t, k, 4, 6)
        else:
            s.swap(t, k, 8, 8)
        s.until(t, 2)


def at_30(s, tasks, k):
    """Every task is about to replace the cell's block, inactive and decided."""
    for t in tasks:
        s.swap(t, k, s.value(k), 200 + t).until(t, 30)


def in_turn(tasks, how):
    """The tasks in another order."""
    tasks = list(tasks)
    return {"up": tasks, "down": tasks[::-1],
            "middle": tasks[1::2] + tasks[::2]}[how]


def shared_cases(cases):
    for n, v, b in ((6, 1, 12), (12, 2, 25), (32, 16, 79)):
        k = v - 1
        for how in ("up", "down", "middle"):
            name = "n_%d_%s" % (n, how)
            # the decision of one block is the moment of many
            tasks = [t for t in range(n) if t not in (1, n - 2)]
            s = opened(n, v, b, k)
            shared_decision(s, in_turn(tasks, how), 1, n - 2, k)
            for t in in_turn(tasks, how):
                s.out(t)
            s.out(n - 2).out(1)
            cases.accepted("shared_decision_%s" % name, s.lines)

            # one replaces it, the others come too late
            s = opened(n, v, b, k)
            contend(s, 1, n - 2, k)
            at_30(s, in_turn(range(n), how), k)
            winner = in_turn(range(n), how)[n // 2]
            s.out(winner)
            s.read(winner, k).out(winner)
            for t in in_turn(tasks, "down"):
                if t != winner:
                    s.out(t)
            cases.accepted("shared_replacement_%s" % name, s.lines)

    # each of three tasks is the one that replaces it
    for winner in range(3):
        s = Script(3, 1, 7, [5])
        contend(s, 0, 1, 0)
        at_30(s, (0, 1, 2), 0)
        s.out(winner)
        for t in (2, 0, 1):
            s.out(t)
        cases.accepted("shared_replacement_by_%d_of_3" % winner, s.lines)
        # the replacement, and then the value is back before the others end
        s = Script(4, 1, 9, [5])
        contend(s, 0, 1, 0)
        at_30(s, (0, 1, 2), 0)
        s.out(winner)
        s.swap(3, 0, s.value(0), 9).out(3)
        for t in (1, 2, 0):
            s.out(t)
        cases.accepted("shared_replacement_by_%d_value_back" % winner, s.lines)

    # several replacements, each with its noes, on two cells
    s = Script(8, 2, 18, [5, 5])
    for k, tasks in ((0, (0, 2, 4, 6)), (1, (7, 5, 3, 1))):
        contend(s, tasks[0], tasks[1], k)
    at_30(s, (0, 2, 4), 0)
    at_30(s, (7, 5, 3), 1)
    s.out(4).out(3).out(7).out(0)
    for k, t, u in ((0, 4, 6), (1, 3, 1)):
        s.swap(u, k, s.value(k), 50).step(u, 2)
        s.swap(t, k, s.value(k), 51).out(t).out(u)
    s.out(2).out(5)
    cases.accepted("shared_on_two_cells", s.lines)


# ------------------------------------------------------------- blocks' lives

def meet_late(s, p, q, k, i):
    """p's store is late, and counts; both end."""
    value = s.value(k)
    s.swap(q, k, value, 30 + i).swap(p, k, value, 60 + i)
    s.step(q, 2).step(p, 7).step(q, 2).step(p, 1).out(q).out(p)


def replace(s, p, k, i):
    """p replaces the cell's inactive block, and then stores in the new one."""
    s.swap(p, k, s.value(k), 90 + i).out(p)
    s.swap(p, k, s.value(k), 91 + i).out(p)


def lives_cases(cases):
    for n, v, b in ((2, 1, 4), (2, 1, 5), (2, 2, 5), (3, 1, 6), (5, 3, 12),
                    (32, 16, 79)):
        name = "n_%d_v_%d_b_%d" % (n, v, b)
        s = Script(n, v, b, [5] * v)
        for i in range(min(b, 10) + 2):
            p, q, k = i % n, (i + 1) % n, i % v
            meet_late(s, p, q, k, i)
            s.read(p, k).out(p)
            replace(s, q, k, i)
        cases.accepted("lives_late_stores_%s" % name, s.lines)

        s = Script(n, v, b, [5] * v)
        for i in range(min(b, 10) + 2):
            p, q, k = i % n, (i + 1) % n, i % v
            turn_blocks(s, p, q, 1, k)
            s.swap(p, k, s.value(k), s.value(k)).out(p)
            s.swap(q, k, s.value(k) + 1, 3).out(q)
        cases.accepted("lives_turned_%s" % name, s.lines)

    for n, v, b in ((2, 1, 4), (2, 2, 5), (3, 1, 6)):
        name = "n_%d_v_%d_b_%d" % (n, v, b)
        # an unfinished store at the end, in a block that has lived before
        s = Script(n, v, b, [5] * v)
        for i in range(min(b, 10) + 2):
            meet_late(s, 0, 1, 0, i)
            replace(s, 1, 0, i)
        s.swap(0, 0, s.value(0), 2).step(0, 8)
        cases.accepted("lives_unfinished_store_%s" % name, s.lines)
        s.swap(1, 0, 2, 3).step(1, 4)
        cases.accepted("lives_unfinished_store_inactive_%s" % name, s.lines)

        # a late store at the end, its block not decided in this life
        s = Script(n, v, b, [5] * v)
        for i in range(min(b, 10) + 2):
            meet_late(s, 0, 1, 0, i)
            replace(s, 1, 0, i)
        value = s.value(0)
        s.swap(1, 0, value, 7).swap(0, 0, value, 9)
        s.step(1, 2).step(0, 7).step(1, 2).step(0, 1)
        cases.accepted("lives_unfinished_late_store_%s" % name, s.lines)
        s.until(1, 3)
        cases.accepted("lives_unfinished_late_store_decided_%s" % name,
                       s.lines)

    # a read holds its block while the others' go round, then ends
    for steps in (1, 2, 3, 4):
        s = Script(3, 1, 6, [5])
        contend(s, 1, 2, 0)
        s.read(0, 0).step(0, steps)
        turn_blocks(s, 1, 2, 9)
        s.out(0)
        cases.accepted("lives_read_held_%d" % steps, s.lines)


# ----------------------------------------- early moments of calls that end late

def early_cases(cases):
    """Task 0 ends long after its moment; calls between are told after it."""
    def between(s):
        for i in range(5):
            s.read(1, 0).out(1).swap(2, 0, s.value(0), 40 + i).out(2)
            s.swap(1, 0, 3, 3).out(1).swap(2, 0, 3, 4).out(2)

    for name, begin, until in (
            ("r1", ("read", 5), 12), ("c1_yes", (5, 5), 12),
            ("c1_no", (4, 4), 12), ("c2", (4, 6), 22), ("c4", (5, 9), 26)):
        s = Script(3, 1, 7, [5])
        if begin[0] == "read":
            s.read(0, 0)
        else:
            s.swap(0, 0, *begin)
        s.until(0, until)
        if begin[0] == "read" or begin[0] == begin[1]:
            between(s)
        else:
            for _ in range(5):
                s.read(1, 0).out(1).read(2, 0).out(2)
        s.out(0)
        cases.accepted("early_%s" % name, s.lines)
    for name, begin, until in (
            ("r2", ("read", 5), 3), ("c1_yes_decided", (9, 9), 3),
            ("c1_no_decided", (5, 5), 3), ("c5", (4, 6), 3),
            ("c6_no", (9, 6), 30)):
        s = Script(3, 1, 7, [5])
        contend(s, 1, 2, 0)
        if begin[0] == "read":
            s.read(0, 0)
        else:
            s.swap(0, 0, *begin)
        s.until(0, until)
        between(s)
        s.out(0)
        cases.accepted("early_%s" % name, s.lines)
    s = Script(3, 1, 7, [5])
    to_23(s, 0, 1, 0)
    s.step(0)
    between_reads = [s.read(2, 0).out(2) for _ in range(4)]
    assert len(between_reads) == 4
    s.out(1)
    between(s)
    s.out(0)
    cases.accepted("early_c3_late", s.lines)

    # 30 tasks have each an early moment and end in another order
    for how in ("up", "down", "middle"):
        s = Script(32, 2, 66, [5, 5])
        for t in range(30):
            if t % 2:
                s.read(t, t % 3 % 2).step(t, 2)
            else:
                s.swap(t, t % 3 % 2, 5, 5).step(t, 2)
        for i in range(20):
            s.swap(30, 0, s.value(0), i).out(30).read(31, 1).out(31)
        for t in in_turn(range(30), how):
            s.out(t)
        cases.accepted("early_30_tasks_%s" % how, s.lines)


# ------------------------------------------------------------- refusals, lists

def refusal_cases(cases):
    def refused(number, name, data):
        cases.refused("bad_%02d_%s" % (number, name), data, number)

    refused(12, "bytes", padded(P1, 65537))
    refused(13, "no_last_line_end", b"(open 2 1 5 (5))\n(step 0)")
    refused(13, "two_spaces", ["(open 2 1 5 (5))", "(step  0)"])
    refused(13, "depth_9", ["(open 2 1 5 (5))",
                            "(again 1 " * 8 + "(step 0)" + ")" * 8])
    refused(13, "before_01", ["(open 0 1 5 (5))", "(step 0"])
    refused(14, "empty_file", b"")
    refused(14, "no_open", ["(step 0)"])
    refused(14, "open_twice", ["(open 2 1 5 (5))"] * 2)
    refused(14, "leading_zero", ["(open 2 1 5 (5))", "(step 00)"])
    refused(14, "word", ["(open 2 1 5 (5))", "(at 0)"])
    refused(14, "drops", ["(open 2 1 5 (5))", "(read 0 0)", "(drops 0)"])
    refused(14, "before_05", ["(open 2 1 5 (4294967295))", "(step)"])
    refused(15, "actions", ["(open 2 1 5 (5))", "(again 65536 (step 0))"])
    refused(15, "before_02", ["(open 2 0 5 (5))", "(again 65536 (step 0))"])
    calls = ["(read 0 0)", "(again 3 (step 0))"]
    for number, name, first in (
            (1, "n_0", "(open 0 1 5 (5))"), (1, "n_33", "(open 33 1 128 (5))"),
            (1, "n_most", "(open 4294967295 1 128 (5))"),
            (1, "before_02", "(open 33 17 128 (5))"),
            (2, "v_0", "(open 1 0 3 ())"), (2, "v_17", "(open 1 17 128 (5))"),
            (2, "before_03", "(open 1 17 129 (5))"),
            (3, "b_few", "(open 32 16 78 (%s))" % " ".join("5" * 16)),
            (3, "b_129", "(open 2 1 129 (5))"),
            (3, "b_most", "(open 2 1 4294967295 (5))"),
            (3, "before_04", "(open 2 1 129 ())"),
            (4, "no_values", "(open 2 1 5 ())"),
            (4, "one_many", "(open 2 1 5 (5 6))"),
            (4, "before_05", "(open 2 1 5 (4294967295 5))"),
            (5, "first", "(open 2 2 6 (4294967295 5))"),
            (5, "last", "(open 2 2 6 (5 4294967295))")):
        refused(number, name, [first, *calls])

    cases.accepted("none_open_alone", ["(open 3 2 8 (1 2))"])
    cases.accepted("none_again_0", ["(open 2 1 5 (5))",
                                    "(again 0 (read 0 0) (step 0))"])
    cases.accepted("none_again_of_nothing", ["(open 2 1 5 (5))",
                                             "(again 4294967295)"])
    cases.accepted("none_begun_only", ["(open 2 1 5 (5))", "(read 0 0)",
                                       "(swap 1 0 5 7)"])
    cases.add("none_all_refused", ["(open 2 1 5 (5))", "(again 9 (step 0))",
                                   "(read 2 0)", "(swap 0 1 5 7)",
                                   "(swap 0 0 5 4294967295)"])

    # refused actions between count as actions, and do nothing else
    between = ["(read 2 0)", "(step 2)", "(read 0 1)", "(swap 1 7 5 5)",
               "(swap 1 0 4294967295 4294967295)", "(step 4294967295)"]
    for name, lines in (("p1", P1), ("p9", P9), ("p10", P10)):
        cases.add("refused_between_%s" % name, lines[:1] + [
            more for line in lines[1:] for more in (line, *between)])
        cases.add("refused_each_%s" % name, lines[:1] + [
            line.replace("(step 0)", "(step 0) (read 0 0)").replace(
                "(step 1)", "(swap 1 0 5 6) (step 1)") for line in lines[1:]])
    cases.add("refused_step_too_many", [
        "(open 2 1 5 (5))", "(read 0 0)", "(again 5 (step 0))",
        "(swap 1 0 5 7)", "(again 12 (step 1))", "(read 0 0)",
        "(again 4 (step 0))"])


def again_cases(cases):
    agains = "(again 3 (again 2 (read 0 0) (again 3 (step 0))) (again 0 (step 1)))"
    cases.accepted("again_nested", ["(open 2 1 5 (5))", agains, "(again 2)",
                                    agains])
    for n in (2, 3, 8, 32):
        steps = " ".join("(step %d)" % t for t in range(n))
        first = draw.opening_line(n, 1, 2 * n, [5])
        swaps = ["(swap %d 0 5 %d)" % (t, 6 + t) for t in range(n)]
        for times in (9, 12, 21):
            cases.add("again_in_step_%d_by_%d" % (n, times), [
                first, *swaps, "(again %d %s)" % (times, steps)])
        cases.add("again_in_step_same_new_%d" % n, [
            first, *("(swap %d 0 5 6)" % t for t in range(n)),
            "(again 15 %s)" % steps])
        cases.add("again_reads_in_step_%d" % n, [
            first, *("(read %d 0)" % t for t in range(n)),
            "(again 3 %s)" % steps])


# A meeting with a late store, a replacement and a swap by the store; the value
# is 5 again after it.
ROUND = ("(swap 0 0 5 7) (swap 1 0 5 9) (again 2 (step 0)) (again 7 (step 1))"
         " (again 2 (step 0)) (again 5 (step 1)) (again 3 (step 0))"
         " (swap 0 0 9 4) (again 13 (step 0)) (swap 1 0 4 5)"
         " (again 10 (step 1))")


def long_cases(cases):
    cases.accepted("long_rounds", ["(open 2 1 5 (5))",
                                   "(again 450 %s)" % ROUND])
    # most of the actions are refused: the numbers are five digits long
    cases.add("long_numbers", ["(open 2 1 5 (5))", "(swap 0 0 5 7)",
                               "(again 65450 (read 0 0))", *P1[2:], *P9[1:4]])
    cases.add("long_65535", ["(open 1 1 3 (5))", "(again 65531 (step 0))",
                             "(read 0 0)", "(again 3 (step 0))"])


# ------------------------------------------------------------------- drawn

def drawn_cases(cases):
    for seed in range(1, 61):
        n = 2 + seed % 5
        v = 1 + seed % 3
        lines = draw.draw_session(
            draw.Draw(8000 + seed), n, v,
            cells.least_blocks(n, v) + (0, 0, 1)[seed % 3], draw.Style(
                length=40 + 3 * seed, hot_cells=1 + seed % 2,
                values=2 + seed % 3, burst=1 + seed % 8,
                refusals=(0, 0, 5)[seed % 3], halts=seed % 3,
                runs_out=(0, 20, 50)[seed % 4 % 3],
                reads=(10, 20, 40)[seed % 3], equal=(5, 15)[seed % 2]), 100)
        cases.add("drawn_n_%d_v_%d_s%d" % (n, v, seed), lines)
    for seed in range(1, 6):
        lines = draw.draw_session(
            draw.Draw(8800 + seed), 32, (1, 16)[seed % 2],
            (65, 80)[seed % 2], draw.Style(
                length=500, hot_cells=1 + seed % 3, values=3,
                burst=1 + 2 * seed, halts=4 * seed, runs_out=9 * seed,
                refusals=seed % 2), 100)
        cases.add("drawn_32_s%d" % seed, lines)
    for seed in range(21):
        n, v = 1 + seed % 7, 1 + seed % 2
        cases.accepted("shaken_n_%d_v_%d_s%d" % (n, v, seed), shaker.shake(
            77 * seed, n, v, cells.least_blocks(n, v), 60 + 7 * seed))
    for seed, n, v, length in ((1, 32, 16, 400), (2, 32, 1, 400),
                               (3, 4, 1, 400)):
        cases.accepted("shaken_long_%d" % seed, shaker.shake(
            seed, n, v, cells.least_blocks(n, v), length))
