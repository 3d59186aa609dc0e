"""Cases of drops (change request 12), of session and of moments: a task withdrawn
at each line, winners and losers of the splitter, stores that count and that do not,
blocks that are used again."""

import cells
import draw
import moments
import reader
from cases_attempts import to_23
from cases_calls import (P1, P9, P10, PLACES, halt_at_30, one_block_left,
                         path_scripts)
from cases_fill import FILL_STANDS, take_one_block, ways
from cases_moments import THREES, opened
from script import Script, contend, turn_blocks

MOST = 4294967295


# ---------------------------------------------------- at each line of each path

def replay(s, actions):
    """Actions of another session, none refused."""
    for action in actions:
        if action.word == "step":
            s.step(action.task)
        else:
            s.act(action.word, *action)
    return s


def merged(lines):
    """A session's lines with each run of one step written as one."""
    return lines[:1] + draw.lines_of(
        [tuple(line[1:-1].split(" ")) for line in lines[1:]],
        draw.Draw(0), 100)


def unfinished_paths(script, place):
    """Task p's call by this script up to each of its lines: how many steps it
    has done, and the session so far."""
    n, v, b, p, q, k = place
    whole = opened(n, v, b, k)
    script(whole, p, q, k)
    _, actions = reader.read_session(draw.text(whole.lines))
    begin = max(i for i, action in enumerate(actions)
                if action.task == p and action.word != "step")
    own = [i for i, action in enumerate(actions)
           if i > begin and action.task == p]
    for done, at in enumerate(own):
        yield done, replay(opened(n, v, b, k), actions[:at])


def go_on(s, p, q, k, how):
    """What is seen of it: by its task's next swap, by the other task, or by both
    after its task was dropped once more."""
    if how == 0:
        s.swap(p, k, s.value(k), 66).out(p).out(q)
    elif how == 1:
        s.out(q).read(q, k).out(q).swap(p, k, s.value(k), 66).out(p)
    else:
        s.swap(p, k, s.value(k), 66).step(p, 2).drop(p).out(q)
        s.swap(q, k, s.value(k), 67).out(q)
    s.read(p, k).out(p)


def path_cases(cases, names=None):
    """Each path that an opening reaches, its task dropped before each line."""
    scripts = {}
    for name, path, script in path_scripts():
        if names is None or name in names:
            scripts.setdefault(path, (name, script))
    for number, (name, script) in enumerate(scripts.values()):
        place = PLACES[number % 4]
        _, _, _, p, q, k = place
        for done, s in unfinished_paths(script, place):
            s.drop(p)
            go_on(s, p, q, k, (done + number) % 3)
            cases.accepted("drop_%s_after_%d" % (name, done), merged(s.lines))


# ----------------------------------------------------------------- the splitter

def alone_afterwards(s, task, k):
    """One task alone: a read, a swap of equal values, one that says no, two that
    say yes."""
    s.read(task, k).out(task)
    s.swap(task, k, s.value(k), s.value(k)).out(task)
    s.swap(task, k, 3, 4).out(task)
    for new in (20, 21):
        s.swap(task, k, s.value(k), new).out(task)


def splitter_scripts():
    """Name and script: p is dropped, and nobody is left in a swap.  Y is true or
    false after it; C is false where nobody has done line 27."""
    for line in (*range(15, 22), 23, 24, 26):
        yield "winner_at_%d" % line, lambda s, p, q, k, line=line: (
            s.swap(p, k, 5, 9).until(p, line).drop(p))
    yield "winner_at_22", lambda s, p, q, k: (
        s.swap(p, k, 4, 9).until(p, 22).drop(p))
    for line in (18, 19, 27):
        for name, script in losers(line):
            yield "loser_at_%d_%s" % (line, name), script
    yield "loser_at_27_by_17", lambda s, p, q, k: (
        s.swap(q, k, 5, 7).step(q, 4).swap(p, k, 5, 9).until(p, 27).drop(p)
        .out(q))
    yield "loser_after_27", lambda s, p, q, k: (
        s.swap(q, k, 5, 7).step(q, 4).swap(p, k, 5, 9).until(p, 1).drop(p)
        .out(q))
    yield "loser_and_winner", lambda s, p, q, k: (
        s.swap(q, k, 5, 7).step(q, 5).swap(p, k, 5, 9).until(p, 27).drop(q)
        .drop(p))


def losers(line):
    """p is past line 17 and q has stored X since; then q wins, or has won, or has
    ended."""
    def met(s, p, q, k, steps):
        return s.swap(p, k, 5, 9).step(p, 3).swap(q, k, 5, 7).steps(q, steps)

    yield "before_the_winner", lambda s, p, q, k: (
        met(s, p, q, k, 3).until(p, line).drop(p).out(q))
    yield "beside_the_winner", lambda s, p, q, k: (
        met(s, p, q, k, 6).until(p, line).drop(p).out(q))
    yield "after_the_winner", lambda s, p, q, k: (
        met(s, p, q, k, cells.MOST_STEPS).until(p, line).drop(p))


def splitter_cases(cases):
    for number, (name, script) in enumerate(splitter_scripts()):
        n, v, b, p, q, r, k = THREES[number % 4]
        for task in (p, r):
            s = opened(n, v, b, k)
            script(s, p, q, k)
            alone_afterwards(s, task, k)
            cases.accepted("drop_%s_then_t%d" % (name, task), s.lines)


# ------------------------------------------------------- released blocks

def notes_taken(s):
    """The blocks taken from now on."""
    taken = []
    take = s.model.take_unused_block

    def noting():
        taken.append(take())
        return taken[-1]

    s.model.take_unused_block = noting
    return taken


def turn_until_taken(s, p, q, block, cell=0):
    """Two tasks meet again and again until one takes this block."""
    taken = notes_taken(s)
    while block not in taken:
        before = len(taken)
        turn_blocks(s, p, q, 2, cell)
        assert before < len(taken) < 4 * s.model.b


def fill_cases(cases):
    """A task dropped from line 4 to 30, by each way there; the block that it had
    taken is used again, and so is the one that it held."""
    for line in FILL_STANDS:
        for way, script in ways(line):
            s = Script(4, 1, 8, [5])
            replaced = script(s)
            record = s.model.tasks[0]
            held, taken = record.held, record.installing
            if way % 4 == 1:  # its block is replaced before the drop
                replaced()
            s.drop(0)
            assert line == 4 or not s.model.is_used(taken)
            s.out(1)
            turn_until_taken(s, 2, 3, held if line == 4 else taken)
            s.read(0, 0).out(0).swap(0, 0, s.value(0), 77).out(0)
            cases.accepted("drop_fill_at_%d_by_%d" % (line, way), s.lines)


def pool_cases(cases):
    """V + 2 x N - 1 blocks; all tasks but two are dropped at line 30, each with a
    replaced block held and one taken, again and again."""
    for n, v in ((3, 1), (3, 2), (4, 1), (6, 3), (32, 1), (32, 16)):
        s = Script(n, v, cells.least_blocks(n, v), [5] * v)
        for turns in range(3 if n < 32 else 2):
            for task in range(n - 2):
                halt_at_30(s, task, n - 2, (task + turns) % v)
            turn_blocks(s, n - 2, n - 1, 2)
            for task in range(n - 2):
                if (task + turns) % 3:
                    s.drop(task)
                else:
                    s.out(task)
            turn_blocks(s, n - 2, n - 1, 2, v - 1)
        s.read(0, 0).out(0)
        cases.accepted("drop_pool_n_%d_v_%d" % (n, v), s.lines)


def begun_cases(cases):
    """Dropped before the first load: no block was held."""
    for name, begin in (("read", ("read", 0, 0)), ("swap", ("swap", 0, 0, 5, 7)),
                        ("equal_swap", ("swap", 0, 0, 5, 5))):
        s = Script(3, 2, 7, [5, 6])
        s.act(*begin).drop(0)
        turn_blocks(s, 1, 2, 6, 1)
        s.read(0, 0).out(0)
        cases.accepted("drop_pool_begun_%s" % name, s.lines)


def last_block_cases(cases):
    """Every block is used; a drop leaves two unused, the others' drops all but the
    cells'."""
    for n, v in ((2, 2), (3, 2), (8, 2), (32, 16)):
        b = cells.least_blocks(n, v)
        p, r = n - 1, n - 2
        s = one_block_left(n, v).step(p)
        assert not s.model.has_unused_block()
        s.drop(p)
        assert s.model.counts[:b].count(0) == 2
        s.swap(p, 0, s.value(0), 70).out(p).out(r)
        for task in range(n - 2):
            s.drop(task)
        assert s.model.counts[:b].count(0) == b - v
        turn_blocks(s, p, r, 4)
        cases.accepted("drop_last_block_n_%d_v_%d" % (n, v), s.lines)


# ----------------------------------------------- refusals, again, the end line

def refusal_cases(cases):
    first = "(open 2 3 6 (5 6 7))"
    after = ["(read 1 2)", "(again 3 (step 1))"]

    def refused(name, lines, *numbers):
        cases.refused("refuse_drop_%s" % name, [first, *lines, *after],
                      *numbers)

    for task in (2, 3, 32, 255, 256, 257, 65536, MOST - 1, MOST):
        refused("07_t%d" % task, ["(drop %d)" % task], 7)
    refused("07_between", ["(swap 0 0 5 8)", "(again 4 (step 0))", "(drop 2)",
                           "(again 6 (step 0))"], 7)
    refused("11_fresh", ["(drop 0)"], 11)
    refused("11_last_task", ["(drop 1)"], 11)
    refused("11_after_read", ["(read 0 0)", "(again 3 (step 0))", "(drop 0)"],
            11)
    refused("11_after_yes", ["(swap 0 0 5 8)", "(again 10 (step 0))",
                             "(drop 0)"], 11)
    refused("11_after_no", ["(swap 0 0 4 8)", "(again 8 (step 0))",
                            "(drop 0)"], 11)
    refused("11_after_refused_begin", ["(read 0 3)", "(drop 0)"], 8, 11)
    for steps in (0, 1, 4, 9):
        busy = ["(swap 0 0 5 8)", "(again %d (step 0))" % steps]
        refused("11_twice_after_%d" % steps, [*busy, "(drop 0)", "(drop 0)"],
                11)
        refused("11_step_after_%d" % steps, [*busy, "(drop 0)", "(step 0)"],
                11)
        # neither 9 nor 11: the task is idle and begins anew
        refused("begins_after_%d" % steps, [
            *busy, "(drop 0)", "(read 0 0)", "(again 3 (step 0))"])
    refused("11_other_is_busy", ["(swap 0 0 5 8)", "(step 0)", "(drop 1)",
                                 "(again 9 (step 0))"], 11)
    refused("many", ["(again 3 (drop 0) (drop 7) (read 0 0) (drop 0))"],
            *[11, 7] * 3)
    refused("numbers", ["(drop 0)", "(read 0 0)", "(drop 0)", "(step 0)",
                        "(drop 9)", "(again 2 (drop 1))"], 11, 11, 7, 11, 11)
    for name, lines in (("p9", P9), ("p10", P10)):
        # refused ones between, and an idle task's
        between = ["(drop 2)", "(drop 4294967295)"]
        cases.add("refuse_drop_between_%s" % name, lines[:1] + [
            more for line in lines[1:] for more in (line, *between)]
            + ["(drop 0)", "(drop 1)"])


def again_cases(cases):
    whole = "(swap 0 0 5 7) (again %d (step 0)) (drop 0)"
    for steps in (0, 3, 4, 8, 9):
        # a store that counts makes the next swap say no, so it is done and the
        # drop after it refused
        cases.add("again_drop_after_%d" % steps, [
            "(open 2 1 4 (5))", "(again 4 %s)" % (whole % steps),
            "(read 1 0)", "(again 6 (step 1))"])
    cases.accepted("again_drop_nested", [
        "(open 2 1 4 (5))",
        "(again 2 (again 3 (read 0 0) (again 2 (step 0)) (drop 0))"
        " (again 0 (drop 1)) (swap 1 0 5 5) (again 1 (again 1 (drop 1))))"])
    cases.accepted("again_drop_0", ["(open 2 1 4 (5))",
                                    "(again 0 (drop 0) (drop 9))",
                                    "(read 0 0)", "(again 3 (step 0))"])
    cases.accepted("again_drop_depth_8", [
        "(open 2 1 4 (5))", "(read 0 0)",
        "(again 1 " * 7 + "(drop 0)" + ")" * 7])
    cases.refused("again_drop_depth_9", [
        "(open 2 1 4 (5))", "(read 0 0)",
        "(again 1 " * 8 + "(drop 0)" + ")" * 8], 13)
    for n in (3, 8):
        swaps = " ".join("(swap %d 0 0 %d)" % (t, 1 + t % 2) for t in range(n))
        steps = " ".join("(step %d)" % t for t in range(n))
        drops = " ".join("(drop %d)" % t for t in range(n))
        cases.add("again_drop_in_step_%d" % n, [
            draw.opening_line(n, 1, cells.least_blocks(n, 1), [0]),
            "(again 6 %s (again 9 %s) %s (again 4 %s) %s)" % (
                swaps, steps, swaps, steps, drops)])
    cases.accepted("edge_drop_actions_65535", [
        "(open 1 1 2 (5))", "(again 21845 (read 0 0) (step 0) (drop 0))"])
    cases.refused("edge_drop_actions_65536", [
        "(open 1 1 2 (5))", "(again 21845 (read 0 0) (step 0) (drop 0))",
        "(drop 0)"], 15)


def end_cases(cases):
    """"The end line counts a withdrawn call neither as finished nor as
    unfinished"; nor are its hardware swaps counted."""
    for name, more in (("alone", []), ("unfinished", ["(read 1 0)"]),
                       ("finished", P1[1:3])):
        cases.accepted("drop_end_%s" % name, [
            "(open 2 1 4 (5))", "(swap 0 0 5 5)", "(step 0)", "(drop 0)",
            *more])
    for line in (2, 3, 4, 30):
        s = Script(3, 1, 6, [5])
        s.swap(0, 0, 5, 7).swap(1, 0, 5, 9).step(0, 2).step(1, 7).step(0, 5)
        s.until(1, line).drop(1)
        s.read(2, 0).out(2).out(0).read(1, 0).out(1)
        cases.accepted("drop_end_hard_at_%d" % line, s.lines)


# ----------------------------------------------------- stores that may count

def late(s, p, q, k, line):
    """p has stored late and has this line next."""
    to_23(s, p, q, k)
    return s.step(p).until(p, line)


def early(s, p, k, steps=8):
    """p has stored while its block is active."""
    return s.swap(p, k, 5, 9).step(p, steps)


def store_scripts():
    """Name, the rule that p's store is listed with, and the script: the store, its
    drop, and who goes on after it.  p swaps 5 for 9, and q 5 for 7."""
    for line in (24, 1, 2, 3):
        # at line 3 it has decided for its own value
        yield "late_at_%d_undecided" % line, "C3" if line == 3 else None, (
            lambda s, p, q, r, k, line=line: late(s, p, q, k, line).drop(p))
        for name, script in that_count(line):
            yield "late_at_%d_%s" % (line, name), "C3", script
        for name, script in that_do_not_count(line):
            yield "late_at_%d_%s" % (line, name), None, script

    def not_yet(s, p, q, r, k):
        to_23(s, p, q, k)
        s.drop(p).out(q).read(r, k).out(r)

    yield "late_not_yet", None, not_yet
    yield "late_lost_at_30", None, lost_at_30
    for steps in (8, 9):
        for name, script in on_an_active_block(steps):
            yield "stored_and_%d_%s" % (steps, name), "C4", script
    for line in (1, 2, 3):
        yield "stored_and_saw_it_at_%d" % line, "C4", (
            lambda s, p, q, r, k, line=line: early(s, p, k).swap(q, k, 9, 6)
            .step(q, 4).until(p, line).drop(p).swap(p, k, 9, 8).out(p).out(q))


def that_count(line):
    """A late store, decided for after its drop, or before it by itself."""
    def dropped(s, p, q, k):
        return late(s, p, q, k, line).drop(p)

    yield "decided_by_q", lambda s, p, q, r, k: dropped(s, p, q, k).out(q)
    yield "decided_by_a_read", lambda s, p, q, r, k: (
        dropped(s, p, q, k).read(r, k).out(r))
    yield "decided_by_its_own_read", lambda s, p, q, r, k: (
        dropped(s, p, q, k).read(p, k).out(p).out(q))
    yield "decided_and_replaced_by_itself", lambda s, p, q, r, k: (
        dropped(s, p, q, k).swap(p, k, 9, 4).out(p).out(q))
    yield "decided_in_its_next_call", lambda s, p, q, r, k: (
        dropped(s, p, q, k).swap(p, k, 5, 4).step(p, 2).until(q, 3).step(p, 2)
        .out(q))
    yield "decided_after_its_next_call", lambda s, p, q, r, k: (
        dropped(s, p, q, k).read(p, k).step(p, 2).drop(p).swap(p, k, 6, 6)
        .step(p, 1).out(q).out(p))


def that_do_not_count(line):
    """A late store of which the one who decides has not heard."""
    def other_value(s, p, q, r, k):
        to_23(s, p, q, k)
        s.until(q, 2).step(p).until(p, line).drop(p).out(q)

    def other_value_by_a_read(s, p, q, r, k):
        to_23(s, p, q, k)
        s.read(r, k).until(r, 2).step(p).until(p, line).drop(p).out(r)
        s.read(p, k).out(p).out(q)

    def after_the_decision(s, p, q, r, k):
        to_23(s, p, q, k)
        s.until(q, 3).step(p).until(p, line).drop(p).out(q)

    def after_the_replacement(s, p, q, r, k):
        to_23(s, p, q, k)
        s.out(q).step(p).until(p, line).drop(p).read(r, k).out(r)

    if line != 3:  # where it decides itself
        yield "other_value", other_value
        yield "other_value_by_a_read", other_value_by_a_read
    yield "after_the_decision", after_the_decision
    yield "after_the_replacement", after_the_replacement


def lost_at_30(s, p, q, r, k):
    to_23(s, p, q, k)
    s.until(q, 3).until(p, 30).drop(p).out(q)


def on_an_active_block(steps):
    """The store of a swap of so many steps."""
    yield "active", lambda s, p, q, r, k: early(s, p, k, steps).drop(p)
    yield "active_then_read", lambda s, p, q, r, k: (
        early(s, p, k, steps).drop(p).read(r, k).out(r))
    yield "active_then_replaced", lambda s, p, q, r, k: (
        early(s, p, k, steps).drop(p).swap(q, k, 9, 6).out(q).read(p, k).out(p))
    yield "active_then_replaced_by_itself", lambda s, p, q, r, k: (
        early(s, p, k, steps).drop(p).swap(p, k, 9, 4).out(p)
        .swap(p, k, 4, 9).step(p, steps).drop(p))
    yield "inactive_then_dropped", lambda s, p, q, r, k: (
        early(s, p, k, steps).swap(q, k, 9, 6).step(q, 4).drop(p)
        .swap(p, k, 5, 5).out(p).out(q))


def rule_of_store(lines, task):
    """The rule that the task's first withdrawn swap is listed with, or None."""
    history = moments.History(*reader.read_session(draw.text(lines)))
    rules = {mark.call: mark.rule for mark in moments.marks_of(history)}
    return next(rules.get(o) for o in history.calls
                if o.task == task and o.drop is not None)


def store_cases(cases):
    for number, (name, rule, script) in enumerate(store_scripts()):
        n, v, b, p, q, r, k = THREES[number % 3]
        s = opened(n, v, b, k)
        script(s, p, q, r, k)
        assert rule_of_store(s.lines, p) == rule, name
        cases.accepted("drop_%s" % name, s.lines)


# -------------------------------------------- the same pool block, used again

def until_current(s, q, r, k, block):
    """q and r take block after block until the cell has this one again, active."""
    new = 100
    alone(s, q, k, new)
    assert s.model.current[k] != block
    while s.model.current[k] != block:
        new += 10
        assert new < 100 + 20 * s.model.b
        take_one_block(s, q, r, k, new)


def alone(s, task, k, new):
    """A swap that leaves the cell's block active, and Y false."""
    s.swap(task, k, s.value(k), new).out(task)


def decide(s, q, r, k, value):
    """The cell's block, active so far, is decided for this value."""
    before = s.value(k)
    s.swap(r, k, before, value + 1).swap(q, k, before, value)
    s.step(r, 2).step(q, 7).step(r, 2).out(q).out(r)
    at = cells.WORDS * s.model.current[k]
    assert s.model.pool[at + cells.D] == value


# Stores after which the block is decided, and may be replaced, by nobody else.
REUSED = ("late_at_24_decided_by_q", "late_at_1_decided_by_q",
          "late_at_3_decided_by_q", "late_at_24_decided_by_a_read",
          "late_at_24_other_value", "late_at_2_other_value",
          "late_at_24_after_the_decision", "late_at_24_after_the_replacement",
          "late_at_3_after_the_replacement", "late_lost_at_30",
          "stored_and_8_active_then_read",
          "stored_and_9_active_then_replaced")


def reused_cases(cases):
    """p's block is filled again after its drop, by others or by p itself: what it
    is then says nothing of the store."""
    scripts = {name: (rule, script) for name, rule, script in store_scripts()}
    for name in REUSED:
        rule, script = scripts[name]
        for value, place in ((9, (2, 1, 4, 0, 1, 0, 0)), (5, THREES[0]),
                             (40, THREES[1])):
            n, v, b, p, q, r, k = place
            s = opened(n, v, b, k)
            script(s, p, q, r, k)
            # the opening's block of the cell; where it was not replaced yet, it
            # is now
            s.out(q)
            until_current(s, q, r, k, k)
            decide(s, q, r, k, value)
            if value == 40:
                alone(s, p, k, 9)
            assert rule_of_store(s.lines, p) == rule, name
            cases.accepted("drop_reused_%s_d%d" % (name, value), s.lines)


def several_cases(cases):
    """Many withdrawn swaps of one task, most of them listed."""
    for n, v, b, p, q, r, k in THREES:
        s = opened(n, v, b, k)
        for i in range(6):
            value = s.value(k)
            s.swap(p, k, value, 30 + i).step(p, 8 + i % 2).drop(p)
            if i % 2:
                s.read(q, k).out(q)
            alone(s, q, k, 50 + i)
        cases.accepted("drop_several_stores_t%d" % p, s.lines)
        s = opened(n, v, b, k)
        for i in range(6):
            value = s.value(k)
            s.swap(q, k, value, 30 + i).swap(p, k, value, 60 + i)
            s.step(q, 2).step(p, 7).step(q, 2 + i % 3).step(p).drop(p)
            (s.drop(q).read(q, k) if i % 2 else s).out(q)
            alone(s, (q, p)[i % 2], k, 90 + i)
        cases.accepted("drop_several_late_stores_t%d" % p, s.lines)


def others_cases(cases):
    """A withdrawn call made the block inactive, or decided it, at the moment that
    is another's."""
    for n, v, b, p, q, r, k in THREES[:3]:
        name = "t%d_k%d" % (p, k)
        s = opened(n, v, b, k)
        to_23(s, p, q, k)
        s.drop(q).out(p).read(r, k).out(r)
        cases.accepted("drop_made_inactive_%s" % name, s.lines)
        for line in (2, 3):
            s = opened(n, v, b, k)
            to_23(s, p, q, k)
            s.read(r, k).step(r, 3).until(q, line).drop(q).out(r).out(p)
            s.swap(q, k, s.value(k), 4).out(q)
            cases.accepted("drop_decided_at_%d_%s" % (line, name), s.lines)
        # one that never stored, its new value decided
        s = opened(n, v, b, k)
        s.swap(q, k, 5, 9).swap(p, k, 5, 9).step(q, 2).step(p, 7)
        s.step(q, 2).out(p).drop(q).read(q, k).out(q)
        cases.accepted("drop_never_stored_%s" % name, s.lines)
        # at 30, another's block installed before and after the drop
        s = opened(n, v, b, k)
        contend(s, p, q, k)
        s.swap(p, k, 9, 4).until(p, 30).swap(r, k, 9, 4).until(r, 30)
        s.drop(p).swap(q, k, 9, 3).out(q).out(r).read(p, k).out(p)
        cases.accepted("drop_at_30_%s" % name, s.lines)


# ------------------------------------------------------------------- drawn

def drawn_cases(cases, seed, count, again=60):
    """Two to four tasks on one or two cells, refused actions among them."""
    for number in range(1, count + 1):
        n, v = 2 + number % 3, 1 + number % 2
        lines = draw.draw_session(
            draw.Draw(seed + number), n, v, cells.least_blocks(n, v),
            draw.Style(length=40 + 3 * number, hot_cells=v, values=3,
                       burst=1 + number % 6, refusals=(0, 4, 8)[number % 3],
                       halts=number % 2, reads=(10, 25)[number % 2],
                       right_guess=80, runs_out=(0, 20)[number % 2],
                       drops=(4, 9, 18)[number % 3]), again)
        cases.add("drop_drawn_n_%d_v_%d_s%d" % (n, v, number), lines)
        cases.accepted("drop_drawn_late_s%d" % number, late_stores(
            draw.Draw(seed + 500 + number), (15, 30, 50)[number % 3]))


def late_stores(drawn, drops, most_meetings=8):
    """The lines of a session in which stores often come late: of two swaps one
    is about to store when the other makes the block inactive, then everybody
    goes on as drawn.  drops is the percent of turns that drop a busy task."""
    n = drawn.between(2, 4)
    s = Script(n, 1, cells.least_blocks(n, 1), [0])
    for _ in range(drawn.between(1, most_meetings)):
        for task in range(n):
            if drawn.percent(80):
                s.out(task)
        renew(s, drawn)
        near_a_store(s, drawn)
        for _ in range(drawn.between(1, 12)):
            turn(s, drawn, drawn.below(n), drops)
    return s.lines


def idle_tasks(s):
    return [task for task in range(s.model.n) if not s.model.tasks[task].busy]


def renew(s, drawn):
    """A task that is alone swaps: the cell's block is active then, and Y false,
    wherever the others left it."""
    idle = idle_tasks(s)
    if len(idle) == s.model.n:
        alone(s, drawn.pick(idle), 0, (s.value(0) + 1) % 4)


def near_a_store(s, drawn):
    """One of two idle tasks is about to store, the other about to make the block
    inactive, or a little before or after it."""
    idle = idle_tasks(s)
    if len(idle) < 2:
        return
    p, q = idle[0], idle[-1]
    if drawn.percent(50):
        p, q = q, p
    value = s.value(0)
    s.swap(q, 0, value, drawn.pick(other_values(value)))
    s.swap(p, 0, value, drawn.pick(other_values(value)))
    s.steps(q, 2).steps(p, 7).steps(q, drawn.between(1, 4))


def other_values(value):
    return [other for other in range(4) if other != value]


def turn(s, drawn, task, drops):
    """One task begins, steps or is dropped."""
    if not s.model.tasks[task].busy:
        if drawn.percent(40):
            s.read(task, 0)
        else:
            s.swap(task, 0, s.value(0), drawn.below(4))
    elif drawn.percent(drops):
        s.drop(task)
    else:
        s.steps(task, drawn.pick((1, 1, 1, 2, 3, 7)))


# ------------------------------------------------------------------- all of them

def session_drop_cases(cases):
    path_cases(cases)
    splitter_cases(cases)
    fill_cases(cases)
    pool_cases(cases)
    begun_cases(cases)
    last_block_cases(cases)
    refusal_cases(cases)
    again_cases(cases)
    end_cases(cases)
    store_cases(cases)
    drawn_cases(cases, 12000, 15)


# Of moments: the paths with a store, and one of those that are never listed if
# withdrawn.
MOMENTS_PATHS = ("yes_from_26", "yes_from_25", "end_at_30_by_25_yes",
                 "no_from_22", "equal_decided_yes")


def moments_drop_cases(cases):
    path_cases(cases, MOMENTS_PATHS)
    refusal_cases(cases)
    store_cases(cases)
    reused_cases(cases)
    several_cases(cases)
    others_cases(cases)
    drawn_cases(cases, 12500, 15)
