"""Cases of adds (change request 13), of session and of moments: each answer at each
try, sums about as great as goes, a part that ends by each path, adds that meet each
other and swaps, adds withdrawn at each step, refusals, crowds."""

import cells
import draw
import reader
from cases_calls import path_scripts
from cases_drop import (alone, decide, merged, replay, rule_of_store,
                        store_scripts)
from cases_moments import THREES, opened
from script import Script, contend, turn_blocks

NONE = cells.NONE
MOST = cells.MOST_TRIES


def answered(cases, name, lines, *answers):
    """A case in which nothing is refused and the adds give these answers."""
    trace = cases.add(name, lines)
    assert not trace.refusals, name
    if hasattr(trace, "calls"):
        found = [done.answer for _, done, _ in trace.calls
                 if done.kind == cells.ADD]
        assert found == list(answers), (name, found)
    return trace


# ------------------------------------------------------ each answer at each try

def lose(s, p, q, k, times, to=None):
    """p's add loses so many tries: q changes the value after each read, the last
    time to this one."""
    for i in range(times):
        s.part(p)
        new = s.value(k) + 1 + i % 3
        if i == times - 1 and to is not None:
            new = to
        s.swap(q, k, s.value(k), new).out(q).part(p)
    return s


def answer_cases(cases, most=MOST):
    """r tries, and the answer at each of them."""
    for tries in range(1, most + 1):
        for at in range(1, tries + 1):
            n, v, b, p, q, _, k = THREES[(tries + at) % 4]
            s = opened(n, v, b, k).add(p, k, 10 + at, tries)
            lose(s, p, q, k, at - 1).out(p)
            answered(cases, "add_r_%d_added_at_%d" % (tries, at), s.lines,
                     "added")
            # the sum is 4,294,967,295 and not 4,294,967,294
            s = opened(n, v, b, k, 5 if at > 1 else NONE - 7)
            s.add(p, k, 7, tries)
            lose(s, p, q, k, at - 1, NONE - 7).out(p)
            answered(cases, "add_r_%d_over_at_%d" % (tries, at), s.lines,
                     "over")
        s = opened(n, v, b, k).add(p, k, 3, tries)
        lose(s, p, q, k, tries)
        answered(cases, "add_r_%d_spent" % tries, s.lines, "spent")


# ---------------------------------------------------------------------- sums

SUMS = [
    (0, 0), (0, 1), (0, NONE - 1), (0, NONE), (1, NONE - 2), (1, NONE - 1),
    (1, NONE), (5, NONE - 6), (5, NONE - 5), (5, NONE - 4), (5, NONE),
    (NONE - 1, 0), (NONE - 1, 1), (NONE - 1, 2), (NONE - 1, NONE - 1),
    (NONE - 1, NONE), (NONE - 2, 0), (NONE - 2, 1), (NONE - 2, 2),
    (2 ** 31, 2 ** 31 - 2), (2 ** 31, 2 ** 31 - 1), (2 ** 31, 2 ** 31),
    (2 ** 31 - 1, 2 ** 31 - 1), (2 ** 31 - 1, 2 ** 31), (65535, 1),
    (65536, NONE - 65537), (65536, NONE - 65536),
]


def sum_cases(cases):
    for value, amount in SUMS:
        answer = "over" if value + amount >= NONE else "added"
        name = "add_%d_to_%d" % (amount, value)
        s = Script(1, 1, 2, [value]).add(0, 0, amount, 1).out(0)
        answered(cases, name, s.lines + ["(read 0 0)", "(again 3 (step 0))"],
                 answer)
        # at the second read, where the first was of 3 or of the same value
        for first in (3, value):
            if first + amount >= NONE:
                continue
            s = Script(2, 1, 4, [first]).add(0, 0, amount, 2).part(0)
            other = 9 if first == value else value
            s.swap(1, 0, first, other).out(1).part(0)
            if other != value:
                s.swap(1, 0, other, value).out(1)
            s.out(0).read(1, 0).out(1)
            answered(cases, "%s_after_%d" % (name, first), s.lines, answer)


def zero_cases(cases):
    """d 0: a swap of equal values, which may be lost, and changes nothing."""
    for tries in (1, 2, 8):
        s = Script(3, 1, 6, [5]).add(0, 0, 0, tries).part(0)
        s.swap(1, 0, 5, 6).out(1).part(0)
        if tries > 1:
            s.out(0)
        answered(cases, "add_0_r_%d_lost" % tries, s.lines,
                 "spent" if tries == 1 else "added")
        s = Script(3, 1, 6, [5]).add(0, 0, 0, tries).part(0)
        contend(s, 1, 2, 0)
        s.swap(1, 0, 9, 5).out(1).out(0)
        answered(cases, "add_0_r_%d_came_back" % tries, s.lines, "added")


# --------------------------------------------------------- a part by each path

def add_by_path(script, place, tries):
    """The script's last call of p, a swap, as an add's swap: its read ended before
    it.  Where the swap expects another value than there is, r puts that one there
    and the old one back after the read."""
    n, v, b, p, q, r, k = place
    whole = opened(n, v, b, k)
    script(whole, p, q, k)
    _, actions = reader.read_session(draw.text(whole.lines))
    begin = max(i for i, action in enumerate(actions)
                if action.task == p and action.word == "swap")
    _, _, expected, new = actions[begin]
    s = replay(opened(n, v, b, k), actions[:begin])
    value = s.value(k)
    if value != expected:
        s.swap(r, k, value, expected).out(r)
    amount = new - expected if new >= expected else 2
    s.add(p, k, amount, tries).part(p)
    if value != expected:
        s.swap(r, k, expected, value).out(r)
    return replay(s, actions[begin + 1:])


def path_cases(cases):
    """A swap that ends by each path, the last one or followed by another try; and
    a read by both of its paths."""
    for number, (name, path, script) in enumerate(path_scripts()):
        for tries in (1, 3):
            place = THREES[(number + tries) % 4]
            _, _, _, p, q, _, k = place
            if name in LATE_PATHS:
                s = late_path(LATE_PATHS[name], place, tries)
            elif name != "read_active":
                s = add_by_path(script, place, tries)
            else:
                continue
            s.out(q).out(p).read(q, k).out(q)
            trace = cases.add("add_%s_r_%d" % (name, tries), merged(s.lines))
            assert not trace.refusals, name
            parts = paths_of_first_add(trace, p)
            assert path in parts[:2] or not hasattr(trace, "calls"), name


def paths_of_first_add(trace, task):
    """The paths of the task's first add."""
    for other, done, lines in getattr(trace, "calls", ()):
        if other == task and done.kind == cells.ADD:
            return list(map(cells.path_of, cells.parts_of(lines)))
    return []


def late_path(script, place, tries):
    n, v, b, p, q, r, k = place
    s = opened(n, v, b, k)
    script(s, p, q, r, k, tries)
    return s.out(p)


# Those whose block was made inactive and decided by two others after the read, or
# before it.
def decided_meanwhile(amount):
    def script(s, p, q, r, k, tries):
        s.add(p, k, amount, tries).part(p)
        contend(s, q, r, k)
    return script


def decided_before(amount):
    def script(s, p, q, r, k, tries):
        contend(s, q, r, k)
        s.add(p, k, amount, tries)
    return script


LATE_PATHS = {
    "no_from_28_by_17_alone": decided_meanwhile(2),
    "equal_decided_no": decided_meanwhile(0),
    "equal_decided_yes": decided_before(0),
    "read_decided": decided_before(3),
}


# --------------------------------------------- the longest, and values come back

def longest_try(s, p, q, r, k, wins):
    """A try of p by the longest read and the longest swap.  q and r have the block
    decided before the read; q replaces it and brings the value back; then q loses
    the splitter to p, decides for the old value and is first at 30 or second."""
    decide(s, q, r, k, s.value(k) + 20)
    s.part(p)
    value = s.value(k)
    alone(s, q, k, value + 50)
    alone(s, q, k, value)
    s.swap(q, k, value, value + 7).step(q, 2).step(p, 7).step(q, 5)
    s.until(p, 30)
    if wins:
        return s.part(p).out(q)
    return s.out(q).part(p)


def longest_cases(cases, most=MOST):
    """"It takes at most 27 x r steps", and some do."""
    for tries in range(1, most + 1):
        for answer in ("added", "spent"):
            n, v, b, p, q, r, k = THREES[tries % 4]
            s = opened(n, v, b, k).add(p, k, 2, tries)
            for at in range(1, tries + 1):
                longest_try(s, p, q, r, k, answer == "added" and at == tries)
            trace = answered(cases, "add_longest_r_%d_%s" % (tries, answer),
                             s.lines, answer)
            for _, done, _ in getattr(trace, "calls", ()):
                if done.kind == cells.ADD:
                    assert (done.steps, done.hard) == (27 * tries, 4 * tries)


def there_and_back(s, q, k):
    """The value goes away and comes back."""
    value = s.value(k)
    alone(s, q, k, value + 40)
    alone(s, q, k, value)


def back_cases(cases):
    """Another task brings the value back, after so many steps of the add: it
    answers added, or its line 30 is lost though the value is there."""
    for steps in range(17):
        for number, tries in enumerate((1, 2)):
            n, v, b, p, q, r, k = THREES[(steps + number) % 4]
            s = opened(n, v, b, k).add(p, k, 4, tries).steps(p, steps)
            there_and_back(s, q, k)
            s.out(p).read(r, k).out(r)
            cases.accepted("add_back_after_%d_r_%d" % (steps, tries), s.lines)
    for line in (4, 6, 8, 30):
        for tries in (1, 2):
            n, v, b, p, q, r, k = THREES[tries]
            s = opened(n, v, b, k).add(p, k, 4, tries)
            contend(s, q, r, k)
            s.part(p).until(p, line)
            there_and_back(s, q, k)
            s.out(p)
            answered(cases, "add_back_at_%d_r_%d" % (line, tries), s.lines,
                     "spent" if tries == 1 else "added")


# -------------------------------------------------------------------- meetings

def turns(s, tasks, bursts):
    """Each task in turn takes its number of steps, until all are idle."""
    at = 0
    while any(s.model.tasks[task].busy for task in tasks):
        task = tasks[at % len(tasks)]
        s.steps(task, bursts[at % len(bursts)])
        at += 1
    return s


TURNS = [(1,), (2,), (3,), (1, 2), (2, 3), (4, 1), (5,), (6, 5), (3, 10), (8,),
         (11, 2), (12, 7), (13,), (14, 3, 1)]


def turn_cases(cases):
    """Two adds, or an add and a swap, that take turns."""
    for number, bursts in enumerate(TURNS):
        for tries in (1, 2, 8):
            n, v, b, p, q, _, k = THREES[number % 3]
            s = opened(n, v, b, k).add(p, k, 3, tries).add(q, k, 5, tries)
            turns(s, (p, q), bursts)
            cases.accepted("add_turns_%s_r_%d" % (
                "_".join(map(str, bursts)), tries), s.lines)
        s = opened(n, v, b, k).add(p, k, 3, 4).swap(q, k, 5, 8)
        turns(s, (p, q), bursts)
        s.swap(q, k, s.value(k), 5).add(p, k, 1, 2)
        turns(s, (q, p), bursts)
        cases.accepted("add_turns_%s_swap" % "_".join(map(str, bursts)),
                       s.lines)


def crowd(n, v, tries, bursts):
    """All tasks add to one cell, task t its number plus 1."""
    k = v - 1
    s = Script(n, v, cells.least_blocks(n, v), [5] * v)
    for task in range(n):
        s.add(task, k, task + 1, tries)
    return turns(s, range(n), bursts)


def sum_of(trace):
    """What all adds that answered added have added; task t adds t + 1."""
    return sum(task + 1 for task, done, _ in trace.calls
               if done.answer == cells.ADDED)


CROWDS = [(2, 1, 8, (3,)), (3, 2, 8, (2,)), (4, 1, 1, (13,)), (8, 1, 8, (5,)),
          (8, 1, 3, (7, 13)), (16, 16, 8, (13,)), (32, 1, 8, (13,)),
          (32, 1, 1, (21,)), (32, 16, 8, (11, 16)), (32, 1, 2, (9,)),
          (32, 1, 8, (27, 4, 13))]


def crowd_cases(cases):
    """Many adds on one cell; look gives the sum."""
    for n, v, tries, bursts in CROWDS:
        s = crowd(n, v, tries, bursts)
        trace = cases.add("add_crowd_n_%d_v_%d_r_%d_%s" % (
            n, v, tries, "_".join(map(str, bursts))), s.lines)
        assert not trace.refusals
        if hasattr(trace, "calls"):
            assert len(trace.calls) == n
            assert s.value(v - 1) == 5 + sum_of(trace)


def one_after_another(cases):
    """32 tasks, each alone; the sum is that of all."""
    lines = ["(open 32 1 64 (0))"]
    for task in range(32):
        lines += ["(add %d 0 %d 1)" % (task, 1000 + task),
                  "(again 13 (step %d))" % task]
    answered(cases, "add_32_one_after_another", lines, *["added"] * 32)


# ------------------------------------------------------------------- withdrawn

def add_states():
    """Name and a state with p's add: on an active block, on a decided one, after a
    lost try on either."""
    yield "active", lambda s, p, q, r, k: s.add(p, k, 4, 3)
    yield "decided", lambda s, p, q, r, k: (
        contend(s, q, r, k), s.add(p, k, 4, 3))
    yield "second", lambda s, p, q, r, k: lose(
        s.add(p, k, 4, 3), p, q, k, 1)
    yield "met", lambda s, p, q, r, k: s.add(p, k, 4, 3).part(p).swap(
        q, k, 5, 7).step(q, 4)


def left_at_each_step(name, place):
    """The state, and p's steps one after another: how many, and the session."""
    n, v, b, p, q, r, k = place
    done = 0
    while True:
        s = opened(n, v, b, k)
        dict(add_states())[name](s, p, q, r, k)
        if not s.model.tasks[p].busy:
            return
        s.steps(p, done)
        if not s.model.tasks[p].busy:
            return
        yield done, s
        done += 1


def left_cases(cases, names=("active", "decided", "second", "met")):
    """Dropped before each step, or left there; then other calls, of its own task
    and of others."""
    for number, name in enumerate(names):
        place = THREES[number]
        _, _, _, p, q, r, k = place
        for done, s in left_at_each_step(name, place):
            s.out(q).read(r, k).out(r)
            cases.accepted("add_left_%s_after_%d" % (name, done), s.lines)
        for done, s in left_at_each_step(name, place):
            s.drop(p).out(q)
            (s.add(p, k, 1, 1) if done % 2 else s.swap(p, k, s.value(k), 66))
            s.out(p).read(r, k).out(r)
            cases.accepted("add_drop_%s_after_%d" % (name, done), s.lines)


def as_add(lines, task, drops=True):
    """A session of store_scripts() in which the task's first swap, of 5 for 9, is
    an add's; without its drop, if wanted."""
    opening, actions = reader.read_session(draw.text(lines))
    s = Script(*opening)
    added = False
    for action in actions:
        if action.task == task and action.word == "drop" and not drops:
            continue
        if added or (action.task, action.word) != (task, "swap"):
            replay(s, [action])
        else:
            s.add(task, action.cell, 4, 2).part(task)
            added = True
    return s.lines


def store_cases(cases):
    """Stores of an add's swap that is withdrawn or left, decided for or not."""
    for number, (name, rule, script) in enumerate(store_scripts()):
        n, v, b, p, q, r, k = THREES[number % 3]
        s = opened(n, v, b, k)
        script(s, p, q, r, k)
        lines = as_add(s.lines, p)
        assert rule_of_store(lines, p) == rule, name
        cases.accepted("add_drop_%s" % name, merged(lines))
        begins = [line for line in s.lines
                  if line.startswith(("(read %d " % p, "(swap %d " % p))]
        if len(begins) == 1:
            cases.accepted("add_left_%s" % name,
                           merged(as_add(s.lines, p, False)))


def end_cases(cases):
    """What the end line counts of adds: hardware swaps when they finish."""
    for name in ("decided", "met"):
        for done, s in left_at_each_step(name, THREES[0]):
            if done % 4 == 3:
                s.out(1).add(2, 0, 1, 8).out(2)
                cases.accepted("add_end_%s_after_%d" % (name, done), s.lines)


# ------------------------------------------------------------------- refusals

def refusal_cases(cases):
    first = "(open 2 3 6 (5 6 7))"
    after = ["(read 1 2)", "(again 3 (step 1))"]

    def refused(name, lines, *numbers):
        cases.refused("refuse_add_%s" % name, [first, *lines, *after], *numbers)

    for tries in (0, 9, 10, 255, 256, 257, 264, 65536, 2 ** 31, NONE - 1, NONE):
        refused("23_r_%d" % tries, ["(add 0 0 1 %d)" % tries], 23)
        # 9 comes first, where the task reads, swaps or adds
        for name, begin in (("read", "(read 0 1)"), ("swap", "(swap 0 1 6 7)"),
                            ("add", "(add 0 1 1 1)")):
            if tries in (0, 9, NONE):
                refused("09_before_23_r_%d_%s" % (tries, name), [
                    begin, "(step 0)", "(add 0 0 1 %d)" % tries], 9)
        if tries in (0, 9):
            refused("08_before_23_r_%d" % tries, ["(add 0 3 1 %d)" % tries], 8)
            refused("07_before_23_r_%d" % tries, ["(add 2 0 1 %d)" % tries], 7)
            refused("07_first_r_%d" % tries, ["(add 2 3 1 %d)" % tries], 7)
            refused("08_busy_r_%d" % tries, [
                "(read 0 0)", "(add 0 3 1 %d)" % tries], 8)
    for tries in range(1, 9):
        refused("none_r_%d" % tries, ["(add 0 0 1 %d)" % tries,
                                      "(again 13 (step 0))"])
        refused("09_r_%d" % tries, ["(read 0 0)", "(add 0 0 1 %d)" % tries], 9)
    for cell in (3, 16, 255, 256, NONE):
        refused("08_k%d" % cell, ["(add 0 %d 1 1)" % cell], 8)
    for task in (2, 32, 255, 256, 65536, NONE):
        refused("07_t%d" % task, ["(add %d 0 1 1)" % task], 7)
        refused("07_t%d_before_8" % task, ["(add %d 3 1 9)" % task], 7)
    # "d may be any number": over, and no refusal
    for amount in (0, 1, NONE - 1, NONE):
        refused("none_d_%d" % amount, ["(add 0 0 %d 1)" % amount,
                                       "(again 3 (step 0))"])
        refused("23_d_%d" % amount, ["(add 0 0 %d 0)" % amount], 23)
    busy_cases(refused)


def refused_with_adds(cases):
    """Refused ones between, and after the end."""
    cases.refused("refuse_add_between", [
        "(open 2 1 4 (5))", "(add 0 0 2 9)", "(add 0 0 2 2)", "(add 0 0 2 0)",
        "(step 0)", "(add 2 0 2 2)", "(add 1 1 2 0)", "(again 12 (step 0))",
        "(step 0)", "(add 1 0 4294967295 1)", "(again 3 (step 1))"],
        23, 9, 7, 8, 11)


def busy_cases(refused):
    """Of a task with an add under way, in a read or in a swap; and after its
    end."""
    for steps in (0, 2, 3, 5, 12):
        busy = ["(add 0 0 1 2)", "(again %d (step 0))" % steps]
        rest = "(again %d (step 0))" % (13 - steps)
        for name, begin in (("read", "(read 0 1)"), ("add", "(add 0 1 1 1)"),
                            ("swap", "(swap 0 1 6 4294967295)")):
            refused("09_%s_after_%d" % (name, steps), [*busy, begin, rest], 9)
        refused("11_dropped_after_%d" % steps, [*busy, "(drop 0)", "(step 0)",
                                                "(drop 0)"], 11, 11)
        refused("begins_after_%d" % steps, [
            *busy, "(drop 0)", "(add 0 0 2 1)", "(again 13 (step 0))"])
    for name, lines in (("added", ["(add 0 0 1 1)", "(again 13 (step 0))"]),
                        ("over", ["(add 0 0 4294967290 1)",
                                  "(again 3 (step 0))"])):
        refused("11_after_%s" % name, [*lines, "(step 0)", "(drop 0)"], 11, 11)
        refused("begins_after_%s" % name, [*lines, *lines])
    refused("numbers", ["(add 0 0 1 9)", "(add 0 0 1 8)", "(add 0 0 1 8)",
                        "(again 13 (step 0))", "(step 0)", "(add 9 0 0 0)"],
            23, 9, 11, 7)


# ------------------------------------------------------------- again, the pool

def again_cases(cases):
    whole = "(add 0 0 3 1) (again 13 (step 0))"
    answered(cases, "add_again", ["(open 2 1 4 (5))", "(again 9 %s)" % whole],
             *["added"] * 9)
    answered(cases, "add_again_until_over", [
        "(open 1 1 2 (4294967290))", "(again 1 (add 0 0 3 2) (again 13 (step 0)))",
        "(again 4 (add 0 0 3 2) (again 3 (step 0)))"], "added",
        *["over"] * 4)
    cases.accepted("add_again_nested", [
        "(open 2 1 4 (5))",
        "(again 2 (again 3 (add 0 0 1 2) (again 5 (step 0)) (drop 0))"
        " (again 0 (add 1 0 1 9)) %s (add 1 0 0 1) (again 6 (step 1)))" % whole])
    cases.accepted("add_again_0", [
        "(open 2 1 4 (5))", "(again 0 (add 0 0 1 9))", "(read 0 0)",
        "(again 3 (step 0))"])
    cases.accepted("add_again_depth_8", [
        "(open 2 1 4 (5))", "(again 1 " * 7 + "(add 0 0 1 1)" + ")" * 7])
    cases.refused("add_again_depth_9", [
        "(open 2 1 4 (5))", "(again 1 " * 8 + "(add 0 0 1 1)" + ")" * 8], 13)
    cases.refused("add_again_refused", [
        "(open 2 1 4 (5))", "(again 3 (add 0 0 1 0))"], 23, 23, 23)
    full = ["(open 1 1 2 (0))", "(again 4681 (add 0 0 1 1) (again 13 (step 0)))"]
    answered(cases, "edge_add_actions_65535", [*full, "(add 0 0 1 1)"],
             *["added"] * 4681)
    cases.refused("edge_add_actions_65536", [
        *full, "(again 2 (add 0 0 1 1))"], 15)


def pool_cases(cases):
    """V + 2 x N - 1 blocks; all tasks but two stand at line 30 of an add's swap,
    each with a replaced block held and one taken, and then try again."""
    for n, v in ((3, 1), (3, 2), (4, 1), (6, 3), (32, 1), (32, 16)):
        s = Script(n, v, cells.least_blocks(n, v), [5] * v)
        for task in range(n - 2):
            add_at_30(s, task, n - 2, task % v)
        turn_blocks(s, n - 2, n - 1, 4)
        for task in range(n - 2):
            if task % 3 == 1:
                s.drop(task)
            elif task % 3 == 2:
                s.part(task)
        turn_blocks(s, n - 2, n - 1, 3, v - 1)
        for task in range(n - 2):
            s.out(task)
        cases.accepted("add_pool_n_%d_v_%d" % (n, v), s.lines)
    # held by the read that follows a lost swap
    for steps in (0, 1, 2):
        s = Script(3, 1, 5 + 1, [5]).add(0, 0, 1, 2)
        lose(s, 0, 1, 0, 1).steps(0, steps)
        turn_blocks(s, 1, 2, 8)
        s.out(0)
        cases.accepted("add_pool_second_read_%d" % steps, s.lines)


def add_at_30(s, task, q, k):
    """The task's add ends up at line 30 with a replaced block held."""
    value = s.value(k)
    s.add(task, k, 1000 + task, 4).part(task)
    s.swap(q, k, value, 2000 + task)
    s.step(task, 3).step(q, 2).until(task, 30).out(q)
    assert s.next_line(task) == (30, 0)


# ------------------------------------------------------------------------ drawn

def drawn_cases(cases, seed, count):
    for number in range(1, count + 1):
        n, v = 2 + number % 4, 1 + number % 2
        cases.add("add_drawn_n_%d_v_%d_s%d" % (n, v, number), draw.draw_session(
            draw.Draw(seed + number), n, v, cells.least_blocks(n, v), draw.Style(
                length=40 + 5 * number, hot_cells=v, values=3,
                burst=1 + number % 6, refusals=(0, 0, 6)[number % 3],
                halts=number % 2, reads=25, right_guess=85,
                runs_out=(0, 20)[number % 2], drops=(0, 0, 5)[number % 3],
                adds=(40, 70, 95)[number % 3]), 60))


# ------------------------------------------------------------------ all of them

def session_add_cases(cases):
    answer_cases(cases)
    sum_cases(cases)
    zero_cases(cases)
    path_cases(cases)
    longest_cases(cases)
    back_cases(cases)
    turn_cases(cases)
    crowd_cases(cases)
    one_after_another(cases)
    left_cases(cases)
    end_cases(cases)
    refusal_cases(cases)
    refused_with_adds(cases)
    again_cases(cases)
    pool_cases(cases)
    drawn_cases(cases, 13000, 30)


def moments_add_cases(cases):
    answer_cases(cases, 3)
    zero_cases(cases)
    path_cases(cases)
    longest_cases(cases, 2)
    back_cases(cases)
    turn_cases(cases)
    left_cases(cases)
    store_cases(cases)
    refused_with_adds(cases)
    drawn_cases(cases, 13500, 25)
