"""The cases of nudge, which make_tool_cases.py writes.

Each file's first two lines are the arguments; the rest is the session.
Everything is the same on every run.  The cases must come by each thing that may
become of a call, at each place of the exchange.
"""

from collections import Counter

import cells
import draw
import make_cases
import moments
import nudge
import shaker
import tools
from cases_attempts import to_23
from cases_calls import P1, P9, P10, PLACES, path_scripts
from cases_drop import late_stores
from cases_drop_tools import nudge_drop_cases
from cases_refusals import padded
from script import Script, contend

# The kept files stay below this many bytes.
MOST_DATA = 300000

# What the cases come by, each at least so often: what became of the call, and
# where the exchange was.
WANTED = {
    "none": 60,
    **{"%s, %s" % (became, where): count for became, where, count in (
        ("answers otherwise", "before its begin", 10),
        ("answers otherwise", "between", 30),
        ("answers otherwise", "its last step and the next", 10),
        (nudge.UNFINISHED, "before its begin", 10),
        (nudge.UNFINISHED, "between", 15),
        (nudge.UNFINISHED, "its last step and the next", 10),
        (nudge.NOT_BEGUN, "before its begin", 20))},
    "its begin is exchanged first": 30,
    "its begin is exchanged": 60,
    "a refused action is exchanged": 20,
    "a task above N - 1 is exchanged": 10,
    "a neighbour of the same task": 100,
    "a drop is exchanged": 20,
    "a refused drop is exchanged": 5,
    "the call is withdrawn after the exchange": 8,
    "its task was dropped before": 10,
}


class Cases(make_cases.Cases):
    def __init__(self):
        super().__init__(tools.Stored(nudge))
        self.seen = Counter()
        self.refusals = Counter()

    def name(self, name, task, n, data):
        """A call of the tool; hands back its trace."""
        if not isinstance(data, bytes):
            data = draw.text(data)
        trace = self.add("%s_%d_%d" % (name, task, n),
                         tools.stored((task, n), data))
        self.refusals += trace.refusals
        if not trace.refusals:
            self.seen.update(seen_in(trace, *sizes(data)))
            self.seen.update(drops_seen_in(trace, sizes(data)[1]))
        return trace

    def named(self, name, data, *calls):
        """Calls of the tool, none refused."""
        for task, n in calls:
            assert not self.name(name, task, n, data).refusals, name

    def refused(self, name, task, n, data, number):
        trace = self.name("bad_%02d_%s" % (number, name), task, n, data)
        assert list(trace.refusals) == [number], (name, trace.refusals)

    def all_named(self, name, data):
        """Every finished call of a session is named."""
        for task, n in finished_calls(data):
            self.named(name, data, (task, n))


def sizes(data):
    opening, _ = tools.take_session(data)
    return opening.n, opening


def finished_calls(data):
    """Task and number of every finished call, in the order of their ends."""
    if not isinstance(data, bytes):
        data = draw.text(data)
    opening, actions = tools.take_session(data)
    model = nudge.opened(opening)
    before = Counter()
    for action in actions:
        if isinstance(nudge.act(model, action), cells.Finished):
            yield action.task, before[action.task]
            before[action.task] += 1


def place(trace):
    begin, last, _ = trace.named
    if trace.exchange + 1 < begin:
        return "before its begin"
    if trace.exchange == last:
        return "its last step and the next"
    assert begin < trace.exchange < last, trace.exchange
    return "between"


def seen_in(trace, n, opening):
    """What a call of the tool came by, of WANTED's names."""
    begin, last, _ = trace.named
    end = len(trace.actions) - 1
    if trace.exchange is None:
        yield "none"
    else:
        end = trace.exchange
        became = trace.became
        if became in (cells.ADDED, cells.OVER, cells.SPENT):
            became = "answers %s" % became
        elif not isinstance(became, str):
            became = "answers otherwise"
        yield "%s, %s" % (became, place(trace))
    model = nudge.opened(opening)
    refused = [isinstance(nudge.act(model, action), cells.Refused)
               for action in trace.actions]
    tasks = [action.task for action in trace.actions]
    # those that are tried and do nothing
    for i in range(min(end, last)):
        if tasks[i] == tasks[i + 1]:
            yield "a neighbour of the same task"
            continue
        if begin in (i, i + 1):
            yield "its begin is exchanged"
            if begin == i + 1:
                yield "its begin is exchanged first"
        if refused[i] or refused[i + 1]:
            yield "a refused action is exchanged"
        if max(tasks[i], tasks[i + 1]) >= n:
            yield "a task above N - 1 is exchanged"


def drops_seen_in(trace, opening):
    """The same of drops."""
    actions, (begin, last, _) = trace.actions, trace.named
    history = moments.History(opening, actions)
    drops = {o.drop for o in history.wholes}
    if any(o.drop is not None and o.task == actions[begin].task
           for o in history.wholes if o.begin < begin):
        yield "its task was dropped before"
    end = len(actions) - 1 if trace.exchange is None else trace.exchange
    for i in range(min(end, last)):
        two = [at for at in (i, i + 1) if actions[at].word == "drop"]
        if two and actions[i].task != actions[i + 1].task:
            yield ("a drop is exchanged" if drops & set(two)
                   else "a refused drop is exchanged")
    if trace.became == nudge.UNFINISHED:
        history = moments.History(opening, nudge.exchanged(actions, end))
        begin = nudge.place_after(begin, end)
        if any(o.begin == begin and o.drop is not None for o in history.wholes):
            yield "the call is withdrawn after the exchange"


# ------------------------------------------------------- written by hand

def paper_cases(cases):
    for name, lines in (("p1", P1), ("p9", P9), ("p10", P10)):
        cases.all_named(name, lines)
    cases.named("p5", ["(open 2 1 5 (5))", "(swap 0 0 5 5)",
                       "(again 3 (step 0))"], (0, 0))
    cases.named("p6", ["(open 2 1 5 (5))", "(swap 0 0 4 6)",
                       "(again 8 (step 0))"], (0, 0))


def race_cases(cases):
    """Two steps next to each other, in both orders, and what each does to the
    calls; task 2 reads the cell before, between or after."""
    for first, second in ((0, 1), (1, 0)):
        name = "%d_first" % first

        # a load of V next to the store: R1 and C2
        s = Script(3, 1, 7, [5])
        s.swap(0, 0, 5, 7).step(0, 7).read(1, 0).step(1, 1)
        s.step(first).step(second).out(1).out(0).read(2, 0).out(2)
        cases.all_named("race_11_and_23_%s" % name, s.lines)

        # a load of C next to its setting: R1 or R2
        s = Script(4, 1, 9, [5])
        s.swap(0, 0, 5, 7).step(0, 2).swap(2, 0, 5, 8).step(2, 7).step(0, 1)
        s.read(1, 0).step(1, 2).step(first).step(second)
        s.out(1).out(0).out(2)
        cases.all_named("race_12_and_27_%s" % name, s.lines)
        # the same with calls after it, that are not begun if the read goes on
        s.swap(1, 0, s.value(0), 6).out(1).read(1, 0).out(1).read(3, 0).out(3)
        cases.all_named("race_12_and_27_%s_more" % name, s.lines)

        # two tasks at 30
        s = Script(3, 1, 7, [5])
        contend(s, 0, 1, 0)
        s.swap(0, 0, 9, 20).swap(1, 0, 9, 21).until(0, 30).until(1, 30)
        s.step(first).step(second).read(2, 0).out(2)
        s.swap(0, 0, 20, 22).out(0).read(1, 0).out(1)
        cases.all_named("race_30_and_30_%s" % name, s.lines)

        # the splitter: 16 and 16, 18 and 17, 19 and 16
        for steps in ((1, 1), (3, 2), (4, 1), (2, 2), (5, 3)):
            s = Script(3, 1, 7, [5])
            s.swap(0, 0, 5, 7).swap(1, 0, 5, 9)
            s.step(0, steps[0]).step(1, steps[1])
            s.step(first).step(second).out(first).out(second)
            s.read(2, 0).out(2)
            cases.all_named("race_splitter_%d_%d_%s" % (*steps, name), s.lines)

        # the reset of the splitter next to another's look at it
        s = Script(3, 1, 7, [5])
        s.swap(0, 0, 5, 7).step(0, 9).swap(1, 0, 7, 9).step(1, 2)
        s.step(first).step(second).out(1).out(0).read(2, 0).out(2)
        cases.all_named("race_26_and_17_%s" % name, s.lines)

        # a late store next to a load of V, and next to the decision
        for steps in (0, 1):
            s = Script(3, 1, 7, [5])
            to_23(s, 0, 1, 0)
            s.step(1, steps)
            s.step(first).step(second).out(1).out(0).read(2, 0).out(2)
            cases.all_named("race_late_store_%d_%s" % (steps, name), s.lines)


def begin_call(s, task, kind):
    """A read, a swap of equal values, or one that says no."""
    if kind == "read":
        s.read(task, 0)
    elif kind == "yes":
        s.swap(task, 0, s.value(0), s.value(0))
    elif kind == "no":
        s.swap(task, 0, 3, 3)
    else:
        s.swap(task, 0, s.value(0), 6)


def last_cases(cases):
    """A call whose last step stands next to another's step, and calls that its
    task begins after it."""
    for n, p, q, r in ((3, 0, 1, 2), (3, 2, 1, 0), (32, 17, 31, 4)):
        for kind in ("read", "yes", "no"):
            # r is about to load C, q to set it, p to store
            def opened():
                s = Script(n, 1, 2 * n, [5])
                s.swap(q, 0, 5, 7).step(q, 2).swap(p, 0, 5, 9).step(p, 7)
                s.step(q, 1)
                begin_call(s, r, kind)
                return s.step(r, 2).step(r).step(q)

            name = "last_%s_t%d" % (kind, r)
            s = opened()
            cases.named(name, s.lines, (r, 0))
            # r has three steps more, which are refused
            cases.named(name + "_more_steps", s.lines + [
                "(step %d)" % p, "(again 3 (step %d))" % r], (r, 0))
            # it begins another call; the store is decided before or after
            for then in ("read", "yes", "swap"):
                s = opened()
                if then == "yes":
                    s.out(p)
                begin_call(s, r, then)
                s.out(r)
                calls = [(r, 0), (r, 1)]
                if n == 3:
                    # and a third one, which answers as the second does
                    s.read(r, 0).out(r)
                    calls.append((r, 2))
                cases.named(name + "_then_" + then, s.lines, *calls)
        # they replace a block one after the other
        s = Script(n, 1, 1 + 2 * n, [5])
        contend(s, p, q, 0)
        for task in (p, q, r):
            s.swap(task, 0, 9, 20 + task).until(task, 30)
        s.step(r).step(p).step(q)
        cases.all_named("last_30_t%d" % r, s.lines)


def grid_cases(cases):
    """Two swaps: so many steps of one, then of the other, then both run out."""
    for a in range(1, 10):
        for b in range(1, 10, 2):
            s = Script(3, 1, 7, [5])
            s.swap(0, 0, 5, 7).swap(1, 0, 5, 9).steps(0, a).steps(1, b)
            s.out(a % 2).out(1 - a % 2)
            if b == 5:
                s.read(2, 0).out(2)
            kept(cases, "grid_%d_%d" % (a, b), s.lines, 7)


def kept(cases, name, data, one_in):
    """Of a session's calls those with a nudge, and one in so many of the
    others."""
    if not isinstance(data, bytes):
        data = draw.text(data)
    for number, (task, n) in enumerate(finished_calls(data)):
        none = nudge.run(task, n, data) == b"(nudge none)\n"
        if not none or (number + len(cases.files)) % one_in == 0:
            cases.named(name, data, (task, n))


def path_cases(cases):
    for name, _, script in path_scripts():
        for n, v, b, p, q, k in (PLACES[1], PLACES[4]):
            values = [100 + i for i in range(v)]
            values[k] = 5
            s = Script(n, v, b, values)
            script(s, p, q, k)
            s.out(q)
            task, last = list(finished_calls(s.lines))[-1]
            cases.named("path_%s_t%d" % (name, p), s.lines, (task, last))


def action_cases(cases):
    """Refused actions, and tasks that are none, between the others: they belong
    to the task that they name, and are exchanged like any other."""
    for name, between in (("idle", ["(step 2)"]), ("no_task", ["(step 9)"]),
                          ("most", ["(read 4294967295 0)"]),
                          ("own", ["(swap 0 0 5 5)"]),
                          ("cell", ["(read 2 4)"]),
                          ("none", ["(swap 2 0 5 4294967295)"]),
                          ("two", ["(step 2)", "(step 3)"])):
        for at in (1, 2, 3):
            # the store of task 0 and the load of task 1, and between them
            s = Script(4, 1, 9, [5])
            s.swap(0, 0, 5, 7).step(0, 7).read(1, 0).step(1, 1)
            s.step(0).step(1).out(1).out(0)
            lines = s.lines
            tail = ["(step 0)", "(step 1)", "(step 1)", "(again 2 (step 0))"]
            assert lines[-4:] == tail
            cases.all_named("refused_%s_%d" % (name, at), lines[:-4]
                            + tail[:at - 1] + between + tail[at - 1:])
    # n counts finished calls, not begins that were refused
    lines = ["(open 3 1 7 (5))", "(read 0 1)", "(read 0 0)", "(read 0 0)",
             "(again 4 (step 0))", "(swap 0 0 5 4294967295)",
             "(swap 1 0 5 7)", "(again 8 (step 1))", "(read 0 0)", "(step 0)",
             "(read 2 0)", "(step 2)", "(step 0)", "(again 2 (step 1))",
             "(step 0)", "(again 2 (step 2))", "(swap 0 0 7 8)", "(step 0)"]
    cases.named("refused_begins_before", lines, (0, 0), (0, 1), (1, 0), (2, 0))
    cases.refused("begins_refused", 0, 2, lines, 18)
    # the begin next to another's step on either side, and next to a begin
    for name, two in (("after", ["(step 1)", "(read 0 0)"]),
                      ("before", ["(read 0 0)", "(step 1)"])):
        cases.all_named("begin_%s_a_step" % name, [
            "(open 3 1 7 (5))", "(swap 1 0 5 7)", "(again 6 (step 1))", *two,
            "(step 0)", "(step 1)", "(step 0)", "(step 0)",
            "(again 2 (step 1))"])
    for name, begins in (("between", ["(read 1 0)", "(read 0 0)",
                                      "(swap 2 0 5 6)"]),
                         ("first", ["(read 0 0)", "(read 1 0)"]),
                         ("last", ["(swap 1 0 4 4)", "(read 0 0)"])):
        steps = ["(again 3 (step 0))", "(again 3 (step 1))",
                 "(again 10 (step 2))"][:len(begins)]
        cases.all_named("begin_%s_begins" % name,
                        ["(open 3 1 7 (5))", *begins, *steps])


def size_cases(cases):
    """2,000 actions and 2,001."""
    read = "(read 0 0) (again 3 (step 0))"
    race = ["(swap 1 0 5 7)", "(again 7 (step 1))", "(read 0 0)", "(step 0)",
            "(step 0)", "(step 1)", "(step 0)", "(again 2 (step 1))"]
    full = ["(open 2 1 5 (5))", "(again 496 %s)" % read, *race, "(step 0)"]
    assert len(tools.take_session(draw.text(full))[1]) == 2000
    cases.named("actions_2000", full, (0, 496), (1, 0), (0, 0))
    cases.refused("actions_2000", 0, 497, full, 18)
    full[-1] = "(again 2 (step 0))"
    for task, n in ((0, 496), (1, 0), (0, 0)):
        cases.refused("actions_2001", task, n, full, 19)
    # 19 before 18
    for task, n in ((0, 497), (1, 1), (2, 0), (4294967295, 4294967295)):
        cases.refused("before_18", task, n, full, 19)
    cases.refused("again", 0, 0, ["(open 2 1 5 (5))", "(again 3 (step 0))",
                                  "(again 1998 (step 0))"], 19)
    cases.refused("most", 0, 0, ["(open 2 1 5 (5))", "(read 0 0)",
                                 "(again 65534 (step 0))"], 19)
    # 2,000 by refused actions, many of which are exchanged
    lines = ["(open 2 1 5 (5))", *race, "(again 490 (step 0) (step 1))",
             "(again 500 (read 2 0) (step 3))", "(again 5 (read 9 9))"]
    assert len(tools.take_session(draw.text(lines))[1]) == 2000
    cases.named("actions_2000_refused_after", lines, (0, 0), (1, 0))
    lines = ["(open 2 1 5 (5))", "(again 60 (step 0) (step 1))",
             "(again 40 (read 2 0) (step 3))", *race]
    cases.named("actions_refused_before", lines, (0, 0), (1, 0))


def refusal_cases(cases):
    cases.refused("bytes", 0, 0, padded(P1, 65537), 12)
    cases.named("bytes_65536", padded(P1, 65536), (0, 0))
    open_line = "(open 2 1 5 (5))"
    for number, name, lines in (
            (13, "two_spaces", [open_line, "(step  0)"]),
            (13, "no_form", [open_line, ""]),
            (14, "no_open", ["(step 0)"]),
            (14, "word", [open_line, "(nudge 0)"]),
            (15, "actions", [open_line, "(again 65536 (step 0))"]),
            (1, "n_0", ["(open 0 1 5 (5))"]),
            (1, "n_33", ["(open 33 1 128 (5))"]),
            (2, "v_17", ["(open 1 17 128 (5))"]),
            (3, "b_few", ["(open 2 1 3 (5))"]),
            (3, "b_129", ["(open 2 1 129 (5))"]),
            (4, "values", ["(open 2 1 5 (5 5))"]),
            (5, "none", ["(open 2 1 5 (4294967295))"])):
        cases.refused(name, 0, 0, lines, number)
        # before 18, and before 19
        if number not in (13, 14, 15):
            cases.refused(name + "_before_19", 7, 0,
                          lines + ["(again 2001 (step 0))"], number)
    cases.refused("empty_file", 0, 0, b"", 14)
    for name, lines in (("p1", P1), ("p9", P9)):
        cases.refused(name, 2, 0, lines, 18)           # T is no task
        cases.refused(name, 1, 1, lines, 18)           # n is too great
        cases.refused(name, 0, 4294967295, lines, 18)
        cases.refused(name, 4294967295, 0, lines, 18)
        cases.refused(name, 256, 0, lines, 18)
        cases.refused(name, 65536, 0, lines, 18)
        cases.refused(name, 0, 256, lines, 18)
        cases.refused(name, 0, 65536, lines, 18)
    # it is begun and not finished; all its actions are refused; no action
    cases.refused("unfinished", 0, 0, [open_line, "(swap 0 0 5 7)",
                                       "(again 9 (step 0))"], 18)
    cases.refused("unfinished_second", 0, 1, [
        open_line, "(read 0 0)", "(again 3 (step 0))", "(read 0 0)",
        "(again 2 (step 0))"], 18)
    cases.refused("no_task_acts", 2, 0, [open_line, "(read 2 0)",
                                         "(again 3 (step 2))"], 18)
    cases.refused("no_action", 0, 0, [open_line], 18)
    cases.refused("another_s", 1, 0, [open_line, "(read 0 0)",
                                      "(again 3 (step 0))"], 18)


# ------------------------------------------------------------------- drawn

def draw_begin(drawn, s, task):
    kind = drawn.below(10)
    value = s.value(0)
    if kind < 3:
        s.read(task, 0)
    elif kind < 8:
        s.swap(task, 0, value, 6 + drawn.below(4))
    elif kind == 8:
        s.swap(task, 0, value + 1, value)
    else:
        s.swap(task, 0, value, value)


def close_session(drawn):
    """A few calls that meet on one cell; nobody moves once they have ended."""
    n = drawn.pick((2, 2, 3))
    s = Script(n, 1, 2 * n, [5])
    if drawn.percent(30):
        contend(s, 0, 1, 0)
    left = [drawn.pick((1, 1, 2)) for _ in range(n)]
    while any(left) or any(record.busy for record in s.model.tasks):
        task = drawn.below(n)
        if s.model.tasks[task].busy:
            s.steps(task, drawn.pick((1, 1, 1, 2, 3, 6)))
        elif left[task]:
            left[task] -= 1
            draw_begin(drawn, s, task)
    return s.lines


def draw_few(cases, name, seed, number, one_in, drops=0):
    """The calls of a short drawn session."""
    n = 2 + number % 3
    v = 1 + (number % 7 == 0)
    lines = draw.draw_session(
        draw.Draw(seed + number), n, v, cells.least_blocks(n, v), draw.Style(
            length=24 + number % 30, hot_cells=v, values=2 + number % 2,
            burst=1 + number % 4, right_guess=80, reads=30, equal=5,
            refusals=(0, 0, 6)[number % 3], idle=(0, 20, 40)[number % 3],
            drops=drops), 100)
    kept(cases, "%s_n_%d_s%d" % (name, n, number), lines, one_in)


def drawn_cases(cases):
    drawn = draw.Draw(90)
    for number in range(200):
        kept(cases, "close_%d" % number, close_session(drawn), 13)
    for number in range(1, 31):
        draw_few(cases, "drawn", 9000, number, 9)
    for seed in range(8):
        kept(cases, "shaken_s%d" % seed,
             shaker.shake(99 * seed, 2 + seed % 3, 1, 11, 40 + 5 * seed), 5)


def drawn_drop_cases(cases):
    for number in range(1, 21):
        draw_few(cases, "drop_drawn", 12900, number, 5, (6, 12)[number % 2])
    for number in range(1, 13):
        kept(cases, "drop_late_s%d" % number,
             late_stores(draw.Draw(12950 + number), 20, 2), 11)


def make():
    cases = Cases()
    paper_cases(cases)
    race_cases(cases)
    last_cases(cases)
    grid_cases(cases)
    path_cases(cases)
    action_cases(cases)
    size_cases(cases)
    refusal_cases(cases)
    drawn_cases(cases)
    nudge_drop_cases(cases)
    drawn_drop_cases(cases)
    for kind, count in WANTED.items():
        assert cases.seen[kind] >= count, (kind, cases.seen[kind])
    assert set(cases.seen) == set(WANTED), set(cases.seen) - set(WANTED)
    assert set(cases.refusals) == {1, 2, 3, 4, 5, 12, 13, 14, 15, 18, 19}
    assert sum(map(len, cases.files.values())) < MOST_DATA
    return cases


def say(cases):
    return "%d calls named, %d refused; %s" % (
        len(cases.files), sum(cases.refusals.values()),
        ", ".join("%d %s" % (count, kind) for kind, count
                  in sorted(cases.seen.items()) if "exchanged" not in kind
                  and "neighbour" not in kind))
