#!/usr/bin/env python3
"""Self test of adds: what change request 13 says of the cells, of lists and of the
tools.

    add_selftest.py [COUNT [SEED]]      (400 and 2013 if left out)

Sessions told by hand.  The entry's questions, and question 6 of an add's data, in
edited states.  Then COUNT drawn lists with adds and drops, each by every claim of
selftest.py (its reads and swaps told on plain cells), of moments_selftest.py and of
drop_selftest.py; and each once more without adds: the same reads and swaps begun as
calls of their own, each directly after the step that ended the one before it.  The
adds' answers, counts, bounds and sums are told from those.  Last, drawn sessions
with adds by the claims of nudge_selftest.py and bus_selftest.py.
"""

import sys
from collections import Counter

import bus
import bus_selftest
import cells
import draw
import drop_selftest
import moments
import moments_selftest
import nudge_selftest
import selftest
import session
from rate import rate
from selftest import check

NONE = cells.NONE


# -------------------------------------------------------------------- by hand

def told(name, lines, printed, listed, buses):
    """What a session prints, what moments lists, and the bus lines where a load
    takes 1 nanosecond, a store 100 and a hardware swap 10,000."""
    drop_selftest.told(name, lines, printed, listed)
    times = (10, 10, 1000, 1000, 100000, 100000)
    check(name + ", bus", bus.run(*times, draw.text(lines)).decode().split(
        "\n")[:-1], buses)


def by_hand():
    # the read's lines 10 to 12 are at 1 to 3, the swap's ten at 4 to 13
    told("an add alone", [
        "(open 1 1 2 (5))", "(add 0 0 3 1)", "(again 13 (step 0))", "(step 0)"],
        ["(done 0 add 0 added 13 0 0)", "(no 14 11)", "(cell 0 8)",
         "(end 1 0 0 0)"],
        ["(at 2 itself 0 read 0 R1)", "(at 11 itself 0 swap 0 C4)"],
        ["(bus 0 0 409 409)", "(all 409 409 0 0)"])
    told("over at the first read", [
        "(open 1 1 2 (5))", "(add 0 0 4294967290 8)", "(again 4 (step 0))"],
        ["(done 0 add 0 over 3 0 0)", "(no 4 11)", "(cell 0 5)",
         "(end 1 0 0 0)"],
        ["(at 2 itself 0 read 0 R1)"], ["(bus 0 0 3 3)", "(all 3 3 0 0)"])
    told("the greatest sum", [
        "(open 1 1 2 (5))", "(add 0 0 4294967289 1)", "(again 13 (step 0))"],
        ["(done 0 add 0 added 13 0 0)", "(cell 0 4294967294)",
         "(end 1 0 0 0)"],
        ["(at 2 itself 0 read 0 R1)", "(at 11 itself 0 swap 0 C4)"],
        ["(bus 0 0 409 409)", "(all 409 409 0 0)"])
    told("d 0 is a swap of equal values", [
        "(open 1 1 2 (5))", "(add 0 0 0 1)", "(again 6 (step 0))"],
        ["(done 0 add 0 added 6 0 0)", "(cell 0 5)", "(end 1 0 0 0)"],
        ["(at 2 itself 0 read 0 R1)", "(at 5 itself 0 swap 0 C1)"],
        ["(bus 0 0 6 6)", "(all 6 6 0 0)"])
    met()
    left()


def met():
    """Task 0 has read 5 at 4; task 1 swaps it to 9, at 6 to 15; task 0's swap says
    no by 22, at 16 to 23.  With one try it is spent; with two it reads and swaps
    once more, at 24 to 26 and 27 to 36."""
    def lines(tries):
        return ["(open 2 1 4 (5))", "(swap 1 0 5 9)", "(add 0 0 2 %d)" % tries,
                "(again 3 (step 0))", "(again 10 (step 1))",
                "(again 21 (step 0))"]

    told("spent", lines(1),
         ["(done 1 swap 0 yes 10 0 0)", "(done 0 add 0 spent 11 0 0)",
          *("(no %d 11)" % i for i in range(23, 36)), "(cell 0 9)",
          "(end 2 0 0 0)"],
         ["(at 3 itself 0 read 0 R1)", "(at 12 itself 1 swap 0 C4)",
          "(at 20 itself 0 swap 0 C2)"],
         ["(bus 1 0 406 406)", "(bus 0 0 308 308)", "(all 714 714 1 0)"])
    told("added at the second try", lines(2),
         ["(done 1 swap 0 yes 10 0 0)", "(done 0 add 0 added 24 0 0)",
          "(cell 0 11)", "(end 2 0 0 0)"],
         ["(at 3 itself 0 read 0 R1)", "(at 12 itself 1 swap 0 C4)",
          "(at 20 itself 0 swap 0 C2)", "(at 24 itself 0 read 0 R1)",
          "(at 33 itself 0 swap 0 C4)"],
         ["(bus 1 0 406 406)", "(bus 0 0 717 717)", "(all 1123 1123 0 0)"])


def left():
    """An add that is withdrawn, and one that is unfinished, each with its read
    ended and its store done."""
    start = ["(open 1 1 2 (5))", "(add 0 0 2 1)", "(again 11 (step 0))"]
    listed = ["(at 2 itself 0 read 0 R1)", "(at 11 itself 0 swap 0 C4)"]
    none = ["(all 0 0 none)"]
    told("unfinished", start, ["(cell 0 7)", "(end 0 1 0 0)"], listed, none)
    told("withdrawn", [*start, "(drop 0)", "(step 0)"],
         ["(no 13 11)", "(cell 0 7)", "(end 0 0 0 0)"], listed, none)
    told("withdrawn before its swap's first step", [
        *start[:2], "(again 3 (step 0))", "(drop 0)"],
        ["(cell 0 5)", "(end 0 0 0 0)"], listed[:1], none)


# ------------------------------------------------------------------ the entry

def adds_are_asked():
    """"Refused: 23, r outside 1 to 8, asked after 9; d may be any number." """
    for tries in (0, 1, 8, 9, 255, NONE):
        for amount in (0, 1, NONE - 1, NONE):
            for task in (0, 1, 2, NONE):
                for cell in (0, 1, 2, NONE):
                    asked(task, cell, amount, tries)


def asked(task, cell, amount, tries):
    model = cells.open_cells(2, 2, 5, [9] * 25, [5, 6])
    model.begin_read(1, 0)
    before = selftest.everything(model)
    found = model.begin_add(task, cell, amount, tries)
    wanted = (7 if task >= 2 else 8 if cell >= 2 else 9 if task == 1
              else 0 if 1 <= tries <= 8 else 23)
    check("asked", found, cells.Refused(wanted) if wanted else None)
    if wanted:
        check("a refusal changes nothing", selftest.everything(model), before)
    else:
        record = model.tasks[0]
        check("begun", (record.line, record.kind, record.cell, record.amount,
                        record.tries), (10, cells.READ, cell, amount, tries))
    model.counts[0] += 1
    check("unfit", model.begin_add(task, cell, amount, tries), cells.Refused(6))


# An add's read or swap under way: kind, r, swaps lost, and what it did before:
# steps, hardware swaps won and lost.
FITS = {}
for _kind in (cells.READ, cells.SWAP):
    for _tries in (1, 2, 7, 8, 9, NONE):
        for _lost in (0, 1, 6, 7, 8, NONE):
            for _steps, _hard in ((0, 0), (27 * _lost, 4 * _lost), (6, 1),
                                  (27 * _lost + 6, 4 * _lost + 1),
                                  (27 * _lost + 7, 0), (0, 4 * _lost + 2),
                                  (27 * _lost + 1, 0), (0, 4 * _lost + 1)):
                for _won in {0, _hard // 2, _hard}:
                    FITS["%s_r_%d_lost_%d_after_%d_%d_%d" % (
                        _kind, _tries, _lost, _steps, _won, _hard - _won)] = (
                            _kind, _tries, _lost, _steps, _won, _hard - _won)


def add_state(module, kind, tries, swaps_lost, steps, won, lost):
    model = module.open_cells(1, 1, 2, [0] * 10, [5])
    model.begin_add(0, 0, 1, 1)
    record = model.tasks[0]
    if kind == module.SWAP:
        model.begin(0, kind, 0, 5, 6)
    record.tries, record.swaps_lost = tries, swaps_lost
    record.steps_before, record.won_before, record.lost_before = (
        steps, won, lost)
    return model


def fit_by_the_papers(kind, tries, swaps_lost, steps, won, lost):
    before = swaps_lost * 27 + (6 if kind == "swap" else 0)
    hard = swaps_lost * 4 + (1 if kind == "swap" else 0)
    return (1 <= tries <= 8 and swaps_lost < tries and steps <= before
            and won + lost <= hard)


def fit_adds():
    fit = 0
    for name, state in FITS.items():
        model = add_state(cells, *state)
        wanted = fit_by_the_papers(*state)
        check(name, model.is_fit(), wanted)
        fit += wanted
        # "an idle task's" data are not asked
        model.tasks[0].clear_call()
        check("%s, idle" % name, model.is_fit(), True)
    check("both answers come up", min(fit, len(FITS) - fit) > 50, True)


def stale_data_are_cleared():
    """A begin of a read or swap, and a drop, clear the add's data; so does the end
    of an add."""
    for begin in (("read", 0, 0), ("swap", 0, 0, 5, 6), ("swap", 0, 0, 5, 5)):
        model = add_state(cells, cells.SWAP, 3, 2, 40, 3, 2)
        model.tasks[0].clear_call()
        check("a begin", model.act(*begin), None)
        check("it is no add's", (model.tasks[0].adds, model.is_fit()),
              (False, True))
        while model.tasks[0].busy:
            result = model.step(0)
        check("its own word", result.kind, begin[0])
        model.begin_add(0, 0, 1, 2)
        model.step(0)
        check("a drop", (model.drop(0), set(model.tasks[0].words())),
              (None, {0}))
        model.begin_add(0, 0, 1, 2)
        while model.tasks[0].busy:
            result = model.step(0)
        check("an end", (result.kind, set(model.tasks[0].words())),
              (cells.ADD, {0}))


# --------------------------------------------------------- lists without adds

class Outside:
    """An add kept outside of cells that have reads and swaps alone."""

    def __init__(self, cell, amount, tries):
        self.cell, self.amount, self.tries = cell, amount, tries
        self.swaps = 0
        self.steps = self.won = self.lost = 0
        self.answer = None
        self.withdrawn = False

    def after(self, part):
        """The answer that this read or swap leads to, or the next one."""
        self.steps += part.steps
        self.won += part.won
        self.lost += part.lost
        if part.kind == "read":
            if part.answer + self.amount > 4294967294:
                return "over", None
            return None, ("swap", part.answer, part.answer + self.amount)
        self.swaps += 1
        if part.answer is True:
            return "added", None
        return ("spent", None) if self.swaps == self.tries else (
            None, ("read",))


class Plain:
    """A list with adds told by one without: what is printed of it, and the list."""

    def __init__(self, opening, actions):
        self.opening = opening
        self.model = selftest.opened(opening)
        self.actions = []    # of the list without adds
        self.numbers = []    # of each of them, the number in the other list
        self.out = []
        self.adds = []
        self.under_way = {}  # task -> its add, or None
        self.touched = {}    # cell -> words of the calls begun there
        self.finished = self.hard = 0
        for i, action in enumerate(actions):
            self.act(i, *action)

    def play(self, i, *action):
        """An action of the list without adds."""
        self.actions.append(action)
        self.numbers.append(i)
        return self.model.act(*action)

    def act(self, i, word, task, *numbers):
        if word == "add":
            result = self.begin_add(i, task, *numbers)
        else:
            result = self.play(i, word, task, *numbers)
        if isinstance(result, cells.Refused):
            self.out.append("(no %d %d)" % (i, result.number))
        elif word == "step":
            if result is not None:
                self.ended(i, task, result)
        elif word == "drop":
            add = self.under_way.pop(task)
            if add:
                add.withdrawn = True
        else:
            self.touched.setdefault(numbers[0], []).append(word)
            self.under_way.setdefault(task, None)

    def begin_add(self, i, task, cell, amount, tries):
        """An add begins as a read; one that is refused by 23 alone is in its place
        one of no task."""
        idle = (task < self.model.n and cell < self.model.v
                and not self.model.tasks[task].busy)
        if idle and tries not in range(1, 9):
            self.play(i, "step", NONE)
            return cells.Refused(23)
        result = self.play(i, "read", task, cell)
        if result is None:
            self.under_way[task] = Outside(cell, amount, tries)
            self.adds.append(self.under_way[task])
        return result

    def ended(self, i, task, part):
        add = self.under_way[task]
        if add is None:
            self.done(task, part.kind, part.cell, self.said(part), part)
            return
        add.answer, following = add.after(part)
        if following:
            word, *swap = following
            check("begun", self.play(i, word, task, add.cell, *swap), None)
        else:
            self.done(task, "add", add.cell, add.answer, add)

    def done(self, task, word, cell, answer, counts):
        del self.under_way[task]
        self.finished += 1
        self.hard += counts.won + counts.lost
        self.out.append("(done %d %s %d %s %d %d %d)" % (
            task, word, cell, answer, counts.steps, counts.won, counts.lost))

    @staticmethod
    def said(part):
        if part.kind == "swap":
            return "yes" if part.answer else "no"
        return "%d" % part.answer

    def text(self):
        ends = ["(cell %d %d)" % (k, self.model.look(k))
                for k in range(self.model.v)]
        ends.append("(end %d %d %d %d)" % (
            self.finished, len(self.under_way), self.hard,
            rate(self.hard, self.finished)))
        return "".join(line + "\n" for line in self.out + ends).encode()

    def moments(self):
        """Its moments, by the numbers of the list with adds."""
        lines = []
        data = selftest.text_of(self.opening, self.actions)
        for line in moments.run(data).decode().split("\n")[:-1]:
            at, i, *items = line.split(" ")
            lines.append(" ".join((at, "%d" % self.numbers[int(i)], *items)))
        return "".join(line + "\n" for line in lines).encode()


def judge_add(name, add):
    """"It takes at most 27 x r steps"; and of hardware swaps, 4 for each try."""
    left = add.answer is None
    check(name + "steps", add.steps <= 27 * add.tries - left, True)
    check(name + "hardware swaps", add.won + add.lost <= 4 * add.tries, True)
    check(name + "spent after r swaps", add.answer == "spent"
          and add.swaps != add.tries, False)


def judge_sums(name, plain):
    """"On a cell touched only by adds and reads, with no call unfinished or
    withdrawn, look gives the start plus the amounts of all adds that answered
    added."  Asked of the calls on that cell; how many such cells have adds."""
    sums = 0
    for k, start in enumerate(plain.opening[3]):
        adds = [add for add in plain.adds if add.cell == k]
        busy = any(record.busy and record.cell == k
                   for record in plain.model.tasks)
        if "swap" in plain.touched.get(k, ()) or busy or any(
                add.withdrawn for add in adds):
            continue
        check(name + "the sum of cell %d" % k, plain.model.look(k), start + sum(
            add.amount for add in adds if add.answer == "added"))
        sums += bool(adds)
    return sums


# --------------------------------------------------------------------- drawn

ADDS, DROPS = (20, 60, 90), (0, 0, 4, 10)


def crowd(drawn):
    """Adds and reads alone, all run out; they meet in bursts."""
    n, v = drawn.pick((2, 3, 4, 6, 9)), drawn.between(1, 2)
    opening = n, v, cells.least_blocks(n, v), [drawn.below(9)
                                               for _ in range(v)]
    model = selftest.opened(opening)
    actions = draw.draw_actions(drawn, model, draw.Style(
        length=drawn.between(30, 200), hot_cells=v, burst=drawn.between(1, 9),
        reads=100, adds=drawn.pick((70, 95)), refusals=drawn.pick((0, 3))))
    actions += run_out(drawn, model)
    return opening, actions


def run_out(drawn, model):
    """Steps that end every call, in bursts."""
    actions = []
    while any(record.busy for record in model.tasks):
        task = drawn.pick([t for t in range(model.n) if model.tasks[t].busy])
        for _ in range(drawn.between(1, 12)):
            actions.append(("step", task))
            if model.step(task) is not None:
                break
    return actions


def near_the_top(drawn):
    """Starting values about as great as they may be."""
    opening, actions = selftest.drawn_list(drawn, (0,))
    n, v, b, _ = opening
    opening = n, v, b, [NONE - 1 - drawn.below(6) for _ in range(v)]
    return opening, draw.draw_actions(drawn, selftest.opened(opening), draw.Style(
        length=drawn.between(20, 120), hot_cells=v, burst=drawn.between(1, 7),
        reads=20, right_guess=90, values=4, adds=80, drops=drawn.pick(DROPS)))


def drawn_list(drawn, number):
    if number % 4 == 0:
        return crowd(drawn)
    if number % 4 == 1:
        return near_the_top(drawn)
    return selftest.drawn_list(drawn, DROPS, ADDS)


class Judged:
    """Lists with adds judged, and what they came by."""

    def __init__(self):
        self.lists = selftest.Lists()
        self.seen = Counter()

    def judge(self, name, opening, actions):
        data = selftest.text_of(opening, actions)
        self.lists.judge(name, opening, actions)
        self.seen["moments"] += moments_selftest.judged(name, data)
        moments_selftest.answers_are_the_pool_s(data)
        self.seen["without drops"] += drop_selftest.same_without_drops(
            name, opening, actions)
        plain = Plain(opening, actions)
        check(name + "printed", session.run(data, ask_fit=True), plain.text())
        check(name + "moments", moments.run(data), plain.moments())
        for add in plain.adds:
            judge_add(name, add)
            self.seen.update(kinds_of(add))
        self.seen["sums"] += judge_sums(name, plain)


def kinds_of(add):
    yield "adds"
    if add.withdrawn:
        yield "withdrawn"
    elif add.answer is None:
        yield "unfinished"
    else:
        yield "%s after %d swaps" % (add.answer, add.swaps)


def drawn_lists(count, seed):
    judged = Judged()
    drawn = draw.Draw(seed)
    for number in range(count):
        opening, actions = drawn_list(drawn, number)
        judged.judge("list %d of seed %d\n%s" % (
            number, seed, selftest.text_of(opening, actions).decode()),
            opening, actions)
    if count >= 400:
        judge_coverage(judged)
    return judged


def judge_coverage(judged):
    judged.lists.judge_coverage(False)
    for kind in ("withdrawn", "unfinished", "added after 1 swaps",
                 "added after 2 swaps", "added after 3 swaps",
                 "over after 0 swaps", "over after 1 swaps",
                 "spent after 1 swaps", "spent after 2 swaps",
                 "spent after 3 swaps", "sums"):
        check(kind, judged.seen[kind] > 2, True)


def main():
    count, seed = (int(word) for word in (
        sys.argv[1:] + ["400", "2013"][len(sys.argv) - 1:])[:2])
    by_hand()
    adds_are_asked()
    fit_adds()
    stale_data_are_cleared()
    judged = drawn_lists(count, seed)
    print("add_selftest: %d drawn lists agree: %s" % (count, ", ".join(
        "%d %s" % (often, kind) for kind, often in sorted(judged.seen.items()))))
    named = [nudge_selftest.told_two_ways(data) for data in
             nudge_selftest.drawn_sessions(count // 4, ADDS, seed)]
    print("add_selftest: %d calls named, %d of them with a nudge" % (
        sum(pair[0] for pair in named), sum(pair[1] for pair in named)))
    print("add_selftest: %d finished calls agree with the table" % (
        bus_selftest.drawn_sessions(count // 2, ADDS, seed)))


if __name__ == "__main__":
    main()
