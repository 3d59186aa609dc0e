#!/usr/bin/env python3
"""Self test of nudge.py: what change request 9 says, told another way.

    nudge_selftest.py [COUNT]

COUNT drawn sessions, some with drops, and the stored ones that are short: for
every finished call and every exchange of neighbours of different tasks the
exchanged session is written as a file of its own and run by the figure with a new
block each time (moments.History); the earliest one that matters is what nudge.py
prints.  An exchange of a begin, of a drop, of a refused action and of any actions
after the call's last step and the next matters never.  Then the refusals in their
order, and the arguments.
"""

import sys

import cells
import draw
import make_nudge_cases
import moments
import nudge
import shaker
import tools
from cases_calls import P1
from make_nudge_cases import close_session, finished_calls
from shake_selftest import NO_NUMBERS


def check(what, found, wanted):
    if found != wanted:
        print("nudge_selftest: %s\n  found  %r\n  wanted %r"
              % (what, found, wanted))
        sys.exit(1)


# ------------------------------------------------------------ drawn sessions

def figure_of(first, lines):
    """The figure's history of a session of these lines."""
    return moments.History(*tools.take_session(
        (first + "".join(lines)).encode()))


class Exchanges:
    """Every exchange of neighbours of different tasks in a session."""

    def __init__(self, data):
        opening, actions = tools.take_session(data)
        self.first = draw.opening_line(*opening) + "\n"
        self.lines = [shaker.line_of(action) for action in actions]
        self.tasks = [action.task for action in actions]
        self.history = figure_of(self.first, self.lines)
        self.after = {}  # i -> calls by the place of their begin
        for i in range(len(actions) - 1):
            if self.tasks[i] == self.tasks[i + 1]:
                continue
            lines = list(self.lines)
            lines[i], lines[i + 1] = lines[i + 1], lines[i]
            self.after[i] = {o.begin: o.answer for o in
                             figure_of(self.first, lines).wholes}

    def nudges(self, o):
        """Every exchange that matters to this call."""
        found = []
        for i, answers in self.after.items():
            begin = {i: i + 1, i + 1: i}.get(o.begin, o.begin)
            if begin not in answers or answers[begin] is None or (
                    answers[begin] != o.answer):
                found.append(i)
        return found


def drawn_sessions(count, adds=(), seed=2009):
    drawn = draw.Draw(seed)
    for number in range(count):
        if number % 2:
            yield draw.text(close_session(drawn))
            continue
        n, v = drawn.between(2, 4), drawn.pick((1, 1, 2))
        yield draw.text(draw.draw_session(
            drawn, n, v, cells.least_blocks(n, v), draw.Style(
                length=drawn.between(15, 45), hot_cells=v, values=3,
                burst=drawn.between(1, 4), right_guess=80,
                refusals=drawn.pick((0, 8)), runs_out=drawn.pick((0, 30)),
                drops=drawn.pick((0, 5, 15)), adds=adds and drawn.pick(adds))))


def stored_sessions():
    """The sessions of the stored cases, those below 60 actions."""
    sessions = {tools.arguments_of(data, nudge.ARGUMENTS)[1]: name
                for name, data in make_nudge_cases.make().files.items()
                if not name.startswith("bad_")}
    for data in sessions:
        if len(tools.take_session(data)[1]) < 60:
            yield data


def told_two_ways(data):
    """The calls named, and how many of them have a nudge."""
    session = Exchanges(data)
    numbers = {}
    wholes = session.history.wholes
    finished = sorted((o for o in wholes if o.finished),
                      key=lambda o: max(o.steps()))
    steps = {i for o in wholes for i in o.steps()}
    begins = {o.begin for o in wholes}
    named = with_one = 0
    check("finished calls", list(finished_calls(data)),
          [(o.task, sum(p.task == o.task for p in finished[:at]))
           for at, o in enumerate(finished)])
    for o in finished:
        n = numbers.get(o.task, 0)
        numbers[o.task] = n + 1
        found = session.nudges(o)
        wanted = b"(nudge %d)\n" % found[0] if found else b"(nudge none)\n"
        check("nudge %d %d of\n%s" % (o.task, n, data.decode()),
              nudge.run(o.task, n, data), wanted)
        for i in found:
            # a drop is no step
            check("two steps, not after the last and the next", (
                i in steps, i + 1 in steps, i <= max(o.steps()),
                {i, i + 1} & begins), (True, True, True, set()))
        named += 1
        with_one += bool(found)
    for task, n in numbers.items():
        check("one more", nudge.run(task, n, data), b"(bad 18)\n")
    return named, with_one


# ------------------------------------------------------- refusals, arguments

def refusals_in_order():
    good = draw.text(P1)
    long = good + b"(again 1985 (step 0))\n"
    for number, data in ((None, good), (19, long + b"(step 0)\n"),
                         (None, long), (15, good + b"(again 65536 (step 0))\n"),
                         (12, good + b"(again 0)\n" * 6600)):
        for task, n, refused in ((0, 0, False), (1, 0, False), (0, 1, True),
                                 (2, 0, True), (2 ** 32 - 1, 0, True)):
            wanted = number or (18 if refused else None)
            found = nudge.run(task, n, data)
            check("refusal", found, b"(bad %d)\n" % wanted if wanted
                  else b"(nudge none)\n")
    check("2,000 actions", len(tools.take_session(long)[1]), 2000)
    # the open's come first
    check("before 19", nudge.run(0, 0, b"(open 0 1 5 (5))\n" + long[17:]),
          b"(bad 1)\n")


def bad_arguments(count, good):
    """Lists of arguments refused with 14: a wrong number of them, or one that
    is no number."""
    for at in range(count):
        for word in NO_NUMBERS:
            yield good[:at] + [word] + good[at + 1:]
        yield good[:at] + good[at + 1:]
    for more in (0, 1, 2, 3, 4, 5, 6, 7, 8, 20):
        if more != count:
            yield [b"1"] * more
    yield good + [b"0"]
    yield good + [b""]
    yield [b""] + good
    yield [b" ".join(good)]
    yield [b"tool"] + good


def arguments():
    data = draw.text(P1)
    check("good ones", nudge.run_args([b"0", b"0"], data), b"(nudge none)\n")
    check("greatest ones", nudge.run_args([b"4294967295"] * 2, data),
          b"(bad 18)\n")
    lists = list(bad_arguments(2, [b"0", b"0"]))
    for words in lists:
        # before anything is read: the session may be bad too
        for session in (data, b"", b"(" * 70000):
            check("arguments %r" % (words,), nudge.run_args(words, session),
                  b"(bad 14)\n")
    check("a stored case", tools.Stored(nudge).run(tools.stored((1, 0), data)),
          b"(nudge none)\n")
    return len(lists)


def main():
    count = int(sys.argv[1]) if len(sys.argv) > 1 else 150
    refusals_in_order()
    refused = arguments()
    sessions = [*drawn_sessions(count), *stored_sessions()]
    results = [told_two_ways(data) for data in sessions]
    print("nudge_selftest: %d sessions, %d calls named, %d of them with a nudge; "
          "%d lists of arguments are refused" % (
              len(sessions), sum(named for named, _ in results),
              sum(found for _, found in results), refused))


if __name__ == "__main__":
    main()
