#!/usr/bin/env python3
"""The tool `nudge` of change request 9: how close did a call come to another
answer?

    nudge.py T n < SESSION

prints what `nudge T n` prints; n is how many calls T finished before the named
one.  Written from document 02 (CR 9, 12 and 13), document 01 and the design page,
alone.  "in CR 9 an add is one call" (CR 13).
"""

from collections import Counter

import cells
import reader
import tools

USAGE = "usage: nudge T n"

# "Refused: 19, the session has more than 2,000 actions"
MOST_ACTIONS = 2000

# What became of the call, "known by its begin".
NOT_BEGUN = "isn't begun"
UNFINISHED = "doesn't finish"


class Trace:
    """What a call of the tool came by, for coverage; no part of the text."""

    def __init__(self):
        self.refusals = Counter()  # number -> how often
        self.actions = None
        self.named = None          # the call's begin, last step and answer
        self.exchange = None
        self.became = None         # of the call, after the exchange


def opened(opening):
    n, v, b, values = opening
    return cells.open_cells(n, v, b, [0] * (cells.WORDS * b), values, False)


def act(model, action):
    return model.act(action.word, *action)


def find_call(opening, actions, task, n):
    """"a named finished call (task and how many of its calls finished
    before)": the actions that begin and end it, and its answer; or None."""
    model = opened(opening)
    begin = None
    before = 0
    for i, action in enumerate(actions):
        result = act(model, action)
        if action.task != task or isinstance(result, cells.Refused):
            continue
        if isinstance(action, reader.BEGINS):
            begin = i
        elif isinstance(result, cells.Finished):
            if before == n:
                return begin, i, result.answer
            before += 1
    return None


def becomes(opening, actions, begin):
    """What becomes of the call that this action begins: NOT_BEGUN, UNFINISHED
    or its answer.  A withdrawn call "ends there without finishing" (change
    request 12)."""
    model = opened(opening)
    task = actions[begin].task
    for i, action in enumerate(actions):
        result = act(model, action)
        if i == begin and isinstance(result, cells.Refused):
            return NOT_BEGUN
        if i <= begin or action.task != task:
            continue
        if isinstance(action, reader.Drop):
            return UNFINISHED
        if isinstance(result, cells.Finished):
            return result.answer
    return UNFINISHED


def exchanged(actions, i):
    """The actions with this one and the next exchanged."""
    return actions[:i] + [actions[i + 1], actions[i]] + actions[i + 2:]


def place_after(begin, i):
    """Where the begin stands after that exchange."""
    if begin == i:
        return begin + 1
    if begin == i + 1:
        return begin - 1
    return begin


def earliest_exchange(opening, actions, begin, answer, trace):
    """"tries exchanging two neighbouring actions of different tasks and reports
    the earliest exchange after which that call, known by its begin, answers
    otherwise, doesn't finish or isn't begun": the number of the first of the two
    actions, or None."""
    for i in range(len(actions) - 1):
        if actions[i].task == actions[i + 1].task:
            continue
        became = becomes(opening, exchanged(actions, i), place_after(begin, i))
        if became != answer:
            trace.exchange, trace.became = i, became
            return i
    return None


def nudge(task, n, data, trace):
    """The exchange's number or None; Bad where it is refused."""
    opening, actions = tools.take_session(data)
    trace.actions = actions
    # "Refused: 19, the session has more than 2,000 actions; then 18, the named
    # call doesn't finish in it."
    if len(actions) > MOST_ACTIONS:
        raise reader.Bad(19)
    trace.named = find_call(opening, actions, task, n)
    if trace.named is None:
        raise reader.Bad(18)
    begin, _, answer = trace.named
    return earliest_exchange(opening, actions, begin, answer, trace)


def run(task, n, data, trace=None):
    """What is printed for these numbers and a session file's bytes."""
    trace = trace or Trace()
    try:
        i = nudge(task, n, data, trace)
    except reader.Bad as bad:
        trace.refusals[bad.number] += 1
        return tools.bad(bad.number)
    return b"(nudge none)\n" if i is None else b"(nudge %d)\n" % i


ARGUMENTS = 2


def run_args(arguments, data, trace=None):
    """What is printed for a list of arguments, each a run of bytes.  "A wrong
    number of arguments, or one that is no number by question 14, prints `(bad
    14)` [..] before anything is read" (the design page)."""
    try:
        task, n = reader.numbers(arguments, 2)
    except reader.Bad as bad:
        return tools.bad(bad.number)
    return run(task, n, data, trace)


def main():
    tools.main(USAGE, 2, run)


if __name__ == "__main__":
    main()
