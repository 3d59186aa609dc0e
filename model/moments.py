#!/usr/bin/env python3
"""The tool `moments` of change request 8: when did each call happen?

    moments.py < SESSION

prints what `moments` prints.  Written from source document 003, section 5, and
document 02 (CR 8, 12 and 13), alone; o.23 is, as there, the execution of line 23 by
the call o.  run(data) is the exact text for a session file's bytes.
"""

import sys
from collections import Counter

import cells
import reader
import tools

# "At one action, before precedes itself and itself precedes after"
BEFORE, ITSELF, AFTER = range(3)
SIDES = ("before", "itself", "after")


# ------------------------------------------------- the figure, and what it did

class Figure(cells.Cells):
    """The figure: "We assume that every newly allocated block has never been
    allocated before" (source, section 5)."""

    def has_unused_block(self):
        return True

    def take_unused_block(self):
        self.pool.extend([0] * cells.WORDS)
        return len(self.pool) // cells.WORDS - 1


class Whole:
    """A begin that isn't refused, with its reads and swaps: one, or those of an
    add, which "stand in CR 8's order as calls of their own" (change request 13)."""

    def __init__(self, begin, task, word):
        self.begin = begin
        self.task = task
        self.word = word
        self.parts = []
        self.answer = None  # None while it is unfinished, or if withdrawn

    @property
    def finished(self):
        return self.answer is not None

    @property
    def drop(self):
        """The action that withdrew it."""
        return self.parts[-1].drop

    def steps(self):
        """The actions that are its steps."""
        return [i for part in self.parts for i in part.at.values()]


class Call:
    """A read or a swap, and its task's steps after its begin: the action itself or
    "the step that ended the one before it" (change request 13).  "A withdrawn call
    has only its steps before the drop" (change request 12)."""

    def __init__(self, whole, begin, task, word, cell, expected, new):
        self.whole = whole
        self.begin = begin
        self.task = task
        self.word = word
        self.cell = cell
        self.expected = expected
        self.new = new
        self.at = {}        # line -> the action that did it
        self.last = None    # the last line done, and the line that wanted it
        self.next_line = None  # after it, while it is not finished
        self.block = None   # o.b
        self.answer = None  # None while it is unfinished, or if withdrawn
        self.drop = None    # the action that withdrew it

    @property
    def finished(self):
        return self.answer is not None


class History:
    """A session's actions run by the figure: its calls, and for each block the
    actions that made it inactive, decided and replaced."""

    def __init__(self, opening, actions):
        n, v, b, values = opening
        self.figure = Figure(n, v, b, [0] * (cells.WORDS * b), values, False)
        self.wholes = []     # as begun, in the order of their begins
        self.calls = []      # their reads and swaps, in that order
        self.under_way = {}  # task -> its read or swap
        self.inactive = {}   # block -> delta_C, "the event that makes b inactive"
        self.decided = {}    # block -> delta_D, "that makes b decided"
        self.replaced = {}   # block -> the line 30 that put another in its place
        self.refused = []    # of each refused action, the number
        for i, action in enumerate(actions):
            if isinstance(action, reader.Step):
                result = self.step(i, *action)
            elif isinstance(action, reader.Drop):
                result = self.drop(i, *action)
            else:
                result = self.begin(i, action)
            if isinstance(result, cells.Refused):
                self.refused.append(result.number)

    def begin(self, i, action):
        result = self.figure.act(action.word, *action)
        if result is None:
            whole = Whole(i, action.task, action.word)
            self.wholes.append(whole)
            self.begin_part(i, whole)
        return result

    def begin_part(self, i, whole):
        """The read or swap that the task has just begun."""
        task = whole.task
        record = self.figure.tasks[task]
        swap = ((record.expected, record.new) if record.kind == cells.SWAP
                else (None, None))
        call = Call(whole, i, task, record.kind, record.cell, *swap)
        whole.parts.append(call)
        self.calls.append(call)
        self.under_way[task] = call

    def step(self, i, task):
        call = self.under_way.get(task)
        if call is None:
            return self.figure.step(task)
        record = self.figure.tasks[task]
        call.last = record.line, record.wanted_by
        call.at[record.line] = i
        before = self.block_state(call)
        result = self.figure.step(task)
        self.note(i, call, before, self.block_state(call))
        call.next_line = record.line
        if call.block is None:
            call.block = record.held
        if self.figure.ended:
            self.end_part(i, call, result)
        return result

    def end_part(self, i, call, result):
        """The read or swap is answered; its add goes on unless there is a
        result."""
        call.answer = self.figure.ended.answer
        del self.under_way[call.task]
        if result is None:
            self.begin_part(i, call.whole)
        else:
            call.whole.answer = result.answer

    def drop(self, i, task):
        """The call "ends there without finishing" (change request 12).  Its block
        stays what it is here, as it is never filled again."""
        result = self.figure.drop(task)
        if result is None:
            self.under_way.pop(task).drop = i
        return result

    def block_state(self, call):
        """Of the call's block: is it inactive, decided, replaced?"""
        if call.block is None:
            return None
        at = cells.WORDS * call.block
        return (self.figure.pool[at + cells.C] != 0,
                self.figure.pool[at + cells.D] != cells.NONE,
                self.figure.current[call.cell] != call.block)

    def note(self, i, call, before, after):
        """The events of this action."""
        events = (self.inactive, self.decided, self.replaced)
        if before is not None:
            for event, was, is_now in zip(events, before, after):
                if is_now and not was:
                    event[call.block] = i

    def decided_value(self, block):
        """"dv(b) be the non-none value, if any, that is written into D"."""
        return self.figure.pool[cells.WORDS * block + cells.D]


# ------------------------------------------------------- linearization points

# "We categorize operations by the statement from which they return, using the
# labels shown in Fig. 2": the last line, and the line that wanted it.
LABELS = {(12, 0): "R1", (3, 13): "R2", (22, 0): "C2", (3, 25): "C3",
          (26, 0): "C4", (3, 28): "C5", (30, 0): "C6"}


class Mark:
    """A call of the telling: its moment and its rule."""

    def __init__(self, call, moment, side, rule):
        self.call = call
        self.moment = moment
        self.side = side
        self.rule = rule

    def changes_its_cell(self):
        """"a swap that changes its cell": of unequal values, and yes.  An
        unfinished one that is listed "is listed as yes"."""
        return (self.rule in ("C3", "C4")
                or self.rule == "C6" and self.call.answer is True)

    def key(self):
        """"At one action, before precedes itself and itself precedes after,
        then a swap that changes its cell comes first, then lower tasks do." """
        return (self.moment, self.side, not self.changes_its_cell(),
                self.call.task)

    def line(self):
        """`(at i side T word K rule)`"""
        return "(at %d %s %d %s %d %s)\n" % (
            self.moment, SIDES[self.side], self.call.task, self.call.word,
            self.call.cell, self.rule)


def read_point(history, o):
    """R1 and R2: of a read, or of the read that a swap becomes."""
    if o.last[0] == 12:
        # "R1: Linearize to o.11."
        return o.at[11]
    if history.decided[o.block] < o.at[10]:
        # "R2, o.b decided at o.10: Linearize to o.10."
        return o.at[10]
    # "R2, o.b not decided at o.10: Linearize to delta_D(o.b)."
    return history.decided[o.block]


def is_active_at_23(history, o):
    """Whether the store of line 23 found o.b active."""
    if o.block not in history.inactive:
        return True
    return o.at[23] < history.inactive[o.block]


def finished_mark(history, o):
    """Where the source linearizes a finished call."""
    if 10 in o.at:
        if o.word == cells.SWAP:
            # "C1: Linearize to the linearization point of the WFRead invoked
            # on line 14."
            return Mark(o, read_point(history, o), ITSELF, "C1")
        return Mark(o, read_point(history, o), ITSELF, LABELS[o.last])
    rule = LABELS[o.last]
    if rule == "C2":
        # "C2: Linearize to o.20."
        return Mark(o, o.at[20], ITSELF, rule)
    if rule == "C3":
        if is_active_at_23(history, o):
            # "C3, o.b is active at o.23: Linearize to o.23."
            return Mark(o, o.at[23], ITSELF, rule)
        # "C3, o.b is not active at o.23: Linearize to delta_C(o.b)."
        return Mark(o, history.inactive[o.block], ITSELF, rule)
    if rule == "C4":
        # "C4: Linearize to o.23."
        return Mark(o, o.at[23], ITSELF, rule)
    if rule == "C5":
        if history.decided[o.block] < o.at[15]:
            # "C5, o.b is decided at o.15: Linearize to o.15."
            return Mark(o, o.at[15], ITSELF, rule)
        # "C5, o.b is not decided at o.15: Linearize to delta_D(o.b)."
        return Mark(o, history.decided[o.block], ITSELF, rule)
    if o.answer:
        # "C6, returns true: Linearize to o.30."
        return Mark(o, o.at[30], ITSELF, rule)
    # "C6, returns false: Sometime between o.15 and o.30, o.b is replaced as the
    # current block."
    replaced = history.replaced[o.block]
    if history.decided_value(o.block) != o.expected:
        # "If dv(o.b) != o.ev then linearize the operation immediately before
        # o.b is replaced": never so, by the test of line 28
        return Mark(o, replaced, BEFORE, rule)
    # "otherwise, linearize it immediately after o.b is replaced."
    return Mark(o, replaced, AFTER, rule)


def unfinished_mark(history, o):
    """Whether and where an unfinished call is listed (change request 8), and a
    withdrawn one "by its rule for unfinished ones, its block meant as filled when
    the swap held it" (change request 12)."""
    if 23 not in o.at:
        return None
    if is_active_at_23(history, o):
        # "if it stored its new value while its block was active, with that
        # action and C4"
        return Mark(o, o.at[23], ITSELF, "C4")
    if o.block in history.decided and (
            history.decided_value(o.block) == o.new):
        # "or if its block's decided value is that one and the block was
        # inactive at the store, with the action that first set C and C3"
        return Mark(o, history.inactive[o.block], ITSELF, "C3")
    # "no other unfinished call is listed."
    return None


def marks_of(history):
    """The telling: the marks in their order."""
    marks = []
    for o in history.calls:
        if o.finished:
            mark = finished_mark(history, o)
        else:
            mark = unfinished_mark(history, o)
        if mark is not None:
            marks.append(mark)
    return sorted(marks, key=Mark.key)


# ------------------------------------------------------------- the program

class Trace:
    """What a session came by, for coverage; no part of the printed text."""

    def __init__(self):
        self.refusals = Counter()  # number -> how often
        self.history = None
        self.marks = []


def run(data, trace=None):
    """What is printed for a session file's bytes."""
    trace = trace or Trace()
    try:
        opening, actions = tools.take_session(data)
    except reader.Bad as bad:
        trace.refusals[bad.number] += 1
        return tools.bad(bad.number)
    trace.history = History(opening, actions)
    trace.refusals.update(trace.history.refused)
    trace.marks = marks_of(trace.history)
    return "".join(mark.line() for mark in trace.marks).encode("ascii")


def main():
    # One byte more than question 12 allows is enough to answer it.
    data = sys.stdin.buffer.read(reader.MOST_BYTES + 1)
    sys.stdout.buffer.write(run(data))


if __name__ == "__main__":
    main()
