#!/usr/bin/env python3
"""The session program: a file of actions in, the printed results out.

run(data) is the exact text for a session file's bytes.  As a program it reads
standard input and writes standard output.  Written from the papers alone; see
README.md.
"""

import sys
from collections import Counter

import cells
import reader
from rate import rate


class Trace:
    """What a session came by, for coverage; no part of the printed text."""

    def __init__(self):
        self.refusals = Counter()  # number -> how often
        self.paths = Counter()     # the table's path -> how often
        self.parts = []            # (task, Finished, lines done) of each read
                                   # and swap that ended, an add's or not
        self.attempts = []         # of each of them, w for won, l for lost
        self.calls = []            # the same of each finished call
        self.withdrawn = []        # (task, lines done) of the read or swap that
                                   # was under way, as dropped
        self.next_lines = []       # (line, wanted by) left by each task

    def ended(self, task, ended, lines, attempts):
        self.paths[cells.path_of(lines)] += 1
        self.parts.append((task, ended, tuple(lines)))
        self.attempts.append(attempts)


class Session:
    """One opening, its actions in order and the lines they print."""

    def __init__(self, opening, trace=None, ask_fit=False,
                 open_cells=cells.open_cells):
        self.out = []
        self.trace = trace
        # The session lends a pool of exactly 5 x B words.  A B above its
        # limit is refused whatever the pool, so none is made for it.
        pool = [0] * (cells.WORDS * min(opening.b, cells.MOST_BLOCKS))
        self.cells = open_cells(opening.n, opening.v, opening.b, pool,
                                opening.values, ask_fit)
        self.finished = 0
        self.hard = 0
        tasks = opening.n if self.is_open() else 0
        self.lines = [[] for _ in range(tasks)]
        self.attempts = [""] * tasks
        self.lines_before = [[] for _ in range(tasks)]  # of an add's parts

    def is_open(self):
        return not isinstance(self.cells, cells.Refused)

    def run(self, actions):
        # "A refused open prints `(no 0 R)` and ends."
        if not self.is_open():
            self.refused(0, self.cells.number)
            return
        # "Actions are counted from 0 after open."
        for i, action in enumerate(actions):
            result = self.act(action)
            if result is None:
                continue
            if isinstance(result, cells.Refused):
                # "A refused action prints `(no i R)`, i its action number,
                # and the session goes on."
                self.refused(i, result.number)
            else:
                self.done(action.task, result)
        self.end()

    def act(self, action):
        if self.trace is not None and isinstance(action, reader.Step):
            return self.traced_step(action.task)
        result = self.cells.act(action.word, *action)
        # A drop that isn't refused prints nothing (change request 12).
        if isinstance(action, reader.Drop) and result is None:
            self.withdrawn(action.task)
        return result

    def traced_step(self, task):
        """The step, with its line and what became of a hardware swap noted."""
        if task >= self.cells.n or not self.cells.tasks[task].busy:
            return self.cells.step(task)
        record = self.cells.tasks[task]
        self.lines[task].append((record.line, record.wanted_by))
        won, lost = record.won, record.lost
        result = self.cells.step(task)
        if isinstance(result, cells.Refused):
            return result
        ended = self.cells.ended
        after = ended or record
        self.attempts[task] += ("w" * (after.won - won)
                                + "l" * (after.lost - lost))
        if ended:
            self.trace.ended(task, ended, self.lines[task],
                             self.attempts[task])
            self.lines_before[task] += self.lines[task]
            self.forget(task)
        return result

    def withdrawn(self, task):
        if self.trace is not None:
            self.trace.withdrawn.append((task, tuple(self.lines[task])))
            self.lines_before[task] = []
            self.forget(task)

    def forget(self, task):
        """The lines done are of one read or swap."""
        self.lines[task] = []
        self.attempts[task] = ""

    # ------------------------------------------------------ printed lines

    def refused(self, i, number):
        self.out.append("(no %d %d)" % (i, number))
        if self.trace is not None:
            self.trace.refusals[number] += 1

    def done(self, task, result):
        """"A finished call prints `(done T word K answer steps hard)`; word
        is read or swap as begun, answer a value or yes/no".  "The done line
        ends in two numbers, won and lost, where it ended in one; [..] and the
        end line keeps the sum" (change request 5).  "In the done, end and bus
        lines [..] an add is one call" (change request 13)."""
        self.finished += 1
        self.hard += result.won + result.lost
        if result.kind == cells.SWAP:
            answer = "yes" if result.answer else "no"
        elif result.kind == cells.ADD:
            answer = result.answer
        else:
            answer = "%d" % result.answer
        self.out.append("(done %d %s %d %s %d %d %d)" % (
            task, result.kind, result.cell, answer, result.steps,
            result.won, result.lost))
        if self.trace is not None:
            self.trace.calls.append((task, result,
                                     tuple(self.lines_before[task])))
            self.lines_before[task] = []

    def end(self):
        """"At the end, for each cell, `(cell K value)` by look, then `(end f
        u h r)`".  "The end line counts a withdrawn call neither as finished nor
        as unfinished" (change request 12)."""
        for k in range(self.cells.v):
            self.out.append("(cell %d %d)" % (k, self.cells.look(k)))
        unfinished = sum(record.busy for record in self.cells.tasks)
        self.out.append("(end %d %d %d %d)" % (
            self.finished, unfinished, self.hard,
            rate(self.hard, self.finished)))
        if self.trace is not None:
            self.trace.next_lines = [(record.line, record.wanted_by)
                                     for record in self.cells.tasks]


def run(data, trace=None, ask_fit=False, open_cells=cells.open_cells):
    """The printed text for a session file's bytes.

    ask_fit asks question 6 before every entry.  No opening leads to a state
    that is not fit and nobody else writes here, so the text is the same;
    selftest.py runs with it.
    """
    try:
        opening, actions = reader.read_session(data)
    except reader.Bad as bad:
        # "Refusals 12 to 15 print only `(bad R)`."
        if trace is not None:
            trace.refusals[bad.number] += 1
        return b"(bad %d)\n" % bad.number
    session = Session(opening, trace, ask_fit, open_cells)
    session.run(actions)
    return "".join(line + "\n" for line in session.out).encode("ascii")


def main():
    # One byte more than question 12 allows is enough to answer it.
    data = sys.stdin.buffer.read(reader.MOST_BYTES + 1)
    sys.stdout.buffer.write(run(data))


if __name__ == "__main__":
    main()
