#!/usr/bin/env python3
"""The once-only cells of change request 1, and the program test_once.

Written from document 02 (CR 1), document 01's questions and source document
003, figure 1 with the last paragraph of section 3, alone.  Sentences of CR 1
are quoted in the comments where they decide something.

run(data) is the exact text for an input's bytes.  As a program it reads
standard input and writes standard output.
"""

import re
import sys
from collections import Counter
from typing import NamedTuple

from cells import MOST_CELLS, MOST_TASKS, NO_TASK, NONE, Refused

IDLE = 0  # the next line of a task without a call

# The steps, in figure 1's order: "One step is one access."
# 1: if splitter()  (written out as in figure 2's lines 16 to 19)
SET_X = 1
GET_Y = 2
SET_Y = 3
GET_X = 4
# 2:   V = val
SET_V = 5
# 3:   if not C
GET_C = 6
#      "a process that would return from line 3 first writes its value into D"
SET_D = 7
#    else
# 4:   C = true
SET_C = 8
# 5:   if V is not none
GET_V = 9
# 6:     val = V
TAKE_V = 10
#    "every other looks at D directly before its hardware swap"
LOOK_D = 11
# 7: CAS(&D, none, val)
CAS_D = 12
# 8: return D
GET_D = 13

LINES = frozenset(range(SET_X, GET_D + 1))

# "A call takes at most 10 steps", so "at most 9 steps so far".
MOST_STEPS_SO_FAR = 9


class Finished(NamedTuple):
    """What the step that ends a call hands back."""

    cell: int
    answer: int
    steps: int
    hard: int


class Cell:
    """The shared words of one cell, as an opening leaves them: figure 1's
    "initially", and a splitter nobody has entered."""

    __slots__ = ("x", "y", "c", "v", "d")

    def __init__(self):
        self.x = NO_TASK
        self.y = 0
        self.c = 0
        self.v = NONE
        self.d = NONE


class Record:
    """A task's record: its next line, the cell, the value, steps and hardware
    swaps so far."""

    __slots__ = ("line", "cell", "value", "steps", "hard")

    def __init__(self):
        self.clear()

    def clear(self):
        self.line = IDLE
        self.cell = 0
        self.value = 0
        self.steps = 0
        self.hard = 0

    @property
    def busy(self):
        return self.line != IDLE


def words(item):
    """The words of a cell or a record."""
    return tuple(getattr(item, name) for name in item.__slots__)


def open_refusal(n, v):
    """"Opening asks 1 and 2": the first one answered no, or 0."""
    if not 1 <= n <= MOST_TASKS:
        return 1
    if not 1 <= v <= MOST_CELLS:
        return 2
    return 0


class Once:
    """N tasks and V once-only cells, as one opening left them."""

    def __init__(self, n, v):
        """An opening whose questions were both answered yes; see open_once."""
        self.n = n
        self.v = v
        self.cells = [Cell() for _ in range(v)]
        self.tasks = [Record() for _ in range(n)]
        # "the task has already offered a value there": for each cell, whose
        # offers were accepted
        self.offered = [set() for _ in range(v)]

    # ------------------------------------------------------ the questions

    def is_fit(self):
        """"N and V pass 1 and 2, and each busy record has its cell below V, a
        step of this variant next, a value other than none and at most 9 steps
        so far." """
        if open_refusal(self.n, self.v):
            return False
        return all(record.cell < self.v
                   and record.line in LINES
                   and record.value != NONE
                   and record.steps <= MOST_STEPS_SO_FAR
                   for record in self.tasks if record.busy)

    def offer_refusal(self, task, cell, value):
        """6, 7, 8, 9, "16 ... checked directly after 9", 10."""
        if not self.is_fit():
            return 6
        if not task < self.n:
            return 7
        if not cell < self.v:
            return 8
        if self.tasks[task].busy:
            return 9
        if task in self.offered[cell]:
            return 16
        if value == NONE:
            return 10
        return 0

    def step_refusal(self, task):
        if not self.is_fit():
            return 6
        if not task < self.n:
            return 7
        if not self.tasks[task].busy:
            return 11
        return 0

    # -------------------------------------------------------- the entries

    def begin_offer(self, task, cell, value):
        number = self.offer_refusal(task, cell, value)
        if number:
            return Refused(number)
        self.offered[cell].add(task)
        record = self.tasks[task]
        record.line = SET_X
        record.cell = cell
        record.value = value
        return None

    def step(self, task):
        """Hands back Refused, Finished, or None while the call goes on."""
        number = self.step_refusal(task)
        if number:
            return Refused(number)
        record = self.tasks[task]
        record.steps += 1
        answer = self.do_line(task, record, self.cells[record.cell])
        if answer is None:
            return None
        finished = Finished(record.cell, answer, record.steps, record.hard)
        record.clear()
        return finished

    def do_line(self, task, record, cell):
        """Does the record's next line and leaves the line after it there;
        hands back the call's answer with its last line, else None."""
        line = record.line

        # the splitter
        if line == SET_X:
            cell.x = task
            record.line = GET_Y
        elif line == GET_Y:
            record.line = SET_C if cell.y != 0 else SET_Y
        elif line == SET_Y:
            cell.y = 1
            record.line = GET_X
        elif line == GET_X:
            record.line = SET_C if cell.x != task else SET_V

        # the splitter won
        elif line == SET_V:
            cell.v = record.value
            record.line = GET_C
        elif line == GET_C:
            record.line = LOOK_D if cell.c != 0 else SET_D
        elif line == SET_D:
            cell.d = record.value
            return record.value

        # the splitter lost
        elif line == SET_C:
            cell.c = 1
            record.line = GET_V
        elif line == GET_V:
            record.line = TAKE_V if cell.v != NONE else LOOK_D
        elif line == TAKE_V:
            record.value = cell.v
            record.line = LOOK_D

        # "and, unless none, answers it instead"
        elif line == LOOK_D:
            if cell.d != NONE:
                return cell.d
            record.line = CAS_D
        elif line == CAS_D:
            record.hard += 1
            if cell.d == NONE:
                cell.d = record.value
            record.line = GET_D
        elif line == GET_D:
            return cell.d
        else:
            raise AssertionError("no such line: %d" % line)
        return None


def open_once(n, v):
    """The opening: Refused, or the cells."""
    number = open_refusal(n, v)
    return Refused(number) if number else Once(n, v)


# ------------------------------------------------------------------- paths

# Steps and hardware swaps of each complete path: where the splitter was lost,
# what the look at V met, and what the look at D did.
PATHS = {
    "lost_at_y_none_found": (5, 0),
    "lost_at_y_value_found": (6, 0),
    "lost_at_y_none_hard": (7, 1),
    "lost_at_y_value_hard": (8, 1),
    "lost_at_x_none_found": (7, 0),
    "lost_at_x_value_found": (8, 0),
    "lost_at_x_none_hard": (9, 1),
    "lost_at_x_value_hard": (10, 1),
    "won_alone": (7, 0),
    "won_found": (7, 0),
    "won_hard": (9, 1),
}


def path_of(lines):
    """The path that a finished call's lines make."""
    end = {SET_D: "alone", LOOK_D: "found", GET_D: "hard"}[lines[-1]]
    if SET_C not in lines:
        return "won_" + end
    return "lost_at_%s_%s_%s" % ("x" if SET_Y in lines else "y",
                                 "value" if TAKE_V in lines else "none", end)


# -------------------------------------------------------------- the program

# "numbers as question 14 has them"
MOST_NUMBER = 4294967295
NUMBER = rb"(0|[1-9][0-9]{0,9})"
FORMS = (
    ("open", re.compile(rb"\(open %s %s\)" % (NUMBER, NUMBER))),
    ("offer", re.compile(rb"\(offer %s %s %s\)" % (NUMBER, NUMBER, NUMBER))),
    ("step", re.compile(rb"\(step %s\)" % NUMBER)),
)


def read_form(line):
    """The line's word and numbers, or None where it is none of the forms."""
    for word, form in FORMS:
        match = form.fullmatch(line)
        if match:
            numbers = list(map(int, match.groups()))
            if max(numbers) <= MOST_NUMBER:
                return (word, *numbers)
    return None


class Trace:
    """What an input came by, for coverage; no part of the printed text."""

    def __init__(self):
        self.lists = 0             # opens, refused ones too
        self.refusals = Counter()  # number -> how often
        self.halted = Counter()    # next line of a call left unfinished
        self.calls = []            # (task, Finished, lines done), as finished

    def paths(self):
        """How often each path was come by."""
        return Counter(path_of(lines) for _, _, lines in self.calls)


class Program:
    """One run over an input."""

    def __init__(self, trace):
        self.out = []
        self.trace = trace
        self.once = None  # Once or Refused, after an open
        self.i = 0        # "counted from 0 after its open"
        self.lines = {}   # by task, the lines done of a call under way

    def run(self, data):
        *lines, rest = data.split(b"\n")
        for line in lines:
            form = read_form(line)
            if form is None or self.once is None and form[0] != "open":
                self.bad()
                return
            if form[0] == "open":
                self.open(*form[1:])
            elif not isinstance(self.once, Refused):
                self.act(*form)
        self.leave()
        # "a last line without byte 10"
        if rest:
            self.bad()

    def open(self, n, v):
        self.leave()
        self.trace.lists += 1
        self.once = open_once(n, v)
        self.i = 0
        if isinstance(self.once, Refused):
            self.refused(self.once)

    def act(self, word, task, *numbers):
        if word == "offer":
            result = self.once.begin_offer(task, *numbers)
        else:
            self.note_line(task)
            result = self.once.step(task)
        if isinstance(result, Refused):
            self.refused(result)
        elif result is not None:
            self.done(task, result)
        self.i += 1

    def note_line(self, task):
        if task < self.once.n and self.once.tasks[task].busy:
            line = self.once.tasks[task].line
            self.lines.setdefault(task, []).append(line)

    def leave(self):
        """The list's end; its calls under way stay unfinished."""
        if isinstance(self.once, Once):
            self.trace.halted.update(
                record.line for record in self.once.tasks if record.busy)
        self.lines = {}

    # ------------------------------------------------------ printed lines

    def refused(self, refused):
        self.out.append("(no %d %d)" % (self.i, refused.number))
        self.trace.refusals[refused.number] += 1

    def done(self, task, result):
        self.out.append("(done %d %d %d %d %d)" % (
            task, result.cell, result.answer, result.steps, result.hard))
        self.trace.calls.append((task, result, tuple(self.lines.pop(task))))

    def bad(self):
        """"`(bad 14)` and nothing further"; what was printed before stays."""
        self.out.append("(bad 14)")
        self.trace.refusals[14] += 1


def run(data, trace=None):
    """The printed text for an input's bytes, of any length."""
    program = Program(trace or Trace())
    program.run(data)
    return "".join(line + "\n" for line in program.out).encode("ascii")


def main():
    sys.stdout.buffer.write(run(sys.stdin.buffer.read()))


if __name__ == "__main__":
    main()
