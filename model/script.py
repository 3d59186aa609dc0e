"""Sessions written action by action while the model runs them, the meetings of
two tasks that the cases and the drawn sessions are made of, and sessions that
end with wanted counts.
"""

import cells
import draw


class Script:
    """A session written action by action while the model runs it."""

    def __init__(self, n, v, b, values):
        self.lines = [draw.opening_line(n, v, b, values)]
        self.model = cells.open_cells(n, v, b, [0] * (5 * b), values, False)
        assert isinstance(self.model, cells.Cells)

    def act(self, *action):
        assert self.model.act(*action) is None
        self.lines.append(draw.form(action))
        return self

    def read(self, task, cell):
        return self.act("read", task, cell)

    def swap(self, task, cell, expected, new):
        return self.act("swap", task, cell, expected, new)

    def add(self, task, cell, amount, tries):
        return self.act("add", task, cell, amount, tries)

    def drop(self, task):
        return self.act("drop", task)

    def step(self, task, count=1):
        for _ in range(count):
            assert not isinstance(self.model.step(task), cells.Refused)
        self.write_steps(task, count)
        return self

    def steps(self, task, most):
        """At most this many steps, as far as the call goes."""
        count = 0
        while self.model.tasks[task].busy and count < most:
            self.model.step(task)
            count += 1
        self.write_steps(task, count)
        return self

    def write_steps(self, task, count):
        if count == 1:
            self.lines.append("(step %d)" % task)
        elif count > 1:
            self.lines.append("(again %d (step %d))" % (count, task))

    def out(self, task):
        """Runs the task's call out."""
        return self.steps(task, cells.MOST_TRIES * cells.TRY_STEPS)

    def part(self, task):
        """Runs out the read or swap under way, an add's or not."""
        assert self.model.tasks[task].busy
        count = 1
        self.model.step(task)
        while not self.model.ended:
            self.model.step(task)
            count += 1
        self.write_steps(task, count)
        return self

    def until(self, task, line):
        """Steps the task until this line is its next."""
        count = 0
        while self.model.tasks[task].line != line:
            assert self.model.tasks[task].busy
            self.model.step(task)
            count += 1
        self.write_steps(task, count)
        return self

    def value(self, cell):
        return self.model.look(cell)

    def next_line(self, task):
        return (self.model.tasks[task].line, self.model.tasks[task].wanted_by)


def contend(s, p, q, k):
    """Two swaps meet; the cell's block is inactive and decided after it, its
    value 9, and both tasks are idle.  (The beginning of P9.)"""
    s.swap(q, k, 5, 7).swap(p, k, 5, 9)
    s.step(q, 2).step(p, 7).step(q, 2).out(p).out(q)


def turn_blocks(s, p, q, times, cell=0):
    """Two tasks meet again and again; each meeting takes two blocks."""
    for i in range(times):
        value = s.value(cell)
        s.swap(p, cell, value, 30 + i).swap(q, cell, value, 60 + i)
        s.step(p, 3).step(q, 2).out(p).out(q)


def counted(h, f):
    """The lines of a session in which f calls finish, with h hardware swaps,
    and none is left unfinished.  f is above h, or h is at most about 2 x f."""
    s = Script(2, 2, 6, [5, 5])
    while h >= f > 0:  # P10's meeting: two calls, five hardware swaps
        assert h >= 5 and f >= 2, (h, f)
        value = s.value(1)
        s.swap(0, 1, value, value + 2).swap(1, 1, value, value + 4)
        s.step(0, 2).step(1, 7).step(0, 5).out(1).out(0)
        h, f = h - 5, f - 2
    if h > 0:
        # A late comer answers no by one hardware swap, the other had none.
        # The block is decided then, so each read of the cell has one.
        value = s.value(1)
        s.swap(0, 1, value, 7).step(0, 2).swap(1, 1, value, 8).out(1).out(0)
        h, f = h - 1, f - 2
        if h > 0:
            s.lines.append("(again %d (read 0 1) (again 6 (step 0)))" % h)
    # The other cell's block stays active.
    if f > h:
        s.lines.append("(again %d (read 1 0) (again 3 (step 1)))" % (f - h))
    return s.lines
