"""Lists for the once-only cells: written action by action while the model runs
them, or drawn, the same ones for the same seed on every machine.
"""

import once
from once import NONE, Refused


def form(*items):
    return "(%s)" % " ".join(map(str, items))


class Script:
    """A list written action by action while the model runs it."""

    def __init__(self, n, v):
        self.lines = [form("open", n, v)]
        self.model = once.open_once(n, v)
        assert not isinstance(self.model, Refused)

    def busy(self, task):
        return self.model.tasks[task].busy

    def do(self, word, *numbers):
        """Any action, refused or not; hands back what the entry did."""
        self.lines.append(form(word, *numbers))
        if word == "offer":
            return self.model.begin_offer(*numbers)
        return self.model.step(*numbers)

    def offer(self, task, cell, value):
        assert self.do("offer", task, cell, value) is None
        return self

    def step(self, task, count=1):
        for _ in range(count):
            assert not isinstance(self.do("step", task), Refused)
        return self

    def steps(self, task, most):
        """At most this many steps, as far as the call goes."""
        while self.busy(task) and most > 0:
            self.step(task)
            most -= 1
        return self

    def out(self, task):
        """Runs the task's call out."""
        return self.steps(task, 10)

    def refused(self, number, word, *numbers):
        """An action with this refusal."""
        found = self.do(word, *numbers)
        assert found == Refused(number), (self.lines, found, number)
        return self


class Style:
    """How a list is drawn."""

    def __init__(self, length=200, cells=1, values=4, burst=3, idle=20,
                 alone=0, refusals=0, halts=0):
        self.length = length      # most actions
        self.cells = cells        # cells that are offered to
        self.values = values      # values drawn from 0 upward
        self.burst = burst        # most steps of a task in one go
        self.idle = idle          # percent: a new call is preferred
        self.alone = alone        # percent: a burst runs the call out
        self.refusals = refusals  # percent of actions made to be refused
        self.halts = halts        # tasks that halt for good


def draw_list(draw, n, v, style):
    """A drawn list; it ends early when there is nothing left to offer."""
    script = Script(n, v)
    halting = {}
    for _ in range(min(style.halts, n - 1)):
        # in its call of this number it does this many steps
        halting[draw.below(n)] = (draw.between(1, 2), draw.between(0, 9))
    first = draw.below(v - min(style.cells, v) + 1)
    open_cells = range(first, first + min(style.cells, v))
    calls = [0] * n

    def halted(task):
        call, steps = halting.get(task, (0, 0))
        return (calls[task] == call > 0 and script.busy(task)
                and script.model.tasks[task].steps >= steps)

    def free(task):
        return [k for k in open_cells if task not in script.model.offered[k]]

    while len(script.lines) <= style.length:
        if draw.percent(style.refusals):
            do_likely_refused(draw, script)
            continue
        steppers = [t for t in range(n)
                    if script.busy(t) and not halted(t)]
        beginners = [t for t in range(n) if not script.busy(t) and free(t)]
        if beginners and (not steppers or draw.percent(style.idle)):
            task = draw.pick(beginners)
            script.offer(task, draw.pick(free(task)),
                         draw.below(style.values))
            calls[task] += 1
        elif steppers:
            task = draw.pick(steppers)
            burst = 10 if draw.percent(style.alone) else draw.between(
                1, style.burst)
            while burst and script.busy(task) and not halted(task):
                script.step(task)
                burst -= 1
        else:
            break
    return script


def do_likely_refused(draw, script):
    """An action likely to be refused, often for several reasons at once."""
    model = script.model
    edges = (NONE, NONE - 1, 16, 17, 32, 33, 255, 256)
    task = draw.pick((draw.below(model.n), draw.below(model.n), model.n,
                      draw.pick(edges)))
    cell = draw.pick((draw.below(model.v), draw.below(model.v), model.v,
                      draw.pick(edges)))
    value = draw.pick((draw.below(4), NONE))
    if draw.percent(35):
        if task < model.n and script.busy(task):
            return
        script.do("step", task)
    else:
        if not model.offer_refusal(task, cell, value):
            value = NONE
        script.do("offer", task, cell, value)
