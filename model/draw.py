"""Drawn sessions: the same ones for the same seed on every machine.

The generator is splitmix64, written out here so that no library's choice of
numbers can change the drawn cases.
"""

import cells


class Draw:
    def __init__(self, seed):
        self.state = seed & 0xFFFFFFFFFFFFFFFF

    def bits(self):
        self.state = (self.state + 0x9E3779B97F4A7C15) & 0xFFFFFFFFFFFFFFFF
        z = self.state
        z = ((z ^ (z >> 30)) * 0xBF58476D1CE4E5B9) & 0xFFFFFFFFFFFFFFFF
        z = ((z ^ (z >> 27)) * 0x94D049BB133111EB) & 0xFFFFFFFFFFFFFFFF
        return z ^ (z >> 31)

    def below(self, bound):
        return (self.bits() >> 11) % bound

    def between(self, least, most):
        return least + self.below(most - least + 1)

    def percent(self, chance):
        return self.below(100) < chance

    def pick(self, items):
        return items[self.below(len(items))]


def opening_line(n, v, b, values):
    return "(open %d %d %d (%s))" % (n, v, b, " ".join(map(str, values)))


def text(lines):
    """A session file of these lines."""
    return "".join(line + "\n" for line in lines).encode("latin-1")


class Style:
    """How a session is drawn."""

    def __init__(self, length=200, hot_cells=1, values=4, burst=3,
                 right_guess=60, reads=20, equal=8, refusals=0, halts=0,
                 idle=20, runs_out=0, drops=0, adds=0):
        self.length = length            # actions
        self.hot_cells = hot_cells      # cells that calls are begun on
        self.values = values            # values drawn from 0 upward
        self.burst = burst              # most steps of a task in one go
        self.right_guess = right_guess  # percent: expected is what look says
        self.reads = reads              # percent of calls that are reads
        self.equal = equal              # percent of swaps of equal values
        self.refusals = refusals        # percent of actions made to be refused
        self.halts = halts              # tasks that halt for good midway
        self.idle = idle                # percent: an idle task is preferred
        self.runs_out = runs_out        # percent: a burst runs the call out
        self.drops = drops              # percent: a busy task is dropped
        self.adds = adds                # percent of calls that are adds


def draw_actions(draw, model, style):
    """Actions (as tuples) drawn while the model runs them, so that most are
    accepted and calls finish."""
    actions = []
    halting = {}
    tasks = list(range(model.n))
    for _ in range(min(style.halts, model.n - 1)):
        task = tasks.pop(draw.below(len(tasks)))
        # halts once it has done this many steps of some call
        halting[task] = (draw.between(0, cells.MOST_STEPS_SO_FAR),
                         draw.below(style.length))
    hot = min(style.hot_cells, model.v)
    first = draw.below(model.v - hot + 1)

    def do(action):
        actions.append(action)
        return model.act(*action)

    def halted(task):
        if task not in halting:
            return False
        steps, after = halting[task]
        return (len(actions) >= after and model.tasks[task].busy
                and model.tasks[task].steps >= steps)

    while len(actions) < style.length:
        if draw.percent(style.refusals):
            do(draw_refused(draw, model, bool(style.drops), bool(style.adds)))
            continue
        going = [t for t in range(model.n) if not halted(t)]
        task = draw.pick(going)
        if draw.percent(style.idle):
            idle = [t for t in going if not model.tasks[t].busy]
            task = draw.pick(idle) if idle else task
        if not model.tasks[task].busy:
            do(draw_call(draw, model, style, task, first + draw.below(hot)))
            continue
        # nothing is drawn for a style without drops
        if style.drops and draw.percent(style.drops):
            do(("drop", task))
            continue
        burst = draw.between(1, style.burst)
        if draw.percent(style.runs_out):
            burst = cells.MOST_TRIES * cells.TRY_STEPS
        for _ in range(burst):
            if halted(task) or do(("step", task)) is not None:
                break
    return actions


def draw_call(draw, model, style, task, cell):
    # nothing is drawn for a style without adds
    if style.adds and draw.percent(style.adds):
        return ("add", task, cell, *draw_add(draw, model.look(cell)))
    if draw.percent(style.reads):
        return ("read", task, cell)
    expected = draw.below(style.values)
    if draw.percent(style.right_guess):
        expected = model.look(cell)
    new = draw.below(style.values)
    if draw.percent(style.equal):
        new = expected
    return ("swap", task, cell, expected, new)


def draw_add(draw, value):
    """What is added, mostly little, sometimes about as much as goes; and how many
    tries."""
    amount = draw.pick((0, 1, 1, 1, 2, 3, 7))
    if draw.percent(8):
        amount = draw.pick((cells.NONE, max(0, cells.NONE - value
                                            - draw.below(4))))
    return amount, draw.pick((1, 1, 2, 2, 3, 5, 8))


def draw_refused(draw, model, drops=False, adds=False):
    """An action likely to be refused, often for several reasons at once."""
    edges = (cells.NONE, cells.NONE - 1, 32, 33, 255, 256)
    task = draw.pick((draw.below(model.n), model.n, model.n + 1,
                      draw.pick(edges)))
    cell = draw.pick((draw.below(model.v), model.v, model.v + 1,
                      draw.pick(edges)))
    expected = draw.pick((draw.below(4), cells.NONE))
    new = draw.pick((draw.below(4), expected, cells.NONE))
    kinds = (("read", task, cell), ("swap", task, cell, expected, new),
             ("step", task), ("drop", task))[:3 + drops]
    if adds:
        kinds += (("add", task, cell, new, draw.pick((0, 1, 8, 9, cells.NONE))),)
    return draw.pick(kinds)


def form(action):
    return "(%s)" % " ".join(map(str, action))


def lines_of(actions, draw=None, again=0):
    """The actions as lines; with `again` percent, runs of one action are
    written as one repeated form."""
    lines = []
    at = 0
    while at < len(actions):
        end = at + 1
        while end < len(actions) and actions[end] == actions[at]:
            end += 1
        if end - at > 1 and draw is not None and draw.percent(again):
            lines.append("(again %d %s)" % (end - at, form(actions[at])))
        else:
            lines.extend([form(actions[at])] * (end - at))
        at = end
    return lines


def draw_session(draw, n, v, b, style, again=30):
    """The lines of an accepted session."""
    values = [draw.below(style.values) for _ in range(v)]
    model = cells.open_cells(n, v, b, [0] * (cells.WORDS * b), values, False)
    actions = draw_actions(draw, model, style)
    return [opening_line(n, v, b, values)] + lines_of(actions, draw, again)
