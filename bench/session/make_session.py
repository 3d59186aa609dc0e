#!/usr/bin/env python3
"""Writes session.txt beside this file: some 60,000 actions of 32 tasks that meet on 4 cells.

Each line repeats a drawn round. A round starts and ends with every task idle and every cell at its starting value in an
active block, so each repeat of it runs alike, but for the numbers of the blocks, and hardly any action is refused.
"""

import os
import sys

HERE = os.path.dirname(os.path.abspath(__file__))
sys.path.insert(0, os.path.join(HERE, "..", "..", "model"))
import cells  # noqa: E402
import draw   # noqa: E402

TASKS, CELLS, BLOCKS = 32, 4, 80
STARTING = [0, 1, 2, 3]
REPEATS = 10
# Actions of a round before it winds down, most steps of a task in one go, cells that calls are begun on.
ROUNDS = ((1790, 1, 4), (1790, 2, 2), (1790, 4, 3))


class Round:
    def __init__(self, drawn, model):
        self.drawn, self.model, self.actions = drawn, model, []

    def do(self, *action):
        self.actions.append(action)
        word, *numbers = action
        entry = {"read": self.model.begin_read, "swap": self.model.begin_swap, "step": self.model.step}[word]
        return entry(*numbers)

    def busy(self):
        return [t for t in range(TASKS) if self.model.tasks[t].busy]

    def begin(self, task, hot):
        d, cell = self.drawn, self.drawn.below(hot)
        if d.percent(15):
            return self.do("read", task, cell)
        expected = self.model.look(cell) if d.percent(75) else d.below(6)
        new = expected if d.percent(8) else d.below(6)
        return self.do("swap", task, cell, expected, new)

    def turn(self, task, burst, hot):
        if not self.model.tasks[task].busy:
            if self.drawn.percent(2):
                self.do("step", task)                    # refused: 11
            self.begin(task, hot)
            return
        if self.drawn.below(400) == 0:
            self.do("read", task, self.drawn.below(hot)) # refused: 9
        for _ in range(self.drawn.between(1, burst)):
            if self.do("step", task) is not None:
                return

    def run_out(self, burst):
        while self.busy():
            self.turn(self.drawn.pick(self.busy()), burst, CELLS)

    def settle(self):
        """Swaps alone, until each cell has its starting value in an active block."""
        for cell, value in enumerate(STARTING):
            for new in (value + 10, value):
                self.do("swap", 0, cell, self.model.look(cell), new)
                self.run_out(1)

    def draw(self, length, burst, hot):
        while len(self.actions) < length:
            self.turn(self.drawn.below(TASKS), burst, hot)
        self.run_out(burst)
        self.settle()


def written(actions):
    """The actions as forms, three or more of one kind in a row as one."""
    forms, at = [], 0
    while at < len(actions):
        end = at
        while end < len(actions) and actions[end] == actions[at]:
            end += 1
        form = draw.form(actions[at])
        forms += ["(again %d %s)" % (end - at, form)] if end - at > 2 else [form] * (end - at)
        at = end
    return " ".join(forms)


def main():
    drawn = draw.Draw(1)
    model = cells.open_cells(TASKS, CELLS, BLOCKS, [0] * (cells.WORDS * BLOCKS), STARTING, False)
    lines = [draw.opening_line(TASKS, CELLS, BLOCKS, STARTING)]
    for length, burst, hot in ROUNDS:
        one = Round(drawn, model)
        one.draw(length, burst, hot)
        lines.append("(again %d %s)" % (REPEATS, written(one.actions)))
    # A few calls are left unfinished.
    last = Round(drawn, model)
    for task in range(TASKS):
        last.begin(task, CELLS)
    lines += map(draw.form, last.actions)
    lines.append("(again 2 %s)" % " ".join("(step %d)" % task for task in range(TASKS)))
    with open(os.path.join(HERE, "session.txt"), "wb") as file:
        file.write(draw.text(lines))


if __name__ == "__main__":
    main()
