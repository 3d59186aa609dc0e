#!/usr/bin/env python3
"""Writes held.txt beside this file: 30 of 32 tasks halt for good, each with a replaced block that it holds and another that
it has taken; then the other two collide again and again, so that line 4 searches a table in which 61 of 65 blocks are used.
"""

import os

import make_session
from make_session import cells, draw

TASKS, BLOCKS, REPEATS = 32, 65, 1000
FIRST, SECOND = TASKS - 2, TASKS - 1


class Round(make_session.Round):
    def swap(self, task, new):
        self.do("swap", task, 0, self.model.look(0), new)

    def run(self, task):
        while self.model.tasks[task].busy:
            self.do("step", task)

    def collide(self):
        """Two swaps in turns, until the block is inactive."""
        block = self.model.current[0]
        self.swap(FIRST, 1)
        self.swap(SECOND, 2)
        while self.model.pool[cells.WORDS * block + cells.C] == 0:
            self.do("step", FIRST)
            self.do("step", SECOND)

    def replace(self):
        """Both end, and a swap alone leaves the value 0 in a new block."""
        self.run(FIRST)
        self.run(SECOND)
        self.swap(SECOND, 3)
        self.run(SECOND)
        self.swap(SECOND, 0)
        self.run(SECOND)

    def halt(self, task):
        self.collide()
        self.swap(task, 4)
        while self.model.tasks[task].line != 5:
            self.do("step", task)
        self.replace()


def main():
    model = cells.open_cells(TASKS, 1, BLOCKS, [0] * (cells.WORDS * BLOCKS), [0], False)
    holders, searches = Round(None, model), Round(None, model)
    for task in range(FIRST):
        holders.halt(task)
    searches.collide()
    searches.replace()
    used = sum(map(model.is_used, range(BLOCKS)))
    print("%d of %d blocks used, %d actions" % (used, BLOCKS, len(holders.actions) + REPEATS * len(searches.actions)))
    lines = [
        draw.opening_line(TASKS, 1, BLOCKS, [0]),
        "(again 1 %s)" % make_session.written(holders.actions),
        "(again %d %s)" % (REPEATS, make_session.written(searches.actions)),
    ]
    with open(os.path.join(make_session.HERE, "held.txt"), "wb") as file:
        file.write(draw.text(lines))


if __name__ == "__main__":
    main()
