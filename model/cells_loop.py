#!/usr/bin/env python3
"""What the program bench_cells must print: the totals of a loop over the cells.

    python3 model/cells_loop.py

writes crates/bench_cells/stdout.
"""

import cells


def seeds(seed):
    """A generator of numbers below 65,536."""
    while True:
        seed = (seed * 1664525 + 1013904223) % 2 ** 32
        yield seed // 65536


def totals_line():
    """The totals of 60,000 turns of 32 tasks on 16 cells: finished calls, swaps
    answered yes, steps, hardware CAS won and lost, the sum of what was read, and
    refusals."""
    state = cells.open_cells(32, 16, 80, [0] * 400, [0] * 16)
    drawn = seeds(1)
    totals = [0] * 7
    for _ in range(60000):
        task = next(drawn) % 32
        if state.tasks[task].busy:
            result = state.step(task)
        elif next(drawn) % 2 == 0:
            result = state.begin_read(task, next(drawn) % 16)
        else:
            cell, expected, new = (next(drawn) % k for k in (16, 4, 4))
            result = state.begin_swap(task, cell, expected, new)
        if isinstance(result, cells.Refused):
            totals[6] += 1
        elif result is not None:
            read = result.kind == cells.READ
            more = (1, not read and result.answer, result.steps, result.won,
                    result.lost, result.answer if read else 0, 0)
            totals = [a + b for a, b in zip(totals, more)]
    return " ".join("%d" % total for total in totals)


if __name__ == "__main__":
    print(totals_line())
