"""Cases of the fill's five turns (change request 2): halts between its writes,
half-filled blocks that another task's search meets, fills that overlap."""

import cells
from script import Script, contend, turn_blocks

# Lines 4 to 8, and 30: where a task stands that has a block to fill; after the
# first it has taken one.
FILL_STANDS = (4, 5, 6, 7, 8, 30)
TAKEN_STANDS = FILL_STANDS[1:]


def done_before(line):
    """The line done last by a task with this one next."""
    return {4: 3, 30: 8}.get(line, line - 1)


# --------------------------------------------- half-filled blocks are met

def notes_meetings(s, task):
    """The lines that the task had next whenever a search asked for the block
    that it had taken."""
    met = set()
    is_used = s.model.is_used

    def noting(block):
        record = s.model.tasks[task]
        if record.has_taken_a_block and record.installing == block:
            met.add(record.line)
        return is_used(block)

    s.model.is_used = noting
    return met


def take_one_block(s, p, q, cell, new):
    """Takes one block, with which p puts the new value into the cell; the block
    current before must be active, and the new one is.  (P9 without its end.)
    """
    value = s.value(cell)
    s.swap(q, cell, value, new + 1).swap(p, cell, value, new + 2)
    s.step(q, 2).step(p, 7).step(q, 2).out(p).out(q)
    last = s.model.last_taken
    s.swap(p, cell, new + 2, new).out(p)
    assert s.model.last_taken != last and s.value(cell) == new


def go_round_until_met(s, met, cell):
    """Tasks 2 and 3 take block after block up to the one that they find in the
    place of task 0's."""
    new = 1000
    while not met:
        take_one_block(s, 2, 3, cell, new)
        new += 10
        assert new < 1000 + 10 * 2 * s.model.b
    return new


def met_cases(cases):
    for n, v, b in ((4, 2, 9), (4, 2, 10), (5, 3, 12), (32, 16, 79),
                    (4, 1, 8), (4, 1, 9)):
        for line in TAKEN_STANDS:
            def opened():
                s = Script(n, v, b, [5] * v)
                s.swap(0, 0, 5, 77).swap(1, 0, 5, 9).step(0, 3).step(1, 2)
                s.until(0, line)
                if v == 1:
                    s.out(1)  # the block that task 0 holds is replaced
                met = notes_meetings(s, 0)
                new = go_round_until_met(s, met, v - 1)
                assert met == {line}
                return s, new

            name = "after_%d_n_%d_v_%d_b_%d" % (done_before(line), n, v, b)
            s, new = opened()
            s.out(0)
            s.read(2, 0).out(2).read(3, v - 1).out(3)
            if v > 1:
                s.out(1)
            take_one_block(s, 2, 3, v - 1, new)
            s.read(1, v - 1).out(1)
            trace = cases.add("fill_met_%s_goes_on" % name, s.lines)
            assert not trace.refusals
            swaps = [finished.answer for task, finished, _ in trace.calls
                     if task == 0]
            assert swaps == [v > 1], name

            if b < 20:
                s, new = opened()
                for more in range(3):
                    take_one_block(s, 2, 3, v - 1, new + 10 * more)
                s.read(2, 0).out(2)
                turn_blocks(s, 2, 3, b, v - 1)
                trace = cases.add("fill_met_%s_halts" % name, s.lines)
                assert trace.next_lines[0] == (line, 0) and not trace.refusals


# ------------------------------------------------ halts between the writes

def ways(line):
    """How task 0 comes to the fill by each of the four ways, to have this line
    next; cell 0 holds 5 at first, and then one task replaces the block."""
    def by_17(s):
        contend(s, 0, 1, 0)
        s.swap(0, 0, 9, 77).until(0, line)
        return lambda: s.swap(1, 0, 9, 11).out(1)

    def by_19(s):
        s.swap(0, 0, 5, 77).swap(1, 0, 5, 9)
        s.step(0, 3).step(1, 2).until(0, line)
        return lambda: s.out(1)

    def by_21(s):
        s.swap(0, 0, 5, 77).swap(1, 0, 5, 9)
        s.step(0, 6).step(1, 4).until(0, line)
        return lambda: s.out(1)

    def by_25(s):
        s.swap(1, 0, 5, 9).swap(0, 0, 5, 77)
        s.step(1, 2).step(0, 7).step(1, 5).until(0, line)
        return lambda: s.out(1)

    return (17, by_17), (19, by_19), (21, by_21), (25, by_25)


def halt_cases(cases):
    for line in FILL_STANDS:
        for way, script in ways(line):
            name = "fill_by_%d_after_%d" % (way, done_before(line))
            path = "end_at_30_by_%d" % way

            s = Script(4, 1, 8, [5])
            script(s)()
            s.read(2, 0).out(2)
            turn_blocks(s, 2, 3, 6)
            s.read(1, 0).out(1).swap(2, 0, s.value(0), 8).out(2)
            trace = cases.add(name + "_halts", s.lines)
            assert trace.next_lines[0] == (line, 0) and not trace.refusals

            # others read before and after it, and fail to swap
            s = Script(4, 1, 8, [5])
            replace = script(s)
            s.read(2, 0).out(2).swap(3, 0, 4, 6).out(3).out(0)
            s.read(2, 0).out(2)
            if way == 17:
                replace()
            s.out(1).swap(3, 0, 77, 78).out(3).read(2, 0).out(2)
            ends_as(cases.add(name + "_yes", s.lines), path, True)

            s = Script(4, 1, 8, [5])
            replace = script(s)
            replace()
            turn_blocks(s, 2, 3, 2)
            s.out(0).read(2, 0).out(2)
            turn_blocks(s, 1, 3, 1)
            ends_as(cases.add(name + "_no", s.lines), path, False)

        s = Script(2, 1, 5, [5])
        ways(line)[3][1](s)
        trace = cases.add("fill_session_ends_after_%d" % done_before(line),
                          s.lines)
        assert trace.next_lines[0] == (line, 0)


def ends_as(trace, path, answer):
    """Task 0's last call takes this path to this answer."""
    finished, lines = [(finished, lines) for task, finished, lines
                       in trace.calls if task == 0][-1]
    assert (cells.path_of(lines), finished.answer) == (path, answer)
    assert not trace.refusals


# ------------------------------------------------------- fills that overlap

def stand_at(s, tasks, expected=5):
    """Each of these tasks comes to its line of the fill, all with the same
    block held, which none has replaced yet."""
    for task in tasks:
        s.swap(task, 0, expected, 100 + task).step(task, 2)
    for task in tasks:
        s.step(task, 2)
    # the first then finds another's X at 19, the others found Y true at 17
    for task, line in tasks.items():
        s.until(task, line)


def overlap_cases(cases):
    # Two tasks write in turn, one at some line and the other at another.
    for first in FILL_STANDS:
        for second in FILL_STANDS:
            s = Script(3, 1, 7, [5])
            stand_at(s, {0: first, 1: second})
            while s.model.tasks[0].busy or s.model.tasks[1].busy:
                s.steps(0, 1).steps(1, 1)
            s.read(2, 0).out(2).swap(0, 0, s.value(0), 6).out(0)
            cases.accepted("fill_in_turn_%d_and_%d" % (
                done_before(first), done_before(second)), s.lines)

    # Six tasks stand at the six lines while two go round the pool.
    orders = {"upward": range(6), "downward": range(5, -1, -1),
              "mixed": (3, 0, 5, 1, 4, 2)}
    for name, order in orders.items():
        for turns in (0, 4, 9, 17):
            s = Script(8, 1, 16, [5])
            stand_at(s, dict(enumerate(FILL_STANDS)))
            turn_blocks(s, 6, 7, turns)
            if turns == 4:
                while any(s.model.tasks[task].busy for task in order):
                    for task in order:
                        s.steps(task, 1)
            else:
                for task in order:
                    s.out(task)
            s.read(7, 0).out(7)
            turn_blocks(s, 0, 6, 2)
            cases.accepted("fill_six_%s_after_%d_turns" % (name, turns),
                           s.lines)

    # All but two tasks halt in the fill, each with its own replaced block held.
    for n, v, b in ((3, 1, 6), (8, 1, 16), (8, 1, 17), (8, 4, 19),
                    (16, 1, 32), (32, 1, 64), (32, 16, 79)):
        for shift in range(0, 6, {8: 1, 32: 6}.get(n, 3)):
            s = Script(n, v, b, [5] * v)
            for task in range(n - 2):
                cell, line = task % v, FILL_STANDS[(task + shift) % 6]
                value = s.value(cell)
                s.swap(task, cell, value, 1000 + task)
                s.swap(n - 2, cell, value, 2000 + task)
                s.step(task, 3).step(n - 2, 2).until(task, line).out(n - 2)
            turn_blocks(s, n - 2, n - 1, b // 2 + 4)
            s.read(n - 1, 0).out(n - 1)
            name = "n_%d_v_%d_b_%d_s%d" % (n, v, b, shift)
            cases.accepted("fill_pool_halted_%s" % name, s.lines)
            for task in range(n - 2):
                s.out(task)
                if n == 8:
                    turn_blocks(s, n - 2, n - 1, 1, task % v)
            turn_blocks(s, 0, n - 1, 5)
            cases.accepted("fill_pool_late_%s" % name, s.lines)


def fill_cases(cases):
    met_cases(cases)
    halt_cases(cases)
    overlap_cases(cases)
