#!/usr/bin/env python3
"""Demand 3 with change request 12's drops, for every list of a few tasks.

    drop_search.py [TASKS [VALUES]]      (2 and 2 if left out)

Goes through every state that the tasks reach on one cell from its fresh openings,
by begins, steps and drops.

First with every telling so far on a plain cell: its value there, and which calls
under way are told, with what answer.  In every state one telling is left in which
every finished call has its answer and every other call that is told stands no later
than its last step.  (Where a state was met with fewer tellings before, it is not
gone on with: what the fewer keep, the more keep too.)

Then with what the calls under way were promised: no hardware swap is made by a
swap of unequal values with C and Y false at its begin, nor by another call with C
false there, if no other swap of unequal values is unfinished meanwhile.
"""

import sys
from collections import deque

import attempts
import cells


def is_unequal_swap(record):
    return record.busy and not record.runs_read_lines


def set_at(items, at, item):
    return (*items[:at], item, *items[at + 1:])


class Search:
    """Every state, each with something kept beside it."""

    def __init__(self, tasks, values):
        self.values = values
        self.todo = deque()
        self.drops = 0
        for key in attempts.open_states(tasks, values):
            self.found(attempts.model_of(key), self.at_opening(key, tasks))
        while self.todo:
            key, beside = self.todo.popleft()
            for task in range(tasks):
                self.go_on(key, beside, task)

    def go_on(self, key, beside, task):
        model = attempts.model_of(key)
        if not model.tasks[task].busy:
            for call in attempts.calls(self.values):
                self.begin(attempts.model_of(key), task, call, beside)
            return
        self.step(model, task, beside)
        self.drops += 1
        self.drop(attempts.model_of(key), task, beside)


def key_of(model):
    """A state.  X of a block is left out where nobody has yet to test it: line 16
    stores it before line 19 does."""
    blocks, tasks = attempts.key_of(model, ((),) * model.n, ("",) * model.n)
    testing = {held for line, *_, held, _, _, _, _ in tasks
               if line in (17, 18, 19)}
    return tuple(
        words if block in testing else set_at(words, cells.X, cells.NO_TASK)
        for block, words in enumerate(blocks)), tasks


# --------------------------------------------------------------- the tellings

# What is kept of a call under way in a telling: NOT_TOLD, or its answer and
# whether its moment is later than its last step so far.
NOT_TOLD = None


def on_plain_cell(record, value):
    """A record's call on a plain cell: its answer, and the value then."""
    if record.kind == cells.READ:
        return value, value
    if value == record.expected:
        return True, record.new
    return False, value


def is_late(told):
    return told is not NOT_TOLD and told[1]


def set_told(telling, task, told):
    value, tolds = telling
    return value, set_at(tolds, task, told)


class Tellings(Search):
    def __init__(self, tasks, values):
        self.least = {}  # state -> sets of tellings, none within another
        super().__init__(tasks, values)

    def at_opening(self, key, tasks):
        return {(key[0][0][cells.V], (NOT_TOLD,) * tasks)}

    def begin(self, model, task, call, tellings):
        kind, expected, new = call
        tellings = told_meanwhile(model, tellings)
        model.begin(task, kind, 0, expected, new)
        self.found(model, tellings)

    def step(self, model, task, tellings):
        # its moment, if it has one, is no longer later than its last step
        tellings = [set_told(telling, task, telling[1][task] and (
            telling[1][task][0], False)) for telling in tellings]
        tellings = told_meanwhile(model, tellings, stepping=task)
        result = model.step(task)
        if result is not None:
            tellings = [set_told(telling, task, NOT_TOLD)
                        for telling in tellings
                        if telling[1][task] == (result.answer, False)]
        self.found(model, tellings)

    def drop(self, model, task, tellings):
        """"Its effect, if any, falls between its begin and the drop", and by
        demand 3 "no later than its last step"."""
        tellings = told_meanwhile(model, tellings, but=task)
        model.drop(task)
        self.found(model, [set_told(telling, task, NOT_TOLD)
                           for telling in tellings
                           if not is_late(telling[1][task])])

    def found(self, model, tellings):
        key, tellings = key_of(model), frozenset(tellings)
        assert any(not any(map(is_late, tolds)) for _, tolds in tellings), (
            "no telling", key)
        fewer = self.least.setdefault(key, [])
        if not any(least <= tellings for least in fewer):
            fewer[:] = [least for least in fewer if not tellings <= least]
            fewer.append(tellings)
            self.todo.append((key, tellings))

    def go_on(self, key, tellings, task):
        if tellings in self.least[key]:
            super().go_on(key, tellings, task)


def told_meanwhile(model, tellings, but=None, stepping=None):
    """The tellings, and those in which calls under way are told at this action as
    well, in any order; but for one task's."""
    found = set(tellings)
    todo = list(found)
    while todo:
        value, tolds = todo.pop()
        for task, record in enumerate(model.tasks):
            if not record.busy or task == but or tolds[task] is not NOT_TOLD:
                continue
            answer, after = on_plain_cell(record, value)
            more = set_told((after, tolds), task, (answer, task != stepping))
            if more not in found:
                found.add(more)
                todo.append(more)
    return found


# --------------------------------------------------------------- the promises

# What a call under way was promised: nothing; no hardware swap; no hardware swap
# but for Y, which was true at its begin.
NOTHING, PROMISED, BUT_FOR_Y = range(3)


class Promises(Search):
    def __init__(self, tasks, values):
        self.seen = set()
        self.needed_y_false = 0
        super().__init__(tasks, values)

    def at_opening(self, key, tasks):
        return (NOTHING,) * tasks

    def begin(self, model, task, call, promises):
        """"its cell's block was active at its begin and, from then to its end, no
        other swap with unequal values is unfinished on that cell" (demand 3), and
        Y false (change request 12)."""
        at = cells.WORDS * model.current[0]
        promise = BUT_FOR_Y if model.pool[at + cells.Y] else PROMISED
        if model.pool[at + cells.C] or any(map(is_unequal_swap, model.tasks)):
            promise = NOTHING
        kind, expected, new = call
        model.begin(task, kind, 0, expected, new)
        if is_unequal_swap(model.tasks[task]):
            promises = (NOTHING,) * model.n
        self.found(model, set_at(promises, task, promise))

    def step(self, model, task, promises):
        record = model.tasks[task]
        if record.line in cells.HARD_LINES:
            assert promises[task] != PROMISED, record.words()
            if promises[task] == BUT_FOR_Y:
                # a read's lines do not ask Y
                assert is_unequal_swap(record), record.words()
                self.needed_y_false += 1
        if model.step(task) is not None:
            promises = set_at(promises, task, NOTHING)
        self.found(model, promises)

    def drop(self, model, task, promises):
        model.drop(task)
        self.found(model, set_at(promises, task, NOTHING))

    def found(self, model, promises):
        state = key_of(model), promises
        if state not in self.seen:
            self.seen.add(state)
            self.todo.append(state)


def main():
    tasks, values = (int(word) for word in (sys.argv[1:] + ["2", "2"])[:2])
    tellings = Tellings(tasks, values)
    print("drop_search: %d states of %d tasks and %d values can be told, by %d "
          "drops" % (len(tellings.least), tasks, values, tellings.drops))
    promises = Promises(tasks, values)
    assert promises.needed_y_false > 0
    print("drop_search: %d states keep the promise of no hardware swap; %d "
          "hardware swaps by Y alone" % (len(promises.seen),
                                         promises.needed_y_false))


if __name__ == "__main__":
    main()
