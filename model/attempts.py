#!/usr/bin/env python3
"""Which hardware swaps of a call are won and which lost (change request 5).

    attempts.py [TASKS [VALUES]]      (2 and 2 if left out)

Goes through every state that the tasks reach on one cell from its fresh
openings, with reads and swaps of the values below VALUES and with drops, and
prints for each kind, path and answer the patterns met: w for won and l for lost,
in the order of the attempts.  Then for each kind and answer the pairs (won,
lost).  Ends with 1 if the patterns are not PATTERNS.

Blocks are told apart by who names, holds or has taken them, not by their
numbers, and what an unused block has is left out: lines 4 to 8 fill every word.
"""

import sys
from collections import deque

import cells
from cells import WORDS

# The patterns of each kind, path and answer; "-" where there is no attempt.  A
# swap of equal values runs a read's lines.  At line 25 only its own value stands
# in V for a task to decide, so one who fails there has lost, and loses again at
# 28: of three attempts the first two are lost.
PATTERNS = {
    ("read", "read_active", "value"): "-",
    ("read", "read_decided", "value"): "l w",
    ("equal swap", "read_active", "yes"): "-",
    ("equal swap", "read_active", "no"): "-",
    ("equal swap", "read_decided", "yes"): "l w",
    ("equal swap", "read_decided", "no"): "l w",
    ("swap", "no_from_22", "no"): "-",
    ("swap", "yes_from_26", "yes"): "-",
    ("swap", "yes_from_25", "yes"): "l w",
    ("swap", "no_from_28_by_17", "no"): "l w",
    ("swap", "no_from_28_by_19", "no"): "l w",
    ("swap", "no_from_28_by_21", "no"): "l w",
    ("swap", "end_at_30_by_17", "yes"): "lw ww",
    ("swap", "end_at_30_by_17", "no"): "ll wl",
    ("swap", "end_at_30_by_19", "yes"): "lw ww",
    ("swap", "end_at_30_by_19", "no"): "ll wl",
    ("swap", "end_at_30_by_21", "yes"): "lw ww",
    ("swap", "end_at_30_by_21", "no"): "ll wl",
    ("swap", "end_at_30_by_25", "yes"): "llw",
    ("swap", "end_at_30_by_25", "no"): "lll",
}

# Where the value loaded is still asked for.
LOADED_LINES = frozenset((2, 12, 21))


def open_states(tasks, values):
    blocks = cells.least_blocks(tasks, 1)
    for value in range(values):
        model = cells.open_cells(tasks, 1, blocks, [0] * WORDS * blocks,
                                 [value], False)
        yield key_of(model, ((),) * tasks, ("",) * tasks)


def key_of(model, lines, attempts):
    """A state, the same for every numbering of the blocks."""
    numbers = {model.current[0]: 0}
    tasks = []
    for task, record in enumerate(model.tasks):
        held = taken = 0
        if record.holds_a_block:
            held = numbers.setdefault(record.held, len(numbers))
        if record.has_taken_a_block:
            taken = numbers.setdefault(record.installing, len(numbers))
        loaded = record.loaded if record.line in LOADED_LINES else 0
        tasks.append((record.line, record.wanted_by, record.kind,
                      record.expected, record.new, held, taken, loaded,
                      lines[task], attempts[task]))
    blocks = tuple(tuple(model.pool[WORDS * block:WORDS * block + WORDS])
                   for block in numbers)
    return blocks, tuple(tasks)


def model_of(key):
    blocks, tasks = key
    records = []
    for (line, wanted_by, kind, expected, new, held, taken, loaded, _,
         _) in tasks:
        record = cells.Record()
        record.line, record.wanted_by, record.kind = line, wanted_by, kind
        record.expected, record.new = expected, new
        record.held, record.installing, record.loaded = held, taken, loaded
        records.append(record)
    b = cells.least_blocks(len(tasks), 1)
    pool = [word for block in blocks for word in block]
    pool += [0] * (WORDS * b - len(pool))
    model = cells.Cells.found(len(tasks), 1, b, pool, [0], 0, records)
    model.ask_fit = False
    return model


def calls(values):
    yield cells.READ, 0, 0
    for expected in range(values):
        for new in range(values):
            yield cells.SWAP, expected, new


class Search:
    """Every state, and the finished calls' patterns."""

    def __init__(self, tasks, values):
        self.values = values
        self.seen = set(open_states(tasks, values))
        self.todo = deque(self.seen)
        self.patterns = {}  # (kind, path, answer) -> patterns
        while self.todo:
            key = self.todo.popleft()
            for task in range(tasks):
                self.go_on(key, task)

    def go_on(self, key, task):
        line, wanted_by, *_, lines, attempts = key[1][task]
        if line == cells.IDLE:
            for call in calls(self.values):
                model = model_of(key)
                model.begin(task, call[0], 0, *call[1:])
                self.found(model, key, task, (), "")
            return
        # "the record is idle" (change request 12)
        model = model_of(key)
        model.drop(task)
        self.found(model, key, task, (), "")
        model = model_of(key)
        record = model.tasks[task]
        result = model.step(task)
        # "the step never lacks a block" (change request 10)
        assert not isinstance(result, cells.Refused), (key, task)
        won = result.won if result else record.won
        if line in cells.HARD_LINES:
            attempts += "w" if won else "l"
        lines += ((line, wanted_by),)
        if result:
            self.finished(result, lines, attempts)
            lines, attempts = (), ""
        self.found(model, key, task, lines, attempts)

    def found(self, model, key, task, lines, attempts):
        all_lines = [other[-2] for other in key[1]]
        all_attempts = [other[-1] for other in key[1]]
        all_lines[task], all_attempts[task] = lines, attempts
        after = key_of(model, all_lines, all_attempts)
        if after not in self.seen:
            self.seen.add(after)
            self.todo.append(after)

    def finished(self, result, lines, attempts):
        self.patterns.setdefault(call_key(result, lines), set()).add(
            attempts or "-")


def call_key(finished, lines):
    """A finished call's kind, path and answer, as PATTERNS has them."""
    path = cells.path_of(lines)
    if finished.kind == cells.READ:
        return "read", path, "value"
    kind = "equal swap" if lines[0][0] == 10 else "swap"
    return kind, path, "yes" if finished.answer else "no"


def joined(patterns):
    """Sets of patterns written as in PATTERNS."""
    return {key: " ".join(sorted(found)) for key, found in patterns.items()}


def pairs_of(patterns):
    """By kind and answer, the pairs (won, lost)."""
    pairs = {}
    for (kind, _, answer), found in patterns.items():
        pairs.setdefault((kind, answer), set()).update(
            (pattern.count("w"), pattern.count("l"))
            for pattern in found.split(" "))
    return pairs


def text_of(patterns):
    lines = ["%-10s %-18s %-5s %s" % (*key, found)
             for key, found in sorted(patterns.items())]
    lines += ["%-10s %-5s %s" % (*key, " ".join(
        "(%d, %d)" % pair for pair in sorted(found)))
        for key, found in sorted(pairs_of(patterns).items())]
    return "".join(line + "\n" for line in lines)


def main():
    tasks, values = (int(arg) for arg in (sys.argv[1:] + ["2", "2"])[:2])
    search = Search(tasks, values)
    found = joined(search.patterns)
    sys.stdout.write(text_of(found))
    print("%d states of %d tasks and %d values" % (len(search.seen), tasks,
                                                    values))
    if found != PATTERNS:
        print("these are not the patterns kept in PATTERNS")
        return 1
    return 0


if __name__ == "__main__":
    sys.exit(main())
