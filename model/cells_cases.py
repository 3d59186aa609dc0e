#!/usr/bin/env python3
"""What the program test_cells must print: entries handed wrong numbers, unfit
states and pools of another length.

    python3 model/cells_cases.py < crates/test_cells/stdin

writes crates/test_cells/stdout.  Each line of the input is a case: a letter
and a number for each word that is not as in the plain case, a colon and the
case's name.  A case with x prints `NAME N`, what open answers.  The others
print `NAME R S T no N` or `NAME R S T shows V`: what begin a read, begin a
swap, step and look answer, each asked of the case's own state.  100 stands for
acted, 200 for ended, any other number for that refusal; a `!` after it would
say that the refusal changed something.

The state's counts of uses (change request 7) are those of the plain case, but
for each block that a z names: its stored count is the Z after it.  They are those
of a fresh reading, but for one at most.

A case with L makes so many steps over the case's record, which the caller keeps
and lends, and prints for each the record's line after it and the answer, and of a
finished call whether it was answered yes, its steps, and its hardware swaps won
and lost.

A case with D asks so many drops, one after the other, of the case's state, and
prints for each the answer; after an accepted one also the line of the task's
record, 0 if every other field of that record is 0, else 1, and the stored counts of
uses of the blocks from 0 to B - 1.
"""

import operator
import re
import sys

import cells

# The letters, with the plain case: "Three tasks, two cells, eight blocks, all
# idle; task 0 is to swap 5 for 7; the second value is 6."
PLAIN = dict(
    a=3, b=2, c=8,          # tasks, cells, blocks
    d=1, e=1, f=2,          # last taken, the blocks of cells 1 and 2
    g=40,                   # words of the pool
    h=0,                    # whose record has these:
    i=0, j=0, k=0, l=0,     # line, wanted, kind, cell
    m=0, n=0,               # expected, new
    o=0, p=0, q=0,          # held, taken, steps
    r=0, s=0,               # hardware swaps won, lost
    t=0, u=0, v=5, w=7,     # of the calls: task, cell, expected, new
    x=0, y=6,               # how many values open is given; the second
    L=0,                    # how many steps are lent the record
    D=0)                    # how many drops are asked

# A fresh reading of it: cells 0 and 1 name blocks 0 and 1.
COUNTS = [1, 1] + [0] * (cells.MOST_BLOCKS - 2)

KINDS = {1: cells.READ, 2: cells.SWAP}

ACTED = "100"
ENDED = "200"


def read_case(line):
    """The case's words by letter, its counts, and its name."""
    words, colon, name = line.partition(":")
    case = dict(PLAIN, counts=list(COUNTS))
    for word in words.split(" ") if words else ():
        if not (colon and re.fullmatch("[a-zDLZ](0|[1-9][0-9]*)", word)):
            raise ValueError("not a case: %r" % line)
        if word[0] == "Z":
            case["counts"][case["z"]] = int(word[1:])
        else:
            case[word[0]] = int(word[1:])
    return case, name


def pool_of(case):
    """The first words of nine blocks, as an opening of two cells leaves
    them."""
    pool = [77] * (cells.WORDS * 9)
    cells.open_cells(3, 2, 9, pool, (5, 6))
    if case["g"] > len(pool):
        raise ValueError("a pool has at most %d words" % len(pool))
    return pool[:case["g"]]


def record_of(case):
    record = cells.Record()
    record.line = case["i"]
    record.wanted_by = case["j"]
    # a number that stands for neither kind stays as it is
    record.kind = KINDS.get(case["k"], case["k"])
    record.cell = case["l"]
    record.expected = case["m"]
    record.new = case["n"]
    record.held = case["o"]
    record.installing = case["p"]
    record.steps = case["q"]
    record.won = case["r"]
    record.lost = case["s"]
    return record


def state_of(case):
    """The case's state with its pool; of the 16 blocks and 32 records that a
    state has room for, those of its cells and tasks."""
    current = list(range(cells.MOST_CELLS))
    current[1] = case["e"]
    current[2] = case["f"]
    tasks = [cells.Record() for _ in range(cells.MOST_TASKS)]
    if case["h"] < len(tasks):
        tasks[case["h"]] = record_of(case)
    state = cells.Cells.found(
        case["a"], case["b"], case["c"], pool_of(case),
        current[:case["b"]], case["d"], tasks[:case["a"]])
    # one fault at a time
    if sum(map(operator.ne, state.counts, case["counts"])) > 1:
        raise ValueError("several counts are not those of a fresh reading")
    state.counts = list(case["counts"])
    return state


def words_of(state):
    return (state.n, state.v, state.b, tuple(state.pool),
            tuple(state.current), state.last_taken, tuple(state.counts),
            tuple(record.words() for record in state.tasks))


def answer(case, entry):
    """What the entry answers, asked of the case's state, and the pool then."""
    state = state_of(case)
    before = words_of(state)
    result = entry(state)
    if result is None:
        return ACTED, state.pool
    if isinstance(result, cells.Finished):
        return ENDED, state.pool
    return refused(result, state, before), state.pool


def refused(result, state, before):
    """"A refusal returns the number alone; pool, records and state stay
    identical."""
    changed = "" if words_of(state) == before else "!"
    return "%d%s" % (result.number, changed)


def look(case, pool):
    state = state_of(case)
    state.pool = pool
    result = state.look(case["u"])
    if isinstance(result, cells.Refused):
        return "no %d" % result.number
    return "shows %d" % result


def open_answer(case):
    values = [5, case["y"], 7, 8][:case["x"]]
    if len(values) != case["x"]:
        raise ValueError("at most four values")
    opened = cells.open_cells(case["a"], case["b"], case["c"],
                              pool_of(case), values)
    return ("%d" % opened.number if isinstance(opened, cells.Refused)
            else ACTED)


def lent_steps(case):
    """What is printed of each step over the case's record, lent: it stands in
    place of the state's."""
    state = state_of(case)
    record = record_of(case)
    if case["t"] < len(state.tasks):
        state.tasks[case["t"]] = record
    for _ in range(case["L"]):
        before = words_of(state)
        result = state.step(case["t"])
        said = ACTED
        if isinstance(result, cells.Refused):
            said = refused(result, state, before)
        elif result is not None:
            said = "%s %d %d %d %d" % (
                ENDED, result.answer, result.steps, result.won, result.lost)
        yield "%d %s" % (record.line, said)


def drops(case):
    """What is printed of each drop."""
    state, task = state_of(case), case["t"]
    for _ in range(case["D"]):
        before = words_of(state)
        result = state.drop(task)
        if isinstance(result, cells.Refused):
            yield refused(result, state, before)
        else:
            line, *others = state.tasks[task].words()
            yield " ".join(map(str, (ACTED, line, int(any(others)),
                                     *state.counts[:state.b])))


def printed(line):
    """What is printed for one line of the input."""
    case, name = read_case(line)
    if case["L"]:
        return " ".join([name, *lent_steps(case)])
    if case["D"]:
        return " ".join([name, *drops(case)])
    if case["x"]:
        return "%s %s" % (name, open_answer(case))
    task, cell = case["t"], case["u"]
    read, _ = answer(case, lambda state: state.begin_read(task, cell))
    swap, _ = answer(case, lambda state: state.begin_swap(
        task, cell, case["v"], case["w"]))
    step, pool = answer(case, lambda state: state.step(task))
    looked = look(case, pool_of(case))
    # look comes last, and a case is not to depend on that
    if looked != look(case, pool):
        raise ValueError("look tells the step's stores: %r" % line)
    return "%s %s %s %s %s" % (name, read, swap, step, looked)


def run(text):
    return "".join(printed(line) + "\n" for line in text.splitlines())


def main():
    sys.stdout.write(run(sys.stdin.read()))


if __name__ == "__main__":
    main()
