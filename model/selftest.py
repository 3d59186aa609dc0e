#!/usr/bin/env python3
"""Self test of the model: P1 to P10, the fill, hardware swaps won and lost, the
counts of uses, and claims on drawn lists.

The drawn lists check what documents 00 and 01 say of every list: counts by
path, the figure with a new block each time, the bounds, the promise of no
hardware swap, and that the calls can be told one after another on plain cells;
and that an attempt is won where it changes memory and lost where it does not.
"""

import sys
from collections import Counter
from fractions import Fraction

import attempts
import cells
import draw
import fuzz
import make_rate_pairs
import rate
import reader
import session
from script import counted

NONE = cells.NONE


def check(what, found, wanted):
    if found != wanted:
        print("selftest: %s\n  found  %r\n  wanted %r" % (what, found, wanted))
        sys.exit(1)


def printed(text):
    """The lines the model prints for these session lines."""
    data = draw.text(line.strip() for line in text.strip().split("\n"))
    return session.run(data, ask_fit=True).decode().split("\n")[:-1]


# ----------------------------------------------------- cases from the paper

def cases_from_the_paper():
    check("P1", printed("""(open 2 1 5 (5))
                           (swap 0 0 5 7)
                           (again 10 (step 0))
                           (read 1 0)
                           (again 3 (step 1))"""),
          ["(done 0 swap 0 yes 10 0 0)", "(done 1 read 0 7 3 0 0)",
           "(cell 0 7)", "(end 2 0 0 0)"])

    check("P2, N 32", printed("(open 32 1 65 (5))"),
          ["(cell 0 5)", "(end 0 0 0 0)"])
    check("P2, N 33", printed("(open 33 1 67 (5))"), ["(no 0 1)"])

    check("P3, B 4", printed("(open 2 1 4 (5))"),
          ["(cell 0 5)", "(end 0 0 0 0)"])
    check("P3, B 3", printed("(open 2 1 3 (5))"), ["(no 0 3)"])

    check("P4, 4294967294", printed("(open 2 1 5 (4294967294))"),
          ["(cell 0 4294967294)", "(end 0 0 0 0)"])
    check("P4, none", printed("(open 2 1 5 (4294967295))"), ["(no 0 5)"])

    check("P5", printed("""(open 2 1 5 (5))
                           (swap 0 0 5 5)
                           (again 3 (step 0))"""),
          ["(done 0 swap 0 yes 3 0 0)", "(cell 0 5)", "(end 1 0 0 0)"])

    check("P6", printed("""(open 2 1 5 (5))
                           (swap 0 0 4 6)
                           (again 8 (step 0))"""),
          ["(done 0 swap 0 no 8 0 0)", "(cell 0 5)", "(end 1 0 0 0)"])

    check("P7", printed("""(open 2 1 5 (5))
                           (step 0)"""),
          ["(no 0 11)", "(cell 0 5)", "(end 0 0 0 0)"])

    check("P8", printed("""(open 2 1 5 (5))
                           (read 2 1)
                           (swap 2 1 5 7)"""),
          ["(no 0 7)", "(no 1 7)", "(cell 0 5)", "(end 0 0 0 0)"])

    # "Task 0 takes 2 steps, task 1 takes 7."
    start = """(open 2 1 5 (5))
               (swap 0 0 5 7)
               (swap 1 0 5 9)
               (again 2 (step 0))
               (again 7 (step 1))
            """
    check("P9", printed(start + """(again 2 (step 0))
                                   (again 5 (step 1))
                                   (again 3 (step 0))
                                   (swap 0 0 9 4)
                                   (again 13 (step 0))
                                   (swap 0 0 4 6)
                                   (again 10 (step 0))"""),
          # task 1 decides the block at 25, so task 0 finds it decided at 28,
          # and again in its next call, whose line 30 is alone
          ["(done 1 swap 0 yes 12 1 0)", "(done 0 swap 0 no 7 0 1)",
           "(done 0 swap 0 yes 13 1 1)", "(done 0 swap 0 yes 10 0 0)",
           "(cell 0 6)", "(end 4 0 4 1000)"])
    check("P10", printed(start + """(again 5 (step 0))
                                    (again 14 (step 1))
                                    (again 6 (step 0))"""),
          # task 0 decides the block before task 1 at 25 and 28, and loses its
          # line 30 to task 1
          ["(done 1 swap 0 yes 21 1 2)", "(done 0 swap 0 no 13 1 1)",
           "(cell 0 9)", "(end 2 0 5 2500)"])


# ------------------------------------------------------------------ the rate

def rates_two_ways():
    """Change request 4's own numbers, then rate.py against the rounding of
    Python's fractions, which also takes a half to the even neighbour."""
    check("1 in 2,000", rate.rate(1, 2000), 0)
    check("3 in 2,000", rate.rate(3, 2000), 2)
    small = [(h, f) for f in range(81) for h in range(200)]
    for h, f in make_rate_pairs.pairs() + small:
        wanted = round(Fraction(1000 * h, f)) if f else 0
        check("the rate of %d and %d" % (h, f), rate.rate(h, f), wanted)
        check("64 bits", wanted < 2 ** 64, True)
    check("rates as a program", rate.run("1 2000\n3 2000\n7 0\n"),
          "0\n2\n0\n")
    for h, f in ((0, 0), (0, 3), (1, 2), (1, 16), (3, 16), (19, 16), (5, 2),
                 (30, 33), (9, 80)):
        end = session.run(draw.text(counted(h, f)), ask_fit=True)
        check("the end line of %d and %d" % (h, f),
              end.split(b"\n")[-2],
              b"(end %d 0 %d %d)" % (f, h, rate.rate(h, f)))


# --------------------------------------------------- reading of the papers

def session_file_questions():
    check("empty file", session.run(b""), b"(bad 14)\n")
    check("65537 bytes", session.run(b"(" * 65537), b"(bad 12)\n")
    check("open alone", session.run(b"(open 1 1 3 (0))\n"),
          b"(cell 0 0)\n(end 0 0 0 0)\n")
    # neither time nor memory in the size of the counts
    huge = b"4294967295"
    nested = b"(step 0)"
    nothing = b"(again " + huge + b")"
    for _ in range(6):
        nested = b"(again %s %s)" % (huge, nested)
        nothing = b"(again %s %s %s)" % (huge, nothing, nothing)
    check("too many", session.run(b"(open 1 1 3 (0))\n" + nested + b"\n"),
          b"(bad 15)\n")
    check("of nothing", session.run(b"(open 1 1 3 (0))\n" + nothing + b"\n"),
          b"(cell 0 0)\n(end 0 0 0 0)\n")
    check("most actions", reader.count_actions(
        reader.Again(65535, (reader.Step(0),))), 65535)


def breaks_question_13(data):
    """Question 13 once more, by the sentence's parts instead of a reader:
    what may stand next to what."""
    if data and not data.endswith(b"\n"):
        return True
    for line in data.split(b"\n")[:-1]:
        depth = 0
        for at, byte in enumerate(line):
            before = line[at - 1:at] if at else b""
            after = line[at + 1:at + 2]
            if byte == ord("("):
                # an item starts: first in its list, or after one space
                if at and before not in (b"(", b" "):
                    return True
                depth += 1
                if depth > 8 or (depth == 1 and at):
                    return True
            elif byte == ord(")"):
                depth -= 1
                if depth < 0 or (after and after not in (b")", b" ")):
                    return True
                if depth == 0 and after:
                    return True
            elif depth == 0:
                return True
            elif byte == ord(" "):
                # it parts two items
                if before in (b"(", b" ") or after in (b")", b" ", b""):
                    return True
        if depth or not line:
            return True
    return False


def question_13_two_ways(count):
    drawn = draw.Draw(13)
    seen = {True: 0, False: 0}
    for _ in range(count):
        data = drawn.pick((fuzz.damaged, fuzz.token_soup, fuzz.deep))(drawn)
        try:
            reader.take_lines(data)
            bad = False
        except reader.Bad:
            bad = True
        check("question 13 of %r" % data, bad, breaks_question_13(data))
        seen[bad] += 1
    check("both answers come up", min(seen.values()) > count // 10, True)


def every_refusal_changes_nothing():
    drawn = draw.Draw(11)
    for _ in range(40):
        n, v = drawn.between(1, 4), drawn.between(1, 3)
        b = cells.least_blocks(n, v) + drawn.below(3)
        model = cells.open_cells(n, v, b, [7] * (5 * b), [1] * v)
        draw.draw_actions(drawn, model, draw.Style(length=30))
        for _ in range(40):
            action = draw.draw_refused(drawn, model, True, True)
            before = everything(model)
            if isinstance(model.act(*action), cells.Refused):
                check("a refusal changes nothing", everything(model), before)


def everything(model):
    return (list(model.pool), list(model.current), model.last_taken,
            list(model.counts), [record.words() for record in model.tasks])


def unfit_states_are_refused():
    """Question 6, field by field, from a state that is fit."""
    damages = [
        lambda m: setattr(m, "n", 0), lambda m: setattr(m, "n", 33),
        lambda m: setattr(m, "v", 17), lambda m: setattr(m, "b", 129),
        lambda m: m.pool.append(0), lambda m: setattr(m, "last_taken", m.b),
        lambda m: m.current.__setitem__(0, m.b),
        lambda m: setattr(m.tasks[0], "cell", m.v),
        lambda m: setattr(m.tasks[0], "line", 10),
        lambda m: setattr(m.tasks[0], "line", 13),
        lambda m: setattr(m.tasks[0], "line", 25),
        lambda m: setattr(m.tasks[0], "line", 28),
        lambda m: setattr(m.tasks[0], "line", 29),
        lambda m: setattr(m.tasks[0], "line", 1),
        lambda m: setattr(m.tasks[0], "held", m.b),
        lambda m: setattr(m.tasks[0], "expected", NONE),
        lambda m: setattr(m.tasks[0], "new", NONE),
        lambda m: setattr(m.tasks[0], "steps", 21),
        lambda m: setattr(m.tasks[0], "won", 4),
        lambda m: setattr(m.tasks[0], "lost", 4),
        lambda m: (setattr(m.tasks[0], "won", 2),
                   setattr(m.tasks[0], "lost", 2)),
    ]
    count_damages = [
        lambda m, block=block, by=by: m.counts.__setitem__(
            block, m.counts[block] + by)
        for block in range(5) for by in (1, -1, 256, 2 ** 32)]
    for damage in damages + count_damages:
        model = cells.open_cells(2, 1, 5, [0] * 25, [5])
        model.begin_swap(0, 0, 5, 7)
        model.step(0)
        check("fit", model.is_fit(), True)
        damage(model)
        if damage in damages:
            # the counts are true of what is damaged
            model.counts = model.fresh_counts()
        check("unfit", (model.begin_read(9, 9), model.step(9), model.look(9),
                        model.begin_swap(9, 9, 9, 9), model.drop(9),
                        model.begin_add(9, 9, 9, 9)),
              (cells.Refused(6),) * 6)
    # "how many times it is used" is asked of blocks alone: those below B
    for block in range(5, cells.MOST_BLOCKS):
        model = cells.open_cells(2, 1, 5, [0] * 25, [5])
        model.counts[block] = 3
        check("fit", (model.is_fit(), model.look(0)), (True, 5))


# ---------------------------------------------------- the fill's five turns

# Lines 4 to 8 and 30 in states of three tasks, two cells and eight blocks,
# whose pool holds 77 beyond the opening's two blocks.  Task 0 swaps 5 for 9 on
# cell 0; its next line, the block it has taken, its steps so far; the last
# block taken; task 1's next line and the block that one has taken.
FILLS = {}
for _line in (4, 5, 6, 7, 8, 30):
    for _taken in (0, 5, 7, 8):
        FILLS["at_%d_taken_%d" % (_line, _taken)] = (_line, _taken, 9, 2, 0, 0)
for _line in (0, 4, 5, 6, 7, 8, 30):
    FILLS["at_4_other_at_%d" % _line] = (4, 0, 9, 4, _line, 5)
    FILLS["at_4_round_other_at_%d" % _line] = (4, 0, 9, 7, _line, 2)
for _line in (3, 4, 5, 8, 29, 30):
    for _steps in (16, 20, 21):
        FILLS["at_%d_steps_%d" % (_line, _steps)] = (_line, 5, _steps, 2, 0, 0)


def fill_state(module, line, taken, steps, last, other, other_taken):
    model = module.open_cells(3, 2, 8, [0] * 40, [5, 6])
    model.pool[10:] = [77] * 30
    model.last_taken = last
    for task, next_line, block, new in ((0, line, taken, 9),
                                        (1, other, other_taken, 8)):
        if next_line:
            record = model.tasks[task]
            record.line, record.kind = next_line, module.SWAP
            record.wanted_by = 28 if next_line == 3 else 0
            record.expected, record.new = 5, new
            record.installing, record.steps = block, steps
            record.lost = 1
    model.counts = model.fresh_counts()
    return model


def fill_answers(module, *state):
    """Task 0's step in this state: its answer, the pool's words that it
    changed, the blocks of the cells, the last taken, task 0's next line, taken
    block and steps."""
    model = fill_state(module, *state)
    before = list(model.pool)
    result = model.step(0)
    changed = {at: word for at, word in enumerate(model.pool)
               if word != before[at]}
    record = model.tasks[0]
    return (result and tuple(result), changed, list(model.current),
            model.last_taken, record.line, record.installing, record.steps)


def fills_by_the_papers():
    """What each of these states answers, by document 01 and change request 2:
    "line 4 takes the block and sets X, then one step each for Y, C, D and V".
    """
    words = {5: (1, 0), 6: (2, 0), 7: (4, NONE), 8: (3, 9)}
    for name, (line, taken, steps, last, other, other_taken) in FILLS.items():
        unchanged = ({}, [0, 1], last, line, taken, steps)
        if line == 29 or steps > 20 or (line in (5, 6, 7, 8, 30)
                                        and taken == 8):
            yield name, ((6,), *unchanged)
        elif line == 30:
            yield name, (("swap", 0, True, steps + 1, 1, 1), {}, [taken, 1],
                         last, 0, 0, 0)
        elif line == 3:
            # task 0's held block has D none, so it was not decided as 5
            yield name, (("swap", 0, False, steps + 1, 0, 1), {}, [0, 1],
                         last, 0, 0, 0)
        elif line == 4:
            used = {0, 1} | ({other_taken} if other in (5, 6, 7, 8, 30)
                             else set())
            block = next(block % 8 for block in range(last + 1, last + 9)
                         if block % 8 not in used)
            yield name, (None, {5 * block: 255}, [0, 1], block, 5, block,
                         steps + 1)
        else:
            at, word = words[line]
            # the opening's block 0 has Y 0, C 0, D none and V 5 already
            changed = {5 * taken + at: word}
            if taken == 0 and line != 8:
                changed = {}
            yield name, (None, changed, [0, 1], last,
                         line + 1 if line < 8 else 30, taken, steps + 1)


def full_state(n, v, left, b=None):
    """Task 0 is about to take a block, every other has taken one; all that the
    cells name, the tasks hold and have taken are different blocks, and all but
    these are used.  Without blocks left this is the fullest fit state; where
    some are, cells and tasks share theirs."""
    b = cells.least_blocks(n, v) if b is None else b
    model = cells.open_cells(n, v, b, [7] * (5 * b), [5] * v)
    blocks = [block for block in range(b) if block not in left]
    spare = blocks[0]

    def take():
        return blocks.pop() if blocks else spare

    model.current = [take() for _ in range(v)]
    for task, record in enumerate(model.tasks):
        record.kind, record.expected, record.new = cells.SWAP, 5, 6
        record.held = take()
        record.line = (5, 6, 7, 8, 30)[task % 5] if task else 4
        if task:
            record.installing = take()
    model.counts = model.fresh_counts()
    check("all but these are used", (blocks, model.is_fit()), ([], True))
    return model


def every_block_is_used():
    """Question 20 (change request 10): "line 4 finds every block used, asked
    after 11".  Where one block is left it is found, wherever it is; where none
    is, the step at 4 is refused and changes nothing, and no other step is."""
    for n, v in ((1, 1), (1, 5), (2, 1), (3, 2), (32, 16)):
        b = cells.least_blocks(n, v)
        for left in {0, 1, v, b // 2, b - 1}:
            for last in (0, left, b - 1):
                model = full_state(n, v, {left})
                model.last_taken = last
                check("one is left", (
                    model.step(0), model.tasks[0].installing,
                    model.last_taken, model.is_fit()),
                    (None, left, left, True))
        model = full_state(n, v, ())
        before = everything(model)
        for ask_fit in (True, False):
            model.ask_fit = ask_fit
            check("none is left", (model.step(0), everything(model)),
                  (cells.Refused(20), before))
        # 6, 7 and 11 come first; the other entries do not ask 20
        model.ask_fit = True
        check("no task", model.step(n), cells.Refused(7))
        check("a begin", (model.begin_read(0, 0),
                          model.begin_swap(0, 0, 5, 6)),
              (cells.Refused(9),) * 2)
        check("a look", isinstance(model.look(0), cells.Refused), False)
        for task in range(1, n):
            check("not at 4", isinstance(model.step(task), cells.Refused),
                  False)
        model = full_state(n, v, ())
        model.counts[b - 1] += 1
        check("unfit", model.step(0), cells.Refused(6))
        if n == 1:
            continue
        # another at 4 is refused too, and at a line that is not 4 none is
        for line in cells.SWAP_LINES | cells.DECIDING_LINES:
            model = full_state(n, v, ())
            record = model.tasks[0]
            record.line = line
            record.wanted_by = 28 if line in cells.DECIDING_LINES else 0
            record.installing = b - 1
            model.counts = model.fresh_counts()
            used = model.counts[:b].count(0) == 0
            result = model.step(0)
            check("line %d" % line, result == cells.Refused(20),
                  line == 4 and used)
    # an idle task's step is refused by 11
    model = full_state(2, 1, ())
    model.tasks[0].clear()
    model.counts = model.fresh_counts()
    check("idle", model.step(0), cells.Refused(11))


# -------------------------------------------------------- won and lost

# Line 2, for 13, 25 or 28, and line 30 in states of two tasks and one cell: the
# next line and who wanted it; D of the held block and the value loaded; the
# cell's block, the block held and the one taken; won and lost so far.  Also
# states that no opening leads to: there a won attempt may leave memory as it
# was, and a lost one may find in D what it would have stored.
ATTEMPTS = {}
for _won, _lost in ((0, 0), (1, 0), (0, 1), (1, 1), (2, 1), (0, 3), (3, 0)):
    for _wanted in (13, 25, 28):
        for _d in (NONE, 0, 5, 6):
            for _loaded in (5, 6, NONE):
                ATTEMPTS["at_2_for_%d_d_%d_loaded_%d_after_%d_%d" % (
                    _wanted, _d, _loaded, _won, _lost)] = (
                        2, _wanted, _d, _loaded, 0, 0, 0, _won, _lost)
    for _d in (NONE, 5):
        for _current, _held, _taken in ((0, 0, 1), (1, 0, 2), (1, 0, 1),
                                        (0, 2, 1), (3, 3, 3), (0, 0, 0)):
            ATTEMPTS["at_30_d_%d_%d_%d_%d_after_%d_%d" % (
                _d, _current, _held, _taken, _won, _lost)] = (
                    30, 0, _d, 5, _current, _held, _taken, _won, _lost)


def attempt_answers(module, line, wanted, d, loaded, current, held, taken, won,
                    lost):
    """Task 0's step in this state: won and lost after it, the answer if it ends
    the call, the blocks, and the pool's words that it changed."""
    model = module.open_cells(2, 1, 5, [0] * 25, [5])
    model.current = [current]
    model.pool[5 * held + 4] = d
    record = model.tasks[0]
    record.line, record.wanted_by = line, wanted
    record.kind = module.READ if wanted == 13 else module.SWAP
    record.expected, record.new = 5, 6
    record.held, record.installing, record.loaded = held, taken, loaded
    record.won, record.lost = won, lost
    model.counts = model.fresh_counts()
    before = list(model.pool)
    result = model.step(0)
    after = record if result is None else result
    return ((after.won, after.lost), result and result.answer, model.current,
            {at: word for at, word in enumerate(model.pool)
             if word != before[at]})


def attempts_by_the_papers():
    """"whether its own hardware swap found D none, which is won, and line 30
    whether it found the held block current" (change request 5)."""
    for name, (line, _, d, loaded, current, held, taken, won,
               lost) in ATTEMPTS.items():
        found = d == NONE if line == 2 else current == held
        counts = (won + 1, lost) if found else (won, lost + 1)
        if line == 30:
            yield name, (counts, found, [taken if found else current], {})
        else:
            yield name, (counts, None, [current],
                         {4: loaded} if found and loaded != NONE else {})


def attempts_told_by_memory(model, actions):
    """Runs the actions.  From a fresh opening an attempt is won exactly if it
    changes memory: D becomes other than none, or the cell's block another.  And
    after each action the counts of uses are those of a reading."""
    def memory():
        return list(model.pool), list(model.current)

    tries = {}
    for word, task, *numbers in actions:
        if word != "step" or task >= model.n or not model.tasks[task].busy:
            model.act(word, task, *numbers)
            if word == "drop":
                tries.pop(task, None)
            check("counts of uses", model.counts[:model.b],
                  counts_by_reading(model))
            continue
        record = model.tasks[task]
        line, before = record.line, memory()
        won, lost = tries.pop(task, (0, 0))
        result = model.step(task)
        if line in (2, 30):
            changed = memory() != before
            won, lost = won + changed, lost + (not changed)
        after = model.ended or record
        check("won and lost", (after.won, after.lost), (won, lost))
        check("counts of uses", model.counts[:model.b],
              counts_by_reading(model))
        if not model.ended:
            tries[task] = won, lost


# ------------------------------------------------- the counts of uses

# A step of each line in states of three tasks, two cells and nine blocks: its
# line and who wanted it; C and D of the held block; the block of the cell, the
# one held and the one taken; and what task 1 holds and has taken, at line 30.
COUNTS = {}
for _line, _wanted in ((10, 0), (11, 0), (12, 0), *(
        (_line, 0) for _line in (4, 5, 6, 7, 8, *range(15, 25), 26, 27, 30)),
        *((_line, _wanted) for _line in (1, 2, 3)
          for _wanted in (13, 25, 28))):
    for _name, _state in {
            "current": (0, 0, 5, 3, 6), "replaced": (0, 4, 5, 3, 6),
            "shared": (4, 4, 5, 4, 6), "shared_replaced": (0, 4, 5, 4, 6),
            "others": (4, 0, 5, 0, 4), "taken_is_held": (0, 5, 5, 3, 5),
            "taken_is_current": (5, 0, 5, 5, 0)}.items():
        for _c, _d in ((0, NONE), (1, NONE), (1, 5), (1, 6), (1, 7)):
            COUNTS["at_%d_for_%d_%s_c_%d_d_%d" % (
                _line, _wanted, _name, _c, _d)] = (
                    _line, _wanted, _c, _d, *_state)


def counts_by_reading(model):
    """How many times each block is used, block by block from the papers."""
    used = []
    for block in range(model.b):
        cells_of_it = [k for k in range(model.v) if model.current[k] == block]
        holding = [record for record in model.tasks[:model.n]
                   if record.line not in (0, 10, 15) and record.held == block]
        taken = [record for record in model.tasks[:model.n]
                 if record.line in (5, 6, 7, 8, 30)
                 and record.installing == block]
        used.append(len(cells_of_it) + len(holding) + len(taken))
    return used


def count_state(module, line, wanted, c, d, current, held, taken, other_held,
                other_taken):
    model = module.open_cells(3, 2, 9, [0] * 45, [5, 6])
    model.current = [1, current]
    model.last_taken = 6
    for task in (0, 1):
        record = model.tasks[task]
        record.kind, record.cell = module.SWAP, 1
        record.expected, record.new = 5, 6
    record = model.tasks[1]
    record.line, record.held, record.installing = 30, other_held, other_taken
    record = model.tasks[0]
    if wanted == 13 or 10 <= line <= 12:
        record.kind = module.READ
    record.line, record.wanted_by = line, wanted
    record.held, record.installing, record.loaded = held, taken, 5
    model.pool[5 * held + 2], model.pool[5 * held + 4] = c, d
    model.counts = counts_by_reading(model) + [9] * 119
    return model


def count_answers(module, *state):
    """Whether the state is fit, whether task 0's step ends its call, the counts
    after it, and how they differ from a reading."""
    model = count_state(module, *state)
    fit = model.is_fit()
    model.ask_fit = False
    result = model.step(0)
    reading = counts_by_reading(model)
    return (fit, result is not None, model.counts,
            [model.counts[block] - reading[block] for block in range(9)])


def counts_are_kept():
    ended = 0
    for name, state in COUNTS.items():
        fit, ends, counts, off = count_answers(cells, *state)
        check(name, (fit, off, counts[9:]), (True, [0] * 9, [9] * 119))
        ended += ends
    check("steps that end a call", ended > 50, True)


# --------------------------------------------------------- the drawn lists

class NewBlockEachTime(cells.Cells):
    """The figure itself: "with a new block each time"."""

    def has_unused_block(self):
        return True

    def take_unused_block(self):
        # what a new block holds is seen by nobody
        self.pool.extend([77] * cells.WORDS)
        return len(self.pool) // cells.WORDS - 1


def open_figure(n, v, b, pool, values, ask_fit):
    return NewBlockEachTime(n, v, b, pool, values, False)


class Call:
    """A begin that isn't refused; C and Y are those of its cell's block then."""

    def __init__(self, begin, action, c=0, y=0):
        self.begin = begin
        self.word, self.task, self.cell, *self.swap = action
        self.c, self.y = c, y
        self.last = begin      # its last step so far
        self.answer = None
        self.finished = False
        self.withdrawn = False
        self.steps = self.hard = 0
        self.alone = True      # no other unequal swap is unfinished meanwhile

    def is_unequal_swap(self):
        return bool(self.swap) and self.swap[0] != self.swap[1]

    def makes_no_hardware_swap(self):
        """"A call makes none if its cell's block was active at its begin and,
        from then to its end, no other swap with unequal values is unfinished on
        that cell" (demand 3); this "also needs Y false at the begin" (change
        request 12).  A read, or a swap that becomes one, does not look at Y and
        needs it not."""
        return self.alone and not self.c and (
            not self.y or not self.is_unequal_swap())

    def needed_y_false(self):
        """A hardware swap that Y alone explains."""
        return self.alone and not self.c and self.y and self.hard

    def on_plain_cell(self, value):
        """The answer, and the cell's value after it."""
        if not self.swap:
            return value, value
        expected, new = self.swap
        return (True, new) if value == expected else (False, value)


class Calls:
    """Runs the actions; the reads and swaps, for the tellings.  Demand 3's telling
    holds those of an add too, and "each of these begins with the add or with the
    step that ended the one before it" (change request 13)."""

    def __init__(self, model, actions):
        self.model = model
        self.all = []
        self.under_way = {}
        for i, action in enumerate(actions):
            word, task = action[:2]
            result = model.act(*action)
            if isinstance(result, cells.Refused):
                continue
            if word == "drop":
                # "from there on it isn't unfinished either" (change request 12)
                self.under_way.pop(task).withdrawn = True
            elif word == "step":
                self.step(i, task, result)
            else:
                self.begin(i, task)

    def begin(self, i, task):
        model, record = self.model, self.model.tasks[task]
        at = cells.WORDS * model.current[record.cell]
        call = Call(i, begun(task, record), model.pool[at + cells.C],
                    model.pool[at + cells.Y])
        meet(call, self.under_way.values())
        self.under_way[task] = call
        self.all.append(call)

    def step(self, i, task, result):
        call, ended = self.under_way[task], self.model.ended
        call.last = i
        count = ended or self.model.tasks[task]
        call.steps, call.hard = count.steps, count.hard
        if ended:
            call.answer, call.finished = ended.answer, True
            del self.under_way[task]
            if result is None:
                self.begin(i, task)


def begun(task, record):
    """The read or swap that a task has begun, as an action."""
    swap = ((record.expected, record.new) if record.kind == cells.SWAP else ())
    return record.kind, task, record.cell, *swap


def meet(call, others):
    """A call that begins, and those unfinished then."""
    for other in others:
        if other.cell == call.cell:
            other.alone = other.alone and not call.is_unequal_swap()
            call.alone = call.alone and not other.is_unequal_swap()


def can_be_told(calls, start):
    """Whether some order of one cell's calls gives every finished one its
    answer: "Every finished call stands there once, and some unfinished ones
    once each, every one at a moment after its begin and no later than its
    last step."  "The sequential telling admits withdrawn calls as it does
    unfinished ones" (change request 12)."""
    calls = [c for c in calls if c.last > c.begin or c.finished]
    wanted = sum(1 << i for i, c in enumerate(calls) if c.finished)
    # the step that ends one of an add's begins the next
    before = [sum(1 << j for j, d in enumerate(calls) if d.last <= c.begin)
              for c in calls]
    seen = set()
    todo = [(0, start)]
    while todo:
        told, value = todo.pop()
        if told & wanted == wanted:
            return True
        if (told, value) in seen:
            continue
        seen.add((told, value))
        for i, call in enumerate(calls):
            # finished calls that ended before it began come first
            if told >> i & 1 or before[i] & wanted & ~told:
                continue
            answer, after = call.on_plain_cell(value)
            if call.finished and answer != call.answer:
                continue
            # one that is not finished may no longer be told after it if it
            # had done its last step before
            todo.append((told | 1 << i | before[i], after))
    return False


def drawn_list(drawn, drops, adds=()):
    """An opening, and actions drawn for it."""
    n = drawn.pick((2, 2, 3, 3, 4, 6))
    v = drawn.between(1, 2)
    b = cells.least_blocks(n, v) + drawn.pick((0, 0, 1, 5))
    style = draw.Style(length=drawn.between(20, 120), hot_cells=v,
                       values=drawn.between(2, 4), burst=drawn.between(1, 7),
                       refusals=drawn.pick((0, 5)), halts=drawn.below(3),
                       runs_out=drawn.pick((0, 30)), drops=drawn.pick(drops),
                       adds=adds and drawn.pick(adds))
    values = [drawn.below(style.values) for _ in range(v)]
    opening = n, v, b, values
    return opening, draw.draw_actions(drawn, opened(opening), style)


def opened(opening):
    n, v, b, values = opening
    return cells.open_cells(n, v, b, [9] * (5 * b), values)


def text_of(opening, actions):
    return draw.text([draw.opening_line(*opening)] + draw.lines_of(actions))


class Lists:
    """The claims on lists, and what the lists came by."""

    def __init__(self):
        self.paths = Counter()
        self.patterns = {}
        self.halted = set()     # next lines of those left unfinished
        self.withdrawn = set()  # lines done last by those withdrawn
        self.needed_y_false = 0

    def judge(self, name, opening, actions):
        self.judge_printed(name, text_of(opening, actions))
        attempts_told_by_memory(opened(opening), actions)
        calls = Calls(opened(opening), actions).all
        for call in calls:
            self.judge_call(name, call)
        for cell, value in enumerate(opening[3]):
            check(name + "the telling of cell %d" % cell, can_be_told(
                [c for c in calls if c.cell == cell], value), True)

    def judge_printed(self, name, data):
        trace = session.Trace()
        pool_text = session.run(data, trace, ask_fit=True)
        check(name + "the figure with a new block each time", pool_text,
              session.run(data, open_cells=open_figure))
        for (_, finished, lines), tries in zip(trace.parts, trace.attempts):
            path = cells.path_of(lines)
            check(name + path, cells.counts_of(lines), cells.PATHS[path])
            check(name + path, (finished.steps, finished.won + finished.lost),
                  (cells.PATHS[path][0], cells.PATHS[path][3]))
            self.patterns.setdefault(attempts.call_key(finished, lines),
                                     set()).add(tries or "-")
        self.paths.update(trace.paths)
        self.halted.update(line for line, _ in trace.next_lines)
        self.withdrawn.update(lines[-1] if lines else None
                              for _, lines in trace.withdrawn)
        check(name + "questions 6 and 20",
              (trace.refusals[6], trace.refusals[20]), (0, 0))

    def judge_call(self, name, call):
        """"A read ends within 6 own steps with at most 1 hardware swap, a swap
        within 17 with at most 3", since change request 2 within 21; one that is
        not finished "has then done fewer steps than its kind's most"."""
        steps, hard = (21, 3) if call.is_unequal_swap() else (6, 1)
        check(name + "steps", call.steps <= steps - (not call.finished), True)
        check(name + "hardware swaps", call.hard <= hard, True)
        if call.makes_no_hardware_swap():
            check(name + "no hardware swap", call.hard, 0)
        self.needed_y_false += bool(call.needed_y_false())

    def judge_coverage(self, all_patterns):
        """What lists must come by, and what none does."""
        missing = set(cells.PATHS) - {cells.UNREACHED} - set(self.paths)
        check("paths not come by", missing, set())
        check(cells.UNREACHED, self.paths[cells.UNREACHED], 0)
        for key, found in self.patterns.items():
            check("patterns of %s %s %s that the search has not" % key,
                  found - set(attempts.PATTERNS[key].split(" ")), set())
        if all_patterns:
            check("lines of the fill that none halted at",
                  (cells.FILL_LINES | {30}) - self.halted, set())
            check("patterns not come by", attempts.joined(self.patterns),
                  attempts.PATTERNS)


def drawn_lists(count, drops=(0,), seed=2003):
    """Lists with these percents of drops, judged."""
    lists = Lists()
    drawn = draw.Draw(seed)
    for number in range(count):
        opening, actions = drawn_list(drawn, drops)
        name = "drawn list %d\n%s" % (number,
                                      text_of(opening, actions).decode())
        lists.judge(name, opening, actions)
    lists.judge_coverage(count >= 400)
    return lists


def tellings_are_judged():
    """can_be_told on lists known to have a telling, or none."""
    def call(begin, last, swap, answer, finished=True):
        c = Call(begin, ("swap", 0, 0, *swap) if swap else ("read", 0, 0))
        c.last, c.answer, c.finished = last, answer, finished
        return c

    first, second = (5, 7), (5, 9)
    for wanted, calls in (
            (True, [call(0, 9, first, True), call(1, 8, second, False)]),
            # "If a cell told two tasks that both had won it"
            (False, [call(0, 9, first, True), call(1, 8, second, True)]),
            (False, [call(0, 9, first, False), call(1, 8, second, False)]),
            (True, [call(0, 3, first, True), call(4, 8, None, 7)]),
            (False, [call(0, 3, first, True), call(4, 8, None, 5)]),
            (True, [call(0, 5, first, True), call(4, 8, None, 5)]),
            # an unfinished call may stand there, up to its last step
            (True, [call(0, 5, first, None, False), call(4, 8, None, 7)]),
            (True, [call(0, 5, first, None, False), call(4, 8, None, 5)]),
            (False, [call(0, 3, first, None, False), call(4, 6, None, 5),
                     call(7, 9, None, 7)]),
            (False, [call(0, 0, first, None, False), call(4, 8, None, 7)])):
        check("a telling", can_be_told(calls, 5), wanted)


def main():
    cases_from_the_paper()
    rates_two_ways()
    session_file_questions()
    question_13_two_ways(3000)
    tellings_are_judged()
    every_refusal_changes_nothing()
    unfit_states_are_refused()
    check("the fill's states", {name: fill_answers(cells, *state)
                                for name, state in FILLS.items()},
          {name: answers for name, answers in fills_by_the_papers()})
    every_block_is_used()
    check("won and lost in edited states",
          {name: attempt_answers(cells, *state)
           for name, state in ATTEMPTS.items()},
          dict(attempts_by_the_papers()))
    counts_are_kept()
    count = int(sys.argv[1]) if len(sys.argv) > 1 else 400
    lists = drawn_lists(count)
    check("Y is true after a drop alone", lists.needed_y_false, 0)
    print("selftest: P1 to P10 and %d drawn lists with %d calls agree"
          % (count, sum(lists.paths.values())))


if __name__ == "__main__":
    main()
