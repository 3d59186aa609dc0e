#!/usr/bin/env python3
"""Writes the cases of the once-only cells: inputs, their names and what the
model prints.

    make_once_cases.py [FOLDER]    (FOLDER is ../crates/test_once if left out)

The layout is make_cases.py's; standard input has the eleven paths.  An input with a good end holds several lists,
one after another; each bad line has an input of its own, since nothing is
printed after it.  Everything is the same on every run.  Where a name promises
a refusal or a path, the case is checked to keep it.
"""

import draw
import make_cases
import once
from once import NONE
from once_lists import Script, Style, draw_list, form

MOST = once.MOST_NUMBER


class Cases(make_cases.Cases):
    def __init__(self):
        super().__init__(once)
        self.seen = once.Trace()

    def add(self, name, data):
        trace = super().add(name, data)
        self.seen.lists += trace.lists
        self.seen.refusals += trace.refusals
        self.seen.halted += trace.halted
        self.seen.calls += trace.calls
        return trace

    def scripts(self, name, scripts):
        """An input of several lists."""
        return self.add(name, [line for script in scripts
                               for line in script.lines])


# ------------------------------------------------------------------- paths

# Who takes how many steps in turn, after p, q and w have offered in this
# order; p's call makes the path.  An answer is its offerer's letter.
MEETINGS = [
    ("won_alone", "p", "p7"),
    ("won_alone", "p", "p1 q0 p6"),
    # the losers come between p's look at C and its store of D
    ("won_alone", "p", "p6 q8 p1"),
    ("won_alone", "p", "p6 q7 p1 q1"),
    ("won_alone", "p", "p6 q3 w8 p1 q5"),
    ("won_found", "p", "p5 q8 p2"),
    ("won_found", "q", "p4 q7 p3"),
    ("won_found", "q", "p4 q5 p1 w6 q1 p2"),
    ("won_found", "w", "p4 q5 w6 p3"),
    ("won_hard", "p", "p4 q3 p5 q3"),
    ("won_hard", "p", "p4 q5 p4 q2 p1"),
    # p's hardware swap comes too late
    ("won_hard", "q", "p4 q5 p3 q1 p2"),
    ("won_hard", "q", "p4 q4 w3 p3 q2 p2"),
    ("lost_at_y_none_found", "q", "w3 q7 p5"),
    ("lost_at_y_none_found", "w", "w3 q1 w6 p5"),
    ("lost_at_y_none_found", "q", "w4 q6 p5 w5"),
    ("lost_at_y_value_found", "w", "w7 p6"),
    ("lost_at_y_value_found", "w", "w5 q7 p6 w2"),
    # V and D differ: D is answered
    ("lost_at_y_value_found", "q", "w4 q7 w1 p6"),
    ("lost_at_y_value_found", "q", "w4 q5 w3 p5 q1 p1"),
    ("lost_at_y_none_hard", "p", "w3 p7"),
    ("lost_at_y_none_hard", "p", "w4 p6 w5 p1"),
    ("lost_at_y_none_hard", "q", "w3 p5 q7 p2"),
    ("lost_at_y_none_hard", "w", "w4 p5 w5 p2"),
    ("lost_at_y_value_hard", "w", "w5 p8"),
    ("lost_at_y_value_hard", "w", "w6 p8 w1"),
    ("lost_at_y_value_hard", "w", "w6 p6 w1 p2"),
    ("lost_at_y_value_hard", "q", "w4 q5 w1 p6 q1 p2"),
    ("lost_at_x_none_found", "q", "p3 q7 p4"),
    ("lost_at_x_none_found", "w", "p3 q4 w6 q2 p4"),
    ("lost_at_x_value_found", "w", "p1 w2 p1 w5 p6"),
    ("lost_at_x_value_found", "w", "p2 w6 p4 w1 p2"),
    ("lost_at_x_value_found", "q", "p2 w4 q7 w1 p6"),
    ("lost_at_x_none_hard", "p", "p3 q1 p6 q4"),
    ("lost_at_x_none_hard", "p", "p2 q2 w1 p7"),
    ("lost_at_x_none_hard", "q", "p3 q5 p4 q1 p2"),
    ("lost_at_x_value_hard", "w", "p1 w2 p1 w3 p8"),
    ("lost_at_x_value_hard", "w", "p2 w6 p6 w1 p2"),
    ("lost_at_x_value_hard", "q", "p2 w4 q5 w1 p6 q1 p2"),
]

# Tasks p, q, w and the one that comes late; the cell; N and V; their values.
PLACES = [
    ((0, 1, 2, 3), 0, 4, 1, (5, 6, 7, 8)),
    ((3, 2, 0, 1), 1, 4, 2, (0, 1, 2, 3)),
    ((31, 0, 30, 1), 15, 32, 16, (NONE - 1, 0, NONE - 2, 255)),
    ((8, 16, 24, 0), 8, 25, 9, (256, 65536, 65535, 1)),
]


def meet(turns, place, halt=10):
    """The list of a meeting at this place.  With halt, p does no more steps
    than these; the others go on as far as their calls go, and run out."""
    (p, q, w, late), cell, n, v, values = place
    script = Script(n, v)
    tasks = dict(p=p, q=q, w=w)
    for task, value in zip(tasks.values(), values):
        script.offer(task, cell, value)
    left = halt
    for turn in turns.split(" "):
        count = int(turn[1:])
        if turn[0] == "p":
            count = min(count, left)
            left -= count
        script.steps(tasks[turn[0]], count)
    for task in (p, q, w)[halt < 10:]:
        script.out(task)
    script.offer(late, cell, values[3]).out(late)
    return script


def path_cases(cases):
    """Every path, at several places, with what follows on it."""
    for place in PLACES:
        (p, _, _, late), cell, _, _, values = place
        for path in once.PATHS:
            scripts = []
            for wanted, answer, turns in MEETINGS:
                if wanted != path:
                    continue
                script = meet(turns, place)
                for task in (p, late):
                    script.refused(11, "step", task)
                    script.refused(16, "offer", task, cell, 5)
                trace = once.Trace()
                once.run(draw.text(script.lines), trace)
                (_, done, lines), = (c for c in trace.calls if c[0] == p)
                assert once.path_of(lines) == path, (turns, lines)
                assert done.answer == values["pqw".index(answer)], turns
                scripts.append(script)
            cases.scripts("path_%s_t%d_k%d" % (path, p, cell), scripts)


def halt_cases(cases):
    """In each path's meetings p halts for good after each number of steps."""
    for path, (steps, _) in once.PATHS.items():
        scripts = []
        for wanted, _, turns in MEETINGS:
            if wanted == path:
                scripts += [meet(turns, PLACES[0], halt)
                            for halt in range(steps)]
        cases.scripts("halt_" + path, scripts)
    assert set(cases.seen.halted) == set(once.LINES)


def pair_cases(cases):
    """Two tasks: one takes a steps, the other b, then each runs out."""
    for first in (0, 1):
        scripts = []
        for a in range(7):
            for b in range(10):
                script = Script(2, 1).offer(0, 0, 5).offer(1, 0, 6)
                script.step(0, a).steps(1, b).out(first).out(1 - first)
                scripts.append(script)
        cases.scripts("pair_%d_out_first" % first, scripts)


# --------------------------------------------------------------- refusals

def open_cases(cases):
    def refused(number, n, v):
        """A refused open, and lines that are skipped."""
        lines = [form("open", n, v), "(offer 0 0 5)", "(step 0)", "(step 99)",
                 "(offer 99 99 4294967295)"]
        assert once.run(draw.text(lines)) == b"(no 0 %d)\n" % number
        return lines

    cases.add("open_refused_01", sum((
        refused(1, n, v) for n in (0, 33, 255, 256, 257, 65537, MOST)
        for v in (1, 16)), []))
    cases.add("open_refused_02", sum((
        refused(2, n, v) for n in (1, 32)
        for v in (0, 17, 255, 256, 257, 65537, MOST)), []))
    cases.add("open_refused_01_before_02", sum((
        refused(1, n, v) for n in (0, 33, MOST) for v in (0, 17, MOST)), []))

    # N and V at their limits: the last task and cell, and those after them
    scripts = []
    for n, v in ((1, 1), (1, 16), (2, 15), (31, 1), (31, 16), (32, 1),
                 (32, 15), (32, 16)):
        script = Script(n, v).offer(n - 1, v - 1, 9)
        script.refused(7, "offer", n, v - 1, 9).refused(7, "step", n)
        if n > 1:
            script.refused(8, "offer", 0, v, 9)
        scripts.append(script.out(n - 1).refused(8, "offer", n - 1, v, 9))
    cases.scripts("open_edges", scripts)

    good = ["(open 2 1)", "(offer 0 0 5)"] + ["(step 0)"] * 4
    rest = ["(step 0)"] * 3
    again = ["(offer 0 0 6)"] + ["(step 0)"] * 7
    cases.add("open_only", ["(open 1 1)"])
    cases.add("open_refused_only", ["(open 0 1)"])
    cases.add("open_twice", ["(open 1 1)"] * 2)
    cases.add("open_refused_twice", ["(open 0 1)"] * 2)
    # each open starts a new list: nobody is busy, nothing is offered
    cases.add("open_anew", good + ["(open 2 1)"] + rest + again)
    cases.add("open_anew_same_task", good + rest + ["(open 2 1)"] + again
              + ["(offer 1 0 7)"] + ["(step 1)"] * 6)
    cases.add("open_anew_smaller", ["(open 32 16)"] + good[1:]
              + ["(open 1 1)", "(step 1)", "(offer 0 1 5)"] + again)
    cases.add("open_anew_larger", good + ["(open 32 16)", "(offer 31 15 8)"]
              + ["(step 31)"] * 7)
    # a refused open ends the list before it
    cases.add("open_refused_between", good + ["(open 0 1)"] + rest
              + ["(step 7)", "(open 2 1)"] + rest + again)
    cases.add("open_refused_after", good + ["(open 33 1)"] + rest + again)
    cases.add("open_refused_counts_anew", good + ["(step 1)", "(open 1 17)",
              "(step 1)", "(open 2 2)", "(step 1)", "(step 1)"])
    cases.add("open_refused_one_after_another", [
        "(open 0 1)", "(step 0)", "(open 1 0)", "(step 0)", "(open 33 17)",
        "(step 0)"] + good + rest)


def refusal_cases(cases):
    def ran_out(n=2, v=2, cell=0):
        return Script(n, v).offer(0, cell, 5).out(0)

    def busy(n=2, v=2, cell=0):
        return Script(n, v).offer(0, cell, 5).step(0, 3)

    wrong = (2, 3, 31, 32, 33, 34, 64, 255, 256, 257, 65536, 65537,
             2 ** 31, MOST - 1, MOST)

    # each question alone, and that the list goes on as if nothing were asked
    script = busy()
    for task in wrong:
        script.refused(7, "offer", task, 0, 5).refused(7, "step", task)
    cases.scripts("refused_07", [script.out(0)])

    script = busy()
    for cell in wrong:
        script.refused(8, "offer", 1, cell, 5)
    cases.scripts("refused_08", [script.out(0)])

    scripts = []
    for steps in range(7):
        script = Script(2, 3).offer(0, 0, 5).step(0, steps)
        script.refused(9, "offer", 0, 1, 5).refused(9, "offer", 0, 2, 6)
        # a refused offer is none: the cells stay open to the task
        scripts.append(script.out(0).offer(0, 1, 6).out(0)
                       .offer(0, 2, 7).out(0))
    cases.scripts("refused_09", scripts)

    scripts = []
    for value in (5, 6, 0, NONE - 1):
        scripts.append(ran_out().refused(16, "offer", 0, 0, value)
                       .refused(11, "step", 0).offer(0, 1, value).out(0)
                       .refused(16, "offer", 0, 0, value)
                       .refused(16, "offer", 0, 1, value))
    # having lost, too; and the other task is not kept out
    scripts.append(ran_out().offer(1, 0, 6).out(1)
                   .refused(16, "offer", 1, 0, 6)
                   .refused(16, "offer", 0, 0, 6)
                   .refused(16, "offer", 1, 0, 5))
    cases.scripts("refused_16", scripts)

    scripts = [Script(2, 2).refused(10, "offer", task, cell, NONE)
               .refused(11, "step", task).offer(task, cell, NONE - 1)
               .out(task).refused(16, "offer", task, cell, 5)
               for task in (0, 1) for cell in (0, 1)]
    cases.scripts("refused_10", scripts)

    scripts = [Script(2, 1).refused(11, "step", 0).refused(11, "step", 1)
               .offer(1, 0, 5).refused(11, "step", 0).out(1)
               .refused(11, "step", 1).refused(11, "step", 0)]
    cases.scripts("refused_11", scripts)

    # two and more wrong: the earlier question's number
    def orders(name, *scripts):
        cases.scripts("refused_%s" % name, scripts)

    orders("07_before_08", busy().refused(7, "offer", 2, 2, 5)
           .refused(7, "offer", MOST, MOST, 5).out(0))
    orders("07_before_10", busy().refused(7, "offer", 2, 0, NONE)
           .refused(7, "offer", 2, 2, NONE).out(0))
    orders("07_before_11", busy().refused(7, "step", 2)
           .refused(7, "step", 32).out(0).refused(7, "step", 2))
    orders("08_before_09", busy().refused(8, "offer", 0, 2, 5)
           .refused(8, "offer", 0, 16, 5).out(0))
    orders("08_before_10", busy().refused(8, "offer", 1, 2, NONE)
           .refused(8, "offer", 0, 2, NONE).out(0))
    # busy on the cell it offers to: "checked directly after 9"
    orders("09_before_16", busy().refused(9, "offer", 0, 0, 5)
           .refused(9, "offer", 0, 0, 6).out(0)
           .refused(16, "offer", 0, 0, 6))
    # busy on cell 1, has offered on cell 0 before
    orders("09_before_16_other_cell", ran_out().offer(0, 1, 6)
           .refused(9, "offer", 0, 0, 7).step(0, 3)
           .refused(9, "offer", 0, 0, 7).out(0)
           .refused(16, "offer", 0, 0, 7))
    orders("09_before_10", busy().refused(9, "offer", 0, 1, NONE).out(0)
           .offer(0, 1, 6).out(0))
    orders("09_before_16_and_10", busy().refused(9, "offer", 0, 0, NONE)
           .out(0))
    orders("16_before_10", ran_out().refused(16, "offer", 0, 0, NONE)
           .refused(10, "offer", 0, 1, NONE)
           .refused(10, "offer", 1, 0, NONE)
           .refused(16, "offer", 0, 0, NONE))

    # a list of many actions: i grows past 255 and 1,000
    script = Script(1, 1)
    for _ in range(1100):
        script.refused(11, "step", 0)
    cases.scripts("refused_1100_times", [script])


def offered_cases(cases):
    """Who has offered is kept for each cell and each task."""
    script = Script(32, 16)
    for cell in range(16):
        script.offer(31, cell, 100 + cell).out(31)
    for cell in range(16):
        script.refused(16, "offer", 31, cell, 5)
        script.offer(0, cell, 200 + cell).out(0)
        script.refused(16, "offer", 0, cell, 5)
    cases.scripts("offered_on_every_cell", [script])

    script = Script(32, 2)
    for task in range(32):
        script.offer(task, 1, 100 + task).out(task)
        script.refused(16, "offer", task, 1, 5)
    for task in reversed(range(32)):
        script.offer(task, 0, 200 + task).out(task)
        script.refused(16, "offer", task, 0, 5)
        script.refused(16, "offer", task, 1, 5)
    cases.scripts("offered_by_every_task", [script])

    # cells keep apart: contention on one leaves the next alone
    script = Script(4, 3)
    script.offer(0, 0, 5).offer(1, 0, 6).offer(2, 1, 7).offer(3, 2, 8)
    script.step(0, 3).step(1, 3).step(2, 3).step(3, 6)
    script.out(1).out(0).out(2).out(3)
    script.offer(2, 0, 1).out(2).offer(3, 1, 2).out(3).offer(0, 2, 3).out(0)
    cases.scripts("offered_on_three_cells_at_once", [script])

    # halted, a task has offered and is busy
    script = Script(2, 2).offer(0, 0, 5)
    script.offer(1, 0, 6).out(1).offer(1, 1, 7).out(1)
    script.refused(9, "offer", 0, 0, 5).refused(9, "offer", 0, 1, 5)
    cases.scripts("offered_and_halted", [script])

    # offers alone are seen by nobody: the first to step wins
    script = Script(3, 1).offer(0, 0, 5).offer(1, 0, 6).offer(2, 0, 7)
    cases.scripts("offered_before_a_step", [script.out(2).out(0).out(1)])


# ------------------------------------------------------------- many tasks

def many_cases(cases):
    orders = {
        "up": list(range(32)),
        "down": list(reversed(range(32))),
        "mixed": [13 * task % 32 for task in range(32)],
    }
    # 32 tasks on one cell, each taking `burst` steps in turn
    for name, order in orders.items():
        scripts = []
        for burst in (1, 2, 3, 5, 10):
            script = Script(32, 16)
            for task in order:
                script.offer(task, 7, 1000 + task)
            while any(map(script.busy, order)):
                for task in order:
                    script.steps(task, burst)
            scripts.append(script)
        cases.scripts("many_on_one_cell_" + name, scripts)

    # 32 tasks on 16 cells, each on every cell
    for seed, burst, alone in ((1, 2, 0), (2, 6, 10)):
        style = Style(length=6000, cells=16, values=1 << 20, burst=burst,
                      alone=alone)
        script = draw_list(draw.Draw(1600 + seed), 32, 16, style)
        trace = cases.scripts("many_on_every_cell_%d" % seed, [script])
        assert len(trace.calls) == 32 * 16

    # two on each cell, in turn
    script = Script(32, 16)
    for task in range(32):
        script.offer(task, task % 16, 1 + task)
    for task in list(range(32)) * 10:
        script.steps(task, 1)
    cases.scripts("many_in_pairs", [script])


def drawn_cases(cases):
    drawn = draw.Draw(101)
    for number in range(16):
        scripts = []
        for _ in range(6):
            n = drawn.pick((2, 3, 3, 4, 5, 8, 16, 32))
            v = drawn.pick((1, 2, 3, 16))
            style = Style(
                length=drawn.between(40, 160), cells=drawn.between(1, v),
                values=drawn.pick((2, 4, 1 << 31)),
                burst=drawn.pick((1, 2, 3, 6)), idle=drawn.pick((5, 20, 60)),
                alone=drawn.pick((0, 0, 30)),
                refusals=drawn.pick((0, 10, 30)), halts=drawn.below(4))
            scripts.append(draw_list(drawn, n, v, style))
        cases.scripts("drawn_%02d" % number, scripts)


# -------------------------------------------------------------- bad lines

# Lines that are none of the forms.
BAD_LINES = {
    "empty": b"",
    "space": b" ",
    "brackets": b"()",
    "brackets_space": b"( )",
    "trailing_space": b"(step 0) ",
    "leading_space": b" (step 0)",
    "space_after_bracket": b"( step 0)",
    "space_before_bracket": b"(step 0 )",
    "two_spaces": b"(step  0)",
    "two_spaces_in_offer": b"(offer 0  0 5)",
    "two_spaces_at_last": b"(offer 0 0  5)",
    "two_spaces_in_open": b"(open 2  1)",
    "no_space": b"(step0)",
    "no_space_in_open": b"(open2 1)",
    "tab": b"(step\t0)",
    "tab_after": b"(step 0)\t",
    "carriage_return": b"(step 0)\r",
    "carriage_return_alone": b"\r",
    "carriage_return_in_open": b"(open 2 1)\r",
    "form_feed": b"(step 0)\x0c",
    "zero_byte": b"(step 0)\x00",
    "zero_byte_in_number": b"(step \x00)",
    "high_byte": b"(step 0)\xff",
    "superscript": b"(step \xb2)",
    "arabic_digit": "(step \u0660)".encode(),
    "leading_zero": b"(step 00)",
    "leading_zero_of_1": b"(step 01)",
    "leading_zero_task": b"(offer 00 0 5)",
    "leading_zero_cell": b"(offer 0 00 5)",
    "leading_zero_value": b"(offer 0 0 05)",
    "leading_zero_n": b"(open 02 1)",
    "leading_zero_v": b"(open 2 01)",
    "leading_zeros_many": b"(step " + b"0" * 40 + b")",
    "large_step": b"(step 4294967296)",
    "large_task": b"(offer 4294967296 0 5)",
    "large_cell": b"(offer 0 4294967296 5)",
    "large_value": b"(offer 0 0 4294967296)",
    "large_n": b"(open 4294967298 1)",
    "large_v": b"(open 2 4294967297)",
    "large_one_digit_more": b"(step 42949672950)",
    "large_ten_digits": b"(step 9999999999)",
    "large_64_bits": b"(step 18446744073709551615)",
    "large_64_bits_and_1": b"(step 18446744073709551616)",
    "large_wraps_at_64_bits": b"(offer 0 0 18446744073709551621)",
    "large_thousand_digits": b"(step 1" + b"0" * 1000 + b")",
    "minus": b"(step -1)",
    "minus_0": b"(step -0)",
    "plus": b"(step +0)",
    "hexadecimal": b"(step 0x0)",
    "letter": b"(step a)",
    "letter_after": b"(step 0a)",
    "letter_before": b"(step a0)",
    "point": b"(step 0.0)",
    "comma": b"(offer 0 0 1,000)",
    "underscore": b"(offer 0 0 1_000)",
    "slash": b"(step /)",
    "colon": b"(step :)",
    "none": b"(offer 0 0 none)",
    "quoted": b'(step "0")',
    "few_step": b"(step)",
    "few_step_space": b"(step )",
    "few_offer": b"(offer 0 0)",
    "few_offer_1": b"(offer 0)",
    "few_offer_0": b"(offer)",
    "few_open": b"(open 2)",
    "few_open_0": b"(open)",
    "many_step": b"(step 0 0)",
    "many_offer": b"(offer 0 0 5 6)",
    "many_open": b"(open 2 1 5)",
    "open_of_cells": b"(open 2 1 5 (5))",
    "open_with_a_list": b"(open 2 1 ())",
    "nested_number": b"(step (0))",
    "nested_form": b"((step 0))",
    "nested_numbers": b"(offer (0 0 5))",
    "nested_word": b"((step) 0)",
    "no_closing": b"(step 0",
    "no_opening": b"step 0)",
    "no_brackets": b"step 0",
    "closing_twice": b"(step 0))",
    "opening_twice": b"((step 0)",
    "two_forms": b"(step 0)(step 0)",
    "two_forms_space": b"(step 0) (step 0)",
    "square_brackets": b"[step 0]",
    "word_capital": b"(Step 0)",
    "word_capitals": b"(OFFER 0 0 5)",
    "word_cut": b"(ste 0)",
    "word_longer": b"(steps 0)",
    "word_offers": b"(offers 0 0 5)",
    "word_offe": b"(offe 0 0 5)",
    "word_opens": b"(opens 2 1)",
    "word_ope": b"(ope 2 1)",
    "word_only": b"step",
    "word_none": b"(0)",
    "word_after": b"(0 step)",
    "word_number": b"(0 0 5)",
    "word_swapped_items": b"(step 0 0 5)",
    "word_offer_as_step": b"(offer 0)",
    "word_open_as_offer": b"(open 0 0 5)",
    "word_read": b"(read 0 0)",
    "word_swap": b"(swap 0 0 5 6)",
    "word_again": b"(again 1 (step 0))",
    "word_again_0": b"(again 0 (step 0))",
    "word_drop": b"(drop 0)",
    "word_look": b"(look 0)",
    "word_propose": b"(propose 0 0 5)",
    "word_done": b"(done 0 0 5 7 0)",
    "word_no": b"(no 0 11)",
    "word_bad": b"(bad 14)",
    "comment": b"; (step 0)",
    "comment_after": b"(step 0);",
    "very_long": b"(step 0" + b" 0" * 5000 + b")",
}


def bad_cases(cases):
    def bad(name, data, before=b""):
        trace = cases.add("bad_" + name, data)
        assert cases.prints["bad_" + name] == before + b"(bad 14)\n", name
        assert trace.refusals[14] == 1

    # a bad line after a printed one; whatever follows is not looked at
    for name, line in BAD_LINES.items():
        bad(name, b"(open 2 1)\n(step 0)\n" + line
            + b"\n(step 0)\n(open 0 1)\n", b"(no 0 11)\n")

    # the first line
    bad("first_offer", b"(offer 0 0 5)\n(open 2 1)\n(step 0)\n")
    bad("first_step", b"(step 0)\n(open 2 1)\n(step 0)\n")
    bad("first_step_only", b"(step 0)\n")
    bad("first_empty", b"\n(open 2 1)\n(step 0)\n")
    bad("first_empty_only", b"\n")
    bad("first_empty_only_twice", b"\n\n")
    bad("first_mark", b"\xef\xbb\xbf(open 2 1)\n(step 0)\n")
    bad("first_open_of_cells", b"(open 2 1 5 (5))\n(step 0)\n")
    bad("first_open_leading_zero", b"(open 02 1)\n(step 0)\n")
    bad("first_open_large", b"(open 4294967297 1)\n(step 0)\n")
    bad("first_open_refused_and_bad", b"(open 0 00)\n(step 0)\n")
    bad("first_bad_alone", b"(\n")

    # the last line's end
    bad("end_open_only", b"(open 2 1)")
    bad("end_bracket_only", b"(")
    bad("end_space_only", b" ")
    bad("end_open", b"(open 2 1)\n(step 0)\n(open 0 1)", b"(no 0 11)\n")
    bad("end_step", b"(open 2 1)\n(step 0)\n(step 1)", b"(no 0 11)\n")
    bad("end_offer", b"(open 2 1)\n(step 0)\n(offer 9 9 9)", b"(no 0 11)\n")
    bad("end_half_a_line", b"(open 2 1)\n(step 0)\n(st", b"(no 0 11)\n")
    bad("end_space", b"(open 2 1)\n(step 0)\n ", b"(no 0 11)\n")
    bad("end_carriage_return", b"(open 2 1)\n(step 0)\r", b"")
    bad("end_return_for_line_feed", b"(open 2 1)\r(step 0)\r", b"")
    bad("end_done", draw.text(["(open 1 1)", "(offer 0 0 5)"]
                              + ["(step 0)"] * 7)[:-1])
    bad("end_empty_line", b"(open 2 1)\n(step 0)\n\n", b"(no 0 11)\n")

    # "lines up to the next open are skipped", bad ones not
    for name in ("empty", "trailing_space", "leading_zero", "large_step",
                 "few_offer", "many_open", "word_read", "nested_form",
                 "carriage_return", "two_forms"):
        bad("while_skipping_" + name, b"(open 33 1)\n(step 0)\n"
            + BAD_LINES[name] + b"\n(open 2 1)\n(step 0)\n", b"(no 0 1)\n")
    bad("while_skipping_end", b"(open 1 17)\n(step 0)\n(step 0)",
        b"(no 0 2)\n")
    bad("directly_after_refused_open", b"(open 0 1)\n(open 1)\n(open 2 0)\n",
        b"(no 0 1)\n")

    # after finished calls and several lists
    call = ["(open 1 1)", "(offer 0 0 5)"] + ["(step 0)"] * 7
    bad("after_lists", draw.text(call + ["(open 0 1)"] + call
                                 + ["(step 00)"] + call),
        b"(done 0 0 5 7 0)\n(no 0 1)\n(done 0 0 5 7 0)\n")
    bad("within_a_call", draw.text(call[:4] + ["(step 1"] + call[4:]))


def good_forms(cases):
    """What stands next to the bad lines."""
    cases.add("empty", b"")
    cases.add("numbers_most", [form("open", 1, 1), form("step", MOST),
                               form("offer", MOST, MOST, MOST),
                               form("offer", 0, MOST, MOST),
                               form("offer", 0, 0, MOST),
                               form("offer", 0, 0, MOST - 1)]
              + ["(step 0)"] * 7 + [form("open", MOST, MOST),
                                    form("open", 1, MOST)])
    cases.add("numbers_by_digits", sum((
        [form("open", 1, 1), form("offer", 0, 0, value)] + ["(step 0)"] * 7
        for value in [0] + [int("1234567890"[:n]) for n in range(1, 11)]
        + [10 ** n for n in range(1, 10)]), []))


def skipped(size):
    """Lines of so many bytes together, of every length that a form may have."""
    lines = []
    digits = 0
    while size > 100:
        digits = digits % 10 + 1
        number = str(MOST)[:digits]
        for line in (form("step", number), form("offer", *[number] * 3)):
            lines.append(line)
            size -= len(line) + 1
    while size:
        length = size if size <= 18 else min(18, size - 9)
        lines.append(form("step", str(MOST)[:length - 8]))
        size -= length
    return lines


def length_cases(cases):
    """Inputs of so many bytes, since there is no limit: lines that are skipped,
    and then a call; the shorter ones also without the last line's end."""
    refused = ["(open 0 1)"]
    call = ["(open 1 1)", "(offer 0 0 5)"] + ["(step 0)"] * 7
    for size in (4095, 4096, 4097, 65536, 100000):
        lines = skipped(size - len(draw.text(refused + call)))
        data = draw.text(refused + lines + call)
        assert len(data) == size
        cases.add("bytes_%d" % size, data)
        if size < 5000:
            cases.add("bytes_%d_without_end" % (size - 1), data[:-1])


def make():
    cases = Cases()
    path_cases(cases)
    halt_cases(cases)
    pair_cases(cases)
    open_cases(cases)
    refusal_cases(cases)
    offered_cases(cases)
    many_cases(cases)
    drawn_cases(cases)
    good_forms(cases)
    length_cases(cases)
    bad_cases(cases)
    assert set(cases.seen.refusals) == {1, 2, 7, 8, 9, 16, 10, 11, 14}
    assert set(cases.seen.paths()) == set(once.PATHS)
    cases.stdin = b"".join(cases.files["path_%s_t0_k0" % path]
                           for path in once.PATHS)
    return cases


def main():
    cases = make()
    make_cases.main(cases, "test_once")
    print("%d lists, %d finished calls, %d refusals" % (
        cases.seen.lists, len(cases.seen.calls),
        sum(cases.seen.refusals.values())))


if __name__ == "__main__":
    main()
