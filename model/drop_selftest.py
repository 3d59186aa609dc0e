#!/usr/bin/env python3
"""Self test of drops: what change request 12 says of the cells and of lists.

    drop_selftest.py [COUNT [SEED]]      (400 and 2012 if left out)

Sessions told by hand.  The entry in edited states: its questions, and that it
leaves the record idle with its other fields 0, the counts true and all else as it
was.  Then COUNT drawn lists with drops, each by every claim of selftest.py (the
figure with a new block each time, counts by path, bounds, the promise of no
hardware swap, a telling on plain cells) and of moments_selftest.py (the printed
order of moments).  And each list once more without drops: a task that is dropped
halts there, and its next calls are those of a task that had none; the answers and
the moments are the same.
"""

import sys

import cells
import draw
import moments
import moments_selftest
import reader
import selftest
import session
from cases_calls import P_START
from cases_drop import late_stores
from selftest import check

NONE = cells.NONE


# -------------------------------------------------------------------- by hand

def by_hand():
    """What sessions with drops print, told line by line from the papers."""
    # 1 to 8: lines 15 to 21 and the store.  The read's lines 10 to 12 are at 11 to
    # 13.  Then a swap finds Y true at its line 17, action 17; its steps are at 15
    # to 27, and both of its hardware swaps are won.
    told("a winner dropped after its store", [
        "(open 2 1 4 (5))", "(swap 0 0 5 7)", "(again 8 (step 0))", "(drop 0)",
        "(read 1 0)", "(again 3 (step 1))", "(swap 1 0 7 9)",
        "(again 13 (step 1))", "(drop 1)"],
        ["(done 1 read 0 7 3 0 0)", "(done 1 swap 0 yes 13 2 0)",
         "(no 28 11)", "(cell 0 9)", "(end 2 0 2 1000)"],
        ["(at 8 itself 0 swap 0 C4)", "(at 12 itself 1 read 0 R1)",
         "(at 27 itself 1 swap 0 C6)"])
    # P9's begin: task 0 sets C at 12, task 1 stores at 13 and is dropped.  Its
    # read decides at 20 for what it had stored; task 0 is at line 1.
    told("a late store decided by its own task", [
        *P_START, "(again 2 (step 0))", "(step 1)", "(drop 1)", "(read 1 0)",
        "(again 6 (step 1))"],
        ["(done 1 read 0 9 6 1 0)", "(cell 0 9)", "(end 1 1 1 1000)"],
        ["(at 12 itself 1 swap 0 C3)", "(at 20 itself 1 read 0 R2)"])
    # The same, but task 0 has loaded 5 at 13; the store at 14 is too late.  Task 0
    # decides at 16, takes a block and puts 7 there at 23.
    told("a late store that does not count", [
        *P_START, "(again 3 (step 0))", "(step 1)", "(drop 1)",
        "(again 8 (step 0))"],
        ["(done 0 swap 0 yes 13 2 0)", "(cell 0 7)", "(end 1 0 2 2000)"],
        ["(at 23 itself 0 swap 0 C6)"])
    # Undecided: look answers the value that a read would decide for.
    told("a late store that nobody decided", [
        *P_START, "(again 2 (step 0))", "(step 1)", "(drop 1)", "(drop 0)"],
        ["(cell 0 9)", "(end 0 0 0 0)"], [])


def told(name, lines, printed, listed):
    data = draw.text(lines)
    check(name, session.run(data, ask_fit=True).decode().split("\n")[:-1],
          printed)
    check(name, moments.run(data).decode().split("\n")[:-1], listed)


# ------------------------------------------------------------------ the entry

def drops_in_edited_states():
    """A drop at each line, in the states of selftest.COUNTS."""
    for name, state in selftest.COUNTS.items():
        model = selftest.count_state(cells, *state)
        before = selftest.everything(model)
        check(name, model.drop(0), None)
        check(name + ", idle", set(model.tasks[0].words()), {0})
        check(name + ", counts", model.counts,
              selftest.counts_by_reading(model) + [9] * 119)
        # all else is as it was: pool, cells, last taken, the other records
        after = selftest.everything(model)
        check(name + ", all else", (after[:3], after[4][1:]),
              (before[:3], before[4][1:]))


def drops_are_asked():
    """"A drop asks 6, 7 and 11."  20 is a step's."""
    for n, v in ((1, 1), (3, 2), (32, 16)):
        model = selftest.full_state(n, v, ())
        before = selftest.everything(model)
        for task in (n, n + 1, 255, 256, NONE):
            check("no task", model.drop(task), cells.Refused(7))
        check("nothing changed", selftest.everything(model), before)
        # the step at line 4 lacks a block until someone is dropped
        check("at 4", model.step(0), cells.Refused(20))
        check("every block is used", model.drop(n - 1), None)
        check("fit", model.is_fit(), True)
        before = selftest.everything(model)
        check("idle", model.drop(n - 1), cells.Refused(11))
        check("nothing changed", selftest.everything(model), before)
        check("at 4 again", model.step(0),
              cells.Refused(11) if n == 1 else None)
        model.counts[0] += 1
        check("unfit", (model.drop(0), model.drop(n)), (cells.Refused(6),) * 2)


# ------------------------------------------------------- lists without drops

class Halts:
    """A list's actions without its drops: "A task halts where the list has no
    further step of it", and another goes on in its place."""

    def __init__(self, opening, actions):
        n, v, b, values = opening
        model = selftest.opened(opening)
        self.first = list(range(n))  # of each task there, whose it is
        self.numbers = list(range(n))  # of each task here, who it is there
        self.actions = [self.instead(action, model.act(*action))
                        for action in actions]
        n = len(self.first)
        self.fits = n <= cells.MOST_TASKS
        self.opening = n, v, max(b, cells.least_blocks(n, v)), values

    def instead(self, action, result):
        """The action there; one that is refused in place of a drop and of a task
        that is none here."""
        word, task, *numbers = action
        if word == "drop" and result is None:
            self.numbers[task] = len(self.first)
            self.first.append(task)
        if word == "drop" or task >= len(self.numbers):
            return "step", NONE
        return word, self.numbers[task], *numbers

    def data(self):
        return selftest.text_of(self.opening, self.actions)

    def told_back(self, line, at):
        """A printed line with the task, its item of this number, as it is here."""
        items = line.split(" ")
        items[at] = "%d" % self.first[int(items[at])]
        return " ".join(items)


def lines_of(text, *words):
    return [line for line in text.decode().split("\n")
            if line.startswith(words)]


def in_order(lines):
    """Lines of moments by action, side and task."""
    def key(line):
        _, i, side, task, *_ = line.split(" ")
        return int(i), ("before", "itself", "after").index(side), int(task)
    return sorted(lines, key=key)


def same_without_drops(name, opening, actions):
    """Whether the list could be told without its drops, within 32 tasks."""
    halts = Halts(opening, actions)
    if not halts.fits:
        return False
    data, other = selftest.text_of(opening, actions), halts.data()
    printed, other_printed = session.run(data), session.run(other)
    check(name + "calls without drops", lines_of(printed, "(done"),
          [halts.told_back(line, 1)
           for line in lines_of(other_printed, "(done")])
    check(name + "cells without drops", lines_of(printed, "(cell"),
          lines_of(other_printed, "(cell"))
    check(name + "moments without drops",
          in_order(lines_of(moments.run(data), "(at")),
          in_order([halts.told_back(line, 3)
                    for line in lines_of(moments.run(other), "(at")]))
    judge_end(name, printed, other_printed, len(halts.first) - opening[0])
    return True


def judge_end(name, printed, other_printed, drops):
    """"The end line counts a withdrawn call neither as finished nor as
    unfinished": without drops it is unfinished."""
    (end,), (other,) = lines_of(printed, "(end"), lines_of(other_printed, "(end")
    items = end.split(" ")
    items[2] = "%d" % (int(items[2]) + drops)
    check(name + "end line without drops", " ".join(items), other)


# --------------------------------------------------------------------- drawn

DROPS = (3, 8, 15)


def drawn_list(drawn, number):
    if number % 3:
        return selftest.drawn_list(drawn, DROPS)
    lines = late_stores(drawn, drawn.pick((10, 25, 50)))
    opening, actions = reader.read_session(draw.text(lines))
    return ((*opening[:3], list(opening.values)),
            [(action.word, *action) for action in actions])


def drawn_lists(count, seed):
    """The lists judged, how many moments they have, how many lists could be told
    without drops."""
    lists = selftest.Lists()
    drawn = draw.Draw(seed)
    listed = alike = 0
    for number in range(count):
        opening, actions = drawn_list(drawn, number)
        data = selftest.text_of(opening, actions)
        name = "list %d of seed %d\n%s" % (number, seed, data.decode())
        lists.judge(name, opening, actions)
        listed += moments_selftest.judged(name, data)
        alike += same_without_drops(name, opening, actions)
    if count >= 400:
        lists.judge_coverage(False)
        judge_withdrawn(lists)
    return lists, listed, alike


def judge_withdrawn(lists):
    """Somebody was dropped after each line that does not end a call, and before
    the first; and Y false was needed."""
    ends = {(22, 0), (26, 0), (30, 0)}
    lines = {(line, 0) for line in cells.SWAP_LINES | cells.READ_LINES} - ends
    lines |= {(line, wanted) for line in (1, 2, 3) for wanted in (13, 25, 28)
              if (line, wanted) != (3, 13)}
    check("lines that none was dropped after",
          (lines | {None}) - lists.withdrawn, set())
    check("Y false was needed", lists.needed_y_false > 0, True)


def main():
    count, seed = (int(word) for word in (
        sys.argv[1:] + ["400", "2012"][len(sys.argv) - 1:])[:2])
    by_hand()
    drops_in_edited_states()
    drops_are_asked()
    lists, listed, alike = drawn_lists(count, seed)
    print("drop_selftest: %d drawn lists with drops, %d finished calls, %d calls "
          "listed agree; %d of them also without drops; Y alone made %d calls use "
          "hardware swaps" % (count, sum(lists.paths.values()), listed, alike,
                              lists.needed_y_false))


if __name__ == "__main__":
    main()
