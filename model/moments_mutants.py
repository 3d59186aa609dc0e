#!/usr/bin/env python3
"""How telling the cases of moments are: wrong readings of change request 8 and
of the source's section 5, each one edit of moments.py, must print something else
for at least one case.

Prints for each wrong reading who tells it (with -a, how many do), and ends with
1 if some reading is told by none.

That a swap that changes its cell comes first at one action and side shows in no
session: it is alone there (moments_selftest.py asks it of every drawn session).
What shows is that it comes before those that are after it.
"""

import sys

import make_moments_cases
import mutants

R1 = "return o.at[11]"
R2_IF = "if history.decided[o.block] < o.at[10]:"
R2_LINE = """        return o.at[10]
"""
R2_DECISION = "    return history.decided[o.block]\n"
C1_READ = 'return Mark(o, read_point(history, o), ITSELF, "C1")'
C2 = "return Mark(o, o.at[20], ITSELF, rule)"
ACTIVE = "return o.at[23] < history.inactive[o.block]"
C3_EARLY = """        if is_active_at_23(history, o):
            # "C3,"""
C3_LATE = "return Mark(o, history.inactive[o.block], ITSELF, rule)"
C4 = """        # "C4: Linearize to o.23."
        return Mark(o, o.at[23], ITSELF, rule)"""
C5_IF = "if history.decided[o.block] < o.at[15]:"
C5_LINE = "return Mark(o, o.at[15], ITSELF, rule)"
C5_DECISION = "return Mark(o, history.decided[o.block], ITSELF, rule)"
C6_YES = "return Mark(o, o.at[30], ITSELF, rule)"
C6_NO = "return Mark(o, replaced, AFTER, rule)"
NOT_STORED = """    if 23 not in o.at:
        return None
"""
LEFT_C4 = """    if is_active_at_23(history, o):
        # "if it stored"""
LEFT_C4_MARK = 'return Mark(o, o.at[23], ITSELF, "C4")'
LEFT_C3_IF = """    if o.block in history.decided and (
            history.decided_value(o.block) == o.new):
"""
LEFT_C3 = 'return Mark(o, history.inactive[o.block], ITSELF, "C3")'
LEFT_OUT = """    # "no other unfinished call is listed."
    return None"""
KEY = """return (self.moment, self.side, not self.changes_its_cell(),
                self.call.task)"""
LINE = """(at %d %s %d %s %d %s)\\n" % (
            self.moment, SIDES[self.side], self.call.task, self.call.word,
            self.call.cell, self.rule)"""
NEW_BLOCK = """        self.pool.extend([0] * cells.WORDS)
        return len(self.pool) // cells.WORDS - 1
"""
NOTE = """                if is_now and not was:
                    event[call.block] = i
"""
EACH = "for i, action in enumerate(actions):"
DROP = "result = self.figure.drop(task)"
DROPPED = "self.under_way.pop(task).drop = i"
BEGUN = "        self.under_way[task] = call"
PRINTED = 'return "".join(mark.line() for mark in trace.marks).encode("ascii")'


def left_out(condition, moment, rule):
    """An unfinished call of this condition is listed after all."""
    return (LEFT_OUT, LEFT_OUT.replace(
        "return None", "if %s:\n        return Mark(o, %s, ITSELF, %s)\n"
        "    return None" % (condition, moment, rule)))


def not_stored(condition, moment, rule):
    """One that has not stored is listed if it is of this condition."""
    return (NOT_STORED, NOT_STORED.replace(
        "        return None", "        if %s:\n            return Mark(o, %s,"
        " ITSELF, %s)\n        return None" % (condition, moment, rule)))


# What is misread; the text replaced; the text put there.
MISREADINGS = [
    # reads, and the reads that swaps become
    ("R1 at line 10", R1, "return o.at[10]"),
    ("R1 at line 12", R1, "return o.at[12]"),
    ("R2 always at the decision", R2_IF, "if False:"),
    ("R2 always at line 10", R2_IF, "if True:"),
    ("R2 at line 10 if the block was inactive then", R2_IF,
     "if history.inactive[o.block] < o.at[10]:"),
    ("R2 at line 11 if the block was decided by then", R2_LINE,
     R2_LINE.replace("10", "11")),
    ("R2 at its own deciding", R2_DECISION, "    return o.at[2]\n"),
    ("R2 at its last step", R2_DECISION, "    return o.at[3]\n"),
    ("R2 when the block was made inactive", R2_DECISION,
     "    return max(o.at[10], history.inactive[o.block])\n"),
    ("C1 at its begin", C1_READ, 'return Mark(o, o.begin, ITSELF, "C1")'),
    ("C1 always at line 10", C1_READ, 'return Mark(o, o.at[10], ITSELF, "C1")'),
    ("C1 always at line 11", C1_READ, 'return Mark(o, o.at[11], ITSELF, "C1")'),
    ("C1 always at its last step", C1_READ,
     'return Mark(o, max(o.at.values()), ITSELF, "C1")'),
    ("C1 has its read's label", C1_READ,
     "return Mark(o, read_point(history, o), ITSELF, LABELS[o.last])"),
    ("a swap that becomes a read is named one", LINE,
     LINE.replace("self.call.word", "cells.READ if 10 in self.call.at else"
                  " self.call.word")),
    # swaps
    ("C2 at line 15", C2, C2.replace("20", "15")),
    ("C2 at line 21", C2, C2.replace("20", "21")),
    ("C2 at line 22", C2, C2.replace("20", "22")),
    ("late C3 at its store", C3_LATE, C3_LATE.replace(
        "history.inactive[o.block]", "o.at[23]")),
    ("late C3 at the decision", C3_LATE, C3_LATE.replace("inactive", "decided")),
    ("late C3 at line 24", C3_LATE, C3_LATE.replace(
        "history.inactive[o.block]", "o.at[24]")),
    ("C3 always where C was set", C3_EARLY,
     C3_EARLY.replace("is_active_at_23(history, o)", "False")),
    ("C3 of an active block is C4", """        if is_active_at_23(history, o):
            # "C3, o.b is active at o.23: Linearize to o.23."
            return Mark(o, o.at[23], ITSELF, rule)""",
     """        if is_active_at_23(history, o):
            return Mark(o, o.at[23], ITSELF, "C4")"""),
    ("C4 at line 24", C4, C4.replace("at[23]", "at[24]")),
    ("C4 at line 26", C4, C4.replace("at[23]", "at[26]")),
    ("C4 at line 20", C4, C4.replace("at[23]", "at[20]")),
    ("C5 always at the decision", C5_IF, "if False:"),
    ("C5 always at line 15", C5_IF, "if True:"),
    ("C5 at line 15 if the block was inactive then", C5_IF,
     "if history.inactive[o.block] < o.at[15]:"),
    ("C5 at its own deciding", C5_DECISION,
     C5_DECISION.replace("history.decided[o.block]", "o.at[2]")),
    ("C5 at its last step", C5_DECISION,
     C5_DECISION.replace("history.decided[o.block]", "o.at[3]")),
    ("C5 when the block was made inactive", C5_DECISION, C5_DECISION.replace(
        "history.decided[o.block]",
        "max(o.at[15], history.inactive[o.block])")),
    ("C5 at line 16 if the block was decided by then", C5_LINE,
     C5_LINE.replace("15", "16")),
    ("C6 yes when it took its block", C6_YES, C6_YES.replace("30", "4")),
    ("C6 yes after itself", C6_YES, C6_YES.replace("ITSELF", "AFTER")),
    ("C6 no before the replacement", C6_NO, C6_NO.replace("AFTER", "BEFORE")),
    ("C6 no at the replacement itself", C6_NO, C6_NO.replace("AFTER",
                                                             "ITSELF")),
    ("C6 no at its own line 30", C6_NO, "return Mark(o, o.at[30], ITSELF, rule)"),
    ("C6 no at the last replacement of its cell", C6_NO, C6_NO.replace(
        "replaced,", "max(i for b, i in history.replaced.items()"
        " if i < o.at[30] and i in [c.at[30] for c in history.calls"
        " if 30 in c.at and c.cell == o.cell]),")),
    ("C6 no where the block was decided", C6_NO,
     "return Mark(o, history.decided[o.block], ITSELF, rule)"),
    ("C6 no is C5", C6_NO, C6_NO.replace("rule", '"C5"')),
    # unfinished calls
    ("no unfinished call is listed", NOT_STORED, "    return None\n"),
    ("an unfinished store on an active block is not listed", LEFT_C4_MARK,
     "return None"),
    ("an unfinished store is listed only if line 24 found C false", LEFT_C4,
     LEFT_C4.replace("if is", "if o.next_line in (24, 26)"
                     " and is")),
    ("an unfinished store is listed only after line 24", LEFT_C4,
     LEFT_C4.replace("if is", "if 24 in o.at and is")),
    ("an unfinished store is listed only if its block is still active",
     LEFT_C4, LEFT_C4.replace("is_active_at_23(history, o)",
                              "o.block not in history.inactive")),
    ("an unfinished store that saw C is C3", LEFT_C4_MARK, LEFT_C4_MARK.replace(
        '"C4"', '"C4" if o.next_line in (24, 26)'
        ' else "C3"')),
    ("an unfinished store in a block inactive by now is C3", LEFT_C4_MARK,
     LEFT_C4_MARK.replace('"C4"', '"C3" if o.block in history.inactive else'
                          ' "C4"')),
    ("an unfinished store is listed at its last step", LEFT_C4_MARK,
     LEFT_C4_MARK.replace("o.at[23]", "max(o.at.values())")),
    ("an undecided late store is listed", *left_out(
        "o.block not in history.decided", "history.inactive[o.block]",
        '"C3"')),
    ("an undecided late store is listed, at its store", *left_out(
        "o.block not in history.decided", "o.at[23]", '"C4"')),
    ("a late store is listed whatever was decided", LEFT_C3_IF,
     "    if True:\n"),
    ("a late store is listed if the block is decided", LEFT_C3_IF,
     "    if o.block in history.decided:\n"),
    ("a late store is listed if its value is there", LEFT_C3_IF,
     "    if history.figure.pool[5 * o.block + cells.V] == o.new:\n"),
    ("a late store is never listed", LEFT_C3, "return None"),
    ("an unfinished late store is listed at its store", LEFT_C3,
     LEFT_C3.replace("history.inactive[o.block]", "o.at[23]")),
    ("an unfinished late store is listed at the decision", LEFT_C3,
     LEFT_C3.replace("inactive", "decided")),
    ("an unfinished late store is C4", LEFT_C3, LEFT_C3.replace("C3", "C4")),
    ("a task at 28 that never stored is listed, D being its new value",
     *not_stored("o.word == cells.SWAP and o.expected != o.new and o.block in"
                 " history.decided and history.decided_value(o.block) == o.new",
                 "history.inactive[o.block]", '"C3"')),
    ("an unfinished read that has loaded V is listed", *not_stored(
        "11 in o.at", "o.at[11]", '"R1"')),
    ("an unfinished read of a decided block is listed", *not_stored(
        "10 in o.at and o.block in history.decided",
        "max(o.at[10], history.decided[o.block])",
        '"R2" if o.word == cells.READ else "C1"')),
    ("an unfinished swap at 22 is listed", *not_stored(
        "o.next_line == 22", "o.at[20]", '"C2"')),
    ("an unfinished swap that will answer no at 28 is listed", *not_stored(
        "o.last == (2, 28) and history.decided_value(o.block) != o.expected",
        "max(o.at[15], history.decided[o.block])", '"C5"')),
    ("an unfinished swap whose block is replaced is listed", *not_stored(
        "o.next_line == 30 and o.block in"
        " history.replaced", "history.replaced[o.block]", '"C6"')),
    ("an unfinished swap at 30 is listed", *not_stored(
        "o.next_line == 30", "o.at[8]", '"C6"')),
    # withdrawn calls (change request 12)
    ("no withdrawn call is listed", NOT_STORED,
     NOT_STORED.replace(":", " or o.drop is not None:")),
    ("a withdrawn store on an active block is not listed", LEFT_C4,
     LEFT_C4.replace("if is", "if o.drop is None and is")),
    ("a withdrawn store is listed only if its block is active at the drop",
     LEFT_C4, LEFT_C4.replace("if is", "if (o.drop is None or history.inactive"
                              ".get(o.block, o.drop) >= o.drop) and is")),
    ("a withdrawn store in a block inactive by now is C3", LEFT_C4_MARK,
     LEFT_C4_MARK.replace('"C4"', '"C3" if o.drop is not None and o.block in'
                          ' history.inactive else "C4"')),
    ("a withdrawn store is listed at its drop", LEFT_C4_MARK,
     LEFT_C4_MARK.replace("o.at[23]", "o.at[23] if o.drop is None else"
                          " o.drop")),
    ("a withdrawn late store is never listed", LEFT_C3_IF, LEFT_C3_IF.replace(
        "if o", "if o.drop is None and o")),
    ("a withdrawn late store is listed if decided before its drop", LEFT_C3_IF,
     LEFT_C3_IF.replace("if o.block in history.decided", "if"
                        " history.decided.get(o.block, MOST) < (o.drop or"
                        " MOST)").replace("    if", "    MOST = 10 ** 9\n"
                                          "    if", 1)),
    ("a withdrawn late store is listed if decided after its drop", LEFT_C3_IF,
     LEFT_C3_IF.replace("if o.block in history.decided", "if"
                        " history.decided.get(o.block, -1) > (o.drop or -1)")),
    ("a withdrawn late store is listed at its drop", LEFT_C3, LEFT_C3.replace(
        "history.inactive[o.block]", "history.inactive[o.block] if o.drop is"
        " None else o.drop")),
    ("a withdrawn late store is listed at its last step", LEFT_C3,
     LEFT_C3.replace("history.inactive[o.block]", "history.inactive[o.block]"
                     " if o.drop is None else max(o.at.values())")),
    ("a withdrawn late store is listed whatever was decided", *left_out(
        "o.drop is not None", "history.inactive[o.block]", '"C3"')),
    ("a withdrawn late store is listed if it is undecided", *left_out(
        "o.drop is not None and o.block not in history.decided",
        "history.inactive[o.block]", '"C3"')),
    ("a withdrawn call is forgotten", DROPPED, "self.calls.remove("
     "self.under_way.pop(task))"),
    ("a withdrawn call is forgotten by the next begin", BEGUN, BEGUN
     + "\n        self.calls[:] = [o for o in self.calls if o.drop is None"
     " or o.task != task]"),
    ("a refused drop withdraws the call before", DROP, DROP + "\n        for o in"
     " self.calls if result is not None else ():\n            if o.task == task:"
     "\n                o.answer = None"),
    # the order
    ("ties by the higher task", KEY, KEY.replace("self.call.task",
                                                 "-self.call.task")),
    ("ties by the earlier begin", KEY, KEY.replace("self.call.task",
                                                   "self.call.begin")),
    ("ties by the earlier end", KEY, KEY.replace(
        "self.call.task", "max(self.call.at.values())")),
    ("ties by the rule", KEY, KEY.replace("self.call.task", "self.rule")),
    ("ties by the task, the side not asked", KEY,
     "return (self.moment, self.call.task)"),
    ("after precedes itself", KEY, KEY.replace("self.side", "-self.side")),
    ("a change comes last at its action", KEY,
     "return (self.moment, self.changes_its_cell(), self.call.task)"),
    ("reads come first at one action", KEY, KEY.replace(
        "self.call.task", "self.call.word, self.call.task")),
    ("in the order of begins", "return sorted(marks, key=Mark.key)",
     "return marks"),
    ("in the order of ends", "return sorted(marks, key=Mark.key)",
     "return sorted(marks, key=lambda mark: max(mark.call.at.values()))"),
    ("cell by cell", KEY, KEY.replace("(self.moment",
                                      "(self.call.cell, self.moment")),
    ("unfinished ones last", KEY, KEY.replace(
        "(self.moment", "(not self.call.finished, self.moment")),
    # the blocks
    ("blocks' lives are mixed up, the last one's events stand", NEW_BLOCK,
     "        return super().take_unused_block()\n"),
    ("blocks' lives are mixed up, the first one's events stand", *mutants.both(
        "moments", (NEW_BLOCK, "        return super().take_unused_block()\n"),
        (NOTE, NOTE.replace("event[call.block] = i",
                            "event.setdefault(call.block, i)")))),
    ("the first setting of C and D is the last", NOTE, """                if is_now and (not was or event is not self.replaced and
                               call.last[0] == (27 if event is self.inactive
                                                else 2)):
                    event[call.block] = i
"""),
    ("C is set when it is first seen", NOTE, """                if is_now and not was:
                    if event is not self.inactive:
                        event[call.block] = i
            if after[0] and call.last[0] in (12, 21, 24):
                self.inactive.setdefault(call.block, i)
"""),
    # what is printed
    ("actions are counted from 1", EACH, EACH.replace("(actions)",
                                                      "(actions, 1)")),
    ("refused actions are not counted", EACH, "i = -1\n"
     "        for action in actions:\n"
     "            i += 1 - (len(self.refused) > getattr(self, 'before', 0))\n"
     "            self.before = len(self.refused)"),
    ("task and cell are exchanged", LINE, LINE.replace(
        "self.call.task", "self.call.X").replace(
            "self.call.cell", "self.call.task").replace("X", "cell")),
    ("a swap's new value stands for its cell", LINE, LINE.replace(
        "self.call.cell", "self.call.new or self.call.cell")),
    ("word and rule are exchanged", LINE, LINE.replace(
        "self.call.word", "X").replace("self.rule", "self.call.word").replace(
            "X", "self.rule")),
    ("the side comes last", LINE, LINE.replace(
        "SIDES[self.side], ", "").replace("%d %s %d %s %d %s", "%d %d %s %d %s"
                                          " %s").replace(
            "self.rule)", "self.rule, SIDES[self.side])")),
    ("an end line is printed", PRINTED, PRINTED.replace(
        "for mark in trace.marks)", "for mark in trace.marks) + '(end %d)\\n' %"
        " len(trace.marks)").replace('return "".join(mark.line()',
                                     'return ("".join(mark.line()').replace(
            ".encode", ").encode")),
    ("refused actions are printed", PRINTED, PRINTED.replace(
        'return "".join', 'return ("(no)\\n" * len(trace.history.refused) +'
        ' "".join').replace(".encode", ").encode")),
    ("an unlisted call is printed", PRINTED, PRINTED.replace(
        'return "".join(', 'return ("".join(').replace(
            ".encode", ' + "(none)\\n" * (len(trace.history.calls) -'
            ' len(trace.marks))).encode')),
]

# The same of what is refused, told by the cases alone.
REFUSAL_MISREADINGS = [
    ("a refused open prints (no 0 R)", "return tools.bad(bad.number)",
     'return b"(%s %d)\\n" % ((b"no 0", bad.number) if bad.number < 6 else'
     ' (b"bad", bad.number))'),
    ("a refused open prints nothing", "return tools.bad(bad.number)",
     "return tools.bad(bad.number) if bad.number > 5 else b''"),
    ("a bad file prints nothing", "return tools.bad(bad.number)",
     "return tools.bad(bad.number) if bad.number < 6 else b''"),
]

# The same in tools.py: the open's questions before 12 to 15 cannot be asked, as
# there is no open yet; but they can be left out.
TOOL_MISREADINGS = [
    ("the open is not asked", "    if number:\n", "    if False:\n"),
    ("starting values are not asked", "range(cells.WORDS * opening.b),"
     " opening.values)", "range(cells.WORDS * opening.b), None)"),
    ("a pool of 128 blocks is taken for any B", "range(cells.WORDS *"
     " opening.b)", "range(cells.WORDS * 128)"),
]


def misread(old, new, where="moments"):
    return mutants.edited(("tools", "moments"), where, old, new)["moments"]


def main():
    cases = make_moments_cases.make()
    sessions = mutants.by_size(cases.files)
    return mutants.report(
        [(what, mutants.tellers(misread(*edit).run, sessions, cases.prints))
         for what, *edit in MISREADINGS + REFUSAL_MISREADINGS]
        + [(what, mutants.tellers(misread(*edit, "tools").run, sessions,
                                  cases.prints))
           for what, *edit in TOOL_MISREADINGS])


if __name__ == "__main__":
    sys.exit(main())
