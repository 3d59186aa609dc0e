#!/usr/bin/env python3
"""How telling the cases are: wrong readings of the papers, each one edit of
the model, must print something else for at least one case.

Prints for each wrong reading how many cases tell it, and ends with 1 if some
reading is told by none.  A session shows of a block only what its cell has once
it is current, so the fill's order and the search's are told by the self test's
states instead, and so is what becomes of attempts in states that no opening
leads to.  Readings of the rate are told by sessions and by the pairs of
the C example; those of wide numbers, which no session reaches, by the pairs.
"""

import os
import resource
import sys
import types

import cells
import cells_cases
import make_cases
import make_rate_pairs
import rate
import selftest

HERE = os.path.dirname(os.path.abspath(__file__))

# Which blocks a record uses, and how a step keeps the counts.
HELD_USED = "if self.holds_a_block:"
TAKEN_USED = "if self.has_taken_a_block:"
CELLS_USED = """        for block in self.current:
            count(counts, block, 1)
"""
AFTER = "after = [self.current[cell], *record.blocks()]"
MOVE = "self.move_counts(before, after)"
OPENED = "self.counts = [1] * v + [0] * (MOST_BLOCKS - v)"

# What the hardware swaps find, how they count, and the line that says so.
COUNTS = "\n            self.count_attempt(record, won)"
FINDS_NONE = "won = pool[at + D] == NONE"
COUNTS_2 = FINDS_NONE + COUNTS
FINDS_BLOCK = "won = self.current[record.cell] == record.held"
COUNTS_30 = FINDS_BLOCK + COUNTS
DONE = """(done %d %s %d %s %d %d %d)" % (
            task, result.kind, result.cell, answer, result.steps,
            result.won, result.lost))"""

# What a drop does, and what the session says of it.
BLOCKS = "before = list(record.blocks())\n"
CLEARS = BLOCKS + "        record.clear()\n"
RELEASES = "self.move_counts(before, ())"
ASKS_11 = "if (step or drop) and not self.tasks[task].busy:"
ACTS = "        result = self.cells.act(action.word, *action)\n"
WITHDRAWS = "            self.withdrawn(action.task)\n"


def held_at_drop(condition, word, value):
    """A drop stores this word of the held block as well."""
    return CLEARS, ("if record.holds_a_block and %s:\n            self.pool["
                    "WORDS * record.held + %s] = %s\n        "
                    % (condition, word, value) + CLEARS)


def kept_at_drop(*names):
    """A drop leaves these fields of the record."""
    return CLEARS, CLEARS.replace(
        "record.clear()", "kept = [(name, getattr(record, name)) for name in %r]"
        "\n        record.clear()\n        for name, value in kept:\n"
        "            setattr(record, name, value)" % (names,))


# What is misread; the file; the text replaced; the text put there.
MISREADINGS = [
    # document 01, "Readings to keep out"
    ("a block is reused as soon as it is replaced", "cells",
     HELD_USED, "if False:"),
    ("V is returned from an inactive block", "cells",
     "if pool[at + C] == 0:\n                return self.end_of_read",
     "if True:\n                return self.end_of_read"),
    ("no at 25 though the decided value is the task's own", "cells",
     "if decided == record.new:", "if False:"),
    ("line 14 is dropped", "cells",
     "return self.kind == READ or self.expected == self.new",
     "return self.kind == READ"),
    # the pool
    ("a taken block is not used", "cells",
     TAKEN_USED, "if False:"),
    ("a current block is not used", "cells", "return self.counts[block] != 0",
     "return self.counts[block] - self.current.count(block) > 0"),
    ("only cell 0's block is current", "cells",
     "return self.counts[block] != 0",
     "return self.counts[block] - self.current[1:].count(block) > 0"),
    ("only tasks 0 to 15 hold blocks", "cells", MOVE,
     MOVE.replace("(before, after)", "(*((before, after) if task < 16 else"
                  " (before[:1], after[:1])))")),
    # change request 7: the counts that are kept
    ("the counts are never moved", "cells", MOVE, "pass"),
    ("the counts only grow", "cells", MOVE, MOVE.replace("before,", "(),")),
    ("the counts only fall", "cells", MOVE, MOVE.replace(", after", ", ()")),
    ("a finishing step moves no count", "cells", MOVE,
     "if finished is None:\n            " + MOVE),
    ("only a finishing step moves counts", "cells", MOVE,
     "if finished is not None:\n            " + MOVE),
    ("a finishing step keeps the hold counted", "cells", MOVE,
     "if finished:\n            del before[1:2]\n        " + MOVE),
    ("a finishing step keeps the taken block counted", "cells", MOVE,
     "if finished:\n            del before[2:]\n        " + MOVE),
    ("a failed swap keeps the taken block counted", "cells", MOVE,
     "if finished and not finished.answer:\n            del before[2:]\n"
     "        " + MOVE),
    ("a won line 30 leaves the new block uncounted", "cells", MOVE,
     "if before[0] != after[0]:\n            after = []\n        " + MOVE),
    ("a won line 30 counts the new block twice", "cells", MOVE,
     "if before[0] != after[0]:\n            del before[2:]\n        " + MOVE),
    ("a won line 30 leaves the old block the cell's", "cells", MOVE,
     "if before[0] != after[0]:\n            del before[0]\n        " + MOVE),
    ("a won line 30 leaves the old block the task's", "cells", MOVE,
     "if before[0] != after[0]:\n            del before[1]\n        " + MOVE),
    ("a won line 30 frees the old block for all", "cells", MOVE, MOVE
     + "\n        if before[0] != after[0]:\n"
     "            self.counts[before[0]] = 0"),
    ("line 4 counts nothing", "cells", MOVE,
     "if record.line != 5:\n            " + MOVE),
    ("line 5 counts the taken block", "cells", MOVE,
     "if record.line == 5:\n            del after[2]\n"
     "        if record.line == 6:\n            del before[2]\n        "
     + MOVE),
    ("the first load counts nothing", "cells", MOVE,
     "if record.line not in (11, 16):\n            " + MOVE),
    ("a read's first load counts nothing", "cells", MOVE,
     "if record.line != 11:\n            " + MOVE),
    ("a swap's first load counts nothing", "cells", MOVE,
     "if record.line != 16:\n            " + MOVE),
    ("a begin counts the cell's block", "cells",
     "        record.line = 10 if record.runs_read_lines else 15\n",
     "        record.line = 10 if record.runs_read_lines else 15\n"
     "        count(self.counts, self.current[cell], 1)\n"),
    ("a count is at most 1", "cells", "counts[block] += by",
     "counts[block] = max(min(counts[block] + by, 1), 0)"),
    ("a count is at most 2", "cells", "counts[block] += by",
     "counts[block] = max(min(counts[block] + by, 2), 0)"),
    ("a block counted once is unused", "cells",
     "return self.counts[block] != 0", "return self.counts[block] > 1"),
    ("a block is used when counted once", "cells",
     "return self.counts[block] != 0", "return self.counts[block] == 1"),
    ("opening counts nothing", "cells", OPENED,
     "self.counts = [0] * MOST_BLOCKS"),
    ("opening counts every block", "cells", OPENED,
     "self.counts = [1] * MOST_BLOCKS"),
    ("opening counts block 0 for every cell", "cells", OPENED,
     "self.counts = [v] + [0] * (MOST_BLOCKS - 1)"),
    ("opening counts one block too few", "cells", OPENED,
     "self.counts = [1] * (v - 1) + [0] * (MOST_BLOCKS - v + 1)"),
    ("the cell is forgotten with the call", "cells", AFTER,
     AFTER.replace("cell]", "record.cell]")),
    # change request 2: the fill
    ("the fill leaves Y", "cells", "pool[nb + Y] = 0", "pass"),
    ("the fill leaves C", "cells", "pool[nb + C] = 0", "pass"),
    ("the fill leaves D", "cells", "pool[nb + D] = NONE", "pass"),
    ("the fill leaves V", "cells", "pool[nb + V] = record.new", "pass"),
    ("the fill puts V the expected value", "cells",
     "pool[nb + V] = record.new", "pool[nb + V] = record.expected"),
    ("the fill puts D the new value", "cells",
     "pool[nb + D] = NONE", "pool[nb + D] = record.new"),
    ("the fill puts C true", "cells", "pool[nb + C] = 0", "pool[nb + C] = 1"),
    ("the fill puts Y true", "cells", "pool[nb + Y] = 0", "pool[nb + Y] = 1"),
    ("the fill is of the held block", "cells",
     "nb = WORDS * record.installing", "nb = WORDS * record.held"),
    ("the fill is still one step", "cells",
     "pool[WORDS * block + X] = NO_TASK\n            record.line = 5",
     "pool[WORDS * block:WORDS * block + WORDS] ="
     " NO_TASK, 0, 0, record.new, NONE\n            record.line = 30"),
    ("the fill is the figure's four stores", "cells",
     "pool[WORDS * block + X] = NO_TASK\n            record.line = 5",
     "pool[WORDS * block:WORDS * block + 2] = NO_TASK, 0\n"
     "            record.line = 6"),
    ("line 4 leaves the taken block", "cells", "record.installing = block\n",
     "pass\n"),
    ("line 30 after 7", "cells", "record.line = 8\n", "record.line = 30\n"),
    ("line 30 after 7, where V is stored", "cells",
     "pool[nb + D] = NONE\n            record.line = 8\n",
     "pool[nb + D] = NONE\n            pool[nb + V] = record.new\n"
     "            record.line = 30\n"),
    ("line 5 after 28's test", "cells", "record.line = 4\n",
     "record.installing = self.take_unused_block()\n"
     "        record.line = 5\n"),
    ("line 4 after 8 where another has replaced the block", "cells",
     "record.line = 30\n", "record.line = (30 if"
     " self.current[record.cell] == record.held else 4)\n"),
    ("line 4 ends a call whose block is replaced", "cells",
     "            block = self.take_unused_block()\n",
     "            if self.current[record.cell] != record.held:\n"
     "                return False\n"
     "            block = self.take_unused_block()\n"),
    ("line 4 is a hardware swap", "cells",
     "            block = self.take_unused_block()\n",
     "            self.count_attempt(record, True)\n"
     "            block = self.take_unused_block()\n"),
    ("line 30 makes the new block inactive", "cells",
     "self.current[record.cell] = record.installing",
     "self.current[record.cell] = record.installing\n"
     "                pool[nb + C] = 1"),
    # change request 2: from when on a taken block counts as used
    ("a taken block is used at line 30 alone", "cells", TAKEN_USED,
     TAKEN_USED.replace("self.has_taken_a_block", "self.line == 30")),
    ("a taken block is used until line 30", "cells", TAKEN_USED,
     TAKEN_USED.replace("if ", "if self.line != 30 and ")),
    ("a taken block is used from line 5", "cells", TAKEN_USED,
     TAKEN_USED.replace("if ", "if self.line != 5 and ")),
    ("a taken block is used from line 6", "cells", TAKEN_USED,
     TAKEN_USED.replace("if ", "if self.line not in (5, 6) and ")),
    ("a taken block is not used after line 5", "cells", TAKEN_USED,
     TAKEN_USED.replace("if ", "if self.line != 6 and ")),
    ("a taken block is not used after line 6", "cells", TAKEN_USED,
     TAKEN_USED.replace("if ", "if self.line != 7 and ")),
    ("a taken block is not used after line 7", "cells", TAKEN_USED,
     TAKEN_USED.replace("if ", "if self.line != 8 and ")),
    ("only tasks 0 to 15 have taken blocks", "cells", MOVE,
     MOVE.replace("(before, after)", "(*((before, after) if task < 16 else"
                  " (before[:2], after[:2])))")),
    ("a filling task does not hold its block", "cells", HELD_USED,
     HELD_USED.replace(":", " and not 4 <= self.line <= 8:")),
    ("a task from line 4 on does not hold its block", "cells", HELD_USED,
     HELD_USED.replace(":", " and self.line not in (4, 5, 6, 7, 8, 30):")),
    # the lines
    ("17 goes on to 18", "cells",
     "record.line = 27 if pool[at + Y] != 0 else 18", "record.line = 18"),
    ("19 goes on to 20", "cells",
     "record.line = 27 if pool[at + X] != task else 20", "record.line = 20"),
    ("16 stores nothing", "cells", "pool[at + X] = task", "pass"),
    ("18 stores nothing", "cells", "pool[at + Y] = 1", "pass"),
    ("21 passes an inactive block", "cells",
     "if pool[at + C] != 0:\n                self.want_decision(record, 28)",
     "if False:\n                self.want_decision(record, 28)"),
    ("21 goes to 27", "cells",
     "if pool[at + C] != 0:\n                self.want_decision(record, 28)",
     "if pool[at + C] != 0:\n                record.line = 27"),
    ("22 is always a step", "cells",
     "elif record.loaded != record.expected:", "elif True:"),
    ("22 leaves Y", "cells", "pool[at + Y] = 0\n            return False",
     "return False"),
    ("23 stores nothing", "cells", "pool[at + V] = record.new", "pass"),
    ("24 passes an inactive block", "cells",
     "if pool[at + C] != 0:\n                self.want_decision(record, 25)",
     "if False:\n                self.want_decision(record, 25)"),
    ("24 wants 28 at once", "cells",
     "self.want_decision(record, 25)", "self.want_decision(record, 28)"),
    ("26 leaves Y", "cells", "pool[at + Y] = 0\n            return True",
     "return True"),
    ("27 stores nothing", "cells", "pool[at + C] = 1", "pass"),
    ("28 does not test", "cells", "if decided != record.expected:",
     "if False:"),
    ("2 always stores", "cells", "if won:\n                pool",
     "if True:\n                pool"),
    ("2 never stores", "cells", "if won:\n                pool",
     "if False:\n                pool"),
    ("30 always succeeds", "cells", FINDS_BLOCK, "won = True"),
    ("30 never installs", "cells",
     "self.current[record.cell] = record.installing", "pass"),
    ("a failed hardware swap is not counted", "cells",
     "record.lost += 1", "pass"),
    ("a failed line 30 is not counted", "cells", COUNTS_30,
     FINDS_BLOCK + "\n            if won:\n"
     "                self.count_attempt(record, won)"),
    ("25 failing decides no more", "cells",
     "self.want_decision(record, 28)\n            return None",
     "record.line = 4\n            return None"),
    # change request 5: won and lost
    ("always won", "cells", "if won:\n            record.won",
     "if True:\n            record.won"),
    ("always lost", "cells", "if won:\n            record.won",
     "if False:\n            record.won"),
    ("won and lost exchanged", "cells", "if won:\n            record.won",
     "if not won:\n            record.won"),
    ("line 30 counts won when it answers no", "cells", COUNTS_30,
     FINDS_BLOCK + "\n            self.count_attempt(record, True)"),
    ("line 30 counts lost when it answers yes", "cells", COUNTS_30,
     FINDS_BLOCK + "\n            self.count_attempt(record, False)"),
    ("line 30 counts the other way round", "cells", COUNTS_30,
     FINDS_BLOCK + "\n            self.count_attempt(record, not won)"),
    ("line 30 is won where the value is the expected one", "cells", COUNTS_30,
     FINDS_BLOCK + "\n            self.count_attempt(record,"
     " self.look(record.cell) == record.expected)"),
    ("the deciding part always wins", "cells", COUNTS_2,
     FINDS_NONE + "\n            self.count_attempt(record, True)"),
    ("the deciding part always loses", "cells", COUNTS_2,
     FINDS_NONE + "\n            self.count_attempt(record, False)"),
    ("the deciding part counts the other way round", "cells", COUNTS_2,
     FINDS_NONE + "\n            self.count_attempt(record, not won)"),
    ("the deciding part wins where D is its value then", "cells", COUNTS_2,
     FINDS_NONE + "\n            self.count_attempt(record,"
     " won or pool[at + D] == record.loaded)"),
    ("the deciding part wins where D is the task's new value", "cells",
     COUNTS_2, FINDS_NONE + "\n            self.count_attempt(record,"
     " won or pool[at + D] == record.new)"),
    ("the deciding part wins where 28 goes on", "cells", COUNTS_2,
     FINDS_NONE + "\n            self.count_attempt(record,"
     " won or pool[at + D] == record.expected)"),
    ("the deciding part tells whether D is the held block's V", "cells",
     COUNTS_2, FINDS_NONE + "\n            self.count_attempt(record,"
     " won or pool[at + D] == pool[at + V])"),
    *(("the attempt for %d is always %s" % (wanted, word), "cells", COUNTS_2,
       FINDS_NONE + "\n            self.count_attempt(record, %s)" % (
           ("won or record.wanted_by == %d" if word == "won" else
            "won and record.wanted_by != %d") % wanted))
      for wanted, word in ((13, "won"), (13, "lost"), (25, "won"),
                           (25, "lost"), (28, "won"), (28, "lost"))),
    ("a read's attempts are always won", "cells", "if won:\n            record",
     "if won or record.kind == READ:\n            record"),
    ("an equal swap's attempts are always won", "cells",
     "if won:\n            record",
     "if won or record.runs_read_lines:\n            record"),
    ("a second attempt is lost if the first was", "cells",
     "if won:\n            record", "if won and not record.lost:\n"
     "            record"),
    ("a call wins at most once", "cells", "record.won += 1",
     "record.won = 1"),
    ("a call loses at most once", "cells", "record.lost += 1",
     "record.lost = 1"),
    ("a call loses at most twice", "cells", "record.lost += 1",
     "record.lost = min(record.lost + 1, 2)"),
    ("a won attempt takes back a lost one", "cells", "record.won += 1",
     "record.won += 1\n            record.lost = 0"),
    ("a finished call leaves the won", "cells", "        self.won = 0\n",
     "        self.won = getattr(self, 'won', 0)\n"),
    ("a finished call leaves the lost", "cells", "        self.lost = 0\n",
     "        self.lost = getattr(self, 'lost', 0)\n"),
    ("lost is printed before won", "session", "result.won, result.lost))",
     "result.lost, result.won))"),
    ("the sum is printed for won", "session", "result.won, result.lost))",
     "result.hard, result.lost))"),
    ("the sum is printed for lost", "session", "result.won, result.lost))",
     "result.won, result.hard))"),
    ("the done line keeps the sum too", "session", DONE,
     DONE.replace("%d)", "%d %d)").replace("result.won",
                                           "result.hard, result.won")),
    ("the done line keeps the sum alone", "session", DONE,
     DONE.replace(" %d)", ")").replace("result.won, result.lost",
                                       "result.hard")),
    ("the end line has the won alone", "session",
     "self.hard += result.won + result.lost", "self.hard += result.won"),
    ("the end line has the lost alone", "session",
     "self.hard += result.won + result.lost", "self.hard += result.lost"),
    ("the rate is of the won alone", "session",
     "rate(self.hard, self.finished)", "rate(sum(int(line.split()[-2])"
     " for line in self.out if line[1] == 'd'), self.finished)"),
    ("look tells V always", "cells",
     "if self.pool[at + C] == 0:\n            return self.pool[at + V]",
     "if True:\n            return self.pool[at + V]"),
    ("look tells D though none", "cells",
     "if self.pool[at + D] == NONE:\n            return self.pool[at + V]",
     "if False:\n            return 0"),
    ("cell k's block is 0", "cells",
     "self.current = list(range(v))", "self.current = [0] * v"),
    ("an equal swap answers a value's nearness", "cells",
     "return value == record.expected", "return True"),
    # questions 1 to 11
    ("N up to 33", "cells", "MOST_TASKS = 32", "MOST_TASKS = 33"),
    ("V up to 17", "cells", "MOST_CELLS = 16", "MOST_CELLS = 17"),
    ("B up to 129", "cells", "MOST_BLOCKS = 128", "MOST_BLOCKS = 129"),
    ("B up to 127", "cells", "MOST_BLOCKS = 128", "MOST_BLOCKS = 127"),
    ("one block fewer still", "cells", "return v + 2 * n - 1",
     "return v + 2 * n - 2"),
    ("V + 2 x N blocks as before", "cells", "return v + 2 * n - 1",
     "return v + 2 * n"),
    ("V + N blocks", "cells", "return v + 2 * n - 1", "return v + n"),
    ("2 before 1", "cells", "    if not 1 <= n <= MOST_TASKS:\n        return 1\n"
     "    if not 1 <= v <= MOST_CELLS:\n        return 2\n",
     "    if not 1 <= v <= MOST_CELLS:\n        return 2\n"
     "    if not 1 <= n <= MOST_TASKS:\n        return 1\n"),
    ("5 before 4", "cells", "    if len(values) != v:\n        return 4\n"
     "    if NONE in values:\n        return 5\n",
     "    if NONE in values:\n        return 5\n"
     "    if len(values) != v:\n        return 4\n"),
    ("5 asks only V values", "cells", "if NONE in values:",
     "if NONE in values[:1]:"),
    ("8 before 7", "cells",
     "        if task is not None and not task < self.n:\n            return 7\n"
     "        if cell is not None and not cell < self.v:\n            return 8\n",
     "        if cell is not None and not cell < self.v:\n            return 8\n"
     "        if task is not None and not task < self.n:\n            return 7\n"),
    ("10 before 9", "cells",
     "        if begin and self.tasks[task].busy:\n            return 9\n"
     "        if swap is not None and NONE in swap:\n            return 10\n",
     "        if swap is not None and NONE in swap:\n            return 10\n"
     "        if begin and self.tasks[task].busy:\n            return 9\n"),
    ("10 before 8", "cells",
     "        if cell is not None and not cell < self.v:\n            return 8\n",
     "        if swap is not None and NONE in swap:\n            return 10\n"
     "        if cell is not None and not cell < self.v:\n            return 8\n"),
    ("10 asks the expected value alone", "cells", "NONE in swap:",
     "swap[0] == NONE:"),
    ("10 asks the new value alone", "cells", "NONE in swap:",
     "swap[1] == NONE:"),
    ("a second begin is taken", "cells",
     "if begin and self.tasks[task].busy:", "if False:"),
    # questions 12 to 15
    ("65535 bytes", "reader", "MOST_BYTES = 65536", "MOST_BYTES = 65535"),
    ("65537 bytes", "reader", "MOST_BYTES = 65536", "MOST_BYTES = 65537"),
    ("7 deep", "reader", "MOST_DEPTH = 8", "MOST_DEPTH = 7"),
    ("9 deep", "reader", "MOST_DEPTH = 8", "MOST_DEPTH = 9"),
    ("numbers up to 4294967294", "reader", "MOST_NUMBER = 4294967295",
     "MOST_NUMBER = 4294967294"),
    ("numbers up to 4294967296", "reader", "MOST_NUMBER = 4294967295",
     "MOST_NUMBER = 4294967296"),
    ("65534 actions", "reader", "MOST_ACTIONS = 65535",
     "MOST_ACTIONS = 65534"),
    ("65536 actions", "reader", "MOST_ACTIONS = 65535",
     "MOST_ACTIONS = 65536"),
    ("leading zeros", "reader", 'rb"0|[1-9][0-9]{0,9}"', 'rb"[0-9]{1,10}"'),
    ("counts wrap at 32 bits", "reader",
     "return form.count * sum(map(count_actions, form.forms))",
     "return form.count * sum(map(count_actions, form.forms)) % 2 ** 32"),
    ("counts wrap at 64 bits", "reader",
     "return form.count * sum(map(count_actions, form.forms))",
     "return form.count * sum(map(count_actions, form.forms)) % 2 ** 64"),
    ("the sum wraps at 32 bits", "reader",
     "if sum(map(count_actions, forms)) > MOST_ACTIONS:",
     "if sum(map(count_actions, forms)) % 2 ** 32 > MOST_ACTIONS:"),
    ("the sum wraps at 64 bits", "reader",
     "if sum(map(count_actions, forms)) > MOST_ACTIONS:",
     "if sum(map(count_actions, forms)) % 2 ** 64 > MOST_ACTIONS:"),
    ("an again is an action", "reader",
     "return form.count * sum(map(count_actions, form.forms))",
     "return 1 + form.count * sum(map(count_actions, form.forms))"),
    ("no last line end", "reader", "    if rest:\n        raise Bad(13)",
     "    if rest:\n        lines.append(rest)"),
    ("text after a form", "reader",
     "        if end != len(line):\n            raise Bad(13)",
     "        if False:\n            raise Bad(13)"),
    ("empty lines", "reader", "    for line in lines:\n",
     "    for line in filter(None, lines):\n"),
    ("no forms in again", "reader", "    if word == b\"again\":\n",
     "    if word == b\"again\" and len(rest) > 1:\n"),
    ("words are cut to their length", "reader", 'if word == b"step":',
     'if word[:4] == b"step":'),
    # the printed lines
    ("refused actions are not counted", "session",
     "for i, action in enumerate(actions):",
     "for i, action in enumerate(actions, 1):"),
    ("an equal swap is printed as a read", "session",
     "task, result.kind, result.cell",
     "task, 'read' if result.steps == 3 else result.kind, result.cell"),
    ("the end line's rate has its counts exchanged", "session",
     "rate(self.hard, self.finished)", "rate(self.finished, self.hard)"),
    ("the end line's rate is 1000 more", "session",
     "rate(self.hard, self.finished)", "1000 + rate(self.hard, self.finished)"),
    ("the rate is for each begun call", "session",
     "rate(self.hard, self.finished)",
     "rate(self.hard, self.finished + unfinished)"),
    ("unfinished hardware swaps count", "session",
     "self.finished, unfinished, self.hard,",
     "self.finished, unfinished, self.hard"
     " + sum(record.hard for record in self.cells.tasks),"),
    # change request 12
    ("a drop keeps its blocks counted", "cells", RELEASES, "pass"),
    ("a drop keeps the held block counted", "cells", BLOCKS,
     BLOCKS.replace("\n", "[1:]\n")),
    ("a drop keeps the taken block counted", "cells", BLOCKS,
     BLOCKS.replace("\n", "[:1]\n")),
    ("a drop frees its blocks for all", "cells", RELEASES,
     "for block in before:\n            self.counts[block] = 0"),
    ("a drop frees the cell's block", "cells", BLOCKS,
     "before = [self.current[record.cell], *record.blocks()]\n"),
    ("a drop takes the count of a block not yet held", "cells", BLOCKS,
     "before = [record.held, *list(record.blocks())[1:]]\n"),
    ("a drop resets Y", "cells", *held_at_drop("True", "Y", "0")),
    ("a dropped winner resets Y", "cells",
     *held_at_drop("20 <= record.line <= 26", "Y", "0")),
    ("a dropped loser resets Y", "cells",
     *held_at_drop("record.line in (19, 27)", "Y", "0")),
    ("a drop resets X", "cells", *held_at_drop("True", "X", "NO_TASK")),
    ("a drop makes the block inactive", "cells",
     *held_at_drop("True", "C", "1")),
    ("a dropped winner makes the block inactive", "cells",
     *held_at_drop("19 <= record.line <= 26", "C", "1")),
    ("a dropped store is taken back", "cells",
     *held_at_drop("record.line in (24, 26)", "V", "record.expected")),
    ("a drop at 23 stores", "cells",
     *held_at_drop("record.line == 23", "V", "record.new")),
    ("a drop decides an inactive block", "cells", *held_at_drop(
        "self.pool[WORDS * record.held + C] and self.pool[WORDS *"
        " record.held + D] == NONE", "D",
        "self.pool[WORDS * record.held + V]")),
    ("a dropped task at 30 installs its block", "cells", CLEARS,
     "if record.line == 30 and self.current[record.cell] == record.held:\n"
     "            count(self.counts, record.held, -1)\n"
     "            count(self.counts, record.installing, 1)\n"
     "            self.current[record.cell] = record.installing\n        "
     + CLEARS),
    ("a drop does the next line first", "cells", CLEARS,
     "if record.line != 4:\n            self.do_line(task, record)\n        "
     + CLEARS),
    ("a drop leaves the steps", "cells", *kept_at_drop("steps")),
    ("a drop leaves the won", "cells", *kept_at_drop("won")),
    ("a drop leaves the lost", "cells", *kept_at_drop("lost")),
    ("a drop leaves the task busy", "cells", *kept_at_drop(
        "line", "wanted_by", "kind", "cell", "expected", "new", "held",
        "installing")),
    ("a dropped call begins anew", "cells", CLEARS, BLOCKS
     + "        record.line = 10 if record.runs_read_lines else 15\n"),
    ("an idle task may be dropped", "cells", ASKS_11,
     ASKS_11.replace("(step or drop)", "step")),
    ("a drop of an idle task gives 9", "cells", "            return 11\n",
     "            return 9 if drop else 11\n"),
    ("a drop of no task gives 11", "cells", "            return 7\n",
     "            return 11 if drop else 7\n"),
    ("a read is not dropped", "cells", ASKS_11, ASKS_11.replace(
        "not self.tasks[task].busy", "(not self.tasks[task].busy or drop and"
        " self.tasks[task].kind == READ)")),
    ("a call without a step is not dropped", "cells", ASKS_11, ASKS_11.replace(
        "not self.tasks[task].busy", "(not self.tasks[task].busy or drop and"
        " not self.tasks[task].steps)")),
    ("a drop is printed", "session", WITHDRAWS, WITHDRAWS
     + "            self.out.append('(drop %d)' % action.task)\n"),
    ("a withdrawn call counts as finished", "session", WITHDRAWS, WITHDRAWS
     + "            self.finished += 1\n"),
    ("a withdrawn call counts as unfinished", "session", WITHDRAWS, WITHDRAWS
     + "            self.cells.tasks.append(cells.Record())\n"
     "            self.cells.tasks[-1].line = 10\n"),
    ("a withdrawn call's hardware swaps are counted", "session", ACTS,
     "        if isinstance(action, reader.Drop) and action.task <"
     " self.cells.n:\n"
     "            self.hard += self.cells.tasks[action.task].hard\n" + ACTS),
    ("a drop is no action", "reader", "    return 1\n",
     "    return int(not isinstance(form, Drop))\n"),
    ("a drop names a cell", "reader", "return Drop(*numbers(rest, 1))",
     "return Drop(*numbers(rest, 2)[:1])"),
    ("a drop's task may be left out", "reader", "return Drop(*numbers(rest, 1))",
     "return Drop(*numbers(rest or [b'0'], 1))"),
    ("no drop within again", "reader", "        count, = numbers(rest[:1], 1)\n",
     "        if any(item[:1] == [b'drop'] for item in rest):\n"
     "            raise Bad(14)\n        count, = numbers(rest[:1], 1)\n"),
    ("a refused open goes on to the end line", "session",
     "            self.refused(0, self.cells.number)\n            return\n",
     "            self.refused(0, self.cells.number)\n"
     "            self.out.append('(end 0 0 0 0)')\n            return\n"),
]

# The same of change request 4, in rate.py: each must be told by a session, and
# by a pair.
TO_EVEN = "return below if below % 2 == 0 else above"
NEARER_BELOW = "if to_below < to_above:\n        return below"
NEARER_ABOVE = "if to_above < to_below:\n        return above"
TIMES_1000 = "thousands = h * 1000"
RATE_MISREADINGS = [
    ("a half goes up", TO_EVEN, "return above"),
    ("a half goes down", TO_EVEN, "return below"),
    ("a half goes to the odd neighbour", TO_EVEN,
     "return above if below % 2 == 0 else below"),
    ("a half goes by the hardware swaps' evenness", TO_EVEN,
     "return below if h % 2 == 0 else above"),
    ("the rate is rounded down", NEARER_BELOW, "return below"),
    ("the rate is rounded up", NEARER_BELOW,
     "return above if to_below else below"),
    ("the rate is rounded to the even neighbour", NEARER_BELOW,
     "if to_below == 0:\n        return below\n"
     "    return below if below % 2 == 0 else above"),
    ("above a half goes to the even neighbour", NEARER_ABOVE, "pass"),
    ("1000 is added", TIMES_1000, "thousands = h + 1000"),
    ("the rate is of 100 calls", TIMES_1000, "thousands = h * 100"),
    ("the rate is of 1024 calls", TIMES_1000, "thousands = h * 1024"),
    ("the rate is of one call", TIMES_1000, "thousands = h"),
    ("the counts are exchanged", "def rate(h, f):", "def rate(f, h):"),
    ("tenths are cut before rounding", TIMES_1000,
     "thousands, f = h * 10000 // f, 10"),
    ("no finished call gives 1000", "return 0", "return 1000"),
]

# No session comes to these numbers: each must be told by a pair.
WIDE_MISREADINGS = [
    ("no finished call gives the hardware swaps", "return 0", "return h"),
    ("no finished call is an error", "if f == 0:", "if f == h == 0:"),
    ("1000 h wraps at 32 bits", TIMES_1000,
     "thousands = h * 1000 % 2 ** 32"),
    ("1000 h stops at 32 bits", TIMES_1000,
     "thousands = min(h * 1000, MOST)"),
    ("the rate wraps at 32 bits", "def rate(h, f):",
     "def rate(h, f):\n    return wide(h, f) % 2 ** 32\n\n\ndef wide(h, f):"),
    ("the rate stops at 32 bits", "def rate(h, f):",
     "def rate(h, f):\n    return min(wide(h, f), MOST)\n\n\ndef wide(h, f):"),
    ("twice the rest wraps at 32 bits", "to_above = above * f - thousands",
     "to_above = to_below + f - 2 * to_below % 2 ** 32"),
    ("the hardware swaps are signed", TIMES_1000,
     "thousands = (h - 2 ** 32 * (h >= 2 ** 31)) * 1000"),
    ("the finished calls have 31 bits", TIMES_1000,
     "thousands, f = h * 1000, f % 2 ** 31 or 1"),
    ("the finished calls have 16 bits", TIMES_1000,
     "thousands, f = h * 1000, f % 2 ** 16 or 1"),
]

# The same of questions 6 and 20, which no session breaks: each must print
# something else for a line of crates/test_cells/stdin.
FIT = "open_refusal(self.n, self.v, self.b, self.pool, None)"
UNFIT_LINE = "elif record.line not in lines:"
HELD = "if record.holds_a_block and record.held >= self.b:"
TAKEN_FIT = "if record.has_taken_a_block and record.installing >= self.b:"
SO_FAR = ("return (record.steps <= MOST_STEPS_SO_FAR\n"
          "                and record.won + record.lost <= MOST_HARD_SO_FAR)")
SUM = "record.won + record.lost <= MOST_HARD_SO_FAR)"
ALL_FIT = "if not all(self.is_record_fit(record) for record in self.tasks):"
COUNTS_FIT = "return self.counts[:self.b] == self.fresh_counts()[:self.b]"
IDLE_IS_FIT = "if not record.busy:\n            return True"
ASK_FIT = "if self.ask_fit and not self.is_fit():"
AT_4 = "if (step and self.tasks[task].line == 4"
ASKS_20 = AT_4 + "\n                and not self.has_unused_block()):"
UNUSED = "return not all(map(self.is_used, range(self.b)))"
FIT_MISREADINGS = [
    ("6 leaves out N", FIT, FIT + " not in (0, 1)"),
    ("6 leaves out V", FIT, FIT + " not in (0, 2)"),
    ("6 leaves out B and the pool", FIT, FIT + " not in (0, 3)"),
    ("6 leaves out the pool", FIT, "open_refusal(self.n, self.v, self.b,"
     " [0] * 5 * min(self.b, 999), None)"),
    ("6 takes a longer pool", FIT, "open_refusal(self.n, self.v, self.b,"
     " self.pool[:5 * self.b], None)"),
    ("6 takes a shorter pool", FIT, "open_refusal(self.n, self.v, self.b,"
     " range(max(len(self.pool), 5 * self.b)), None)"),
    ("a cell's block B", "block >= self.b for", "block > self.b for"),
    ("the last taken B", "self.last_taken >= self.b",
     "self.last_taken > self.b"),
    ("the first task's record alone", ALL_FIT,
     ALL_FIT.replace("self.tasks", "self.tasks[:1]")),
    ("any record", ALL_FIT, ALL_FIT.replace("all(", "any(")),
    ("idle records asked their kind", IDLE_IS_FIT,
     "if not record.busy:\n            return record.kind in (0, READ, SWAP)"),
    ("idle records asked their values", IDLE_IS_FIT,
     "if not record.busy:\n            return record.new != NONE"),
    ("idle records asked their cell", IDLE_IS_FIT,
     "if not record.busy:\n            return record.cell < self.v"),
    ("idle records asked their blocks", IDLE_IS_FIT, "if not record.busy:\n"
     "            return max(record.held, record.installing) < self.b"),
    ("idle records asked their steps", IDLE_IS_FIT,
     "if not record.busy:\n            return record.steps < 21"),
    ("idle records asked their hardware swaps", IDLE_IS_FIT,
     "if not record.busy:\n            return record.hard < 4"),
    ("a third kind", "record.kind not in (READ, SWAP)",
     "record.kind not in (READ, SWAP, 3)"),
    ("a kind 0", "record.kind not in (READ, SWAP)",
     "record.kind not in (READ, SWAP, 0)"),
    ("a busy record's cell V", "or record.cell >= self.v",
     "or record.cell > self.v"),
    ("a read's cell is not asked", "or record.cell >= self.v",
     "or record.kind == SWAP and record.cell >= self.v"),
    ("a swap's cell is not asked", "or record.cell >= self.v",
     "or record.kind == READ and record.cell >= self.v"),
    ("equal values on a swap's lines",
     "if record.runs_read_lines:\n            lines",
     "if record.kind == READ:\n            lines"),
    ("no line is asked", UNFIT_LINE, "elif False:"),
    ("any line of either", UNFIT_LINE,
     "elif record.line not in READ_LINES | SWAP_LINES:"),
    ("lines 9 to 12", UNFIT_LINE,
     "elif record.line not in lines and record.line != 9:"),
    ("lines 10 to 13", UNFIT_LINE,
     "elif record.line not in lines and record.line != 13:"),
    ("line 14", UNFIT_LINE,
     "elif record.line not in lines and record.line != 14:"),
    ("line 25", UNFIT_LINE,
     "elif record.line not in lines and record.line != 25:"),
    ("line 28", UNFIT_LINE,
     "elif record.line not in lines and record.line != 28:"),
    ("line 31", UNFIT_LINE,
     "elif record.line not in lines and record.line != 31:"),
    ("a read's line 4", UNFIT_LINE,
     "elif record.line not in lines and record.line != 4:"),
    ("a read may fill", UNFIT_LINE,
     "elif record.line not in lines | FILL_LINES:"),
    ("a read's line 8", UNFIT_LINE,
     "elif record.line not in lines and record.line != 8:"),
    ("an equal swap may fill", UNFIT_LINE,
     "elif (record.line not in lines and not\n"
     "              (record.kind == SWAP and record.line in FILL_LINES)):"),
    ("line 29 is still a line", "26, 27, 30))\nDECIDING",
     "26, 27, 29, 30))\nDECIDING"),
    ("line 29 is still a line, and it is alone",
     "(*FILL_LINES, *range(15, 25), 26, 27, 30)",
     "(*range(15, 25), 26, 27, 29, 30)"),
    *(("line %d is no line" % line, "FILL_LINES = frozenset((4, 5, 6, 7, 8))",
       "FILL_LINES = frozenset((4, 5, 6, 7, 8)) - {%d}" % line)
      for line in (4, 5, 6, 7, 8)),
    ("line 9 is a line", "FILL_LINES = frozenset((4, 5, 6, 7, 8))",
     "FILL_LINES = frozenset((4, 5, 6, 7, 8, 9))"),
    ("no wanted line is asked", "if record.wanted_by not in wants:",
     "if False:"),
    ("either's wanted lines", "if record.wanted_by not in wants:",
     "if record.wanted_by not in READ_WANTS | SWAP_WANTS:"),
    ("a read may want 25", "if record.wanted_by not in wants:",
     "if record.wanted_by not in wants | {25}:"),
    ("a read may want 28", "if record.wanted_by not in wants:",
     "if record.wanted_by not in wants | {28}:"),
    ("a swap may want 13", "if record.wanted_by not in wants:",
     "if record.wanted_by not in wants | {13}:"),
    ("an equal swap may want 25", "if record.wanted_by not in wants:",
     "if record.wanted_by not in wants"
     " | ({25} if record.kind == SWAP else set()):"),
    ("wanted 27", "if record.wanted_by not in wants:",
     "if record.wanted_by not in wants | {27}:"),
    ("wanted nothing", "if record.wanted_by not in wants:",
     "if record.wanted_by not in wants | {0}:"),
    ("wanted is asked outside the deciding part", UNFIT_LINE,
     "elif record.line not in lines or record.wanted_by:"),
    ("the held block is not asked", HELD, "if False:"),
    ("the held block B", HELD, HELD.replace(">=", ">")),
    ("the held block before the first load", HELD,
     "if record.held >= self.b:"),
    ("a read's held block before the first load", HELD,
     "if record.line != 15 and record.held >= self.b:"),
    ("a swap's held block before the first load", HELD,
     "if record.line != 10 and record.held >= self.b:"),
    ("a read's held block is not asked", HELD,
     HELD.replace("if ", "if record.kind == SWAP and ")),
    ("the held block is not asked while deciding", HELD,
     HELD.replace("if ", "if record.line > 3 and ")),
    *(("the held block is not asked at %d" % line, HELD,
       HELD.replace("if ", "if record.line != %d and " % line))
      for line in (4, 5, 6, 7, 8, 30)),
    ("the taken block is not asked",
     TAKEN_FIT, "if False:"),
    ("the taken block before it is taken", TAKEN_FIT,
     "if record.installing >= self.b:"),
    ("the taken block at 4", TAKEN_FIT,
     TAKEN_FIT.replace("record.has", "(record.line == 4 or record.has")
     .replace("block and", "block) and")),
    ("the taken block at 30 alone", TAKEN_FIT,
     TAKEN_FIT.replace("record.has_taken_a_block", "record.line == 30")),
    ("the taken block B", TAKEN_FIT, TAKEN_FIT.replace(">=", ">")),
    ("the taken block B - 1", TAKEN_FIT, TAKEN_FIT.replace("b:", "b - 1:")),
    ("the taken block may be none", TAKEN_FIT,
     TAKEN_FIT.replace(":", " and record.installing != NONE:")),
    *(("the taken block is not asked at %d" % line, TAKEN_FIT,
       TAKEN_FIT.replace("if ", "if record.line != %d and " % line))
      for line in (5, 6, 7, 8, 30)),
    ("none is not asked", "if record.kind == SWAP and NONE in (",
     "if False and NONE in ("),
    ("none in a read", "if record.kind == SWAP and NONE in (",
     "if NONE in ("),
    ("none in a swap of equal values",
     "if record.kind == SWAP and NONE in (",
     "if not record.runs_read_lines and NONE in ("),
    ("none asked of expected alone", "NONE in (record.expected, record.new)",
     "NONE == record.expected"),
    ("none asked of new alone", "NONE in (record.expected, record.new)",
     "NONE == record.new"),
    ("21 steps so far", SO_FAR, SO_FAR.replace("<= MOST_S", "- 1 <= MOST_S")),
    ("19 steps so far", SO_FAR, SO_FAR.replace("<= MOST_S", "< MOST_S")),
    ("16 steps so far, as before", "MOST_STEPS_SO_FAR = 20",
     "MOST_STEPS_SO_FAR = 16"),
    ("17 steps so far", "MOST_STEPS_SO_FAR = 20", "MOST_STEPS_SO_FAR = 17"),
    ("20 steps so far in the fill alone", SO_FAR,
     SO_FAR.replace("MOST_STEPS_SO_FAR",
                    "(20 if record.line in FILL_LINES | {30} else 16)")),
    ("16 steps so far before line 30", SO_FAR,
     SO_FAR.replace("MOST_STEPS_SO_FAR",
                    "(20 if record.line == 30 else 16)")),
    ("4 hardware swaps", SO_FAR, SO_FAR.replace("<= MOST_H", "- 1 <= MOST_H")),
    ("2 hardware swaps", SO_FAR, SO_FAR.replace("<= MOST_H", "< MOST_H")),
    ("a read's steps are not asked", SO_FAR,
     SO_FAR.replace("(rec", "(record.kind == READ or rec")
     + " and record.hard < 4"),
    ("a read's hardware swaps are not asked", SO_FAR,
     SO_FAR.replace("and rec", "and (record.kind == READ or rec") + ")"),
    ("won alone is asked", SUM, SUM.replace(" + record.lost", "")),
    ("lost alone is asked", SUM, SUM.replace("record.won + ", "")),
    ("won and lost are asked each", SUM,
     SUM.replace("record.won + record.lost", "max(record.won, record.lost)")),
    ("won is at most 2", SUM, SUM.replace(")", " and record.won < 3)")),
    ("lost is at most 2", SUM, SUM.replace(")", " and record.lost < 3)")),
    ("lost is at most 1 where one is won", SUM,
     SUM.replace(")", " and (record.won == 0 or record.lost < 2))")),
    ("the sum wraps at 32 bits", SUM, SUM.replace(
        "record.won + record.lost", "(record.won + record.lost) % 2 ** 32")),
    ("the sum wraps at 16 bits", SUM, SUM.replace(
        "record.won + record.lost", "(record.won + record.lost) % 2 ** 16")),
    ("the sum wraps at 8 bits", SUM, SUM.replace(
        "record.won + record.lost", "(record.won + record.lost) % 2 ** 8")),
    ("won has 8 bits", SUM, SUM.replace("record.won", "record.won % 2 ** 8")),
    ("lost has 8 bits", SUM,
     SUM.replace("record.lost", "record.lost % 2 ** 8")),
    ("the sum is signed", SUM, SUM.replace(
        "record.won + record.lost", "(record.won + record.lost + 2 ** 31)"
        " % 2 ** 32 - 2 ** 31")),
    ("won less lost is asked", SUM, SUM.replace(
        "record.won + record.lost", "abs(record.won - record.lost)")),
    ("the lost of an equal swap are not asked", SUM, SUM.replace(
        "record.lost", "(0 if record.runs_read_lines else record.lost)")),
    ("idle records asked won and lost", IDLE_IS_FIT,
     "if not record.busy:\n            return record.won + record.lost < 4"),
    ("the sum may be 2 at line 2", SUM, SUM.replace(
        "MOST_HARD_SO_FAR", "(2 if record.line == 2 else 3)")),
    ("the sum may be 2 at line 30", SUM, SUM.replace(
        "MOST_HARD_SO_FAR", "(2 if record.line == 30 else 3)")),
    ("a read's steps are at most 5", SO_FAR,
     SO_FAR + " and (record.kind == SWAP or record.steps < 6)"),
    ("a read's hardware swaps are at most 1", SO_FAR,
     SO_FAR + " and (record.kind == SWAP or record.hard < 2)"),
    # change request 7: the counts
    ("no count is asked", COUNTS_FIT, "return True"),
    ("counts at B and above are asked", COUNTS_FIT,
     COUNTS_FIT.replace("[:self.b]", "")),
    ("the count of block B is asked", COUNTS_FIT,
     COUNTS_FIT.replace("self.b]", "self.b + 1]")),
    ("the last block's count is not asked", COUNTS_FIT,
     COUNTS_FIT.replace("self.b]", "self.b - 1]")),
    ("the first block's count is not asked", COUNTS_FIT,
     COUNTS_FIT.replace("[:", "[1:")),
    ("the cells' first blocks' counts are not asked", COUNTS_FIT,
     COUNTS_FIT.replace("[:", "[self.v:")),
    ("the counts of the cells' first blocks alone are asked", COUNTS_FIT,
     COUNTS_FIT.replace("self.b]", "self.v]")),
    ("a count too high is taken", COUNTS_FIT, "return all(a >= b for a, b in"
     " zip(self.counts[:self.b], self.fresh_counts()))"),
    ("a count too low is taken", COUNTS_FIT, "return all(a <= b for a, b in"
     " zip(self.counts[:self.b], self.fresh_counts()))"),
    ("only used or unused is asked", COUNTS_FIT, "return all((a > 0) == (b >"
     " 0) for a, b in zip(self.counts[:self.b], self.fresh_counts()))"),
    ("only unused blocks' counts are asked", COUNTS_FIT, "return all(a == b or"
     " b > 0 for a, b in zip(self.counts[:self.b], self.fresh_counts()))"),
    ("only used blocks' counts are asked", COUNTS_FIT, "return all(a == b or"
     " b == 0 for a, b in zip(self.counts[:self.b], self.fresh_counts()))"),
    ("a count may be off by one", COUNTS_FIT, "return all(abs(a - b) < 2 for"
     " a, b in zip(self.counts[:self.b], self.fresh_counts()))"),
    *(("counts have %d bits" % bits, COUNTS_FIT, "return all((a - b) %% 2 ** %d"
       " == 0 for a, b in zip(self.counts[:self.b], self.fresh_counts()))"
       % bits) for bits in (1, 8, 16, 31)),
    ("the reading leaves out the cells", CELLS_USED, ""),
    ("the reading has cell 0 alone", CELLS_USED,
     CELLS_USED.replace("current:", "current[:1]:")),
    ("the reading has each cell's block once", CELLS_USED,
     CELLS_USED.replace("self.current:", "set(self.current):")),
    ("the reading leaves out what is held", HELD_USED, "if False:"),
    ("the reading leaves out what is taken", TAKEN_USED, "if False:"),
    ("the reading has what is held or taken once", TAKEN_USED,
     TAKEN_USED.replace(":", " and self.held != self.installing:")),
    ("the reading has task 0 alone", "for record in self.tasks:\n",
     "for record in self.tasks[:1]:\n"),
    ("the reading leaves out the last task", "for record in self.tasks:\n",
     "for record in self.tasks[:-1]:\n"),
    ("the reading leaves out held blocks that are current",
     "            for block in record.blocks():\n                count",
     "            for block in set(record.blocks()) - set(self.current):\n"
     "                count"),
    ("a busy task holds its block before the first load", HELD_USED,
     "if self.busy:"),
    ("an idle task holds its block", HELD_USED,
     "if self.line not in (10, 15):"),
    ("a read holds no block", HELD_USED,
     HELD_USED.replace(":", " and self.kind == SWAP:")),
    ("an equal swap holds no block", HELD_USED, HELD_USED.replace(
        ":", " and (self.kind == READ or not self.runs_read_lines):")),
    ("a deciding task holds no block", HELD_USED,
     HELD_USED.replace(":", " and self.line > 3:")),
    *(("a task at %d holds no block" % line, HELD_USED,
       HELD_USED.replace(":", " and self.line != %d:" % line))
      for line in (1, 2, 3, 4, 5, 6, 7, 8, 11, 12, *range(16, 25), 26, 27, 30)),
    *(("a task at %d has taken no block" % line, TAKEN_USED,
       TAKEN_USED.replace(":", " and self.line != %d:" % line))
      for line in (5, 6, 7, 8, 30)),
    *(("a task at %d has taken a block" % line, TAKEN_USED,
       TAKEN_USED.replace(":", " or self.line == %d:" % line))
      for line in (0, 2, 4, 24, 27)),
    ("7 before 6", "return 6\n", "return 6 if task is None or task < self.n"
     " else 7\n"),
    ("look does not ask 6", "return 6\n",
     "return 6 if task is not None else 0 if cell < 2 else 8\n"),
    ("look asks no cell", "cell is not None and not cell < self.v",
     "task is not None and cell is not None and not cell < self.v"),
    ("a refused begin clears the record", "            return 9\n",
     "            self.tasks[task].clear()\n            return 9\n"),
    # change request 10
    ("question 3 alone takes the new limit", "        if open_refusal(self.n,"
     " self.v, self.b, self.pool, None):\n", "        if self.b < self.v + 2 *"
     " self.n or open_refusal(self.n, self.v, self.b, self.pool, None):\n"),
    ("fit alone takes the new limit", "    number = open_refusal(n, v, b, pool,"
     " values)\n", "    number = open_refusal(n, v, b if b != v + 2 * n - 1 else"
     " 0, pool, values)\n"),
    # change request 12
    ("a drop does not ask 6", ASK_FIT, ASK_FIT.replace("and not", "and not drop"
                                                       " and not")),
    ("a drop asks 20", AT_4, AT_4.replace("step", "(step or drop)")),
    ("a refused drop clears the record", "            return 11\n",
     "            self.tasks[task].clear()\n            return 11\n"),
    ("a drop leaves the counts", RELEASES, "pass"),
    ("a drop releases the held block alone", BLOCKS,
     BLOCKS.replace("\n", "[:1]\n")),
    ("a drop releases the taken block alone", BLOCKS,
     BLOCKS.replace("\n", "[1:]\n")),
    ("a drop clears the counts of its blocks", RELEASES,
     "for block in before:\n            self.counts[block] = 0"),
    *(("a drop leaves the record's %s" % name, *kept_at_drop(name))
      for name in ("line", "wanted_by", "kind", "cell", "expected", "new",
                   "held", "installing", "steps", "won", "lost")),
    ("20 is not asked", ASKS_20, "if False:"),
    ("every block used is not fit", "return 20\n", "return 6\n"),
    ("every block used gives 11", "return 20\n", "return 11\n"),
    ("20 before 6", ASK_FIT, "if step and self.tasks and self.tasks[0].line =="
     " 4 and not self.has_unused_block():\n            return 20\n        "
     + ASK_FIT),
    ("20 before 7", "        if task is not None and not task < self.n:\n",
     "        if step and self.tasks[0].line == 4 and not"
     " self.has_unused_block():\n            return 20\n"
     "        if task is not None and not task < self.n:\n"),
    ("a begin asks 20", "        if begin and self.tasks[task].busy:\n",
     "        if begin and not self.has_unused_block():\n"
     "            return 20\n        if begin and self.tasks[task].busy:\n"),
    ("look asks 20", "            return 8\n", "            return 8\n"
     "        if task is None and not self.has_unused_block():\n"
     "            return 20\n"),
    ("20 is asked at every line", AT_4, "if (step"),
    ("20 is asked from 4 to 8", AT_4, AT_4.replace("== 4", "in FILL_LINES")),
    *(("20 is asked at %d" % line, AT_4, AT_4.replace("== 4", "in (4, %d)"
                                                      % line))
      for line in (3, 5, 6, 7, 8, 27, 30)),
    ("20 where one block is unused", UNUSED, "return sum(not self.is_used(block)"
     " for block in range(self.b)) > 1"),
    ("20 where the block after the last taken is used", UNUSED, "return not"
     " self.is_used((self.last_taken + 1) % self.b)"),
    ("20 where the blocks after the last taken are used", UNUSED, "return not"
     " all(map(self.is_used, range(self.last_taken + 1, self.b)))"),
    ("20 where the blocks below the last taken are used", UNUSED, "return not"
     " all(map(self.is_used, range(self.last_taken)))"),
    ("the last block is always used", UNUSED, UNUSED.replace("self.b)",
                                                             "self.b - 1)")),
    ("128 blocks are asked", UNUSED, UNUSED.replace("self.b", "MOST_BLOCKS")),
    ("a block used once is unused", UNUSED, "return not all(count > 1 for count"
     " in self.counts[:self.b])"),
    ("only the cells' blocks are asked", UNUSED, "return not all(block in"
     " self.current for block in range(self.b))"),
    ("a block is lacking by counting", UNUSED, "return sum(self.counts[:self.b])"
     " < self.b"),
    ("a refused 20 counts a step", "            return 20\n",
     "            self.tasks[task].steps += 1\n            return 20\n"),
    ("a refused 20 ends the call", "            return 20\n",
     "            self.tasks[task].clear()\n            return 20\n"),
    ("a refused 20 moves the last taken", "            return 20\n",
     "            self.last_taken = (self.last_taken + 1) % self.b\n"
     "            return 20\n"),
]

# The same of the fill's order and the search's, which no session and no line of
# that input shows: each must change what a step does in one of selftest.py's
# states.
TO_Y, TO_C, TO_D, TO_V = ("pool[nb + Y] = 0", "pool[nb + C] = 0",
                          "pool[nb + D] = NONE", "pool[nb + V] = record.new")
SETS_X = "pool[WORDS * block + X] = NO_TASK"


def lines_5_to_8(*stores):
    """The text of lines 5 to 8 with these stores."""
    return """            %s
            record.line = 6
        elif line == 6:
            %s
            record.line = 7
        elif line == 7:
            %s
            record.line = 8
        elif line == 8:
            %s
""" % stores


FILL_5_TO_8 = lines_5_to_8(TO_Y, TO_C, TO_D, TO_V)
FILL_MISREADINGS = [
    ("V is stored first, at 5", FILL_5_TO_8,
     lines_5_to_8(TO_V, TO_Y, TO_C, TO_D)),
    ("V is stored at 4 already", SETS_X, SETS_X + "\n"
     "            pool[WORDS * block + V] = record.new"),
    ("V is stored before D, as the words lie", FILL_5_TO_8,
     lines_5_to_8(TO_Y, TO_C, TO_V, TO_D)),
    ("C is stored before Y", FILL_5_TO_8,
     lines_5_to_8(TO_C, TO_Y, TO_D, TO_V)),
    ("D is stored before C", FILL_5_TO_8,
     lines_5_to_8(TO_Y, TO_D, TO_C, TO_V)),
    ("8 stores all of them", TO_V,
     "pool[nb:nb + WORDS] = NO_TASK, 0, 0, record.new, NONE"),
    ("4 clears the block", SETS_X,
     "pool[WORDS * block:WORDS * block + WORDS] = NO_TASK, 0, 0, 0, 0"),
    ("4 leaves X", SETS_X, "pass"),
    ("4 puts X the task", SETS_X, SETS_X.replace("NO_TASK", "task")),
    ("5 stores X too", TO_Y, TO_Y + "\n            pool[nb + X] = 1"),
    ("the last taken stays", "self.last_taken = block\n", "pass\n"),
    ("the search is done anew at 5",
     "            pool[nb + Y] = 0\n",
     "            record.installing = self.take_unused_block()\n"
     "            pool[WORDS * record.installing + Y] = 0\n"),
    ("the search starts with the last taken", "range(1, self.b + 1)",
     "range(self.b)"),
    ("the search starts with block 0",
     "block = (self.last_taken + onward) % self.b",
     "block = onward - 1"),
    ("the search goes downward",
     "block = (self.last_taken + onward) % self.b",
     "block = (self.last_taken - onward) % self.b"),
    ("a block is taken before line 4", TAKEN_USED,
     TAKEN_USED.replace("self.has", "self.line == 4 or self.has")),
]

# The same of won and lost where no opening leads: each must change what a step
# counts in one of selftest.py's states.
ATTEMPT_MISREADINGS = [
    ("an attempt for none that finds none is lost", COUNTS_2,
     FINDS_NONE + "\n            self.count_attempt(record,"
     " won and record.loaded != NONE)"),
    ("line 30 is lost where the held block is the taken one", COUNTS_30,
     FINDS_BLOCK + "\n            self.count_attempt(record,"
     " won and record.held != record.installing)"),
    ("line 30 is won where the taken block is current", COUNTS_30,
     FINDS_BLOCK + "\n            self.count_attempt(record, won or"
     " self.current[record.cell] == record.installing)"),
    ("line 30 is won where the held block has D none", COUNTS_30,
     FINDS_BLOCK + "\n            self.count_attempt(record,"
     " pool[at + D] == NONE)"),
    ("an attempt for 25 after another is lost", COUNTS_2,
     FINDS_NONE + "\n            self.count_attempt(record,"
     " won and (record.wanted_by != 25 or record.hard == 0))"),
    ("a call wins at most twice", "record.won += 1",
     "record.won = min(record.won + 1, 2)"),
    ("a call loses at most three times", "record.lost += 1",
     "record.lost = min(record.lost + 1, 3)"),
    ("the third attempt is lost", "if won:\n            record",
     "if won and record.hard != 2:\n            record"),
    ("D 0 is none", COUNTS_2, COUNTS_2.replace("== NONE", "in (NONE, 0)")),
]

# Those of the counts that a step keeps are told also by one of selftest.py's
# states, which have three tasks.
COUNT_MISREADINGS = [
    (what, *edit) for what, where, *edit in MISREADINGS
    if edit[0] in (MOVE, AFTER) and "task < 16" not in edit[1]]


def edited(names, where, old, new):
    """The model's modules of these names with this one edit."""
    modules = {}
    for name in names:
        with open(os.path.join(HERE, name + ".py")) as file:
            source = file.read()
        if name == where:
            assert source.count(old) == 1, (where, old, source.count(old))
            source = source.replace(old, new)
        module = types.ModuleType(name)
        kept = {n: sys.modules.get(n) for n in modules}
        sys.modules.update(modules)
        exec(compile(source, name, "exec"), module.__dict__)
        sys.modules.update(kept)
        modules[name] = module
    return modules


def both(name, first, last):
    """Two edits of a file as one, of the text from the first to the last."""
    with open(os.path.join(HERE, name + ".py")) as file:
        source = file.read()
    span = source[source.index(first[0]):source.index(last[0]) + len(last[0])]
    new = span
    for old, text in (first, last):
        assert span.count(old) == 1, old
        new = new.replace(old, text)
    return span, new


def misread(where, old, new):
    """A session's and cells_cases' runs in a model with this one edit."""
    modules = edited(("cells", "reader", "rate", "session", "cells_cases"),
                     where, old, new)
    return modules["session"].run, modules["cells_cases"].run


def tellers(run, files, prints):
    """The names of the files for which run prints something else."""
    for name, content in files.items():
        try:
            text = run(content)
        except Exception as error:
            text = repr(error)
        if text != prints[name]:
            yield name


def by_size(files):
    """The files, the smallest first."""
    return dict(sorted(files.items(), key=lambda item: len(item[1])))


def report(found):
    """Prints who tells each reading; 1 if one is told by none, else 0."""
    untold = 0
    for what, names in found:
        first = next(names, None)
        more = sum(1 for _ in names) if "-a" in sys.argv else 0
        untold += first is None
        print("%-55s %s" % (what, "TOLD BY NONE" if first is None else
                            "told by %s%s" % (first, " and %d more" % more
                                              if more else "")))
    print("%d wrong readings, %d told by none" % (len(found), untold))
    return 1 if untold else 0


def main():
    # A misread count may ask for more memory than there is.
    resource.setrlimit(resource.RLIMIT_AS, (1 << 30, 1 << 30))
    cases = make_cases.make()
    sessions = by_size({name: data for name, data in cases.files.items()
                        if name not in cases.pins})
    with open(os.path.join(HERE, "../crates/test_cells/stdin")) as file:
        lines = {line: line for line in file.read().splitlines()}
    answers = {line: cells_cases.run(line) for line in lines}

    pairs = {line: line for line in
             make_rate_pairs.text(make_rate_pairs.pairs()).splitlines()}
    rates = {line: rate.run(line) for line in pairs}

    def rate_run(edit):
        return edited(("rate",), "rate", *edit)["rate"].run

    fills = {name: selftest.fill_answers(cells, *state)
             for name, state in selftest.FILLS.items()}

    def fill_answers(edit):
        module = edited(("cells",), "cells", *edit)["cells"]
        return lambda state: selftest.fill_answers(module, *state)

    attempts = {name: selftest.attempt_answers(cells, *state)
                for name, state in selftest.ATTEMPTS.items()}

    def attempt_answers(edit):
        module = edited(("cells",), "cells", *edit)["cells"]
        return lambda state: selftest.attempt_answers(module, *state)

    counts = {name: selftest.count_answers(cells, *state)
              for name, state in selftest.COUNTS.items()}

    def count_answers(edit):
        module = edited(("cells",), "cells", *edit)["cells"]
        return lambda state: selftest.count_answers(module, *state)

    found = [(what, tellers(misread(*edit)[0], sessions, cases.prints))
             for what, *edit in MISREADINGS]
    found += [(what, tellers(misread("rate", *edit)[0], sessions,
                             cases.prints))
              for what, *edit in RATE_MISREADINGS]
    found += [(what + ", in C", tellers(rate_run(edit), pairs, rates))
              for what, *edit in RATE_MISREADINGS + WIDE_MISREADINGS]
    found += [(what, tellers(misread("cells", *edit)[1], lines, answers))
              for what, *edit in FIT_MISREADINGS]
    found += [(what, tellers(fill_answers(edit), selftest.FILLS, fills))
              for what, *edit in FILL_MISREADINGS]
    found += [(what, tellers(attempt_answers(edit), selftest.ATTEMPTS,
                             attempts))
              for what, *edit in ATTEMPT_MISREADINGS]
    found += [(what + ", in a state", tellers(count_answers(edit),
                                              selftest.COUNTS, counts))
              for what, *edit in COUNT_MISREADINGS]
    return report(found)


if __name__ == "__main__":
    sys.exit(main())
