#!/usr/bin/env python3
"""How telling the cases of adds are: wrong readings of change request 13, each one
edit of the model, must print something else for at least one case of cases_add.py
or cases_add_tools.py.  Those of question 6, which no list breaks, are told by the
self test's states.  With -a, how many cases tell each (slower).
"""

import resource
import sys

import add_selftest
import cases_add
import cases_add_tools
import make_bus_cases
import make_cases
import make_moments_cases
import make_nudge_cases
import mutants
import tools

TOTAL = "total = ended.answer + record.amount\n"
IS_OVER = "if total >= NONE:"
SWAPS = "self.begin(task, SWAP, ended.cell, ended.answer, total)\n"
IS_ADDED = "if ended.answer:\n            return ADDED\n"
IS_SPENT = "if record.swaps_lost == record.tries:"
READS = "self.begin(task, READ, ended.cell, 0, 0)\n"
GOES_ON = "        if answer is None:\n            return None\n"
BUSY_9 = "        if begin and self.tasks[task].busy:\n"
IS_23 = "        if tries is not None and not 1 <= tries <= MOST_TRIES:\n"
STEPS = "record.steps_before += ended.steps"
WON = "record.won_before += ended.won"
LOST = "record.lost_before += ended.lost"


def asked_before(question):
    """23 is asked before this question."""
    return "cells", question, (
        "        if tries is not None and not 1 <= tries <= 8:\n"
        "            return 23\n" + question)


CELLS_MISREADINGS = [
    # the sum
    ("over above 4,294,967,295 alone", "cells", IS_OVER, "if total > NONE:"),
    ("over from 4,294,967,294 on", "cells", IS_OVER, "if total >= NONE - 1:"),
    ("over from 2,147,483,648 on", "cells", IS_OVER, "if total >= 2 ** 31:"),
    ("the sum has 32 bits", "cells", TOTAL,
     "total = (ended.answer + record.amount) % 2 ** 32\n"),
    ("the sum has 32 bits, and less is over", "cells", IS_OVER,
     "total %= 2 ** 32\n            if total < ended.answer:"),
    ("the greatest sum in place of over", "cells", IS_OVER,
     "total = min(total, NONE - 1)\n            if False:"),
    ("over is asked of the first read alone", "cells", IS_OVER,
     "if total >= NONE and record.swaps_lost == 0:"),
    ("over is not asked of the first read", "cells", IS_OVER,
     "if total >= NONE and record.swaps_lost:"),
    ("over is asked of d alone", "cells", IS_OVER,
     "if record.amount >= NONE:"),
    ("d none is over whatever there is", "cells", IS_OVER,
     "if total >= NONE or record.amount > 4294967000:"),
    ("over is said as spent", "cells", "return OVER", "return SPENT"),
    ("over counts as added", "cells", "return OVER", "return ADDED"),
    # the swap
    ("the swap is to d", "cells", SWAPS, SWAPS.replace("total", "record.amount")),
    ("the swap is to one more", "cells", TOTAL,
     TOTAL.replace("record.amount", "1")),
    ("d is taken off", "cells", SWAPS, SWAPS.replace(
        "total", "max(0, ended.answer - record.amount)")),
    ("the swap's values are exchanged", "cells", SWAPS,
     SWAPS.replace("ended.answer, total", "total, ended.answer")),
    ("d 0 is added without a swap", "cells", TOTAL, TOTAL
     + "            if record.amount == 0:\n                return ADDED\n"),
    ("d 0 is a swap of unequal values", "cells",
     "return self.kind == READ or self.expected == self.new",
     "return self.kind == READ or self.expected == self.new and not self.adds"),
    ("d 0 is never lost", "cells", IS_ADDED, IS_ADDED.replace(
        "ended.answer", "ended.answer or record.amount == 0")),
    ("the swap is of cell 0", "cells", SWAPS, SWAPS.replace("ended.cell", "0")),
    # the tries
    ("one try more", "cells", IS_SPENT,
     "if record.swaps_lost > record.tries:"),
    ("one try less", "cells", IS_SPENT,
     "if record.swaps_lost + 1 >= record.tries:"),
    ("one try alone", "cells", IS_SPENT, "if True:"),
    ("tries without end", "cells", IS_SPENT, "if False:"),
    ("at most 7 tries", "cells", IS_SPENT,
     "if record.swaps_lost == min(record.tries, 7):"),
    ("the tries go on in the next add", "cells", "        self.swaps_lost = 0\n",
     "        self.swaps_lost = getattr(self, 'swaps_lost', 0)\n"),
    ("a lost swap is tried again without a read", "cells", READS,
     "self.begin(task, SWAP, ended.cell, 5, 5 + record.amount)\n"),
    ("spent is said as over", "cells", "return SPENT", "return OVER"),
    ("the next read is of cell 0", "cells", READS,
     READS.replace("ended.cell", "0")),
    # the counts
    ("the steps of the last part alone", "cells", STEPS,
     STEPS.replace("+=", "=")),
    ("the steps of swaps alone", "cells", STEPS,
     "record.steps_before += ended.steps * (ended.kind == SWAP)"),
    ("the steps of reads alone", "cells", STEPS,
     "record.steps_before += ended.steps * (ended.kind == READ)"),
    ("a begin of a part is a step", "cells", STEPS, STEPS + " + 1"),
    ("the won of the last part alone", "cells", WON, WON.replace("+=", "=")),
    ("the lost of the last part alone", "cells", LOST, LOST.replace("+=", "=")),
    ("won of swaps alone", "cells", WON,
     "record.won_before += ended.won * (ended.kind == SWAP)"),
    ("lost of swaps alone", "cells", LOST,
     "record.lost_before += ended.lost * (ended.kind == SWAP)"),
    ("a lost swap is a hardware swap lost", "cells", LOST,
     LOST + " + (ended.answer is False)"),
    ("won and lost are exchanged", "cells", "record.won_before, record"
     ".lost_before)\n", "record.lost_before, record.won_before)\n"),
    ("counts have 7 bits", "cells", STEPS,
     "record.steps_before = (record.steps_before + ended.steps) % 128"),
    # the questions
    ("r 0 is taken", "cells", IS_23, IS_23.replace("1 <= tries", "0 <= tries")),
    ("r 9 is taken", "cells", IS_23, IS_23.replace("MOST_TRIES", "9")),
    ("r 8 is refused", "cells", IS_23, IS_23.replace("MOST_TRIES", "7")),
    ("r 1 is refused", "cells", IS_23, IS_23.replace("1 <= tries", "2 <= tries")),
    ("r has 8 bits", "cells", IS_23, IS_23.replace("tries <=",
                                                   "tries % 256 <=")),
    ("r is not asked", "cells", IS_23, IS_23.replace("not", "None is not", 1)),
    ("23 before 9", *asked_before(BUSY_9)),
    ("23 before 8", *asked_before("        if cell is not None and not cell <"
                                  " self.v:\n")),
    ("23 before 7", *asked_before("        if task is not None and not task <"
                                  " self.n:\n")),
    ("an add asks 10 of d", "cells", "number = self.refusal(task=task, cell=cell,"
     " begin=True, tries=tries)", "number = self.refusal(task=task, cell=cell,"
     " begin=True, swap=(amount, 0), tries=tries)"),
    ("an add does not ask 9", "cells", "number = self.refusal(task=task, cell=cell,"
     " begin=True, tries=tries)", "number = self.refusal(task=task, cell=cell,"
     " tries=tries)"),
    ("a refused 23 begins a read", "cells", "            return 23\n",
     "            self.begin(task, READ, cell, 0, 0)\n            return 23\n"),
    ("an add with one try is a read", "cells", "        record.tries = tries\n",
     "        record.tries = tries if tries > 1 else 0\n"),
    ("d and r are exchanged", "cells", "        record.amount = amount\n"
     "        record.tries = tries\n", "        record.amount = tries\n"
     "        record.tries = amount\n"),
    # the blocks
    ("a part holds its block until the add ends", "cells",
     "self.move_counts(before, after)", "self.move_counts(before[:1] if"
     " self.ended and record.busy else before, after)"),
    ("a part keeps the block that it has taken", "cells",
     "self.move_counts(before, after)", "self.move_counts(before[:2] if"
     " self.ended and record.busy else before, after)"),
    # the forms
    ("r stands before d", "cells", "task, cell, amount, tries):",
     "task, cell, tries, amount):"),
    ("an add has three numbers", "reader", "return Add(*numbers(rest, 4))",
     "return Add(*numbers(rest, 3), 1)"),
    ("an add is no action", "reader", "        return form.count * sum(map("
     "count_actions, form.forms))\n    return 1", "        return form.count *"
     " sum(map(count_actions, form.forms))\n    return form.word != 'add'"),
    # what is printed
    ("an add's part has a done line", "cells", GOES_ON,
     GOES_ON.replace("return None", "return ended")),
    ("an add is printed as a swap", "session",
     "task, result.kind, result.cell, answer,", "task, 'swap' if result.kind =="
     " 'add' else result.kind, result.cell, answer,"),
    ("an add is answered yes", "session", "            answer = result.answer\n",
     "            answer = 'yes' if result.answer == 'added' else 'no'\n"),
    ("the end line counts what unfinished adds did", "session",
     "        unfinished = sum(", "        self.hard += sum(record.won_before +"
     " record.lost_before for record in self.cells.tasks)\n"
     "        unfinished = sum("),
    ("an add that has read is finished", "session",
     "unfinished = sum(record.busy", "unfinished = sum(record.busy and not"
     " record.steps_before"),
    ("a spent add is not finished", "session", "        self.finished += 1\n",
     "        self.finished += result.answer != 'spent'\n"),
    ("a spent add's hardware swaps are not counted", "session",
     "self.hard += result.won + result.lost", "self.hard += (result.won +"
     " result.lost) * (result.answer != 'spent')"),
]

LINE = "SIDES[self.side], self.call.task, self.call.word,"
LISTED = "        if mark is not None:\n            marks.append(mark)"
LAST = "        if o.finished:\n            mark = finished_mark(history, o)"

MOMENTS_MISREADINGS = [
    ("a part's word is add", LINE, LINE.replace(
        "self.call.word", "self.call.whole.word")),
    ("parts of unfinished adds are not listed", LISTED, LISTED.replace(
        "None:", "None and (o.whole.finished or o.whole.drop is not None or"
        " o.whole.word != 'add'):")),
    ("parts of withdrawn adds are not listed", LISTED, LISTED.replace(
        "None:", "None and not (o.whole.word == 'add' and o.whole.drop is not"
        " None):")),
    ("finished parts of withdrawn adds are not listed", LISTED, LISTED.replace(
        "None:", "None and not (o.finished and o.whole.drop is not None):")),
    ("an unfinished add's swap is not listed", LISTED, LISTED.replace(
        "None:", "None and (o.finished or o.whole.word != 'add'):")),
    ("an add's reads are not listed", LISTED, LISTED.replace(
        "None:", "None and (o.word == 'swap' or o.whole.word != 'add'):")),
    ("an add's lost swaps are not listed", LISTED, LISTED.replace(
        "None:", "None and (o.answer is not False or o.whole.word != 'add'):")),
    ("an add is listed by its last part", LISTED, LISTED.replace(
        "None:", "None and o is o.whole.parts[-1]:")),
    ("an add is listed by its first part", LISTED, LISTED.replace(
        "None:", "None and o is o.whole.parts[0]:")),
    ("an add's parts stand where it ended", "        return (self.moment, "
     "self.side,", "        return (max(self.call.whole.steps()) if"
     " self.call.whole.word == 'add' else self.moment, self.side,"),
]

NAMED = "            if before == n:\n"
ANSWER = "return begin, i, result.answer"
BECAME = "            return result.answer\n    return UNFINISHED"

NUDGE_MISREADINGS = [
    ("adds can not be named", "nudge", NAMED, NAMED.replace(
        "before == n", "before == n and result.kind != 'add'")),
    ("n counts no adds", "nudge", "            before += 1\n",
     "            before += result.kind != 'add'\n"),
    ("an add's parts are calls", "cells", GOES_ON,
     GOES_ON.replace("return None", "return ended")),
    ("an add begins no call", "nudge", "isinstance(action, reader.BEGINS)",
     "isinstance(action, (reader.Read, reader.Swap))"),
    ("added and spent are alike", "nudge", "        if became != answer:\n",
     "        if became != answer and {became, answer} != {'added', 'spent'}:\n"),
    ("over and spent are alike", "nudge", "        if became != answer:\n",
     "        if became != answer and {became, answer} != {'over', 'spent'}:\n"),
    ("over and added are alike", "nudge", "        if became != answer:\n",
     "        if became != answer and {became, answer} != {'over', 'added'}:\n"),
    ("an add that does not finish is spent", "nudge", BECAME, BECAME.replace(
        "return UNFINISHED", "return 'spent' if actions[begin].word == 'add'"
        " else UNFINISHED")),
    ("an add that is withdrawn is none", "nudge", "            return UNFINISHED"
     "\n        if isinstance", "            return UNFINISHED if"
     " actions[begin].word != 'add' else 'added'\n        if isinstance"),
]

BUS_LINES = "                lines[task].append((record.line, record.wanted_by))\n"
BUS_ENDED = "        if isinstance(result, cells.Finished):\n"

BUS_MISREADINGS = [
    ("an add's last part alone", "bus", BUS_ENDED,
     "        if model.ended and result is None and isinstance(action,"
     " reader.Step):\n            lines[task] = []\n" + BUS_ENDED),
    ("an add's parts have lines of their own", "cells", GOES_ON,
     GOES_ON.replace("return None", "return ended")),
    ("n counts an add's parts", "bus", BUS_ENDED,
     "        if model.ended and result is None and isinstance(action,"
     " reader.Step):\n            before[task] += 1\n" + BUS_ENDED),
    ("an add's swaps alone", "bus", BUS_LINES, BUS_LINES.replace(
        "lines[", "if not (record.adds and record.kind == 'read'):\n"
        "                    lines[")),
    ("an add's reads alone", "bus", BUS_LINES, BUS_LINES.replace(
        "lines[", "if not (record.adds and record.kind == 'swap'):\n"
        "                    lines[")),
    ("an add has no line", "bus", "            yield Call(",
     "            if result.kind != 'add':\n              yield Call("),
    ("a withdrawn add's parts are the next call's", "bus",
     "elif isinstance(action, reader.Drop) and result is None:\n"
     "            lines[task] = []", "elif isinstance(action, reader.Drop) and"
     " result is None:\n            lines[task] = [line for part in"
     " cells.parts_of(lines[task])[:-1] for line in part]"),
]

ASKS_ADD = "if not (record.busy and record.adds):"
FIT_TRIES = "record.tries > MOST_TRIES"
FIT_LOST = "record.swaps_lost >= record.tries"
FIT_STEPS = "record.steps_before <= steps"
FIT_HARD = "record.won_before + record.lost_before <= hard"
FIT_SWAP = "        if record.kind == SWAP:\n            steps += READ_STEPS\n"

FIT_MISREADINGS = [
    ("an add is not asked", ASKS_ADD, "if True:"),
    ("an idle task's add is asked", ASKS_ADD, "if not record.adds:"),
    ("r is not asked", FIT_TRIES, "False"),
    ("r 9 is fit", FIT_TRIES, "record.tries > 9"),
    ("r 8 is unfit", FIT_TRIES, "record.tries > 7"),
    ("swaps lost are not asked", FIT_LOST, "False"),
    ("r swaps lost are fit", FIT_LOST, "record.swaps_lost > record.tries"),
    ("fewer than r - 1 are lost", FIT_LOST,
     "record.swaps_lost + 1 >= record.tries and record.swaps_lost"),
    ("fewer than 8 swaps are lost", FIT_LOST, "record.swaps_lost >= 8"),
    ("steps before are not asked", FIT_STEPS, "True"),
    ("one step more", FIT_STEPS, "record.steps_before <= steps + 1"),
    ("fewer steps", FIT_STEPS, "record.steps_before < steps + (steps == 0)"),
    ("27 steps for each try", FIT_STEPS,
     "record.steps_before <= 27 * record.tries"),
    ("26 steps for each lost one", FIT_STEPS,
     "record.steps_before <= steps - record.swaps_lost"),
    ("6 more in a read too", FIT_SWAP, FIT_SWAP.replace(
        "record.kind == SWAP", "True")),
    ("6 more in a read alone", FIT_SWAP, FIT_SWAP.replace("==", "!=")),
    ("6 more never", FIT_SWAP, FIT_SWAP.replace("record.kind == SWAP", "False")),
    ("hardware swaps before are not asked", FIT_HARD, "True"),
    ("hardware swaps won are not asked", FIT_HARD, "record.lost_before <= hard"),
    ("hardware swaps lost are not asked", FIT_HARD, "record.won_before <= hard"),
    ("each of won and lost is asked", FIT_HARD,
     "max(record.won_before, record.lost_before) <= hard"),
    ("one hardware swap more", FIT_HARD,
     FIT_HARD.replace("<= hard", "<= hard + 1")),
    ("3 hardware swaps for each lost one", FIT_HARD,
     FIT_HARD.replace("<= hard", "<= hard - record.swaps_lost")),
]


def runs(names, program, where, old, new):
    """The program with this one edit."""
    return mutants.edited(names, where, old, new)[program]


def session_run(*edit):
    return runs(("cells", "reader", "rate", "session"), "session", *edit).run


def moments_run(*edit):
    return runs(("cells", "tools", "moments"), "moments", "moments", *edit).run


def tool_run(tool):
    """Of nudge or bus."""
    return lambda *edit: tools.Stored(runs(("cells", tool), tool, *edit)).run


def fit_run(old, new):
    module = mutants.edited(("cells",), "cells", old, new)["cells"]

    def run(state):
        """Whether it is fit, busy and idle."""
        model = add_selftest.add_state(module, *state)
        busy = model.is_fit()
        model.tasks[0].clear_call()
        return busy, model.is_fit()
    return run


def add_cases():
    """The cases of adds of each tool."""
    session = make_cases.Cases()
    cases_add.session_add_cases(session)
    moments = make_moments_cases.Cases()
    cases_add.moments_add_cases(moments)
    nudge = make_nudge_cases.Cases()
    cases_add_tools.nudge_add_cases(nudge, make_nudge_cases.kept)
    bus = make_bus_cases.Cases()
    cases_add_tools.bus_add_cases(bus, make_bus_cases.COUNTS,
                                  make_bus_cases.draw_times)
    return session, moments, nudge, bus


def main():
    # A misread add may try without end.
    resource.setrlimit(resource.RLIMIT_AS, (1 << 30, 1 << 30))
    tools_runs = (session_run, moments_run, tool_run("nudge"), tool_run("bus"))
    misreadings = (CELLS_MISREADINGS, MOMENTS_MISREADINGS, NUDGE_MISREADINGS,
                   BUS_MISREADINGS)
    found = []
    for run, cases, readings in zip(tools_runs, add_cases(), misreadings):
        files = mutants.by_size(cases.files)
        found += [(what, mutants.tellers(run(*edit), files, cases.prints))
                  for what, *edit in readings]
    states = add_selftest.FITS
    fits = {name: (add_selftest.fit_by_the_papers(*state), True)
            for name, state in states.items()}
    found += [(what, mutants.tellers(fit_run(*edit), states, fits))
              for what, *edit in FIT_MISREADINGS]
    return mutants.report(found)


if __name__ == "__main__":
    sys.exit(main())
