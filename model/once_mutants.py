#!/usr/bin/env python3
"""How telling the cases of the once-only cells are: wrong readings of CR 1,
each one edit of once.py, must print something else for at least one case.
No list breaks question 6; its wrong readings must answer otherwise in one of
once_selftest.py's edited states.

Prints for each wrong reading who tells it (with -a, how many do), and ends
with 1 if some reading is told by none.
"""

import sys

import make_once_cases
import mutants
import once
import once_selftest

LOOK = """            if cell.d != NONE:
                return cell.d
            record.line = CAS_D
"""
TEST_C = "            record.line = LOOK_D if cell.c != 0 else SET_D\n"
TEST_V = "            record.line = TAKE_V if cell.v != NONE else LOOK_D\n"
TAKE = "            record.value = cell.v\n            record.line = LOOK_D\n"
STORE_D = ("            cell.d = record.value\n"
           "            return record.value\n")
HARD = """            record.hard += 1
            if cell.d == NONE:
                cell.d = record.value
"""
ASK_8 = "        if not cell < self.v:\n            return 8\n"
ASK_9 = "        if self.tasks[task].busy:\n            return 9\n"
ASK_16 = "        if task in self.offered[cell]:\n            return 16\n"
ASK_10 = "        if value == NONE:\n            return 10\n"
ASK_7_8 = "        if not task < self.n:\n            return 7\n" + ASK_8
ASK_7_11 = ("        if not task < self.n:\n            return 7\n"
            "        if not self.tasks[task].busy:\n            return 11\n")
ANSWER_D = "elif line == GET_D:\n            return cell.d\n"
OPENED = """        self.once = open_once(n, v)
        self.i = 0
        if isinstance(self.once, Refused):
            self.refused(self.once)
"""
READ_LINE = "form = read_form(line)"
NO_OPEN = "if form is None or self.once is None and form[0] != \"open\":"
LAST_LINE = "        if rest:\n            self.bad()\n"
NUMBER = 'NUMBER = rb"(0|[1-9][0-9]{0,9})"'
LIMIT = "if max(numbers) <= MOST_NUMBER:"

# What is misread; the text replaced; the text put there.
MISREADINGS = [
    # the last paragraph of section 3
    ("the look at D left out", "elif line == LOOK_D:\n" + LOOK
     + "        elif line == CAS_D:", "elif line in (LOOK_D, CAS_D):"),
    ("the look at D tests nothing", LOOK,
     "            record.line = CAS_D\n"),
    ("the look at D is part of line 7", LOOK, LOOK + "            record.steps"
     " -= 1\n            return self.do_line(task, record, cell)\n"),
    ("the look at D answers the own value", LOOK,
     LOOK.replace("return cell.d", "return record.value")),
    ("the look at D answers V", LOOK, LOOK.replace(
        "return cell.d", "return cell.v if cell.v != NONE else cell.d")),
    ("the look at D answers only one's own value", LOOK, LOOK.replace(
        "!= NONE", "== record.value")),
    ("after a look that finds D line 8 follows", LOOK, LOOK.replace(
        "return cell.d", "record.line = GET_D\n                return None")),
    ("a lone winner does not write D", TEST_C,
     "            if cell.c == 0:\n                return record.value\n"
     "            record.line = LOOK_D\n"),
    ("a lone winner's write leaves D", STORE_D,
     "            return record.value\n"),
    ("a lone winner goes on to line 8", STORE_D,
     "            cell.d = record.value\n            record.line = GET_D\n"),
    ("a lone winner writes D by a hardware swap", STORE_D,
     "            record.hard += 1\n" + STORE_D),
    ("a lone winner looks at D first", TEST_C,
     "            record.line = LOOK_D\n"),
    ("the winner writes D before it looks at C", TEST_C,
     TEST_C.replace("            rec", "            cell.d = record.value\n"
                    "            rec")),
    # line 3
    ("the winner does not look at C", TEST_C,
     "            record.line = SET_D\n"),
    ("the winner leaves line 3 out",
     "            cell.v = record.value\n            record.line = GET_C\n",
     "            cell.v = record.value\n            record.line = SET_D\n"),
    ("a winner that finds C answers its own value", TEST_C,
     "            if cell.c != 0:\n                return record.value\n"
     "            record.line = SET_D\n"),
    ("a winner that finds C goes to line 4", TEST_C,
     TEST_C.replace("LOOK_D", "SET_C")),
    ("a winner that finds C goes to line 5", TEST_C,
     TEST_C.replace("LOOK_D", "GET_V")),
    ("a winner that finds C goes to line 6", TEST_C,
     TEST_C.replace("LOOK_D", "TAKE_V")),
    ("a winner that finds C does not look at D", TEST_C,
     TEST_C.replace("LOOK_D", "CAS_D")),
    ("a winner that finds C goes to line 8", TEST_C,
     TEST_C.replace("LOOK_D", "GET_D")),
    ("C before V", "cell.x != task else SET_V\n\n        # the splitter won\n"
     "        elif line == SET_V:\n            cell.v = record.value\n"
     "            record.line = GET_C\n        elif line == GET_C:\n" + TEST_C,
     "cell.x != task else GET_C\n\n        # the splitter won\n"
     "        elif line == GET_C:\n"
     "            record.line = LOOK_D if cell.c != 0 else SET_V\n"
     "        elif line == SET_V:\n            cell.v = record.value\n"
     "            record.line = SET_D\n"),
    # line 2
    ("the winner does not write V",
     "            cell.v = record.value\n            record.line = GET_C\n",
     "            record.line = GET_C\n"),
    ("V is written only where C is false",
     "            cell.v = record.value\n            record.line = GET_C\n",
     "            if cell.c == 0:\n                cell.v = record.value\n"
     "            record.line = GET_C\n"),
    # the splitter
    ("X is not written", "            cell.x = task\n", ""),
    ("X is written once", "            cell.x = task\n",
     "            cell.x = task if cell.x == NO_TASK else cell.x\n"),
    ("X has four bits", "cell.x = task\n", "cell.x = task % 16\n"),
    ("Y is not tested", "SET_C if cell.y != 0 else SET_Y", "SET_Y"),
    ("Y is not written", "            cell.y = 1\n", ""),
    ("Y is tested and written at once", "SET_C if cell.y != 0 else SET_Y",
     "SET_C if cell.y != 0 else GET_X\n            cell.y = 1"),
    ("X is not tested", "SET_C if cell.x != task else SET_V", "SET_V"),
    ("Y before X", "            cell.x = task\n"
     "            record.line = GET_Y\n"
     "        elif line == GET_Y:\n"
     "            record.line = SET_C if cell.y != 0 else SET_Y\n",
     "            record.line = SET_C if cell.y != 0 else GET_Y\n"
     "        elif line == GET_Y:\n            cell.x = task\n"
     "            record.line = SET_Y\n"),
    ("a winner resets Y", STORE_D, "            cell.y = 0\n" + STORE_D),
    ("who loses at X resets Y", "SET_C if cell.x != task else SET_V",
     "SET_C if cell.x != task else SET_V\n"
     "            cell.y = int(cell.x == task)"),
    ("who loses at X tries again", "SET_C if cell.x != task else SET_V",
     "SET_X if cell.x != task else SET_V"),
    # lines 4 to 6
    ("C is not written", "            cell.c = 1\n", ""),
    ("line 4 after line 5", "            cell.c = 1\n"
     "            record.line = GET_V\n        elif line == GET_V:\n" + TEST_V,
     "            record.line = GET_V if cell.v == NONE else TAKE_V\n"
     "        elif line == GET_V:\n            cell.c = 1\n"
     "            record.line = LOOK_D\n"),
    ("a loser looks at D before V", "            cell.c = 1\n"
     "            record.line = GET_V\n", "            cell.c = 1\n"
     "            if cell.d != NONE:\n                return cell.d\n"
     "            record.line = GET_V\n"),
    ("V is not looked at", TEST_V, "            record.line = LOOK_D\n"),
    ("lines 5 and 6 are one load", TEST_V,
     "            if cell.v != NONE:\n                record.value = cell.v\n"
     "            record.line = LOOK_D\n"),
    ("V is looked at only once, at line 6", TEST_V,
     "            record.line = TAKE_V\n"),
    ("a loser that finds no V ends with its own value", TEST_V,
     "            if cell.v == NONE:\n                return record.value\n"
     "            record.line = TAKE_V\n"),
    ("a loser that finds no V waits for it", TEST_V,
     TEST_V.replace("else LOOK_D", "else GET_V")),
    ("a loser that finds no V does not look at D", TEST_V,
     TEST_V.replace("LOOK_D", "CAS_D")),
    ("a loser that finds V answers it", TAKE, "            return cell.v\n"),
    ("a loser that finds V does not look at D", TAKE,
     TAKE.replace("LOOK_D", "CAS_D")),
    ("a loser keeps its own value though V is there", TAKE,
     "            record.line = LOOK_D\n"),
    ("a loser writes V where it is none", TEST_V,
     TEST_V + "            if cell.v == NONE:\n"
     "                cell.v = record.value\n"),
    ("0 in V is none", TEST_V, TEST_V.replace("!= NONE", "not in (0, NONE)")),
    # lines 7 and 8
    ("0 in D is none for the look", LOOK,
     LOOK.replace("!= NONE", "not in (0, NONE)")),
    ("0 in D is none for the swap", HARD,
     HARD.replace("== NONE", "in (0, NONE)")),
    ("the swap always stores", HARD, HARD.replace("cell.d == NONE", "True")),
    ("the swap never stores", HARD, HARD.replace("cell.d == NONE", "False")),
    ("the swap stores V", HARD, HARD.replace("= record.value", "= cell.v")),
    ("a lost swap is not counted", HARD,
     HARD.replace("record.hard += 1", "record.hard += cell.d == NONE")),
    ("a won swap is not counted", HARD,
     HARD.replace("record.hard += 1", "record.hard += cell.d != NONE")),
    ("a won swap answers at once", HARD, HARD
     + "                return cell.d\n"),
    ("a lost swap answers at once", HARD, HARD
     + "            else:\n                return cell.d\n"),
    ("the last step answers the own value", ANSWER_D,
     ANSWER_D.replace("cell.d", "record.value")),
    ("the last step answers V", ANSWER_D, ANSWER_D.replace(
        "cell.d", "cell.v if cell.v != NONE else cell.d")),
    # the records, the cells
    ("one cell for all", "self.cells = [Cell() for _ in range(v)]",
     "self.cells = [Cell()] * v"),
    ("the begin counts as a step", "        record.line = SET_X\n",
     "        record.line = SET_X\n        record.steps = 1\n"),
    ("the begin does the first step", "        record.line = SET_X\n",
     "        record.line = GET_Y\n        self.cells[cell].x = task\n"),
    ("steps add up over a task's calls", "        record.clear()\n",
     "        record.line = IDLE\n        record.hard = 0\n"),
    ("hardware swaps add up over a task's calls", "        record.clear()\n",
     "        record.line = IDLE\n        record.steps = 0\n"),
    ("a finished task stays busy", "        record.clear()\n", ""),
    ("values have 16 bits", "        record.value = value\n",
     "        record.value = value % 65536\n"),
    # questions 1 and 2
    ("N up to 31", "1 <= n <= MOST_TASKS", "1 <= n < MOST_TASKS"),
    ("N up to 33", "1 <= n <= MOST_TASKS", "1 <= n <= MOST_TASKS + 1"),
    ("N from 0", "1 <= n <= MOST_TASKS", "0 <= n <= MOST_TASKS"),
    ("N from 2", "1 <= n <= MOST_TASKS", "2 <= n <= MOST_TASKS"),
    ("N has 8 bits", "1 <= n <= MOST_TASKS", "1 <= n % 256 <= MOST_TASKS"),
    ("V up to 15", "1 <= v <= MOST_CELLS", "1 <= v < MOST_CELLS"),
    ("V up to 17", "1 <= v <= MOST_CELLS", "1 <= v <= MOST_CELLS + 1"),
    ("V from 0", "1 <= v <= MOST_CELLS", "0 <= v <= MOST_CELLS"),
    ("V from 2", "1 <= v <= MOST_CELLS", "2 <= v <= MOST_CELLS"),
    ("V has 8 bits", "1 <= v <= MOST_CELLS", "1 <= v % 256 <= MOST_CELLS"),
    ("1 left out", "    if not 1 <= n <= MOST_TASKS:\n        return 1\n", ""),
    ("2 left out", "    if not 1 <= v <= MOST_CELLS:\n        return 2\n", ""),
    ("2 before 1", "    if not 1 <= n <= MOST_TASKS:\n        return 1\n"
     "    if not 1 <= v <= MOST_CELLS:\n        return 2\n",
     "    if not 1 <= v <= MOST_CELLS:\n        return 2\n"
     "    if not 1 <= n <= MOST_TASKS:\n        return 1\n"),
    # questions 7 to 11 and 16
    ("an offer does not ask 7", ASK_7_8, "        task %= self.n\n" + ASK_8),
    ("an offer asks 7 of 8 bits", ASK_7_8, "        task %= 256\n" + ASK_7_8),
    ("a step does not ask 7", ASK_7_11, "        if task >= self.n or not"
     " self.tasks[task].busy:\n            return 11\n"),
    ("8 left out", ASK_8, "        cell %= self.v\n"),
    ("9 left out", ASK_9, ""),
    ("9 asks for this cell alone", ASK_9, ASK_9.replace(
        "busy:", "busy and self.tasks[task].cell == cell:")),
    ("16 left out", ASK_16, ""),
    ("10 left out", ASK_10, ""),
    ("10 asks for 0", ASK_10, ASK_10.replace("value ==", "value in (0,")
     .replace("NONE:", "NONE):")),
    ("11 left out", "        if not self.tasks[task].busy:\n"
     "            return 11\n", ""),
    ("task N", "        if not task < self.n:\n            return 7\n"
     "        if not cell", "        if not task <= self.n:\n"
     "            return 7\n        if not cell"),
    ("cell V", "not cell < self.v", "not cell <= self.v"),
    ("8 before 7", ASK_7_8, ASK_8 + ASK_7_8),
    ("10 before 7", ASK_7_8, ASK_10 + ASK_7_8),
    ("9 before 8", ASK_8, ASK_9 + ASK_8),
    ("10 before 8", ASK_8, ASK_10 + ASK_8),
    ("16 before 9", ASK_9, ASK_16 + ASK_9),
    ("10 before 9", ASK_9, ASK_10 + ASK_9),
    ("10 before 16", ASK_16, ASK_10 + ASK_16),
    ("16 has the number 12", "return 16", "return 12"),
    ("offered is kept for the task alone",
     "self.offered = [set() for _ in range(v)]", "self.offered = [set()] * v"),
    ("offered is kept for the cell alone", ASK_16,
     ASK_16.replace("task in ", "")),
    ("offered is kept for 16 tasks", ASK_16,
     ASK_16.replace("task in", "task % 16 in")),
    ("offered asks only of lost calls", ASK_16, ASK_16.replace(
        "if ", "if self.cells[cell].x != task and ")),
    ("offered asks only for the same value", ASK_16, ASK_16.replace(
        "[cell]:", "[cell] and value == self.cells[cell].d:")),
    ("an offer refused by 10 counts as offered", ASK_10, ASK_10.replace(
        "            ret", "            self.offered[cell].add(task)\n"
        "            ret")),
    ("an offer refused by 9 counts as offered", ASK_9, ASK_9.replace(
        "            ret", "            self.offered[cell].add(task)\n"
        "            ret")),
    ("an offer refused by 9 ends the call", ASK_9, ASK_9.replace(
        "            ret", "            self.tasks[task].clear()\n"
        "            ret")),
    ("an offer to a decided cell is refused", ASK_16, ASK_16.replace(
        "[cell]:", "[cell] or self.cells[cell].d != NONE:")),
    # the program
    ("refused actions are not counted", "            self.refused(result)\n"
     "        elif", "            self.refused(result)\n"
     "            self.i -= 1\n        elif"),
    ("actions are counted from 1", OPENED,
     OPENED.replace("self.i = 0", "self.i = 1")),
    ("actions are counted over the lists", OPENED,
     OPENED.replace("self.i = 0", "pass")),
    ("actions are counted in 8 bits", "        self.i += 1\n",
     "        self.i = (self.i + 1) % 256\n"),
    ("a refused open leaves the list before it", OPENED,
     "        opened = open_once(n, v)\n"
     "        if isinstance(opened, Refused) and self.once is not None:\n"
     "            self.i = 0\n            self.refused(opened)\n"
     "            return\n" + OPENED),
    ("a second open leaves the list before it", OPENED, OPENED.replace(
        "open_once(n, v)", "open_once(n, v) if not isinstance(self.once, Once)"
        " or (n, v) != (self.once.n, self.once.v) else self.once")),
    ("a second open is bad", NO_OPEN, NO_OPEN[:-1]
     + " or self.once is not None and form[0] == \"open\":"),
    ("a refused open ends the run", READ_LINE,
     "if isinstance(self.once, Refused):\n                return\n"
     "            " + READ_LINE),
    ("lines after a refused open are refused",
     "elif not isinstance(self.once, Refused):\n",
     "elif isinstance(self.once, Refused):\n"
     "                self.refused(self.once)\n            else:\n"),
    ("bad lines are skipped after a refused open", READ_LINE, READ_LINE
     + "\n            if isinstance(self.once, Refused) and form is None:\n"
     "                continue"),
    ("no byte 10 is wanted after a refused open", LAST_LINE,
     LAST_LINE.replace("if rest", "if rest and not isinstance("
                       "self.once, Refused)")),
    ("a first line may be no open", NO_OPEN,
     "if self.once is None and form and form[0] != \"open\":\n"
     "                continue\n            if form is None:"),
    ("a bad line takes back what was printed",
     'self.out.append("(bad 14)")', 'self.out = ["(bad 14)"]'),
    ("a bad line is passed over", "                self.bad()\n"
     "                return\n", "                self.bad()\n"
     "                continue\n"),
    ("a bad line has the number 13", '"(bad 14)"', '"(bad 13)"'),
    ("a last line without byte 10 is left out", LAST_LINE, ""),
    ("a last line without byte 10 is read",
     '*lines, rest = data.split(b"\\n")',
     'lines, rest = data.split(b"\\n"), b""\n'
     '        lines = lines[:-1] if not lines[-1] else lines'),
    ("the last line is done before it is bad",
     '*lines, rest = data.split(b"\\n")',
     '*lines, rest = data.split(b"\\n")\n'
     '        lines += [rest] if rest else []'),
    ("empty input is bad", LAST_LINE,
     LAST_LINE.replace("if rest", "if rest or not lines")),
    ("empty lines are left out", READ_LINE,
     "if not line:\n                continue\n            " + READ_LINE),
    ("spaces around are left out", READ_LINE,
     READ_LINE.replace("(line)", "(line.strip(b' '))")),
    ("byte 13 is left out", READ_LINE,
     READ_LINE.replace("(line)", "(line.rstrip(b'\\r'))")),
    ("several spaces", READ_LINE, READ_LINE.replace(
        "(line)", "(b' '.join(filter(None, line.split(b' '))))")),
    ("tabs are spaces", READ_LINE,
     READ_LINE.replace("(line)", "(line.replace(b'\\t', b' '))")),
    ("capitals", READ_LINE, READ_LINE.replace("(line)", "(line.lower())")),
    ("text after a form", "form.fullmatch(line)", "form.match(line)"),
    ("text before a form", "form.fullmatch(line)",
     "re.fullmatch(b'.*' + form.pattern, line)"),
    ("leading zeros", NUMBER, 'NUMBER = rb"([0-9]{1,10})"'),
    ("zeros as a leading zero", NUMBER, 'NUMBER = rb"(0+|[1-9][0-9]{0,9})"'),
    ("no zero", NUMBER, 'NUMBER = rb"([1-9][0-9]{0,9})"'),
    ("nine digits", NUMBER, 'NUMBER = rb"(0|[1-9][0-9]{0,8})"'),
    ("signs", NUMBER, 'NUMBER = rb"([-+]?(?:0|[1-9][0-9]{0,9}))"'),
    ("no number", NUMBER, 'NUMBER = rb"(0|[1-9]?[0-9]{0,9})"'),
    ("numbers up to 4294967294", LIMIT, LIMIT.replace("<=", "<")),
    ("numbers up to 4294967296", LIMIT, LIMIT.replace("<=", "<= 1 +")),
    ("numbers of ten digits", LIMIT, "if True:"),
    ("numbers wrap at 32 bits", LIMIT, "numbers = [x % 2 ** 32 for x in"
     " numbers]\n            if True:"),
    ("only the first number is limited", LIMIT,
     LIMIT.replace("max(numbers)", "numbers[0]")),
    ("only the last number is limited", LIMIT,
     LIMIT.replace("max(numbers)", "numbers[-1]")),
    ("longer words", 'rb"\\(step %s\\)"', 'rb"\\(steps? %s\\)"'),
    ("more items of a step", 'rb"\\(step %s\\)"', 'rb"\\(step %s.*\\)"'),
    ("an open of document 01", 'rb"\\(open %s %s\\)"',
     'rb"\\(open %s %s(?: .*)?\\)"'),
    ("no closing bracket", 'rb"\\(step %s\\)"', 'rb"\\(step %s\\)?"'),
    ("cell before task", "task, result.cell, result.answer",
     "result.cell, task, result.answer"),
    ("hard before steps", "result.steps, result.hard))",
     "result.hard, result.steps))"),
]

# The same of question 6.
CELL = "record.cell < self.v\n"
LINE = "record.line in LINES\n"
VALUE = "record.value != NONE\n"
STEPS = "record.steps <= MOST_STEPS_SO_FAR\n"
FIT_MISREADINGS = [
    ("6 leaves out N and V", "        if open_refusal(self.n, self.v):\n"
     "            return False\n", ""),
    ("6 leaves out N", "open_refusal(self.n, self.v):",
     "open_refusal(1, self.v):"),
    ("6 leaves out V", "open_refusal(self.n, self.v):",
     "open_refusal(self.n, 1):"),
    ("6 leaves out the cell", CELL, "True\n"),
    ("6 takes cell V", CELL, CELL.replace("<", "<=")),
    ("6 leaves out the line", LINE, "True\n"),
    ("6 takes line 14", LINE, LINE.replace("LINES", "LINES | {14}")),
    ("6 leaves out the first line", LINE,
     LINE.replace("LINES", "LINES - {1}")),
    ("6 leaves out the write of D", LINE,
     LINE.replace("LINES", "LINES - {7}")),
    ("6 leaves out the look at D", LINE,
     LINE.replace("LINES", "LINES - {11}")),
    ("6 leaves out the last line", LINE,
     LINE.replace("LINES", "LINES - {13}")),
    ("6 leaves out the value", VALUE, "True\n"),
    ("6 leaves out the steps", STEPS, "True\n"),
    ("6 takes 10 steps", STEPS, STEPS.replace("<=", "<= 1 +")),
    ("6 takes 8 steps", STEPS, STEPS.replace("<=", "<")),
    ("6 limits the hardware swaps", STEPS,
     STEPS.replace("\n", " and record.hard <= 1\n")),
    ("6 asks the first task alone", "self.tasks if record.busy)",
     "self.tasks[:1] if record.busy)"),
    ("6 asks any one", "return all(record.cell", "return any(record.cell"),
    ("6 asks idle records too", " for record in self.tasks if record.busy)",
     " for record in self.tasks if record.busy or record.cell)"),
    ("6 asks idle records' values",
     " for record in self.tasks if record.busy)",
     " for record in self.tasks if record.busy or record.value)"),
    ("6 asks idle records' steps", " for record in self.tasks if record.busy)",
     " for record in self.tasks if record.busy or record.steps)"),
    ("an offer does not ask 6", "            return 6\n"
     "        if not task < self.n:\n            return 7\n"
     "        if not cell", "            pass\n"
     "        if not task < self.n:\n            return 7\n"
     "        if not cell"),
    ("a step does not ask 6", "            return 6\n" + ASK_7_11,
     "            pass\n" + ASK_7_11),
    ("an offer asks 7 before 6", "        if not self.is_fit():\n"
     "            return 6\n" + ASK_7_8, "        if not task < self.n:\n"
     "            return 7\n        if not self.is_fit():\n"
     "            return 6\n" + ASK_8),
    ("a step asks 7 before 6", "        if not self.is_fit():\n"
     "            return 6\n" + ASK_7_11, "        if not task < self.n:\n"
     "            return 7\n        if not self.is_fit():\n"
     "            return 6\n" + ASK_7_11),
    ("line 6 where V is none keeps the own value", TAKE,
     "            record.value = min(record.value, cell.v)\n"
     "            record.line = LOOK_D\n"),
]


def misread(old, new):
    return mutants.edited(("once",), "once", old, new)["once"]


def main():
    cases = make_once_cases.make()
    inputs = mutants.by_size(cases.files)
    states = {name: edit for name, (_, edit) in once_selftest.EDITS.items()}
    answers = {name: once_selftest.entry_answers(once, edit)
               for name, edit in states.items()}

    def answers_of(module):
        return lambda edit: once_selftest.entry_answers(module, edit)

    return mutants.report(
        [(what, mutants.tellers(misread(*edit).run, inputs, cases.prints))
         for what, *edit in MISREADINGS]
        + [(what, mutants.tellers(answers_of(misread(*edit)), states, answers))
           for what, *edit in FIT_MISREADINGS])


if __name__ == "__main__":
    sys.exit(main())
