#!/usr/bin/env python3
"""How telling the cases of the shaker are: wrong readings of change request 6,
each one edit of shaker.py, must print something else for at least one case.
The stored lines have numbers only; wrong readings of the arguments must print
something else for one of shake_selftest.py's lists of them.

Prints for each wrong reading who tells it (with -a, how many do), and ends
with 1 if some reading is told by none.
"""

import sys

import make_shake_cases
import mutants
import shake_selftest
import shaker
import tools

NEXT = "self.state = (1664525 * self.state + 1013904223) % 2 ** 32"
YIELD = "return self.state // 65536"
TASK = "task = generator.draw() % n"
BUSY = "if model.tasks[task].busy:"
DRAWS = """    swaps = generator.draw() % 2 == 1
    cell = generator.draw() % v
    if not swaps:
        return reader.Read(task, cell)
    expected = generator.draw() % 4
    new = generator.draw() % 4
"""
BEGIN = "action = draw_begin(generator, task, v)"
BEGUN = "model.act(action.word, *action)\n        actions"
ASK_3 = """    number = cells.open_refusal(n, v, b, range(cells.WORDS * b), None)
    if number:
        return number
"""
ASK_17 = """    if not 1 <= length <= MOST_LENGTH:
        return 17
"""
OPENING = 'opening = "(open %d %d %d (%s))\\n" % (n, v, b, " ".join(["0"] * v))'
ACTIONS = 'return (opening + "".join(map(line_of, actions))).encode("ascii")'
TIMES = "for _ in range(length):"
NUMBERS = "numbers = reader.numbers(arguments, 5)"


def draws(old, new):
    """The draws of a begin with one edit."""
    assert DRAWS.count(old) == 1, old
    return DRAWS, DRAWS.replace(old, new)


# What is misread; the text replaced; the text put there.
MISREADINGS = [
    # the generator
    ("a draw yields the state before, the seed first",
     NEXT + "\n        " + YIELD, "before = self.state\n        " + NEXT
     + "\n        return before // 65536"),
    ("a draw yields the low half", YIELD, "return self.state % 65536"),
    ("a draw yields the whole state", YIELD, "return self.state"),
    ("a draw yields 15 bits", YIELD, "return self.state // 65536 % 2 ** 15"),
    ("a draw is divided by 65,535", YIELD, "return self.state // 65535"),
    ("a draw is divided by 32,768", YIELD, "return self.state // 32768"),
    ("a draw is divided by 131,072", YIELD, "return self.state // 131072"),
    ("a draw is rounded up", YIELD, "return -(-self.state // 65536)"),
    ("a draw is rounded to the nearest", YIELD,
     "return (self.state + 32768) // 65536"),
    ("the yield is the next state", YIELD,
     "self.state //= 65536\n        return self.state"),
    ("another multiplier", NEXT, NEXT.replace("1664525", "1664527")),
    ("another increment", NEXT, NEXT.replace("1013904223", "1013904224")),
    ("no increment", NEXT, NEXT.replace(" + 1013904223", "")),
    ("the increment is multiplied too", NEXT,
     "self.state = 1664525 * (self.state + 1013904223) % 2 ** 32"),
    ("multiplier and increment exchanged", NEXT,
     "self.state = (1013904223 * self.state + 1664525) % 2 ** 32"),
    ("the state wraps at 31 bits", NEXT, NEXT.replace("** 32", "** 31")),
    ("the state wraps at 33 bits", NEXT, NEXT.replace("** 32", "** 33")),
    ("the state wraps at 64 bits", NEXT, NEXT.replace("** 32", "** 64")),
    ("the state wraps at 2^32 - 1", NEXT, NEXT.replace("2 ** 32",
                                                       "(2 ** 32 - 1)")),
    ("the product stops at 32 bits", NEXT,
     "self.state = (min(1664525 * self.state, 2 ** 32 - 1) + 1013904223)"
     " % 2 ** 32"),
    ("the sum stops at 32 bits", NEXT, "self.state = min(1664525 * self.state"
     " % 2 ** 32 + 1013904223, 2 ** 32 - 1)"),
    ("the seed has 31 bits", "self.state = seed", "self.state = seed % 2 ** 31"),
    ("the seed has 16 bits", "self.state = seed", "self.state = seed % 2 ** 16"),
    ("the seed 0 is 1", "self.state = seed", "self.state = seed or 1"),
    ("a first draw is thrown away", "self.state = seed",
     "self.state = (1664525 * seed + 1013904223) % 2 ** 32"),
    # the actions
    ("the task is drawn mod 32", TASK, "task = generator.draw() % 32 % n"),
    ("the task is drawn by the high bits", TASK,
     "task = generator.draw() * n // 65536"),
    ("one task draws none", TASK, "task = generator.draw() % n if n > 1 else 0"),
    ("one cell draws none", *draws("generator.draw() % v",
                                   "generator.draw() % v if v > 1 else 0")),
    ("the task is drawn among the idle ones first", TASK,
     "task = generator.draw() % n\n        idle = [t for t in range(n)"
     " if not model.tasks[t].busy]\n        task = idle[task % len(idle)]"
     " if idle else task"),
    ("a busy task draws a kind too", BUSY,
     BUSY + "\n            generator.draw()"),
    ("read is 1 and swap 0", *draws("== 1", "== 0")),
    ("the kind is drawn mod 3", *draws("% 2 == 1", "% 3 == 1")),
    ("the kind is the high bit", *draws("generator.draw() % 2 == 1",
                                        "generator.draw() >= 32768")),
    ("the cell is drawn before the kind", DRAWS,
     DRAWS.replace("    swaps = generator.draw() % 2 == 1\n"
                   "    cell = generator.draw() % v\n",
                   "    cell = generator.draw() % v\n"
                   "    swaps = generator.draw() % 2 == 1\n")),
    ("the cell is drawn mod 16", *draws("% v", "% 16 % v")),
    ("the cell is always 0", *draws("generator.draw() % v",
                                    "generator.draw() % v * 0")),
    ("the cell is not drawn", *draws("generator.draw() % v", "task % v")),
    ("the cell is drawn mod N", BEGIN,
     "action = draw_begin(generator, task, min(n, v))"),
    ("a read draws values too", *draws("        return reader.Read",
     "        generator.draw(), generator.draw()\n        return reader.Read")),
    ("the new value is drawn first", DRAWS,
     DRAWS.replace("    expected = generator.draw() % 4\n"
                   "    new = generator.draw() % 4\n",
                   "    new = generator.draw() % 4\n"
                   "    expected = generator.draw() % 4\n")),
    ("expected is drawn mod 5", *draws("expected = generator.draw() % 4",
                                       "expected = generator.draw() % 5")),
    ("new is drawn mod 5", *draws("new = generator.draw() % 4",
                                  "new = generator.draw() % 5")),
    ("values are drawn mod 3", DRAWS, DRAWS.replace("% 4", "% 3")),
    ("values are 1 to 4", DRAWS, DRAWS.replace("% 4", "% 4 + 1")),
    ("one draw is both values", *draws("new = generator.draw() % 4",
                                       "new = (expected + 1) % 4")),
    ("a swap's values are kept unequal", *draws(
        "    new = generator.draw() % 4\n", "    new = generator.draw() % 4\n"
        "    while new == expected:\n        new = generator.draw() % 4\n")),
    ("a begin also steps", BEGUN, BEGUN.replace(
        "\n", "\n            model.step(task)\n")),
    ("a read is done with its begin", BEGUN,
     "if isinstance(action, reader.Swap):\n                " + BEGUN),
    ("a busy task may begin", BUSY, "if model.tasks[task].busy"
     " and model.tasks[task].steps < 20:"),
    ("a read takes three steps", BUSY, "if model.tasks[task].steps == 3 and"
     " model.tasks[task].runs_read_lines:\n"
     "            model.tasks[task].clear()\n        " + BUSY),
    ("a swap takes ten steps", BUSY, "if model.tasks[task].steps == 10 and"
     " model.tasks[task].kind == cells.SWAP:\n"
     "            model.tasks[task].clear()\n        " + BUSY),
    ("a task that was ever begun is busy", BUSY,
     "if any(action[0] == task for action in actions):"),
    # the text
    ("one action fewer", TIMES, "for _ in range(length - 1):"),
    ("one action more", TIMES, "for _ in range(length + 1):"),
    ("the length counts begins only", TIMES, "while sum(not isinstance("
     "action, reader.Step) for action in actions) < length:"),
    ("the values are 1", OPENING, OPENING.replace('"0"', '"1"')),
    ("one value too few", OPENING, OPENING.replace("* v", "* (v - 1)")),
    ("one value alone", OPENING, OPENING.replace("* v", "* 1")),
    ("a value for each task", OPENING, OPENING.replace("* v", "* n")),
    ("the least blocks are opened", OPENING,
     OPENING.replace("n, v, b,", "n, v, v + 2 * n - 1,")),
    ("V before N", OPENING, OPENING.replace("n, v, b,", "v, n, b,")),
    ("no open", ACTIONS, ACTIONS.replace("opening", "''")),
    ("no last line end", ACTIONS, ACTIONS.replace(".encode",
                                                  ".rstrip().encode")),
    ("an empty line at the end", ACTIONS, ACTIONS.replace(
        ".encode", ".__add__('\\n').encode")),
    ("equal lines are written with again", ACTIONS,
     "lines = list(map(line_of, actions))\n"
     "    text = ''.join(lines)\n"
     "    for line in set(lines):\n"
     "        text = text.replace(line * 2, '(again 2 %s)\\n' % line.strip())\n"
     "    return (opening + text).encode('ascii')"),
    ("all on one line", ACTIONS, ACTIONS.replace(
        '"".join(map(line_of, actions))',
        '"".join(map(line_of, actions)).replace("\\n", " ")')),
    # the refusals
    ("length 0 is taken", ASK_17, ASK_17.replace("1 <=", "0 <=")),
    ("length 3,000 is refused", ASK_17, ASK_17.replace("<= MOST", "< MOST")),
    ("length 3,001 is taken", ASK_17, ASK_17.replace("LENGTH", "LENGTH + 1")),
    ("length 1 is refused", ASK_17, ASK_17.replace("1 <=", "1 <")),
    ("the length has 16 bits", ASK_17, ASK_17.replace("<= length",
                                                      "<= length % 2 ** 16")),
    ("17 before 1", ASK_3 + ASK_17, ASK_17 + ASK_3),
    ("17 before 3", ASK_3 + ASK_17, ASK_17.replace(
        "if not", "if 1 <= n <= 32 and 1 <= v <= 16 and not") + ASK_3),
    ("17 before 2", ASK_3 + ASK_17, ASK_17.replace(
        "if not", "if 1 <= n <= 32 and not") + ASK_3),
    ("a wrong length gives 15", ASK_17, ASK_17.replace("17", "15")),
    ("a refusal prints (no 0 R)", 'b"(bad %d)\\n" % number',
     'b"(no 0 %d)\\n" % number'),
    *(("%s has %d bits" % (letter.upper(), bits), ASK_3,
       "    %s %%= 2 ** %d\n" % (letter, bits) + ASK_3)
      for letter in "nvb" for bits in (8, 16)),
    ("the least blocks are V + 2 x N, as before", ASK_3,
     "    if b == v + 2 * n - 1:\n        return 3\n" + ASK_3),
    ("the least blocks are one fewer", ASK_3,
     ASK_3.replace("n, v, b, range(cells.WORDS * b)",
                   "n, v, min(b + 1, 129), range(5 * min(b + 1, 129))")),
    ("numbers are exchanged: length before B",
     "def shake(seed, n, v, b, length):", "def shake(seed, n, v, length, b):"),
    ("numbers are exchanged: the seed last",
     "def shake(seed, n, v, b, length):", "def shake(n, v, b, length, seed):"),
    ("numbers are exchanged: V before N",
     "def shake(seed, n, v, b, length):", "def shake(seed, v, n, b, length):"),
]

# The same of the arguments, told by shake_selftest.py's lists.
ARGUMENT_MISREADINGS = [
    ("too few are taken", NUMBERS,
     "numbers = reader.numbers((arguments + [b'1'] * 5)[:max(5,"
     " len(arguments))], 5)"),
    ("too many are taken", NUMBERS,
     "numbers = reader.numbers(arguments[:5], 5)"),
    ("the program's name is one", NUMBERS,
     "numbers = reader.numbers(arguments[-5:], 5)"),
    ("an empty one is left out", NUMBERS,
     "numbers = reader.numbers([word for word in arguments if word], 5)"),
    ("leading zeros are taken", NUMBERS,
     "numbers = reader.numbers([word.lstrip(b'0') or word[-1:] for word in"
     " arguments], 5)"),
    ("spaces are left out", NUMBERS,
     "numbers = reader.numbers([word.strip() for word in arguments], 5)"),
    ("a sign is taken", NUMBERS,
     "numbers = reader.numbers([word.lstrip(b'+') for word in arguments], 5)"),
    ("one argument is parted at its spaces", NUMBERS,
     "numbers = reader.numbers(b' '.join(arguments).split(b' '), 5)"),
    ("numbers wrap at 32 bits", NUMBERS,
     "numbers = reader.numbers([b'%d' % (int(word) % 2 ** 32) if"
     " word.isdigit() and word[0] != 48 else word for word in arguments], 5)"),
    ("numbers stop at 32 bits", NUMBERS,
     "numbers = reader.numbers([b'%d' % min(int(word), 2 ** 32 - 1) if"
     " word.isdigit() and word[0] != 48 else word for word in arguments], 5)"),
    ("the seed alone may be any text", NUMBERS,
     "numbers = reader.numbers([b'0'] + arguments[1:], 5)"),
    ("a wrong number of them gives 13", NUMBERS,
     "if len(arguments) != 5:\n            raise reader.Bad(13)\n        "
     + NUMBERS),
    ("1 to 17 come before 14", NUMBERS,
     "if len(arguments) == 5 and arguments[1] == b'0':\n"
     "            return b'(bad 1)\\n'\n        " + NUMBERS),
]


def misread(old, new):
    return mutants.edited(("shaker",), "shaker", old, new)["shaker"]


def main():
    cases = make_shake_cases.make()
    # those that print the least first
    inputs = dict(sorted(cases.files.items(),
                         key=lambda item: len(cases.prints[item[0]])))
    lists = {repr(words): words for words in shake_selftest.bad_arguments()}
    answers = {name: shaker.shake_arguments(words)
               for name, words in lists.items()}
    return mutants.report(
        [(what, mutants.tellers(tools.Stored(misread(*edit)).run, inputs,
                                cases.prints))
         for what, *edit in MISREADINGS]
        + [(what, mutants.tellers(misread(*edit).shake_arguments, lists,
                                  answers))
           for what, *edit in ARGUMENT_MISREADINGS])


if __name__ == "__main__":
    sys.exit(main())
