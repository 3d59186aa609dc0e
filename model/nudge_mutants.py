#!/usr/bin/env python3
"""How telling the cases of nudge are: wrong readings of change request 9, each
one edit of nudge.py or tools.py, must print something else for at least one case.
The stored cases have numbers only; wrong readings of the arguments must print
something else for one of nudge_selftest.py's lists.

Prints for each wrong reading who tells it (with -a, how many do), and ends with
1 if some reading is told by none.

That a begin or a refused action is never exchanged, so the first action too, is
told by none and left out: their exchange never matters (nudge_selftest.py asks it
of every session).
"""

import sys

import draw
import make_nudge_cases
import mutants
import nudge
import nudge_selftest
from cases_calls import P1

EACH = "for i in range(len(actions) - 1):"
SAME = "if actions[i].task == actions[i + 1].task:"
DROPPED = "        if isinstance(action, reader.Drop):\n"
AFTER = "        if i <= begin or action.task != task:\n"
ENDS = """        elif isinstance(result, cells.Finished):
            if before == n:
"""
FOLLOW = """    if begin == i:
        return begin + 1
    if begin == i + 1:
        return begin - 1
"""
BECAME = """        if became != answer:
            trace.exchange, trace.became = i, became
            return i
    return None
"""
TRIED = "became = becomes(opening, exchanged(actions, i), place_after(begin, i))"
ANSWER = "            return result.answer\n    return UNFINISHED"
FOUND = """            if before == n:
                return begin, i, result.answer
            before += 1
"""
ASK_19 = """    if len(actions) > MOST_ACTIONS:
        raise reader.Bad(19)
"""
ASK_18 = """    trace.named = find_call(opening, actions, task, n)
    if trace.named is None:
        raise reader.Bad(18)
"""
NONE = 'return b"(nudge none)\\n" if i is None else b"(nudge %d)\\n" % i'
SWAPPED = ("return actions[:i] + [actions[i + 1], actions[i]]"
           " + actions[i + 2:]")
NUMBERS = "task, n = reader.numbers(arguments, 2)"


def answers(result):
    """What is compared is this of a finished call."""
    return mutants.both(
        "nudge", (FOUND, FOUND.replace("result.answer", result)),
        (ANSWER, ANSWER.replace("result.answer", result)))


# What is misread; the text replaced; the text put there.
MISREADINGS = [
    # which exchange
    ("the latest exchange", EACH, "for i in reversed(range(len(actions)"
     " - 1)):"),
    ("the second of the two actions is named", NONE, NONE.replace(
        "% i", "% (i + 1)")),
    ("actions are counted from 1", NONE, NONE.replace("% i", "% (i + 1)", 1)),
    ("neighbours of the same task too", SAME, "if False:"),
    ("only neighbours of the same task", SAME, SAME.replace("==", "!=")),
    ("only the call's own task is exchanged", SAME, SAME.replace(
        ":", " or actions[begin].task not in (actions[i].task,"
        " actions[i + 1].task):")),
    ("the call's own task is not exchanged", SAME, "if actions[begin].task in"
     " (actions[i].task, actions[i + 1].task) or actions[i].task =="
     " actions[i + 1].task:"),
    ("only lower tasks are put first", SAME, SAME.replace("==", "<=")),
    ("only higher tasks are put first", SAME, SAME.replace("==", ">=")),
    ("only from the begin on", EACH, "for i in range(begin, len(actions)"
     " - 1):"),
    ("only from before the begin on", EACH, "for i in range(max(begin - 1, 0),"
     " len(actions) - 1):"),
    ("only up to the begin", EACH, "for i in range(begin):"),
    ("only up to the last step", EACH, "for i in range(trace.named[1]):"),
    ("only up to the one before the last step", EACH,
     "for i in range(trace.named[1] - 1):"),
    ("refused actions are left out before", "    begin, _, answer = trace.named"
     "\n", "    model = opened(opening)\n"
     "    actions = [action for action in actions if not"
     " isinstance(act(model, action), cells.Refused)]\n"
     "    trace.named = find_call(opening, actions, task, n)\n"
     "    begin, _, answer = trace.named\n"),
    ("actions of no task are left out before",
     "    begin, _, answer = trace.named\n",
     "    actions = [action for action in actions if action.task < opening.n]\n"
     "    trace.named = find_call(opening, actions, task, n)\n"
     "    begin, _, answer = trace.named\n"),
    ("actions are exchanged over one", SWAPPED, "return actions[:i] +"
     " [*actions[i + 1:i + 3], actions[i]] + actions[i + 3:]"),
    ("the second one is done twice", SWAPPED, "return actions[:i] +"
     " [actions[i + 1]] + actions[i + 1:]"),
    ("the second one is left out", SWAPPED,
     "return actions[:i + 1] + actions[i + 2:] + actions[i + 1:i + 2]"),
    # which call, and what becomes of it
    ("the begin is not followed", FOLLOW, ""),
    ("the begin is followed later only", FOLLOW,
     FOLLOW[:FOLLOW.index("    if begin == i + 1")]),
    ("the begin is followed earlier only", FOLLOW,
     FOLLOW[FOLLOW.index("    if begin == i + 1"):]),
    ("the call is known by its number", TRIED,
     "named = find_call(opening, exchanged(actions, i), trace.task, trace.n)\n"
     "        became = named[2] if named else UNFINISHED"),
    ("counts are compared", *answers("result")),
    ("steps are compared", *answers("(result.answer, result.steps)")),
    ("hardware swaps are compared", *answers("(result.answer, result.hard)")),
    ("won and lost are compared", *answers("(result.answer, result.won)")),
    ("what does not finish is left out", "if became != answer:",
     "if became not in (answer, UNFINISHED):"),
    ("what is not begun is left out", "if became != answer:",
     "if became not in (answer, NOT_BEGUN):"),
    ("only what does not finish", "if became != answer:",
     "if became == UNFINISHED:"),
    ("only a yes that becomes a no", "if became != answer:",
     "if became != answer and answer is not False:"),
    ("only swaps are compared", "if became != answer:",
     "if became != answer and isinstance(answer, bool):"),
    ("a refused begin is passed over",
     "if i == begin and isinstance(result, cells.Refused):", "if False:"),
    ("the session's end is compared", TRIED, TRIED + "\n"
     "        if became == answer and task_ends(opening, actions) !="
     " task_ends(opening, exchanged(actions, i)):\n"
     "            became = None"),
    # drops (change request 12)
    ("a drop does not end the call", DROPPED, "        if False:\n"),
    ("any task's drop ends the call", AFTER, "        if i > begin and"
     " isinstance(action, reader.Drop):\n            return UNFINISHED\n"
     + AFTER),
    ("a refused drop before the begin ends the call", AFTER, "        if"
     " isinstance(action, reader.Drop) and action.task == task:\n"
     "            return UNFINISHED\n" + AFTER),
    ("a drop is nobody's", SAME, "if actions[i].task == actions[i + 1].task and"
     " 'drop' not in (actions[i].word, actions[i + 1].word):"),
    ("drops are left out before", "    begin, _, answer = trace.named\n",
     "    actions = [action for action in actions if action.word != 'drop']\n"
     "    trace.named = find_call(opening, actions, task, n)\n"
     "    begin, _, answer = trace.named\n"),
    ("n counts withdrawn calls", ENDS, "        elif isinstance(action,"
     " reader.Drop):\n            before += 1\n" + ENDS),
    ("a withdrawn call is named too", ENDS, "        elif isinstance(action,"
     " reader.Drop) and before == n:\n            return begin, i, UNFINISHED\n"
     + ENDS),
    # the named call
    ("n is counted from 1", FOUND, FOUND.replace("before == n",
                                                 "before + 1 == n")),
    ("n counts refused begins", "        if action.task != task or isinstance("
     "result, cells.Refused):\n            continue\n",
     "        if action.task != task:\n            continue\n"
     "        if isinstance(result, cells.Refused):\n"
     "            before += not isinstance(action, reader.Step)\n"
     "            continue\n"),
    ("n is not counted", FOUND, FOUND.replace("before == n", "True")),
    ("n counts the calls of all tasks", "        if action.task != task or",
     "        if action.task != task and isinstance(result, cells.Finished):\n"
     "            before += 1\n        if action.task != task or"),
    ("an unfinished call is named too", "            before += 1\n"
     "    return None\n", "            before += 1\n"
     "    return (begin, len(actions), UNFINISHED) if begin is not None and"
     " before == n else None\n"),
    # refusals
    ("18 before 19", ASK_19 + ASK_18, ASK_18 + ASK_19),
    ("2,000 actions are refused", ASK_19, ASK_19.replace(">", ">=")),
    ("2,001 actions are taken", ASK_19, ASK_19.replace("MOST_ACTIONS",
                                                       "MOST_ACTIONS + 1")),
    ("any number of actions is taken", ASK_19, ""),
    ("accepted actions are counted", ASK_19, "    model = opened(opening)\n"
     + ASK_19.replace("len(actions)", "sum(not isinstance(act(model, action),"
                      " cells.Refused) for action in actions)")),
    ("forms are counted", ASK_19, ASK_19.replace(
        "len(actions)", "data.count(b'\\n')")),
    ("19 before the open's", "    opening, actions = tools.take_session(data)\n",
     "    if len(reader.read_session(data)[1]) > MOST_ACTIONS:\n"
     "        raise reader.Bad(19)\n"
     "    opening, actions = tools.take_session(data)\n"),
    ("18 for no task before 12 to 15", "    opening, actions ="
     " tools.take_session(data)\n", "    if task > 31:\n"
     "        raise reader.Bad(18)\n"
     "    opening, actions = tools.take_session(data)\n"),
    ("no task gives 7", ASK_18, ASK_18.replace("(18)", "(18 if task < opening.n"
                                               " else 7)")),
    ("no such call prints none", ASK_18, ASK_18.replace(
        "raise reader.Bad(18)", "return None")),
    ("T has 8 bits", ASK_18, "    task %= 256\n" + ASK_18),
    ("T has 16 bits", ASK_18, "    task %= 2 ** 16\n" + ASK_18),
    ("n has 8 bits", ASK_18, "    n %= 256\n" + ASK_18),
    ("n has 16 bits", ASK_18, "    n %= 2 ** 16\n" + ASK_18),
    ("T and n are exchanged", NUMBERS, NUMBERS.replace("task, n", "n, task")),
    # what is printed
    ("none prints nothing", NONE, NONE.replace('b"(nudge none)\\n" if',
                                               'b"" if')),
    ("none prints the number of actions", NONE, NONE.replace(
        'b"(nudge none)\\n" if', 'b"(nudge %d)\\n" % (len(trace.actions) - 1)'
        " if")),
]

# The same of the arguments, told by nudge_selftest.py's lists.
ARGUMENT_MISREADINGS = [
    ("too few are taken", NUMBERS, "task, n = reader.numbers((arguments +"
     " [b'0'] * 2)[:max(2, len(arguments))], 2)"),
    ("too many are taken", NUMBERS,
     "task, n = reader.numbers(arguments[:2], 2)"),
    ("the last two are taken", NUMBERS,
     "task, n = reader.numbers(arguments[-2:], 2)"),
    ("an empty one is left out", NUMBERS, "task, n = reader.numbers([word for"
     " word in arguments if word], 2)"),
    ("leading zeros are taken", NUMBERS, "task, n = reader.numbers("
     "[word.lstrip(b'0') or word[-1:] for word in arguments], 2)"),
    ("a sign is taken", NUMBERS, "task, n = reader.numbers([word.lstrip(b'+-')"
     " for word in arguments], 2)"),
    ("spaces are left out", NUMBERS,
     "task, n = reader.numbers([word.strip() for word in arguments], 2)"),
    ("one is parted at its spaces", NUMBERS,
     "task, n = reader.numbers(b' '.join(arguments).split(b' '), 2)"),
    ("numbers stop at 32 bits", NUMBERS, "task, n = reader.numbers([b'%d' %"
     " min(int(word), 2 ** 32 - 1) if word.isdigit() and word[0] != 48 else"
     " word for word in arguments], 2)"),
    ("the session is read before", NUMBERS, "tools.take_session(data)\n"
     "        " + NUMBERS),
]


def misread(old, new):
    """nudge.py with this edit.  It keeps the named call's numbers in the trace
    and knows how a session ends, for the edits that ask it."""
    module = mutants.edited(("nudge",), "nudge", old, new)["nudge"]
    first_nudge = module.nudge

    def kept_nudge(task, n, data, trace):
        trace.task, trace.n = task, n
        return first_nudge(task, n, data, trace)

    def task_ends(opening, actions):
        model = nudge.opened(opening)
        for action in actions:
            nudge.act(model, action)
        return [record.line for record in model.tasks], [
            model.look(k) for k in range(model.v)]

    module.nudge, module.task_ends = kept_nudge, task_ends
    return module


def stored_run(module):
    return make_nudge_cases.tools.Stored(module).run


def main():
    cases = make_nudge_cases.make()
    files = mutants.by_size(cases.files)
    data = draw.text(P1)
    lists = {repr((words, end)): (words, end)
             for words in nudge_selftest.bad_arguments(2, [b"0", b"0"])
             for end in (data, b"(")}
    refused = {name: b"(bad 14)\n" for name in lists}

    def args_run(edit):
        run_args = misread(*edit).run_args
        return lambda case: run_args(*case)

    return mutants.report(
        [(what, mutants.tellers(stored_run(misread(*edit)), files,
                                cases.prints))
         for what, *edit in MISREADINGS]
        + [(what, mutants.tellers(args_run(edit), lists, refused))
           for what, *edit in ARGUMENT_MISREADINGS])


if __name__ == "__main__":
    sys.exit(main())
