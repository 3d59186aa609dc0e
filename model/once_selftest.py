#!/usr/bin/env python3
"""Self test of once.py: what CR 1 and source document 003, section 3, claim.

    once_selftest.py [COUNT]

Every way that two and three tasks can interleave on one cell is searched, and
COUNT lists are drawn with more tasks and cells; of each state that comes up
the claims are checked.  Then question 6, state by state, and the forms, read
in two ways.
"""

import copy
import sys
from collections import Counter
from typing import NamedTuple

import draw
import once
import once_lists
import reader
from once import NONE, Refused


def check(what, found, wanted):
    if found != wanted:
        print("once_selftest: %s\n  found  %r\n  wanted %r"
              % (what, found, wanted))
        sys.exit(1)


# ----------------------------------------------------------- the claims

class History(NamedTuple):
    """What the claims need of one cell's past; each event hands back the
    history after it, and checks them."""

    offers: frozenset = frozenset()  # values of the calls begun
    begun: int = 0                   # calls begun
    answer: object = None            # what the finished ones answered
    lone: bool = False               # one ended before any other began
    hard: bool = False               # some call made a hardware swap
    winners: int = 0                 # calls that won the splitter

    def begins(self, value):
        return self._replace(offers=self.offers | {value},
                             begun=self.begun + 1)

    def does(self, line):
        after = self._replace(
            hard=self.hard or line == once.CAS_D,
            winners=self.winners + (line == once.SET_V))
        # "at most one process wins the splitter"
        check("winners of the splitter", after.winners <= 1, True)
        return after.agreed()

    def ends(self, answer):
        # "it was offered there by a call already begun"
        check("%d was offered" % answer, answer in self.offers, True)
        # "all finished calls on a cell give the same value"
        check("the same value", answer,
              answer if self.answer is None else self.answer)
        return self._replace(answer=answer,
                             lone=self.lone or self.begun == 1).agreed()

    def agreed(self):
        # "if one call ends before any other on that cell begins, nobody ever
        # makes a hardware swap on it"
        check("a hardware swap where one call ended alone",
              self.lone and self.hard, False)
        return self


def step_of(model, task, lines, history, paths):
    """A busy task's step, by the claims: the lines done of its call, none if
    it has ended, and the cell's history after it."""
    line = model.tasks[task].line
    result = model.step(task)
    # "pending steps are never refused"
    check("a pending step", isinstance(result, Refused), False)
    lines += (line,)
    history = history.does(line)
    if result is None:
        return lines, history
    path = once.path_of(lines)
    check(path, (result.steps, result.hard), once.PATHS[path])
    check(path + " by its lines", (len(lines), lines.count(once.CAS_D)),
          once.PATHS[path])
    paths[path] += 1
    return (), history.ends(result.answer)


# ---------------------------------------------- every way to interleave

def every_interleaving(values):
    """All states that tasks with these values, one call each, come to on one
    cell; hands back how many, and the paths with how many states end them."""
    paths = Counter()
    start = once.open_once(len(values), 1)
    todo = [(start, ((),) * len(values), History())]
    seen = {key_of(*todo[0])}
    while todo:
        model, lines, history = todo.pop()
        for task, value in enumerate(values):
            after = copy_of(model)
            done, past = lines[task], history
            if after.tasks[task].busy:
                done, past = step_of(after, task, done, past, paths)
            elif task not in after.offered[0]:
                check("a begin", after.begin_offer(task, 0, value), None)
                past = past.begins(value)
            else:
                continue
            reached = (after, (*lines[:task], done, *lines[task + 1:]), past)
            key = key_of(*reached)
            if key not in seen:
                seen.add(key)
                todo.append(reached)
    return len(seen), paths


def copy_of(model):
    """The model with words of its own."""
    other = copy.copy(model)
    other.cells = list(map(copy.copy, model.cells))
    other.tasks = list(map(copy.copy, model.tasks))
    other.offered = list(map(set, model.offered))
    return other


def key_of(model, lines, history):
    return (once.words(model.cells[0]), tuple(map(once.words, model.tasks)),
            frozenset(model.offered[0]), lines, history)


# ------------------------------------------------------------ drawn lists

def drawn_lists(count):
    """Claims on lists of more tasks and cells; hands back the paths."""
    drawn = draw.Draw(2003)
    paths = Counter()
    lone = hard = 0
    for _ in range(count):
        n = drawn.pick((2, 3, 4, 4, 6, 8, 12, 32))
        v = drawn.pick((1, 1, 2, 3, 5, 16))
        style = once_lists.Style(
            length=drawn.between(20, 250), cells=drawn.between(1, v),
            values=drawn.between(2, 40), burst=drawn.between(1, 7),
            idle=drawn.pick((5, 20, 60)), alone=drawn.pick((0, 0, 30, 90)),
            refusals=drawn.pick((0, 10)), halts=drawn.below(4))
        script = once_lists.draw_list(drawn, n, v, style)
        cells = claims_hold(n, v, script.lines[1:], paths)
        lone += sum(cell.lone for cell in cells)
        hard += sum(cell.hard for cell in cells)
    check("cells of either kind", min(lone, hard) > count // 20, True)
    return paths


def claims_hold(n, v, lines, paths):
    """Runs a list's lines by the claims; the cells' histories."""
    model = once.open_once(n, v)
    done = [()] * n
    past = [History()] * v
    for line in lines:
        word, task, *rest = once.read_form(line.encode())
        if word == "step" and task < n and model.tasks[task].busy:
            cell = model.tasks[task].cell
            done[task], past[cell] = step_of(
                model, task, done[task], past[cell], paths)
            continue
        before = everything(model)
        if word == "step":
            result = model.step(task)
        else:
            result = model.begin_offer(task, *rest)
        if isinstance(result, Refused):
            check("a refusal changes nothing", everything(model), before)
        else:
            past[rest[0]] = past[rest[0]].begins(rest[1])
    return past


def everything(model):
    return (list(map(once.words, model.cells)),
            list(map(once.words, model.tasks)),
            list(map(set, model.offered)))


# -------------------------------------------------------------- question 6

# Edits of a state in which task 0 has done two steps of an offer of 5 on cell
# 1 of 2, task 1 is idle and task 2 (the last) has offered 6 on cell 0.
# Whether it is still fit; what is edited.
EDITS = {
    "nothing": (True, lambda m: None),
    # N and V pass 1 and 2
    "n_0": (False, lambda m: setattr(m, "n", 0)),
    "n_33": (False, lambda m: setattr(m, "n", 33)),
    "v_0": (False, lambda m: setattr(m, "v", 0)),
    "v_17": (False, lambda m: setattr(m, "v", 17)),
    # a busy record
    "cell_v": (False, lambda m: setattr(m.tasks[0], "cell", 2)),
    "cell_most": (False, lambda m: setattr(m.tasks[0], "cell", NONE)),
    "last_cell_v": (False, lambda m: setattr(m.tasks[2], "cell", 2)),
    "line_14": (False, lambda m: setattr(m.tasks[0], "line", 14)),
    "last_line_14": (False, lambda m: setattr(m.tasks[2], "line", 14)),
    "value_none": (False, lambda m: setattr(m.tasks[0], "value", NONE)),
    "last_value_none": (False, lambda m: setattr(m.tasks[2], "value", NONE)),
    "steps_9": (True, lambda m: setattr(m.tasks[0], "steps", 9)),
    "steps_10": (False, lambda m: setattr(m.tasks[0], "steps", 10)),
    "last_steps_10": (False, lambda m: setattr(m.tasks[2], "steps", 10)),
    # no limit is set on its hardware swaps
    "hard_9": (True, lambda m: setattr(m.tasks[0], "hard", 9)),
    # an idle record is not asked for the rest
    "idle_cell": (True, lambda m: setattr(m.tasks[1], "cell", 2)),
    "idle_value": (True, lambda m: setattr(m.tasks[1], "value", NONE)),
    "idle_steps": (True, lambda m: setattr(m.tasks[1], "steps", 10)),
    # the cells' words and the offers are not asked at all
    "y_9": (True, lambda m: setattr(m.cells[1], "y", 9)),
    "v_none": (True, lambda m: setattr(m.cells[1], "v", NONE)),
    "nobody_offered": (True, lambda m: m.offered[1].clear()),
}
for _line in range(1, 14):
    EDITS["line_%d" % _line] = (
        True, lambda m, line=_line: setattr(m.tasks[0], "line", line))


def edited(module, edit):
    model = module.open_once(3, 2)
    model.begin_offer(0, 1, 5)
    model.step(0)
    model.step(0)
    model.begin_offer(2, 0, 6)
    edit(model)
    return model


def entry_answers(module, edit):
    """What each entry answers in the edited state, with numbers that are
    right and with some that are wrong, and what it leaves behind."""
    def asked(entry):
        model = edited(module, edit)
        return tuple(entry(model) or ()), everything(model)

    return tuple(map(asked, (
        lambda m: m.begin_offer(1, 1, 7), lambda m: m.step(0),
        lambda m: m.begin_offer(40, 20, NONE), lambda m: m.step(40))))


def question_6():
    for name, (fit, edit) in EDITS.items():
        as_before = everything(edited(once, edit))
        offer, step, *wrong = entry_answers(once, edit)
        for asked in wrong:
            check(name, asked, ((7 if fit else 6,), as_before))
        if fit:
            check(name, (offer[0], step[0] == (6,)), ((), False))
        else:
            check(name, (offer, step), (((6,), as_before),) * 2)
    # "Fit is not kept from any fit state": line 6 where V is none
    model = edited(once, EDITS["line_%d" % once.TAKE_V][1])
    check("line 6", (model.step(0), model.is_fit()), (None, False))


# --------------------------------------------------------------- the forms

def form_by_reader(line):
    """A line's form once more, by the session file's reader."""
    try:
        items, = reader.take_lines(line + b"\n")
        for word, count in (("open", 2), ("offer", 3), ("step", 1)):
            if items[:1] == [word.encode()]:
                return (word, *reader.numbers(items[1:], count))
    except reader.Bad:
        pass
    return None


def forms_two_ways(count):
    drawn = draw.Draw(14)
    good = 0
    for _ in range(count):
        word, items = drawn.pick((("open", 2), ("offer", 3), ("step", 1)))
        numbers = [drawn.pick((0, drawn.below(40), NONE - drawn.below(3)))
                   for _ in range(items)]
        line = bytearray(once_lists.form(word, *numbers).encode())
        for _ in range(drawn.below(3)):
            at = drawn.below(len(line))
            line[at:at + drawn.below(2)] = drawn.pick(
                (b"", b"0", b"1", b"9", b" ", b"(", b")", b"\r", b"s"))
        found = once.read_form(bytes(line))
        check("the form of %r" % line, found, form_by_reader(bytes(line)))
        good += found is not None
    check("both answers come up", count // 10 < good < count * 9 // 10, True)


def main():
    count = int(sys.argv[1]) if len(sys.argv) > 1 else 400
    question_6()
    forms_two_ways(5000)
    ways = [every_interleaving(values) for values in ((5,), (5, 6), (5, 6, 7))]
    check("the path of one task", set(ways[0][1]), {"won_alone"})
    paths = drawn_lists(count)
    check("paths of three tasks", set(ways[2][1]), set(once.PATHS))
    check("paths of the drawn lists", set(paths), set(once.PATHS))
    print("once_selftest: %s states of 1 to 3 tasks on one cell and %d calls "
          "of %d drawn lists keep the claims"
          % (" + ".join(str(states) for states, _ in ways),
             sum(paths.values()), count))


if __name__ == "__main__":
    main()
