#!/usr/bin/env python3
"""Self test of moments.py: what change request 8 and the source's section 5 say
of the printed list.

    moments_selftest.py [COUNT]

P1 to P10 by hand.  Then COUNT drawn sessions, some with drops, each judged from
its printed text: every finished call is listed once and every unfinished or
withdrawn one at most once, after its begin and not later than its last step; fed
to plain cells in the printed order they give every finished call's answer; every
moment is at a line that its rule names; and the abstract value (the source's AV)
changes just where a swap that changes its cell is listed, and is what every other
call saw.  Then the same sessions tell the wrong readings of moments_mutants.py.
"""

import re
import sys

import cells
import draw
import moments
import moments_mutants
import reader
import session
import shaker
from cases_calls import P1, P9, P10
from cases_drop import late_stores
from selftest import NewBlockEachTime, begun

NONE = cells.NONE


class Wrong(Exception):
    """What a printed list does not keep."""


def claim(what, holds):
    if not holds:
        raise Wrong(what)


def check(what, found, wanted):
    if found != wanted:
        print("moments_selftest: %s\n  found  %r\n  wanted %r"
              % (what, found, wanted))
        sys.exit(1)


# ---------------------------------------------------------- by hand

def printed(lines):
    return moments.run(draw.text(lines)).decode().split("\n")[:-1]


def cases_from_the_paper():
    # swap at 0, its lines 15 to 21 at 1 to 7, line 23 at 8; read at 11, lines
    # 10 to 12 at 12 to 14
    check("P1", printed(P1), ["(at 8 itself 0 swap 0 C4)",
                              "(at 13 itself 1 read 0 R1)"])
    # the read of line 14: begun at 0, line 11 at 2
    check("P5", printed(["(open 2 1 5 (5))", "(swap 0 0 5 5)",
                         "(again 3 (step 0))"]),
          ["(at 2 itself 0 swap 0 C1)"])
    # line 20 at 6
    check("P6", printed(["(open 2 1 5 (5))", "(swap 0 0 4 6)",
                         "(again 8 (step 0))"]),
          ["(at 6 itself 0 swap 0 C2)"])
    for lines in (["(open 2 1 5 (5))", "(step 0)"],
                  ["(open 2 1 5 (5))", "(read 2 1)", "(swap 2 1 5 7)"],
                  ["(open 32 1 65 (5))"]):
        check("P2, P7, P8", printed(lines), [])
    for number, first in ((1, "(open 33 1 67 (5))"), (3, "(open 2 1 3 (5))"),
                          (5, "(open 2 1 5 (4294967295))")):
        check("P2, P3, P4", printed([first]), ["(bad %d)" % number])
    # both begin at 0 and 1; task 0 steps at 2 and 3, task 1 at 4 to 10.  P9:
    # task 0 makes the block inactive at 12 (line 27); task 1 stores at 13, so
    # late, and decides at 16; task 0 ends by 28.  Its next swap begins at 21 and
    # replaces the block with its 13th step, at 34; the last begins at 35.
    check("P9", printed(P9), ["(at 12 itself 1 swap 0 C3)",
                              "(at 16 itself 0 swap 0 C5)",
                              "(at 34 itself 0 swap 0 C6)",
                              "(at 43 itself 0 swap 0 C4)"])
    # P10: task 0 decides; task 1's last 14 steps are at 16 to 29
    check("P10", printed(P10), ["(at 29 itself 1 swap 0 C6)",
                                "(at 29 after 0 swap 0 C6)"])


# ------------------------------------------- a session told from its actions

class Call:
    def __init__(self, begin, action):
        self.begin = begin
        self.last = begin
        self.task, self.cell, *self.swap = action
        self.lines = {}      # action -> line, of its steps
        self.finished = False
        self.answer = None

    @property
    def word(self):
        return "swap" if self.swap else "read"

    @property
    def rule(self):
        """The label at the statement that a finished call returned from."""
        path = cells.path_of([self.lines[i] for i in sorted(self.lines)])
        if path.startswith("read"):
            if self.swap:
                return "C1"
            return "R1" if path == "read_active" else "R2"
        for start, rule in (("no_from_22", "C2"), ("yes_from_25", "C3"),
                            ("yes_from_26", "C4"), ("no_from_28", "C5"),
                            ("end_at_30", "C6")):
            if path.startswith(start):
                return rule
        raise AssertionError(path)

    def on_plain_cell(self, value):
        """The answer, and the cell's value after it."""
        if not self.swap:
            return value, value
        expected, new = self.swap
        return (True, new) if value == expected else (False, value)


class Told:
    """A session run on the figure, with the abstract value after each action,
    once the decided values are known."""

    def __init__(self, data):
        opening, actions = reader.read_session(data)
        n, v, b, values = opening
        self.values = values
        self.model = NewBlockEachTime(n, v, b, [0] * (5 * b), values, False)
        self.calls = []
        self.steps = {}     # action -> (line, cell), of every step done
        self.seen = []      # after each action, of each cell: block, C, V
        under_way = {}
        for i, action in enumerate(actions):
            self.act(i, action, under_way)
            self.seen.append([self.look(k) for k in range(v)])
        self.abstract = self.abstract_values()

    def begin(self, i, task, under_way):
        """A read or a swap, an add's or not."""
        _, *numbers = begun(task, self.model.tasks[task])
        under_way[task] = Call(i, numbers)
        self.calls.append(under_way[task])

    def act(self, i, action, under_way):
        task, call = action.task, under_way.get(action.task)
        if call is not None and isinstance(action, reader.Step):
            record = self.model.tasks[task]
            call.last = i
            call.lines[i] = record.line, record.wanted_by
            self.steps[i] = record.line, call.cell
        result = self.model.act(action.word, *action)
        if isinstance(result, cells.Refused):
            return
        if isinstance(action, reader.Drop):
            del under_way[task]
        elif not isinstance(action, reader.Step):
            self.begin(i, task, under_way)
        elif self.model.ended:
            call.finished, call.answer = True, self.model.ended.answer
            del under_way[task]
            if result is None:
                self.begin(i, task, under_way)

    def look(self, cell):
        block = self.model.current[cell]
        return block, self.model.pool[5 * block + 2], self.model.pool[
            5 * block + 3]

    def abstract_values(self):
        """AV after each action: "V while b is active", else dv(b).  A block that
        is never decided keeps the value it had: nobody listed changed it."""
        before = list(self.values)
        rows = []
        for cells_then in self.seen:
            row = []
            for k, (block, c, value) in enumerate(cells_then):
                decided = self.model.pool[5 * block + 4]
                if c:
                    value = before[k] if decided == NONE else decided
                row.append(value)
            rows.append(row)
            before = row
        return rows

    def abstract_at(self, i, cell):
        return self.abstract[i][cell] if i >= 0 else self.values[cell]


AT = re.compile(r"\(at (0|[1-9][0-9]*) (before|itself|after) (0|[1-9][0-9]*) "
                r"(read|swap) (0|[1-9][0-9]*) (R1|R2|C1|C2|C3|C4|C5|C6)\)")

# Where a rule's moment may be: its own line, or a line of another call on the
# same cell.
OWN_LINES = {"R1": (11,), "R2": (10, 2), "C1": (11, 10, 2), "C2": (20,),
             "C3": (23,), "C4": (23,), "C5": (15, 2), "C6": (30,)}
OTHERS_LINES = {"R2": (2,), "C1": (2,), "C5": (2,), "C3": (27,), "C6": (30,)}


def judge(data, text):
    """Raises Wrong if the printed text breaks a claim; else how many calls are
    listed."""
    told = Told(data)
    plain = list(told.values)
    listed = []
    places = []
    for line in text.decode().split("\n")[:-1]:
        match = AT.fullmatch(line)
        claim("the form of a line", match)
        i, side, task, word, cell, rule = match.groups()
        i, task, cell = int(i), int(task), int(cell)
        # "every one at a moment after its begin and no later than its last
        # step"
        own = [c for c in told.calls
               if c.task == task and c.begin < i <= c.last]
        claim("a moment after its begin and not later than its last step",
              len(own) == 1)
        call = own[0]
        claim("listed once", call not in listed)
        listed.append(call)
        claim("word and cell", (word, cell) == (call.word, call.cell))
        judge_rule(told, call, i, side, rule)
        # the same answer on plain cells
        answer, plain[cell] = call.on_plain_cell(plain[cell])
        if call.finished:
            claim("the answer on plain cells", answer == call.answer)
        else:
            # "CR 8's tool lists a withdrawn swap by its rule for unfinished
            # ones" (change request 12)
            claim("an unfinished one is listed as yes", answer is True)
        judge_abstract_value(told, call, i, side, answer)
        changes = answer is True and call.swap[0:1] != call.swap[1:]
        places.append((i, ("before", "itself", "after").index(side),
                       not (call.swap and changes), task))
    claim("in order", places == sorted(places))
    claim("no two alike", len(set(places)) == len(places))
    for call in told.calls:
        claim("every finished call is listed",
              call in listed or not call.finished)
    # AV changes only where a swap that changes its cell is listed
    changed = {(i, k) for i in range(len(told.abstract))
               for k in range(len(told.values))
               if told.abstract_at(i, k) != told.abstract_at(i - 1, k)}
    claim("the abstract value changes with a listed swap", changed == {
        (place[0], call.cell) for place, call in zip(places, listed)
        if not place[2]})
    # a change shares its action and side with nobody
    shared = [place[:2] for place in places]
    for place in places:
        claim("a change is alone", place[2] or shared.count(place[:2]) == 1)
    return len(listed)


def judge_rule(told, call, i, side, rule):
    """The label, and a line that it names."""
    if call.finished:
        claim("the label", rule == call.rule)
    else:
        claim("an unfinished one's label", rule in ("C3", "C4"))
        claim("an unfinished one has stored",
              23 in [line for line, _ in call.lines.values()])
    claim("a moment is a step", i in told.steps)
    line, cell = told.steps[i]
    own = i in call.lines
    claim("on its cell", cell == call.cell)
    claim("a line of its rule",
          line in (OWN_LINES if own else OTHERS_LINES).get(rule, ()))
    after = rule == "C6" and not call.answer
    claim("the side", side == ("after" if after else "itself"))
    claim("another replaced its block", own != after or rule != "C6")


def judge_abstract_value(told, call, i, side, answer):
    before = told.abstract_at(i - 1, call.cell)
    after = told.abstract_at(i, call.cell)
    if call.swap and answer is True and call.swap[0] != call.swap[1]:
        claim("the abstract value before and after a change",
              [before, after] == call.swap and side == "itself")
        return
    value = before if side == "before" else after
    claim("the abstract value that it saw",
          call.on_plain_cell(value) == (answer, value))


# ------------------------------------------------------------ drawn sessions

def many_lives(drawn, drops):
    """A few tasks on one cell; its blocks are filled again and again."""
    n = drawn.between(2, 3)
    return draw.draw_session(drawn, n, 1, cells.least_blocks(n, 1), draw.Style(
        length=300, values=3, burst=drawn.between(1, 4), right_guess=95,
        reads=10, equal=3, drops=drops))


def drawn_sessions(count, drops=(0, 4, 12), seed=2008):
    drawn = draw.Draw(seed)
    for number in range(count):
        n = drawn.pick((2, 2, 3, 3, 4, 6))
        v = drawn.between(1, 2)
        b = cells.least_blocks(n, v) + drawn.pick((0, 0, 1, 5))
        if number % 5 == 4:
            yield shaker.shake(drawn.below(2 ** 32), n, v, b,
                               drawn.between(20, 300))
            continue
        if number % 5 in (2, 3):
            maker = (late_stores, many_lives)[number % 5 - 2]
            yield draw.text(maker(drawn, drawn.pick(drops)))
            continue
        yield draw.text(draw.draw_session(drawn, n, v, b, draw.Style(
            length=drawn.between(20, 150), hot_cells=v,
            values=drawn.between(2, 4), burst=drawn.between(1, 8),
            refusals=drawn.pick((0, 5)), halts=drawn.below(3),
            reads=drawn.pick((10, 30)), equal=drawn.pick((5, 20)),
            runs_out=drawn.pick((0, 30)), drops=drawn.pick(drops))))


def judged(name, data):
    text = moments.run(data)
    try:
        return judge(data, text)
    except Wrong as wrong:
        check("%s: %s\n%s%s" % (name, wrong, data.decode(), text.decode()),
              False, True)


def answers_are_the_pool_s(data):
    """The figure's finished reads and swaps are those that the session program
    came by, with the same answers."""
    trace = moments.Trace()
    moments.run(data, trace)
    found = {(o.last_action, o.task, o.word, o.cell, o.answer)
             for o in with_last_actions(trace.history)}
    played = session.Trace()
    session.run(data, played)
    check("the pool's answers",
          sorted(map(repr, ((task, word, cell, answer)
                            for _, task, word, cell, answer in found))),
          sorted(repr((task, done.kind, done.cell, done.answer))
                 for task, done, _ in played.parts))


def with_last_actions(history):
    for o in history.calls:
        if o.finished:
            o.last_action = max(o.at.values())
            yield o


def wrong_readings_are_told(sessions, texts):
    """Which of moments_mutants.py's readings the drawn sessions tell, and which
    of them by a claim."""
    by_text = by_claim = 0
    for what, *edit in moments_mutants.MISREADINGS:
        run = moments_mutants.misread(*edit).run
        told = claimed = False
        for data, text in zip(sessions, texts):
            other = run(data)
            if other == text:
                continue
            told = True
            try:
                judge(data, other)
            except (Wrong, ValueError):
                claimed = True
                break
        by_text += told
        by_claim += claimed
        if not told:
            print("moments_selftest: no drawn session tells: %s" % what)
            sys.exit(1)
    return by_text, by_claim


def main():
    count = int(sys.argv[1]) if len(sys.argv) > 1 else 400
    cases_from_the_paper()
    sessions = list(drawn_sessions(count))
    listed = sum(judged("drawn session %d" % number, data)
                 for number, data in enumerate(sessions))
    for data in sessions:
        answers_are_the_pool_s(data)
    print("moments_selftest: %d drawn sessions with %d calls listed keep the "
          "claims" % (count, listed))
    texts = [moments.run(data) for data in sessions]
    by_text, by_claim = wrong_readings_are_told(sessions, texts)
    print("moments_selftest: they tell %d wrong readings, %d of them by a claim"
          % (by_text, by_claim))


if __name__ == "__main__":
    main()
