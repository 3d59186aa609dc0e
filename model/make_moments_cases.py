"""The cases of moments, which make_tool_cases.py writes.

Each file is a session.  Everything is the same on every run.  The cases must come
by every rule with each of its moments, and by every way in which a call is left
unfinished or withdrawn, listed or not.
"""

from collections import Counter

import cells
import make_cases
import moments
from cases_calls import paper_cases
from cases_drop import moments_drop_cases
from cases_moments import (again_cases, drawn_cases, early_cases, halt_cases,
                           lives_cases, long_cases, observer_cases, path_cases,
                           refusal_cases, shared_cases, store_cases,
                           unfinished_cases)

# The kept sessions stay below this many bytes, and so does what one prints.
MOST_DATA = 500000
MOST_PRINTED = 100000

# What the cases come by, each at least so often.
WANTED = {
    "R1": 100, "C2": 100, "C4": 100, "C6 yes": 100, "C6 no": 100,
    "C3 at its store": 20, "C3 late": 50,
    "R2 at its line": 50, "R2 at its own decision": 10,
    "R2 at another's decision": 30,
    "C5 at its line": 50, "C5 at its own decision": 10,
    "C5 at another's decision": 30,
    **{"C1 %s %s" % (how, answer): 5 for answer in ("yes", "no")
       for how in ("at line 11", "at its line", "at its own decision",
                   "at another's decision")},
    "unfinished, C4 at 24": 5, "unfinished, C4 at 26": 5,
    "unfinished, C4 that saw C": 5, "unfinished, C3": 20,
    "not listed, a read": 20, "not listed, a swap of equal values": 10,
    "not listed, begun only": 5, "not listed, late and undecided": 10,
    "not listed, late and another value decided": 10,
    "not listed, never stored though D is its new value": 10,
    "not listed, at 22": 3, "not listed, at 30": 10,
    "not listed, a swap before its store": 20,
    "withdrawn, C4 at 24": 20, "withdrawn, C4 at 26": 10,
    "withdrawn, C4 that saw C": 3,
    "withdrawn, C3 decided before its drop": 10,
    "withdrawn, C3 decided after its drop": 20,
    "withdrawn, not listed, a read": 5,
    "withdrawn, not listed, a swap of equal values": 5,
    "withdrawn, not listed, begun only": 10,
    "withdrawn, not listed, late and undecided": 3,
    "withdrawn, not listed, late and another value decided": 20,
    "withdrawn, not listed, never stored though D is its new value": 5,
    "withdrawn, not listed, at 22": 1, "withdrawn, not listed, at 30": 3,
    "withdrawn, not listed, a swap before its store": 20,
    "several at one decision": 20, "several noes after one replacement": 10,
    "a no of a lower task than the one that replaced": 5,
    "a no of a higher task than the one that replaced": 5,
}


class Cases(make_cases.Cases):
    def __init__(self):
        super().__init__(moments)
        self.seen = Counter()
        self.refusals = Counter()
        self.listed = 0

    def add(self, name, data):
        trace = super().add(name, data)
        self.refusals += trace.refusals
        self.listed += len(trace.marks)
        if trace.history is not None:
            self.seen.update(seen_in(trace))
        assert len(self.prints[name]) < MOST_PRINTED, name
        return trace


def how_decided(history, mark, load):
    """Where an observer of a decided block stands."""
    o = mark.call
    if mark.moment == o.at[load]:
        return "at its line"
    if mark.moment == o.at[2]:
        return "at its own decision"
    return "at another's decision"


def kind_of_finished(history, mark):
    o, rule = mark.call, mark.rule
    yes = "yes" if o.answer else "no"
    if rule == "R2":
        return "R2 " + how_decided(history, mark, 10)
    if rule == "C1":
        how = ("at line 11" if o.last[0] == 12
               else how_decided(history, mark, 10))
        return "C1 %s %s" % (how, yes)
    if rule == "C3":
        late = mark.moment != o.at[23]
        return "C3 late" if late else "C3 at its store"
    if rule == "C5":
        return "C5 " + how_decided(history, mark, 15)
    return "C6 " + yes if rule == "C6" else rule


def kind_of_unfinished(history, o, mark):
    if mark is not None:
        if mark.rule == "C3":
            return "unfinished, C3"
        line = {23: "at 24", 24: "at 26"}.get(o.last[0], "that saw C")
        if o.last == (24, 0) and o.next_line != 26:
            line = "that saw C"
        return "unfinished, C4 " + line
    if o.last is None:
        return "not listed, begun only"
    if o.word == cells.READ:
        return "not listed, a read"
    if o.expected == o.new:
        return "not listed, a swap of equal values"
    if 23 in o.at:
        if o.block in history.decided:
            return "not listed, late and another value decided"
        return "not listed, late and undecided"
    if history.decided_value(o.block) == o.new:
        return "not listed, never stored though D is its new value"
    line = o.next_line
    if line in (22, 30):
        return "not listed, at %d" % line
    return "not listed, a swap before its store"


def kind_of_withdrawn(history, o, mark):
    kind = kind_of_unfinished(history, o, mark)
    if mark is None:
        return "withdrawn, " + kind
    if mark.rule == "C3":
        return "withdrawn, C3 decided %s its drop" % (
            "before" if history.decided[o.block] < o.drop else "after")
    return kind.replace("unfinished", "withdrawn")


def seen_in(trace):
    """What a session came by, of WANTED's names."""
    listed = {mark.call: mark for mark in trace.marks}
    history = trace.history
    for o in history.calls:
        if o.finished:
            yield kind_of_finished(history, listed[o])
        else:
            kind_of = (kind_of_unfinished if o.drop is None
                       else kind_of_withdrawn)
            yield kind_of(history, o, listed.get(o))
    places = {}
    for mark in trace.marks:
        places.setdefault((mark.moment, mark.side), []).append(mark)
    for (moment, side), marks in places.items():
        if side == moments.AFTER:
            winner = places[moment, moments.ITSELF][0].call.task
            for mark in marks:
                yield "a no of a %s task than the one that replaced" % (
                    "lower" if mark.call.task < winner else "higher")
        if len(marks) > 1:
            yield ("several noes after one replacement"
                   if side == moments.AFTER else "several at one decision")


def make():
    cases = Cases()
    paper_cases(cases)
    path_cases(cases)
    observer_cases(cases)
    store_cases(cases)
    halt_cases(cases)
    unfinished_cases(cases)
    shared_cases(cases)
    lives_cases(cases)
    early_cases(cases)
    refusal_cases(cases)
    again_cases(cases)
    long_cases(cases)
    drawn_cases(cases)
    moments_drop_cases(cases)
    for kind, count in WANTED.items():
        assert cases.seen[kind] >= count, (kind, cases.seen[kind])
    assert set(cases.seen) == set(WANTED), set(cases.seen) - set(WANTED)
    assert {*range(1, 6), *range(7, 16)} == set(cases.refusals)
    assert sum(map(len, cases.files.values())) < MOST_DATA
    return cases


def say(cases):
    return "%d calls listed, %d left out" % (cases.listed, sum(
        count for kind, count in cases.seen.items()
        if "not listed" in kind))
