"""The session cases, and how the cases of any program are written.

FOLDER/data/NAME are the files, FOLDER/args their names, one to a line, and
FOLDER/stdout holds for each a line `# NAME` and then what the model prints.
Where a program plays standard input first, that is FOLDER/stdin, and its answers
stand first in FOLDER/stdout.
Everything is the same on every run.  Where a name promises a refusal, a path
or a line, the case is checked to keep it.
"""

import os
import re
import sys

import draw
import session
from cases_attempts import attempt_cases
from cases_calls import (contention_cases, halt_cases, meeting_cases,
                         paper_cases, path_cases, pool_cases, rate_cases)
from cases_drop import session_drop_cases
from cases_fill import fill_cases
from cases_files import again_cases, bracket_cases, form_cases
from cases_refusals import (action_refusals, file_refusals, open_edges,
                            open_refusals)

HERE = os.path.dirname(os.path.abspath(__file__))


class Cases:
    """The cases in order, by name, of a program that the model has."""

    def __init__(self, program=session):
        self.program = program
        self.files = {}
        self.prints = {}
        self.stdin = None
        self.pins = set()

    def add(self, name, data):
        """One case; hands back the trace of its run."""
        if not isinstance(data, bytes):
            data = draw.text(data)
        assert re.fullmatch("[a-z0-9_]+", name), name
        assert name not in self.files, name
        trace = self.program.Trace()
        self.files[name] = data
        self.prints[name] = self.program.run(data, trace)
        # "it can arise only in a state no opening leads to" (change request 10)
        assert 20 not in trace.refusals, name
        return trace

    def pin(self, name, data, text):
        """A case stored before change request 13, which answers it otherwise; it
        leaves when the cases of adds are stored."""
        self.add(name, data)
        self.prints[name] = text
        self.pins.add(name)

    def refused(self, name, data, *numbers):
        """A case named refuse_NN_... or edge_...: its refusals are these."""
        trace = self.add(name, data)
        assert sorted(trace.refusals.elements()) == sorted(numbers), (
            name, self.prints[name][:200])

    def accepted(self, name, data):
        self.refused(name, data)


def make():
    cases = Cases()
    paper_cases(cases)
    path_cases(cases)
    open_refusals(cases)
    open_edges(cases)
    action_refusals(cases)
    file_refusals(cases)
    bracket_cases(cases)
    form_cases(cases)
    again_cases(cases)
    halt_cases(cases)
    pool_cases(cases)
    fill_cases(cases)
    meeting_cases(cases)
    rate_cases(cases)
    attempt_cases(cases)
    contention_cases(cases)
    session_drop_cases(cases)
    return cases


def write(cases, folder):
    data = os.path.join(folder, "data")
    for place, _, files in os.walk(data):
        for old in files:
            path = os.path.join(place, old)
            if os.path.relpath(path, data) not in cases.files:
                os.remove(path)
    for name, content in cases.files.items():
        path = os.path.join(data, name)
        os.makedirs(os.path.dirname(path), exist_ok=True)
        with open(path, "wb") as file:
            file.write(content)
    with open(os.path.join(folder, "args"), "w") as file:
        file.writelines(name + "\n" for name in cases.files)
    if cases.stdin is not None:
        with open(os.path.join(folder, "stdin"), "wb") as file:
            file.write(cases.stdin)
    with open(os.path.join(folder, "stdout"), "wb") as file:
        if cases.stdin is not None:
            file.write(cases.program.run(cases.stdin))
        for name in cases.files:
            file.write(b"# %s\n%s" % (name.encode(), cases.prints[name]))


def main(cases, crate):
    folder = (sys.argv[1] if len(sys.argv) > 1
              else os.path.join(HERE, "..", "crates", crate))
    write(cases, folder)
    print("%d cases, %d bytes of sessions, %d bytes printed" % (
        len(cases.files), sum(map(len, cases.files.values())),
        sum(map(len, cases.prints.values()))))
