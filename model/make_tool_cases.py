#!/usr/bin/env python3
"""Writes the cases of the tools on sessions: files, their names and what the
model prints.

    make_tool_cases.py [FOLDER]    (FOLDER is ../crates/test_tools if left out)

The layout is make_cases.py's; each tool's cases stand in a folder of data, and
their names begin with it.  Everything is the same on every run.
"""

from concurrent.futures import ProcessPoolExecutor

import make_bus_cases
import make_cases
import make_moments_cases
import make_nudge_cases
import make_shake_cases
import session
import shaker
import tools


class Shaken:
    """Session on what shake draws for the five numbers of a case."""

    Trace = session.Trace

    @staticmethod
    def run(data, trace=None):
        return session.run(tools.Stored(shaker).run(data), trace)


def shaken_cases():
    cases = make_cases.Cases(Shaken)
    cases.accepted("longest", tools.stored((1, 32, 16, 128, 3000)))
    return cases


# each tool's folder, who makes its cases, and who says what there is of them
MAKERS = {
    "session": (make_cases.make, None),
    "moments": (make_moments_cases.make, make_moments_cases.say),
    "nudge": (make_nudge_cases.make, make_nudge_cases.say),
    "bus": (make_bus_cases.make, make_bus_cases.say),
    "shake": (make_shake_cases.make, make_shake_cases.say),
    "shaken": (shaken_cases, None),
}


def made(tool):
    """One tool's files, what the model prints of them, and what is said."""
    maker, say = MAKERS[tool]
    cases = maker()
    return tool, cases.files, cases.prints, say and say(cases)


def make():
    """The tools' cases as those of one program, and what is said of them."""
    all_cases = make_cases.Cases(None)
    said = []
    with ProcessPoolExecutor() as pool:
        for tool, files, prints, line in pool.map(made, MAKERS):
            for name, data in files.items():
                all_cases.files[tool + "/" + name] = data
                all_cases.prints[tool + "/" + name] = prints[name]
            said += [line] if line else []
    return all_cases, said


def main():
    cases, said = make()
    make_cases.main(cases, "test_tools")
    print("\n".join(said))


if __name__ == "__main__":
    main()
