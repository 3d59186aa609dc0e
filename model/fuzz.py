#!/usr/bin/env python3
"""Compares a session program with the model on drawn and damaged sessions.

    fuzz.py PROGRAM [COUNT] [SEED]

PROGRAM (a command; it may have arguments) gets each session on standard input.
On the first difference the session is shrunk to a small one that still
differs, both outputs are printed and the end is 1.
"""

import os
import re
import shlex
import subprocess
import sys
import time
from collections import Counter

import cells
import draw
import session
from cases_drop import late_stores
from script import Script, counted, turn_blocks

LIMIT_SECONDS = 20


# ------------------------------------------------------------- the programs

class Programs:
    """The program and the model, side by side."""

    def __init__(self, command):
        self.command = shlex.split(command)
        if os.path.exists(self.command[0]):
            self.command[0] = os.path.abspath(self.command[0])
        self.runs = 0

    def printed(self, data):
        """What the program prints; an odd end is shown in place of it."""
        self.runs += 1
        process = subprocess.Popen(self.command, stdin=subprocess.PIPE,
                                   stdout=subprocess.PIPE, close_fds=False)
        try:
            out, _ = process.communicate(data, timeout=LIMIT_SECONDS)
        except subprocess.TimeoutExpired:
            process.kill()
            process.communicate()
            return b"[no end within %d seconds]\n" % LIMIT_SECONDS
        if process.returncode < 0:
            return out + b"[ended by signal %d]\n" % -process.returncode
        return out

    def differ(self, data):
        return self.printed(data) != session.run(data)


# -------------------------------------------------------- drawn sessions

EDGES = ("0", "1", "2", "3", "8", "15", "16", "17", "31", "32", "33", "80",
         "127", "128", "129", "254", "255", "256", "65535", "65536", "65537",
         "2147483647", "2147483648", "4294967294", "4294967295", "4294967296",
         "4294967297", "9999999999", "10000000000", "18446744073709551616",
         "18446744073709551617", "00", "01", "-1", "+1", "0x1", "", "x",
         "1" * 40)


def sizes(d):
    n = d.pick((1, 2, 2, 2, 3, 3, 4, 5, 8, 31, 32))
    v = d.pick((1, 1, 1, 2, 2, 3, 15, 16))
    least = cells.least_blocks(n, v)
    b = d.pick((least, least, least, least + 1, 128))
    return n, v, b


def contention(d):
    """Calls that meet, most of them run out, some refusals, halts, drops and
    adds."""
    n, v, b = sizes(d)
    style = draw.Style(
        length=d.pick((10, 30, 60, 120, 250)), hot_cells=d.pick((1, 1, 2, v)),
        values=d.between(2, 5), burst=d.pick((1, 2, 3, 5, 9)),
        right_guess=d.pick((30, 60, 90)), reads=d.pick((5, 20, 40)),
        equal=d.pick((3, 15)), refusals=d.pick((0, 0, 3, 10)),
        halts=d.pick((0, 0, 1, 3)), idle=d.pick((0, 20, 40)),
        runs_out=d.pick((0, 20, 60)), drops=d.pick((0, 0, 3, 10)),
        adds=d.pick((0, 0, 15, 50, 90)))
    return draw.text(draw.draw_session(d, n, v, b, style,
                                       d.pick((0, 30, 100))))


def few_steps_apart(d):
    """Two or three swaps on one cell that come to each of the table's paths:
    each task takes some steps at a time, chosen around the splitter."""
    n = d.pick((2, 3, 3, 4))
    lines = [draw.opening_line(n, 1, 2 * n + d.below(2), [5])]
    for _ in range(d.between(1, 4)):
        for t in range(n):
            lines.append(d.pick((
                "(swap %d 0 5 %d)" % (t, 6 + t), "(swap %d 0 5 %d)" % (t, t),
                "(swap %d 0 %d 5)" % (t, 6 + d.below(3)),
                "(swap %d 0 4 6)" % t, "(swap %d 0 5 5)" % t,
                "(add %d 0 %d %d)" % (t, d.below(4), 1 + d.below(4)),
                "(read %d 0)" % t)))
        if d.percent(40):  # the beginning of P9 and P10
            p = d.below(n)
            q = (p + 1) % n
            lines += ["(again 2 (step %d))" % q, "(again 7 (step %d))" % p,
                      "(again %d (step %d))" % (d.between(1, 11), q),
                      "(again %d (step %d))" % (d.between(1, 14), p)]
        for _ in range(d.between(2, 10)):
            lines.append("(again %d (step %d))" % (
                d.pick((1, 2, 2, 3, 3, 4, 5, 6, 7, 7, 9)), d.below(n)))
            if d.percent(10):
                lines.append("(drop %d)" % d.below(n))
        if d.percent(80):
            for t in range(n):
                lines.append("(again 21 (step %d))" % t)
    return draw.text(lines)


def blocks_turn(d):
    """Tasks stand still in the middle of their calls while two others go
    round the pool; then they go on."""
    n = d.between(3, 6) if d.percent(90) else d.between(17, 20)
    v = d.between(1, 2)
    s = Script(n, v, cells.least_blocks(n, v) + d.below(2), [5] * v)
    p, q = n - 2, n - 1
    for _ in range(d.between(1, 3)):
        if n > 3 and v > 1 and d.percent(60):
            taken_block_waits(d, s, n - 4, n - 3)
        for task in range(n - 2):
            cell = d.below(v)
            if not s.model.tasks[task].busy:
                if d.percent(30):
                    s.read(task, cell)
                else:
                    s.swap(task, cell, d.pick((s.value(cell), 4)),
                           70 + d.below(4))
            if d.percent(50):  # the two meet the task at its block
                s.swap(q, cell, s.value(cell), 80 + d.below(4))
                s.steps(q, d.pick((2, 4, 7)))
                s.steps(task, d.between(1, 15))
                s.out(q)
            else:
                s.steps(task, d.between(1, 9))
            turn_blocks(s, p, q, d.below(3), cell)
        turn_blocks(s, p, q, d.between(1, s.model.b), d.below(v))
        for task in range(n - 2):
            if d.percent(60):
                s.out(task)
            elif s.model.tasks[task].busy and d.percent(50):
                s.drop(task)
    return draw.text(s.lines)


def drops(d):
    """Stores that come late, and tasks dropped about then."""
    return draw.text(late_stores(d, d.pick((10, 25, 50))))


def adds_meet(d):
    """Adds, and swaps that bring the value back, mostly in turns of one part."""
    n = d.pick((2, 2, 3, 4, 6, 32))
    value = d.pick((0, 5, cells.NONE - 1 - d.below(5)))
    s = Script(n, 1, cells.least_blocks(n, 1), [value])
    for _ in range(d.between(5, 60)):
        task = d.below(n)
        if s.model.tasks[task].busy:
            if d.percent(4):
                s.drop(task)
            else:
                s.steps(task, d.pick((1, 2, 3, 3, 6, 8, 10, 11, 13, 21)))
        elif d.percent(75):
            s.add(task, 0, *draw.draw_add(d, s.value(0)))
        else:
            s.swap(task, 0, d.pick((value, s.value(0))), d.pick((value, 7)))
    return draw.text(s.lines)


def taken_block_waits(d, s, task, helper):
    """The task comes to line 30, or to one of the lines 5 to 8 before it, with
    its held block current, and waits there while the pool is gone round on the
    other cell."""
    if s.model.tasks[task].busy or s.model.tasks[helper].busy:
        return
    value = s.value(0)
    s.swap(task, 0, value, 90).swap(helper, 0, value, 91)
    s.steps(task, 3).steps(helper, 2).steps(task, d.between(7, 11))
    turn_blocks(s, s.model.n - 2, s.model.n - 1,
                d.between(s.model.b // 2, s.model.b), 1)
    s.out(task)
    turn_blocks(s, s.model.n - 2, s.model.n - 1, 1, d.below(2))


def rate_near_half(d):
    """The end line's rate is a half or next to one."""
    f = 16 * d.pick((1, 2, 3, 5, 7, 25))
    h = f // 16 * (1 + 2 * d.below(15))
    return draw.text(counted(h + d.pick((0, 0, 0, 1)),
                             f + d.pick((0, 0, 0, 1))))


def deep(d):
    """Repeats nested about as deep as is allowed, counts of every size."""
    lines = [draw.opening_line(2, 1, 5, [5]), "(swap 0 0 5 7)"]
    for _ in range(d.between(1, 3)):
        counts = d.pick((("1",), ("1", "1", "2"), ("0", "1", "2"),
                         ("256", "65536", "16777216"),
                         ("2", "65535", "2147483648", "4294967295"),
                         ("0", "4294967295")))
        form = any_form(d, 1) if d.percent(90) else d.pick(("()", "(again 3)"))
        for _ in range(d.pick((1, 2, 4, 6, 7, 7, 8, 9))):
            before = ["(step 0)"] if d.percent(20) else []
            after = [d.pick(("(step 0)", "(again 0)"))] * d.percent(20)
            form = "(%s)" % " ".join(["again", d.pick(counts), *before, form,
                                      *after])
        lines.append(form)
    if d.percent(30):
        lines.append("(step 0)")
    return draw.text(lines)


def number(d, good=90):
    return str(d.below(4)) if d.percent(good) else d.pick(EDGES[:26])


def any_form(d, depth):
    kind = d.below(12)
    if kind == 11:
        return "(add %s %s %s %s)" % tuple(number(d) for _ in range(4))
    if kind < 5:
        return "(step %s)" % number(d, 97)
    if kind == 10:
        return "(drop %s)" % number(d, 97)
    if kind < 6:
        return "(read %s %s)" % (number(d), number(d))
    if kind < 8:
        expected, new = number(d), number(d)
        if d.percent(8):
            expected = str(cells.NONE)
        if d.percent(8):
            new = str(cells.NONE)
        return "(swap %s %s %s %s)" % (number(d), number(d), expected, new)
    if depth <= 1:
        return "(step %d)" % d.below(2)
    count = d.pick(("0", "1", "2", "3", "5", "21", number(d, 40)))
    inner = [any_form(d, depth - 1) for _ in range(d.pick((0, 1, 1, 2, 3)))]
    return "(%s)" % " ".join(["again", count] + inner)


def any_forms(d):
    """Any forms, nested, with numbers that are often refused."""
    n, v, b = sizes(d)
    lines = [draw.opening_line(n, v, b, [d.below(4) for _ in range(v)])]
    depth = d.pick((1, 3, 7, 8, 9))
    lines += [any_form(d, depth) for _ in range(d.between(0, 25))]
    return draw.text(lines)


def any_open(d):
    """An open with each number near its limits."""
    n = d.pick((0, 1, 2, 31, 32, 33, cells.NONE))
    v = d.pick((0, 1, 2, 15, 16, 17, cells.NONE))
    if d.percent(50):
        n, v = d.pick((1, 2, 32)), d.pick((1, 2, 16))
    least = cells.least_blocks(min(n, 40), min(v, 20))
    b = d.pick((0, least - 1, 129, cells.NONE, least, least + 1, 127, 128,
                128, 128))
    count = max(0, min(v, 20) + d.pick((-1, 0, 0, 0, 0, 1)))
    values = [d.pick((0, 5, cells.NONE - 1)) for _ in range(count)]
    if values and d.percent(20):
        values[d.below(len(values))] = cells.NONE
    lines = [draw.opening_line(n, v, max(b, 0), values)]
    lines += [any_form(d, 2) for _ in range(d.below(4))]
    return draw.text(lines)


def many_actions(d):
    """About as many actions as are allowed, or far too many."""
    call = "(swap 0 0 5 5) (again 3 (step 0))"
    lines = [draw.opening_line(1, 1, 3, [5])]
    calls, rest = divmod(65535 + d.pick((-1, 0, 0, 1, 1, 2)), 4)
    if d.percent(50):
        outer = d.between(2, 9)
        calls, over = divmod(calls, outer)
        lines.append("(again %d (again %d %s))" % (outer, calls, call))
        lines.append("(again %d %s)" % (over, call))
    else:
        lines.append("(again %d %s)" % (calls, call))
    lines += ["(read 0 0)", "(step 0)", "(step 0)"][:rest]
    lines.append("(again %s (again 0 (step 0)))" % d.pick(EDGES[:25]))
    if d.percent(30):
        lines.append("(again %s %s)" % (d.pick(EDGES[14:25]), call))
    return draw.text(lines)


def many_bytes(d):
    """About as many bytes as are allowed."""
    data = any_forms(d)
    size = 65536 + d.pick((-1, 0, 0, 1, 1, 2))
    whole, rest = divmod(size - len(data), 10)
    data += b"(again 0)\n" * (whole - 1)
    return data + b"(again %d)\n" % (10 ** rest if rest else 0)


TOKENS = (b"(", b"(", b")", b")", b" ", b" ", b"\n", b"0", b"1", b"5", b"open",
          b"read", b"swap", b"add", b"step", b"drop", b"again", b"(step 0)",
          b"(5)", b"()",
          b"(open 1 1 3 (5))\n", b"\0", b"\xff", b"\r", b"\t", b"01")


def token_soup(d):
    data = b"".join(d.pick(TOKENS) for _ in range(d.between(0, 12)))
    return (b"(open 2 1 5 (5))\n" if d.percent(50) else b"") + data


# --------------------------------------------------------- damaged sessions

NUMBER = re.compile(rb"[0-9]+")
WORD = re.compile(rb"[a-z]+")


def damage(d, data):
    """One change of the bytes."""
    if not data:
        return b"\n"
    kind = d.below(13)
    at = d.below(len(data))
    if kind == 0:    # a bit flipped
        return data[:at] + bytes((data[at] ^ 1 << d.below(8),)) + data[at + 1:]
    if kind == 1:    # a byte replaced
        return data[:at] + bytes((d.below(256),)) + data[at + 1:]
    if kind == 2:    # bytes deleted
        return data[:at] + data[at + d.pick((1, 1, 2, 5)):]
    if kind == 3:    # a byte doubled
        return data[:at] + data[at:at + 1] + data[at:]
    if kind == 4:    # a bracket, space or line end put in
        return data[:at] + d.pick((b"(", b")", b" ", b"\n")) + data[at:]
    if kind == 5:    # a bracket, space or line end gone or replaced
        places = [i for i, byte in enumerate(data) if byte in b"() \n"]
        if not places:
            return data
        at = d.pick(places)
        return (data[:at] + d.pick((b"", b"(", b")", b" ", b"\n"))
                + data[at + 1:])
    if kind in (6, 7, 8):  # a number replaced by an edge number
        places = list(NUMBER.finditer(data))
        if not places:
            return data
        place = d.pick(places)
        return (data[:place.start()] + d.pick(EDGES).encode()
                + data[place.end():])
    if kind == 12:   # a word replaced by one much like it
        places = list(WORD.finditer(data))
        if not places:
            return data
        place = d.pick(places)
        word = place.group()
        other = d.pick((word + word[-1:], word[:-1], word.capitalize(),
                        word[:-1] + b"x", b"x" + word[1:], word + b"0",
                        d.pick((b"open", b"read", b"swap", b"add", b"step",
                                b"drop", b"again", b"look", b"done", b"no"))))
        return data[:place.start()] + other + data[place.end():]
    lines = data.split(b"\n")
    at = d.below(len(lines))
    if kind == 9:    # a line doubled
        return b"\n".join(lines[:at + 1] + lines[at:])
    if kind == 10:   # a line gone
        return b"\n".join(lines[:at] + lines[at + 1:])
    return data[:at * 7]   # the rest gone


def damaged(d):
    data = d.pick((any_forms, any_forms, any_open, few_steps_apart))(d)
    if len(data) > 400 and d.percent(70):
        data = b"\n".join(data.split(b"\n")[:d.between(1, 12)]) + b"\n"
    for _ in range(d.pick((1, 1, 1, 2, 4))):
        data = damage(d, data)
    return data


# What is drawn, and how often in a thousand.
MAKERS = ((contention, 190), (rate_near_half, 20), (few_steps_apart, 170),
          (blocks_turn, 70), (drops, 50), (adds_meet, 100), (any_forms, 90),
          (any_open, 60), (deep, 60), (token_soup, 30), (damaged, 144),
          (many_bytes, 6), (many_actions, 10))


def make(d):
    at = d.below(1000)
    for maker, often in MAKERS:
        if at < often:
            return maker.__name__, maker(d)
        at -= often
    raise AssertionError("MAKERS does not come to a thousand")


# ---------------------------------------------------------------- shrinking

def without_parts(parts):
    """The parts with some neighbouring ones left out, many at first."""
    size = len(parts)
    while size >= 1:
        for at in range(0, len(parts), size):
            yield parts[:at] + parts[at + size:]
        size //= 2


FORM = re.compile(rb" ?\([^()]*\)")
AGAIN = re.compile(rb"\(again [0-9]+ (\([^\n]*\))\)")


def smaller(data):
    """Smaller sessions made of this one, the boldest changes first."""
    for lines in without_parts(data.splitlines(keepends=True)):
        yield b"".join(lines)
    for place in FORM.finditer(data):
        yield data[:place.start()] + data[place.end():]
    for place in AGAIN.finditer(data):
        yield data[:place.start()] + place.group(1) + data[place.end():]
    for place in NUMBER.finditer(data):
        value = place.group()
        less = [b"0", b"1", value[:-1]]
        if len(value) <= 20:
            less += [b"%d" % (int(value) // 2), b"%d" % max(0, int(value) - 1)]
        for other in less:
            if (len(other), other) < (len(value), value):
                yield data[:place.start()] + other + data[place.end():]
    if len(data) <= 3000:
        size = 64
        while size >= 1:
            for at in range(0, len(data), size):
                yield data[:at] + data[at + size:]
            size //= 2


def shrink(programs, data, most_runs=6000):
    """A session that still differs and whose smaller ones do not."""
    start = programs.runs
    found = True
    while found:
        found = False
        for other in smaller(data):
            if programs.runs - start > most_runs:
                return data
            if other != data and programs.differ(other):
                data, found = other, True
                break
    return data


# --------------------------------------------------------------------- main

def report(kinds, trace, ran):
    print("sessions: " + ", ".join(
        "%s %d" % pair for pair in sorted(kinds.items())))
    print("refusals: " + ", ".join(
        "%d: %d" % (number, trace.refusals[number])
        for number in range(1, 16) if number != 6))
    print("paths:")
    for path in cells.PATHS:
        if path != cells.UNREACHED:
            print("  %-18s %d" % (path, trace.paths[path]))
    print("sessions run to their end line: %d" % ran)


def main():
    if len(sys.argv) < 2:
        print(__doc__)
        return 2
    programs = Programs(sys.argv[1])
    count = int(sys.argv[2]) if len(sys.argv) > 2 else 1000
    seed = int(sys.argv[3]) if len(sys.argv) > 3 else 1
    drawn = draw.Draw(seed)
    kinds, all_of = Counter(), session.Trace()
    ran = 0
    start = time.time()
    for i in range(count):
        kind, data = make(drawn)
        kinds[kind] += 1
        trace = session.Trace()
        wanted = session.run(data, trace)
        all_of.refusals.update(trace.refusals)
        all_of.paths.update(trace.paths)
        ran += b"(end " in wanted
        found = programs.printed(data)
        if found == wanted:
            continue
        print("session %d of seed %d (%s, %d bytes) differs; shrinking"
              % (i, seed, kind, len(data)))
        sys.stdout.flush()
        data = shrink(programs, data)
        print("shrunk session: %r" % data)
        print("--- session")
        sys.stdout.flush()
        sys.stdout.buffer.write(data)
        print("--- model")
        sys.stdout.flush()
        sys.stdout.buffer.write(session.run(data))
        print("--- program")
        sys.stdout.flush()
        sys.stdout.buffer.write(programs.printed(data))
        sys.stdout.flush()
        return 1
    report(kinds, all_of, ran)
    took = time.time() - start
    print("%d sessions agree, seed %d, %.1f seconds" % (count, seed, took))
    return 0


if __name__ == "__main__":
    sys.exit(main())
