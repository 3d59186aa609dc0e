#!/usr/bin/env python3
"""Self test of shaker.py: what change request 6 says of the drawn sessions.

    shake_selftest.py [COUNT]

The generator against numbers known elsewhere and against its closed form; COUNT
drawn sessions, each read back and told from its text alone; the refusals in
their order; the arguments.
"""

import itertools
import sys

import cells
import draw
import reader
import session
import shaker
import tools

MOST = reader.MOST_NUMBER


def check(what, found, wanted):
    if found != wanted:
        print("shake_selftest: %s\n  found  %r\n  wanted %r"
              % (what, found, wanted))
        sys.exit(1)


# ------------------------------------------------------------ the generator

# The first states after 0: these multiplier and increment are well known, and
# so are the numbers they make.
KNOWN = (0x3C6EF35F, 0x47502932, 0xD1CCF6E9, 0xAAF95334, 0x6252E503,
         0x9F2EC686, 0x57FE6C2D, 0xA3D95FA8, 0x81FDBEE7, 0x94F0AF1A,
         0xCBF633B1)


def state_after(seed, draws):
    """The state after some draws, without drawing: a^k s + c (a^k - 1) / (a -
    1), the quotient taken before wrapping."""
    a, c = 1664525, 1013904223
    power = pow(a, draws, (a - 1) * 2 ** 32)
    return (power * seed + c * ((power - 1) // (a - 1))) % 2 ** 32


def generator_three_ways():
    generator = shaker.Generator(0)
    for state in KNOWN:
        check("a known draw", generator.draw(), state >> 16)
        check("a known state", generator.state, state)
    for seed in (0, 1, 65535, 65536, 2 ** 31, MOST - 1, MOST, 123456789):
        generator = shaker.Generator(seed)
        for number in range(1, 300):
            drawn = generator.draw()
            check("draw %d from %d" % (number, seed), drawn,
                  state_after(seed, number) >> 16)
            check("a draw", 0 <= drawn < 65536, True)


# --------------------------------------------------------- drawn sessions

def told_from_text(five):
    """The session's numbers are the draws', told from its text alone: a step
    took one draw, a read three, a swap five."""
    seed, n, v, b, length = five
    text = shaker.shake(*five)
    name = "shake %d %d %d %d %d" % five
    first, *lines = text.decode("ascii").split("\n")[:-1]
    check(name, first, "(open %d %d %d (%s))" % (
        n, v, b, "0 " * (v - 1) + "0"))
    check(name, len(lines), length)
    draws = 0

    def drawn(mod):
        nonlocal draws
        draws += 1
        return state_after(seed, draws) // 65536 % mod

    for line in lines:
        task = drawn(n)
        if line.startswith("(step"):
            check(name, line, "(step %d)" % task)
            continue
        kind, cell = drawn(2), drawn(v)
        if kind == 0:
            check(name, line, "(read %d %d)" % (task, cell))
        else:
            check(name, line, "(swap %d %d %d %d)" % (task, cell, drawn(4),
                                                      drawn(4)))

    # accepted with these actions, and a step is a busy task's, a begin an idle
    # one's: none is refused
    opening, actions = reader.read_session(text)
    check(name, opening, (n, v, b, (0,) * v))
    check(name, ["(%s)" % " ".join(map(str, (action.word, *action)))
                 for action in actions], lines)
    trace = session.Trace()
    printed = session.run(text, trace, ask_fit=len(lines) < 300)
    check(name + ", refusals", dict(trace.refusals), {})
    check(name, printed.count(b"(done "), len(trace.calls))
    return lines, trace


def drawn_sets(count):
    drawn = draw.Draw(66)
    for _ in range(count):
        n = drawn.pick((1, 2, 3, 32, drawn.between(1, 32)))
        v = drawn.pick((1, 2, 16, drawn.between(1, 16)))
        least = cells.least_blocks(n, v)
        yield (drawn.pick((0, MOST, drawn.below(2 ** 32))), n, v,
               drawn.pick((least, 128, drawn.between(least, 128))),
               drawn.pick((1, drawn.between(1, 50), drawn.between(50, 600))))


def drawn_sessions(count):
    seen = session.Trace()
    longest = [(seed, n, v, b, 3000) for seed, n, v, b in (
        (0, 32, 16, 79), (MOST, 32, 16, 128), (3, 1, 1, 2), (4, 32, 1, 64),
        (5, 1, 16, 17), (6, 2, 1, 4))]
    for seed, n, v, b, length in [*drawn_sets(count), *longest]:
        lines, trace = told_from_text((seed, n, v, b, length))
        seen.paths += trace.paths
        # neither the blocks nor the length change what is drawn
        if length < 3000:
            for other, more in ((128, 0), (cells.least_blocks(n, v), 7)):
                again = shaker.shake(seed, n, v, other, length + more)
                check("the same actions", again.decode().split("\n")[
                    1:length + 1], lines)
        check("question 12", len(shaker.shake(seed, n, v, b, length))
              <= reader.MOST_BYTES, True)
    if count >= 100:
        check("paths", set(seen.paths), set(cells.PATHS) - {cells.UNREACHED})
    return sum(seen.paths.values())


# --------------------------------------------------------------- refusals

def refusals_in_order():
    """Each question by itself, and the least number of those answered no."""
    sizes = (0, 1, 2, 3, 15, 16, 17, 31, 32, 33, 79, 80, 81, 127, 128, 129,
             MOST)
    count = 0
    for n, v, b in itertools.product(sizes, repeat=3):
        for length in (0, 1, 3000, 3001, MOST):
            no = {1: n < 1 or n > 32, 2: v < 1 or v > 16,
                  3: b < v + 2 * n - 1 or b > 128, 17: length in (0, 3001, MOST)}
            wanted = min((number for number in no if no[number]), default=0)
            check("refusal of %d %d %d %d" % (n, v, b, length),
                  shaker.refusal(n, v, b, length), wanted)
            count += wanted == 0
            if wanted:
                check("a refusal", shaker.shake(MOST, n, v, b, length),
                      b"(bad %d)\n" % wanted)
    check("some are not refused", count > 0, True)


# -------------------------------------------------------------- arguments

# Arguments that question 14 takes, and what is printed then starts with.
GOOD_ARGUMENTS = [
    (b"0 1 1 3 1", b"(open 1 1 3 (0))\n(read 0 0)\n"),
    (b"4294967295 2 2 6 3", b"(open 2 2 6 (0 0))\n"),
    (b"0 0 1 3 1", b"(bad 1)\n"),
    (b"0 4294967295 1 3 1", b"(bad 1)\n"),
    (b"0 1 4294967295 3 1", b"(bad 2)\n"),
    (b"0 1 1 4294967295 1", b"(bad 3)\n"),
    (b"0 1 1 3 0", b"(bad 17)\n"),
    (b"0 1 1 3 4294967295", b"(bad 17)\n"),
]

# Numbers that question 14 does not take.
NO_NUMBERS = (b"", b" ", b"00", b"01", b"007", b"4294967296", b"4294967297",
              b"42949672950", b"9999999999", b"10000000000",
              b"18446744073709551616", b"18446744073709551617", b"1" * 400,
              b"-1", b"-0", b"+1", b"1.0", b"1e3", b"0x1", b"1 ", b" 1",
              b"1\n", b"1\t", b"a", b"1a", b"a1", b"(1)", b"()", b"1,000",
              b"1_0", b"none", "\u0661".encode(), b"\xb2", b"\xff", b"--help",
              b"-h", b"--")


def bad_arguments():
    """Lists of arguments refused with 14, whatever else is wrong with them."""
    good = b"5 2 1 5 10".split(b" ")
    for at in range(5):
        for word in NO_NUMBERS:
            yield good[:at] + [word] + good[at + 1:]
        yield good[:at] + good[at + 1:]              # one missing
        yield [b"0"] * at + [b"01"] + [b"0"] * (4 - at)  # 14 before 1 to 17
    for count in (0, 1, 2, 3, 4, 6, 7, 20):
        yield [b"1"] * count
    yield good + [b"0"]
    yield good + [b""]
    yield [b""] + good
    yield [b" ".join(good)]
    yield [b"(shake 5 2 1 5 10)"]
    yield [b"shake"] + good
    yield [b"0", b"0", b"0", b"0", b"0", b"0"]


def arguments():
    for words, wanted in GOOD_ARGUMENTS:
        found = shaker.shake_arguments(words.split(b" "))
        check("arguments %r" % words, found[:len(wanted)], wanted)
        check("a stored case", tools.Stored(shaker).run(
            words.replace(b" ", b"\n") + b"\n"), found)
    count = 0
    for words in bad_arguments():
        check("arguments %r" % (words,), shaker.shake_arguments(words),
              b"(bad 14)\n")
        count += 1
    return count


def main():
    count = int(sys.argv[1]) if len(sys.argv) > 1 else 150
    generator_three_ways()
    refusals_in_order()
    refused = arguments()
    calls = drawn_sessions(count)
    print("shake_selftest: %d drawn sessions with %d finished calls are told "
          "from their text; %d lists of arguments are refused"
          % (count + 6, calls, refused))


if __name__ == "__main__":
    main()
