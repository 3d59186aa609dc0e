"""Cases of hardware swaps won and lost (change request 5): every pattern of
attempts.PATTERNS, and tasks that attempt one right after another."""

import attempts
import draw
from script import Script, contend

# N, V, B, the task whose call makes the pattern, two others, the cell.
PLACES = [
    (3, 1, 6, 0, 1, 2, 0),
    (3, 2, 8, 2, 1, 0, 1),
    (32, 16, 79, 31, 30, 0, 15),
]


def opened(n, v, b, k):
    values = [100 + i for i in range(v)]
    values[k] = 5
    return Script(n, v, b, values)


# ----------------------------------------------------------------- patterns

def inactive(s, q, r, k):
    """The cell's block is inactive, undecided and holds 5: q is about to load V
    for 28, r about to load X."""
    s.swap(q, k, 5, 7).swap(r, k, 5, 9).step(q, 2).step(r, 4).step(q, 2)
    assert s.next_line(q) == (1, 28) and s.next_line(r) == (19, 0)


def to_23(s, p, q, k):
    """p is about to store V, and q has made the block inactive."""
    s.swap(q, k, 5, 7).swap(p, k, 5, 9).step(q, 2).step(p, 7).step(q, 2)
    assert s.next_line(p) == (23, 0) and s.next_line(q) == (1, 28)


def to_28(way, expected):
    """How p comes to line 2 for 28 by this way, its block undecided; q then
    still has a swap of 5 on it, whose next hardware swap will be its first."""
    def by_17(s, p, q, r, k):
        inactive(s, q, r, k)
        s.swap(p, k, expected, 77)

    def by_19(s, p, q, r, k):
        s.swap(p, k, expected, 77).swap(q, k, 5, 9).step(p, 3).step(q, 2)

    def by_21(s, p, q, r, k):
        s.swap(p, k, expected, 77).swap(q, k, 5, 9).step(p, 6).step(q, 4)

    def script(s, p, q, r, k):
        {17: by_17, 19: by_19, 21: by_21}[way](s, p, q, r, k)
        s.until(p, 2)
        assert s.next_line(p) == (2, 28)
    return script


def decide_first(s, p, q, r, k):
    """Another decides the block that p is about to decide: a third task's
    read, or q where the third is busy."""
    if s.model.tasks[r].busy:
        s.until(q, 3)
    else:
        s.read(r, k).out(r)


def pattern_scripts():
    """Key and pattern of attempts.PATTERNS with the script in which p's call
    makes it; cell k holds 5 at first."""
    for way in (17, 19, 21):
        for pattern in ("w", "l"):
            def script(s, p, q, r, k, way=way, pattern=pattern):
                to_28(way, 4)(s, p, q, r, k)
                if pattern == "l":
                    decide_first(s, p, q, r, k)
            yield ("swap", "no_from_28_by_%d" % way, "no"), pattern, script
        for pattern in ("ww", "lw", "wl", "ll"):
            def script(s, p, q, r, k, way=way, pattern=pattern):
                to_28(way, 5)(s, p, q, r, k)
                if pattern[0] == "l":
                    decide_first(s, p, q, r, k)
                if pattern[1] == "l":
                    s.until(p, 30).out(q)
            yield ("swap", "end_at_30_by_%d" % way,
                   "yes" if pattern[1] == "w" else "no"), pattern, script

    def yes_from_25_won(s, p, q, r, k):
        to_23(s, p, q, k)

    def yes_from_25_lost(s, p, q, r, k):
        # q decides for the value that p has stored
        to_23(s, p, q, k)
        s.step(p, 1).until(q, 3)

    def yes_from_25_lost_to_a_read(s, p, q, r, k):
        to_23(s, p, q, k)
        s.until(p, 2).read(r, k).out(r)

    def by_25_yes(s, p, q, r, k):
        # q decides for 5, loaded before p's store
        to_23(s, p, q, k)
        s.until(q, 3)

    def by_25_yes_to_a_read(s, p, q, r, k):
        to_23(s, p, q, k)
        s.read(r, k).until(r, 2).until(p, 2).until(r, 3)

    def by_25_no(s, p, q, r, k):
        by_25_yes(s, p, q, r, k)
        s.until(p, 30).out(q)

    def by_25_no_to_a_read(s, p, q, r, k):
        by_25_yes_to_a_read(s, p, q, r, k)
        s.until(p, 30).out(q)

    yield ("swap", "yes_from_25", "yes"), "w", yes_from_25_won
    yield ("swap", "yes_from_25", "yes"), "l", yes_from_25_lost
    yield ("swap", "yes_from_25", "yes"), "l", yes_from_25_lost_to_a_read
    yield ("swap", "end_at_30_by_25", "yes"), "llw", by_25_yes
    yield ("swap", "end_at_30_by_25", "yes"), "llw", by_25_yes_to_a_read
    yield ("swap", "end_at_30_by_25", "no"), "lll", by_25_no
    yield ("swap", "end_at_30_by_25", "no"), "lll", by_25_no_to_a_read

    for kind, answer, begin in (
            ("read", "value", lambda s, p, k: s.read(p, k)),
            ("equal swap", "yes", lambda s, p, k: s.swap(p, k, 5, 5)),
            ("equal swap", "no", lambda s, p, k: s.swap(p, k, 4, 4))):
        def active(s, p, q, r, k, begin=begin):
            begin(s, p, k)

        def won(s, p, q, r, k, begin=begin):
            inactive(s, q, r, k)
            begin(s, p, k)

        def lost(s, p, q, r, k, begin=begin):
            inactive(s, q, r, k)
            s.until(q, 3)
            begin(s, p, k)

        def lost_late(s, p, q, r, k, begin=begin):
            inactive(s, q, r, k)
            begin(s, p, k)
            s.until(p, 2).until(q, 3)

        yield (kind, "read_active", answer), "-", active
        yield (kind, "read_decided", answer), "w", won
        yield (kind, "read_decided", answer), "l", lost
        yield (kind, "read_decided", answer), "l", lost_late

    yield (("swap", "no_from_22", "no"), "-",
           lambda s, p, q, r, k: s.swap(p, k, 4, 6))
    yield (("swap", "yes_from_26", "yes"), "-",
           lambda s, p, q, r, k: s.swap(p, k, 5, 6))


def pattern_cases(cases):
    made = {}
    for number, (key, pattern, script) in enumerate(pattern_scripts()):
        made.setdefault(key, set()).add(pattern)
        for n, v, b, p, q, r, k in PLACES:
            s = opened(n, v, b, k)
            script(s, p, q, r, k)
            s.out(p)
            kind, path, answer = key
            name = "attempts_%02d_%s_%s_%s_%s_t%d" % (
                number, kind.replace(" ", "_"), path, answer,
                pattern if pattern != "-" else "none", p)
            trace = cases.add(name, s.lines)
            task, finished, lines = trace.calls[-1]
            assert not trace.refusals and task == p, name
            assert attempts.call_key(finished, lines) == key, name
            assert (trace.attempts[-1] or "-") == pattern, name
            assert (finished.won, finished.lost) == (
                pattern.count("w"), pattern.count("l")), name
    assert attempts.joined(made) == attempts.PATTERNS


# ----------------------------------------- attempts one after the other

# The lines for which two tasks decide the same block.  There is one owner of a
# block's splitter, so 25 is not there twice.
WANTS = [(25, 28), (25, 13), (28, 28), (28, 13), (13, 13)]


def both_at_2(s, wants, p, q, r, w, k):
    """p and q are about to do line 2 on the same undecided block, each for the
    line that it wants."""
    if wants == (25, 28):
        to_23(s, p, q, k)
    elif wants == (25, 13):
        to_23(s, p, r, k)
        s.until(p, 2).read(q, k)
    elif wants == (28, 28):
        inactive(s, p, r, k)
        s.swap(q, k, 5, 6)
    elif wants == (28, 13):
        inactive(s, p, r, k)
        s.read(q, k)
    else:
        inactive(s, r, w, k)
        s.read(p, k).swap(q, k, 5, 5)
    s.until(q, 2).until(p, 2)
    assert (s.next_line(p), s.next_line(q)) == tuple(
        (2, want) for want in wants)


def pair_cases(cases):
    for wants in WANTS:
        for n, v, b, p, q, r, w, k in ((4, 1, 9, 0, 1, 2, 3, 0),
                                       (4, 2, 10, 3, 0, 2, 1, 1)):
            for first in (p, q):
                s = opened(n, v, b, k)
                both_at_2(s, wants, p, q, r, w, k)
                second = p + q - first
                s.step(first).step(second)
                for task in (second, first, r, w):
                    s.out(task)
                s.read(w, k).out(w)
                name = "attempts_both_at_2_for_%d_and_%d_t%d_first" % (
                    *wants, first)
                trace = cases.add(name + "_k%d" % k, s.lines)
                assert not trace.refusals, name
                # of each task's first call that attempted at all
                tries = {}
                for (task, _, _), found in zip(trace.calls, trace.attempts):
                    if found:
                        tries.setdefault(task, found)
                assert tries[first][0] == "w", name
                assert tries[second][0] == "l", name


def orders(n):
    return {"up": list(range(n)), "down": list(reversed(range(n))),
            "mixed": [(5 * task + 2) % n for task in range(n)]}


def crowd_cases(cases):
    """Every task stands at the same hardware swap; the first wins it."""
    for n, v, b in ((3, 1, 6), (4, 2, 10), (8, 1, 16), (32, 16, 79)):
        for name, order in orders(n).items():
            assert sorted(order) == list(range(n))
            s = opened(n, v, b, v - 1)
            inactive(s, order[-1], order[-2], v - 1)
            for task in order[:-2]:
                s.swap(task, v - 1, 5, 100 + task)
            for task in order:
                s.until(task, 2)
            for line in (2, 30):
                for task in order:
                    assert s.model.tasks[task].line == line
                    s.step(task)
                if line == 2:
                    for task in order:
                        s.until(task, 30)
            s.read(0, v - 1).out(0)
            name = "attempts_crowd_%s_n_%d_v_%d" % (name, n, v)
            trace = cases.add(name, s.lines)
            assert not trace.refusals, name
            assert trace.attempts == ["ww"] + ["ll"] * (n - 1) + [""], name

            # the first at 2 is the last at 30
            s = opened(n, v, b, v - 1)
            inactive(s, order[-1], order[-2], v - 1)
            for task in order[:-2]:
                s.swap(task, v - 1, 5, 100 + task)
            for task in order:
                s.until(task, 2)
            for task in order:
                s.until(task, 30)
            for task in reversed(order):
                s.step(task)
            trace = cases.add(name + "_and_back", s.lines)
            assert trace.attempts == ["lw"] + ["ll"] * (n - 2) + ["wl"], name

            # readers on an inactive block: one decides, and only once
            s = opened(n, v, b, v - 1)
            inactive(s, order[0], order[1], v - 1)
            for task in order[2:]:
                s.read(task, v - 1).until(task, 2)
            for task in order[2:]:
                s.out(task)
            s.read(order[-1], v - 1).out(order[-1]).out(order[0])
            trace = cases.add(name + "_reads", s.lines)
            assert trace.attempts == ["w"] + ["l"] * (n - 2) + ["lw"], name


def held_block_cases(cases):
    """Line 30 asks for the held block, not for the value."""
    def at_30(s, k):
        s.swap(0, k, 5, 77).swap(1, k, 5, 9).step(0, 3).step(1, 2)
        s.until(0, 30)

    # others swap there and back: the value is the expected one, the block new
    for turns in range(5):
        s = Script(4, 2, 10, [5, 5])
        at_30(s, 0)
        s.out(1).swap(2, 0, 9, 5).out(2)
        for _ in range(turns):
            s.swap(2, 0, 5, 8).step(2, 3).swap(3, 0, 5, 6).step(3, 2)
            s.out(2).out(3).swap(3, 0, s.value(0), 5).out(3)
        assert s.value(0) == 5
        s.out(0)
        trace = cases.add("attempts_30_there_and_back_%d" % turns, s.lines)
        assert trace.attempts[-1] == "wl" and not trace.refusals

    # the other cell's block is replaced, this one's is not; and both
    for cell in (0, 1):
        s = Script(4, 2, 10, [5, 5])
        at_30(s, cell)
        s.swap(2, 1 - cell, 5, 8).step(2, 3).swap(3, 1 - cell, 5, 6).step(3, 2)
        s.until(2, 30).until(3, 30)
        s.out(3).out(0).out(2).out(1)
        trace = cases.add("attempts_30_of_cell_%d" % cell, s.lines)
        assert trace.attempts == ["lw", "ww", "wl", "ll"], trace.attempts
        assert not trace.refusals


def many_cases(cases):
    """Won and lost add up to the end line's number, also where it is large; of
    unfinished calls none counts."""
    meeting = ("(swap 0 0 5 7) (swap 1 0 5 9) (again 2 (step 0))"
               " (again 7 (step 1)) (again 5 (step 0)) (again 14 (step 1))"
               " (again 6 (step 0)) (swap 0 0 9 5) (again 10 (step 0))")
    for times in (1, 7, 300):
        name = "attempts_p10_%d_times" % times
        cases.accepted(name, ["(open 2 1 5 (5))",
                              "(again %d %s)" % (times, meeting)])
        assert cases.prints[name].endswith(
            b"\n(end %d 0 %d 1667)\n" % (3 * times, 5 * times)), name
    for times in (1, 400):
        name = "attempts_reads_lost_%d_times" % times
        s = Script(2, 1, 5, [5])
        contend(s, 0, 1, 0)
        cases.accepted(name, s.lines + [
            "(again %d (read 1 0) (again 6 (step 1)))" % times])
        assert cases.prints[name].count(b"(done 1 read 0 9 6 0 1)") == times
    for line in (2, 3, 4, 30):
        s = Script(3, 1, 7, [5])
        s.swap(0, 0, 5, 7).swap(1, 0, 5, 9).step(0, 2).step(1, 7).step(0, 5)
        s.until(1, line)
        s.read(2, 0).out(2)
        trace = cases.add("attempts_unfinished_at_%d" % line, s.lines)
        assert trace.attempts == ["l"] and not trace.refusals


def drawn_cases(cases):
    """Tasks that often meet: most patterns come up in one session."""
    seen = {}
    for seed in range(1, 13):
        n = (2, 3, 4, 8)[seed % 4]
        style = draw.Style(length=600, values=2 + seed % 2, burst=(3, 6)[
            seed % 2], right_guess=80, reads=15, equal=10,
            halts=seed % 2, runs_out=(0, 20)[seed % 3 == 0])
        lines = draw.draw_session(draw.Draw(5000 + seed), n, 1, 2 * n,
                                  style)
        trace = cases.add("attempts_drawn_n_%d_s%d" % (n, seed), lines)
        for (_, finished, done), found in zip(trace.calls, trace.attempts):
            seen.setdefault(attempts.call_key(finished, done),
                            set()).add(found or "-")
    for key, found in seen.items():
        assert found <= set(attempts.PATTERNS[key].split(" ")), (key, found)
    assert sum(map(len, seen.values())) >= 30, attempts.text_of(
        attempts.joined(seen))


def attempt_cases(cases):
    pattern_cases(cases)
    pair_cases(cases)
    crowd_cases(cases)
    held_block_cases(cases)
    many_cases(cases)
    drawn_cases(cases)
