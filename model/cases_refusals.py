"""Cases of refused opens, actions and files, and of what is just not refused."""

import cells
import draw
from cases_calls import P1, P10
from script import Script

NONE = cells.NONE
MOST = 4294967295


# ------------------------------------------------------- refusals 1 to 5

def opening(n, v, b, values):
    """An opening and two more lines: a refused one ends the session."""
    return [draw.opening_line(n, v, b, values), "(step 9)", "(read 0 0)"]


def open_refusals(cases):
    def refused(number, name, n, v, b, values):
        cases.refused("refuse_%02d_%s" % (number, name),
                      opening(n, v, b, values), number)

    refused(1, "n_0", 0, 1, 3, [5])
    refused(1, "n_33", 33, 1, 128, [5])
    refused(1, "n_256", 256, 1, 128, [5])
    refused(1, "n_257", 257, 1, 3, [5])
    refused(1, "n_most", MOST, 1, 128, [5])
    refused(2, "v_0", 1, 0, 3, [])
    refused(2, "v_17", 1, 17, 128, range(17))
    refused(2, "v_257", 1, 257, 3, [5])
    refused(2, "v_most", 1, MOST, 128, [5])
    refused(3, "b_0", 1, 1, 0, [5])
    refused(3, "b_one_few", 1, 1, 1, [5])
    refused(3, "b_one_few_n_32_v_16", 32, 16, 78, range(16))
    refused(3, "b_one_few_n_5_v_4", 5, 4, 12, range(4))
    refused(3, "b_one_few_n_2_v_2", 2, 2, 4, range(2))
    refused(3, "b_129", 1, 1, 129, [5])
    refused(3, "b_256", 1, 1, 256, [5])
    refused(3, "b_wraps_times_5", 1, 1, 3435973837, [5])
    refused(3, "b_most", 1, 1, MOST, [5])
    refused(4, "no_values", 1, 1, 3, [])
    refused(4, "one_few", 2, 2, 6, [5])
    refused(4, "one_many", 1, 1, 3, [5, 6])
    refused(4, "v_16_one_few", 1, 16, 18, range(15))
    refused(4, "v_16_one_many", 1, 16, 18, range(17))
    refused(4, "very_many", 1, 1, 3, [0] * 3000)
    refused(5, "first", 1, 3, 5, [NONE, 1, 2])
    refused(5, "middle", 1, 3, 5, [0, NONE, 2])
    refused(5, "last", 1, 3, 5, [0, 1, NONE])
    refused(5, "v_16_last", 1, 16, 18, [*range(15), NONE])
    refused(5, "each", 1, 2, 4, [NONE, NONE])

    # competing pairs: the earlier question wins
    refused(1, "before_02", 33, 17, 128, [5] * 17)
    refused(1, "before_03", 0, 1, 129, [5])
    refused(1, "before_03_few", 33, 1, 0, [5])
    refused(1, "before_04", 33, 1, 128, [])
    refused(1, "before_05", 33, 1, 128, [NONE])
    refused(1, "before_all", 0, 0, 0, [NONE])
    refused(2, "before_03", 1, 17, 129, [5] * 17)
    refused(2, "before_03_few", 1, 17, 0, [5] * 17)
    refused(2, "before_04", 1, 17, 128, [5] * 16)
    refused(2, "before_05", 1, 17, 128, [NONE] * 17)
    refused(2, "before_all", 32, 0, 0, [NONE])
    refused(3, "before_04", 1, 1, 1, [5, 6])
    refused(3, "before_04_many_b", 1, 1, 129, [])
    refused(3, "before_05", 1, 1, 1, [NONE])
    refused(3, "before_05_many_b", 32, 16, 129, [NONE] * 16)
    refused(4, "before_05", 1, 1, 3, [NONE, NONE])
    refused(4, "before_05_few", 1, 2, 4, [NONE])
    refused(4, "before_05_beyond_v", 1, 1, 3, [5, NONE])


def open_edges(cases):
    """N, V and B at and next to their limits, all accepted."""
    for n, v, b in ((1, 1, 2), (1, 1, 3), (1, 1, 128), (1, 2, 3), (2, 1, 4),
                    (2, 1, 5), (31, 1, 62), (32, 1, 64), (32, 1, 128),
                    (1, 15, 16), (1, 16, 17), (1, 16, 128), (31, 15, 76),
                    (32, 15, 78), (31, 16, 77), (32, 16, 79), (32, 16, 80),
                    (32, 16, 127), (32, 16, 128)):
        s = Script(n, v, b, [10 * i for i in range(v)])
        s.swap(n - 1, v - 1, 10 * (v - 1), 7).out(n - 1)
        s.read(0, v - 1).out(0).read(0, 0).out(0)
        cases.accepted("open_n_%d_v_%d_b_%d" % (n, v, b), s.lines)
    cases.accepted("open_alone", ["(open 3 2 8 (1 2))"])
    cases.accepted("open_values_most", ["(open 1 3 5 (4294967294 0 1))"])
    s = Script(1, 1, 3, [NONE - 1])
    s.swap(0, 0, NONE - 1, 0).out(0).swap(0, 0, 0, NONE - 1).out(0)
    s.read(0, 0).out(0)
    cases.accepted("open_swap_of_4294967294", s.lines)
    # A value in a cell may be 255, the number for no task, or any flag.
    for value in (0, 1, 254, 255, 256, 65535, 65536, 2147483647, 2147483648):
        s = Script(2, 1, 5, [value])
        s.swap(1, 0, value, value + 1).out(1).read(0, 0).out(0)
        s.swap(0, 0, value, 3).out(0)
        cases.accepted("open_value_%d" % value, s.lines)


# ------------------------------------------------------ refusals 7 to 11

def action_refusals(cases):
    first = "(open 2 3 7 (5 6 7))"
    after = ["(read 1 2)", "(again 3 (step 1))"]

    def refused(number, name, *lines):
        cases.refused("refuse_%02d_%s" % (number, name),
                      [first, *lines, *after], number)

    for task in (2, 3, 32, 255, 256, 257, 65536, MOST - 1, MOST):
        refused(7, "read_t%d" % task, "(read %d 0)" % task)
        refused(7, "swap_t%d" % task, "(swap %d 0 5 7)" % task)
        refused(7, "step_t%d" % task, "(step %d)" % task)
    for cell in (3, 4, 16, 256, 258, MOST - 1, MOST):
        refused(8, "read_k%d" % cell, "(read 0 %d)" % cell)
        refused(8, "swap_k%d" % cell, "(swap 0 %d 5 7)" % cell)
    for steps in (0, 1, 2):
        busy = ["(read 0 0)"] + ["(step 0)"] * steps
        refused(9, "read_after_read_and_%d" % steps, *busy, "(read 0 0)")
        refused(9, "swap_after_read_and_%d" % steps, *busy, "(swap 0 1 6 8)")
    for steps in (0, 1, 2, 9):
        busy = ["(swap 0 0 5 8)"] + ["(step 0)"] * steps
        refused(9, "read_after_swap_and_%d" % steps, *busy, "(read 0 1)",
                "(again %d (step 0))" % (10 - steps))
        refused(9, "swap_after_swap_and_%d" % steps, *busy, "(swap 0 0 5 9)",
                "(again %d (step 0))" % (10 - steps))
    refused(9, "equal_swap", "(swap 0 0 5 5)", "(swap 0 0 5 5)")
    refused(10, "expected", "(swap 0 0 4294967295 7)")
    refused(10, "new", "(swap 0 0 5 4294967295)")
    refused(10, "both", "(swap 0 0 4294967295 4294967295)")
    refused(10, "then_accepted", "(swap 0 0 5 4294967295)", "(swap 0 0 5 8)",
            "(again 10 (step 0))")
    refused(11, "fresh", "(step 0)")
    refused(11, "after_read", "(read 0 0)", "(again 4 (step 0))")
    refused(11, "after_swap_yes", "(swap 0 0 5 8)", "(again 11 (step 0))")
    refused(11, "after_swap_no", "(swap 0 0 4 8)", "(again 9 (step 0))")
    cases.refused("refuse_11_after_refused_read",
                  [first, "(read 0 3)", "(step 0)", *after], 8, 11)
    cases.refused("refuse_11_after_refused_swap",
                  [first, "(swap 0 0 5 4294967295)", "(step 0)", *after],
                  10, 11)
    cases.refused("refuse_11_many", [first, "(again 300 (step 0))", *after],
                  *[11] * 300)

    # competing pairs: the earlier question wins
    refused(7, "before_08_read", "(read 2 3)")
    refused(7, "before_08_swap", "(swap 2 3 5 7)")
    refused(7, "before_08_most", "(read 4294967295 4294967295)")
    refused(7, "before_09_read", "(read 0 0)", "(read 1 0)", "(read 2 0)",
            "(again 3 (step 1))")
    refused(7, "before_10", "(swap 2 0 4294967295 7)")
    refused(7, "before_08_before_10", "(swap 2 3 4294967295 4294967295)")
    refused(7, "before_11", "(step 2)")
    refused(7, "before_11_most", "(step 4294967295)")
    busy = "(swap 0 0 5 8)"
    run_out = "(again 10 (step 0))"
    refused(8, "before_09_read", busy, "(read 0 3)", run_out)
    refused(8, "before_09_swap", busy, "(swap 0 3 5 7)", run_out)
    refused(8, "before_10_expected", "(swap 0 3 4294967295 7)")
    refused(8, "before_10_new", "(swap 0 3 7 4294967295)")
    refused(8, "before_09_before_10", busy,
            "(swap 0 3 4294967295 4294967295)", run_out)
    refused(9, "before_10_expected", busy, "(swap 0 0 4294967295 7)", run_out)
    refused(9, "before_10_new", busy, "(swap 0 0 7 4294967295)", run_out)
    refused(9, "before_10_both", busy, "(swap 0 1 4294967295 4294967295)",
            run_out)
    # Numbers of refused actions count on: i is the action's own.
    cases.refused("refuse_numbers_of_actions", [
        first, "(read 2 0)", "(read 0 0)", "(read 0 0)", "(again 3 (step 0))",
        "(step 0)", "(again 2 (read 1 3) (step 1))", "(swap 1 1 6 4294967295)",
        "(again 2 (again 2 (step 1)) (read 9 9))"],
        7, 9, 11, 8, 11, 8, 11, 10, 11, 11, 7, 11, 11, 7)
    # A refusal in the middle of a contended call changes nothing.
    lines = []
    for line in P10[1:]:
        lines += [line, "(read 2 0)", "(step 2)", "(read 0 1)",
                  "(swap 1 0 4294967295 4294967295)"]
    cases.add("refuse_between_p10", P10[:1] + lines)


# ------------------------------------------------------ refusals 12 to 15

def padding(size):
    """Lines without actions, this many bytes together (at least 10)."""
    # "(again 0)" and its line end are 10 bytes, longer counts up to 19
    whole, rest = divmod(size, 10)
    last = 10 ** rest if rest else 0
    return b"(again 0)\n" * (whole - 1) + b"(again %d)\n" % last


def padded(head, size):
    data = draw.text(head)
    data += padding(size - len(data))
    assert len(data) == size
    return data


def one_long_line(size):
    """One accepted line without actions and an open, together this long."""
    head = b"(open 1 1 3 (5))\n(again 0"
    room = size - len(head) - len(b")\n")
    whole, rest = divmod(room, len(b" (step 0)"))
    steps = [b" (step 0)"] * (whole - 1) + [
        b" (step %d)" % (10 ** rest if rest else 0)]
    data = head + b"".join(steps) + b")\n"
    assert len(data) == size
    return data


def most_actions():
    """A session of exactly 65,535 actions, none refused."""
    return [
        "(open 2 1 5 (5))",
        "(again 2 (again 1489 (swap 0 0 5 7) (again 10 (step 0))"
        " (swap 0 0 7 5) (again 2 (again 5 (step 0)))))",
        "(again 4 (read 0 0) (again 3 (step 0)))",
        "(swap 1 0 5 9)",
        "(again 2 (step 1))",
    ]


def file_refusals(cases):
    cases.accepted("edge_bytes_65536", padded(P1, 65536))
    cases.refused("edge_bytes_65537", padded(P1, 65537), 12)
    cases.accepted("edge_one_line_65536", one_long_line(65536))
    cases.refused("refuse_12_before_13", b"(" * 65537, 12)
    cases.refused("refuse_12_before_14", padded(["(shut 1)"], 65537), 12)
    cases.refused("refuse_12_before_15", padded(
        ["(open 1 1 3 (5))", "(again 65536 (step 0))"], 65537), 12)
    cases.refused("refuse_13_depth_65536", b"(" * 65536, 13)
    cases.refused("refuse_13_last_of_65536_bytes",
                  padded(P1, 65536)[:-1] + b" ", 13)
    cases.refused("refuse_14_digits_65536", b"(open 1 1 3 (%s))\n"
                  % (b"1" * (65536 - 16)), 14)

    cases.refused("refuse_13_before_14",
                  ["(open 1 1 3 (5))", "(shut 1)", "(step  0)"], 13)
    cases.refused("refuse_13_before_14_no_open", ["(step 0", "(read 0 0)"],
                  13)
    cases.refused("refuse_13_before_14_same_line",
                  ["(open 1 1 3 (5))", "(shut  01)"], 13)
    cases.refused("refuse_13_before_15", [
        "(open 1 1 3 (5))", "(again 65536 (step 0))", "(step 0) "], 13)
    cases.refused("refuse_13_before_01", ["(open 0 1 3 (5))", "(step 0"], 13)
    cases.refused("refuse_14_before_15", [
        "(open 1 1 3 (5))", "(again 65536 (step 0))", "(stop 0)"], 14)
    cases.refused("refuse_14_before_15_other_order", [
        "(open 1 1 3 (5))", "(stop 0)", "(again 65536 (step 0))"], 14)
    cases.refused("refuse_14_before_15_no_open", [
        "(again 65536 (step 0))"], 14)
    cases.refused("refuse_14_before_01", ["(open 0 1 3 (5))", "(step)"], 14)
    cases.refused("refuse_14_before_05", [
        "(open 1 1 3 (4294967295))", "(step 00)"], 14)
    cases.refused("refuse_14_before_11", ["(open 1 1 3 (5))", "(step 0)",
                                          "(step 0 0)"], 14)
    cases.refused("refuse_15_before_01", [
        "(open 0 1 3 (5))", "(again 65536 (step 0))"], 15)
    cases.refused("refuse_15_before_03", [
        "(open 1 1 1 (5))", "(again 65536 (step 0))"], 15)
    cases.refused("refuse_15_before_11", [
        "(open 1 1 3 (5))", "(step 0)", "(again 65535 (step 0))"], 15)

    lines = most_actions()
    cases.accepted("edge_actions_65535", lines)
    cases.refused("edge_actions_65536", lines + ["(step 1)"], 15)
    cases.refused("edge_actions_65536_by_begin", lines + ["(read 0 0)"], 15)
    cases.refused("edge_actions_65536_nested", [
        "(open 1 1 3 (5))",
        "(again 2 " * 4 + "(again 16 (again 256 (step 0)))" + ")" * 4], 15)
    cases.refused("edge_actions_65536_flat", [
        "(open 1 1 3 (5))", "(again 65536 (step 0))"], 15)
    cases.refused("edge_actions_65535_flat_refused_open", [
        "(open 1 1 3 ())", "(again 65535 (step 0))"], 4)
    cases.refused("edge_actions_65535_nested_refused_open", [
        "(open 1 1 3 ())", "(again 255 (again 257 (step 0)))"], 4)
    cases.refused("edge_actions_65535_split_refused_open", [
        "(open 1 1 3 ())", "(again 32767 (step 0) (step 0))", "(step 0)"], 4)
    cases.refused("edge_actions_65536_split", [
        "(open 1 1 3 ())", "(again 32767 (step 0) (step 0))", "(step 0)",
        "(step 0)"], 15)
