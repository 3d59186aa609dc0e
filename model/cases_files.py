"""Cases of brackets, forms, numbers and again."""

import draw

# ------------------------------------------------------------- the brackets

OPEN = b"(open 2 1 5 (5))\n"


def bracket_cases(cases):
    def bad(name, data):
        cases.refused("form_13_" + name, data, 13)

    bad("no_last_line_end", OPEN + b"(step 0)")
    bad("open_without_line_end", OPEN[:-1])
    bad("only_a_line_end", b"\n")
    bad("two_line_ends", b"\n\n")
    bad("empty_line_first", b"\n" + OPEN)
    bad("empty_line_middle", OPEN + b"\n(step 0)\n")
    bad("empty_line_last", OPEN + b"(step 0)\n\n")
    bad("only_a_space", b" ")
    bad("space_line", OPEN + b" \n")
    bad("leading_space", OPEN + b" (step 0)\n")
    bad("trailing_space", OPEN + b"(step 0) \n")
    bad("leading_space_in_open", b" " + OPEN)
    bad("trailing_space_in_open", OPEN[:-1] + b" \n")
    bad("two_spaces", OPEN + b"(step  0)\n")
    bad("three_spaces", OPEN + b"(swap 0 0   5 7)\n")
    bad("two_spaces_before_list", b"(open 2 1 5  (5))\n")
    bad("two_spaces_in_values", b"(open 2 2 6 (5  6))\n")
    bad("space_after_bracket", OPEN + b"( step 0)\n")
    bad("space_before_bracket", OPEN + b"(step 0 )\n")
    bad("space_in_empty_list", OPEN + b"( )\n")
    bad("space_in_empty_values", b"(open 2 1 5 ( ))\n")
    bad("space_after_value", b"(open 2 1 5 (5 ))\n")
    bad("space_before_value", b"(open 2 1 5 ( 5))\n")
    bad("space_after_values", b"(open 2 1 5 (5) )\n")
    bad("no_space_before_list", b"(open 2 1 5(5))\n")
    bad("no_space_between_lists", OPEN + b"(again 1 (step 0)(step 1))\n")
    bad("no_space_after_list", OPEN + b"(again 1 (step 0)x)\n")
    bad("no_space_after_empty_list", OPEN + b"(()())\n")
    bad("text_after_form", OPEN + b"(step 0)x\n")
    bad("text_after_space", OPEN + b"(step 0) x\n")
    bad("text_before_form", OPEN + b"x(step 0)\n")
    bad("text_only", b"open\n")
    bad("number_only", OPEN + b"7\n")
    bad("comment", OPEN + b"; (step 0)\n")
    bad("two_forms", OPEN + b"(step 0)(step 1)\n")
    bad("two_forms_with_space", OPEN + b"(step 0) (step 1)\n")
    bad("open_and_form_on_a_line", b"(open 2 1 5 (5)) (step 0)\n")
    bad("form_over_two_lines", OPEN + b"(step\n0)\n")
    bad("form_over_two_lines_with_space", OPEN + b"(step \n0)\n")
    bad("again_over_two_lines", OPEN + b"(again 2 (step 0)\n(step 1))\n")
    bad("line_end_for_space_in_open", b"(open 2 1 5\n(5))\n")
    bad("one_close_few", OPEN + b"(step 0\n")
    bad("one_close_few_in_open", b"(open 2 1 5 (5)\n")
    bad("one_close_few_in_again", OPEN + b"(again 1 (step 0)\n")
    bad("one_close_many", OPEN + b"(step 0))\n")
    bad("one_close_many_in_open", b"(open 2 1 5 (5)))\n")
    bad("one_open_few", OPEN + b"step 0)\n")
    bad("one_open_many", OPEN + b"((step 0)\n")
    bad("balanced_over_lines", OPEN + b"(step 0\n)\n")
    bad("closed_then_opened", OPEN + b")step 0(\n")
    bad("only_open_bracket", b"(\n")
    bad("only_close_bracket", b")\n")
    bad("only_open_bracket_without_end", b"(")
    bad("close_open", b")(\n")
    bad("return_before_line_end", OPEN + b"(step 0)\r\n")
    bad("return_for_line_end", OPEN + b"(step 0)\r")
    bad("return_in_open", b"(open 2 1 5 (5))\r\n")
    bad("tab_after_form", OPEN + b"(step 0)\t\n")
    bad("zero_after_last_line", OPEN + b"\0")
    bad("byte_order_mark", b"\xef\xbb\xbf" + OPEN)
    bad("square_brackets", b"[open 2 1 5 [5]]\n")
    bad("last_of_many_lines", OPEN + b"(again 0)\n" * 200 + b"(again 0\n")

    def nested(depth, inner=b""):
        return b"(" * depth + inner + b")" * depth

    def agains(count):
        return b"(again 1 " * count + b"(step 0)" + b")" * count

    begun = OPEN + b"(read 0 0)\n"
    cases.accepted("edge_depth_7", begun + agains(6) + b"\n")
    cases.accepted("edge_depth_8", begun + agains(7) + b"\n")
    cases.refused("edge_depth_9", begun + agains(8) + b"\n", 13)
    cases.refused("edge_depth_10", begun + agains(9) + b"\n", 13)
    cases.accepted("edge_depth_8_three_times", begun + agains(7) + b"\n"
                   + agains(7) + b"\n" + agains(7) + b"\n")
    cases.accepted("edge_depth_8_again_none", begun + b"(again 1 " * 7
                   + b"(again 3)" + b")" * 7 + b"\n")
    cases.refused("edge_depth_9_in_again_0", begun + b"(again 0 " * 8
                  + b"(step 0)" + b")" * 8 + b"\n", 13)
    cases.refused("edge_depth_8_empty_lists", nested(8) + b"\n", 14)
    cases.refused("edge_depth_9_empty_lists", nested(9) + b"\n", 13)
    cases.refused("edge_depth_8_word", nested(8, b"open") + b"\n", 14)
    cases.refused("edge_depth_9_word", nested(9, b"open") + b"\n", 13)
    cases.refused("edge_depth_8_values",
                  b"(open 1 1 3 " + nested(7, b"5") + b")\n", 14)
    cases.refused("edge_depth_9_values",
                  b"(open 1 1 3 " + nested(8, b"5") + b")\n", 13)
    cases.refused("edge_depth_9_second_item",
                  OPEN + b"(again 1 (step 0) " + nested(8) + b")\n", 13)
    cases.refused("edge_depth_8_second_item",
                  OPEN + b"(again 1 (step 0) " + nested(7) + b")\n", 14)
    cases.refused("edge_depth_300", OPEN + nested(300) + b"\n", 13)
    cases.refused("edge_depth_9_unbalanced", OPEN + b"(" * 9 + b"\n", 13)
    cases.refused("edge_depth_8_unbalanced", OPEN + b"(" * 8 + b"\n", 13)
    cases.accepted("edge_wide_again",
                   begun + b"(again 1" + b" (again 1 (again 0))" * 200
                   + b" (step 0)" + b" (again 2)" * 200 + b")\n")


# ------------------------------------------------------------------ the forms

def form_cases(cases):
    def bad(name, data):
        cases.refused("form_14_" + name, data, 14)

    bad("empty_file", b"")
    bad("empty_list", b"()\n")
    bad("empty_list_after_open", OPEN + b"()\n")
    bad("empty_list_in_again", OPEN + b"(again 1 ())\n")
    bad("list_of_empty_list", OPEN + b"(())\n")
    bad("list_of_form", OPEN + b"((step 0))\n")
    bad("list_as_word", OPEN + b"((step) 0)\n")
    bad("number_as_word", OPEN + b"(0 0)\n")

    # "open first and only there"
    bad("open_missing", b"(read 0 0)\n(step 0)\n")
    bad("open_twice", OPEN + OPEN)
    bad("open_twice_apart", OPEN + b"(read 0 0)\n" + OPEN)
    bad("open_last", b"(again 3)\n" + OPEN)
    bad("open_second", b"(step 0)\n" + OPEN + b"(step 0)\n")
    bad("open_in_again", OPEN + b"(again 1 (open 2 1 5 (5)))\n")
    bad("open_in_again_0", OPEN + b"(again 0 (open 2 1 5 (5)))\n")
    bad("open_in_again_first", b"(again 1 (open 2 1 5 (5)))\n")
    bad("open_in_nested_again",
        OPEN + b"(again 1 (step 0) (again 1 (open 2 1 5 (5))))\n")
    bad("open_after_refused_open", b"(open 0 1 5 (5))\n" + OPEN)

    # wrong words
    for name, word in (("cap_open", b"Open"), ("all_cap_open", b"OPEN"),
                       ("ope", b"ope"), ("opens", b"opens"),
                       ("opem", b"opem"), ("nepo", b"nepo")):
        bad("word_" + name, b"(" + word + b" 2 1 5 (5))\n")
    for name, form in (("reads", b"(reads 0 0)"), ("rea", b"(rea 0 0)"),
                       ("cap_read", b"(Read 0 0)"), ("swat", b"(swat 0 0 5 7)"),
                       ("swapp", b"(swapp 0 0 5 7)"), ("ste", b"(ste 0)"),
                       ("stepp", b"(stepp 0)"), ("steo", b"(steo 0)"),
                       ("again1", b"(again1 (step 0))"),
                       ("agai", b"(agai 1 (step 0))"),
                       ("look", b"(look 0)"), ("done", b"(done 0)"),
                       ("drops", b"(drops 0)"), ("dro", b"(dro 0)"),
                       ("cap_drop", b"(Drop 0)")):
        bad("word_" + name, OPEN + form + b"\n")
    cases.pin("form_14_word_add", OPEN + b"(add 0 0 1 1)\n", b"(bad 14)\n")
    for name, form in (("offer", b"(offer 0 0 5)"),
                       ("cell", b"(cell 0 5)"), ("end", b"(end)"),
                       ("quoted", b'("step" 0)'), ("s", b"(s 0)")):
        bad("word_" + name, OPEN + form + b"\n")
    bad("word_step_as_read", OPEN + b"(step 0 0)\n")
    bad("word_read_as_step", OPEN + b"(read 0)\n")

    # item counts
    whole = {
        "open": (b"open", b"2", b"1", b"5", b"(5)"),
        "read": (b"read", b"0", b"0"),
        "swap": (b"swap", b"0", b"0", b"5", b"7"),
        "step": (b"step", b"0"),
        "drop": (b"drop", b"0"),
    }
    for word, items in whole.items():
        before = b"" if word == "open" else OPEN

        def line(*items):
            return before + b"(" + b" ".join(items) + b")\n"

        bad("%s_one_many" % word, line(*items, b"0"))
        bad("%s_one_few" % word, line(*items[:-1]))
        bad("%s_alone" % word, line(items[0])) if len(items) > 2 else None
        bad("%s_list_many" % word, line(*items, b"()"))
        bad("%s_form_many" % word, line(*items, b"(step 0)"))
        # each number in turn replaced
        for at in range(1, len(items)):
            if items[at] == b"(5)":
                continue
            for name, item in (
                    ("4294967296", b"4294967296"), ("01", b"01"),
                    ("word", b"x"), ("list", b"(1)"), ("empty_list", b"()")):
                bad("%s_item_%d_%s" % (word, at, name),
                    line(*items[:at], item, *items[at + 1:]))
            # as great as a number may be: a form, whatever comes of it
            cases.add("edge_4294967295_%s_item_%d" % (word, at),
                      line(*items[:at], b"4294967295", *items[at + 1:])
                      + b"(read 1 0)\n(again 3 (step 1))\n")
    bad("open_values_number", b"(open 2 1 5 5)\n")
    bad("open_values_missing_but_extra_number", b"(open 2 1 5 5 5)\n")
    bad("open_values_word", b"(open 2 1 5 (x))\n")
    bad("open_values_list", b"(open 2 1 5 ((5)))\n")
    bad("open_values_4294967296", b"(open 2 1 5 (4294967296))\n")
    bad("open_values_05", b"(open 2 1 5 (05))\n")
    bad("open_values_second_bad", b"(open 2 2 6 (5 x))\n")
    bad("open_values_two_lists", b"(open 2 1 5 (5) (5))\n")
    bad("open_values_first", b"(open (5) 2 1 5)\n")
    bad("open_value_bad_though_too_many", b"(open 2 1 5 (5 01))\n")
    cases.refused("edge_open_empty_values", b"(open 1 1 3 ())\n", 4)

    # again
    bad("again_alone", OPEN + b"(again)\n")
    bad("again_without_count", OPEN + b"(again (step 0))\n")
    bad("again_count_word", OPEN + b"(again x (step 0))\n")
    bad("again_count_00", OPEN + b"(again 00 (step 0))\n")
    bad("again_count_01", OPEN + b"(again 01 (step 0))\n")
    bad("again_count_4294967296", OPEN + b"(again 4294967296 (step 0))\n")
    bad("again_count_4294967296_of_none", OPEN + b"(again 4294967296)\n")
    bad("again_count_minus_1", OPEN + b"(again -1 (step 0))\n")
    bad("again_of_number", OPEN + b"(again 2 0)\n")
    bad("again_of_word", OPEN + b"(again 2 step 0)\n")
    bad("again_of_number_last", OPEN + b"(again 2 (step 0) 0)\n")
    bad("again_of_bad_form", OPEN + b"(again 2 (step 0) (step))\n")
    bad("again_0_of_bad_form", OPEN + b"(again 0 (step))\n")
    bad("again_0_of_bad_number", OPEN + b"(again 0 (step 4294967296))\n")
    bad("again_of_list_of_forms", OPEN + b"(again 2 ((step 0) (step 1)))\n")
    bad("again_in_again_0_bad", OPEN + b"(again 0 (again 0 (again x)))\n")

    # numbers
    for name, number in (
            ("00", b"00"), ("01", b"01"), ("000", b"000"), ("minus_0", b"-0"),
            ("minus_1", b"-1"), ("plus_0", b"+0"), ("0x0", b"0x0"),
            ("1_0", b"1_0"), ("0_point_0", b"0.0"), ("1e0", b"1e0"),
            ("4294967296", b"4294967296"), ("4294967297", b"4294967297"),
            ("5000000000", b"5000000000"), ("9999999999", b"9999999999"),
            ("10000000000", b"10000000000"), ("8589934592", b"8589934592"),
            ("42949672960", b"42949672960"),
            ("04294967295", b"04294967295"),
            ("00000000000", b"0" * 11),
            ("18446744073709551615", b"18446744073709551615"),
            ("18446744073709551616", b"18446744073709551616"),
            ("18446744073709551617", b"18446744073709551617"),
            ("79228162514264337593543950336",
             b"79228162514264337593543950336"),
            ("digits_100", b"1" * 100), ("digits_5000", b"9" * 5000),
            ("zeros_5000", b"0" * 5000),
            ("one_and_zeros_5000", b"1" + b"0" * 5000),
            ("arabic_digit", "\u0660".encode()), ("full_width",
                                                  "\uff10".encode()),
            ("letter_o", b"o"), ("letter_l", b"l"), ("digit_letter", b"0a"),
            ("letter_digit", b"a0"), ("slash", b"/"), ("colon", b":"),
            ("quote", b"'0")):
        bad("number_" + name, OPEN + b"(step " + number + b")\n")
    for number in (0, 1):
        cases.add("edge_number_%d" % number, OPEN + b"(read %d 0)\n"
                  b"(again 3 (step %d))\n" % (number, number))

    # bytes in a word, as an item, outside
    for byte in (0, 1, 9, 11, 12, 13, 27, 31, 33, 39, 40, 41, 91, 127, 128,
                 160, 192, 255):
        one = bytes((byte,))
        name = "byte_%d" % byte
        brackets = byte in (40, 41)
        number = 13 if brackets else 14
        cases.refused("form_%d_%s_in_word" % (number, name),
                      OPEN + b"(st" + one + b"ep 0)\n", number)
        cases.refused("form_%d_%s_in_number" % (number, name),
                      OPEN + b"(step 0" + one + b")\n", number)
        cases.refused("form_%d_%s_as_item" % (number, name),
                      OPEN + b"(step " + one + b")\n", number)
        cases.refused("form_13_%s_after_form" % name,
                      OPEN + b"(step 0)" + one + b"\n", 13)
        cases.refused("form_13_%s_before_form" % name, one + OPEN, 13)
    cases.refused("form_13_byte_10_in_word", OPEN + b"(st\nep 0)\n", 13)
    cases.refused("form_13_byte_10_in_number", OPEN + b"(step 1\n0)\n", 13)
    cases.refused("form_14_space_in_word", OPEN + b"(st ep 0)\n", 14)
    cases.refused("form_14_tab_for_space", OPEN + b"(step\t0)\n", 14)
    cases.refused("form_14_every_run_byte", OPEN + b"(" + bytes(
        b for b in range(256) if b not in b"() \n") + b")\n", 14)
    cases.refused("form_13_every_byte", bytes(range(256)), 13)


# ----------------------------------------------------------------- repeating

def again_cases(cases):
    begun = ["(open 2 1 5 (5))", "(swap 0 0 5 7)"]
    run_out = ["(again 10 (step 0))"]

    def good(name, *lines):
        cases.accepted("again_" + name, [*begun, *lines, *run_out])

    good("0", "(again 0 (step 0))")
    good("0_of_none", "(again 0)")
    good("1_of_none", "(again 1)")
    good("most_of_none", "(again 4294967295)")
    good("most_of_most_of_none", "(again 4294967295 (again 4294967295))")
    good("most_seven_deep_of_none", "(again 4294967295 " * 7
         + "(again 4294967295)" + ")" * 7)
    good("most_of_0", "(again 4294967295 (again 0 (step 0)))")
    good("most_of_most_of_0",
         "(again 4294967295 (again 4294967295 (again 0 (step 0))))")
    good("0_of_most", "(again 0 (again 4294967295 (step 0)))")
    good("0_of_most_of_most",
         "(again 0 (again 4294967295 (again 4294967295 (step 0))))")
    good("0_of_65536_to_the_4", "(again 0 " + "(again 65536 " * 4
         + "(step 0)" + ")" * 5)
    good("65536_to_the_4_of_0", "(again 65536 " * 4 + "(again 0 (step 0))"
         + ")" * 4)
    good("most_of_several_nothings", "(again 4294967295 (again 0 (step 0))"
         " (again 7) (again 3 (again 0 (read 0 0) (step 1))))")
    good("nothing_between", "(again 2 (again 0 (step 1)))", "(again 1)",
         "(again 0 (again 1 (step 1)) (step 1))")
    cases.accepted("again_nothings_by_actions", [
        "(open 1 1 3 (5))",
        "(again 3000 (read 0 0) (again 3 (again 4294967295) (step 0)"
        + " (again 0 (step 0))" * 40 + "))"])
    cases.accepted("again_1", [*begun, "(again 1 (step 0))",
                               "(again 9 (step 0))"])
    cases.accepted("again_several_forms", [
        "(open 2 2 6 (5 6))",
        "(again 3 (read 0 0) (step 0) (read 1 1) (step 1) (step 0) (step 0)"
        " (step 1) (step 1))"])
    cases.accepted("again_nested", [
        "(open 2 2 6 (5 6))",
        "(again 2 (again 3 (read 0 0) (again 3 (step 0))) (again 1 (swap 1 1"
        " 6 6) (again 1 (again 3 (step 1)))))"])
    cases.accepted("again_swap_and_back", [
        "(open 1 1 3 (5))",
        "(again 20 (swap 0 0 5 7) (again 10 (step 0)) (swap 0 0 7 5)"
        " (again 2 (again 5 (step 0))))"])
    cases.accepted("again_order", [
        "(open 3 1 7 (5))",
        "(again 1 (swap 0 0 5 6) (swap 1 0 5 7) (swap 2 0 5 8))",
        "(again 7 (step 0) (step 1) (step 2))"])
    cases.add("again_contention", [
        "(open 4 1 9 (0))",
        "(again 40 (swap 0 0 0 1) (swap 1 0 1 2) (swap 2 0 2 0) (swap 3 0 0 2)"
        " (again 9 (step 0) (again 2 (step 1)) (step 2) (step 3)))"])
    cases.add("again_round_robin_32", [
        draw.opening_line(32, 1, 65, [0]),
        "(again 3 " + " ".join("(swap %d 0 %d %d)" % (t, t % 2, (t + 1) % 2)
                               for t in range(32))
        + " (again 13 " + " ".join("(step %d)" % t for t in range(32)) + "))"])
    cases.refused("again_refusals_counted", [
        "(open 1 1 3 (5))", "(again 2 (again 3 (step 0)) (read 0 1))"],
        *[11] * 6, 8, 8)

    # Sums and products that wrap at 32 or 64 bits are still too many.
    def many(name, *lines):
        cases.refused("again_too_many_" + name,
                      ["(open 1 1 3 (5))", *lines], 15)

    many("most", "(again 4294967295 (step 0))")
    many("2_to_the_32", "(again 65536 (again 65536 (step 0)))")
    many("2_to_the_32_and_1", "(again 65536 (again 65536 (step 0)))",
         "(step 0)")
    many("2_to_the_33", "(again 2147483648 (step 0) (step 0) (step 0)"
         " (step 0))")
    many("sum_2_to_the_32", "(again 4294967295 (step 0))", "(step 0)")
    many("sum_inside_2_to_the_32", "(again 1 (again 4294967295 (step 0))"
         " (step 0))")
    many("2_to_the_64", "(again 65536 " * 4 + "(step 0)" + ")" * 4)
    many("2_to_the_64_by_2", "(again 2147483648 (again 2147483648 (step 0)"
         " (step 0) (step 0) (step 0)))")
    many("2_to_the_64_and_1", "(again 65536 " * 4 + "(step 0)" + ")" * 4,
         "(step 0)")
    many("sum_2_to_the_64", "(again 4294967295 (again 4294967295 (step 0)))",
         "(again 2 (again 4294967295 (step 0)))", "(step 0)")
    many("2_to_the_96", "(again 65536 " * 6 + "(step 0)" + ")" * 6)
    many("most_seven_deep", "(again 4294967295 " * 7 + "(step 0)" + ")" * 7)
    many("one_more_than_fits", "(again 65535 (step 0))", "(step 0)")
    many("hidden_last", *["(again 0 (step 0))"] * 50,
         "(again 3 (again 0) (again 21846 (step 0)))")
