#!/usr/bin/env python3
"""Writes the samples of the test program and what it must print; the same bytes at every run.

    python3 tests/make_samples.py

writes, from the top of the repository (standard library of Python only):

- crates/samples/data/NAME: one sample. Its first 4 bytes are the words of scratch to lend, the next 4 the words of output
  (little-endian), and the rest is the file to join: `tail -c +9 crates/samples/data/NAME` is that file alone.
- crates/samples/args: the names, in the order in which the test program goes through them.
- crates/samples/stdout: for each sample its name, the answer as the program prints it, and what scratch and output hold
  after the call; then number, detail and rows of the slow engine's answer, what an output of its own holds after it, and whether
  that is what the join's holds; then results by their numbers (past the last one, the first, the middle and the last), their row
  numbers, the buffers, and the way back. The answers come from reference.py, which tries every choice, or numbers those that agree
  where there are very many, and shares no code with the library.
- crates/pigrozd/stdin and crates/pigrozd/stdout: document 01's sample file and its print.

To add a sample, add a line to a function below and run this again.
"""
import itertools
import math
import os
import random

import reference

TOP = os.path.join(os.path.dirname(os.path.abspath(__file__)), os.pardir)
LARGEST = 4294967295  # a number of rows; as a value it means not recorded
BEFORE = 2779096485  # what the test program fills both buffers with; no sample may hold it as a value

samples = []


def sample(name, data, scratch=1000, output=300):
    assert all(name != other for other, *_ in samples), name
    samples.append((name, data, scratch, output))


# ---- files
def word(n):
    return n.to_bytes(4, "little")


def record(mask, rows, *columns):
    """A table record as its fields say, whole or not."""
    return b"TB" + word(mask) + word(rows) + b"".join(word(v) for column in columns for v in column)


def table(attributes, *rows):
    """A table with these attributes, rising, and these rows."""
    assert list(attributes) == sorted(set(attributes))
    assert all(len(row) == len(attributes) and BEFORE not in row for row in rows)
    return record(sum(1 << a for a in attributes), len(rows), *zip(*rows))


def counted(attributes, *rows):
    """A table with a column of copies, these attributes, rising, and these rows, each with its copies first."""
    assert list(attributes) == sorted(set(attributes))
    assert all(len(row) == 1 + len(attributes) and BEFORE not in row for row in rows)
    return b"TC" + record(sum(1 << a for a in attributes), len(rows), *zip(*rows))[2:]


def plan(*code):
    return b"PL" + bytes([len(code)]) + bytes(code)


def file(tables, *code):
    return b"".join(tables) + plan(*code)


FF = 255
FRAMES = table((0, 1), (10, 1), (11, 2), (12, 2), (13, 4))
EXPOSURES = table((1, 2), (1, 7), (2, 8), (2, 9), (3, 7))
READINGS = table((2, 3), (7, 29510), (7, 29510), (9, 29530))
BENCH = (FRAMES, EXPOSURES, READINGS)
P1 = file(BENCH, FF, 0, FF, 1, 2)
ONE = table((0,), (5,))  # one row that holds 5 in attribute 0


# ---- document 01's samples
def bench_samples():
    assert len(P1) == 126
    sample("p1_sample_file", P1, 16384, 16384)
    sample("p2_second_and_third_table_swapped", file(BENCH, FF, 0, FF, 2, 1))
    sample("p3_left_plan_joined_first", file(BENCH, FF, FF, 0, 1, 2))
    sample("p4_plan_names_one_table", file(BENCH, 0))
    sample("p5_plan_ends_early", file(BENCH, FF, 0))
    sample("p6_byte_behind_a_whole_plan", file(BENCH, FF, 0, 1, 2))
    sample("p7_table_named_twice", file(BENCH, FF, 0, FF, 0, 1))
    sample("p8_empty_file", b"")
    sample("p9_scratch_of_117_words", P1, 117)
    sample("p9_scratch_of_118_words", P1, 118)
    sample("p10_output_of_15_words", P1, 1000, 15)
    sample("p10_output_of_16_words", P1, 1000, 16)
    sample("p11_no_rows_no_buffers", file([table((0,))], 0), 0, 0)
    sample("p12_every_pair_matches", file([table((0,), (5,), (5,)), table((1,), (6,), (7,))], FF, 0, 1))


# ---- answers 1 to 6
def cut_samples():
    places = {
        "mark": 1, "mask_field": 5, "row_count": 9, "first_column": 20, "last_column": 41, "second_mark": 43,
        "second_mask_field": 47, "third_table": 100, "plan_mark": 119, "plan_bytes": 123,
    }
    for place, at in places.items():
        sample("cut_in_" + place, P1[:at])
    sample("cut_in_row_count_with_no_attributes", record(0, 0)[:9])
    sample("cut_in_row_count_with_nine_attributes", record(511, 0)[:9])
    sample("cut_in_row_count_of_4097", record(1, 4097)[:9])
    sample("cut_behind_mark", P1[:2])
    sample("cut_before_columns", P1[:10])
    sample("cut_between_tables", P1[:42])
    sample("cut_one_byte_short_of_the_third_table", P1[:117])
    sample("cut_before_plan", P1[:118])
    sample("cut_before_plan_length", P1[:120])
    sample("cut_before_plan_bytes", P1[:121])
    sample("cut_before_last_byte", P1[:125])
    sample("cut_before_plan_length_0", file([ONE])[:-1])


def record_samples():
    sample("mark_first_byte_other", b"SB" + P1[2:])
    sample("mark_second_byte_other", b"TD" + P1[2:])
    sample("mark_of_both_kinds_mixed", b"TL" + P1[2:])
    sample("mark_reversed", b"BT" + P1[2:])
    sample("mark_of_second_record_other", P1[:42] + b"tb" + P1[44:])
    sample("mark_of_plan_reversed", P1[:118] + b"LP" + P1[120:])
    sample("mark_of_plan_first_byte_other", P1[:118] + b"QL" + P1[120:])
    sample("mark_of_plan_second_byte_other", P1[:118] + b"PM" + P1[120:])
    sample("attributes_none", record(0, 1, [5]) + plan(0))
    sample("attributes_one", file([ONE], 0))
    sample("attributes_eight", file([table(range(8), range(1, 9), range(11, 19))], 0))
    sample("attributes_eight_spread", file([table((0, 3, 7, 12, 19, 24, 30, 31), range(8), range(8))], 0))
    sample("attributes_nine", file([table(range(9), range(9))], 0))
    sample("attributes_all_32", file([table(range(32), range(32))], 0))
    sample("attributes_nine_and_rows_4097", record(511, 4097))
    sample("rows_4097", record(1, 4097) + plan(0))
    sample("rows_4097_in_the_second_table", ONE + record(1, 4097))
    sample("rows_largest", record(1, LARGEST) + plan(0))
    sample("rows_4096_not_there", record(1, 4096) + plan(0))
    sample("rows_none_in_eight_columns", file([table(range(8))], 0))
    chain = [FF] * 15 + list(range(16))
    sample("tables_16", file([ONE] * 16, *chain))
    sample("tables_17", file([ONE] * 17, *([FF] + chain), 16))
    sample("tables_17_last_only_a_mark", b"".join([ONE] * 16) + b"TB")
    sample("tables_16_and_half_a_mark", b"".join([ONE] * 16) + b"T")
    sample("tables_16_and_another_mark", b"".join([ONE] * 16) + b"TT")
    sample("tables_none", plan(0))
    sample("behind_plan_one_byte", P1 + b"\0")
    sample("behind_plan_a_table", P1 + ONE)
    sample("behind_plan_a_plan", P1 + plan(0))
    sample("plan_before_tables", plan(0) + ONE)
    sample("plan_of_no_bytes_before_a_table", plan() + ONE)
    sample("behind_plan_of_no_bytes", file(BENCH) + b"\0")
    sample("fault_of_second_table_first_one_whole", ONE + record(0, 1, [5]) + record(1, 4097))


# ---- answers 7 to 11
def plan_samples():
    sample("plan_of_no_bytes_and_no_tables", file([]))
    sample("plan_of_ff_alone", file(BENCH, FF))
    sample("plan_of_255_ff", file(BENCH, *[FF] * 255))
    sample("plan_ends_early_inside", file(BENCH, FF, FF, 0, 1))
    sample("plan_with_byte_16", file(BENCH, FF, 0, FF, 16, 2))
    sample("plan_with_byte_254", file(BENCH, 254, 0, FF, 1, 2))
    sample("plan_misspelled_and_misnamed", file(BENCH, FF, 9, 17))
    sample("plan_of_two_plans", file(BENCH, 0, 1))
    sample("plan_names_absent_table_3", file(BENCH, FF, 0, FF, 1, 3))
    sample("plan_names_absent_table_15", file([ONE], 15))
    sample("plan_names_twice_before_absent", file(BENCH, FF, FF, 1, 1, 9))
    sample("plan_names_a_table_again_late", file([ONE] * 5, FF, 0, FF, 1, FF, 2, FF, 1, 4))
    sample("plan_leaves_a_table_out", file(BENCH, FF, 0, 1))
    sample("plan_misnamed_and_ill_behaved", file(BENCH, FF, FF, 0, 2, 2))
    pieces = [table((0,), (5,)), table((1,), (6,)), table((1, 2), (6, 7)), table((2,), (7,))]
    sample("mended_at_an_inner_join", file(pieces, FF, 0, FF, FF, 1, 2, 3))
    sample("mended_at_the_left_leftmost", file(BENCH, FF, FF, 2, 1, 0))
    sample("mended_at_outer_and_inner_join", file(BENCH + (table((3,), (29510,)),), FF, FF, 0, FF, 2, 1, 3))
    twice = BENCH + tuple(table((a, a + 1), (1, 2)) for a in (10, 11, 12))
    sample("mended_in_both_plans", file(twice, FF, FF, 0, FF, 2, 1, FF, 3, FF, 5, 4))
    sample("mended_in_the_right_plan", file(twice, FF, FF, 0, FF, 1, 2, FF, 3, FF, 5, 4))
    # three chains of three tables; the first tables of the chains share attribute 31, so the joins of chains are well-behaved
    chains = [table((a, a + 1) + (31,) * (a % 10 == 0), (1, 2) + (3,) * (a % 10 == 0)) for a in (0, 1, 2, 10, 11, 12, 20, 21, 22)]
    sample("mended_in_both_plans_below_a_key", file(chains[:6], FF, FF, 0, FF, 2, 1, FF, 3, FF, 5, 4))
    sample("mended_twice_further_below", file(chains, FF, FF, 0, FF, 1, 2, FF, FF, 3, FF, 5, 4, FF, 6, FF, 8, 7))
    sample("mended_once_further_below", file(chains, FF, FF, 0, FF, 1, 2, FF, FF, 3, FF, 4, 5, FF, 6, FF, 8, 7))
    sample("well_behaved_from_the_middle", file(BENCH, FF, FF, 1, 0, 2))
    sample("well_behaved_backwards", file(BENCH, FF, 2, FF, 1, 0))
    triangle = [table((0, 1), (1, 2)), table((1, 2), (2, 3)), table((0, 2), (1, 3))]
    sample("no_holder_in_a_triangle", file(triangle, FF, FF, 0, 1, 2))


def buffer_samples():
    code = [FF] * 4 + list(range(5))
    star = lively("star", 5, code)
    need = reference.outcome(file(star, *code), 0, 0)[1]
    sample("scratch_exact_for_five_tables", file(star, *code), need, 5000)
    sample("scratch_one_short_for_five_tables", file(star, *code), need - 1, 5000)
    sample("scratch_none", P1, 0)
    sample("scratch_and_output_large", P1, 65536, 65536)
    sample("scratch_short_and_output_short", P1, 117, 15)
    sample("output_none", P1, 1000, 0)
    sample("output_none_for_no_results", file([table((0,), (1,)), table((0,), (2,))], FF, 0, 1), 1000, 0)
    sample("output_of_one_word_more", P1, 1000, 17)
    sample("output_of_19_words", P1, 1000, 19)
    pairs = [table((0,), *[(i,) for i in range(20)]), table((0, 1), *[(i, i) for i in range(0, 40, 13)])]
    sample("output_smaller_than_the_table_sizes", file(pairs, FF, 0, 1), 1000, 4)
    sample("output_one_row_short_of_few", file(pairs, FF, 0, 1), 1000, 3)
    apart = [table((a,), *[(i,) for i in range(8)]) for a in range(4)]
    sample("results_4096_of_four_tables_apart", file(apart, FF, FF, 0, 1, FF, 2, 3), 1000, 300)
    sample("results_2_to_the_32", file([table((a,), *[(i,) for i in range(16)]) for a in range(8)], *right_deep(8)), 5000)
    same = [table((0,), *[(5,)] * 16)] * 9
    sample("results_2_to_the_36_in_the_groups", file(same, *right_deep(9)), 5000, 300)
    sample("results_2_to_the_36_from_the_left", file(same, *[FF] * 8, *range(9)), 5000, 300)


# ---- totals, request U7
def chain(total, key, first, base=32):
    """Tables in a row, each with one attribute of the next. The rows of the first one that have 1 in the attribute
    `key` have this total together, and the one that has 2 there has the total 1. A row with 1 in a later attribute
    finds all rows that have 1 there, one with 0 finds a single one: so there are as many rows with 0 as the digit of
    the total to this base says, the lowest digit first."""
    digits, rest = [], total
    while rest >= base:
        digits.append(rest % base)
        rest //= base
    held = [key, *range(first, first + len(digits))]
    ends = [[(2, 0)] if place == 0 else [(0, 0)] for place in range(len(digits))]
    tables = [table(held[i:i + 2], *[(1, 0)] * digit, *[(1, 1)] * base, *ends[i]) for i, digit in enumerate(digits)]
    return tables + [table(held[-1:], *[(1,)] * rest, (0,) if digits else (2,))]


def two_groups(rows, one, other):
    """A first table with these rows, of attributes 0 and 1. Where they have 1 in the first they find a group with the
    total `one`, and in the second one with the total `other`; where they have 2, one with the total 1."""
    left, right = chain(one, 0, 2), chain(other, 1, 20)
    codes = [named(right_deep(len(left)), *range(1, 16)), named(right_deep(len(right)), *range(1 + len(left), 16))]
    return file([table((0, 1), *rows), *left, *right], FF, FF, 0, *codes[0], *codes[1])


def many(name, data, results, scratch=30000, output=300):
    """A sample with so many results, too many to be written out."""
    assert reference.outcome(data, scratch, output)[:2] == (11, min(results, reference.HOLD)), name
    sample(name, data, scratch, output)


def few(name, data, results, scratch=30000, output=300):
    """A sample with so many results, which are written out."""
    assert len(reference.outcome(data, scratch, output)[2]) == results, name
    sample(name, data, scratch, output)


def product_samples():
    """One row finds two groups: its total is their product. First of numbers of 16 bits and some more, then of words of
    32 bits and some more."""

    def two_tables_each(first, second):
        tables = [table((0,), *[(5,)] * rows) for rows in (1, *first, *second)]
        return file(tables, FF, FF, 0, FF, 1, 2, FF, 3, 4)

    for name, first, second, product in (
        ("of_the_largest_halves", (255, 257), (255, 257), 65535 * 65535),
        ("of_a_half_and_65536", (255, 257), (256, 256), 65535 * 65536),
        ("of_65536_and_a_half", (256, 256), (255, 257), 65536 * 65535),
        ("of_65536_and_65536", (256, 256), (256, 256), 65536 * 65536),
        ("of_both_halves_of_a_word", (256, 257), (255, 256), 65792 * 65280),
        ("of_a_half_and_both_of_a_word", (255, 256), (256, 257), 65280 * 65792),
        ("past_a_word_by_the_lower_half", (256, 257), (97, 673), 65792 * 65281),
        ("below_a_word_by_the_upper_half", (256, 512), (151, 217), 131072 * 32767),
        ("past_a_word_by_the_upper_half", (256, 512), (128, 256), 131072 * 32768),
    ):
        many("product_" + name, two_tables_each(first, second), product)
    word, limit = 2**32, reference.HOLD
    for name, one, other in (
        ("of_a_word_and_3", word, 3),
        ("of_3_and_a_word", 3, word),
        ("of_the_largest_words", word - 1, word - 1),
        ("of_both_words_and_one", word + 1, word - 2),
        ("of_one_and_both_words", word - 2, word + 1),
        ("of_the_largest_upper_word", word, word - 1),
        ("at_the_limit", word - 1, word + 1),
        ("one_past_the_limit", word, word),
        ("one_past_the_limit_by_the_upper_half", 2 * word, word // 2),
        ("past_the_limit_by_the_lower_half", 2 * word - 1, word // 2 + 1),
    ):
        many("product_" + name, two_groups([(1, 1)], one, other), one * other)
    assert (word - 1) * (word + 1) == limit


def sum_samples():
    """Two rows that find a group each: the total is the sum of two. Then the sum of many rows."""
    word = 2**32
    for name, one, other in (
        ("carried_to_the_upper_word", word - 1, 1),
        ("carried_from_two_lower_words", word - 1, word - 1),
        ("without_a_lower_word", word + word // 2, word // 2),
    ):
        many("sum_" + name, two_groups([(1, 2), (2, 1)], one, other), one + other)
    # 32 rows that have 2 to the 59 less 1 each, and as many that have 1 each: so the sum comes to the limit, and past it
    high = chain(2**59 - 1, 1, 2)
    rows = [(1, 7)] * 32 + [(2, 7)] * 32
    for name, left_out in (("one_below_the_limit", 2), ("at_the_limit", 1), ("one_past_the_limit", 0)):
        data = file([table((1, 31), *rows[:64 - left_out]), *high], *right_deep(1 + len(high)))
        many("sum_" + name, data, 2**64 - left_out)


def keyed(*groups):
    """Tables of attribute 0. For each group, whose rows have one value, there is a number of rows for each table. So the
    results are as many as the products of the groups, summed."""
    columns = [[(value,) for value, rows in enumerate(counts) for _ in range(rows)] for counts in zip(*groups)]
    return [table((0,), *column) for column in columns]


def digits_of_16_tables(base, lowest):
    """16 tables that share one attribute. They have base to the 16 results, less 1, and less `lowest` of them."""
    rows = [[base - 1] + [base if t <= value else 1 for t in range(1, 16)] for value in range(16)]
    rows[0][0] -= lowest
    return keyed(*rows)


def limit_samples():
    """Numbers of results around 2 to the 32 and around the limit, of rows that find 15 groups each (left deep), and of
    groups whose rows find a group each (right deep)."""
    for base, lowest in ((4, 1), (4, 0), (16, 1), (16, 0)):
        results = base**16 - 1 - lowest
        tables = digits_of_16_tables(base, lowest)
        many("results_%d_left_deep" % results, file(tables, *left_deep(16)), results)
        tables = [table((0,), (1,)), *chain(results, 0, 1, 8 if base == 4 else 32)]
        many("results_%d_right_deep" % results, file(tables, *right_deep(len(tables))), results)
    equal = {rows: table((0,), *[(5,)] * rows) for rows in (4, 16, 64)}
    for bits in (32, 64, 96):
        tables = [equal[2 ** (bits // 16)]] * 16
        many("results_2_to_the_%d_left_deep" % bits, file(tables, *left_deep(16)), 2**bits)
        many("results_2_to_the_%d_right_deep" % bits, file(tables, *right_deep(16)), 2**bits)
    many("results_2_to_the_96_bushy", file(tables, *bushy(16)), 2**96)
    many("results_2_to_the_96_no_plan", file(tables), 2**96)


def unused_samples():
    """Groups with large totals that no result uses. Their rows take part in the right plan, so that they are entered and
    looked up there; the few results are written out."""
    for name, rows in (
        ("2_to_the_32", [1] + [16] * 8),
        ("3_times_2_to_the_32", [3] + [16] * 8),
        ("2_to_the_64", [1, 256, 256] + [16] * 12),
        ("2_to_the_67", [2] + [32] * 13 + [2]),
    ):
        for shape, deep in (("left", left_deep), ("right", right_deep)):
            below = keyed([0] * len(rows), rows, [1, 2] + [1] * (len(rows) - 2))
            first = table((0, 1), (2, 8), (3, 9), (2, 8))
            code = [FF, 0, *named(deep(len(rows)), *range(1, 16))]
            data = file([first, *below], *code)
            few("unused_group_of_%s_%s_deep" % (name, shape), data, 4)
    # the first row finds a group that is held and, before or after it, nothing
    held = chain(2**64, 0, 2)
    tables = [table((0, 1), (1, 5), (2, 6), (2, 5)), table((1,), (6,), (7,)), *held]
    found = named(right_deep(len(held)), *range(2, 16))
    few("lost_row_that_has_found_a_held_group", file(tables, FF, FF, 0, *found, 1), 1)
    few("lost_row_that_finds_a_held_group_then", file(tables, FF, FF, 0, 1, *found), 1)


# ---- keys and rows
def key_samples():
    for k in range(9):
        shared = list(range(0, 2 * k, 2))
        left, right = ([], []) if k == 8 else ([17], [18])
        base = [7 * a + 1 for a in shared]
        rows = [base, [v + 1 for v in base]]
        rows += [base[:i] + [base[i] + 64] + base[i + 1:] for i in range(k)]  # one attribute differs
        lefts = [row + [100 + i] * len(left) for i, row in enumerate(rows)]
        rights = [row + [200 + i] * len(right) for i, row in enumerate(rows[::-1] + [base])]
        names = ("no", "one", "two", "three", "four", "five", "six", "seven", "eight")
        sample("key_of_%s_attributes" % names[k], file([table(shared + left, *lefts), table(shared + right, *rights)], FF, 0, 1))
    sample("key_on_attribute_30", file([table((30,), (5,), (6,)), table((30, 31), (6, 8), (7, 9))], FF, 0, 1))
    sample("key_on_attribute_31", file([table((0, 31), (1, LARGEST - 1), (2, 3), (4, 0)), table((1, 31), (8, 3), (9, LARGEST - 1))], FF, 0, 1))
    high = [(i << 16,) for i in range(40)]  # a path of 16 nodes before any bit differs
    sample("key_shares_low_bits", file([table((0,), *high[::3]), table((0,), *high)], FF, 0, 1))
    tops = [(0,), (1 << 31,), (1 << 30,), (3 << 30,), (1 << 29,), (5 << 29,)]
    sample("key_differs_in_highest_bits", file([table((0,), *tops), table((0,), *tops)], FF, 0, 1))
    second = [(9, i) for i in range(40)] + [(9 + (1 << 31), i) for i in range(8)]  # a path of 31 nodes before any bit differs
    sample("key_shares_first_word", file([table((0, 1), *second[::3]), table((0, 1), *second[::-1])], FF, 0, 1))
    last = [(1, 2, 3, 4, 5, 6, 7, i * i) for i in range(260)]  # the same with seven words
    sample("key_shares_seven_words", file([table(range(8), *last[::100]), table(range(8), *last)], FF, 0, 1), 5000)
    # a path of 31 nodes; then bits 30 and 31 of the first word decide the way
    bits = [(1 << d, 0) for d in range(31)] + [(h << 31, x) for h, x in ((1, 9), (0, 5), (1, 4), (0, 6), (0, 3), (0, 2))]
    sought = [(1 << 31, 9), (0, 5), (1 << 31, 4), (1 << 31, 1), (3 << 30, 1), (0, 1)]
    sample("key_bits_30_and_31_decide_the_way", file([table((0, 1), *sought), table((0, 1), *bits[::-1])], FF, 0, 1))
    sample("key_words_swapped", file([table((0, 1), (1, 2), (2, 1), (1, 1)), table((0, 1), (2, 1), (2, 2), (1, 2))], FF, 0, 1))
    largest = (LARGEST - 1,)
    sample("key_values_0_and_largest", file([table((0,), (0,), largest), table((0,), largest, (0,), largest)], FF, 0, 1))
    sample("key_that_no_other_table_holds", file([table((0, 1), (1, 1), (2, 2)), table((1, 2), (3, 1), (4, 2))], FF, 0, 1))
    sample("key_bytes_all_differ", file([table((0,), (0x01020304,), (0x04030201,)), table((0, 1), (0x04030201, 0x0A0B0C0D), (0x01020304, 1))], FF, 0, 1))
    inner = [table((0, 1), (1, 5), (2, 6), (2, 5)), table((0, 2), (1, 7), (2, 8), (2, 9)), table((0, 1), (2, 6), (1, 5), (2, 7))]
    sample("key_from_whole_plans_not_neighbours", file(inner, FF, FF, 0, 1, 2))
    tree = [(i * 2654435761) % 4093 for i in range(4096)]
    sample("rows_4096_looked_up", file([table((0,), *[(v,) for v in tree]), table((0, 1), (tree[0], 7), (tree[4095], 8), (5000, 9))], FF, 0, 1), 50000)
    sample("rows_4096_entered", file([table((0, 1), (tree[9], 7), (5000, 8), (tree[2000], 9)), table((0,), *[(v,) for v in tree])], FF, 0, 1), 50000)
    sample("rows_4096_and_an_empty_table", file([table((0,), *[(v,) for v in tree]), table((0,))], FF, 0, 1), 50000)


# ---- values that were not recorded
W = LARGEST


def unrecorded_samples():
    x, y, xy = (0,), (1,), (0, 1)
    sample("unrecorded_never_matches_itself", file([table(xy, (1, W), (2, 3), (4, 0)), table((1, 2), (3, 8), (W, 9))], FF, 0, 1))
    outer = [table(xy, (1, W), (1, 2)), table(x, (1,)), table(y, (2,))]
    sample("unrecorded_at_the_outer_join", file(outer, FF, FF, 0, 1, 2))
    # row (1, W) takes part in the right plan, where y is in one table only, and is not entered at the join outside it
    sample("unrecorded_inside_the_right_plan", file([outer[2], *outer[:2]], FF, 0, FF, 1, 2))
    # the same row takes no part where y is in both tables of the right plan
    sample("unrecorded_shared_in_the_right_plan", file([table(x, (1,), (1,)), outer[0], table(y, (W,), (2,))], FF, 0, FF, 1, 2))
    twos = [(1, 2), (W, 2), (1, W), (W, W)]
    lefts, rights = (table((0, 1, a), *[(*row, i) for i, row in enumerate(twos)]) for a in (2, 3))
    sample("unrecorded_first_last_both_of_two", file([lefts, rights], FF, 0, 1))
    for n, name in ((3, "three"), (8, "eight")):
        keys = [[5] * i + [W] + [5] * (n - i - 1) for i in range(n)] + [[5] * n]
        sample("unrecorded_in_each_of_%s" % name, file([table(range(n), *keys), table(range(n), *keys[::-1])], FF, 0, 1))
    sample("unrecorded_in_one_table_only", file([table(xy, (7, W), (8, 2)), table((0, 2), (8, W), (7, 3))], FF, 0, 1))
    sample("unrecorded_in_one_table", file([table(xy, (W, W), (W, 1))], 0))
    sample("unrecorded_in_tables_apart", file([table(x, (W,), (1,)), table(y, (W,), (W,))], FF, 0, 1))
    never = table(x, (W,), (W,), (W,))
    sample("unrecorded_in_every_key_entered", file([table(x, (1,), (W,), (2,)), never], FF, 0, 1))
    sample("unrecorded_in_every_key_looked_up", file([never, table(x, (1,), (W,), (2,))], FF, 0, 1))
    sample("unrecorded_in_every_key", file([never, never], FF, 0, 1))
    sample("unrecorded_beside_an_empty_table", file([never, table(x)], FF, 0, 1))
    two_joins = [table(xy, (W, W), (1, W), (W, 2), (1, 2)), table((0, 2), (1, 5), (W, 6)), table((1, 3), (2, 7), (W, 8))]
    sample("unrecorded_at_two_joins_of_one_row", file(two_joins, FF, FF, 0, 1, 2))
    sample("unrecorded_at_two_joins_right_deep", file([two_joins[1], two_joins[0], two_joins[2]], FF, 0, FF, 1, 2))
    sample("unrecorded_between_repeated_rows", file([table(x, (5,), (W,), (5,)), table(x, (W,), (5,), (W,), (5,))], FF, 0, 1))
    sample("unrecorded_beside_its_neighbours", file([table(x, (W - 1,), (W,), (0,)), table(x, (0,), (W,), (W - 1,))], FF, 0, 1))


def row_samples():
    sample("one_table_repeated_rows", file([table((0, 2), (3, 4), (1, 2), (3, 4), (1, 2))], 0))
    sample("left_table_empty", file([table((0, 1)), EXPOSURES], FF, 0, 1))
    sample("right_table_empty", file([FRAMES, table((1, 2))], FF, 0, 1))
    sample("both_tables_empty", file([table((0, 1)), table((1, 2))], FF, 0, 1))
    sample("middle_table_empty", file([FRAMES, table((1, 2)), READINGS], FF, 0, FF, 1, 2))
    sample("empty_table_apart", file([FRAMES, table((5,)), EXPOSURES], FF, FF, 0, 1, 2))
    fives, more = table((0,), (5,), (5,)), table((0,), (4,), (5,), (5,))
    sample("repeated_rows_in_three_tables", file([fives, more, fives], FF, FF, 0, 1, 2))
    sample("repeated_rows_right_deep", file([fives, more, fives], FF, 0, FF, 1, 2))
    sample("repeated_rows_of_one_key", file([table((0, 1), (5, 1), (5, 1)), table((0, 2), (5, 2), (5, 2), (5, 2))], FF, 0, 1))
    lookups = [table((0, 1), (1, 10), (2, 11), (3, 12), (1, 13)), table((0, 2), (1, 20), (3, 21), (1, 22))]
    sample("slip_failed_lookup_between_two", file(lookups, FF, 0, 1))
    sample("slip_failed_lookup_first_and_last", file([table((0, 1), (9, 1), (1, 2), (8, 3)), lookups[1]], FF, 0, 1))
    first = table((0, 1), (1, 1), (2, 2), (3, 3))
    sample("slip_row_lost_at_first_join", file([first, table((0,), (1,), (3,)), table((1, 2), (1, 6), (2, 7), (3, 8))], FF, FF, 0, 1, 2))
    sample("slip_row_lost_at_second_join", file([first, table((1, 2), (1, 6), (2, 7), (3, 8)), table((0,), (1,), (3,))], FF, FF, 0, 1, 2))
    sample("slip_row_lost_inside_the_right_plan", file([first, table((1, 2), (1, 6), (2, 7), (2, 6)), table((2,), (6,))], FF, 0, FF, 1, 2))
    sample("slip_neighbouring_tables_share_less", file([table((0, 1), (1, 5), (1, 6)), table((1, 2), (5, 8), (6, 8)), table((0, 1), (1, 6))], FF, FF, 0, 1, 2))
    partners = [table((0, 1), *[(i % 3, i) for i in range(6)]), table((0, 2), *[(i % 3, 10 + i) for i in range(6)])]
    sample("partner_of_each_row_its_own", file(partners, FF, 0, 1))
    sample("order_by_the_plan_not_the_file", file(partners, FF, 1, 0))
    sample("order_within_a_group_rises", file([table((0,), (1,), (1,)), table((0, 1), (1, 9), (2, 8), (1, 7), (1, 8))], FF, 0, 1))


# ---- many tables
def right_deep(n):
    return [b for t in range(n - 1) for b in (FF, t)] + [n - 1]


def few_values(draw, attribute_lists):
    """Tables with these attributes and 2 to 4 rows of few values, so that some rows match and some do not."""
    return [table(attributes, *[[draw(3) for a in attributes] for y in range(2 + draw(3))]) for attributes in attribute_lists]


def lively(kind, n, code):
    """The first n tables of a kind, as the draws go on, that have 4 to 60 results."""
    for seed in itertools.count():
        attributes = {"chain": lambda t: (t, t + 1), "star": lambda t: (0, t + 1), "comb": lambda t: ((t + 1) // 2, 8 + t, 20)}[kind]
        tables = few_values(random.Random(seed).randrange, map(attributes, range(n)))
        if 4 <= len(reference.outcome(file(tables, *code), 65536, 65536)[2]) <= 60:
            return tables


def many_table_samples():
    chain, star = lively("chain", 5, right_deep(5)), lively("star", 5, right_deep(5))
    sample("five_tables_chain_right_deep", file(chain, *right_deep(5)), 1000, 5000)
    sample("five_tables_chain_from_the_middle", file(chain, FF, FF, 2, FF, 1, 0, FF, 3, 4), 1000, 5000)
    sample("five_tables_chain_backwards", file(chain, FF, 4, FF, 3, FF, 2, FF, 1, 0), 1000, 5000)
    sample("five_tables_chain_left_deep", file(chain, FF, FF, FF, FF, 0, 1, 2, 3, 4), 1000, 5000)
    sample("five_tables_star_left_deep", file(star, FF, FF, FF, FF, 0, 1, 2, 3, 4), 1000, 5000)
    sample("five_tables_star_right_deep", file(star, *right_deep(5)), 1000, 5000)
    sample("five_tables_star_bushy", file(star, FF, FF, 3, 1, FF, FF, 4, 0, 2), 1000, 5000)
    six, comb = lively("chain", 6, right_deep(6)), lively("comb", 6, right_deep(6))
    sample("six_tables_chain_right_deep", file(six, *right_deep(6)), 1000, 5000)
    sample("six_tables_chain_bushy", file(six, FF, FF, 2, FF, 1, 0, FF, 3, FF, 4, 5), 1000, 5000)
    sample("six_tables_chain_output_short", file(six, *right_deep(6)), 1000, 21)
    sample("six_tables_keys_of_one_and_two", file(comb, *right_deep(6)), 1000, 5000)
    mixed = [FF, FF, FF, 0, 5, FF, 3, 4, FF, 2, 1]
    sample("six_tables_star_mixed", file(lively("star", 6, mixed), *mixed), 1000, 5000)
    pairs = [table((t, t + 1), (1, 1), (t % 3, 2)) if t % 5 == 0 else table((t, t + 1), (1, 1)) for t in range(16)]
    for t in range(1, 17):
        sample("tables_%d_in_a_row" % t, file(pairs[:t], *right_deep(t)), 1000, 300)
    alike = [table((0,), (5,), (6,)) if t % 4 == 1 else table((0,), (5,)) for t in range(16)]
    sample("tables_16_of_one_attribute", file(alike, *[FF] * 15, *range(15, -1, -1)), 1000, 300)


# ---- mended plans, and joins with a side where no table holds the join attributes
def linked(*shapes):
    """Tables by their rows and attributes. Row y has y % 2 in each of these, and its own value in attribute 16 + t."""
    return [table((*held, 16 + t), *[(*[y % 2] * len(held), 10 * t + y) for y in range(rows)])
            for t, (rows, held) in enumerate(shapes)]


def mended_samples():
    second = file(BENCH, FF, 0, FF, 2, 1)  # this plan would need 117 words, mended it needs 118
    sample("p2_scratch_of_117_words", second, 117)
    sample("p2_scratch_of_118_words", second, 118)
    sample("p2_output_of_15_words", second, 1000, 15)
    two_empty = [table((3,)), table((0, 2), (1, 1)), table((1,), (1,), (1,)), table((1,), (1,), (2,)), table((0, 2, 3))]
    sample("mended_two_of_five_tables_empty", file(two_empty, FF, 3, FF, FF, 0, FF, 1, 4, 2))
    chain = [table((0, 1), *[(10 + y, y % 2) for y in range(3)]), table((1, 2), *[(y % 2, y % 3) for y in range(8)]),
             table((2, 3), *[(y % 3, 30 + y) for y in range(6)])]
    sample("mended_root_is_no_holder_of_the_top_join", file(chain, FF, 0, FF, 2, 1))
    six = [(9, (5, 13, 16)), (5, (16, 22, 24)), (9, (19,)), (9, (19, 25)), (9, (6, 16)), (5, (25,))]
    sixes = [table(held, *[[y if a in (16, 19, 25) else 10 * t + y for a in held] for y in range(rows)])
             for t, (rows, held) in enumerate(six)]
    sample("mended_with_a_penalty_of_14", file(sixes, FF, 0, FF, 4, FF, FF, 5, FF, 2, 3, 1))
    missing = [table((0, 1), (10, 1), (11, W), (12, 2)), table((1, 2), (1, 7), (W, 7), (2, W), (2, 8), (W, W)),
               table((2, 3), (7, W), (W, 5), (8, 6))]
    sample("mended_unrecorded_in_keys", file(missing, FF, 0, FF, 2, 1))


def mended_choice_samples():
    """Plans where another reading of the choice of roots, or of where a tree is hung, gives another plan."""
    x, y, xy = (0,), (1,), (0, 1)
    # table 2 or table 0 as the root has penalty 3; table 2 is named first
    sample("mended_tie_of_overall_roots", file(linked((3, y), (2, xy), (3, x)), FF, 2, FF, 0, 1))
    # on the right tables 2 and 1 hold x, and each as the root has penalty 3 there; table 2 is named first
    tie = linked((2, x), (3, x), (3, xy), (2, xy))
    sample("mended_tie_of_a_right_sides_roots", file(tie, FF, 0, FF, 2, FF, 1, 3))
    # the same, with penalties 3 and 2; with their row counts, which a right side does not add, both would be 5
    right = linked((2, x), (3, x), (2, xy), (2, xy))
    sample("mended_right_side_adds_no_row_count", file(right, FF, 0, FF, 2, FF, 1, 3))
    # of the whole plan's tables the first named costs more than two others, which cost the same: the first of these is the root. Without
    # rows only the words needed tell the plans apart
    behind = linked((2, x), (0, x), (0, xy), (0, (0, 1, 2)))
    sample("mended_tie_behind_the_first_named", file(behind, FF, 3, FF, 1, FF, 0, 2), 22)
    behind = linked((1, (1, 2)), (1, (0, 1, 2)), (3, (2,)), (3, y))
    sample("mended_tie_of_rows_behind_the_first_named", file(behind, FF, 0, FF, 3, FF, 2, 1))
    # the same of the holders of a right side, and of those of a left one
    behind = linked((1, x), (1, (0, 1, 2)), (1, (0, 1, 2)), (3, (0, 2)), (2, (2,)), (3, (2,)))
    sample("mended_tie_behind_a_right_sides_first_holder", file(behind, FF, 0, FF, 4, FF, 2, FF, 3, FF, 5, 1))
    behind = linked((5, (2,)), (0, xy), (0, x), (1, x), (1, x), (0, xy), (0, (0, 2)))
    sample("mended_tie_behind_a_left_sides_first_holder", file(behind, FF, 0, FF, FF, 1, FF, 3, FF, 2, FF, 4, 5, 6))
    # table 1 is the root on the right; on its left tables 3 and 2 cost 5 with their row counts, and 3 and 2 without
    tie = linked((4, (2,)), (1, (0, 2)), (3, x), (2, xy), (1, xy))
    sample("mended_tie_of_a_left_sides_roots", file(tie, FF, 0, FF, FF, 3, FF, 2, 4, 1))
    # there tables 3 and 2 cost 6 and 5 with their row counts, and 2 and 4 without
    added = linked((6, (2,)), (1, (0, 2)), (1, x), (4, xy), (1, (0, 1, 3)), (1, (0, 3)))
    sample("mended_added_row_count_decides", file(added, FF, 0, FF, FF, 3, FF, FF, 2, 5, 4, 1))
    # tables 2 and 3 hang under table 1, in this order
    star = linked((1, x), (2, (0, 1, 2)), (3, y), (3, (2,)))
    sample("mended_hung_last", file(star, FF, FF, FF, 0, 1, 2, 3))
    # tables 1 and 2 hold y, below the root; table 3 hangs under table 1
    below = linked((2, x), (3, xy), (2, y), (3, y))
    sample("mended_hung_under_the_topmost_holder", file(below, FF, FF, 0, FF, 1, 2, 3))
    # table 3 has no attribute of the others and hangs under the root
    sample("mended_no_join_attributes", file(linked((2, x), (3, xy), (4, y), (2, ())), FF, FF, FF, 0, 1, 2, 3))


def no_holder_samples():
    x, y, xy = table((0,), (1,)), table((1,), (1,)), table((0, 1), (1, 1))
    apart = table((2,), (1,))
    sample("no_holder_though_a_well_behaved_plan_exists", file([x, y, xy], FF, FF, 0, 1, 2))
    sample("no_holder_on_the_right", file([x, y, xy], FF, 2, FF, 0, 1))
    sample("no_holder_and_no_buffers", file([x, y, xy], FF, 2, FF, 0, 1), 0, 0)
    sample("no_holder_on_either_side", file([x, y, y, x], FF, FF, 0, 1, FF, 2, 3))
    nested = [table((0, 2), (1, 1)), y, table((0, 1, 3), (1, 1, 1)), table((2, 3), (1, 1))]
    sample("no_holder_at_the_outer_and_an_inner_join", file(nested, FF, FF, FF, 0, 1, 2, 3))
    # the first join has holders and is not well-behaved, the one of the FF at index 4 has none
    sample("no_holder_below_a_join_to_be_mended", file([x, y, xy, apart, x], FF, 4, FF, 3, FF, 2, FF, 0, 1))
    two = [x, y, xy, *(table(held, (1,) * len(held)) for held in ((4,), (5,), (4, 5)))]
    sample("no_holder_in_both_plans", file(two, FF, FF, FF, 0, 1, 2, FF, 5, FF, 3, 4))
    sample("no_holder_in_the_right_plan", file(two, FF, FF, FF, 0, 2, 1, FF, 5, FF, 3, 4))
    outer = [table((0, 5), (1, 1)), y, xy, table((1, 5), (1, 1))]
    sample("no_holder_at_outer_and_inner_join", file(outer, FF, FF, FF, 0, 1, 2, 3))
    sample("no_holder_and_a_table_left_out", file([x, y, xy, apart], FF, FF, 0, 1, 2))


# ---- mended plans of 16 tables
def left_deep(n):
    return [FF] * (n - 1) + list(range(n))


def zig_zag(n):
    """Table 0, which later tables join from the right and from the left by turns."""
    code = [0]
    for t in range(1, n):
        code = [FF] + code + [t] if t % 2 else [FF, t] + code
    return code


def bushy(n, first=0):
    """The first half of the tables joined with the second half, and so on."""
    return [FF] + bushy(n // 2, first) + bushy(n - n // 2, first + n // 2) if n > 1 else [first]


def named(code, *order):
    """The plan with these tables in place of 0, 1, 2 and so on."""
    return [b if b == FF else order[b] for b in code]


def sixteen_samples():
    rows = (2, 1, 3, 1, 2, 1, 1, 2, 1, 3, 1, 1, 2, 1, 2, 1)
    chain = linked(*[(n, tuple(a for a in (t - 1, t) if 0 <= a < 15)) for t, n in enumerate(rows)])
    ends = [t for i in range(8) for t in (15 - i, i)]
    outwards = [7, 8, 6, 5, 9, 10, 4, 3, 11, 12, 2, 1, 13, 14, 0, 15]
    sample("mended_16_tables_chain_left_deep", file(chain, *left_deep(16)))
    sample("mended_16_tables_chain_right_deep", file(chain, *named(right_deep(16), *ends)))
    sample("mended_16_tables_chain_bushy", file(chain, *named(bushy(16), *[t ^ 2 for t in range(16)])))
    sample("mended_16_tables_chain_zig_zag", file(chain, *named(zig_zag(16), *outwards)))
    star = linked((3, range(7)), *[(n, (t % 7,)) for t, n in enumerate(rows[1:])])
    sample("mended_16_tables_star_right_deep", file(star, *named(right_deep(16), *range(1, 15), 0, 15)))
    sample("mended_16_tables_star_zig_zag", file(star, *named(zig_zag(16), 3, 0, *range(15, 3, -1), 1, 2)))
    # table 0 shares an attribute with each of tables 1 to 3, and each of these one with four of tables 4 to 15
    flake = linked((2, range(3)), *[(n, (d, *range(3 + 4 * d, 7 + 4 * d))) for d, n in enumerate((3, 1, 2))],
                   *[(n, (3 + t,)) for t, n in enumerate(rows[:12])])
    arms = [[4, 1, 5, 6, 7], [8, 2, 9, 10, 11], [12, 3, 13, 14, 15]]
    left = named(left_deep(16), *arms[1], 0, *arms[0][1:], 4, *arms[2][1:], 12)
    sample("mended_16_tables_snowflake_left_deep", file(flake, *left))
    first, second, third = (named(zig_zag(5), *arm) for arm in arms)
    sample("mended_16_tables_snowflake_bushy", file(flake, FF, FF, *first, FF, *second, 0, *third))


# ---- files without a plan
def found(name, tables, code, scratch=1000, output=300):
    """A sample without a plan, and the bytes of the plan that is found."""
    data = file(tables)
    assert reference.found_code(reference.read(data)[0]).hex() == code, name
    sample("found_" + name, data, scratch, output)


def not_found(name, tables, detail, scratch=1000, output=300):
    """A sample without a plan, for which none is found."""
    data = file(tables)
    assert reference.outcome(data, scratch, output)[:2] == (14, detail), name
    sample("no_plan_found_" + name, data, scratch, output)


def lettered(*texts):
    """Tables of 2 and of 3 rows by turns, linked by the attributes that their letters stand for: a is 0, b is 1 .."""
    return linked(*[(2 + t % 2, tuple("abcdefghij".index(letter) for letter in text)) for t, text in enumerate(texts)])


def found_samples():
    code = "ff02ff0100"
    found("sample_file", BENCH, code)
    found("sample_file_scratch_of_116_words", BENCH, code, 116)
    found("sample_file_scratch_of_117_words", BENCH, code, 117, 16)
    found("sample_file_output_of_15_words", BENCH, code, 1000, 15)
    found("one_table_no_rows_no_buffers", [table((0,))], "00", 0, 0)
    found("middle_table_empty", [FRAMES, table((1, 2)), READINGS], code)
    missing = [table((0, 1), (10, 1), (11, W), (12, 2)), table((1, 2), (1, 7), (W, 7), (2, W), (2, 8), (W, W)),
               table((2, 3), (7, W), (W, 5), (8, 6))]
    found("unrecorded_in_keys", missing, code)
    eight = table(range(24, 32), range(8), range(1, 9))
    last = table((0, 31), (1, 7), (2, 8), (3, 8))
    found("shared_attribute_31", [eight, table((0,), (3,), (1,)), last], "ffff020001")


def found_choice_samples():
    """Files where another reading of what is hung, of under what, or of the order gives another plan, or none."""
    found("no_shared_attributes", [table((t,), (t,), (9,)) for t in range(4)], "ff03ff02ff0100")
    found("equal_masks", [table((0, 1), *[(y, y) for y in range(rows)]) for rows in (3, 2, 4)], "ff02ff0100")
    found("two_tables_under_the_last", lettered("a", "b", "ab"), "ffff020001")
    found("larger_table_under_the_smaller", lettered("abc", "a"), "ff0100")
    # table 0 could hang under any other; the lowest is taken
    found("under_the_lowest_of_three", lettered("a", "ab", "ac", "ad"), "ff03ff02ff0100")
    # table 3 hangs under table 1, which has a lower number and cannot be hung before
    found("under_a_lower_number", lettered("ab", "bcd", "a", "c", "de"), "ff04ffff01ff000203")
    # what tables 1 and 2 share with a table that was hung would keep both from being hung
    found("hung_tables_no_longer_count", lettered("ab", "bc", "cd", "de"), "ff03ff02ff0100")
    # tables 1, 2 and 0 are hung in this order, 1 and 0 under table 3
    found("children_in_rising_number", lettered("ab", "c", "b", "ac"), "ffff03ff000201")
    # once table 2 is hung, tables 1 and 0 come before table 4
    found("search_begins_anew", lettered("ab", "bc", "c", "ad", "d"), "ff04ff03ff00ff0102")
    found("triangle_below_a_fourth_table", lettered("ab", "bc", "ac", "abc"), "ffffff03000102")
    found("triangle_behind_a_table_of_all_three", lettered("abc", "ab", "bc", "ac"), "ff03ffff000102")
    # the largest table is the root all the same
    found("row_counts_do_not_matter", linked((1, (0,)), (2, (0, 1)), (9, (1,))), "ff02ff0100")


def not_found_samples():
    ring = ("ab", "bc", "cd", "ad")
    not_found("in_a_triangle", lettered("ab", "ac", "bc"), 0)
    not_found("and_no_buffers", lettered("ab", "ac", "bc"), 0, 0, 0)
    not_found("in_a_ring_with_a_table_behind", lettered(*ring, "de"), 0)
    not_found("in_a_ring_with_a_table_before", lettered("de", *ring), 1)
    not_found("after_two_were_hung", [table(held) for held in ((0,), (0, 3), (0, 1), (1, 2), (0, 2))], 2)
    # tables 0, 2 and 3 are hung, four remain
    not_found("in_a_ring_from_table_1", lettered("ae", "ab", "ef", "bg", "bc", "cd", "ad"), 1)
    # tables 0 to 4, 6 and 8 are hung, three remain
    rest = ("ad", "de", "ef", "fg", "gh", "ab", "b", "bc", "ij", "ac")
    not_found("in_a_triangle_from_table_5", lettered(*rest), 5)
    # table 5, the last of the chain, shares nothing then and hangs under table 1
    not_found("beside_a_chain", lettered("de", "ab", "ac", "bc", "ef", "fg"), 1)
    late = [(t, t + 1) for t in range(13)] + [(13, 14), (14, 15), (13, 15)]
    not_found("in_the_last_three_of_16", linked(*[(1, held) for held in late]), 13)


def sixteen_found_samples():
    rows = (2, 1, 3, 1, 2, 1, 1, 2, 1, 3, 1, 1, 2, 1, 2, 1)
    shuffled = [7, 2, 12, 0, 15, 9, 4, 5, 13, 1, 10, 8, 3, 14, 6, 11]
    deep = "".join("ff%02x" % t for t in range(15, 0, -1)) + "00"
    chain = [tuple(a for a in (t - 1, t) if 0 <= a < 15) for t in range(16)]
    found("16_tables_chain", linked(*zip(rows, chain)), deep)
    both = [chain[t] for i in range(8) for t in (i, 15 - i)]
    found("16_tables_chain_from_both_ends", linked(*zip(rows, both)),
          "ffff0fff0dff0bff09ff07ff05ff0301ff0eff0cff0aff08ff06ff04ff0200")
    code = "ffff0fff02ff08ff0d04ff0aff05ff0bff00ff0eff07ff06ff0cff01ff0903"
    found("16_tables_chain_shuffled", linked(*zip(rows, [chain[t] for t in shuffled])), code, 273)
    star = [tuple(range(7))] + [(t % 7,) for t in range(15)]
    code = "ff0f" + "ff" * 14 + bytes(range(15)).hex()
    found("16_tables_star", linked(*zip(rows, star)), code, 279)
    found("16_tables_star_scratch_one_short", linked(*zip(rows, star)), code, 278)
    # the first table shares an attribute with each of three, and each of these one with four of the others
    flake = [(0, 1, 2)] + [(d, *range(3 + 4 * d, 7 + 4 * d)) for d in range(3)] + [(3 + t,) for t in range(12)]
    found("16_tables_snowflake", linked(*zip(rows, flake)),
          "ff0fffffffff03ffff00ffffffff0104050607ffffffff0208090a0b0c0d0e")
    found("16_tables_snowflake_shuffled", linked(*zip(rows, [flake[t] for t in shuffled])),
          "ff0fffffffff01ffff03ffffffff090006070effffffff0c0204080d050a0b")
    found("16_tables_apart", [table((t,), *[(y,) for y in range(n)]) for t, n in enumerate((2, 1, 1, 1) * 4)], deep)
    found("16_equal_masks", [table((0,), (5,), (6,)) if t % 4 == 1 else table((0,), (5,)) for t in range(16)], deep)


# ---- trees of tables, drawn
def drawn_tree(draw, n):
    """Attributes of n tables: each later one shares up to two with one before it, and has one or two of its own."""
    held, free = [], iter(range(32))
    for t in range(n):
        old = held[draw(t)] if t else []
        held.append(sorted({old[draw(len(old))] for i in range(draw(3)) if old} | {next(free) for i in range(1 + draw(2))}))
    return held


def drawn_plan(draw, tables):
    if len(tables) == 1:
        return tables
    at = 1 + draw(len(tables) - 1)
    return [FF] + drawn_plan(draw, tables[:at]) + drawn_plan(draw, tables[at:])


def drawn_file(seed, n):
    draw = random.Random(1000 + seed).randrange
    tables = few_values(draw, drawn_tree(draw, n))
    return file(tables, *drawn_plan(draw, sorted(range(n), key=lambda t: draw(1000))))


def well_behaved(data):
    tables, code = reference.read(data)
    return reference.well_behaved(tables, reference.parse(code)[0])


def tree_samples():
    """Files whose plan is well-behaved as it was drawn."""
    count = dict.fromkeys(range(3, 8), 0)
    for seed in itertools.count():
        n = 3 + seed % 5
        data = drawn_file(seed, n)
        if well_behaved(data) and count[n] < 5 and 2 <= len(reference.outcome(data, 65536, 65536)[2]) <= 40:
            count[n] += 1
            sample("tree_of_%d_tables_%d" % (n, count[n]), data, 1000, 1000)
        if min(count.values()) == 5:
            return


def mended_tree_samples():
    """Files whose plan is mended, one for each number of tables."""
    for n in range(6, 9):
        drawn = (drawn_file(seed, n) for seed in itertools.count())
        data = next(d for d in drawn if not well_behaved(d) and 6 <= len(reference.outcome(d, 65536, 65536)[2]) <= 40)
        sample("mended_tree_of_%d_tables" % n, data, 1000, 1000)


def found_tree_samples():
    """Files without a plan, numbered in any order, one for each of some numbers of tables."""
    for n in (8, 9, 11, 12, 13, 14, 15):
        for seed in itertools.count():
            draw = random.Random(seed).randrange
            held = sorted(drawn_tree(draw, n), key=lambda attributes: draw(1000))
            tables = [table(attributes, *[[draw(4) // 3 for a in attributes] for y in range((1, 1, 2, 3)[draw(4)])])
                      for attributes in held]
            if 2 <= len(reference.outcome(file(tables), 65536, 65536)[2]) <= 12:
                sample("found_tree_of_%d_tables" % n, file(tables))
                break


# ---- the slow engine
def sparse(attributes, rows, first=7, step=400):
    """A table of many rows. Row y has in its first attribute y if y is 7, 407, 807 and so on, and else a value of its own."""
    return table(attributes, *[(y if y % step == first else 10000 * (attributes[-1] + 1) + y, *[y] * (len(attributes) - 1))
                               for y in range(rows)])


def pair(left, right):
    """Two tables with so many rows each, of which few match."""
    return [sparse((0,), left), sparse((0, 1), right)]


def slow(name, number, tables, code, scratch=60000, output=300):
    """A sample, and the number that the slow engine gives."""
    data = file(tables, *code)
    assert reference.slow_outcome(data, output)[0] == number, name
    sample("slow_" + name, data, scratch, output)


def slow_limit_samples():
    """Products of row counts at 1,048,576, below it and past it."""
    slow("two_tables_of_1024_rows", 0, pair(1024, 1024), (FF, 0, 1))
    slow("two_tables_of_1024_rows_no_scratch", 0, pair(1024, 1024), (FF, 1, 0), 0, 6)
    slow("one_choice_less_output_short", 11, pair(1023, 1025), (), output=5)
    # no tables of up to 4,096 rows have 1 or 2 choices more
    slow("three_choices_more", 15, pair(919, 1141), (FF, 0, 1))
    slow("three_choices_more_no_scratch", 15, pair(919, 1141), (FF, 0, 1), 0)
    # the rows come in the order of table 2, which is the root of the mended plan
    three = [table((0, 1), *[(y, 63 - y) for y in range(64)]), table((1, 2), *[(W if y == 18 else 2 * y, y) for y in range(128)]),
             table((2, 3), *[(9 * y % 1000, y) for y in range(128)])]
    slow("three_tables_at_the_limit", 0, three, (FF, 0, FF, 2, 1))
    three = [table(held, *[(y, y * times) for y in range(rows)]) for held, times, rows in (((0, 1), 50, 7), ((1, 2), 5, 163), ((2, 3), 1, 919))]
    slow("three_tables_of_7_163_919_rows", 15, three, (FF, 0, FF, 1, 2))
    sixteen = linked(*[(32 if t == 9 else 2, tuple(a for a in (t - 1, t) if 0 <= a < 15)) for t in range(16)])
    slow("16_tables_at_the_limit", 0, sixteen, left_deep(16), output=2000)
    slow("16_tables_past_the_limit_no_scratch", 15, [*sixteen[:15], table((14,), (0,), (1,), (1,))], left_deep(16), 0)


def slow_product_samples():
    """Products that are 0, or that no word of 32 or of 64 bits holds."""
    many, none = table((0,), *[(y,) for y in range(3000)]), table((0,))
    slow("no_rows_behind_two_tables_of_3000", 0, [many, many, none], (FF, FF, 2, 0, 1), 60000, 0)
    slow("no_rows_before_two_tables_of_3000", 0, [none, many, many], (FF, FF, 0, 1, 2), 60000, 0)
    slow("no_rows_between_two_tables_of_3000", 0, [many, none, many], (FF, FF, 1, 0, 2), 60000)
    slow("no_rows_and_no_scratch", 0, [many, many, none], (FF, FF, 2, 0, 1), 0, 0)
    fives = {rows: table((0,), *[(5,)] * rows) for rows in (16, 17, 241, 1024)}
    slow("product_of_2_to_the_64", 15, [fives[16]] * 16, left_deep(16))
    # 1,048,576 and 2 to the 32
    slow("product_past_32_bits", 15, [fives[rows] for rows in (1024, 1024, 17, 241)], left_deep(4))
    apart = [table((a,), *[(y,) for y in range(1024)]) for a in range(2)]
    slow("results_1048576", 11, apart, (FF, 0, 1))
    slow("results_1049600", 15, [*apart[:1], table((1,), *[(y,) for y in range(1025)])], (FF, 0, 1))


def slow_refusal_samples():
    """Too many choices and another fault: what comes before 10 comes before 15."""
    past = pair(919, 1141)
    whole = file(past, FF, 0, 1)
    for name, data in (("behind_plan", whole + b"\0"), ("cut", whole[:-1]), ("mark_other", whole[:-6] + b"PM" + whole[-4:])):
        assert reference.slow_outcome(data, 0)[0] in (1, 2, 6), name
        sample("slow_past_the_limit_" + name, data, 0, 0)
    slow("past_the_limit_plan_ends_early", 7, past, (FF, 0), 0, 0)
    slow("past_the_limit_table_named_twice", 8, past, (FF, 0, 0), 0, 0)
    slow("past_the_limit_no_holder", 9, [table((0, 1), (7, 8)), sparse((0,), 919), sparse((1,), 1141)], (FF, 0, FF, 1, 2), 0, 0)
    ring = [table((0, 2), (7, 8)), sparse((0, 1), 919), sparse((1, 2), 1141)]
    slow("past_the_limit_no_plan_found", 14, ring, (), 0, 0)


# ---- the files
def write(path, data):
    with open(os.path.join(TOP, path), "wb") as f:
        f.write(data)


def after(answer, scratch):
    """What the test program says of the buffers after a call."""
    state = "empty" if scratch == 0 else "zero" if answer[0] in (0, 11) else "unchanged"
    return "scratch %s, %s\n" % (state, after_output(answer[2]))


def after_output(rows):
    """What the test program says of an output with these rows."""
    return "output %d words written, rest unchanged" % sum(map(len, rows))


def slow_line(data, output, joined):
    """What the test program says of the slow engine's answer; `joined` are the rows that the join gives."""
    number, detail, rows = reference.slow_outcome(data, output)
    told = "as the join's" if rows == joined else "not as the join's"
    return "slow %d %d %d, %s, %s\n" % (number, detail, len(rows), after_output(rows), told)


# ---- results by number
def result_samples():
    pair = [table((0,), (5,), (6,)), table((1,), (7,), (8,), (7,))]
    sample("result_tables_named_in_another_order", file(pair, FF, 1, 0), 60, 2)
    sample("result_row_one_word_short", file(pair, FF, 1, 0), 60, 1)
    sample("result_row_longer", file(pair, FF, 0, 1), 60, 3)
    three = [table((0,), (5,), (5,)), table((0,), (5,), (5,), (6,)), table((0,), (4,), (5,), (5,))]
    sample("result_two_joins_of_the_first_table", file(three, FF, FF, 0, 1, 2), 100, 1)
    sample("result_of_the_plan_found", file(three), 100, 1)
    left = table((0, 1), (1, 10), (2, 11), (3, 12), (2, 13), (9, 14), (1, 15))
    middle = table((0, 2), (2, 20), (1, 21), (2, 22), (3, 23), (1, 20), (2, 24))
    right = table((2, 3), (20, 1), (22, 2), (20, 3), (24, 4), (22, 5), (20, 6), (29, 7))
    last = table((1, 4), (10, 1), (13, 2), (11, 3), (10, 4), (13, 5), (14, 6), (10, 7))
    uneven = [left, middle, right, last]
    sample("result_groups_of_uneven_totals", file(uneven, FF, FF, 0, FF, 1, 2, 3))
    sample("result_groups_of_uneven_totals_another_order", file(uneven, FF, FF, 0, 3, FF, 1, 2))
    sample("result_groups_of_uneven_totals_no_plan", file(uneven))
    sample("result_row_lost_in_its_group", file([left, middle, table((2, 3), (20, 1), (24, 2))], FF, 0, FF, 1, 2))
    equal = [table((0,), *[(5,)] * 4)] * 16
    sample("result_of_3221225472", file([table((0,), *[(5,)] * 3), *equal[1:]], *left_deep(16)), 2000)


# ---- copies
def copies_of(number):
    """A table of one attribute that is 5 in all rows, which have so many copies together."""
    full, rest = divmod(number, 65535)
    return counted((0,), *[(65535, 5)] * full, *[(rest, 5)] * (rest > 0))


def counted_samples():
    frames = counted((0, 1), (1, 10, 1), (3, 11, 2), (2, 12, 2), (9, 13, 4))
    exposures = counted((1, 2), (2, 1, 7), (5, 2, 8), (1, 2, 9), (4, 3, 7))
    readings = counted((2, 3), (2, 7, 29510), (1, 9, 29530))
    sample("counted_sample_file", file([frames, exposures, readings], FF, 0, FF, 1, 2))
    sample("counted_sample_file_no_plan", file([frames, exposures, readings]))
    sample("counted_sample_file_mended", file([frames, exposures, readings], FF, 0, FF, 2, 1))
    sample("counted_first_table_alone", file([frames, EXPOSURES, READINGS], FF, 0, FF, 1, 2))
    sample("counted_middle_table_alone", file([FRAMES, exposures, READINGS], FF, 0, FF, 1, 2))
    sample("counted_last_table_alone", file([FRAMES, EXPOSURES, readings], FF, 0, FF, 1, 2))
    one = [counted((0,), (1, 5), (1, 6)), counted((0, 1), (1, 5, 7), (1, 6, 8), (1, 5, 9))]
    sample("counted_one_copy_each", file(one, FF, 0, 1))
    rows = [counted((0,), (2, 5), (1, 6), (1, 5)), counted((0, 1), (1, 5, 7), (3, 6, 8), (2, 5, 7))]
    sample("counted_rows_and_copies_in_order", file(rows, FF, 0, 1))
    sample("counted_rows_and_copies_scratch_one_short", file(rows, FF, 0, 1), 62)
    sample("counted_rows_and_copies_scratch_just_enough", file(rows, FF, 0, 1), 63)
    sample("counted_rows_and_copies_output_one_short", file(rows, FF, 0, 1), 100, 23)
    sample("counted_rows_and_copies_output_just_enough", file(rows, FF, 0, 1), 100, 24)
    unrecorded = [counted((0, 1), (3, LARGEST, 1), (2, 7, LARGEST)), counted((0,), (4, LARGEST), (2, 7))]
    sample("counted_not_recorded", file(unrecorded, FF, 0, 1))
    sample("counted_no_rows", file([counted((0,)), counted((0, 1), (7, 5, 6))], FF, 0, 1))
    sample("counted_no_rows_no_buffers", file([counted((0, 1))], 0), 0, 0)
    wide = table(range(8), range(8))
    sample("counted_attributes_eight", file([counted(range(8), (2, *range(8)), (1, *range(10, 18))), wide], FF, 0, 1))
    # the holding limit, and what a row can have
    most = counted((0,), (65535, 5))
    sample("counted_65535_copies", file([most], 0))
    sample("counted_65535_copies_four_times", file([most] * 4, *left_deep(4)))
    sample("counted_65535_copies_five_times", file([most] * 5, *left_deep(5)))
    # totals at the edge of a word and of the holding limit, each a product of sums of copies
    sample("counted_4294967295_results", file([copies_of(65535), copies_of(65537)], FF, 0, 1))
    sample("counted_4294967296_results", file([copies_of(65536), copies_of(65536)], FF, 0, 1))
    for last, sums in ((14, (7154, 42799, 92737, 649657)), (15, (65535, 65537, 641, 6700417)), (16, (65536,) * 4)):
        assert math.prod(sums) == 2**64 - 16 + last
        sample("counted_184467440737095516%02d_results" % last, file(map(copies_of, sums), *left_deep(4)), 1200)
    thousand = counted((0,), (1024, 5))
    sample("counted_1048576_choices", file([thousand, counted((0,), (1000, 5), (24, 6))], FF, 0, 1))
    sample("counted_1048577_choices", file([counted((0,), (61681, 5)), counted((0,), (17, 5))], FF, 0, 1))
    sample("counted_1049600_choices", file([thousand, counted((0,), (1000, 5), (25, 6))], FF, 0, 1))
    sample("counted_too_many_pairs_and_no_rows", file([most, most, counted((0,))], FF, FF, 0, 1, 2))


def copies_samples():
    sample("copies_none", file([counted((0,), (0, 5))], 0))
    sample("copies_none_in_the_last_row", file([ONE, counted((0,), (1, 5), (2, 6), (0, 7))], FF, 0, 1))
    sample("copies_65536", file([counted((0,), (65536, 5))], 0))
    sample("copies_largest", file([counted((0,), (LARGEST, 5))], 0))
    sample("copies_out_of_range_before_the_next_fault", counted((0,), (0, 5)) + b"XX")
    sample("copies_out_of_range_before_a_plan_that_is_none", counted((0,), (0, 5)) + plan(FF))
    sample("copies_out_of_range_in_the_second_table", counted((0,), (1, 5)) + counted((0,), (0, 5)) + plan(0))
    whole = counted((0, 1), (0, 5, 6), (1, 7, 8))
    for name, at in (("mark", 2), ("fields", 10), ("copies", 17), ("first_column", 25), ("last_column", 33)):
        sample("copies_out_of_range_cut_behind_" + name, whole[:at])
    sample("copies_column_there_attribute_column_not", counted((0,), (1, 5), (2, 6))[:18])
    sample("copies_of_4097_rows", b"TC" + record(1, 4097)[2:])
    sample("copies_of_no_attributes", b"TC" + record(0, 1, [0])[2:])
    sample("copies_of_a_17th_table", b"".join([ONE] * 16) + counted((0,), (0, 5)))


def main():
    for make in (
        bench_samples, cut_samples, record_samples, plan_samples, buffer_samples, product_samples, sum_samples,
        limit_samples, unused_samples, key_samples, unrecorded_samples, row_samples, many_table_samples, tree_samples,
        mended_samples, mended_choice_samples, no_holder_samples, sixteen_samples, mended_tree_samples, found_samples,
        found_choice_samples, not_found_samples, sixteen_found_samples, found_tree_samples, slow_limit_samples,
        slow_product_samples, slow_refusal_samples, result_samples, counted_samples, copies_samples,
    ):
        make()
    folder = os.path.join(TOP, "crates/samples/data")
    os.makedirs(folder, exist_ok=True)
    for old in os.listdir(folder):
        os.remove(os.path.join(folder, old))
    text = ""
    for name, data, scratch, output in samples:
        assert scratch <= 65536 and output <= 65536 and len(data) <= 65536, name
        write("crates/samples/data/" + name, word(scratch) + word(output) + data)
        answer = reference.outcome(data, scratch, output)
        text += name + "\n" + reference.lines(answer) + after(answer, scratch) + slow_line(data, output, answer[2])
        text += reference.shown_results(data, scratch, output)
    write("crates/samples/args", "".join(name + "\n" for name, *_ in samples).encode())
    write("crates/samples/stdout", text.encode())
    write("crates/pigrozd/stdin", P1)
    write("crates/pigrozd/stdout", reference.printed(P1).encode())


if __name__ == "__main__":
    main()
