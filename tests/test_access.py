"""Tests of one result by its number, and of its number by its rows and copies: against the reference, at every edge,
and from Python."""
import array
import bisect
import collections
import collections.abc
import ctypes
import itertools
import math
import pathlib
import pickle
import random
import re
import threading
import types
import unittest
import warnings
from unittest import mock

from reference import HOLD
from support import COUNTED_SAMPLE, CSVS, FOUND_PLAN, NO_PLAN, SAMPLE, SAMPLE_PLAN
from support import Folder, damaged, drawn_copies, load, samples, with_copies
from test_library import BEFORE, NEED, drawn_file, drawn_tables, words
from test_products import two_totals

import pigrozd
import reference
from pigrozd import access, fileformat, library, plans

HIGHEST = 2**64 - 1  # the highest n that can be given
SAMPLE_VALUES = [(10, 1, 7, 29510), (10, 1, 7, 29510), (11, 2, 9, 29530), (12, 2, 9, 29530)]
SAMPLE_ROWS = [(0, 0, 0), (0, 0, 1), (1, 2, 2), (2, 2, 2)]
NO_PAIRS = [0] * 16, [0] * 16  # the row numbers and copies of a refusal
TABLES = {
    "frames": {"frame": [10, 11, 12, 13], "exposure": [1, 2, 2, 4]},
    "exposures": {"exposure": [1, 2, 2, 3], "reading": [7, 8, 9, 7]},
    "readings": {"reading": [7, 7, 9], "centikelvin": [29510, 29510, 29530]},
}


def needed(data):
    """The words of scratch that a file needs, by the package's reader; 0 if the file is not within the rules."""
    read = fileformat.read(data)
    return plans.words_needed(read.mended.plan, read.tables) if read.mended else 0


def width_of(data):
    """How many values a row of the result has."""
    return len(plans.width(fileformat.read(data).tables))


class Calls(unittest.TestCase):
    """One call of either function: its answer, and what it leaves in the buffers. The scratch is as long as is needed
    if nothing else is said."""

    def check_scratch(self, number, scratch):
        """After 1 to 10, 14 and 19 the scratch is as it was; else all of it is zero."""
        kept = 1 <= number <= 10 or number in (14, 19)
        self.assertEqual(scratch, words(BEFORE if kept else 0) * len(scratch))

    def result_at(self, data, n, scratch_words=None, row_words=40):
        """Number, detail, values, row numbers and copies of result n. What stands behind the values is as it was."""
        scratch = words(BEFORE) * (needed(data) if scratch_words is None else scratch_words)
        row = words(BEFORE) * row_words
        answer = pigrozd.call_result_at(data, scratch, n, row)
        self.check_scratch(answer.number, scratch)
        end = 0 if answer.number else width_of(data)
        self.assertEqual(row[end:], words(BEFORE) * (row_words - end))
        self.assertNotIn(answer.number, (13, 15, 17))
        return answer.number, answer.detail, list(row[:end]), list(answer.rows), list(answer.copies)

    def number_of(self, data, rows, scratch_words=None, copies=None):
        """Number, detail and n of the result with these rows and copies; copy 0 of each row if nothing is said."""
        scratch = words(BEFORE) * (needed(data) if scratch_words is None else scratch_words)
        answer = pigrozd.call_number_of(data, scratch, rows, [0] * len(rows) if copies is None else copies)
        self.check_scratch(answer.number, scratch)
        self.assertNotIn(answer.number, (13, 15, 16, 18))
        return tuple(answer)

    def check_result(self, data, n, scratch_words=2000, row_words=40):
        """The library gives for result n what the reference gives. The answer's number."""
        answer = self.result_at(data, n, scratch_words, row_words)
        with self.subTest(file=data[:200].hex(), n=n, scratch=scratch_words, row=row_words):
            self.assertEqual(answer, reference.result_at(data, scratch_words, n, row_words))
        return answer[0]

    def check_number(self, data, rows, scratch_words=2000, copies=None):
        """It gives for these rows and copies what the reference gives. The answer's number."""
        copies = [0] * len(rows) if copies is None else copies
        answer = self.number_of(data, rows, scratch_words, copies)
        with self.subTest(file=data[:200].hex(), rows=rows, copies=copies, scratch=scratch_words):
            self.assertEqual(answer, reference.number_of(data, scratch_words, rows, copies))
        return answer[0]

    def check_both_ways(self, data, n, rows, copies=None):
        """Result n is made of these rows and copies, and they make result n."""
        copies, rest = [0] * len(rows) if copies is None else copies, [0] * (16 - len(rows))
        number, detail, _, *given = self.result_at(data, n)
        self.assertEqual((number, detail, *given), (0, 0, [*rows, *rest], [*copies, *rest]), n)
        self.assertEqual(self.number_of(data, rows, copies=copies), (0, 0, n))

    def check_end(self, data, results):
        """There are so many results: the last of them is there and back, and 16 says how many there are."""
        if results:
            tables = len(fileformat.read(data).tables)
            rows, copies = (given[:tables] for given in self.result_at(data, results - 1)[3:])
            self.check_both_ways(data, results - 1, rows, copies)
        for n in (results, results + 1, 2**32 - 1, 2**32, 2**63, HIGHEST):
            if n >= results:
                self.assertEqual(self.result_at(data, n), (16, results, [], *NO_PAIRS))


class Files(Calls):
    def test_sample(self):
        for n in range(4):
            self.assertEqual(self.result_at(SAMPLE, n)[2], list(SAMPLE_VALUES[n]))
            self.check_both_ways(SAMPLE, n, SAMPLE_ROWS[n])
        self.check_end(SAMPLE, 4)
        self.assertEqual(NEED, needed(SAMPLE))
        self.assertEqual(self.result_at(SAMPLE, 0, NEED - 1), (10, NEED, [], *NO_PAIRS))
        self.assertEqual(self.number_of(SAMPLE, SAMPLE_ROWS[0], NEED - 1), (10, NEED, 0))

    def test_rows_stand_by_table_number(self):
        """Whatever the plan's order is, by which results have their numbers."""
        found = SAMPLE[:118] + NO_PLAN
        self.assertEqual(fileformat.read(found).mended.code, bytes([255, 2, 255, 1, 0]))
        for n, rows in enumerate(SAMPLE_ROWS):
            self.check_both_ways(found, n, rows)
        tables = [{0: [5, 6, 5]}, {0: [6, 5, 5]}, {0: [5, 5, 6]}]
        for order in itertools.permutations(range(3)):
            data = pigrozd.make_file(tables, (order[0], (order[1], order[2])))
            picks = itertools.product(range(3), repeat=3)
            agreed = [pick for pick in picks if len({tables[t][0][y] for t, y in zip(order, pick)}) == 1]
            self.assertEqual(len(agreed), 9)
            for n, pick in enumerate(agreed):
                self.check_both_ways(data, n, [y for _, y in sorted(zip(order, pick))])

    def test_random_files(self):
        """600 small files, whole and damaged: each result there and back, and numbers behind the last one. In every
        second file values are missing, every third has no plan, and in three of four some tables have copies. Of many
        results fifty are drawn."""
        chance, numbers, results, mended = random.Random(23), collections.Counter(), collections.Counter(), 0
        for index in range(600):
            data = drawn_file(chance, index)
            if chance.random() < 0.3:
                data[chance.randrange(len(data))] = chance.choice((0, 1, 2, 255))
            data = bytes(data)
            out = reference.result_at(data, 2000, HIGHEST, 40)[1]
            numbers[self.check_result(data, HIGHEST, chance.choice((2000, 40)), chance.choice((40, 2)))] += 1
            if self.check_result(data, HIGHEST) != 16:
                continue
            read = fileformat.read(data)
            mended += bool(read.plan) and read.mended.code != read.code
            for n in range(out) if out <= 50 else chance.sample(range(out), 50):
                self.assertEqual(self.check_result(data, n, needed(data), width_of(data) + chance.randrange(3)), 0)
                self.check_both_ways(data, n, *(given[: len(read.tables)] for given in self.result_at(data, n)[3:]))
                results[read.is_counted()] += 1
            self.check_end(data, out)
        self.assertGreater(results[False], 200)
        self.assertGreater(results[True], 700)
        self.assertGreater(mended, 20)
        for number in (1, 2, 3, 7, 9, 10, 14, 16, 18, 19):
            self.assertGreater(numbers[number], 0, number)

    def test_every_choice(self):
        """Of one row of each table: it is a result with its number, or none, and then 17 says so."""
        chance, numbers = random.Random(29), collections.Counter()
        for index in range(200):
            tables, plan = drawn_tables(chance, 0.1)
            data = pigrozd.make_file(tables, plan if index % 2 else None)
            if fileformat.read(data).fault:
                continue
            rows = [table.rows for table in fileformat.read(data).tables]
            for choice in itertools.product(*map(range, rows)):
                numbers[self.check_number(data, choice)] += 1
            for _ in range(10):
                self.assertEqual(self.check_number(data, [chance.choice((n, n + 1, 4096)) for n in rows]), 17)
                drawn = [chance.randrange(3) for _ in range(chance.randrange(20))]
                numbers[self.check_number(data, drawn, chance.choice((2000, 20)))] += 1
        self.assertEqual(set(numbers), {0, 10, 17})
        self.assertGreater(numbers[0], 200)
        self.assertGreater(numbers[17], 500)

    def test_samples(self):
        """The files of all samples."""
        numbers = collections.Counter()
        for data in samples().values():
            for n in (0, 1, 3, 100, HIGHEST):
                numbers[self.check_result(data, n, 70000)] += 1
            numbers[self.check_number(data, [0] * len(fileformat.read(data).tables), 70000)] += 1
        self.assertEqual(set(numbers), {0, 1, 2, 3, 4, 5, 6, 7, 8, 9, 11, 14, 16, 17, 19})

    def test_damaged_files(self):
        """What the join refuses with 1 to 10, 14 and 19 is refused with the same number and detail."""
        seen = collections.Counter()
        for data in damaged(700):
            for scratch_words in (0, 300):
                joined = pigrozd.call(data, words(0) * scratch_words, words(0) * 16)
                if joined.number in (0, 11):
                    continue
                with self.subTest(data.hex()):
                    self.assertEqual(self.result_at(data, 0, scratch_words)[:2], joined[:2])
                    self.assertEqual(self.number_of(data, [0], scratch_words), (*joined[:2], 0))
                seen[joined.number] += 1
        self.assertEqual(set(seen), {*range(1, 11), 14, 19})

    def test_values_not_recorded(self):
        """Where two tables share the attribute they are in no result; else they stand in the row buffer."""
        tables = [{0: [None, 1, 2, 2], 1: [5, None, 6, None]}, {0: [1, None, 2]}]
        data = pigrozd.make_file(tables, (0, 1))
        missing = reference.NOT_RECORDED
        for n, (rows, values) in enumerate((((1, 0), [1, missing]), ((2, 2), [2, 6]), ((3, 2), [2, missing]))):
            self.check_both_ways(data, n, rows)
            self.assertEqual(self.result_at(data, n)[2], values)
        self.check_end(data, 3)
        self.assertEqual(self.number_of(data, (0, 1)), (17, 0, 0))

    def test_as_the_join(self):
        """The results by number are the join's rows, in its order."""
        chance, compared = random.Random(31), 0
        for index in range(200):
            tables, plan = drawn_tables(chance, 0.1)
            data = pigrozd.make_file(tables, plan if index % 2 else None)
            output = words(0) * 4000
            answer = pigrozd.call(data, words(0) * 2000, output)
            if answer.number == 0:
                width = width_of(data)
                rows = [list(output[width * n : width * (n + 1)]) for n in range(answer.rows)]
                self.assertEqual([self.result_at(data, n)[2] for n in range(answer.rows)], rows)
                self.check_end(data, answer.rows)
                compared += answer.rows
        self.assertGreater(compared, 100)


# ---- many results
def grouped(*groups):
    """Tables of one attribute. For each group, whose rows have one value, there is a number of rows for each table. So
    the results are as many as the products of the groups, summed. Rows of different groups are mixed."""
    chance = random.Random(37)
    columns = [[value for value, rows in enumerate(counts) for _ in range(rows)] for counts in zip(*groups)]
    for column in columns:
        chance.shuffle(column)
    return [{0: column} for column in columns]


def numbering(tables, order):
    """What gives the row numbers, by table number, of result n of tables that share one attribute, joined in this
    order."""
    columns = [tables[t][0] for t in order]
    groups = {
        value: [[y for y, other in enumerate(column) if other == value] for column in columns[1:]]
        for value in set(columns[0])
    }

    def nth(n):
        for first, value in enumerate(columns[0]):
            size = math.prod(map(len, groups[value]))
            if n < size:
                rows = [first]
                for group in groups[value]:
                    size //= len(group)
                    rows.append(group[n // size])
                    n %= size
                return [y for _, y in sorted(zip(order, rows))]
            n -= size

    return nth


def deep(order, left):
    """A plan of tables in this order, each joined to all before it, or to all behind it."""
    if len(order) == 1:
        return order[0]
    return (deep(order[:-1], left), order[-1]) if left else (order[0], deep(order[1:], left))


WORD = 2**32
NEAR = ((255, 257, 256, 256), (255, 257, 1, 1))  # 65,535 * 65,536 + 65,535, which is one less than 2 to the 32
EXACT = [[15] + [16 if t <= value else 1 for t in range(1, 16)] for value in range(16)]  # 15 * 16 ** value each: HOLD
ONE_LESS = [[14, *EXACT[0][1:]], *EXACT[1:]]


class ManyResults(Calls):
    """Numbers of results past 32 bits, there and back."""

    def check_numbers(self, tables, plan, order, numbers):
        """Results with these numbers, and drawn ones, there and back, of tables that share one attribute. How many
        results there are is the last number and one more."""
        data, nth, chance = pigrozd.make_file(tables, plan), numbering(tables, order), random.Random(41)
        for n in sorted({*numbers, *(chance.randrange(numbers[-1]) for _ in range(60))}):
            self.check_both_ways(data, n, nth(n))
        self.check_end(data, numbers[-1] + 1)

    def test_around_32_bits(self):
        """Where groups meet, at the ends, and drawn ones, in two orders."""
        for more in range(4):
            tables = grouped(*NEAR, *[(1, 1, 1, 1)] * more)
            numbers = (0, 1, 255, 256, 65535, 65536, WORD - 2 + more)
            self.check_numbers(tables, (0, (1, (2, 3))), (0, 1, 2, 3), numbers)
            self.check_numbers(tables, ((2, 3), (1, 0)), (2, 3, 1, 0), numbers)

    def test_one_less_than_the_limit(self):
        tables, order = grouped(*ONE_LESS), tuple(range(16))
        numbers = (0, 15, 16, WORD - 1, WORD, WORD + 1, 2**48, 2**63 - 1, 2**63, HOLD - WORD, HOLD - 3, HOLD - 2)
        for left in (True, False):
            self.check_numbers(tables, deep(order, left), order, numbers)
            self.check_numbers(tables, deep(order[::-1], left), order[::-1], numbers)

    def test_by_the_reference(self):
        """As the reference says, which numbers them in another way; also the values."""
        for left in (True, False):
            data = pigrozd.make_file(grouped(*ONE_LESS), deep(tuple(range(16)), left))
            for n in (0, WORD, 2**63, HOLD - 2, HOLD - 1, HIGHEST):
                self.check_result(data, n, 50000)
            for rows in ([0] * 16, self.result_at(data, 2**63 + 7)[3], [0] * 15):
                self.check_number(data, rows, 50000)

    def test_products(self):
        """One row that finds two groups: the number of results is the product of two totals."""
        for wide, narrow in (
            (HOLD - 1, 1),
            ((HOLD - 1) // 2, 2),
            (2**63, 1),
            (WORD, WORD - 1),
            (WORD - 1, WORD),
            (WORD + 1, WORD - 2),
            (WORD, 3),
            (65535, 65536),
            (1, 1),
            (0, 5),
            (32, 32**5),
        ):
            for wide_first in (True, False):
                data, results = two_totals([(1, 1)], wide, narrow, wide_first), wide * narrow
                self.check_end(data, results)
                for n in (0, 31, 32, 1000, WORD, results // 3, results // 2 + 1, results - 2):
                    if 0 <= n < results:
                        self.check_both_ways(data, n, self.result_at(data, n)[3])

    def test_sums(self):
        """Two rows that find one group each: the number of results is the sum of two totals."""
        for wide, narrow in ((HOLD - 2, 1), (HOLD - 1 - WORD, WORD), (HOLD - WORD, WORD - 1), (WORD - 1, 1)):
            data = two_totals([(1, 2), (2, 1)], wide, narrow)
            self.check_end(data, wide + narrow)
            for n in (0, wide - 1, wide, wide + narrow - 1):
                number, detail, _, rows, copies = self.result_at(data, n)
                self.assertEqual((number, detail, rows[0], copies), (0, 0, int(n >= wide), [0] * 16))
                self.assertEqual(self.number_of(data, rows), (0, 0, n))

    def test_a_large_group_that_no_result_uses(self):
        """It is held or not, and the few results have their numbers."""
        for rows in (16, 32):
            below = grouped((0,) + (rows,) * 15, (1,) + (2,) * 3 + (1,) * 12, (2,) + (0,) * 15)
            for left in (True, False):
                data = pigrozd.make_file(below, (0, deep(tuple(range(1, 16)), left)))
                self.check_end(data, 8)
                for n in range(8):
                    self.check_both_ways(data, n, numbering(below, range(16))(n))


class Limit(Calls):
    """11 exactly if there are 18,446,744,073,709,551,615 results or more."""

    def too_many(self, data):
        """11, whatever is asked for and however long the row buffer is. Its detail is the limit."""
        tables = len(fileformat.read(data).tables)
        for n, row_words in ((0, 40), (WORD, 40), (HOLD - 1, 40), (HIGHEST, 40), (HIGHEST, 0)):
            self.assertEqual(self.result_at(data, n, None, row_words), (11, HOLD, [], *NO_PAIRS))
        for rows in ([0] * tables, [], [4096] * tables, [0] * 17):
            self.assertEqual(self.number_of(data, rows), (11, HOLD, 0))
        need = needed(data)
        self.assertEqual(self.result_at(data, 0, need - 1, 0), (10, need, [], *NO_PAIRS))
        self.assertEqual(self.number_of(data, [], need - 1), (10, need, 0))

    def test_exactly(self):
        order = tuple(range(16))
        for plan in (deep(order, True), deep(order, False), deep(order[::-1], True), None):
            self.too_many(pigrozd.make_file(grouped(*EXACT), plan))

    def test_more(self):
        for tables in (
            grouped((16,) * 16),
            grouped(*EXACT, (1,) * 16),
            grouped((4096,) * 6),
            [{0: [7] * 4096}] * 16,
            [{t: [7] * 4096} for t in range(16)],
            grouped((16,) * 16, (1,) * 15 + (0,)),
        ):
            self.too_many(pigrozd.make_file(tables))

    def test_products(self):
        for wide, narrow in (
            (HOLD, 1),
            (HOLD + 1, 1),
            (HOLD // 3, 3),
            (WORD + 1, WORD - 1),
            (WORD, WORD),
            (2**63, 2),
            (HOLD, 2),
        ):
            for wide_first in (True, False):
                self.too_many(two_totals([(1, 1)], wide, narrow, wide_first))

    def test_sums(self):
        for wide, narrow in ((HOLD - 1, 1), (HOLD - WORD, WORD), (HOLD - WORD + 1, WORD), (HOLD, 1)):
            self.too_many(two_totals([(1, 2), (2, 1)], wide, narrow))

    def test_copies(self):
        """Exactly so many by copies, and more."""
        self.assertEqual(65535 * 65537 * 641 * 6700417, HOLD)
        for totals in ((65535, 65537, 641, 6700417), (6700417, 641, 65537, 65535), (65536,) * 4, (65535,) * 5):
            self.too_many(one_value(*(as_copies(total) for total in totals)))
        self.too_many(one_value(*[[65535] * 4096] * 16))


class Shapes(Calls):
    """Files of other shapes."""

    def test_no_attribute_shared(self):
        """Row numbers are the digits of n."""
        tables = [{t: range(rows)} for t, rows in enumerate((4095, 1024, 1024))]
        data = pigrozd.make_file(tables, (0, (1, 2)))
        for n in (0, 4000, 123456789, 4095 * 2**20 - 1):
            self.check_both_ways(data, n, (n >> 20, n >> 10 & 1023, n & 1023))
            self.assertEqual(self.result_at(data, n)[2], [n >> 20, n >> 10 & 1023, n & 1023])
        self.check_end(data, 4095 * 2**20)

    def test_largest_file(self):
        """16 tables of 4,096 rows, each row with one partner in the next table, in another place."""
        tables = [{a: [y * 7 + a for y in range(4096)] for a in (t, t + 1)} for t in range(16)]
        for t in range(0, 16, 2):
            tables[t] = {a: column[::-1] for a, column in tables[t].items()}
        opened = pigrozd.open_tables(tables)
        self.assertEqual(len(opened), 4096)
        for n in (0, 4000, 4095):
            result = opened.result(n)
            self.assertEqual(result.rows, tuple(4095 - n if t % 2 == 0 else n for t in range(16)))
            self.assertEqual(result.values, tuple(7 * n + a for a in range(17)))
            self.assertEqual(opened.number_of(result.rows), n)


class Edges(Calls):
    """10, 16, 17 and 18, each at its edge and in its place."""

    def test_scratch(self):
        """10 with the words needed if one is missing, before all that follows."""
        for data in (SAMPLE, SAMPLE[:118] + NO_PLAN, pigrozd.make_file(grouped((3, 4, 5)))):
            need, tables = needed(data), len(fileformat.read(data).tables)
            for scratch_words in (0, 1, need - 1):
                for n, row_words in ((0, 40), (HIGHEST, 40), (0, 0)):
                    self.assertEqual(self.result_at(data, n, scratch_words, row_words), (10, need, [], *NO_PAIRS))
                for rows in ([0] * tables, []):
                    self.assertEqual(self.number_of(data, rows, scratch_words), (10, need, 0))
            for scratch_words in (need, need + 1, need + 1000):
                number, _, _, rows, _ = self.result_at(data, 0, scratch_words)
                self.assertEqual((number, self.number_of(data, rows[:tables], scratch_words)), (0, (0, 0, 0)))

    def test_row_buffer(self):
        """18 with the values of a row if a word is missing, before 16, and also where there is no result."""
        none = pigrozd.make_file([{0: [1], 1: [2]}, {0: [3], 2: [4]}])
        empty = pigrozd.make_file([{a: [] for a in range(8)}])
        for data, results in ((SAMPLE, 4), (none, 0), (empty, 0)):
            width = width_of(data)
            for row_words in range(width):
                for n in (0, results, HIGHEST):
                    self.assertEqual(self.result_at(data, n, None, row_words), (18, width, [], *NO_PAIRS))
            for row_words in (width, width + 1, width + 100):
                self.assertEqual(self.result_at(data, results, None, row_words), (16, results, [], *NO_PAIRS))
        for row_words in (4, 5, 100):
            self.assertEqual(self.result_at(SAMPLE, 2, None, row_words)[2], list(SAMPLE_VALUES[2]))

    def test_widest_row(self):
        """32 attributes, 8 in each of 4 tables."""
        data = pigrozd.make_file([{8 * t + a: [100 * t + a] * 3 for a in range(8)} for t in range(4)])
        self.assertEqual(self.result_at(data, 80, None, 31), (18, 32, [], *NO_PAIRS))
        values = [100 * t + a for t in range(4) for a in range(8)]
        self.assertEqual(self.result_at(data, 80, None, 33), (0, 0, values, [2] * 4 + [0] * 12, [0] * 16))
        self.check_end(data, 81)

    def test_no_result(self):
        self.check_end(pigrozd.make_file([{0: []}]), 0)
        self.check_end(pigrozd.make_file([{0: [1]}, {0: [2]}]), 0)
        self.check_end(pigrozd.make_file([{0: [7] * 4096}] * 15 + [{0: []}]), 0)
        self.check_end(pigrozd.make_file([{0: [7] * 4096}] * 15 + [{0: [None] * 4096}]), 0)

    def test_one_result(self):
        data = pigrozd.make_file([{0: [7]}])
        self.check_both_ways(data, 0, [0])
        self.check_end(data, 1)

    def test_high_numbers(self):
        """No bit of n is lost."""
        for shift in (8, 16, 31, 32, 33, 48, 63):
            for n in range(4):
                self.assertEqual(self.result_at(SAMPLE, n + 2**shift)[:2], (16, 4))

    def test_wrong_row_numbers(self):
        """17: not one for each table, no row, no agreement."""
        for rows in ((), (0,), (0, 0), (0, 0, 0, 0), (0,) * 16, (0,) * 17, (0,) * 300):
            self.assertEqual(self.number_of(SAMPLE, rows), (17, 0, 0))
        for rows in ((4, 0, 0), (0, 4, 0), (0, 0, 3), (0, 0, 4096), (2**32 - 1, 0, 0), (0, 2**16, 0), (0, 0, 2**31)):
            self.assertEqual(self.number_of(SAMPLE, rows), (17, 0, 0))
        for rows in ((0, 1, 0), (3, 0, 0), (1, 2, 0), (0, 3, 0), (3, 3, 2)):
            self.assertEqual(self.number_of(SAMPLE, rows), (17, 0, 0))
        self.assertEqual(self.number_of(pigrozd.make_file([{0: []}]), (0,)), (17, 0, 0))
        missing = pigrozd.make_file([{0: [None, 5]}, {0: [None, 5]}])
        self.assertEqual(self.number_of(missing, (0, 0)), (17, 0, 0))
        self.assertEqual(self.number_of(missing, (1, 1)), (0, 0, 0))

    def test_rows_that_agree_with_their_neighbours_alone(self):
        """Rows that agree wherever the plan joins two tables, but not with a table farther away."""
        tables = [{0: [1, 2], 1: [5, 5]}, {0: [1, 2], 2: [6, 6]}, {0: [1, 2], 3: [7, 7]}]
        for plan in ((0, (1, 2)), ((0, 1), 2), None):
            data = pigrozd.make_file(tables, plan)
            for choice in itertools.product(range(2), repeat=3):
                self.check_number(data, choice)
            self.check_end(data, 2)

    def test_a_row_that_takes_no_part(self):
        """It has a partner in the next table, which has none in the third."""
        data = pigrozd.make_file([{0: [1, 2]}, {0: [1, 2], 1: [5, 6]}, {1: [6]}], (0, (1, 2)))
        self.check_both_ways(data, 0, (1, 1, 0))
        self.check_end(data, 1)
        self.assertEqual(self.number_of(data, (0, 0, 0)), (17, 0, 0))


# ---- copies
def one_value(*copies):
    """A file of tables of one attribute and one value, so that all rows agree, joined each to all behind it; with the
    copies of each table's rows."""
    data = pigrozd.make_file([{0: [7] * len(given)} for given in copies], deep(tuple(range(len(copies))), False))
    return with_copies(data, copies)


def as_copies(total):
    """The copies of so few rows as can be, of which there are so many together."""
    full, rest = divmod(total, 65535)
    return [65535] * full + ([rest] if rest else [])


def pair_at(copies, place):
    """The row and the copy at this place among all pairs of a table, rising."""
    for row, there in enumerate(copies):
        if place < there:
            return row, place
        place -= there


class Counted(Calls):
    """Tables with copies: results are made of pairs of a row and a copy, there and back."""

    def check_pairs(self, data, n, pairs):
        """Result n is made of these pairs, by table number, and back."""
        self.check_both_ways(data, n, *zip(*pairs))

    def test_sample(self):
        """Copies rise within a row, and the first table of the plan changes last."""
        frames, readings = (1, 3, 2, 9), (2, 1, 4)
        pairs = [
            ((frame, copy), (exposure, 0), (reading, other))
            for frame, exposure, found in ((0, 0, (0, 1)), (1, 2, (2,)), (2, 2, (2,)))
            for copy in range(frames[frame])
            for reading in found
            for other in range(readings[reading])
        ]
        self.assertEqual(len(pairs), 3 + 12 + 8)
        for n, result in enumerate(pairs):
            self.check_pairs(COUNTED_SAMPLE, n, result)
            self.assertIn(tuple(self.result_at(COUNTED_SAMPLE, n)[2]), SAMPLE_VALUES)
        self.check_end(COUNTED_SAMPLE, 23)
        self.assertEqual(self.result_at(COUNTED_SAMPLE, 0, NEED - 1), (10, NEED, [], *NO_PAIRS))
        self.assertEqual(self.number_of(COUNTED_SAMPLE, (0, 0, 0), NEED - 1), (10, NEED, 0))

    def test_pairs_stand_by_table_number(self):
        """Whatever the plan's order is, by which results have their numbers."""
        tables, copies = [{0: [5, 6]}, {0: [6, 5, 5]}, {0: [5, 6]}], [[2, 3], None, [1, 4]]
        pairs = [[(y, c) for y, there in enumerate(given or [1] * 3) for c in range(there)] for given in copies]
        for order in itertools.permutations(range(3)):
            data = with_copies(pigrozd.make_file(tables, (order[0], (order[1], order[2]))), copies)
            picks = itertools.product(*(pairs[t] for t in order))
            agreed = [pick for pick in picks if len({tables[t][0][y] for t, (y, _) in zip(order, pick)}) == 1]
            self.assertEqual(len(agreed), 2 * 2 * 1 + 3 * 1 * 4)
            for n, pick in enumerate(agreed):
                self.check_pairs(data, n, [pair for _, pair in sorted(zip(order, pick))])
            self.check_end(data, len(agreed))

    def test_every_pair(self):
        """Of each table one pair, of those that are there and of those just behind them: it is a result with its
        number, or none, and then 17 says so."""
        chance, numbers = random.Random(53), collections.Counter()
        for _ in range(150):
            tables, _ = drawn_tables(chance, 0.1)
            data = drawn_copies(pigrozd.make_file(tables[:2]), chance)
            read = fileformat.read(data)
            there = [[*enumerate(read.copies(table)), (table.rows, 1)] for table in read.tables]
            each = [[(row, copy) for row, copies in pairs for copy in range(copies + 1)] for pairs in there]
            for choice in itertools.product(*each):
                rows, copies = zip(*choice)
                numbers[self.check_number(data, rows, copies=copies)] += 1
        self.assertEqual(set(numbers), {0, 17})
        self.assertGreater(numbers[0], 200)
        self.assertGreater(numbers[17], 1000)

    def test_wrong_copies(self):
        """17: not one for each table, or not below the number of the row's copies. So it is without copies."""
        rows = (1, 2, 2)
        for copies in ((), (0,), (0, 0), (0, 0, 0, 0), (0,) * 16, (0,) * 17, (0,) * 300):
            self.assertEqual(self.number_of(COUNTED_SAMPLE, rows, copies=copies), (17, 0, 0))
            self.assertEqual(self.number_of(SAMPLE, rows, copies=copies), (17, 0, 0))
        self.assertEqual(self.number_of(COUNTED_SAMPLE, rows, copies=(2, 0, 3)), (0, 0, 14))
        for copies in ((3, 0, 3), (2, 1, 3), (2, 0, 4), (2**32 - 1, 0, 0), (0, 2**16, 0), (0, 0, 2**31)):
            self.assertEqual(self.number_of(COUNTED_SAMPLE, rows, copies=copies), (17, 0, 0))
        for copies in ((1, 0, 0), (0, 1, 0), (0, 0, 1), (0, 0, 2**32 - 1)):
            self.assertEqual(self.number_of(SAMPLE, rows, copies=copies), (17, 0, 0))
        for rows in ((), (0,), (0, 0), (0, 0, 0, 0)):
            self.assertEqual(self.number_of(COUNTED_SAMPLE, rows, copies=(0, 0, 0)), (17, 0, 0))
        for rows in ((4, 0, 0), (0, 4, 0), (0, 0, 3), (0, 1, 0), (3, 0, 0)):
            self.assertEqual(self.number_of(COUNTED_SAMPLE, rows, copies=(0, 0, 0)), (17, 0, 0))

    def test_copies_of_another_row(self):
        """A copy is counted from 0 in its own row: that of another row of the same table is of no matter."""
        data = one_value([1, 65535, 3])
        for n, pair in ((0, (0, 0)), (1, (1, 0)), (65535, (1, 65534)), (65536, (2, 0)), (65538, (2, 2))):
            self.check_pairs(data, n, [pair])
        for row, copy in ((0, 1), (1, 65535), (2, 3), (0, 65534)):
            self.assertEqual(self.number_of(data, [row], copies=[copy]), (17, 0, 0))
        self.check_end(data, 65539)

    def test_wrong_counts(self):
        """19, before all else that a call can say, with the offset of the mark."""
        plain = pigrozd.make_file([{0: [7]}, {0: [7, 7]}], (0, 1))
        for copies in (0, 65536, 2**32 - 1):
            for data, at in ((with_copies(plain, [[copies], None]), 0), (with_copies(plain, [None, [1, copies]]), 14)):
                for scratch_words, row_words in ((None, 40), (0, 0)):
                    self.assertEqual(self.result_at(data, 0, scratch_words, row_words), (19, at, [], *NO_PAIRS))
                for rows in ((0, 0), ()):
                    self.assertEqual(self.number_of(data, rows, 0), (19, at, 0))

    def test_no_attribute_shared(self):
        """Places among the pairs of each table are the digits of n."""
        copies = [[900, 1, 99], [65535, 65535, 2], [7]]
        tables = [{t: range(10 * t, 10 * t + len(given))} for t, given in enumerate(copies)]
        data = with_copies(pigrozd.make_file(tables, (0, (1, 2))), copies)
        results = 1000 * 131072 * 7
        for n in (0, 6, 7, 458744, 458745, 917489, 917490, 917504, 917505, results // 2, 900 * 917504, results - 1):
            places = n // 7 // 131072, n // 7 % 131072, n % 7
            pairs = [pair_at(given, place) for given, place in zip(copies, places)]
            self.check_pairs(data, n, pairs)
            self.assertEqual(self.result_at(data, n)[2], [10 * t + row for t, (row, _) in enumerate(pairs)])
        self.check_end(data, results)

    def test_many_results(self):
        """Around 32 bits, and one less than the limit: 4 tables suffice, as a row has many copies."""
        for totals in (
            (65535, 65537),
            (65536, 65536),
            (641, 6700417),
            (65535, 65535, 65535, 65535),
            (908558, 337, 92737, 649657),
        ):
            copies, results = [as_copies(total) for total in totals], math.prod(totals)
            data, chance = one_value(*copies), random.Random(59)
            numbers = {0, 1, 65534, 65535, WORD - 2, WORD - 1, WORD, 2**48, 2**63, results // 2, results - 1}
            for n in sorted(numbers | {chance.randrange(results) for _ in range(20)}):
                if n < results:
                    rest, pairs = n, []
                    for given in reversed(copies):
                        rest, place = divmod(rest, sum(given))
                        pairs.append(pair_at(given, place))
                    self.check_pairs(data, n, pairs[::-1])
            self.check_end(data, results)
        self.assertEqual(results, HOLD - 1)

    def test_by_the_reference(self):
        data = one_value(*(as_copies(total) for total in (908558, 337, 92737, 649657)))
        for n in (0, WORD, 2**63, HOLD - 2, HOLD - 1, HIGHEST):
            self.check_result(data, n, 5000)
        rows, copies = (given[:4] for given in self.result_at(data, 2**63 + 7)[3:])
        for given in (copies, copies[:3], [*copies[:3], 65535]):
            self.check_number(data, rows, 5000, given)


class Buffers(unittest.TestCase):
    def test_result_at(self):
        good = words(*range(200))
        for scratch, row in (
            (bytearray(400), good),
            (good, bytes(400)),
            (memoryview(bytes(400)).cast("I"), good),
            (memoryview(good)[::2], words(0)),
            (5, good),
            (good, None),
        ):
            with self.assertRaises(TypeError):
                pigrozd.call_result_at(SAMPLE, scratch, 0, row)
        for scratch, row in (
            (good, good),
            (memoryview(good)[:60], memoryview(good)[59:]),
            (memoryview(good)[59:], memoryview(good)[:60]),
            (memoryview(bytearray(401))[1:].cast("I"), words(0)),
        ):
            with self.assertRaises(ValueError):
                pigrozd.call_result_at(SAMPLE, scratch, 0, row)
        self.assertEqual(good, words(*range(200)))
        answer = pigrozd.call_result_at(SAMPLE, memoryview(good)[:NEED], 2, memoryview(good)[NEED:])
        self.assertEqual(answer, (0, 0, (1, 2, 2) + (0,) * 13, (0,) * 16))
        self.assertEqual(good, words(*[0] * NEED, *SAMPLE_VALUES[2], *range(NEED + 4, 200)))

    def test_number_of(self):
        good = words(*range(NEED))
        for scratch in (bytearray(400), bytes(400), memoryview(good)[::2], 5):
            with self.assertRaises(TypeError):
                pigrozd.call_number_of(SAMPLE, scratch, [0, 0, 0])
        for rows in ((1, 2, 2), [1, 2, 2], words(1, 2, 2), iter([1, 2, 2]), b"\1\2\2"):
            self.assertEqual(pigrozd.call_number_of(SAMPLE, good, rows), (0, 0, 2))
        for copies in ((2, 0, 3), [2, 0, 3], words(2, 0, 3), iter([2, 0, 3]), b"\2\0\3"):
            self.assertEqual(pigrozd.call_number_of(COUNTED_SAMPLE, good, (1, 2, 2), copies), (0, 0, 14))
        self.assertEqual(pigrozd.call_number_of(COUNTED_SAMPLE, good, (1, 2, 2)), (0, 0, 3))
        for copies in ((), (0,), (0, 0), (0, 0, 0, 0), (0, 0, 4), (0, 1, 0)):
            self.assertEqual(pigrozd.call_number_of(COUNTED_SAMPLE, good, (1, 2, 2), copies), (17, 0, 0))
        self.assertEqual(good, words(0) * NEED)
        self.assertEqual(pigrozd.call_number_of(SAMPLE, words(), []), pigrozd.NumberAnswer(10, NEED, 0))

    def test_no_buffer(self):
        nothing = pigrozd.make_file([{0: []}])
        self.assertEqual(pigrozd.call_result_at(nothing, words(), 0, words()), (18, 1, (0,) * 16, (0,) * 16))
        self.assertEqual(pigrozd.call_result_at(nothing, words(), 0, words(5)), (16, 0, (0,) * 16, (0,) * 16))
        self.assertEqual(pigrozd.call_number_of(nothing, words(), []), (17, 0, 0))

    def test_numbers(self):
        for n in (-1, 2**64, 10**100, -(10**100)):
            with self.assertRaisesRegex(ValueError, "^the number of a result is 0 to 18446744073709551615, not "):
                pigrozd.call_result_at(SAMPLE, words(), n, words())
        for n in (1.0, "1", None, True, [1]):
            with self.assertRaisesRegex(TypeError, "^the number of a result is a whole number, not "):
                pigrozd.call_result_at(SAMPLE, words(), n, words())
        for row in (-1, 2**32, 10**100):
            with self.assertRaisesRegex(ValueError, "^a row number is 0 to 4294967295, not "):
                pigrozd.call_number_of(SAMPLE, words(), [0, row])
        for row in (1.0, "1", None, True):
            with self.assertRaisesRegex(TypeError, "^a row number is a whole number, not "):
                pigrozd.call_number_of(SAMPLE, words(), [0, row])
        for copy in (-1, 2**32, 10**100):
            with self.assertRaisesRegex(ValueError, "^a copy number is 0 to 4294967295, not "):
                pigrozd.call_number_of(SAMPLE, words(), [0, 0], [0, copy])
        for copy in (1.0, "1", None, True):
            with self.assertRaisesRegex(TypeError, "^a copy number is a whole number, not "):
                pigrozd.call_number_of(SAMPLE, words(), [0, 0], [0, copy])

    def test_files_that_are_no_bytes(self):
        for given in (5, None, "crates/pigrozd/stdin", [84, 66]):
            with self.assertRaisesRegex(TypeError, "the bytes of a file are wanted, not a "):
                pigrozd.call_result_at(given, words(), 0, words())
            with self.assertRaisesRegex(TypeError, "the bytes of a file are wanted, not a "):
                pigrozd.call_number_of(given, words(), [])

    def test_header(self):
        """The numbers of each answer in the header's order."""
        header = load("include", "pigrozd.h").decode()
        structs = dict(re.findall(r"^typedef struct (\w+) \{\n(.*?)^\}", header, re.M | re.S))
        for name, struct, size in (
            ("pigrozd_result_answer", library.ResultAnswerStruct, 144),
            ("pigrozd_number_answer", library.NumberAnswerStruct, 24),
        ):
            self.assertEqual(ctypes.sizeof(struct), size)
            kinds = {"uint64_t": ctypes.c_uint64, "uint32_t": ctypes.c_uint32 * 16}
            fields = [(field, kinds[kind]) for kind, field in re.findall(r"^    (\w+) (\w+)", structs[name], re.M)]
            self.assertEqual(fields, struct._fields_)
        self.assertEqual(pigrozd.ResultAnswer._fields, ("number", "detail", "rows", "copies"))
        self.assertEqual(pigrozd.NumberAnswer._fields, ("number", "detail", "n"))

    def test_an_older_library(self):
        """One without the two functions."""
        older = types.SimpleNamespace(pigrozd_join=None, pigrozd_slow_join=None)
        library.function.cache_clear()
        self.addCleanup(library.function.cache_clear)
        with mock.patch.object(library, "library", lambda: older):
            with self.assertRaisesRegex(pigrozd.LibraryError, "an older library .* no function pigrozd_result_at "):
                pigrozd.open_tables(TABLES)
            with self.assertRaisesRegex(pigrozd.LibraryError, "an older library .* no function pigrozd_number_of "):
                pigrozd.call_number_of(SAMPLE, words(), [])

    def test_a_library_without_copies(self):
        """One with all functions, two of which take or give less: it says 2 to the mark of a table with copies."""
        asked = []

        def older_join(file, length, *_):
            asked.append((file, length))
            return types.SimpleNamespace(number=2)

        others = ("pigrozd_slow_join", "pigrozd_result_at", "pigrozd_number_of")
        older = types.SimpleNamespace(pigrozd_join=older_join, **{name: lambda: None for name in others})
        library.function.cache_clear()
        self.addCleanup(library.function.cache_clear)
        with mock.patch.object(library, "library", lambda: older):
            for call in (
                lambda: pigrozd.join(TABLES),
                lambda: pigrozd.join(TABLES, engine="slow"),
                lambda: pigrozd.open_tables(TABLES),
                lambda: pigrozd.call_number_of(SAMPLE, words(), []),
            ):
                told = r"an older library of Pigrozd's: it knows no tables with copies \(PIGROZD_LIBRARY names the lib"
                with self.assertRaisesRegex(pigrozd.LibraryError, told):
                    call()
        self.assertEqual(set(asked), {(b"TC", 2)})


# ---- opened tables
class Opened(unittest.TestCase):
    """Opened tables as a sequence of results."""

    def setUp(self):
        self.tables = pigrozd.open_tables(TABLES)
        self.many = pigrozd.open_tables([{t: range(rows)} for t, rows in enumerate((4095, 1024, 1024))], (0, (1, 2)))

    def test_sequence(self):
        self.assertEqual(len(self.tables), 4)
        self.assertEqual([self.tables[n] for n in range(4)], SAMPLE_VALUES)
        self.assertEqual([self.tables[n] for n in range(-4, 0)], SAMPLE_VALUES)
        self.assertEqual(list(self.tables), SAMPLE_VALUES)
        self.assertEqual(list(reversed(self.tables)), SAMPLE_VALUES[::-1])
        self.assertIsInstance(self.tables, collections.abc.Sequence)
        self.assertIn((11, 2, 9, 29530), self.tables)
        self.assertNotIn((11, 2, 9, 29531), self.tables)
        self.assertEqual(self.tables.index((11, 2, 9, 29530)), 2)
        self.assertEqual(self.tables.count((10, 1, 7, 29510)), 2)
        self.assertTrue(self.tables)
        self.assertFalse(pigrozd.open_tables([{0: []}]))
        self.assertIn(random.Random(3).choice(self.tables), SAMPLE_VALUES)

    def test_slices(self):
        ends = [None, *range(-6, 7)]
        for key in itertools.starmap(slice, itertools.product(ends, ends, (None, 1, 2, -1, -3))):
            part = self.tables[key]
            self.assertEqual((list(part), len(part)), (SAMPLE_VALUES[key], len(SAMPLE_VALUES[key])))
        part = self.tables[1:][::-1]
        self.assertEqual(list(part), SAMPLE_VALUES[:0:-1])
        self.assertEqual([part[0], part[-1], part.numbers], [SAMPLE_VALUES[3], SAMPLE_VALUES[1], range(3, 0, -1)])
        self.assertEqual([result.n for result in part.results()], [3, 2, 1])
        self.assertIsInstance(part, collections.abc.Sequence)
        for wrong in (3, -4):
            with self.assertRaises(IndexError):
                part[wrong]

    def test_many_results(self):
        """Nothing is read but what is asked for."""
        self.assertEqual(len(self.many), 4095 * 2**20)
        with mock.patch.object(access, "call_result_at", wraps=library.call_result_at) as asked:
            part = self.many[4000:]
            self.assertEqual(len(part), 4095 * 2**20 - 4000)
            self.assertEqual(part[0], (0, 3, 928))
            self.assertEqual(self.many[-1], (4094, 1023, 1023))
            self.assertEqual(list(itertools.islice(self.many, 3)), [(0, 0, 0), (0, 0, 1), (0, 0, 2)])
            self.assertEqual(list(itertools.islice(reversed(self.many), 1)), [(4094, 1023, 1023)])
            pages = self.many.pages()
            self.assertEqual([len(next(pages)) for _ in range(1000)], [40] * 1000)
            self.assertEqual(list(next(pages)), [(0, n >> 10, n & 1023) for n in range(40000, 40040)])
            self.assertEqual(asked.call_count, 1 + 1 + 3 + 1 + 40)
        self.assertEqual(bisect.bisect_left(self.many, (1000, 5, 77)), 1000 * 2**20 + 5 * 2**10 + 77)

    def test_pages(self):
        for size in (1, 2, 3, 4, 5, 40):
            pages = list(self.tables.pages(size))
            self.assertEqual([list(page) for page in pages], [SAMPLE_VALUES[n : n + size] for n in range(0, 4, size)])
            numbers = [result.n for page in pages for result in page.results()]
            self.assertEqual(numbers, [0, 1, 2, 3])
        self.assertEqual(list(pigrozd.open_tables([{0: []}]).pages()), [])
        self.assertEqual(next(self.tables.pages()).numbers, range(4))
        for size in (0, -1):
            with self.assertRaisesRegex(ValueError, "a page has at least 1 result, not "):
                self.tables.pages(size)
        for size in (1.5, None, "40", True):
            with self.assertRaisesRegex(TypeError, "the size of a page is a whole number, not "):
                self.tables.pages(size)

    def test_results(self):
        for n in range(4):
            result = self.tables.result(n)
            self.assertEqual(result, pigrozd.ResultRow(n, SAMPLE_VALUES[n], SAMPLE_ROWS[n], (0, 0, 0)))
            self.assertEqual(self.tables.number_of(result.rows), n)
            self.assertEqual(self.tables.number_of(result.rows, result.copies), n)
            self.assertEqual(pickle.loads(pickle.dumps(result)), result)
            with self.assertRaises(AttributeError):
                result.n = 5
        missing = pigrozd.open_tables([{"x": [1], "y": [None]}])
        self.assertEqual((missing[0], missing.result(0).rows), ((1, None), (0,)))

    def test_no_such_result(self):
        for function, n in (
            (self.tables.__getitem__, 4),
            (self.tables.__getitem__, -5),
            (self.tables.__getitem__, 10**100),
            (self.tables.__getitem__, -(10**100)),
            (self.tables.result, 4),
            (self.tables.result, HIGHEST),
            (self.tables.result, 2**64),
        ):
            with self.assertRaises(pigrozd.NoSuchResult) as caught:
                function(n)
            refused = caught.exception
            self.assertIsInstance(refused, IndexError)
            self.assertIsInstance(refused, pigrozd.Refused)
            self.assertEqual((refused.number, refused.detail), (16, 4))
            self.assertTrue(refused.why.startswith("there are 4 results, numbers 0 to 3, and no"))
            self.assertEqual(str(pickle.loads(pickle.dumps(refused))), str(refused))
        self.assertEqual(
            str(caught.exception),
            "refused 16 4: n is not below the number of results: there are 4 results, numbers 0 to 3, and no result "
            "18446744073709551616",
        )
        with self.assertRaisesRegex(pigrozd.NoSuchResult, "refused 16 0: .*: there are no results$"):
            pigrozd.open_tables([{0: []}])[0]
        with self.assertRaisesRegex(IndexError, "there is 1 result, number 0, and no result 1$"):
            pigrozd.open_tables([{0: [5]}])[1]

    def test_what_is_no_number(self):
        with self.assertRaisesRegex(ValueError, r"^results are numbered from 0 on, not -1; tables\[-1\] is the last"):
            self.tables.result(-1)
        for n in (1.0, "1", None, True):
            with self.assertRaisesRegex(TypeError, "the number of a result is a whole number"):
                self.tables.result(n)
        for key in (1.0, "1", None, (0, 1)):
            with self.assertRaises(TypeError):
                self.tables[key]

    def test_plans(self):
        self.assertEqual((self.tables.plan, self.tables.found, self.tables.mended), (FOUND_PLAN, True, False))
        given = pigrozd.open_tables(TABLES, "(frames (readings exposures))")
        self.assertEqual((given.plan, given.found, given.mended), (SAMPLE_PLAN, False, True))
        self.assertEqual(given.plan_bytes, SAMPLE[-5:])
        for plan in ("((frames exposures) readings)", "(readings (exposures frames))", None):
            self.assertEqual(list(pigrozd.open_tables(TABLES, plan)), list(pigrozd.join(TABLES, plan)))

    def test_names(self):
        self.assertEqual(self.tables.names, ("frame", "exposure", "reading", "centikelvin"))
        self.assertEqual(self.tables.table_names, ("frames", "exposures", "readings"))
        self.assertEqual((self.many.names, self.many.table_names), ((0, 1, 2), (0, 1, 2)))
        self.assertEqual(
            repr(self.tables),
            "<Tables: 3 tables, 4 results, names ('frame', 'exposure', 'reading', 'centikelvin')>",
        )
        self.assertEqual(repr(self.many[4000:4040]), "<ResultSlice: 40 of 4,293,918,720 results, range(4000, 4040)>")
        self.assertEqual(repr(pigrozd.open_tables([{0: [5]}])), "<Tables: 1 table, 1 result, names (0,)>")

    def test_threads(self):
        """Several threads on one object: each gets what it asks for."""
        wrong = []

        def ask(seed):
            draw = random.Random(seed)
            for _ in range(60):
                n = draw.randrange(len(self.many))
                result = self.many.result(n)
                if result.rows != (n >> 20, n >> 10 & 1023, n & 1023) or self.many.number_of(result.rows) != n:
                    wrong.append(n)

        threads = [threading.Thread(target=ask, args=(seed,)) for seed in range(4)]
        for thread in threads:
            thread.start()
        for thread in threads:
            thread.join()
        self.assertEqual(wrong, [])


class Huge(unittest.TestCase):
    """Opened tables with more results than len() can tell. They share no attribute: rows and values of result n are
    the digits of n to base 16."""

    results = 15 * 16**15

    def setUp(self):
        plan = deep(tuple(range(16)), False)
        self.huge = pigrozd.open_tables([{t: range(15 if t == 0 else 16)} for t in range(16)], plan)

    def digits(self, n):
        return tuple(int(digit, 16) for digit in "%016x" % n)

    def test_size(self):
        size = self.huge.size
        self.assertEqual((size.results, size.values, size.at_least), (self.results, 16, False))
        self.assertEqual(size.bytes, 64 * self.results)
        self.assertTrue(self.huge)
        told = r"^there are 17,293,822,569,102,704,640 results, and len\(\) goes up to 9,223,372,036,854,775,807; "
        for function in (len, list, random.choice):
            with self.assertRaisesRegex(OverflowError, told):
                function(self.huge)
        self.assertEqual(
            repr(self.huge),
            "<Tables: 16 tables, 17,293,822,569,102,704,640 results, names %r>" % (tuple(range(16)),),
        )

    def test_results(self):
        for n in (0, WORD - 1, WORD, 2**53 + 1, 2**63 - 1, 2**63, self.results - 1):
            self.assertEqual(self.huge[n], self.digits(n))
            self.assertEqual(self.huge[n - self.results], self.digits(n))
            result = self.huge.result(n)
            self.assertEqual((result.n, result.rows), (n, self.digits(n)))
            self.assertEqual(self.huge.number_of(result.rows), n)
        for n in (self.results, -self.results - 1, HIGHEST):
            with self.assertRaises(IndexError):
                self.huge[n]
        told = "there are 17,293,822,569,102,704,640 results, numbers 0 to 17293822569102704639, and no result %d$"
        with self.assertRaisesRegex(pigrozd.NoSuchResult, told % HIGHEST):
            self.huge.result(HIGHEST)

    def test_slices(self):
        end = self.huge[2**63 :]
        self.assertEqual((len(end), end[0], end[-1]), (7 * 16**15, self.digits(2**63), self.huge[-1]))
        most = self.huge[1:]
        self.assertEqual((most.size.results, most[2**63 - 1]), (self.results - 1, self.digits(2**63)))
        self.assertTrue(most)
        with self.assertRaisesRegex(OverflowError, "size.results has their number"):
            len(most)
        self.assertEqual(most[::-3].size.results, (self.results + 1) // 3)
        self.assertEqual(self.huge[self.results :].size.results, 0)
        self.assertFalse(self.huge[self.results :])
        self.assertEqual(
            repr(most[2**63 :]),
            "<ResultSlice: 8,070,450,532,247,928,831 of 17,293,822,569,102,704,640 results, "
            "range(9223372036854775809, 17293822569102704640)>",
        )

    def test_one_after_the_other(self):
        for given in (self.huge, self.huge[:]):
            self.assertEqual(list(itertools.islice(given, 3)), [self.digits(n) for n in range(3)])
            last = [self.digits(self.results - 1 - n) for n in range(3)]
            self.assertEqual(list(itertools.islice(reversed(given), 3)), last)
        pages = self.huge.pages(2**62)
        self.assertEqual([len(page) for page in pages], [2**62] * 3 + [self.results - 3 * 2**62])
        self.assertEqual(list(next(self.huge.pages())), [self.digits(n) for n in range(40)])


class WayBack(unittest.TestCase):
    """From rows to the number of a result; and why there is none, in the words of who gave the tables."""

    def setUp(self):
        self.tables = pigrozd.open_tables(TABLES)

    def refused(self, why, rows, tables=None, copies=None):
        with self.assertRaises(pigrozd.Refused) as caught:
            (self.tables if tables is None else tables).number_of(rows, copies)
        self.assertEqual((caught.exception.number, caught.exception.detail), (17, 0))
        self.assertEqual(caught.exception.why, why)
        self.assertEqual(caught.exception.meaning, "the row numbers and copies are those of no result: " + why)

    def test_sequences(self):
        for rows in ((1, 2, 2), [1, 2, 2], array.array("I", [1, 2, 2]), iter([1, 2, 2])):
            self.assertEqual(self.tables.number_of(rows), 2)
        for n, rows in enumerate(SAMPLE_ROWS):
            self.assertEqual(self.tables.number_of(rows), n)

    def test_mappings(self):
        for rows in (
            {"frames": 1, "exposures": 2, "readings": 2},
            {"readings": 2, "frames": 1, "exposures": 2},
            {0: 1, 1: 2, 2: 2},
            {2: 2, "exposures": 2, 0: 1},
            dict(zip(self.tables.table_names, (1, 2, 2))),
        ):
            self.assertEqual(self.tables.number_of(rows), 2)
        unnamed = pigrozd.open_tables(list(TABLES.values()))
        self.assertEqual(unnamed.number_of({0: 1, "table 1": 2, 2: 2}), 2)
        self.assertEqual(unnamed.number_of(dict(zip(unnamed.table_names, (1, 2, 2)))), 2)
        for rows, told in (
            ({"frames": 1, "panels": 2}, "there is no table 'panels'; there are frames, exposures and readings"),
            ({3: 0}, "there is no table 3; there are frames, exposures and readings"),
            ({-1: 0}, "there is no table -1; there are frames, exposures and readings"),
            ({"frames": 1, 0: 1}, "two row numbers are given for frames"),
        ):
            with self.assertRaisesRegex(pigrozd.InputError, "^%s$" % told):
                self.tables.number_of(rows)
        told = "one row number for each table is wanted, and none is given for frames and readings"
        self.refused(told, {"exposures": 0})

    def test_what_is_no_row_number(self):
        for rows in ((1, 2, 2.0), (1, "2", 2), (1, None, 2), (True, 2, 2), {0: 1, 1: 2, 2: "2"}):
            with self.assertRaisesRegex(TypeError, "^a row number is a whole number, not "):
                self.tables.number_of(rows)
        for rows in (5, None, "122", 1.5):
            with self.assertRaisesRegex(TypeError, "row numbers come in a list, or in a mapping of tables, not in a "):
                self.tables.number_of(rows)
        with self.assertRaisesRegex(TypeError, "a set has no order; give a list of row numbers"):
            self.tables.number_of({1, 2})
        with self.assertRaisesRegex(TypeError, "a table's name is a text, and its number is a whole number, not 1.5"):
            self.tables.number_of({1.5: 2})

    def test_not_one_for_each_table(self):
        told = "one row number for each table is wanted (frames, exposures and readings), and %s given"
        self.refused(told % "none is", [])
        self.refused(told % "1 is", [0])
        self.refused(told % "2 are", [0, 0])
        self.refused(told % "17 are", [0] * 17)
        one = pigrozd.open_tables({"frames": {"x": [5]}})
        self.refused("one row number for each table is wanted (frames), and 2 are given", [0, 0], one)

    def test_no_such_row(self):
        self.refused("exposures has no row 4: it has 4 rows, numbered from 0", [0, 4, 0])
        self.refused("frames has no row 4096: it has 4 rows, numbered from 0", [4096, 9, 9])
        self.refused("readings has no row -1: it has 3 rows, numbered from 0", [0, 0, -1])
        self.refused("readings has no row %d: it has 3 rows, numbered from 0" % 2**32, [0, 0, 2**32])
        self.refused("readings has no row with such a number: it has 3 rows, numbered from 0", [0, 0, 10**100])
        self.refused("table 0 has no row 0: it has no rows", [0], pigrozd.open_tables([{0: []}]))
        self.refused("a has no row 1: it has 1 row, numbered from 0", [1], pigrozd.open_tables({"a": {"x": [5]}}))

    def test_no_agreement(self):
        told = "frames and exposures do not agree: exposure is 1 in row 0 of frames and 2 in row 1 of exposures"
        self.refused(told, [0, 1, 2])
        told = "exposures and readings do not agree: reading is 9 in row 2 of exposures and 7 in row 0 of readings"
        self.refused(told, {"frames": 1, "exposures": 2, "readings": 0})
        missing = pigrozd.open_tables({"a": {"x": [1, None]}, "b": {"y": [2]}, "c": {"x": [None, 1], "y": [2, None]}})
        told = "a and c do not agree: x was not recorded in row %s, so that it matches nothing"
        self.refused(told % "0 of c", [0, 0, 0], missing)
        self.refused(told % "1 of a", [1, 0, 1], missing)
        self.refused(told % "1 of a and in row 0 of c", [1, 0, 0], missing)
        told = "b and c do not agree: y was not recorded in row 1 of c, so that it matches nothing"
        self.refused(told, [0, 0, 1], missing)

    def test_copies(self):
        """Beside the rows, given in the same ways; without them copy 0 of each row."""
        tables = pigrozd.open_file(COUNTED_SAMPLE)
        self.assertEqual(len(tables), 23)
        self.assertEqual(tables.result(14), pigrozd.ResultRow(14, SAMPLE_VALUES[2], (1, 2, 2), (2, 0, 3)))
        for n, result in enumerate(tables[:].results()):
            self.assertEqual(tables.number_of(result.rows, result.copies), n)
            self.assertEqual(pickle.loads(pickle.dumps(result)), result)
        for copies in ((2, 0, 3), [2, 0, 3], array.array("I", [2, 0, 3]), iter([2, 0, 3]), {0: 2, "table1": 0, 2: 3}):
            self.assertEqual(tables.number_of((1, 2, 2), copies), 14)
        self.assertEqual(tables.number_of({2: 2, 1: 2, 0: 1}, {2: 3, 0: 2, 1: 0}), 14)
        self.assertEqual(tables.number_of((1, 2, 2)), 3)
        self.assertEqual(tables.number_of((1, 2, 2), None), 3)

    def test_wrong_copies(self):
        tables, rows = pigrozd.open_file(COUNTED_SAMPLE), (1, 2, 2)
        told = "one copy number for each table is wanted (table0, table1 and table2), and %s given"
        for copies, given in (([], "none is"), ([0], "1 is"), ([0, 0], "2 are"), ([0] * 4, "4 are")):
            self.refused(told % given, rows, tables, copies)
        told = "one copy number for each table is wanted, and none is given for table1"
        self.refused(told, rows, tables, {0: 0, 2: 0})
        for copies, told in (
            ((3, 0, 0), "row 1 of table0 has no copy 3: it has 3 copies, numbered from 0"),
            ((0, 1, 0), "row 2 of table1 has no copy 1: it has 1 copy, numbered from 0"),
            ((0, 0, 4), "row 2 of table2 has no copy 4: it has 4 copies, numbered from 0"),
            ((0, 0, -1), "row 2 of table2 has no copy -1: it has 4 copies, numbered from 0"),
            ((0, 0, 2**32), "row 2 of table2 has no copy 4294967296: it has 4 copies, numbered from 0"),
            ((0, 0, 10**100), "row 2 of table2 has no copy with such a number: it has 4 copies, numbered from 0"),
        ):
            self.refused(told, rows, tables, copies)
        self.refused("row 1 of frames has no copy 1: it has 1 copy, numbered from 0", rows, None, (1, 0, 0))
        self.refused("table2 has no row 3: it has 3 rows, numbered from 0", (1, 2, 3), tables, (0, 0, 9))
        told = "table0 and table1 do not agree: a1 is 2 in row 1 of table0 and 1 in row 0 of table1"
        self.refused(told, (1, 0, 0), tables, (2, 0, 1))

    def test_what_is_no_copy_number(self):
        for copies in ((1, 2, 2.0), (1, "2", 2), (1, None, 2), (True, 2, 2), {0: 1, 1: 2, 2: "2"}):
            with self.assertRaisesRegex(TypeError, "^a copy number is a whole number, not "):
                self.tables.number_of((1, 2, 2), copies)
        for copies in (5, "122", 1.5):
            with self.assertRaisesRegex(TypeError, "copy numbers come in a list, or in a mapping of tables, not in "):
                self.tables.number_of((1, 2, 2), copies)
        with self.assertRaisesRegex(TypeError, "a set has no order; give a list of copy numbers"):
            self.tables.number_of((1, 2, 2), {1, 2})
        for copies, told in (
            ({"panels": 2}, "there is no table 'panels'; there are frames, exposures and readings"),
            ({"frames": 1, 0: 1}, "two copy numbers are given for frames"),
        ):
            with self.assertRaisesRegex(pigrozd.InputError, "^%s$" % told):
                self.tables.number_of((1, 2, 2), copies)

    def test_every_refusal_has_a_reason(self):
        """Where the library says 17 the package says why; and only there."""
        chance, numbers = random.Random(43), collections.Counter()
        for index in range(300):
            data = bytes(drawn_file(chance, index))
            read, called = fileformat.read(data), pigrozd.names.Names()
            if read.fault:
                continue
            for _ in range(12):
                rows = [chance.randrange(table.rows + 1) for table in read.tables]
                copies = [chance.randrange(3) for _ in range(len(rows) + chance.choice((-1, 0, 0, 0, 0, 0, 1)))]
                number = pigrozd.call_number_of(data, words(0) * 2000, rows, copies).number
                self.assertEqual(number == 17, access.why_no_result(rows, copies, read, called) != "")
                numbers[number] += 1
        self.assertGreater(numbers[17], 300)
        self.assertGreater(numbers[0], 100)


class Opening(Folder):
    def test_refused(self):
        """As a join refuses, in the same words."""
        ring = [{0: [1], 1: [1]}, {1: [1], 2: [1]}, {0: [1], 2: [1]}]
        for given in (
            (TABLES, "((frames readings) exposures)"),
            (TABLES, "frames"),
            (ring,),
            ([{}],),
            ([],),
            ([{0: [1]}] * 17,),
        ):
            told = []
            for function in (pigrozd.join, pigrozd.open_tables):
                with self.assertRaises(pigrozd.Refused) as caught:
                    function(*given)
                told.append(str(caught.exception))
            self.assertEqual(*told)
        for data in damaged(200):
            told = []
            for function in (pigrozd.join_file, pigrozd.open_file):
                try:
                    told.append([len(function(data)), function(data).plan_bytes])
                except pigrozd.Refused as refused:
                    told.append(str(refused))
                    if function is pigrozd.join_file and refused.number == 11 and refused.detail < HOLD:
                        told[0] = [refused.detail, pigrozd.open_file(data).plan_bytes]  # too many to write out alone
            self.assertEqual(*told)

    def test_too_many_results(self):
        with self.assertRaises(pigrozd.Refused) as caught:
            pigrozd.open_tables({name: {"x": [7] * 2048} for name in "abcdef"})
        told = "there are 18,446,744,073,709,551,615 results or more, and results cannot be numbered then"
        refused = caught.exception
        self.assertEqual((refused.number, refused.detail, refused.why), (11, HOLD, told))
        self.assertEqual((refused.size, refused.size.at_least), (pigrozd.Size(HOLD, 1), True))
        with self.assertRaisesRegex(pigrozd.Refused, told + "; the join of f with e, d, c, b and a is on no "):
            pigrozd.open_tables({name: {name: range(4096)} for name in "abcdef"})
        self.assertEqual(pigrozd.open_tables(grouped(*ONE_LESS)).size, pigrozd.Size(HOLD - 1, 1))

    def test_what_is_no_table(self):
        with self.assertRaisesRegex(TypeError, "tables come in a list"):
            pigrozd.open_tables(5)
        with self.assertRaisesRegex(TypeError, "a table is a mapping of columns, .*, not a Tables"):
            pigrozd.join([pigrozd.open_tables(TABLES)])
        for given in (5, None, 1.5, [84, 66], {}):
            with self.assertRaisesRegex(TypeError, "the bytes of a file are wanted, not a "):
                pigrozd.open_file(given)

    def test_files(self):
        for same in (SAMPLE, bytearray(SAMPLE), memoryview(SAMPLE)):
            opened = pigrozd.open_file(same)
            self.assertEqual(list(opened), SAMPLE_VALUES)
            self.assertEqual((opened.names, opened.table_names), ((0, 1, 2, 3), (0, 1, 2)))
        self.assertEqual(opened.number_of({"table0": 1, 1: 2, 2: 2}), 2)
        place = self.write("sample", SAMPLE)
        for same in (place, pathlib.Path(place)):
            self.assertEqual(pigrozd.open_file(same).plan, "(0 (1 2))")
        with self.assertRaises(FileNotFoundError):
            pigrozd.open_file(self.at("none"))

    def test_names_beside_the_path(self):
        self.command("pack", self.at("out"), *CSVS)
        opened = pigrozd.open_file(self.at("out"))
        self.assertEqual((opened.names, opened.table_names), (pigrozd.open_tables(TABLES).names, tuple(TABLES)))
        self.assertEqual((opened.plan, opened.found, list(opened)), (FOUND_PLAN, True, SAMPLE_VALUES))
        self.write("out", self.read("out")[:-3] + b"PL\5\xff\0\xff\1\2")
        with warnings.catch_warnings(record=True) as caught:
            warnings.simplefilter("always")
            self.assertEqual(pigrozd.open_file(self.at("out")).names, (0, 1, 2, 3))
        self.assertIn("belongs to another file", str(caught[0].message))
        self.assertEqual(caught[0].filename, __file__)

    def test_scratch_is_found_once(self):
        with mock.patch.object(access, "call_result_at", wraps=library.call_result_at) as asked:
            opened = pigrozd.open_file(SAMPLE)
            self.assertEqual([len(call.args[1]) for call in asked.call_args_list], [0, NEED])
            self.assertEqual((len(opened), opened[0], opened[-1]), (4, SAMPLE_VALUES[0], SAMPLE_VALUES[3]))
            self.assertEqual([len(call.args[1]) for call in asked.call_args_list[2:]], [NEED, NEED])


class Commands(Folder):
    """What other commands say of the numbers."""

    def test_dump(self):
        here = self.write("sample", SAMPLE)
        for answer, told in (
            ("16 4", "n is not below the number of results"),
            ("17 0", "the row numbers and copies are those of no result"),
            ("17 1", "the row numbers and copies are those of no result; but the detail of 17 is 0"),
            ("18 4", "the row buffer is shorter than the values of a row"),
            ("18 5", "the row buffer is shorter than the values of a row; but a result of this file has 4 values"),
        ):
            out, _ = self.command("dump", here, "--answer", *answer.split())
            self.assertIn("answer %s: %s" % (answer, told), out.splitlines())

    def test_rows(self):
        """The program never prints them."""
        for printed in (b"refused 16 4\n", b"refused 17 0\n", b"refused 18 4\n"):
            told = "standard input: refused 1[678] .*; it is an answer of calls for one result, and this program never"
            self.fails(told, "rows", self.write("sample", SAMPLE), stdin=printed, status=1)


if __name__ == "__main__":
    unittest.main()
