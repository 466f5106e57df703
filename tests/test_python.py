"""Tests of the Python interface: tables, values, plans, results, refusals."""
import array
import collections
import copy
import ctypes
import dataclasses
import datetime
import decimal
import doctest
import os
import pathlib
import pickle
import re
import subprocess
import sys
import unittest
import warnings

from support import (
    FOUND_PLAN,
    NO_PLAN,
    SAMPLE,
    SAMPLE_PLAN,
    TOP,
    Folder,
    load,
    needs_numpy,
    needs_pandas,
    numpy,
    pandas,
    path,
)

import pigrozd
from pigrozd import limits, names

FRAMES = {0: [10, 11, 12, 13], 1: [1, 2, 2, 4]}
EXPOSURES = {1: [1, 2, 2, 3], 2: [7, 8, 9, 7]}
READINGS = {2: [7, 7, 9], 3: [29510, 29510, 29530]}
TABLES = [FRAMES, EXPOSURES, READINGS]
PLAN = (0, (1, 2))
ROWS = [(10, 1, 7, 29510), (10, 1, 7, 29510), (11, 2, 9, 29530), (12, 2, 9, 29530)]
ATTRIBUTES = ("frame", "exposure", "reading", "centikelvin")
NAMED = {
    name: {ATTRIBUTES[a]: column for a, column in table.items()}
    for name, table in zip(("frames", "exposures", "readings"), TABLES)
}


def words(*values):
    return array.array("I", values)


class Joins(unittest.TestCase):
    def test_by_number(self):
        result = pigrozd.join(TABLES, PLAN)
        self.assertEqual(list(result), ROWS)
        self.assertEqual((len(result), result.rows, result.names), (4, 4, (0, 1, 2, 3)))
        self.assertEqual(result.columns, {a: words(*column) for a, column in enumerate(zip(*ROWS))})
        self.assertEqual((result.entries, result.lookups, result.comparisons, result.visits), (6, 8, 19, 10))
        self.assertEqual(result.counts, (6, 8, 19, 10))

    def test_by_name(self):
        result = pigrozd.join(NAMED, SAMPLE_PLAN)
        self.assertEqual((list(result), result.names), (ROWS, ATTRIBUTES))
        self.assertEqual(result.columns["centikelvin"], words(29510, 29510, 29530, 29530))
        self.assertEqual(pigrozd.make_file(NAMED, SAMPLE_PLAN), SAMPLE)
        self.assertEqual(list(pigrozd.join(list(NAMED.values()), PLAN)), ROWS)

    def test_plans(self):
        for plan in (
            PLAN,
            [0, [1, 2]],
            b"\xff\0\xff\1\2",
            bytearray(b"\xff\0\xff\1\2"),
            ((1, 0), 2),
            "(0 (1 2))",
            "((1 0) 2)",
        ):
            with self.subTest(plan=plan):
                self.assertEqual(sorted(pigrozd.join(TABLES, plan)), ROWS)
        for plan in (("frames", ("exposures", "readings")), ["frames", (1, "readings")], '("frames" (exposures 2))'):
            with self.subTest(plan=plan):
                self.assertEqual(list(pigrozd.join(NAMED, plan)), ROWS)

    def test_mended_plans(self):
        """A plan that is not well-behaved is mended, and the result names the plan that was followed."""
        for plan in ("(frames (readings exposures))", "((frames exposures) readings)", ("frames", (2, "exposures"))):
            with self.subTest(plan=plan):
                result = pigrozd.join(NAMED, plan)
                self.assertEqual((list(result), result.counts), (ROWS, (6, 8, 19, 10)))
                self.assertEqual((result.plan, result.plan_bytes), (SAMPLE_PLAN, b"\xff\0\xff\1\2"))
                self.assertTrue(result.mended)
                self.assertEqual(pigrozd.join(NAMED, result.plan), dataclasses.replace(result, mended=False))
        longer = dict(NAMED, readings={"reading": [7, 7, 9, 5, 5], "centikelvin": [29510, 29510, 29530, 0, 0]})
        result = pigrozd.join(longer, "(frames (readings exposures))")
        self.assertEqual(result.plan, "(readings (exposures frames))")
        self.assertEqual(list(result), [ROWS[0], ROWS[0], ROWS[2], ROWS[3]])

    def test_without_a_plan(self):
        """The library finds one, and the result names it. A plan of no bytes is none."""
        for plan in ([], [None], [b""], [bytearray()]):
            result = pigrozd.join(NAMED, *plan)
            self.assertEqual((list(result), result.counts), (ROWS, (7, 7, 19, 10)))
            self.assertEqual((result.plan, result.plan_bytes), (FOUND_PLAN, b"\xff\2\xff\1\0"))
            self.assertEqual((result.found, result.mended), (True, False))
            self.assertEqual(pigrozd.make_file(NAMED, *plan), SAMPLE[:118] + NO_PLAN)
        self.assertEqual(pigrozd.join(NAMED, result.plan), dataclasses.replace(result, found=False))
        self.assertEqual(list(pigrozd.join(TABLES)), ROWS)

    def test_one_table(self):
        self.assertEqual(list(pigrozd.join([{31: [5, 5, 0]}])), [(5,), (5,), (0,)])
        self.assertEqual(list(pigrozd.join({"a table": {"x": [5]}}, "a table")), [(5,)])
        self.assertEqual(pigrozd.join([{31: [5, 5, 0]}], 0).visits, 3)
        self.assertEqual(pigrozd.join([{31: [5, 5, 0]}]).visits, 3)

    def test_no_rows(self):
        result = pigrozd.join([{3: [], 4: []}], 0)
        self.assertEqual((list(result), result.rows), ([], 0))
        self.assertEqual(result.columns, {3: words(), 4: words()})

    def test_no_partner_no_row(self):
        result = pigrozd.join([{0: [1, 2, 3], 1: [7, 8, 7]}, {1: [7], 2: [20]}], (0, 1))
        self.assertEqual(list(result), [(1, 7, 20), (3, 7, 20)])

    def test_order_of_attributes(self):
        self.assertEqual(list(pigrozd.join([{9: [1, 2], 0: [3, 4], 5: [5, 6]}], 0)), [(3, 5, 1), (4, 6, 2)])
        self.assertEqual(list(pigrozd.join([{"z": [1, 2], "a": [3, 4]}], 0)), [(1, 3), (2, 4)])

    def test_result_as_table(self):
        first = pigrozd.join(TABLES[:2], (0, 1))
        self.assertEqual(list(pigrozd.join([first, READINGS], (0, 1))), ROWS)
        self.assertEqual(list(pigrozd.join([first.columns, READINGS], (0, 1))), ROWS)

    def test_full_size(self):
        """16 tables of 4,096 rows, each row with one partner in the next table: the result is known."""
        tables = [{t: range(t, 4096 + t), t + 1: range(t + 1, 4097 + t)} for t in range(16)]
        plan = 15
        for t in reversed(range(15)):
            plan = (t, plan)
        result = pigrozd.join(tables, plan)
        self.assertEqual(result.names, tuple(range(17)))
        for attribute, column in result.columns.items():
            self.assertEqual(column, words(*range(attribute, 4096 + attribute)))


class Values(unittest.TestCase):
    VALUES = [7, 0, 4294967294, 7]

    def check(self, column, values=None):
        values = self.VALUES if values is None else values
        result = pigrozd.join([{0: column}], 0)
        self.assertEqual(result.columns[0], words(*values))

    def refused(self, kind, pattern, column):
        for table, where in (
            ({5: column}, "table 0, attribute 5"),
            ({"north": {"kelvin": column}}, "table north, column kelvin"),
        ):
            tables = [table] if 5 in table else table
            with self.subTest(column=column), self.assertRaisesRegex(kind, re.escape(where) + pattern):
                pigrozd.join(tables, 0)

    def test_sequences(self):
        self.check(self.VALUES)
        self.check(tuple(self.VALUES))
        self.check(collections.deque(self.VALUES))
        self.check(range(5), range(5))
        self.check([7.0, 0.0, 4294967294.0], [7, 0, 4294967294])
        self.check({1: 7, 2: 8}.values(), [7, 8])

    def test_buffers(self):
        self.check(words(*self.VALUES))
        self.check(memoryview(words(*self.VALUES)))
        self.check(memoryview(words(*self.VALUES)).cast("B").cast("I"))
        self.check((ctypes.c_uint32 * 4)(*self.VALUES))
        self.check(array.array("Q", self.VALUES))
        self.check(array.array("q", self.VALUES))
        self.check(array.array("i", [0, 2147483647]), [0, 2147483647])
        self.check(array.array("H", [0, 65535]), [0, 65535])
        self.check(array.array("d", self.VALUES))
        self.check((ctypes.c_uint32.__ctype_be__ * 4)(*self.VALUES))

    def test_every_other_word(self):
        self.check(memoryview(words(7, 1, 0, 1, 4294967294, 1, 7, 1))[::2])
        self.check(memoryview(words(*self.VALUES))[::-1], self.VALUES[::-1])

    def test_wrong_numbers(self):
        for value in (-1, 4294967296, 2**80, -2.0, 4294967296.0, 2**40000):
            self.refused(ValueError, r", row 1: .* is not in 0 to 4,294,967,294", [1, value])
        for column in (array.array("i", [1, -1]), array.array("Q", [1, 2**32])):
            self.refused(ValueError, r", row 1: .* is not in 0 to 4,294,967,294", column)
        for value in (1.5, float("inf"), -float("inf")):
            self.refused(ValueError, r", row 2: .* is not a whole number", [1, 2, value])

    def test_what_is_no_number(self):
        decimals = map(decimal.Decimal, ("1", "NaN", "sNaN"))
        for value in ("1", b"1", [1], [None], *decimals, 1j, object(), datetime.date(2026, 1, 1)):
            self.refused(TypeError, r", row 1: .* is not a whole number", [1, value])
        for value in (True, False):
            self.refused(TypeError, r", row 1: .* is a truth value, not a number", [1, value])

    def test_what_has_no_order(self):
        for column in ({1, 2}, frozenset((1, 2)), {1: 2}.keys(), {1: 2}.items()):
            self.refused(TypeError, ": a .* has no order; give a list", column)

    def test_what_can_be_read_once(self):
        for column in (iter([1]), (value for value in [1]), map(int, "12"), zip([1])):
            self.refused(TypeError, ": a .* can be read once only; give a list", column)

    def test_what_is_no_column(self):
        for column in ("12", b"\1\0\0\0", bytearray(4)):
            self.refused(TypeError, ": a (str|bytes|bytearray) is no column of numbers", column)
        self.refused(TypeError, ": a dict is no column; give a list of its values", {1: 2})
        for column in (7, None, 1.5):
            self.refused(TypeError, ": a column is a sequence of whole numbers, not a ", column)
        self.refused(TypeError, ": a column holds whole numbers, not items of the format 'f'", array.array("f", [1]))
        self.refused(ValueError, ": a column has one dimension, not 2", memoryview(bytes(8)).cast("I", (1, 2)))

    def test_one_column_in_two_tables(self):
        column = [1, 2, 3]
        self.assertEqual(len(pigrozd.join([{0: column}, {0: column}], (0, 1))), 3)


class Two:
    """Stands for 2, but is not equal to it."""

    def __index__(self):
        return 2


class Tables(unittest.TestCase):
    def refused(self, kind, pattern, tables, plan=(0, 1)):
        with self.assertRaisesRegex(kind, pattern):
            pigrozd.join(tables, plan)

    def test_attributes(self):
        self.refused(ValueError, "table 1: attribute numbers are 0 to 31, not 32", [FRAMES, {32: [1]}])
        self.refused(ValueError, "table 1: attribute numbers are 0 to 31, not -1", [FRAMES, {-1: [1]}])
        self.refused(
            ValueError,
            "table 0: columns of different length: attribute 0 has 1, attribute 1 has 2",
            [{0: [1], 1: [1, 2]}],
            0,
        )
        self.refused(
            ValueError,
            "table b: columns of different length: x has 1, y has 0",
            {"a": {"z": []}, "b": {"x": [1], "y": []}},
        )
        self.refused(
            TypeError, "table 0: an attribute is a name or a number from 0 to 31, not True", [{True: [1]}], 0
        )
        self.refused(TypeError, "table 0: an attribute is a name .* not None", [{None: [1]}], 0)
        self.refused(TypeError, "table 0: an attribute is a name .* not <.*Two", [{0: [1], Two(): [1]}], 0)
        self.refused(TypeError, "table 0: an attribute is a name .*, not \\('a', 1\\)", [{("a", 1): [1]}], 0)
        self.refused(ValueError, "table 0: an attribute without a name", [{"": [1]}], 0)
        self.refused(
            ValueError, "have 33 attributes together, and at most 32", [{"a%d" % i: [1]} for i in range(33)], 0
        )

    def test_names_and_numbers_mixed(self):
        for tables in ([{"a": [1]}, {0: [1]}], [{"a": [1], 0: [1]}]):
            self.refused(
                ValueError, "attributes have names or numbers, not both: table 0 has 'a' and table [01] has 0", tables
            )

    def test_what_is_no_table(self):
        self.refused(TypeError, "table 1: a table is a mapping of columns, .* not a list", [FRAMES, [1, 2]])
        self.refused(TypeError, "table x: a table is a mapping of columns, .* not a list", {"x": [1, 2]}, 0)
        self.refused(TypeError, "tables are named by texts, not by 0", {0: FRAMES}, 0)
        for tables in ("frames", iter(TABLES), 5, None):
            self.refused(TypeError, "tables come in a list, or in a mapping of their names, not in a", tables)


class Plans(unittest.TestCase):
    def test_wrong_plans(self):
        for pattern, plan in {
            "not 1 of them": (0,),
            "not 3 of them": (0, 1, 2),
            "not 0 of them": (),
            "not 1 of them ?": [[0, 1], [2]],
            "the plan has 16": 16,
            "the plan has -1": -1,
            "the plan has 300": (0, (1, 300)),
            "at most 255 bytes": bytes(256),
            "no table is called frame; there are table 0, table 1 and table 2": "(frame 1)",
            "names a table 'x'; there are table 0, table 1 and table 2": (0, (1, "x")),
            "at character 4: a join has two sides": "(0 )",
            "at character 1: the plan is empty; leave it out, and one is found": "",
        }.items():
            with self.subTest(plan=plan), self.assertRaisesRegex(ValueError, pattern.rstrip(" ?")):
                pigrozd.join(TABLES, plan)
        for plan in (1.0, {0: 1}, (0, None), (0, True), {0, 1}):
            with self.subTest(plan=plan), self.assertRaisesRegex(
                TypeError, "a plan is a table's name or number, or a pair"
            ):
                pigrozd.join(TABLES, plan)

    def test_endless_plan(self):
        endless = [0, 1]
        endless[1] = endless
        with self.assertRaisesRegex(ValueError, "at most 255 bytes"):
            pigrozd.join(TABLES, endless)


class Refusals(unittest.TestCase):
    def refused(self, number, detail, table, pattern, function, *arguments):
        with self.assertRaises(pigrozd.Refused) as caught:
            function(*arguments)
        refused = caught.exception
        self.assertEqual((refused.number, refused.detail, refused.table), (number, detail, table))
        self.assertTrue(refused.meaning.startswith(pigrozd.MEANINGS[number].means))
        self.assertRegex(refused.meaning, pattern)
        self.assertEqual(str(refused), "refused %d %d: %s" % (number, detail, refused.meaning))
        self.assertEqual(str(pickle.loads(pickle.dumps(refused))), str(refused))

    def test_numbered_tables(self):
        self.refused(3, 42, 1, "table 1 has 0 attributes", pigrozd.join, [FRAMES, {}], (0, 1))
        self.refused(3, 0, 0, "table 0 has 9 attributes", pigrozd.join, [{a: [] for a in range(9)}], 0)
        self.refused(4, 42, 1, "table 1 has 4,097 rows", pigrozd.join, [FRAMES, {0: range(4097)}], (0, 1))
        self.refused(5, 224, 16, "at most 16 tables", pigrozd.join, [{0: [1]}] * 17, 0)
        self.refused(7, 2, None, "the plan ends early", pigrozd.join, TABLES, b"\xff\0")
        self.refused(7, 0, None, "no bytes, and there is no table for which one can be found", pigrozd.join, [])
        self.refused(7, 0, None, "no bytes, and there is no table for which one can be found", pigrozd.join, {}, b"")
        self.refused(
            14,
            0,
            None,
            "table 0, table 1 and table 2 remain, and what each of them shares is not all in one of the others: table "
            "0 shares attribute 0 and attribute 1; table 1 shares attribute 1 and attribute 2; table 2 shares "
            "attribute 0 and attribute 2; join two of them that share attributes first and make the result a table of "
            "a second file, or leave one out$",
            pigrozd.join,
            [{0: [1], 1: [1]}, {1: [1], 2: [1]}, {0: [1], 2: [1]}],
        )
        self.refused(8, 1, None, "leaves out table 1 and table 2", pigrozd.join, TABLES, 0)
        self.refused(8, 3, None, "names table 0 a second time", pigrozd.join, TABLES, (0, (0, 1)))
        self.refused(8, 0, None, "there are none", pigrozd.join, [], 0)
        self.refused(
            9,
            0,
            None,
            "the join of table 0 and table 2 with table 1, byte 0 of the plan, is on attribute 1 and attribute 2, but "
            "no table on the left has them all; name tables that share attributes next to each other$",
            pigrozd.join,
            TABLES,
            ((0, 2), 1),
        )

    def test_named_tables(self):
        self.refused(
            9,
            2,
            None,
            "the join of exposures with readings and frames, byte 2 of the plan, is on exposure and reading, but no "
            "table on the right has them all; name ",
            pigrozd.join,
            dict(NAMED, centres={"centikelvin": [29510]}),
            "(centres (exposures (readings frames)))",
        )
        self.refused(8, 3, None, "leaves out readings", pigrozd.join, NAMED, ("frames", "exposures"))
        ring = dict(NAMED, exposures={"exposure": [1], "reading": [7]}, panels={"frame": [10], "reading": [7]})
        self.refused(14, 0, None, ": frames, exposures and panels remain, and ", pigrozd.join, ring)
        self.refused(4, 0, 0, "long has 5,000 rows", pigrozd.join, {"long": {"x": range(5000)}})

    def test_file(self):
        self.refused(1, 0, None, "ends before a plan", pigrozd.join_file, b"")
        self.refused(1, 118, None, "says 5 bytes, 4 are there", pigrozd.join_file, SAMPLE[:-1])
        self.refused(2, 0, None, "at offset 0 stands 6e 6f", pigrozd.join_file, b"no such file")
        self.refused(6, 126, None, "1 byte behind it", pigrozd.join_file, SAMPLE + b"\n")
        self.refused(6, 121, None, "1 byte behind it", pigrozd.join_file, SAMPLE[:118] + NO_PLAN + b"\n")
        self.refused(7, 0, None, "no bytes, and there is no table", pigrozd.join_file, NO_PLAN)

    def test_longest_output(self):
        def pairs(m, n):
            return {"left": {"a": range(m)}, "right": {"b": range(n)}}

        result = pigrozd.join(pairs(512, 1024), (0, 1))
        self.assertEqual(result.rows * 2, limits.MOST_OUTPUT)
        self.assertEqual(result.columns["a"], words(*(i for i in range(512) for _ in range(1024))))
        self.assertEqual(result.columns["b"], words(*range(1024)) * 512)
        self.refused(
            11,
            513 * 1024,
            None,
            r"there are 525,312 results of 2 values, which take 4,202,496 bytes, and the longest output \(1,048,576 "
            r"words\) fits 524,288; the join of left with right is on no attribute, so that every pair matches",
            pigrozd.join,
            pairs(513, 1024),
            "(left right)",
        )
        self.refused(
            11,
            4096 * 4096,
            None,
            r"fits 349,525$",
            pigrozd.join,
            [{0: [1] * 4096, 1: [1] * 4096}, {0: [1] * 4096, 2: [1] * 4096}],
            (0, 1),
        )
        mended = {"big": {"u": range(1024)}, "a": {"x": [1]}, "b": {"x": [1], "y": [1]}, "c": {"y": [1] * 1024}}
        self.refused(
            11,
            1024 * 1024,
            None,
            "fits 349,525; the join of big with a, b and c is on no attribute, so that every pair matches$",
            pigrozd.join,
            mended,
            "((big (a b)) c)",
        )
        self.refused(
            11,
            4096**3,
            None,
            "there are 68,719,476,736 results of 3 values, which take 824,633,720,832 bytes, and ",
            pigrozd.join,
            [{a: range(4096)} for a in range(3)],
            (0, (1, 2)),
        )

    def test_meanings(self):
        """The table of answers has the words of docs/answers."""
        rows = re.findall(
            r"^\| \[(\d+)\]\(\d+\.md\) \| (.*?) \| (.*?) \|", load("docs", "answers", "README.md").decode(), re.M
        )
        told = {number: (meaning.means, meaning.detail) for number, meaning in pigrozd.MEANINGS.items()}
        self.assertEqual(told, {int(number): (means, detail) for number, means, detail in rows})
        for number in pigrozd.MEANINGS:
            self.assertTrue(os.path.exists(path("docs", "answers", "%02d.md" % number)))


class PlanOfAResult(Folder):
    """The text of the plan that was followed is one that a join of the same tables takes."""

    def test_as_given(self):
        result = pigrozd.join(NAMED, SAMPLE_PLAN)
        self.assertEqual((result.plan, result.plan_bytes, result.mended), (SAMPLE_PLAN, SAMPLE[-5:], False))
        self.assertFalse(result.found)
        self.assertEqual(pigrozd.join([{"x": [5]}]).plan, "0")
        self.assertEqual(pigrozd.join({"a": {"x": [5]}}).plan, "a")

    def test_tables_without_names(self):
        self.assertEqual(pigrozd.join(TABLES, ((1, 0), 2)).plan, "((1 0) 2)")
        self.assertEqual(pigrozd.join(TABLES, (0, (2, 1))).plan, "(0 (1 2))")
        self.assertEqual(pigrozd.join_file(SAMPLE).plan, "(0 (1 2))")

    def test_file_with_names(self):
        place = self.write("sample", SAMPLE[:-5] + b"\xff\0\xff\2\1")
        self.write("sample.names", "0 frame\n1 exposure\n2 reading\n3 kelvin\ntable 0 frames\ntable 2 all of it\n")
        result = pigrozd.join_file(place)
        self.assertEqual((result.plan, result.mended, result.found), ('(frames (1 "all of it"))', True, False))
        self.write("sample", SAMPLE[:118] + NO_PLAN)
        result = pigrozd.join_file(place)
        self.assertEqual((result.plan, result.mended, result.found), ('("all of it" (1 frames))', False, True))

    def test_names_of_any_kind(self):
        columns = [{"x": [1], "y": [2]}, {"y": [2], "z": [3]}, {"z": [3]}]
        for called in (("a b", "(c)", " d"), ("2", "0", "1"), ('a"', "b", '"'), ("a\nb", "süd", "x")):
            with self.subTest(called=called):
                tables = dict(zip(called, columns))
                result = pigrozd.join(tables, (0, (2, 1)))
                self.assertTrue(result.mended)
                self.assertEqual(pigrozd.join(tables, result.plan).plan_bytes, result.plan_bytes)


class Results(unittest.TestCase):
    def test_plain_values(self):
        result = pigrozd.join(TABLES, PLAN)
        self.assertEqual(copy.deepcopy(result), result)
        self.assertEqual(pickle.loads(pickle.dumps(result)), result)

    def test_short_repr(self):
        self.assertEqual(
            repr(pigrozd.join(NAMED, SAMPLE_PLAN)),
            "<Result: 4 rows, names ('frame', 'exposure', 'reading', "
            "'centikelvin'), Counts(entries=6, lookups=8, comparisons=19, visits=10)>",
        )
        self.assertIn("<Result: 1 row, names", repr(pigrozd.join([{"x": [5]}])))
        wide = pigrozd.join([{"x%d" % i * 50: range(700) for i in range(8)}, {"y": range(9)}], (0, 1))
        self.assertLess(len(repr(wide)), 400)


class Files(Folder):
    def test_bytes(self):
        for same in (SAMPLE, bytearray(SAMPLE), memoryview(SAMPLE)):
            self.assertEqual(list(pigrozd.join_file(same)), ROWS)

    def test_paths(self):
        place = self.write("sample", SAMPLE)
        for same in (place, pathlib.Path(place)):
            result = pigrozd.join_file(same)
            self.assertEqual((list(result), result.names), (ROWS, (0, 1, 2, 3)))
        with self.assertRaises(FileNotFoundError):
            pigrozd.join_file(self.at("none"))

    def test_names_beside_the_path(self):
        place = self.write("sample", SAMPLE)
        known = "0 frame\n1 exposure\n2 reading\n3 centikelvin\n"
        for text in (known, "sha256 %s\n%s" % (names.digest(SAMPLE), known)):
            self.write("sample.names", text)
            self.assertEqual(pigrozd.join_file(place).names, ATTRIBUTES)
        self.write("sample.names", "sha256 %s\n%s" % ("0" * 64, known))
        with warnings.catch_warnings(record=True) as caught:
            warnings.simplefilter("always")
            self.assertEqual(pigrozd.join_file(place).names, (0, 1, 2, 3))
        self.assertIn("belongs to another file", str(caught[0].message))
        self.assertEqual(caught[0].filename, __file__)

    def test_what_is_no_file(self):
        for file in (5, None, 1.5, [84, 66], {}):
            with self.subTest(file=file), self.assertRaisesRegex(TypeError, "the bytes of a file are wanted, not a "):
                pigrozd.join_file(file)


@needs_numpy
class NumPy(unittest.TestCase):
    VALUES = [7, 0, 4294967294, 7]

    def check(self, column, values):
        self.assertEqual(list(pigrozd.join([{0: column}], 0).columns[0]), values)

    def refused(self, kind, pattern, column):
        with self.subTest(column=repr(column)), self.assertRaisesRegex(kind, "table 0, attribute 0" + pattern):
            pigrozd.join([{0: column}], 0)

    def test_columns(self):
        for kind in ("uint32", "<u4", ">u4", "int64", "uint64", "float64", ">f8", "object"):
            with self.subTest(kind=kind):
                self.check(numpy.array(self.VALUES, dtype=kind), self.VALUES)
        self.check(numpy.array([1, 2], dtype="uint8"), [1, 2])
        self.check(numpy.array([[7, 1], [8, 2]], dtype="uint32")[:, 1], [1, 2])
        self.check(list(numpy.array([7, 8])), [7, 8])
        self.check(numpy.array([], dtype="uint32"), [])

    def test_refused_columns(self):
        self.refused(ValueError, ", row 0: -1 is not in", numpy.array([-1]))
        self.refused(ValueError, ", row 1: 2.5 is not a whole number", numpy.array([2, 2.5]))
        for kind in ("float16", "float32"):
            self.refused(TypeError, ": %s does not hold every number" % kind, numpy.zeros(1, dtype=kind))
        self.refused(TypeError, ": a column holds whole numbers, not truth values", numpy.zeros(1, dtype="bool"))
        self.refused(TypeError, ": a column holds whole numbers, not dates", numpy.zeros(1, dtype="datetime64[s]"))
        for kind in ("timedelta64[s]", "S4", "U4", "V4", "complex128", "longdouble"):
            self.refused(TypeError, ": a column holds whole numbers, not ", numpy.zeros(1, dtype=kind))
        with warnings.catch_warnings():
            warnings.simplefilter("error")
            self.refused(TypeError, ", row 1: True is a truth value, not a number", [1, numpy.bool_(True)])
        self.refused(ValueError, ": a column has one dimension, not 2", numpy.zeros((2, 2), dtype="uint32"))
        self.refused(ValueError, ": a column has one dimension, not 0", numpy.array(5))

    def test_structured_arrays(self):
        frames = numpy.array(list(zip(*FRAMES.values())), dtype=[("frame", "u4"), ("exposure", "i8")])
        tables = dict(NAMED, frames=frames)
        result = pigrozd.join(tables, SAMPLE_PLAN)
        self.assertEqual((list(result), result.names), (ROWS, ATTRIBUTES))
        self.assertEqual(list(pigrozd.join(dict(tables, frames=frames.view(numpy.recarray)), SAMPLE_PLAN)), ROWS)
        with self.assertRaisesRegex(ValueError, "table frames: a structured array has one dimension, not 2"):
            pigrozd.join(dict(tables, frames=frames.reshape(2, 2)), SAMPLE_PLAN)
        with self.assertRaisesRegex(TypeError, "table 0: a table is .* a NumPy structured array, not a ndarray"):
            pigrozd.join([numpy.zeros((2, 2), dtype="uint32")], 0)

    def test_results(self):
        table = pigrozd.join(NAMED, SAMPLE_PLAN).to_numpy()
        self.assertEqual((table.dtype.names, table.tolist()), (ATTRIBUTES, ROWS))
        self.assertEqual(table["frame"].dtype, numpy.uint32)
        self.assertEqual(pigrozd.join(TABLES, PLAN).to_numpy().dtype.names, ("a0", "a1", "a2", "a3"))
        self.assertEqual(list(pigrozd.join([table])), ROWS)
        self.assertEqual(len(pigrozd.join([{3: []}]).to_numpy()), 0)
        column = numpy.asarray(pigrozd.join(TABLES, PLAN).columns[3])
        self.assertEqual((column.dtype, column.tolist()), (numpy.uint32, [29510, 29510, 29530, 29530]))

    def test_attribute_numbers(self):
        self.assertEqual(pigrozd.join([{numpy.int64(3): [1]}]).names, (3,))

    def test_example(self):
        environment = dict(os.environ, PYTHONPATH=os.path.join(TOP, "python"))
        done = subprocess.run(
            [sys.executable, path("examples", "numpy", "join_sample.py")],
            env=environment,
            cwd=TOP,
            stdout=subprocess.PIPE,
            check=True,
        )
        self.assertEqual(done.stdout, load("examples", "numpy", "expected"))


@needs_pandas
class Pandas(unittest.TestCase):
    def test_data_frames(self):
        frames = {name: pandas.DataFrame(table) for name, table in NAMED.items()}
        result = pigrozd.join(frames, SAMPLE_PLAN)
        self.assertEqual((list(result), result.names), (ROWS, ATTRIBUTES))
        table = result.to_pandas()
        self.assertEqual(
            (list(table.columns), [tuple(row) for row in table.values.tolist()]), (list(ATTRIBUTES), ROWS)
        )
        self.assertEqual({str(dtype) for dtype in table.dtypes}, {"uint32"})
        self.assertEqual(list(pigrozd.join([table])), ROWS)
        self.assertEqual(list(pigrozd.join(TABLES, PLAN).to_pandas().columns), [0, 1, 2, 3])
        self.assertEqual(list(pigrozd.join([pandas.DataFrame(table) for table in TABLES], PLAN)), ROWS)
        self.assertEqual(len(pigrozd.join([{"x": []}]).to_pandas()), 0)

    def test_the_index_is_no_column(self):
        frame = pandas.DataFrame({"x": [5, 6]}, index=[8, 9])
        self.assertEqual(list(pigrozd.join([frame[frame.x > 5]])), [(6,)])

    def test_kinds_of_columns(self):
        for kind in ("int64", "Int64", "UInt32", "float64", "Float64", "category", "object"):
            with self.subTest(kind=kind):
                self.assertEqual(list(pigrozd.join([{"x": pandas.Series([7, 8], dtype=kind)}])), [(7,), (8,)])
        self.assertEqual(list(pigrozd.join([{"x": pandas.Index([7, 8])}])), [(7,), (8,)])
        for kind in ("int64", "float64"):
            sparse = pandas.Series([7, 8], dtype=pandas.SparseDtype(kind))
            self.assertEqual(list(pigrozd.join([{"x": sparse}])), [(7,), (8,)])

    def refused(self, kind, pattern, column):
        with self.subTest(column=repr(column)), self.assertRaisesRegex(kind, "table 0, column x" + pattern):
            pigrozd.join([pandas.DataFrame({"x": column})])

    def test_refused_columns(self):
        self.refused(ValueError, ", row 0: 1.5 is not a whole number", [1.5])
        self.refused(ValueError, ", row 1: -1 is not in", [1, -1])
        self.refused(TypeError, ": a column holds whole numbers, not truth values", [True])
        self.refused(TypeError, ": a column holds whole numbers, not dates", [pandas.Timestamp(0)])
        self.refused(TypeError, ", row 1: Timestamp.* is not a whole number", [1, pandas.Timestamp(0)])
        self.refused(TypeError, ", row 0: '1'", pandas.Series(["1"], dtype=object))
        self.refused(TypeError, ": a column holds whole numbers, not texts", pandas.Series(["1"], dtype="string"))
        self.refused(TypeError, ": [Ff]loat32 does not hold every number", pandas.Series([1], dtype="float32"))
        sparse = pandas.SparseDtype("float32")
        self.refused(TypeError, ": float32 does not hold every number", pandas.Series([1], dtype=sparse))

    def test_refused_frames(self):
        twice = pandas.DataFrame([[1, 2]], columns=["x", "x"])
        with self.assertRaisesRegex(ValueError, "table 0: two columns of the DataFrame have one name"):
            pigrozd.join([twice])
        with self.assertRaisesRegex(TypeError, "table 0: an attribute is a name .* not \\('a', 'b'\\)"):
            pigrozd.join([pandas.DataFrame({("a", "b"): [1]})])
        with self.assertRaisesRegex(TypeError, "tables come in a list, .* not in a DataFrame"):
            pigrozd.join(pandas.DataFrame({"x": [1]}))
        with self.assertRaisesRegex(ValueError, "table 0, attribute 0: a column has one dimension, not 2"):
            pigrozd.join([{0: pandas.DataFrame({"x": [1]})}])


class Documents(unittest.TestCase):
    """The examples of docs/PYTHON.md give what stands below them."""

    def check(self, *parts):
        """Runs the examples of these parts, one after the other."""
        test = doctest.DocTestParser().get_doctest("".join(parts), {}, "PYTHON.md", "docs/PYTHON.md", 0)
        told = []
        result = doctest.DocTestRunner(verbose=False).run(test, out=told.append)
        self.assertEqual((result.failed, "".join(told)), (0, ""))
        self.assertGreater(result.attempted, 8)

    def setUp(self):
        text = re.sub("^```$", "", load("docs", "PYTHON.md").decode(), flags=re.M)
        self.plain, self.numpy = text.split("## NumPy and pandas")

    def test_plain(self):
        self.check(self.plain)

    @needs_pandas
    def test_numpy_and_pandas(self):
        self.check(self.plain, self.numpy)


if __name__ == "__main__":
    unittest.main()
