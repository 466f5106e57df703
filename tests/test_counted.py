"""Tests of counted rows (request U9) in the Python package: tables with copies, CSV files with a column of copies, and
folding, which makes tables with copies out of rows that are equal."""
import array
import dataclasses
import itertools
import os
import pickle
import random
import shlex
import struct
import unittest
from unittest import mock

from support import (
    CSVS,
    NO_PLAN,
    ROWS,
    SAMPLE,
    SAMPLE_PLAN,
    Folder,
    drawn_copies,
    needs_numpy,
    needs_pandas,
    numpy,
    pandas,
    samples,
    with_copies,
)

import pigrozd
import reference
from pigrozd import NOT_RECORDED, counted, csvfiles, fileformat, fold, folding, mending, names, plans

MOST = 65535
COUNTED = with_copies(SAMPLE, [[1, 3, 2, 9], None, [2, 1, MOST]])
FRAMES = {"frame": [10, 11, 12], "exposure": [1, 2, None], "times": [2, 1, 3]}
EXPOSURES = {"exposure": [1, 1, 2], "reading": [7, None, 9]}


def words(*numbers):
    return struct.pack("<%dI" % len(numbers), *numbers)


def written_out(table, name):
    """A table with each row written out as often as its column of this name says."""
    return {
        key: [value for value, copies in zip(column, table[name]) for _ in range(copies)]
        for key, column in table.items()
        if key != name
    }


def drawn_table(draw, attributes, rows=6):
    """A table of these attributes with small values, some of them not recorded, and equal rows next to each other."""
    made = []
    for _ in range(draw.randrange(rows)):
        made += [[draw.choice([1, 2, 2, 3, None]) for _ in attributes]] * draw.choice([1, 1, 2, 4])
    return {a: [row[place] for row in made] for place, a in enumerate(attributes)}


def drawn_tables(draw):
    """Two to four tables that share some attributes."""
    return {
        "t%d" % t: drawn_table(draw, draw.sample("abcde", draw.choice([1, 2, 2, 3])))
        for t in range(draw.choice([2, 3, 3, 4]))
    }


def drawn_plan(draw, tables):
    """The text of a plan that names each of these tables once."""
    if len(tables) == 1:
        return tables[0]
    at = draw.randrange(1, len(tables))
    return "(%s %s)" % (drawn_plan(draw, tables[:at]), drawn_plan(draw, tables[at:]))


def joined(tables, plan=None):
    """The rows of a join in order and the plan that it followed; or the number of the refusal."""
    try:
        result = pigrozd.join(tables, plan)
    except pigrozd.Refused as refused:
        return refused.number
    return list(result), result.plan


class CountedTables(unittest.TestCase):
    def refused(self, kind, pattern, table, name="times"):
        """A table that is refused when it is made, or when it is joined, but before the library is called."""
        with mock.patch("pigrozd.library.function") as function:
            with self.assertRaisesRegex(kind, pattern):
                pigrozd.join({"frames": counted(table, name)})
        function.assert_not_called()

    def test_bytes(self):
        data = pigrozd.make_file([counted(FRAMES, "times")])
        columns = words(2, 1, 3, 10, 11, 12, 1, 2, NOT_RECORDED)
        self.assertEqual(data, b"TC" + words(3, 3) + columns + NO_PLAN)
        tables, _ = reference.read(data)
        self.assertEqual((tables[0].copies, list(tables[0].columns)), ([2, 1, 3], [0, 1]))

    def test_results(self):
        tables = {"frames": counted(FRAMES, "times"), "exposures": EXPOSURES}
        result = pigrozd.join(tables, "(frames exposures)")
        self.assertEqual(result.names, ("frame", "exposure", "reading"))
        self.assertEqual(
            list(result), [(10, 1, 7), (10, 1, None), (10, 1, 7), (10, 1, None), (11, 2, 9)]  # copy after copy
        )
        self.assertEqual(pigrozd.count(tables).results, 5)
        opened = pigrozd.open_tables(tables, "(frames exposures)")
        self.assertEqual([(r.rows, r.copies) for r in opened[:].results()][2:4], [((0, 0), (1, 0)), ((0, 1), (1, 0))])
        self.assertEqual(opened.number_of((0, 1), (1, 0)), 3)
        self.assertEqual(list(pigrozd.join(tables, engine="slow")), list(pigrozd.join(tables)))
        self.assertEqual(list(pigrozd.join_file(pigrozd.make_file(tables))), list(pigrozd.join(tables)))

    def test_written_out(self):
        """A join of tables with copies gives the rows, and their order, of the tables with each row written out."""
        draw, seen = random.Random(1), set()
        for _ in range(400):
            tables = drawn_tables(draw)
            plan = drawn_plan(draw, draw.sample(sorted(tables), len(tables))) if draw.random() < 0.6 else None
            given, written = {}, {}
            for name, table in tables.items():
                rows = len(next(iter(table.values())))
                table["n"] = [draw.choice([1, 1, 2, 3, 5]) for _ in range(rows)]
                is_counted = draw.random() < 0.7
                plain = {key: column for key, column in table.items() if key != "n"}
                given[name] = counted(table, "n") if is_counted else plain
                written[name] = written_out(table, "n") if is_counted else plain
            found = joined(given, plan)
            if isinstance(found, int):
                self.assertEqual(joined(written, plan), found)
                seen.add(found)
                continue
            rows, followed = found  # a plan that is not well-behaved is mended by rows, and these are not the same
            self.assertEqual(joined(written, followed), (rows, followed))
            seen.add(min(len(rows), 1))
            if plan is None:
                self.assertEqual(joined(written), found)
        self.assertEqual(seen, {0, 1, 9, 14})

    def test_by_the_reference(self):
        draw = random.Random(2)
        for _ in range(60):
            tables = {name: drawn_table(draw, attributes) for name, attributes in (("x", "ab"), ("y", "bc"))}
            for table in tables.values():
                table["n"] = [draw.randrange(1, 4) for _ in table["b"]]
            given = {name: counted(table, "n") for name, table in tables.items()}
            data = pigrozd.make_file(given)
            number, _, rows, counts = reference.outcome(data, 10000, 10000)
            result = pigrozd.join(given)
            values = [tuple(None if value == NOT_RECORDED else value for value in row) for row in rows]
            self.assertEqual((number, list(result), result.counts), (0, values, counts))

    def test_most_copies(self):
        table = counted({"x": [5, 6], "n": [1, MOST]}, "n")
        self.assertEqual(pigrozd.count([table]).results, MOST + 1)
        self.assertEqual(pigrozd.count([table, table]).results, 1 + MOST**2)
        self.assertEqual(list(pigrozd.open_tables([table])[-1]), [6])
        arrays = array.array("I", [1, MOST]), array.array("H", [1, MOST])
        for copies in (*arrays, (1.0, 65535.0), range(1, MOST + 1, MOST - 1)):
            self.assertEqual(pigrozd.make_file([counted({"x": [5, 6], "n": copies}, "n")]), pigrozd.make_file([table]))

    def test_copies_refused(self):
        where = "table frames, column times, row 1: "
        for value in (0, 65536, -1, 4294967295, 2**40, 2**4000):
            told = "a longer number" if value > 2**128 else str(value)
            self.refused(
                ValueError,
                "^%s%s is not in 1 to 65,535, which are the copies of a row$" % (where, told),
                {"x": [5, 6], "times": [1, value]},
            )
        for column in (array.array("I", [1, 0]), array.array("I", [1, NOT_RECORDED]), array.array("i", [1, -1])):
            self.refused(ValueError, where + ".* is not in 1 to 65,535", {"x": [5, 6], "times": column})
        for value in (None, float("nan")):
            self.refused(ValueError, where + "copies that were not recorded", {"x": [5, 6], "times": [1, value]})
        self.refused(ValueError, where + "1.5 is not a whole number", {"x": [5, 6], "times": [1, 1.5]})
        for value in ("x", "", "1", b"1", [1]):
            self.refused(TypeError, where + ".* is not a whole number", {"x": [5, 6], "times": [1, value]})
        self.refused(TypeError, where + "True is a truth value", {"x": [5, 6], "times": [1, True]})

    def test_columns_refused(self):
        self.refused(
            ValueError,
            "table frames: columns of different length: x has 2, column times of copies has 1",
            {"x": [5, 6], "times": [1]},
        )
        for column in ("12", {1, 2}, iter([1, 2]), {1: 2}, 7):
            self.refused(TypeError, "^table frames, column times: ", {"x": [5, 6], "times": column})

    def test_no_such_column(self):
        with self.assertRaisesRegex(
            ValueError, "^the table: there is no column 'n' to hold its copies; its columns: 'x', 'times'$"
        ):
            counted({"x": [5], "times": [1]}, "n")
        with self.assertRaisesRegex(ValueError, "there is no column 7 to hold its copies; its columns: none"):
            counted({}, 7)
        changed = {"x": [5], "times": [1]}
        made = counted(changed, "times")
        del changed["times"]
        with self.assertRaisesRegex(pigrozd.InputError, "^table frames: there is no column 'times' to hold"):
            pigrozd.join({"frames": made})
        for name in (True, None, 1.0, ["x"], ("x",)):
            with self.assertRaisesRegex(TypeError, "the column of copies is given by its name or number, not by"):
                counted({"x": [5], 1: [1]}, name)

    def test_what_is_no_table(self):
        for table in ([1], "frames", None, 7):
            with self.assertRaisesRegex(TypeError, "^the table: a table is a mapping of columns"):
                counted(table, "n")
        with self.assertRaisesRegex(TypeError, "this table has its copies in the column 'times' already"):
            counted(counted(FRAMES, "times"), "frame")
        with self.assertRaisesRegex(TypeError, "tables come in a list, .* not in a Counted"):
            pigrozd.join(counted(FRAMES, "times"))

    def test_no_attribute_beside_the_copies(self):
        with self.assertRaises(pigrozd.Refused) as caught:
            pigrozd.join({"frames": counted({"n": [1, 2]}, "n")})
        self.assertEqual((caught.exception.number, caught.exception.table), (3, 0))
        self.assertEqual(caught.exception.why, "frames has 0 attributes")

    def test_eight_attributes(self):
        table = {"a%d" % i: [i] for i in range(8)}
        self.assertEqual(len(pigrozd.join([counted({"n": [3], **table}, "n")])), 3)
        with self.assertRaises(pigrozd.Refused) as caught:
            pigrozd.join([counted({"n": [3], "b": [1], **table}, "n")])
        self.assertEqual(caught.exception.number, 3)

    def test_numbers_for_names(self):
        table = counted({0: [5, 6], 7: [2, 1], 3: [8, 9]}, 7)
        self.assertEqual(pigrozd.join([table, {0: [5]}]).columns, {0: words_of(5, 5), 3: words_of(8, 8)})
        self.assertEqual(pigrozd.count([counted({0: [5], "n": [3]}, "n")]).results, 3)  # it is no attribute
        self.assertEqual(pigrozd.count([counted({"x": [5], 99: [3]}, 99)]).results, 3)
        with self.assertRaisesRegex(ValueError, "^table 0, column 7, row 0: 0 is not in"):
            pigrozd.join([counted({0: [5], 7: [0]}, 7)])

    def test_a_name_that_is_an_attribute_elsewhere(self):
        rows = pigrozd.join([counted({"x": [5, 6], "n": [2, 1]}, "n"), {"x": [5], "n": [9]}])
        self.assertEqual((rows.names, list(rows)), (("x", "n"), [(5, 9), (5, 9)]))

    def test_result_as_a_table(self):
        result = pigrozd.join([{"x": [5, 6, 5], "n": [2, 1, 3]}])
        self.assertEqual(list(pigrozd.join([counted(result, "n"), {"x": [5]}])), [(5,)] * 5)
        with self.assertRaisesRegex(ValueError, "row 1: copies that were not recorded"):
            pigrozd.join([counted(pigrozd.join([{"x": [5, 6], "n": [2, None]}]), "n")])

    def test_object(self):
        table = counted(FRAMES, "times")
        self.assertIsInstance(table, pigrozd.Counted)
        self.assertEqual(repr(table), "<Counted: names ('frame', 'exposure'), copies in 'times'>")
        self.assertEqual((table.table, table.copies), (FRAMES, "times"))
        self.assertEqual(repr(pickle.loads(pickle.dumps(table))), repr(table))
        with self.assertRaises(dataclasses.FrozenInstanceError):
            table.copies = "frame"
        wide = repr(counted({"n": [1], **{"attribute_%d" % i: [1] for i in range(40)}}, "n"))
        self.assertLess(len(wide), 200)

    @needs_numpy
    def test_numpy(self):
        rows = numpy.array([(2, 10, 1), (1, 11, 2)], dtype=[("n", "u2"), ("frame", "u4"), ("exposure", "i8")])
        self.assertEqual(list(pigrozd.join([counted(rows, "n")])), [(10, 1), (10, 1), (11, 2)])
        rows["n"][1] = 0
        with self.assertRaisesRegex(ValueError, "table 0, column n, row 1: 0 is not in 1 to 65,535"):
            pigrozd.join([counted(rows, "n")])
        masked = numpy.ma.masked_equal([2, 7], 7)
        with self.assertRaisesRegex(ValueError, "row 1: copies that were not recorded"):
            pigrozd.join([counted({"x": [1, 2], "n": masked}, "n")])
        for column in (numpy.array([True, True]), numpy.array([1, 2], dtype="f4"), numpy.array(["1", "2"])):
            with self.assertRaisesRegex(TypeError, "^table 0, column n: "):
                pigrozd.join([counted({"x": [1, 2], "n": column}, "n")])
        folded = fold(numpy.array([(5, 6), (5, 6), (7, 8)], dtype=[("x", "u4"), ("y", "u4")]))
        self.assertEqual(list(folded.table["copies"]), [2, 1])

    @needs_pandas
    def test_pandas(self):
        frame = pandas.DataFrame({"frame": [10, 11], "n": [2, 1], "exposure": [1, 2]})
        self.assertEqual(list(pigrozd.join([counted(frame, "n")])), [(10, 1), (10, 1), (11, 2)])
        for column in ([2.0, None], pandas.array([2, None], dtype="UInt32")):
            with self.assertRaisesRegex(ValueError, "table 0, column n, row 1: copies that were not recorded"):
                pigrozd.join([counted(pandas.DataFrame({"x": [1, 2], "n": column}), "n")])
        with self.assertRaisesRegex(ValueError, "there is no column 'times' to hold its copies"):
            counted(frame, "times")
        self.assertEqual(pigrozd.count([counted(pandas.DataFrame([[5, 2], [6, 1]]), 1)]).results, 3)
        folded = fold(pandas.DataFrame({"x": [5, 5, None], "y": [1, 1, 2]}))
        self.assertEqual((folded.table["x"], list(folded.table["copies"])), ([5, None], [2, 1]))


def words_of(*numbers):
    """A column of a result, all of whose values were recorded."""
    return array.array("I", numbers)


class Folds(unittest.TestCase):
    def check(self, table, expect, name="copies"):
        """A table as it is folded: its attributes and copies, in lists."""
        folded = fold(table)
        self.assertEqual(folded.copies, name)
        self.assertEqual({key: list(column) for key, column in folded.table.items()}, expect)
        return folded

    def test_rows_next_to_each_other(self):
        self.check({"x": [5, 5, 6, 5, 5, 5]}, {"x": [5, 6, 5], "copies": [2, 1, 3]})
        self.check({"x": [5, 5, 5], "y": [1, 2, 2]}, {"x": [5, 5], "y": [1, 2], "copies": [1, 2]})
        self.check({"x": []}, {"x": [], "copies": []})
        self.check({"x": [5, 6]}, {"x": [5, 6], "copies": [1, 1]})
        self.check({0: [5, 5], 3: [6, 6]}, {0: [5], 3: [6], "copies": [2]})

    def test_not_recorded_is_equal_to_itself(self):
        table = {"x": [None, float("nan"), 5], "y": [1, 1, None]}
        self.check(table, {"x": [None, 5], "y": [1, None], "copies": [2, 1]})

    def test_copies_are_added(self):
        self.check(counted({"n": [2, 3, 1], "x": [5, 5, 6]}, "n"), {"x": [5, 6], "n": [5, 1]}, "n")

    def test_more_than_a_row_can_have(self):
        self.check({"x": [5] * (MOST + 2) + [6]}, {"x": [5, 5, 6], "copies": [MOST, 2, 1]})
        for given, expect in {
            (MOST, 1): [MOST, 1],
            (40000, 40000, 40000): [MOST, 54465],
            (1, MOST, MOST, MOST): [MOST, MOST, MOST, 1],
            (1, 65534): [MOST],
            (1, 65534, 1): [MOST, 1],
        }.items():
            table = counted({"x": [5] * len(given), "n": given}, "n")
            self.check(table, {"x": [5] * len(expect), "n": expect}, "n")

    def test_more_rows_than_a_table_can_have(self):
        table = {"x": [i // 3 for i in range(3 * 4096)]}
        with self.assertRaises(pigrozd.Refused) as caught:
            pigrozd.join([table])
        self.assertEqual(caught.exception.number, 4)
        self.assertTrue(list(pigrozd.join([fold(table)])) == [(value,) for value in table["x"]])

    def test_names(self):
        self.check({"copies": [5, 5]}, {"copies": [5], "copies_2": [2]}, "copies_2")
        self.check(
            {"copies_2": [5, 5], "copies": [6, 6]}, {"copies_2": [5], "copies": [6], "copies_3": [2]}, "copies_3"
        )

    def test_folding_twice(self):
        draw = random.Random(3)
        for _ in range(100):
            once = fold(drawn_table(draw, "ab"))
            twice = fold(once)
            self.assertEqual((twice.table, twice.copies), (once.table, once.copies))

    def test_refused(self):
        with self.assertRaisesRegex(ValueError, "^the table, column x, row 1: -1 is not in"):
            fold({"x": [1, -1]})
        with self.assertRaisesRegex(ValueError, "^the table, column n, row 0: 0 is not in 1 to 65,535"):
            fold(counted({"x": [1], "n": [0]}, "n"))
        with self.assertRaisesRegex(ValueError, "^the table: columns of different length: x has 1, y has 2"):
            fold({"x": [1], "y": [1, 2]})
        with self.assertRaisesRegex(TypeError, "^the table: a table is a mapping of columns"):
            fold([1])
        with self.assertRaisesRegex(TypeError, "^the table: an attribute is a name or a number"):
            fold({None: [1]})

    def test_results(self):
        """A join of folded tables gives the same rows in the same order, by the plan that it follows."""
        draw, seen = random.Random(4), set()
        for _ in range(400):
            tables = drawn_tables(draw)
            plan = drawn_plan(draw, draw.sample(sorted(tables), len(tables))) if draw.random() < 0.6 else None
            folded = {name: fold(table) for name, table in tables.items()}
            before, after = joined(tables, plan), joined(folded, plan)
            if isinstance(before, int):
                self.assertEqual(after, before)
                seen.add(before)
                continue
            if after != before:  # a plan was mended in another way
                self.assertNotEqual(after[1], before[1])
                self.assertEqual(in_some_order(after[0]), in_some_order(before[0]))
                self.assertEqual(joined(folded, before[1]), before)
                seen.add("mended in another way")
            else:
                seen.add("equal")
            if plan is None:
                self.assertEqual(after, before)
        self.assertEqual(seen, {9, 14, "equal", "mended in another way"})


def in_some_order(rows):
    return sorted([-1 if value is None else value for value in row] for row in rows)


class Takes(unittest.TestCase):
    """folding.Folding, row by row."""

    def test_what_begins_a_row(self):
        made = folding.Folding()
        taken = ((1, 1), (1, 2), (2, 1), (1, 1), (1, MOST), (1, MOST - 1), (1, 1))
        begun = [made.take(row, copies) for row, copies in taken]
        self.assertEqual(begun, [True, False, True, True, True, False, True])
        self.assertEqual((made.copies, made.taken), ([3, 1, MOST, MOST, 1], 7))

    def test_none_is_equal_to_no_row(self):
        made = folding.Folding()
        self.assertEqual([made.take(None) for _ in range(3)], [True] * 3)
        self.assertEqual(made.copies, [1, 1, 1])


class CopiesInCsv(Folder):
    """--copies of the commands that take CSV files."""

    def table(self, header, *rows, name="frames.csv"):
        return self.write(name, "".join(line + "\n" for line in (header, *rows)))

    def test_any_place_of_the_header(self):
        found = set()
        places = ("n,frame,exposure", "2,10,1"), ("frame,n,exposure", "10,2,1"), ("frame,exposure,n", "10,1,2")
        for header, row in places:
            table = self.table(header, row)
            self.assertEqual(self.command("join", table, "--copies", "n"), ("frame,exposure\n10,1\n10,1\n", ""))
            self.command("pack", self.at("out"), table, "--copies", "n")
            found.add((self.read("out"), self.read("out.names")))
        (data, named), = found
        self.assertEqual(data, b"TC" + words(3, 1, 2, 10, 1) + NO_PLAN)
        self.assertEqual(named.decode(), self.digest_line("out") + "0 frame\n1 exposure\ntable 0 frames\ncopies n\n")

    def test_tables_with_and_without(self):
        frames = self.table("frame,exposure,times", "10,1,2", "11,2,1", "12,2,3")
        rows = "frame,exposure,reading,centikelvin\n" + "10,1,7,29510\n" * 4 + "11,2,9,29530\n" + "12,2,9,29530\n" * 3
        given = [frames, *CSVS[1:], "--plan", SAMPLE_PLAN, "--copies", "times"]
        self.assertEqual(self.command("join", *given)[0], rows)
        self.assertEqual(self.command("join", *given, "--engine", "slow")[0], rows)
        self.assertEqual(self.command("count", *given)[0], "results 8\nbytes 128\n")
        out, _ = self.command("pack", self.at("out"), *given)
        self.assertEqual(out, self.at("out") + ": 130 bytes, 3 tables, 10 rows, 13 copies\n")
        self.assertEqual(self.read("out")[:2] + self.read("out")[46:48] + self.read("out")[88:90], b"TC" + b"TB" * 2)
        self.assertEqual(self.command("join", self.at("out"))[0], rows)
        out, _ = self.command("view", *given, "--rows", "3", "--row-numbers", "--at", "1")
        lines = [line.split() for line in out.splitlines()]
        self.assertEqual(lines[0][-4:], ["|", "frames.copy", "exposures", "readings"])
        self.assertEqual(lines[2], "2 10 1 7 29510 | 0.1 0 0".split())
        out, _ = self.command("view", *given, "--find", "2.1,2,2", "--rows", "1")
        self.assertEqual(out.split()[-5:], "6 12 2 9 29530".split())
        self.fails("refused 17 0: .*row 1 of frames has no copy 1", "view", *given, "--find", "1.1,2,2", status=1)

    def test_written_out(self):
        """Rows, order and number of results are those of the CSV files with each row written out."""
        draw = random.Random(5)
        for _ in range(60):
            given, written = [], []
            for t, attributes in enumerate(("ab", "bc", "ca" if draw.random() < 0.2 else "cd")):
                table = drawn_table(draw, attributes)
                copies = [draw.randrange(1, 4) for _ in table[attributes[0]]]
                columns = list(table.items())
                columns.insert(draw.randrange(3), ("n", copies))
                given.append(self.csv("t%d.csv" % t, dict(columns)))
                written.append(self.csv("w/t%d.csv" % t, written_out({**table, "n": copies}, "n")))
            attributes = ["--attributes", "a,b,c,d"]
            status, out, err = self.run_here("join", *given, "--copies", "n", *attributes)
            other = self.run_here("join", *written, *attributes)
            self.assertEqual((status, out), other[:2])
            self.assertEqual(err.replace("--copies n ", ""), other[2].replace("/w/", "/"))
            self.assertEqual(self.run_here("count", *given, "--copies", "n")[:2], self.run_here("count", *written)[:2])

    def csv(self, name, columns):
        os.makedirs(os.path.dirname(self.at(name)), exist_ok=True)
        return self.write(name, csvfiles.csv_text(columns, zip(*columns.values())))

    def test_most_copies(self):
        for copies in (1, MOST):
            table = self.table("frame,n", "10,%d" % copies)
            self.assertEqual(self.command("count", table, "--copies", "n")[0].split()[1], str(copies))
        table = self.table("frame,n", "10, 007 ")
        self.assertEqual(self.command("count", table, "--copies", "n")[0].split()[1], "7")

    def test_cells_refused(self):
        cells = ("0", "65536", "4294967295", "4294967296", "-1", "1.5", "+1", "1e3", "x", "9" * 500, "٣")
        told = {cell: "%.60r" % cell for cell in cells}
        told.update({"": "an empty cell", "  ": "an empty cell"})
        for cell, place, extra in itertools.product(told, range(3), ([], ["--fold"])):
            columns, values = ["frame", "exposure"], ["10", "1"]
            columns.insert(place, "n")
            values.insert(place, cell)
            table = self.table(",".join(columns), "1,1,1", "", ",".join(values))
            where = "pigrozd: %s, line 4, column %d (n): " % (table, place + 1)
            for command in (["join"], ["count"], ["pack", self.at("out")]):
                _, err = self.command(*command, table, "--copies", "n", *extra, status=2)
                self.assertEqual(err, where + "copies are a number from 1 to 65535, not %s\n" % told[cell])

    def test_other_cells_refused(self):
        table = self.table("frame,n,exposure", "10,1,x")
        self.fails(r"line 2, column 3 \(exposure\): 'x' is not a number", "join", table, "--copies", "n")
        table = self.table("frame,n,exposure", "10,1,1", "10,1")
        self.fails("line 3: 2 values, but the first line names 3 columns", "join", table, "--copies", "n")

    def test_names_refused(self):
        table = self.table("frame,n", "10,1")
        for command in ("join", "count", "view"):
            self.fails("--copies times: no table has a column of this name", command, table, "--copies", "times")
            self.fails("--copies ' ': a column of copies without a name", command, table, "--copies", " ")
            self.fails("--copies .*: a line break.* in the name of a column of", command, table, "--copies", "a\nb")
        self.fails("--copies times: no table", "pack", self.at("out"), table, "--copies", "times")
        self.fails("--copies times: no table", "plan", "--copies", "times", "--tables", table, "x=y")
        given = ["join", table, "--copies", "n"]
        self.fails("--attributes n,frame: n is the column of copies", *given, "--attributes", "n,frame")
        self.fails("--text n: no attribute is called n", *given, "--text", "n")
        twice = self.table("n,frame,n", "1,10,1", name="twice.csv")
        self.fails("line 1, column 3: n stands in this line already", "join", twice, "--copies", "n")
        alone = self.table("n", "1", name="alone.csv")
        self.fails("alone.csv, line 1: a table has an attribute beside its copies", "join", alone, "--copies", "n")
        packed = self.write("packed", SAMPLE)
        self.fails("--copies and --fold go with CSV files, and .*packed is taken", "join", packed, "--copies", "n")
        self.fails("--copies goes with --tables", "plan", packed, "--copies", "n")
        self.assertEqual(sorted(os.listdir(self.folder)), ["alone.csv", "frames.csv", "packed", "twice.csv"])

    def test_names_with_blanks_and_dashes(self):
        for name in (" n ", "-n", "--copies", "a,b", 'say "n"', "süd"):
            table = self.write("frames.csv", csvfiles.csv_text([name, "frame"], [(2, 10)]))
            self.command("pack", self.at("out"), table, "--copies=" + name)
            self.assertEqual(self.read("out")[:2], b"TC")
            before = self.read("out"), self.read("out.names")
            command, _ = self.command("unpack", self.at("out"), self.at("back"), "--force")
            self.command(*shlex.split(command)[1:])
            self.assertEqual((self.read("out"), self.read("out.names")), before)

    def test_limits(self):
        wide = ["a%d" % i for i in range(8)]
        for place in (0, 4, 8):
            table = self.table(",".join(wide[:place] + ["n"] + wide[place:]), ",".join("1" * 9))
            self.assertEqual(self.command("join", table, "--copies", "n")[0].split("\n")[0], ",".join(wide))
            self.fails(r"line 1, column 9 \(.*\): a table has at most 8 attributes", "join", table)
        for place, at in ((0, 10), (4, 10), (9, 9)):
            nine = wide + ["i"]
            table = self.table(",".join(nine[:place] + ["n"] + nine[place:]), ",".join("1" * 10))
            self.fails(r"line 1, column %d \(i\): a table has at most 8" % at, "join", table, "--copies", "n")
        table = self.table("frame,n", *["5,1"] * 4097)
        self.fails("line 4098: a table has at most 4,096 rows, and this", "join", table, "--copies", "n")

    def test_a_table_of_no_rows(self):
        table = self.table("n,frame")
        self.command("pack", self.at("out"), table, "--copies", "n")
        self.assertEqual(self.read("out"), b"TC" + words(1, 0) + NO_PLAN)
        self.command("unpack", self.at("out"), self.at("back"))
        self.assertEqual(self.read("back/frames.csv"), b"n,frame\n")

    def test_plans(self):
        frames = self.table("frame,exposure,n", "10,1,900", "11,2,5")
        exposures = self.table("exposure,n", "1,2", name="exposures.csv")
        out, _ = self.command("plan", "--copies", "n", "--tables", frames, exposures, "readings=exposure,reading,n")
        self.assertIn("`-- frames: 2 rows, 905 copies (frame, exposure)\n", out)
        self.assertIn("|-- exposures: 1 row, 2 copies (exposure)\n", out)
        self.assertIn("|-- readings: rows not known (exposure, reading)\n", out)
        self.assertIn("a result: frame, exposure, reading\n", out)
        self.assertIn("well-behaved: both have n", self.command("plan", "--tables", frames, "t=n")[0])  # an attribute

    def test_ring(self):
        """The command that shows why no plan can be found reads the copies as the join does."""
        headers = {"x.csv": "a,b,n", "y.csv": "b,c,n", "z.csv": "c,a,n"}
        ring = [self.table(header, "1,2,3", name=name) for name, header in headers.items()]
        told = "pigrozd plan --copies n --tables %s" % " ".join(ring)
        for command in (["join"], ["count"], ["view"], ["pack", self.at("out")]):
            _, err = self.command(*command, *ring, "--copies", "n", status=1)
            self.assertIn("refused 14 0: ", err)
            self.assertIn(told, err)
        out, _ = self.command(*shlex.split(told)[1:], status=1)
        self.assertIn("x: 1 row, 3 copies (a, b)", out)

    def test_texts(self):
        frames = self.table("panel,n", "north,2", "south,1")
        out, _ = self.command("join", frames, "--copies", "n", "--text", "panel")
        self.assertEqual(out, "panel\nnorth\nnorth\nsouth\n")


class NamesOfCopies(Folder):
    """The line of FILE.names for the column of copies."""

    def beside(self, text):
        self.write("out.names", text)
        return names.names_beside(self.at("out"), b"", self.fail)

    def test_reading(self):
        known = self.beside("0 frame\ncopies how often \ntable 0 frames\n")
        self.assertEqual((known.copies, known.copies_column()), ("how often", "how often"))
        self.assertEqual(self.beside("copies 5 x\n").copies, "5 x")
        self.assertEqual(names.names_in(names.names_text(known, b""), "").copies, "how often")

    def test_without_a_name(self):
        self.assertEqual(self.beside("0 frame\n").copies_column(), "copies")
        self.assertEqual(self.beside("0 copies\n").copies_column(), "copies_2")
        self.assertEqual(self.beside("0 copies\n5 copies_2\n7 copies_4\n").copies_column(), "copies_3")
        self.assertEqual(self.beside("table 0 copies\ntext 0 1 copies\n").copies_column(), "copies")

    def test_attributes_without_a_name_are_called_otherwise(self):
        known = self.beside("copies a1\n")
        self.assertEqual((known.attribute(0), known.attribute(1)), ("a0", "a1_"))

    def test_refused(self):
        for pattern, text in {
            "line 2: 'frame' is named already": "0 frame\ncopies frame\n",
            "line 2: 'frame' is named already ?": "copies frame\n0 frame\n",
            "line 2: the column of copies has a name already": "copies a\ncopies b\n",
            "line 1: a column of copies without a name": "copies  \n",
            "line 1: expected NUMBER NAME, .* or copies NAME, found 'copies'": "copies\n",
            "line 1: expected NUMBER NAME, .*, found 'copiesx'": "copiesx\n",
        }.items():
            with self.subTest(text), self.assertRaisesRegex(pigrozd.InputError, pattern.rstrip(" ?")):
                self.beside(text)

    def test_files_without_copies_have_no_such_line(self):
        for extra in ([], ["--fold"]):
            self.command("pack", self.at("out"), *CSVS[:2], *extra)
            self.assertEqual(
                self.read("out.names").decode(),
                self.digest_line("out") + "0 frame\n1 exposure\n2 reading\ntable 0 frames\ntable 1 exposures\n",
            )


class Unpacking(Folder):
    def again(self, data, named=None):
        """Unpacks a file and packs it again by the command that is printed; what it printed."""
        self.write("out", data)
        if named is not None:
            self.write("out.names", named)
        command, _ = self.command("unpack", self.at("out"), self.at("back"), "--force")
        self.command(*shlex.split(command)[1:], "--force")
        self.assertEqual(self.read("out"), data)
        return command

    def test_sample(self):
        command = self.again(COUNTED)
        self.assertIn(" --copies copies ", command)
        self.assertEqual(self.read("back/table0.csv"), b"copies,a0,a1\n1,10,1\n3,11,2\n2,12,2\n9,13,4\n")
        self.assertEqual(self.read("back/table1.csv"), b"a1,a2\n1,7\n2,8\n2,9\n3,7\n")
        self.assertEqual(self.read("back/table2.csv"), b"copies,a2,a3\n2,7,29510\n1,7,29510\n65535,9,29530\n")
        self.assertNotIn("--copies", self.again(SAMPLE))

    def test_drawn_files(self):
        draw, done = random.Random(6), 0
        for data in samples().values():
            if len(data) < 1000 and not fileformat.read(data).fault and b"TC" not in data:
                with_copies = drawn_copies(data, draw)
                self.assertEqual("--copies" in self.again(with_copies), b"TC" in with_copies)
                os.remove(self.at("out.names"))
                done += b"TC" in with_copies
        self.assertGreater(done, 50)

    def test_samples_with_copies(self):
        for name, data in samples().items():
            if data.startswith(b"TC") and len(data) < 1000 and not fileformat.read(data).fault:
                with self.subTest(name):
                    self.again(data)
                    os.remove(self.at("out.names"))

    def test_names(self):
        """The column keeps its name; without one it has a name that no attribute of the file has."""
        self.assertIn(" --copies 'how often' ", self.again(COUNTED, "copies how often\n"))
        self.assertEqual(self.read("back/table2.csv")[:16], b"how often,a2,a3\n")
        self.assertIn(" --copies copies_2 ", self.again(COUNTED, "0 copies\n"))
        self.assertEqual(self.read("back/table0.csv")[:20], b"copies_2,copies,a1\n1")
        self.assertIn(" --copies copies_2 ", self.again(COUNTED, "2 copies\n"))  # of another table too
        self.assertEqual(self.read("back/table1.csv")[:10], b"a1,copies\n")
        self.assertIn(" --copies copies_3 ", self.again(COUNTED, "0 copies\n1 copies_2\n"))

    def test_packed_and_unpacked(self):
        """Packed, unpacked and packed: the same files, with their names."""
        frames = self.write("frames.csv", "frame,times,state\n10,900,dark\n11,1,\n12,65535,lit\n")
        self.command("pack", self.at("out"), frames, CSVS[1], "--copies", "times", "--text", "state")
        before = self.read("out"), self.read("out.names")
        command, _ = self.command("unpack", self.at("out"), self.at("back"))
        self.assertEqual(self.read("back/frames.csv"), b"times,frame,state\n900,10,dark\n1,11,\n65535,12,lit\n")
        self.assertEqual(
            command,
            "pigrozd pack %s --attributes frame,state,exposure,reading --copies times --text state %s %s\n"
            % (self.at("out"), self.at("back/frames.csv"), self.at("back/exposures.csv")),
        )
        self.command(*shlex.split(command)[1:])
        self.assertEqual((self.read("out"), self.read("out.names")), before)

    def test_help(self):
        self.assertIn("--copies", self.command("unpack", "--help")[0])
        for command in ("join", "view", "count", "pack", "plan"):
            self.assertIn("--copies NAME", self.command(command, "--help")[0])
        for command, there in (("join", True), ("count", True), ("pack", True), ("view", False), ("plan", False)):
            self.assertEqual("--fold" in self.command(command, "--help")[0], there)


class FoldedCsv(Folder):
    """--fold of pack, join and count."""

    def pack(self, *arguments):
        return self.command("pack", self.at("out"), *arguments)

    def test_panel(self):
        panel = self.write("panel.csv", "panel,state\n" + "5,1\n" * 900 + "6,2\n" + "5,1\n" * 4)
        out, err = self.pack(panel, "--fold")
        self.assertEqual(err, "")
        self.assertEqual(
            out,
            "%s: 49 bytes, 1 table, 3 rows, 905 copies, no plan\npanel: 905 rows folded to 3, 7,250 bytes to 46\n"
            % self.at("out"),
        )
        self.assertEqual(self.read("out"), b"TC" + words(3, 3, 900, 1, 4, 5, 6, 5, 1, 2, 1) + NO_PLAN)
        self.assertEqual(self.command("join", self.at("out")), self.command("join", panel))
        self.assertEqual(self.command("join", panel, "--fold"), self.command("join", panel))
        self.assertEqual(self.command("count", panel, "--fold"), self.command("count", panel))

    def test_nothing_to_fold(self):
        plain, _ = self.pack(*CSVS[:2], "--plan", "(frames exposures)")
        data, named = self.read("out"), self.read("out.names")
        out, _ = self.pack(*CSVS[:2], "--plan", "(frames exposures)", "--fold")
        self.assertEqual(out, plain + "nothing is folded: each table has as many rows as before\n")
        self.assertEqual((self.read("out"), self.read("out.names")), (data, named))

    def test_some_tables(self):
        out, _ = self.pack("--plan", SAMPLE_PLAN, *CSVS, "--fold")
        self.assertEqual(out.splitlines()[1:], ["readings: 3 rows folded to 2, 34 bytes to 34"])
        self.assertEqual([self.read("out")[at : at + 2] for at in (0, 42, 84)], [b"TB", b"TB", b"TC"])
        self.assertEqual(self.command("join", self.at("out"))[0], ROWS)
        self.assertEqual(self.command("join", *CSVS, "--plan", SAMPLE_PLAN, "--fold")[0], ROWS)

    def test_what_cells_stand_for_is_compared(self):
        table = self.write("t.csv", "x,y\n7,\n007,  \n 7 ,\"\"\n,8\n\" \",08\n")
        self.pack(table, "--fold")
        self.assertEqual(self.read("out"), b"TC" + words(3, 2, 3, 2, 7, NOT_RECORDED, NOT_RECORDED, 8) + NO_PLAN)
        self.pack(table, "--fold", "--text", "x")
        self.assertEqual(reference.read(self.read("out"))[0][0].copies, [1, 1, 1, 2])  # as texts they differ

    def test_wrong_cells(self):
        """A cell that is no value is told at its line, also where it is equal to the one before."""
        table = self.write("t.csv", "x\n5\n5\nten\nten\n")
        self.fails(r"t.csv, line 4, column 1 \(x\): 'ten' is not a number", "pack", self.at("out"), table, "--fold")
        table = self.write("t.csv", 'x\n5\n""\n4294967295\n')
        self.fails(r"t.csv, line 4, column 1 \(x\): 4294967295 is the word", "pack", self.at("out"), table, "--fold")

    def test_copies_are_added(self):
        table = self.write("t.csv", "n,x\n40000,5\n40000,5\n1,6\n1,6\n")
        out, _ = self.pack(table, "--fold", "--copies", "n")
        self.assertEqual(self.read("out"), b"TC" + words(1, 3, MOST, 14465, 2, 5, 5, 6) + NO_PLAN)
        self.assertEqual(out.splitlines()[1], "t: 4 rows folded to 3, 42 bytes to 34")
        self.assertEqual(self.read("out.names").decode().splitlines()[-1], "copies n")
        self.assertEqual(
            self.command("count", table, "--fold", "--copies", "n"), self.command("count", table, "--copies", "n")
        )

    def test_copies_that_are_all_1(self):
        """A table in which no row has several copies has none after folding."""
        table = self.write("t.csv", "n,x\n1,5\n1,6\n")
        out, _ = self.pack(table, "--fold", "--copies", "n")
        self.assertEqual(self.read("out"), b"TB" + words(1, 2, 5, 6) + NO_PLAN)
        self.assertEqual(out.splitlines()[1], "t: 2 rows folded to 2, 26 bytes to 18")
        self.assertEqual(self.read("out.names").decode(), self.digest_line("out") + "0 x\ntable 0 t\n")

    def test_more_lines_than_rows(self):
        most = self.write("t.csv", "x\n" + "".join("%d\n%d\n" % (i, i) for i in range(4096)))
        self.fails("t.csv, line 4098: a table has at most 4,096 rows, and this is", "pack", self.at("out"), most)
        self.pack(most, "--fold")
        self.assertEqual(fileformat.read(self.read("out")).tables[0].rows, 4096)
        for last in ("4096", "0"):
            more = self.write("more.csv", self.read("t.csv") + last.encode() + b"\n")
            self.fails(
                "more.csv, line 8194: a table has at most 4,096 rows after folding, and this is one more; split",
                "pack",
                self.at("other"),
                more,
                "--fold",
            )
        self.pack(self.write("t.csv", "x\n" + "5\n" * 200000), "--fold")
        self.assertEqual(self.read("out"), b"TC" + words(1, 4, MOST, MOST, MOST, 3395, 5, 5, 5, 5) + NO_PLAN)

    def test_name_that_is_taken(self):
        table = self.write("t.csv", "copies\n5\n5\n")
        self.pack(table, "--fold")
        before = self.read("out"), self.read("out.names")
        self.assertEqual(before[1].decode().splitlines()[-1], "copies copies_2")
        command, _ = self.command("unpack", self.at("out"), self.at("back"))
        self.assertEqual(self.read("back/t.csv"), b"copies_2,copies\n2,5\n")
        self.command(*shlex.split(command)[1:])
        self.assertEqual((self.read("out"), self.read("out.names")), before)

    def test_packed_file(self):
        packed = self.write("packed", SAMPLE)
        for command in ("join", "count"):
            self.fails("--copies and --fold go with CSV files", command, packed, "--fold")

    def test_as_python_folds(self):
        """pack --fold makes the tables that pigrozd.fold makes, but for those in which no row has several copies."""
        draw = random.Random(7)
        for _ in range(80):
            table = drawn_table(draw, "abc"[: draw.randrange(1, 4)])
            path = self.csv("t.csv", table)
            self.pack(path, "--fold")
            folded = fold(table)
            several = any(copies > 1 for copies in folded.table["copies"])
            self.assertEqual(self.read("out"), pigrozd.make_file([folded if several else table]))

    def csv(self, name, columns):
        return self.write(name, csvfiles.csv_text(columns, zip(*columns.values())))

    def test_drawn_files(self):
        """The rows and their order are the same; but for a plan that is mended in another way, of which is told."""
        draw, seen = random.Random(8), {}
        for _ in range(400):
            kind = self.check_folded(draw)
            seen[kind] = seen.get(kind, 0) + 1
        self.assertEqual(sorted(seen), ["another order", "equal", "no plan", "refused"])
        for kind, least in (("equal", 100), ("no plan", 60), ("another order", 3), ("refused", 20)):
            self.assertGreaterEqual(seen[kind], least, kind)

    def check_folded(self, draw):
        """Joins drawn tables folded and not folded, from CSV files and packed. What there was to see."""
        tables = drawn_tables(draw)
        paths = [self.csv(name + ".csv", table) for name, table in tables.items()]
        plan = None if draw.random() < 0.3 else drawn_plan(draw, draw.sample(sorted(tables), len(tables)))
        given = [*paths, *(["--plan", plan] if plan else [])]
        status, out, err = self.run_here("join", *given)
        if status:
            self.assertEqual(self.run_here("join", *given, "--fold"), (status, out, err))
            self.assertEqual(self.run_here("pack", self.at("out"), *given, "--fold")[0], 1)
            return "refused"
        told = self.pack(*given, "--fold")[1]
        packed, _ = self.command("join", self.at("out"))
        self.assertEqual(sorted(packed.splitlines()), sorted(out.splitlines()))
        if not told:
            self.assertEqual(packed, out)
            self.assertEqual(self.command("join", *given, "--fold"), (out, ""))
            return "equal" if plan else "no plan"
        self.assertIsNotNone(plan)
        self.assertIn("note: the plan is mended by the tables' numbers of rows, which folding lowers: the join", told)
        keeps = shlex.split(told.split("; ")[-1])[:2]
        self.fails("--fold: the plan is mended .* in another order; --plan .* keeps the", "join", *given, "--fold")
        self.assertEqual(self.command("join", *paths, *keeps, "--fold"), (out, ""))
        self.pack(*paths, *keeps, "--fold")
        self.assertEqual(self.command("join", self.at("out"))[0], out)
        return "another order"

    def test_a_plan_that_is_mended_in_another_way(self):
        """By 6, 16 and 4 rows (frames (readings exposures)) has frames as its root, and by 1, 2 and 4 the readings."""
        frames = self.write("frames.csv", "frame,exposure\n" + "10,1\n" * 6)
        exposures = self.write("exposures.csv", "exposure,reading\n" + "1,7\n" * 8 + "2,7\n" * 8)
        readings = self.write("readings.csv", "reading,centikelvin\n7,1\n7,2\n7,3\n7,4\n")
        given = [frames, exposures, readings, "--plan", "(frames (readings exposures))"]
        told = (
            "the plan is mended by the tables' numbers of rows, which folding lowers: the join follows (readings "
            "(exposures frames)), and (frames (exposures readings)) without --fold, so that the same results come in "
            "another order; --plan '(frames (exposures readings))' keeps the order\n"
        )
        out, err = self.pack(*given, "--fold")
        self.assertEqual(out.splitlines()[1:], [
            "frames: 6 rows folded to 1, 58 bytes to 22", "exposures: 16 rows folded to 2, 138 bytes to 34"
        ])
        self.assertEqual(err, "pigrozd: note: " + told)
        self.assertEqual(self.read("out")[-5:], bytes([255, 0, 255, 2, 1]))  # as it was given
        self.assertEqual(self.command("join", *given, "--fold", status=2), ("", "pigrozd: --fold: " + told))
        rows, folded = self.command("join", *given)[0], self.command("join", self.at("out"))[0]
        self.assertEqual(sorted(rows.splitlines()), sorted(folded.splitlines()))
        self.assertNotEqual(rows, folded)
        keeps = [*given[:4], "(frames (exposures readings))", "--fold"]
        self.assertEqual(self.command("join", *keeps), (rows, ""))
        self.assertEqual(self.pack(*keeps)[1], "")
        self.assertEqual(self.command("join", self.at("out"))[0], rows)
        self.assertEqual(self.command("count", *given, "--fold"), self.command("count", *given))

    def test_another_mended_plan_is_another_order(self):
        """Of two trees that one plan can be mended to, each names the tables in an order of its own."""
        draw, seen = random.Random(9), 0
        for _ in range(3000):
            attributes = [sorted(draw.sample(range(5), draw.choice([1, 2, 3]))) for _ in range(draw.choice([3, 4, 5]))]
            text = drawn_plan(draw, draw.sample([str(t) for t in range(len(attributes))], len(attributes)))
            plan = plans.from_bytes(plans.code_of(text, ["t"] * len(attributes)))
            before, after = ([plans.Shape(held, draw.randrange(1, 9)) for held in attributes] for _ in range(2))
            found = [mending.mend(plan, shapes) for shapes in (before, after)]
            if all(found) and found[0].code != found[1].code:
                self.assertNotEqual(*(plans.tables_of(mended.plan) for mended in found))
                seen += 1
        self.assertGreater(seen, 50)


class OutOfRange(Folder):
    """Answer 19 in the commands: it is a fault of a record, as 1 to 6 are."""

    BAD = COUNTED[:10] + words(0) + COUNTED[14:]
    WHY = "refused 19 0: .*row 0 of table0 has 0 copies, and a row has 1 to 65,535"

    def setUp(self):
        super().setUp()
        self.bad = self.write("bad", self.BAD)

    def test_commands(self):
        planned = [["join", self.bad, "--plan", "(0 (1 2))"], ["plan", self.bad, "--plan", "(0 (1 2))"]]
        given = [[command, self.bad] for command in ("join", "count", "view", "plan")]
        for command in (*given, *planned, ["unpack", self.bad, self.at("back")]):
            with self.subTest(command):
                self.assertEqual(self.fails(self.WHY + "; pigrozd dump .*bad shows it", *command, status=1), "")
        self.assertFalse(os.path.exists(self.at("back")))

    def test_dump(self):
        out, _ = self.command("dump", self.bad)
        self.assertRegex(out, self.WHY)
        self.assertRegex(out, r"\n       0  54 43 +mark of a table with copies\n          \^\^ answer 19, detail 0: ")
        out, _ = self.command("dump", self.write("good", COUNTED), "--answer", "19", "42")
        self.assertIn("but this file is within the rules", out)

    def test_rows(self):
        self.fails(
            "standard input: refused 19 0: .*; pigrozd dump .*bad --answer 19 0 shows the place",
            "rows",
            self.bad,
            stdin=b"refused 19 0\n",
            status=1,
        )
        for number in (16, 17, 18):
            stdin = b"refused %d 0\n" % number
            self.fails("an answer of calls for one result", "rows", self.bad, stdin=stdin, status=1)

    def test_pack(self):
        """A copy count that is out of range is told of the CSV file; a packed one is never made."""
        table = self.write("t.csv", "n,x\n0,5\n")
        self.fails("t.csv, line 2, column 1", "pack", self.at("out"), table, "--copies", "n", "--anyway")
        self.assertFalse(os.path.exists(self.at("out")))

    def test_no_csv_file(self):
        self.fails("t.csv: a packed file, not CSV", "join", self.write("t.csv", COUNTED))


if __name__ == "__main__":
    unittest.main()
