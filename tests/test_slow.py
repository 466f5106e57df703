"""Tests of the slow engine: against the reference, against the join, from Python and by commands; and of the program
that runs both engines."""
import array
import collections
import io
import os
import random
import re
import subprocess
import sys
import types
import unittest
from unittest import mock

from support import ACCEPT, COUNTED_SAMPLE, CSVS, ROWS, SAMPLE, SAMPLE_PLAN, TOP
from support import Folder, damaged, drawn_copies, load, needs_accept, samples, with_copies
from test_library import BEFORE, VALUES, drawn_file, drawn_tables, words

import pigrozd
import reference
from pigrozd import fileformat, library, plans

MOST = reference.MOST_CHOICES


def choices(data):
    """How many choices a file's tables have, as far as they can be read."""
    return plans.choices(fileformat.read(data).tables)


def column(rows, first=0):
    """A table of one attribute with values of its own."""
    return {0: range(first, first + rows)}


def sevens(*rows):
    """Tables of one attribute and one value: every choice agrees."""
    return [{0: [7] * n} for n in rows]


def apart(*rows):
    """Tables that share no attribute: every choice agrees."""
    return [{t: range(n)} for t, n in enumerate(rows)]


class Engine(unittest.TestCase):
    """One call of the slow engine: its answer, and what the output holds."""

    def slow(self, file, output_words):
        """The slow engine's answer and the rows that it wrote. The words behind them are as they were."""
        output = words(BEFORE) * output_words
        answer = pigrozd.call_slow(file, output)
        width = len(plans.width(fileformat.read(bytes(file)).tables))
        end = width * answer.rows
        self.assertEqual(output[end:], words(BEFORE) * (output_words - end))
        self.assertNotIn(answer.number, (10, 13))
        if answer.number:
            self.assertEqual(answer.rows, 0)
        return answer, output, [list(output[i : i + width]) for i in range(0, end, width or 1)]

    def check(self, file, output_words, scratch_words=2000, by_reference=True):
        """Both engines agree where neither says 10 or 15, and the slow one with the reference. Its answer."""
        file = bytes(file)
        answer, output, rows = self.slow(file, output_words)
        joined = words(BEFORE) * output_words
        given = pigrozd.call(file, words(0) * scratch_words, joined)
        with self.subTest(file=file[:200].hex(), output=output_words):
            self.assertNotEqual(given.number, 15)
            if given.number != 10 and answer.number != 15:
                self.assertEqual(answer, given[:3])
                self.assertEqual(output, joined)
            if given.number not in (0, 10, 11):
                self.assertEqual(answer, given[:3])
            if by_reference:
                self.assertEqual((answer.number, answer.detail, rows), reference.slow_outcome(file, output_words))
                self.assertEqual(answer.rows, len(rows))
        return answer


class Files(Engine):
    def test_sample(self):
        answer, output, _ = self.slow(SAMPLE, 17)
        self.assertEqual((answer, output), ((0, 0, 4), words(*VALUES, BEFORE)))

    def test_random_files(self):
        """800 small files, whole and damaged. In every second one values are missing, every third has no plan, and in
        three of four some tables have copies."""
        chance, numbers, missing, mended, counted = random.Random(11), collections.Counter(), 0, 0, 0
        for index in range(800):
            file = drawn_file(chance, index)
            if chance.random() < 0.3:
                file[chance.randrange(len(file))] = chance.choice((0, 1, 2, 255))
            few = choices(bytes(file)) < 50000
            number = self.check(file, chance.choice((300, 12, 0)), chance.choice((1000, 40)), few).number
            numbers[number] += 1
            counted += number in (0, 11) and fileformat.read(bytes(file)).is_counted()
            if number == 0:
                missing += reference.NOT_RECORDED.to_bytes(4, "little") in file
                read = fileformat.read(bytes(file))
                mended += bool(read.plan) and read.mended.code != read.code
        self.assertGreater(numbers[0], 80)
        self.assertGreater(numbers[11], 30)
        for number in (1, 2, 3, 7, 8, 9, 14, 19):
            self.assertGreater(numbers[number], 0, number)
        self.assertGreater(missing, 50)
        self.assertGreater(mended, 20)
        self.assertGreater(counted, 100)

    def test_damaged_samples(self):
        seen = collections.Counter(self.check(data, 300).number for data in damaged(700) if choices(data) < 20000)
        self.assertGreater(len(seen), 9)

    def test_samples(self):
        """The files of all samples; by the reference too where it does not take long."""
        seen = collections.Counter()
        for data in samples().values():
            few = choices(data) < 20000
            seen[self.check(data, 300, 70000, few or fileformat.read(data).fault is not None).number] += 1
        self.assertEqual(set(seen), {0, 1, 2, 3, 4, 5, 6, 7, 8, 9, 11, 14, 15, 19})
        self.assertGreater(seen[15], 15)

    def test_every_length_of_output(self):
        """From no word to more than is needed: 11 with the number of results, and nothing written, until all fit."""
        draw = random.Random(3)
        files = [SAMPLE, SAMPLE[:121] + bytes([255, 0, 255, 2, 1]), SAMPLE[:118] + b"PL\0"]
        files += [pigrozd.make_file(*drawn_tables(draw, 0.1)) for _ in range(150)]
        files += [COUNTED_SAMPLE, *(drawn_copies(file, draw) for file in files[-20:])]
        tried = 0
        for file in files:
            number, _, rows = reference.slow_outcome(file, 100000)
            if number or not 0 < len(rows) < 100:
                continue
            need = sum(map(len, rows))
            for output_words in range(need + 4):
                answer = self.check(file, output_words)
                self.assertEqual(answer, (0, 0, len(rows)) if output_words >= need else (11, len(rows), 0))
                tried += 1
        self.assertGreater(tried, 500)

    def test_order_of_the_plan_that_is_followed(self):
        """With these row counts the plan is mended to one that begins with the last table."""
        tables = [
            {0: range(3), 1: [2, 1, 0]},
            {1: [y % 3 for y in range(8)], 2: range(8)},
            {2: [5, 4, 3, 2, 1, 0], 3: range(6)},
        ]
        file = pigrozd.make_file(tables, (0, (2, 1)))
        self.assertEqual(fileformat.read(file).mended.code, bytes([255, 2, 255, 1, 0]))
        self.check(file, 300)
        self.assertEqual([row[3] for row in self.slow(file, 300)[2]], list(range(6)))


class Limit(Engine):
    """15 exactly if the product of all row counts, or of all copies where tables have them, is more than 1,048,576."""

    def answer(self, tables, plan=None, output_words=300, by_reference=False):
        return self.check(pigrozd.make_file(tables, plan), output_words, 600000, by_reference)

    def test_at_the_limit(self):
        self.assertEqual(MOST, 1 << 20)
        few = [column(1024), {0: range(1022, 2046), 1: range(1024)}]
        self.assertEqual(self.answer(few, (0, 1), by_reference=True), (0, 0, 2))
        self.assertEqual(self.answer(few, None, 3), (11, 2, 0))
        self.assertEqual(self.answer([column(1023), column(1025, 1022)]), (0, 0, 1))
        self.assertEqual(self.answer([column(4096), column(256, 4096)]), (0, 0, 0))
        self.assertEqual(self.answer([column(64), column(128, 63), column(128, 63)]), (0, 0, 1))
        self.assertEqual(self.answer([column(2)] * 15 + [column(32, 1)]), (0, 0, 1))
        self.assertEqual(self.answer([column(1)] * 13 + [column(4, 1), column(512), column(512)]), (0, 0, 0))

    def test_past_the_limit(self):
        for rows in ((919, 1141), (1141, 919), (1025, 1024), (4096, 257), (7, 163, 919), (4096, 4096)):
            for output_words in (0, 300):
                with self.subTest(rows=rows):
                    self.assertEqual(self.answer(sevens(*rows), None, output_words), (15, 0, 0))
        for rows in ((919, 1141), (4096, 4096), (102, 102, 102), (4096,) * 8):
            self.assertEqual(self.answer(apart(*rows)), (15, 0, 0))
        self.assertEqual(self.answer([column(2)] * 15 + [column(33)]), (15, 0, 0))

    def test_products_that_no_word_holds(self):
        """2 to the 32, to the 64 and to the 192; and 2 to the 32 with 1,048,576 more."""
        for rows in ((16,) * 8, (16,) * 16, (4096,) * 5 + (16,), (4096,) * 16, (1024, 1024, 17, 241)):
            with self.subTest(rows=rows):
                self.assertEqual(self.answer(sevens(*rows)), (15, 0, 0))

    def test_a_table_of_no_rows(self):
        """The product is 0, wherever the table stands and however many rows the others have."""
        for others in ((4096, 4096), (4096,) * 15, (16,) * 8):
            for place in {0, 1, len(others)}:
                tables = sevens(*others[:place], 0, *others[place:])
                with self.subTest(others=others, place=place):
                    self.assertEqual(self.answer(tables, None, 0), (0, 0, 0))
        self.assertEqual(self.answer([{0: []}], None, 0), (0, 0, 0))

    def counted(self, *copies, output_words=300):
        """The answer for tables of one value, with these copies of their rows: every choice agrees."""
        data = with_copies(pigrozd.make_file(sevens(*map(len, copies))), copies)
        return self.check(data, output_words, 600000, False)

    def test_copies_at_the_limit(self):
        """The copies of a table are added up, and the sums are multiplied."""
        for copies in (([1024], [1024]), ([1000, 24], [1, 1023]), ([65535, 1], [16]), ([2] * 16, [32768])):
            self.assertEqual(self.counted(*copies), (11, MOST, 0))
        self.assertEqual(self.counted([65535] * 16), (11, 65535 * 16, 0))
        self.assertEqual(self.counted([65535] * 16 + [16]), (11, MOST, 0))
        self.assertEqual(self.counted([256] * 4096), (11, MOST, 0))
        self.assertEqual(self.counted([1] * 4096, [255, 1]), (11, MOST, 0))
        few = pigrozd.make_file([{0: [7, 8]}, {0: [9, 8]}], (0, 1))
        few = with_copies(few, [[1022, 2], [1020, 4]])
        self.assertEqual(self.check(few, 300), (0, 0, 8))
        self.assertEqual(self.check(few, 7), (11, 8, 0))

    def test_copies_past_the_limit(self):
        for copies in (
            ([61681], [17]),
            ([1024], [1000, 25]),
            ([65535] * 16 + [17],),
            ([256] * 4095 + [257],),
            ([65535], [17]),
            ([65535], [65535]),
            ([32768, 32768], [65535, 1]),
            ([65535] * 4096,) * 16,
        ):
            for output_words in (0, 300):
                self.assertEqual(self.counted(*copies, output_words=output_words), (15, 0, 0))

    def test_rows_within_the_limit_and_copies_past_it(self):
        """The copies decide and not the rows: also of one table alone."""
        data = pigrozd.make_file([column(1024), column(1024, 1022)], (0, 1))
        self.assertEqual(self.check(data, 300, 600000, False), (0, 0, 2))
        self.assertEqual(self.check(with_copies(data, [None, [1] * 1024]), 300, 600000, False), (0, 0, 2))
        self.assertEqual(self.check(with_copies(data, [None, [1] * 1023 + [2]]), 300, 600000, False), (15, 0, 0))
        self.assertEqual(self.check(with_copies(data, [[2] + [1] * 1023, None]), 300, 600000, False), (15, 0, 0))

    def test_copies_and_a_table_of_no_rows(self):
        """The product is 0."""
        for copies in (([], [65535], [65535]), ([65535] * 16, [], [65535] * 2), ([65535], [65535], [])):
            self.assertEqual(self.counted(*copies), (0, 0, 0))

    def test_one_table(self):
        self.assertEqual(self.answer([column(4096)], None, 4096, True), (0, 0, 4096))
        self.assertEqual(self.answer([column(4096)], None, 4095, True), (11, 4096, 0))

    def test_as_many_results_as_choices(self):
        """1,048,576 choices that all agree, and an output that just fits them."""
        file = pigrozd.make_file(sevens(1024, 1024))
        self.assertEqual(self.check(file, MOST - 1, 20000, False), (11, MOST, 0))
        answer, output, _ = self.slow(file, MOST + 1)
        self.assertEqual((answer, output), ((0, 0, MOST), words(7) * MOST + words(BEFORE)))
        self.assertEqual(self.check(file, MOST + 1, 20000, False), (0, 0, MOST))
        self.assertEqual(self.answer(apart(1024, 1024), None, 2 * MOST), (11, MOST, 0))

    def test_in_the_place_of_10(self):
        """Behind 9 and 14, before 11; the scratch is of no matter."""
        past = sevens(1025, 1024)
        for plan, number in ((b"\xff\0", 7), (b"\xff\0\0", 8), ((0, 1), 15), (None, 15)):
            file = pigrozd.make_file(past, plan)
            self.assertEqual(self.check(file, 0, 0, number != 15).number, number)
            self.assertEqual(self.check(file + b"\0", 0, 0, True).number, 6)
        ring = [{0: [7], 1: [7]}, {1: [7] * 1025, 2: [7] * 1025}, {0: [7] * 1024, 2: [7] * 1024}]
        self.assertEqual(self.answer(ring), (14, 0, 0))
        self.assertEqual(self.answer(ring, (0, (1, 2))), (9, 0, 0))
        file = pigrozd.make_file(past)
        self.assertEqual(pigrozd.call(file, words(), words())[:2], (10, 21514))
        self.assertEqual(pigrozd.call(SAMPLE, words(), words())[:2], (10, 118))
        self.assertEqual(self.slow(SAMPLE, 16)[0], (0, 0, 4))


class Buffers(unittest.TestCase):
    def test_output(self):
        good = words(*range(20))
        for bad in (bytearray(400), memoryview(bytes(400)).cast("I"), memoryview(good)[::2], bytes(80), 5):
            with self.subTest(bad=bad), self.assertRaises(TypeError):
                pigrozd.call_slow(SAMPLE, bad)
        with self.assertRaises(ValueError):
            pigrozd.call_slow(SAMPLE, memoryview(bytearray(401))[1:].cast("I"))
        self.assertEqual(pigrozd.call_slow(SAMPLE, memoryview(good)[2:18]), (0, 0, 4))
        self.assertEqual(good, words(0, 1, *VALUES, 18, 19))
        self.assertEqual(pigrozd.call_slow(SAMPLE, words()), pigrozd.SlowAnswer(11, 4, 0))

    def test_files_that_are_no_bytes(self):
        for file in (5, None, "crates/pigrozd/stdin", [84, 66]):
            with self.subTest(file=file), self.assertRaisesRegex(TypeError, "the bytes of a file are wanted, not a "):
                pigrozd.call_slow(file, words())


class FromPython(Folder):
    def test_results(self):
        """All but the counts is that of the join."""
        draw, joined = random.Random(5), 0
        for index in range(150):
            tables, plan = drawn_tables(draw, 0.1)
            given = (tables, plan if index % 2 else None)
            try:
                fast = pigrozd.join(*given)
            except pigrozd.Refused as refused:
                with self.assertRaises(pigrozd.Refused) as caught:
                    pigrozd.join(*given, engine="slow")
                self.assertEqual(caught.exception.args, refused.args)
                continue
            slow = pigrozd.join(*given, engine="slow")
            for name in ("columns", "names", "rows", "plan", "plan_bytes", "mended", "found"):
                self.assertEqual(getattr(slow, name), getattr(fast, name), name)
            self.assertEqual((fast.engine, slow.engine), ("join", "slow"))
            joined += 1
        self.assertGreater(joined, 50)

    def test_no_counts(self):
        tables = {"frames": {"frame": [10, 11], "exposure": [1, 2]}, "exposures": {"exposure": [2], "reading": [9]}}
        fast, slow = pigrozd.join(tables, engine="join"), pigrozd.join(tables, engine="slow")
        self.assertEqual(fast, pigrozd.join(tables))
        self.assertIsNotNone(fast.counts)
        self.assertEqual((slow.counts, slow.entries, slow.lookups, slow.comparisons, slow.visits), (None,) * 5)
        self.assertEqual(repr(slow), "<Result: 1 row, names ('frame', 'exposure', 'reading'), no counts>")
        self.assertEqual(list(pigrozd.join([slow, {"reading": [9, 9]}], engine="slow")), [(11, 2, 9)] * 2)

    def test_no_results_have_counts_of_0(self):
        self.assertEqual(pigrozd.join([{0: []}]).counts, (0, 0, 0, 0))
        self.assertIsNone(pigrozd.join([{0: []}], engine="slow").counts)

    def test_other_engines(self):
        for engine in ("fast", "", "Slow", "joins", None, 5, b"slow", ["slow"]):
            with self.subTest(engine=engine), self.assertRaisesRegex(ValueError, "^engine is join or slow, not "):
                pigrozd.join(None, engine=engine)
            with self.subTest(engine=engine), self.assertRaisesRegex(pigrozd.InputError, re.escape(repr(engine))):
                pigrozd.join_file("none", engine=engine)

    def test_more_results_than_are_lent_at_first(self):
        slow = pigrozd.join(sevens(200, 200), engine="slow")
        self.assertEqual((slow.rows, set(slow.columns[0])), (40000, {7}))
        with self.assertRaisesRegex(pigrozd.Refused, "^refused 11 1048576: .* fits 524,288; the join of table 1 with"):
            pigrozd.join(apart(1024, 1024), engine="slow")
        self.assertEqual(pigrozd.join(sevens(1024, 1024), engine="slow").rows, MOST)

    def test_too_many_choices(self):
        with self.assertRaises(pigrozd.Refused) as caught:
            pigrozd.join([column(1025), column(2), column(1024)], engine="slow")
        refused = caught.exception
        self.assertEqual((refused.number, refused.detail), (15, 0))
        self.assertEqual(
            str(refused),
            "refused 15 0: more choices than the slow engine goes through: one row of each table makes 1,025 * 2 * "
            "1,024 = 2,099,200 choices, and the slow engine goes through 1,048,576 at most; give it fewer rows, or "
            "leave the tables to the join",
        )
        self.assertEqual(pigrozd.join([column(1025), column(2), column(1024)]).rows, 2)

    def test_too_many_choices_of_copies(self):
        data = with_copies(pigrozd.make_file(sevens(2, 1, 3)), [[65535, 1], None, [15, 1, 1]])
        with self.assertRaises(pigrozd.Refused) as caught:
            pigrozd.join_file(data, engine="slow")
        self.assertEqual(
            str(caught.exception),
            "refused 15 0: more choices than the slow engine goes through: one copy of one row of each table makes "
            "65,536 * 1 * 17 = 1,114,112 choices, and the slow engine goes through 1,048,576 at most; give it fewer "
            "rows or copies, or leave the tables to the join",
        )
        self.assertEqual(pigrozd.count_file(data).results, 1114112)

    def test_files(self):
        self.assertEqual(list(pigrozd.join_file(SAMPLE, engine="slow")), list(pigrozd.join_file(SAMPLE)))
        self.command("pack", self.at("out"), *CSVS)
        slow = pigrozd.join_file(self.at("out"), engine="slow")
        self.assertEqual((slow.names[0], slow.engine, slow.found), ("frame", "slow", True))
        with self.assertRaisesRegex(pigrozd.Refused, "^refused 15 0: "):
            pigrozd.join_file(pigrozd.make_file(sevens(1025, 1024)), engine="slow")
        self.write("bare", SAMPLE)
        self.assertEqual(pigrozd.join_file(self.at("bare"), "slow").names, (0, 1, 2, 3))

    def test_an_older_library(self):
        """One with the join alone, and one with neither function."""
        for found, told in (("pigrozd_join", "an older library of Pigrozd's"), ("other", "not Pigrozd's library")):
            older = types.SimpleNamespace(**{found: None})
            library.function.cache_clear()
            self.addCleanup(library.function.cache_clear)
            with mock.patch.object(library, "library", lambda: older), self.assertRaisesRegex(
                pigrozd.LibraryError, "is %s: it has no function pigrozd_slow_join " % told
            ):
                pigrozd.join([{0: [1]}], engine="slow")


class Commands(Folder):
    def large(self):
        """Two CSV files with 1,025 and 1,024 rows."""
        for name, rows in (("a", 1025), ("b", 1024)):
            self.write(name + ".csv", "x\n" + "".join("%d\n" % (rows + i) for i in range(rows)))
        return self.at("a.csv"), self.at("b.csv")

    def test_csv_files(self):
        self.assertEqual(self.command("join", *CSVS, "--engine", "slow"), (ROWS, ""))
        self.assertEqual(self.command("join", "--engine=slow", *CSVS, "--plan", SAMPLE_PLAN), (ROWS, ""))
        self.assertEqual(self.command("join", *CSVS, "--engine", "join"), (ROWS, ""))

    def test_packed_files(self):
        self.command("pack", self.at("out"), *CSVS)
        self.assertEqual(self.command("join", self.at("out"), "--engine", "slow"), (ROWS, ""))
        self.command("join", self.at("out"), "--engine", "slow", "-o", self.at("joined.csv"))
        self.assertEqual(self.read("joined.csv").decode(), ROWS)

    def test_damaged_files(self):
        """Output, messages and status are those of the join."""
        for data in damaged(60):
            if choices(data) < 20000:
                here = self.write("file", data)
                self.assertEqual(self.run_here("join", here, "--engine", "slow"), self.run_here("join", here))

    def test_too_many_choices(self):
        self.write("joined.csv", "before\n")
        told = "refused 15 0: .*1,025 \\* 1,024 = 1,049,600 choices, .*; give it fewer rows, or leave the tables to "
        self.fails(told, "join", *self.large(), "--engine", "slow", "-o", self.at("joined.csv"), status=1)
        self.assertEqual(self.read("joined.csv"), b"before\n")
        self.command("pack", self.at("out"), *self.large())
        self.fails("out: " + told, "join", self.at("out"), "--engine", "slow", status=1)
        self.assertEqual(self.command("join", self.at("out"))[0].count("\n"), 1024)

    def test_other_engines(self):
        self.fails("pigrozd: --engine is join or slow, not 'fast'", "join", *CSVS, "--engine", "fast")
        self.fails("not ''", "join", self.at("none"), "--engine", "")
        self.assertEqual(self.run_here("join", *CSVS, "--engine")[0], 2)

    def test_explained(self):
        """The plan is drawn as for the join. The work is told by choices, since there are no counts."""
        _, fast = self.command("join", *CSVS, "--explain")
        _, slow = self.command("join", *CSVS, "--explain", "--engine", "slow")
        drawn, work = slow.split("\n\nrows of the tables")
        self.assertEqual(drawn, fast.split("\n\nrows of the tables")[0])
        figures = [line.split()[-1] for line in ("rows of the tables" + work).splitlines()]
        self.assertEqual(figures, ["11", "4", "48", "1,048,576", "16"])
        self.assertIn("\nchoices that the slow engine tried              48\n", work)
        _, refused = self.command("join", *self.large(), "--explain", "--engine", "slow", status=1)
        self.assertRegex(refused, "scratch needed: .*\n.*\npigrozd: refused 15 0: ")

    def test_copies(self):
        """The choices are those of copies: 15 of frames, 4 of exposures, 7 of readings. IN is the number of rows."""
        here = self.write("counted", COUNTED_SAMPLE)
        out, fast = self.command("join", here, "--explain")
        self.assertEqual(out.count("\n"), 1 + 23)
        same, slow = self.command("join", here, "--explain", "--engine", "slow")
        self.assertEqual(same, out)
        for told in (fast, slow):
            self.assertIn("|-- table0: 4 rows, 15 copies (a0, a1)\n", told)
            self.assertEqual(re.findall(r"rows of the tables \(IN\) +(.*)", told), ["11"])
        self.assertEqual(re.findall("choices that the slow engine tried +(.*)", slow), ["420"])
        many = self.write("many", with_copies(SAMPLE, [[65535] * 4, None, None]))
        told = "the slow engine says 15: 262,140 * 4 * 3 = 3,145,680 choices, and it goes through 1,048,576 at most"
        self.assertIn(told, self.command("dump", many)[0].splitlines())
        told = "many: refused 15 0: .*: one copy of one row of each table makes 262,140 .* fewer rows or copies, "
        self.fails(told, "join", many, "--engine", "slow", status=1)

    def test_dump(self):
        self.command("pack", self.at("out"), *self.large())
        out, _ = self.command("dump", self.at("out"))
        told = "the slow engine says 15: 1,025 * 1,024 = 1,049,600 choices, and it goes through 1,048,576 at most"
        self.assertEqual(out.splitlines().count(told), 1)
        lines = self.command("dump", self.at("out"), "--answer", "15", "0")[0].splitlines()
        self.assertIn("answer 15 0: more choices than the slow engine goes through", lines)
        out, _ = self.command("dump", self.at("out"), "--answer", "15", "3")
        self.assertIn("goes through; but the detail of 15 is 0\n", out)
        here = self.write("sample", SAMPLE)
        self.assertNotIn("slow", self.command("dump", here)[0])
        out, _ = self.command("dump", here, "--answer", "15", "0")
        self.assertIn("goes through; but this file has 4 * 4 * 3 = 48 choices\n", out)
        alone = self.write("alone", pigrozd.make_file([{0: [1]}]))
        self.assertIn("but this file has 1 choice\n", self.command("dump", alone, "--answer", "15", "0")[0])
        cut = self.write("cut", self.read("out")[:-1])
        self.assertNotIn("slow", self.command("dump", cut)[0])

    def test_rows(self):
        """The program never prints 15."""
        self.fails(
            "standard input: refused 15 0: .*; it is the slow engine's answer, and this program never gives it",
            "rows",
            self.write("sample", SAMPLE),
            stdin=b"refused 15 0\n",
            status=1,
        )


@needs_accept
class Program(unittest.TestCase):
    """target/bin/accept, which runs both engines, each with an output of its own of 16,384 words."""

    def printed(self, data):
        done = subprocess.run([ACCEPT], input=data, stdout=subprocess.PIPE, stderr=subprocess.PIPE, check=True)
        self.assertEqual(done.stderr, b"")
        return done.stdout.decode()

    def told(self, data):
        """What it must print, by the library."""
        one, other = array.array("I", bytes(65536)), array.array("I", bytes(65536))
        joined, slow = pigrozd.call(data, array.array("I", bytes(65536)), one)[:3], pigrozd.call_slow(data, other)
        if joined[0] == 10 or slow.number == 15:
            return "skipped %d %d %d %d %d %d\n" % (*joined, *slow)
        self.assertEqual((joined, one), (slow, other))
        return "same %d %d %d\n" % joined

    def test_samples(self):
        seen = collections.Counter()
        for name, data in samples().items():
            with self.subTest(name):
                printed = self.printed(data)
                self.assertEqual(printed, self.told(data))
                if choices(data) < 20000:
                    self.assertEqual(printed, reference.accepted(data))
                seen[printed.split()[0]] += 1
        self.assertGreater(seen["same"], 200)
        self.assertGreater(seen["skipped"], 15)

    def test_both_refuse(self):
        self.assertEqual(self.printed(pigrozd.make_file(sevens(4096, 4096))), "skipped 10 86016 0 15 0 0\n")
        self.assertEqual(self.printed(pigrozd.make_file(sevens(1000, 1000))), "skipped 10 21000 0 11 1000000 0\n")
        self.assertEqual(self.printed(pigrozd.make_file(sevens(103, 102, 102))), "skipped 11 1071612 0 15 0 0\n")
        self.assertEqual(self.printed(pigrozd.make_file(sevens(780, 780))), "same 11 608400 0\n")

    def test_long_input(self):
        self.assertEqual(self.printed(bytes(65537)), "refused 13 65536\n")
        self.assertEqual(self.printed(SAMPLE + bytes(65537 - len(SAMPLE))), "refused 13 65536\n")
        self.assertEqual(self.printed(SAMPLE + bytes(65536 - len(SAMPLE))), "same 6 126 0\n")
        self.assertEqual(self.printed(b""), "same 1 0 0\n")


def row_counts(listed):
    """The row counts of a list such as: 1,024, 1,024 (in words); or: 2 in each of 16 tables."""
    every = re.fullmatch("([0-9]+) in each of ([0-9]+) tables", listed)
    if every:
        return [int(every[1])] * int(every[2])
    return [int(number.replace(",", "")) for number in re.sub(r" \(.*\)", "", listed).split(", ")]


class Documents(Engine, Folder):
    def test_commands(self):
        """The commands of docs/ACCEPTANCE.md print what stands below them."""
        self.assertEqual(self.run_document("ACCEPTANCE.md"), 3)

    def test_answer_15(self):
        """The table of docs/answers/15.md: row counts, their product, and what the slow engine says."""
        page = load("docs", "answers", "15.md").decode()
        rows = re.findall(r"^\| ([0-9][^|]*) \| ([0-9,]+) \| ([^|]*) \|$", page, re.M)
        self.assertGreater(len(rows), 7)
        for listed, product, said in rows:
            with self.subTest(listed):
                file = pigrozd.make_file(sevens(*row_counts(listed)))
                self.assertEqual(choices(file), int(product.replace(",", "")))
                answer = self.slow(file, 300)[0]
                self.assertEqual(answer.number == 15, said == "`refused 15 0`")
                self.assertTrue(answer.number == 15 or said.startswith("as the join"))

    def test_acceptance(self):
        """The Python program of docs/ACCEPTANCE.md: what it tells of three files."""
        program = re.search(r"```python\n(.*?)```", load("docs", "ACCEPTANCE.md").decode(), re.S)[1]
        with mock.patch.object(sys, "argv", ["accept.py"]), mock.patch.object(sys, "stdout", io.StringIO()) as out:
            here = {}
            exec(compile(program, "ACCEPTANCE.md", "exec"), here)
            large = pigrozd.make_file(sevens(1025, 1024))
            told = [here["compared"](file) for file in (SAMPLE, SAMPLE[:50], large)]
        self.assertEqual(told, ["same 0 0 4", "same 1 42 0", "skipped 11 1049600 0 15 0 0"])
        self.assertEqual(out.getvalue(), "")


class Objects(Folder):
    def test_a_program_with_the_join_alone(self):
        """It has nothing of the slow engine nor of results by number in it: these are objects of their own."""
        text = '#include "pigrozd.h"\nvoid *volatile f = (void *)pigrozd_join;\nint main(void) { return !f; }\n'
        source = self.write("f.c", text)
        compiler, library = os.environ.get("CC", "cc"), os.path.join(TOP, "target", "lib", "libpigrozd.a")
        subprocess.run([compiler, "-I", os.path.join(TOP, "include"), "-o", self.at("f"), source, library], check=True)
        named = subprocess.run(["nm", self.at("f")], stdout=subprocess.PIPE, check=True).stdout.decode()
        self.assertIn(" T pigrozd_join\n", named)
        for other in ("slow", "result_at", "number_of"):
            self.assertNotIn(other, named)


class Environment(unittest.TestCase):
    def test_missing_library(self):
        code = (
            "import pigrozd\ntry:\n    pigrozd.join([{0: [1]}], 0, engine='slow')\n"
            "except pigrozd.LibraryError as error:\n    print(error)"
        )
        environment = dict(os.environ, PYTHONPATH=os.path.join(TOP, "python"), PIGROZD_LIBRARY="libc.so.6")
        done = subprocess.run([sys.executable, "-c", code], env=environment, stdout=subprocess.PIPE, check=True)
        self.assertRegex(done.stdout.decode(), "^libc.so.6 is not Pigrozd's library: it has no function pigrozd_slow_")


if __name__ == "__main__":
    unittest.main()
