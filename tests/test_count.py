"""Tests of how many results a join has and how many bytes they take: counted without being written, told by answer 11,
and by the command."""
import array
import dataclasses
import itertools
import math
import pickle
import random
import unittest
import warnings
from unittest import mock

from make_samples import chain, file, right_deep, table
from reference import HOLD
from support import COUNTED_SAMPLE, CSVS, FOUND_PLAN, NO_PLAN, SAMPLE, SAMPLE_PLAN
from support import Folder, damaged, samples, with_copies
from test_access import EXACT, ONE_LESS, TABLES, as_copies, deep, grouped, one_value
from test_library import NEED, drawn_file, drawn_tables

import pigrozd
import reference
from pigrozd import Size, library, limits

ORDER = tuple(range(16))


def with_results(results):
    """A file that has so many results, of one value and up to 16 more."""
    tables = [table((0,), (1,)), *chain(results, 0, 1)]
    return file(tables, *right_deep(len(tables)))


class Sizes(unittest.TestCase):
    def test_numbers(self):
        size = Size(2**53 + 1, 7)
        self.assertEqual((size.results, size.values, size.bytes), (2**53 + 1, 7, 28 * 2**53 + 28))
        self.assertFalse(size.at_least)
        for number in (size.results, size.bytes):
            self.assertIs(type(number), int)
        self.assertFalse(Size(HOLD - 1, 1).at_least)
        self.assertTrue(Size(HOLD, 1).at_least)
        self.assertEqual(limits.HIGHEST_COUNT, HOLD)

    def test_words(self):
        for size, told in (
            (Size(0, 4), "0 results of 4 values, which take 0 bytes"),
            (Size(1, 1), "1 result of 1 value, which takes 4 bytes"),
            (Size(4, 4), "4 results of 4 values, which take 64 bytes"),
            (Size(2**32, 4), "4,294,967,296 results of 4 values, which take 68,719,476,736 bytes"),
            (
                Size(HOLD - 1, 1),
                "18,446,744,073,709,551,614 results of 1 value, which take 73,786,976,294,838,206,456 bytes",
            ),
            (
                Size(HOLD, 32),
                "at least 18,446,744,073,709,551,615 results of 32 values, which take at least "
                "2,361,183,241,434,822,606,720 bytes",
            ),
        ):
            self.assertEqual((str(size), repr(size)), (told, "<Size: %s>" % told))

    def test_objects(self):
        size = Size(4, 4)
        self.assertEqual(pickle.loads(pickle.dumps(size)), size)
        self.assertEqual(len({size, Size(4, 4), Size(4, 5)}), 2)
        with self.assertRaises(dataclasses.FrozenInstanceError):
            size.results = 5
        self.assertIs(pigrozd.Size, Size)


class Counting(Folder):
    def test_sample(self):
        for size in (
            pigrozd.count(TABLES),
            pigrozd.count(TABLES, SAMPLE_PLAN),
            pigrozd.count(TABLES, "(frames (readings exposures))"),
            pigrozd.count(list(TABLES.values())),
            pigrozd.count_file(SAMPLE),
            pigrozd.count_file(bytearray(SAMPLE[:118] + NO_PLAN)),
            pigrozd.count_file(self.write("sample", SAMPLE)),
            pigrozd.open_tables(TABLES).size,
        ):
            self.assertEqual(size, Size(4, 4))
        self.assertEqual(pigrozd.open_tables(TABLES)[1:].size, Size(3, 4))

    def test_no_results(self):
        for tables in ([{0: []}], [{0: [1], 1: [2]}, {0: [2]}], [{0: [None]}, {0: [None]}]):
            self.assertEqual(pigrozd.count(tables), Size(0, len(set().union(*tables))))
        self.assertEqual(pigrozd.open_tables([{0: []}]).size, Size(0, 1))

    def test_drawn_tables(self):
        """As many as the join gives; or it is refused in the same words."""
        chance, counted = random.Random(61), 0
        for index in range(300):
            given = drawn_tables(chance, 0.1)[: 1 + index % 2]
            told = []
            for function in (lambda *given: len(pigrozd.join(*given)), lambda *given: pigrozd.count(*given).results):
                try:
                    told.append(function(*given))
                except pigrozd.Refused as refused:
                    told.append(str(refused))
            self.assertEqual(*told)
            counted += isinstance(told[0], int) and told[0] > 0
        self.assertGreater(counted, 80)

    def test_drawn_files(self):
        """Some have copies. As many as the reference counts, or refused with its number and detail."""
        chance, counted = random.Random(71), 0
        for index in range(400):
            data = bytes(drawn_file(chance, index))
            number, detail, _, _ = reference.outcome(data, 10**6, 0)
            if number in (0, 11):
                size = pigrozd.count_file(data)
                self.assertEqual((size.results, size.at_least), (detail, False))
                counted += detail > 0 and b"TC" in data
            else:
                self.refused(number, detail, pigrozd.count_file, data)
        self.assertGreater(counted, 60)

    def test_copies(self):
        """A row with copies counts as often; the bytes are those of the results."""
        self.assertEqual(pigrozd.count_file(COUNTED_SAMPLE), Size(23, 4))
        many = with_copies(SAMPLE, [[65535] * 4, [65535] * 4, [65535] * 3])
        self.assertEqual(pigrozd.count_file(many), Size(4 * 65535**3, 4))
        for totals in ((1,), (65535,), (65535, 65537), (65536, 65536), (908558, 337, 92737, 649657)):
            self.assertEqual(pigrozd.count_file(one_value(*map(as_copies, totals))).results, math.prod(totals))
        for totals in ((65535, 65537, 641, 6700417), (65536,) * 4, (65535,) * 5, (65535 * 4096,) * 16):
            size = pigrozd.count_file(one_value(*map(as_copies, totals)))
            self.assertEqual((size.results, size.at_least), (HOLD, True))
        for copies in (0, 65536):
            told = self.refused(19, 0, pigrozd.count_file, one_value([1, copies]))
            self.assertIn("row 1 of table0 has {:,} copies, and a row has 1 to 65,535".format(copies), told)

    def test_samples(self):
        """As many as the reference counts, of every sample that is within the rules; they are far apart."""
        seen = set()
        for name, data in samples().items():
            with self.subTest(name):
                number, detail, rows, _ = reference.outcome(data, 10**6, 0)
                if number in (0, 11):
                    width = len(set().union(*(t.columns for t in reference.read(data)[0])))
                    self.assertEqual(pigrozd.count_file(data), Size(detail, width))
                    seen.add(detail.bit_length())
                else:
                    self.refused(number, detail, pigrozd.count_file, data)
        self.assertLess({0, 1, 13, 32, 33, 37, 64}, seen)

    def refused(self, number, detail, function, *given):
        with self.assertRaises(pigrozd.Refused) as caught:
            function(*given)
        refused = caught.exception
        self.assertEqual((refused.number, refused.detail, refused.size), (number, detail, None))
        return str(refused)

    def test_exact(self):
        """Numbers that floats do not have, and all around 32, 48 and 64 bits."""
        edges = {2**bits + beside for bits in (16, 31, 32, 33, 48, 53, 63, 64) for beside in (-2, -1, 0, 1)}
        for results in sorted(edges):
            size = pigrozd.count_file(with_results(results))
            self.assertEqual((size.results, size.at_least), (min(results, HOLD), results >= HOLD))
            self.assertEqual(size.bytes, size.results * size.values * 4)

    def test_around_the_limit(self):
        """Of rows that find 15 groups, and of groups in groups."""
        for tables, results in ((ONE_LESS, HOLD - 1), (EXACT, HOLD), ([*EXACT, (1,) * 16], HOLD), ([[16] * 16], HOLD)):
            for plan in (deep(ORDER, True), deep(ORDER, False), None):
                self.assertEqual(pigrozd.count(grouped(*tables), plan), Size(results, 1))

    def test_most_bytes(self):
        """The widest results, and as many as there can be."""
        tables = [{8 * (t % 4) + a: [7] * 4096 for a in range(8)} for t in range(16)]
        size = pigrozd.count(tables)
        self.assertEqual((size.values, size.at_least, size.bytes), (32, True, HOLD * 128))

    def test_refused(self):
        """As a join is, in the same words."""
        ring = [{0: [1], 1: [1]}, {1: [1], 2: [1]}, {0: [1], 2: [1]}]
        plan = "((frames readings) exposures)"
        for given in ((TABLES, plan), (TABLES, "frames"), (ring,), ([],), ([{0: [1]}] * 17,)):
            with self.assertRaises(pigrozd.Refused) as caught:
                pigrozd.join(*given)
            number, detail = caught.exception.number, caught.exception.detail
            self.assertEqual(self.refused(number, detail, pigrozd.count, *given), str(caught.exception))
        for data in damaged(150):
            try:
                self.assertEqual(pigrozd.count_file(data).results, len(pigrozd.join_file(data)))
            except pigrozd.Refused as refused:
                if refused.number == 11:  # of the join alone: what it cannot write out can be counted
                    self.assertEqual(pigrozd.count_file(data).results, refused.detail)
                    continue
                self.assertEqual(str(refused), self.refused(refused.number, refused.detail, pigrozd.join_file, data))

    def test_what_is_no_table(self):
        with self.assertRaisesRegex(TypeError, "tables come in a list"):
            pigrozd.count(5)
        with self.assertRaisesRegex(ValueError, "column reading, row 0: .* is the word for a value that was not rec"):
            pigrozd.count([{"reading": [pigrozd.NOT_RECORDED]}])
        with self.assertRaisesRegex(TypeError, "the bytes of a file are wanted, not a "):
            pigrozd.count_file(5)
        with self.assertRaises(FileNotFoundError):
            pigrozd.count_file(self.at("none"))

    def test_names_beside_the_path(self):
        self.command("pack", self.at("out"), *CSVS)
        self.assertEqual(pigrozd.count_file(self.at("out")), Size(4, 4))
        self.write("out", self.read("out")[:-3] + b"PL\1\0")
        with warnings.catch_warnings(record=True) as caught:
            warnings.simplefilter("always")
            self.refused(8, 1, pigrozd.count_file, self.at("out"))
        self.assertEqual((len(caught), caught[0].filename), (1, __file__))

    def test_no_output_is_lent(self):
        """The library is called with an output of no words: at most twice, the second time with the scratch needed."""
        for data, words in ((SAMPLE, [(0, 0), (NEED, 0)]), (pigrozd.make_file([{0: []}]), [(0, 0)])):
            with mock.patch.object(library, "call", wraps=library.call) as called:
                pigrozd.count_file(data)
            self.assertEqual([tuple(map(len, call.args[1:])) for call in called.call_args_list], words)


class Eleven(unittest.TestCase):
    """What a join that is refused with 11 tells: the number of results, exact below the limit, and their bytes."""

    def refused(self, size, why, function, *given, **more):
        with self.assertRaises(pigrozd.Refused) as caught:
            function(*given, **more)
        refused = caught.exception
        self.assertEqual((refused.number, refused.detail, refused.size), (11, size.results, size))
        self.assertEqual(refused.why, why)
        told = "refused 11 %d: more results than the output fits: %s" % (size.results, why)
        self.assertEqual((str(refused), str(pickle.loads(pickle.dumps(refused)))), (told, told))
        self.assertEqual(pickle.loads(pickle.dumps(refused)).size, size)

    def test_past_32_bits(self):
        tables = [{a: [a] * 256, 0: [7] * 256} for a in range(4)]
        why = (
            "there are 4,294,967,296 results of 4 values, which take 68,719,476,736 bytes, and the longest output "
            "(1,048,576 words) fits 262,144"
        )
        for plan in (None, (0, (1, (2, 3))), (((0, 1), 2), 3)):
            self.refused(Size(2**32, 4), why, pigrozd.join, tables, plan)
            self.refused(Size(2**32, 4), why, pigrozd.join_file, pigrozd.make_file(tables, plan))

    def test_around_the_limit(self):
        fits = ", and the longest output (1,048,576 words) fits 1,048,576"
        for left in (True, False):
            why = (
                "there are 18,446,744,073,709,551,614 results of 1 value, which take "
                "73,786,976,294,838,206,456 bytes"
            )
            self.refused(Size(HOLD - 1, 1), why + fits, pigrozd.join, grouped(*ONE_LESS), deep(ORDER, left))
            why = (
                "there are at least 18,446,744,073,709,551,615 results of 1 value, which take at least "
                "73,786,976,294,838,206,460 bytes"
            )
            for groups in (EXACT, [*EXACT, (1,) * 16], [(16,) * 16], [(64,) * 16]):
                self.refused(Size(HOLD, 1), why + fits, pigrozd.join, grouped(*groups), deep(ORDER, left))

    def test_just_too_many(self):
        """The longest output is lent before a join is refused."""
        self.assertEqual(len(pigrozd.join([{0: [7] * 1024}] * 2)), limits.MOST_OUTPUT)
        why = (
            "there are 1,049,600 results of 1 value, which take 4,198,400 bytes, and the longest output (1,048,576 "
            "words) fits 1,048,576"
        )
        self.refused(Size(1025 * 1024, 1), why, pigrozd.join, [{0: [7] * 1024}, {0: [7] * 1025}])

    def test_slow_engine(self):
        """It goes through so few choices that it counts them all."""
        tables = [{0: range(1024)}, {1: range(1024)}]
        why = (
            "there are 1,048,576 results of 2 values, which take 8,388,608 bytes, and the longest output (1,048,576 "
            "words) fits 524,288; the join of table 1 with table 0 is on no attribute, so that every pair matches"
        )
        for engine in ("slow", "join"):
            self.refused(Size(2**20, 2), why, pigrozd.join, tables, engine=engine)
        with self.assertRaises(pigrozd.Refused) as caught:
            pigrozd.join(grouped(*ONE_LESS), engine="slow")
        self.assertEqual((caught.exception.number, caught.exception.size), (15, None))

    def test_others_have_no_size(self):
        for number in pigrozd.MEANINGS:
            self.assertIsNone(pigrozd.Refused(number, 0).size)

    def test_calls(self):
        """The details of all calls have 64 bits."""
        scratch, nothing = array.array("I", bytes(4 * 50000)), array.array("I")
        for results in (2**32 - 1, 2**32, 2**32 + 1, 2**63, HOLD - 1):
            data = with_results(results)
            self.assertEqual(pigrozd.call(data, scratch, nothing)[:2], (11, results))
            row = array.array("I", bytes(4 * 20))
            self.assertEqual(pigrozd.call_result_at(data, scratch, HOLD, row)[:2], (16, results))
            last = pigrozd.call_result_at(data, scratch, results - 1, row)
            tables = len(reference.read(data)[0])
            self.assertEqual(pigrozd.call_number_of(data, scratch, last.rows[:tables]), (0, 0, results - 1))


class Command(Folder):
    def counted(self, *arguments, stdin=b""):
        out, err = self.command("count", *arguments, stdin=stdin)
        self.assertEqual(err, "")
        return out

    def test_files(self):
        self.assertEqual(self.counted(*CSVS), "results 4\nbytes 64\n")
        self.assertEqual(self.counted(*CSVS, "--plan", SAMPLE_PLAN), "results 4\nbytes 64\n")
        self.command("pack", self.at("out"), *CSVS)
        self.assertEqual(self.counted(self.at("out")), "results 4\nbytes 64\n")
        self.assertEqual(self.counted("--plan", FOUND_PLAN, self.at("out")), "results 4\nbytes 64\n")
        self.assertEqual(self.counted(self.write("bare", SAMPLE)), "results 4\nbytes 64\n")
        none = self.write("none.csv", "frame\n")
        self.assertEqual(self.counted(CSVS[0], none), "results 0\nbytes 0\n")
        left = self.write("left.csv", "panel,state\nnorth,1\nsouth,\n")
        right = self.write("right.csv", "panel,side\nsouth,in\nwest,\n")
        self.assertEqual(self.counted(left, right, "--text", "panel,side"), "results 1\nbytes 12\n")

    def test_many_results(self):
        """Each number is the last word of its line, and is exact; at the limit there are at least so many."""
        for results in (2**32 - 1, 2**32, 2**53 + 1, 2**64 - 2):
            data = with_results(results)
            size = 4 * results * len(set().union(*(t.columns for t in reference.read(data)[0])))
            self.assertEqual(self.counted(self.write("file", data)), "results %d\nbytes %d\n" % (results, size))
        least = "results at least 18446744073709551615\nbytes at least 73786976294838206460\n"
        for groups in (EXACT, [(16,) * 16], [(64,) * 16]):
            for left in (True, False):
                data = pigrozd.make_file(grouped(*groups), deep(ORDER, left))
                self.assertEqual(self.counted(self.write("file", data)), least)

    def test_copies(self):
        self.assertEqual(self.counted(self.write("file", COUNTED_SAMPLE)), "results 23\nbytes 368\n")
        data = with_copies(SAMPLE, [[65535] * 4, [65535] * 4, [65535] * 3])
        told = "results %d\nbytes %d\n" % (4 * 65535**3, 64 * 65535**3)
        self.assertEqual(self.counted(self.write("file", data)), told)
        here = self.write("file", with_copies(pigrozd.make_file([{0: [7]}, {0: [7]}]), [None, [0]]))
        told = "file: refused 19 14: .*: row 0 of table1 has 0 copies, and a row has 1 to 65,535; pigrozd dump .*file "
        self.fails(told + "shows it$", "count", here, status=1)

    def test_more_than_join_writes(self):
        columns = [self.write(name + ".csv", name + "\n" + "7\n" * 4096) for name in "abc"]
        self.assertEqual(self.counted(*columns), "results %d\nbytes %d\n" % (2**36, 12 * 2**36))
        told = "refused 11 68719476736: .*: there are 68,719,476,736 results of 3 values, which take 824,633,720,832 "
        self.fails(told, "join", *columns, status=1)

    def test_refused(self):
        """As pigrozd join refuses, with the command that shows why."""
        for told, *arguments in (
            ("cut: refused 1 42: .*; pigrozd dump .*cut shows it$", self.write("cut", SAMPLE[:50])),
            ("text: refused 2 0: .*; a CSV file's name ends in .csv$", self.write("text", "frame\n1\n")),
            ("^pigrozd: refused 8 1: .* it leaves out exposures and readings$", *CSVS, "--plan", "frames"),
            ("^pigrozd: refused 9 0: .*: the join of .*", *CSVS, "--plan", "((frames readings) exposures)"),
        ):
            self.assertEqual(self.fails(told, "count", *arguments, status=1), "")
        ring = [self.write(name + ".csv", head + "\n") for name, head in (("a", "x,y"), ("b", "y,z"), ("c", "x,z"))]
        self.fails("refused 14 0: .*; pigrozd plan --tables .*c.csv shows it$", "count", *ring, status=1)

    def test_usage(self):
        self.fails("none: No such file", "count", self.at("none"))
        self.fails("--attributes and --text go with CSV files", "count", self.write("out", SAMPLE), "--text", "a0")
        self.assertEqual(self.run_here("count")[0], 2)
        self.assertEqual(self.run_here("count", *CSVS, "--engine", "slow")[0], 2)
        self.assertIn("usage: pigrozd count", self.command("count", "--help")[0])
        self.assertIn("    count ", self.command("--help")[0])

    def test_processes(self):
        """From a pipe, to a pipe and to a full device."""
        done = self.process("count", "/dev/stdin", input=SAMPLE)
        self.assertEqual((done.returncode, done.stdout, done.stderr), (0, b"results 4\nbytes 64\n", b""))
        with open("/dev/full", "wb") as full:
            done = self.process("count", *CSVS, stdout=full)
        self.assertEqual((done.returncode, done.stderr), (2, b"pigrozd: standard output: No space left on device\n"))
        self.assertEqual(self.process("count", "/dev/stdin", input=SAMPLE[:-1]).returncode, 1)

    def test_dump(self):
        """A dump takes the highest detail there is."""
        out, _ = self.command("dump", self.write("sample", SAMPLE), "--answer", "11", str(HOLD))
        self.assertIn("answer 11 18446744073709551615: more results than the output fits", out.splitlines())

    def test_rows(self):
        """So does what the program printed; and where a join has no room for them either, it is told."""
        for results, helps in (
            (4, "pigrozd join .*sample has more room"),
            (2**18, "pigrozd join .*sample has more room"),
            (2**18 + 1, "no output fits them, and pigrozd count .*sample says how many bytes they take"),
            (HOLD, "no output fits them, and pigrozd count .*sample says how many bytes they take"),
        ):
            told = r"refused 11 %d: .* \(number of results: %d\); %s$" % (results, results, helps)
            printed = b"refused 11 %d\n" % results
            self.fails(told, "rows", self.write("sample", SAMPLE), stdin=printed, status=1)


class Reference(unittest.TestCase):
    """The independent join numbers results in two ways: every choice is tried, or what can follow is counted."""

    def test_both_ways(self):
        chance, seen = random.Random(67), 0
        for index in range(500):
            data = bytes(drawn_file(chance, index))
            try:
                tables, plan = reference.counted(data)[:2]
            except reference.Refused:
                continue
            numbers, tried = reference.numbering(tables, plan), list(reference.results(tables, plan))
            choices = [choice for choice, _ in tried]
            self.assertEqual(list(numbers.choices()), choices)
            self.assertEqual(numbers.count(), len(tried))
            self.assertEqual([numbers.row(choice) for choice in choices], [row for _, row in tried])
            self.assertEqual([numbers.choice(n) for n in range(len(tried))], choices)
            self.assertEqual(numbers.first_rows(), sorted({choice[0][0] for choice in choices}))
            if math.prod(tables[t].pairs + tables[t].rows + 1 for t in reference.names(plan)) > 20000:
                continue
            there = [[*enumerate(tables[t].copies), (tables[t].rows, 0)] for t in reference.names(plan)]
            each = [[(row, copy) for row, copies in pairs for copy in range(copies + 1)] for pairs in there]
            found = {choice: numbers.number(choice) for choice in itertools.product(*each)}
            self.assertEqual({c: n for c, n in found.items() if n is not None}, {c: n for n, c in enumerate(choices)})
            seen += len(tried)
        self.assertGreater(seen, 500)

    def test_totals(self):
        """The total counted from the groups is the number of results, or the limit: of samples and of drawn tables,
        whose plans are sent well-behaved, mended or found."""
        chance, numbers = random.Random(68), set()
        files = {str(index): bytes(drawn_file(chance, index)) for index in range(500)}
        for name, data in {**samples(), **files}.items():
            with self.subTest(name):
                try:
                    tables, plan, _, _, count = reference.counted(data)
                except reference.Refused:
                    continue
                self.assertEqual(reference.counted_total(tables, plan), min(HOLD, count))
                numbers.add(min(HOLD, count))
        self.assertLess({0, 1, 2, 2**32 - 1, 2**32, HOLD - 1, HOLD}, numbers)


if __name__ == "__main__":
    unittest.main()
