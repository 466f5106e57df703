"""Tests of the package's reader of files, of plans as text and of names, against reference.py."""
import os
import pickle
import unittest

from support import COUNTED_SAMPLE, NO_PLAN, SAMPLE, Folder, damaged, expected, load, path, samples, with_copies

import reference
import pigrozd
from pigrozd import MEANINGS, InputError, answers, csvfiles, dumps, fileformat, limits, names, plans
from pigrozd.answers import Kind
from pigrozd.drawing import Drawing
from pigrozd.values import values_of


def answer_of(data):
    """The answer of 1 to 9, 14 and 19 by the package's reader, or (0, 0)."""
    fault = fileformat.read(data).fault
    return (fault.number, fault.detail) if fault else (0, 0)


class Reading(unittest.TestCase):
    def test_answers_of_the_samples(self):
        for name, data in samples().items():
            with self.subTest(name):
                self.assertEqual(answer_of(data), expected(data))

    def test_answers_of_damaged_files(self):
        seen = set()
        for data in damaged(6000):
            answer = answer_of(data)
            self.assertEqual(answer, expected(data), data.hex())
            seen.add(answer[0])
        self.assertEqual(seen, {0, 1, 2, 3, 4, 5, 6, 7, 8, 9, 14, 19})

    def test_figures_of_the_samples(self):
        """Scratch needed, values, keys, and the bound of demand 3, which the reference's counts keep. Scratch, keys
        and bound are those of the plan that is followed."""
        for name, data in samples().items():
            file = fileformat.read(data)
            if file.fault:
                continue
            with self.subTest(name):
                tables = reference.read(data)[0]
                need = plans.words_needed(file.mended.plan, file.tables)
                if need:
                    self.assertEqual(reference.outcome(data, need - 1, 0)[:2], (10, need))
                self.assertEqual(
                    [file.values(t, place) for t in file.tables for place in range(len(t.attributes))],
                    [values_of(t.columns[a]) for t in tables for a in sorted(t.columns)],
                )
                self.assertEqual([file.copies(t) for t in file.tables], [t.copies for t in tables])
                self.assertEqual([t.pairs for t in file.tables], [t.pairs for t in tables])
                keys = {join.index: plans.key(join, file.tables) for join in plans.joins_of(file.mended.plan)}
                plan = reference.parse(file.mended.code)[0]
                self.assertEqual(
                    keys, {join[0]: reference.key_attributes(tables, join) for join in reference.joins(plan)}
                )
                if plans.choices(file.tables) > 500000:  # the reference would take seconds
                    continue
                number, _, rows, counts = reference.outcome(data, 100000, 100000)
                if number == 0:
                    bound, _ = plans.work_bound(file.mended.plan, file.tables, len(rows))
                    self.assertLessEqual(sum(counts) + sum(map(len, rows)), bound)

    def test_tables_with_copies(self):
        file = fileformat.read(COUNTED_SAMPLE)
        self.assertIsNone(file.fault)
        self.assertEqual([table.counted for table in file.tables], [True, False, True])
        self.assertEqual([table.rows for table in file.tables], [4, 4, 3])
        self.assertEqual([table.pairs for table in file.tables], [15, 4, 7])
        self.assertEqual([file.copies(table) for table in file.tables], [[1, 3, 2, 9], [1] * 4, [2, 1, 4]])
        self.assertEqual([table.at for table in file.tables], [0, 58, 100])
        self.assertEqual([table.copies_at for table in file.tables], [(10, 26), (68, 68), (110, 122)])
        self.assertEqual([table.column(0) for table in file.tables], [(26, 42), (68, 84), (122, 134)])
        self.assertEqual([table.end() for table in file.tables], [58, 100, 146])
        plain = fileformat.read(SAMPLE)
        for table, other in zip(file.tables, plain.tables):
            for place in range(2):
                self.assertEqual(file.values(table, place), plain.values(other, place))
        self.assertEqual((file.row_count(), file.pair_count(), file.is_counted()), (11, 26, True))
        self.assertEqual((plain.row_count(), plain.pair_count(), plain.is_counted()), (11, 11, False))
        self.assertEqual((plans.choices(file.tables), plans.choices(plain.tables)), (15 * 4 * 7, 4 * 4 * 3))
        self.assertEqual(plans.choices_in_words(file.tables), "15 * 4 * 7 = 420 choices")
        self.assertEqual(plans.words_needed(file.plan, file.tables), plans.words_needed(plain.plan, plain.tables))
        self.assertEqual(plans.work_bound(file.plan, file.tables, 4), plans.work_bound(plain.plan, plain.tables, 4))

    def test_words_of_copies(self):
        """19 names the table, the row and its copies; 2 names three marks."""
        known = names.Names()
        known.tables = {1: "readings"}
        plain = pigrozd.make_file([{0: [7]}, {0: [7] * 4}])
        for copies, told in ((0, "0 copies"), (65536, "65,536 copies"), (2**32 - 1, "4,294,967,295 copies")):
            fault = fileformat.read(with_copies(plain, [None, [1, 65535, 2, copies]]), known).fault
            self.assertEqual((fault.number, fault.detail, fault.table, fault.kind), (19, 14, 1, Kind.OFFSET))
            self.assertEqual(fault.why, "row 3 of readings has %s, and a row has 1 to 65,535" % told)
        first = fileformat.read(with_copies(plain, [[0], [0] * 4])).fault
        self.assertEqual(first.why, "row 0 of table0 has 0 copies, and a row has 1 to 65,535")
        told = "at offset 14 stands 54 44, neither 54 42 nor 54 43 (a table) nor 50 4c (the plan)"
        self.assertEqual(fileformat.read(plain[:15] + b"D" + plain[16:]).fault.why, told)
        cut = fileformat.read(COUNTED_SAMPLE[:40]).fault
        self.assertEqual(cut.why, "the columns of table0 end at offset 58, the file at 40")

    def test_bound_of_the_sample(self):
        file = fileformat.read(SAMPLE)
        self.assertEqual(plans.work_bound(file.plan, file.tables, 4), (1150, "(32 * 1 + 2) * 3 * 11 + (3 + 4) * 4"))

    def test_drawings(self):
        """The first join that is refused is the reference's. A plan is drawn twice if it is not well-behaved."""
        for name, data in samples().items():
            number, detail = expected(data)
            file = fileformat.read(data)
            if file.plan:
                self.assertIn(number, (0, 9))
                drawing = Drawing(file.plan, file.tables, names.Names())
                refused = drawing.refused
                self.assertEqual((9, refused[0].index) if refused else (0, 0), (number, detail), name)
                behaved = not any(plans.lacking(join, file.tables) for join in plans.joins_of(file.plan))
                for lines in (drawing.tree(), drawing.dot()):
                    text = "\n".join(lines)
                    self.assertEqual(text.count("REFUSED"), len(refused), name)
                    self.assertEqual("as mended:" in text, not (refused or behaved), name)
                    self.assertEqual(" and the join follows it as it is" in text, behaved, name)


class Writing(unittest.TestCase):
    def test_samples(self):
        """Each sample within the rules, read and written again, is the same."""
        for name, data in samples().items():
            file = fileformat.read(data)
            if not file.fault:
                with self.subTest(name):
                    self.assertEqual(written_again(file), data)

    def test_copies(self):
        file = fileformat.read(COUNTED_SAMPLE)
        self.assertEqual(written_again(file), COUNTED_SAMPLE)
        self.assertEqual(fileformat.table_record([(0, b"")], 0, b""), b"TC\1\0\0\0\0\0\0\0")
        self.assertEqual(fileformat.table_record([(0, b"")], 0), b"TB\1\0\0\0\0\0\0\0")


def written_again(file):
    """The bytes of a file that was read, made of its columns."""
    records = b""
    for table in file.tables:
        columns = [(a, file.data[slice(*table.column(place))]) for place, a in enumerate(table.attributes)]
        copies = file.data[slice(*table.copies_at)] if table.counted else None
        records += fileformat.table_record(columns, table.rows, copies)
    return records + fileformat.plan_record(file.code)


class Dumps(unittest.TestCase):
    """Dumps of files with copies."""

    def dump(self, data, answer=None):
        known = names.Names()
        known.tables = {0: "frames", 2: "readings"}
        return dumps.dump("here", fileformat.read(data, known), known, answer=answer)

    def test_copies(self):
        lines = self.dump(COUNTED_SAMPLE)
        told = "here: 154 bytes, 3 tables, 11 rows, 26 copies, plan (frames (table1 readings))"
        self.assertEqual(lines[0], told)
        self.assertRegex(lines[1], "^within the rules: none of the answers 1 to 9 and 19 is due; ")
        self.assertEqual(
            lines[3:10],
            [
                "offset 0: table 0 frames, 15 copies",
                "       0  54 43                                            mark of a table with copies",
                "       2  03 00 00 00                                      mask 3: attributes 0, 1",
                "       6  04 00 00 00                                      4 rows",
                "      10  01 00 00 00 03 00 00 00 02 00 00 00 09 00 00 00  copies of rows 0 to 3: 1 3 2 9",
                "      26  0a 00 00 00 0b 00 00 00 0c 00 00 00 0d 00 00 00  a0, rows 0 to 3: 10 11 12 13",
                "      42  01 00 00 00 02 00 00 00 02 00 00 00 04 00 00 00  a1, rows 0 to 3: 1 2 2 4",
            ],
        )
        self.assertEqual(lines[11:13], ["offset 58: table 1", "      58  54 42" + " " * 44 + "mark of a table"])
        found = self.dump(COUNTED_SAMPLE[:146] + NO_PLAN)
        self.assertRegex(found[1], "^within the rules: none of the answers 1 to 7, 14 and 19 is due; ")

    def test_without_copies(self):
        """Nothing is said of copies where there are none."""
        lines = self.dump(SAMPLE)
        self.assertEqual(lines[0], "here: 126 bytes, 3 tables, 11 rows, plan (frames (table1 readings))")
        self.assertRegex(lines[1], "^within the rules: none of the answers 1 to 9 is due; ")
        self.assertNotIn("cop", "\n".join(lines))

    def test_copies_out_of_range(self):
        """19 is marked at the record, which is shown as far as it is there."""
        data = with_copies(SAMPLE, [None, [1, 2, 70000, 1], None])
        means = MEANINGS[19].means
        told = means + ": row 2 of table1 has 70,000 copies, and a row has 1 to 65,535"
        for answer in (None, (19, 42)):
            lines = self.dump(data, answer)
            self.assertIn("refused 19 42: " + told, lines)
            at = lines.index("offset 42: table 1, not taken")
            self.assertEqual(lines[at + 2], "          ^^ answer 19, detail 42: " + told)
            self.assertIn("copies of rows 0 to 3: 1 2 70000 1", lines[at + 5])
            self.assertIn("offset 100: not read", lines)
        self.assertIn("answer 19 42: " + means, lines)
        self.assertIn("answer 19 0: %s; but this file is refused with 19 42" % means, self.dump(data, (19, 0)))
        lines = self.dump(SAMPLE, (19, 42))
        self.assertIn("answer 19 42: %s; but this file is within the rules" % means, lines)
        self.assertIn("          ^^ answer 19, detail 42: " + means, lines)

    def test_cut_copies(self):
        lines = self.dump(COUNTED_SAMPLE[:20])
        self.assertIn("      10  01 00 00 00 03 00 00 00 02 00" + " " * 20 + "copies of rows 0 to 1: 1 3 cut", lines)
        self.assertIn("offset 0: table 0, not taken", lines)


class Answers(unittest.TestCase):
    """The table of answers, of which each number has a kind of detail."""

    def test_kinds(self):
        kinds = {kind: {number for number in MEANINGS if MEANINGS[number].kind is kind} for kind in Kind}
        self.assertEqual(kinds[Kind.OFFSET], {1, 2, 3, 4, 5, 6, 19})
        self.assertEqual(kinds[Kind.PLAN_INDEX], {7, 8, 9})
        self.assertEqual(kinds[Kind.TABLE], {14})
        self.assertEqual(kinds[Kind.AMOUNT], {10, 11, 13, 16, 18})
        self.assertEqual(kinds[Kind.NOTHING], {0, 15, 17})
        for number, meaning in MEANINGS.items():
            self.assertEqual(pigrozd.Refused(number, 0).kind, meaning.kind)
            self.assertEqual("offset" in meaning.detail, meaning.kind is Kind.OFFSET)
            self.assertEqual(meaning.detail == "0", meaning.kind is Kind.NOTHING)
            self.assertEqual(" in the plan" in meaning.detail, meaning.kind is Kind.PLAN_INDEX)

    def test_names(self):
        """Those of the header."""
        header = load("include", "pigrozd.h").decode()
        for name in ("BEHIND_PLAN", "NO_HOLDER", "TOO_MANY_CHOICES", "NO_SUCH_RESULT", "NOT_A_RESULT", "ROW_SHORT"):
            self.assertIn("PIGROZD_%s = %d," % (name, getattr(answers, name)), header)
        self.assertIn("PIGROZD_COPIES_RANGE = %d " % answers.COPIES_RANGE, header)
        self.assertIn("#define PIGROZD_MOST_COPIES %d " % limits.MOST_COPIES, header)

    def test_no_number_is_compared_by_size(self):
        """The kind of an answer is asked for, or its number: 19 has an offset, and is higher than all others."""
        number = r"(refused|fault|answer)\.number"
        for name in os.listdir(path("python", "pigrozd")):
            if name.endswith(".py"):
                for line in load("python", "pigrozd", name).decode().splitlines():
                    self.assertNotRegex(line, r"%s *[<>]|[<>]=? *%s|LAST_OF_" % (number, number))

    def test_pickled(self):
        fault = fileformat.read(with_copies(SAMPLE, [[0] * 4, None, None])).fault
        again = pickle.loads(pickle.dumps(fault))
        self.assertEqual((again.number, again.detail, again.table, again.kind), (19, 0, 0, Kind.OFFSET))
        self.assertEqual(str(again), str(fault))


class PlanText(unittest.TestCase):
    def test_round_trips(self):
        known = names.Names()
        known.tables = {0: "3", 1: "with blank", 2: "(b)", 3: "plain"}
        done = 0
        for data in samples().values():
            file = fileformat.read(data)
            if file.plan:
                text = plans.to_text(file.plan, known.table)
                self.assertEqual(plans.code_of(text, [known.table(t) for t in range(len(file.tables))]), file.code)
                done += 1
        self.assertGreater(done, 80)

    def test_numbers_and_names(self):
        self.assertEqual(plans.code_of("(1 0)", ["a", "b"]), bytes([255, 1, 0]))
        self.assertEqual(
            plans.code_of("(1 0)", ["1", "a"]), bytes([255, 0, 0])
        )  # "1" is the name of table 0, and 0 its number
        self.assertEqual(plans.code_of('("1" 1)', ["a", "1"]), bytes([255, 1, 1]))
        with self.assertRaisesRegex(InputError, "no table is called 1"):
            plans.code_of('"1"', ["a", "b"])

    def test_plans_that_are_no_text(self):
        for pattern, text in {
            "at character 9: no table is called panels; there are frames, exposures and readings": "(frames panels)",
            "at character 19: a third side of a join": "(frames exposures readings)",
            "at character 8: a join has two sides": "(frames)",
            "at character 2: a join has two sides": "()",
            "1 bracket is not closed": "(frames (exposures readings)",
            "at character 30: a bracket too many": "(frames (exposures readings)))",
            "at character 8: the plan is whole before this": "frames exposures",
            "the plan is empty": " ",
            "no table is called 3": "(0 (1 3))",
            "a double quote is not closed": '(frames (exposures "readings))',
            "40000 brackets are not closed": "(" * 40000,
            "at most 255 bytes": "(" * 200 + "0" + " 1)" * 200,
        }.items():
            with self.subTest(text[:60]), self.assertRaisesRegex(InputError, pattern) as caught:
                plans.code_of(text, ["frames", "exposures", "readings"])
            self.assertLess(len(str(caught.exception)), 300)


class NamesOfFiles(Folder):
    def beside(self, text):
        self.write("file.names", text)
        self.warnings = []
        return names.names_beside(self.at("file"), SAMPLE, self.warnings.append)

    def test_digest(self):
        known = names.Names()
        known.attributes, known.tables, known.texts = {0: "frame"}, {1: "t"}, {2: {7: "dark "}}
        text = names.names_text(known, SAMPLE)
        self.assertEqual(text, "sha256 %s\n0 frame\ntable 1 t\ntext 2 7 dark \n" % names.digest(SAMPLE))
        again = self.beside(text)
        self.assertEqual((vars(again), self.warnings), (vars(known), []))
        self.assertEqual(vars(self.beside(text.replace("\n", "\r\n"))), vars(known))
        other = self.beside(names.names_text(known, SAMPLE + b"\n"))
        self.assertEqual(vars(other), vars(names.Names()))
        self.assertRegex(self.warnings[0], "file.names belongs to another file than .*file: its digest differs")

    def test_written_by_hand(self):
        self.assertEqual(self.beside("# mine\n0 frame\n").attributes, {0: "frame"})
        self.assertEqual(self.warnings, [])

    def test_faults(self):
        for pattern, content in {
            "line 2: expected NUMBER NAME": "0 frame\nframe 0\n",
            "line 1: '../frames' cannot be the name of a table": "table 0 ../frames\n",
            "line 1: the number is too high": "32 frame\n",
            "line 1: the number is too high ?": "table 16 frames\n",
            "line 1: the number is too high ??": "text 32 0 frames\n",
            "line 2: 0 has a name already": "0 frame\n0 exposure\n",
            "line 3: 'frame' is named already": "# names\n0 frame\n1 frame\n",
            "line 1: an attribute without a name": "0  \n",
            "line 1: expected NUMBER NAME ?": "sha256 123\n",
            "line 1: the number is too high$": "text 1 4294967295 dark\n",
            "line 1: the text is empty, and an empty cell is a value that was not recorded": "text 1 7 \n",
            "not UTF-8": b"0 \xff\n",
        }.items():
            with self.subTest(pattern), self.assertRaisesRegex(InputError, r"file\.names.*" + pattern):
                self.beside(content)


class CsvNames(unittest.TestCase):
    def test_lists(self):
        self.assertEqual(csvfiles.name_list('a, b,"c,d",,e', "--text"), ["a", "b", "c,d", "", "e"])
        for text in ("a\nb", "a\r", "a\rb", '"a', '"a"b'):
            with self.subTest(text), self.assertRaisesRegex(
                InputError, "^--text .*(line break|unexpected end|expected after)"
            ):
                csvfiles.name_list(text, "--text")


class OnePlace(unittest.TestCase):
    def test_one_place_for_each_meaning(self):
        """The marks of records, the words of an answer and the numbers with a meaning stand in one module each."""
        modules = {
            name: load("python", "pigrozd", name).decode()
            for name in os.listdir(path("python", "pigrozd"))
            if name.endswith(".py")
        }
        told = {meaning.means: "answers.py" for number, meaning in MEANINGS.items() if number}
        marks = dict.fromkeys(('b"TB"', 'b"TC"', 'b"PL"'), "fileformat.py")
        for text, module in {**marks, **told}.items():
            self.assertEqual([name for name in modules if text in modules[name]], [module], text)
        for number, module in {"4294967295": "values.py", "18446744073709551615": "limits.py"}.items():
            self.assertEqual([name for name in modules if number in modules[name]], [module])


if __name__ == "__main__":
    unittest.main()
