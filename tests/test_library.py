"""Tests of the shared library, called through the Python package."""
import array
import collections
import ctypes
import os
import random
import re
import subprocess
import sys
import unittest

from support import COUNTED_SAMPLE, SAMPLE, TOP, drawn_copies, load, path, with_copies

import pigrozd
import reference
from pigrozd import fileformat, library, plans

BEFORE = 2779096485  # what tests/make_samples.py has both buffers filled with
NEED = 118  # words of scratch that the sample needs
VALUES = (10, 1, 7, 29510, 10, 1, 7, 29510, 11, 2, 9, 29530, 12, 2, 9, 29530)  # of the sample's result


def words(*values):
    return array.array("I", values)


class Calls(unittest.TestCase):
    def printed(self, file, scratch_words, output_words):
        """What the test program crates/samples prints of a call, of the slow engine, and of results by number."""
        scratch, output = words(BEFORE) * scratch_words, words(BEFORE) * output_words
        answer = pigrozd.call(file, scratch, output)
        width = len(plans.width(fileformat.read(bytes(file)).tables))
        rows = [output[width * i : width * i + width] for i in range(answer.rows)]
        text = reference.lines((answer.number, answer.detail, rows, answer[3:]))
        if answer.number:
            self.assertEqual(answer[2:], (0, 0, 0, 0, 0))
        if not scratch:
            text += "scratch empty, "
        elif not any(scratch):
            text += "scratch zero, "
        else:
            self.assertEqual(scratch, words(BEFORE) * scratch_words)
            text += "scratch unchanged, "
        text += self.written(output, width * answer.rows) + "\n"
        slow = words(BEFORE) * output_words
        given = pigrozd.call_slow(file, slow)
        if answer.number != 10 and given.number != 15:
            self.assertEqual((given, slow), (answer[:3], output))
        text += "slow %d %d %d, " % given + self.written(slow, width * given.rows)
        text += ", as the join's\n" if slow == output else ", not as the join's\n"
        return text + self.shown(file, scratch_words, output_words, width)

    def shown(self, file, scratch_words, row_words, width):
        """What the test program prints of results by number: past the last, the first, the middle and the last one."""
        text, count = "", 0
        for place in range(4):
            n = (2**64 - 1, 0, count // 2, count - 1)[place]
            scratch, row = words(BEFORE) * scratch_words, words(BEFORE) * row_words
            answer = pigrozd.call_result_at(file, scratch, n, row)
            unchanged = scratch == words(BEFORE) * scratch_words
            self.assertTrue(unchanged or not any(scratch))
            left = "empty" if not scratch else "unchanged" if unchanged else "zero"
            rows, copies = (" ".join(map(str, numbers)) for numbers in (answer.rows, answer.copies))
            text += "result %d: %d %d, rows %s, copies %s, " % (n, answer.number, answer.detail, rows, copies)
            text += "scratch %s, " % left + self.written(row, 0 if answer.number else width)
            if answer.number:
                text += ", back %d %d\n" % pigrozd.call_number_of(file, scratch, [], [])[:2]
            else:
                text += ", back by"
                for k in range(17):
                    back = pigrozd.call_number_of(file, scratch, answer.rows[:k], answer.copies[:k])
                    text += " %d" % k if back == (0, 0, n) else ""
                text += "\n"
            if answer.number == 16:
                count = answer.detail
            if count == 0:
                break
        return text

    def written(self, output, end):
        """What the test program says of an output that has this many words of results."""
        self.assertEqual(output[end:], words(BEFORE) * (len(output) - end))
        return "output %d words written, rest unchanged" % end

    def test_samples(self):
        """The samples of the gate, P1 to P12 among them, called through the shared library."""
        names = load("crates", "samples", "args").decode().split()
        text = []
        for name in names:
            sample = load("crates", "samples", "data", name)
            lent = [int.from_bytes(sample[i : i + 4], "little") for i in (0, 4)]
            text.append(name + "\n" + self.printed(sample[8:], *lent))
        self.assertGreater(len(names), 100)
        self.assertEqual("".join(text).splitlines(), load("crates", "samples", "stdout").decode().splitlines())

    def test_random_files(self):
        """600 small files, whole and damaged, against the independent join. In every second one values are missing,
        every third has no plan, and in three of four some tables have copies."""
        chance, numbers, missing, counted = random.Random(7), collections.Counter(), 0, collections.Counter()
        for index in range(600):
            file = drawn_file(chance, index)
            if chance.random() < 0.3:
                file[chance.randrange(len(file))] = chance.choice((0, 1, 2, 255))
            scratch, output = chance.choice((1000, 40)), chance.choice((300, 12))
            number, detail, rows, counts = reference.outcome(bytes(file), scratch, output)
            expected = reference.lines((number, detail, rows, counts))
            with self.subTest(file=bytes(file).hex()):
                self.assertEqual(self.printed(file, scratch, output).split("scratch")[0], expected)
                fault = fileformat.read(bytes(file)).fault
                self.assertEqual(
                    (fault.number, fault.detail) if fault else (0, 0),
                    (number, detail) if number <= 9 or number in (14, 19) else (0, 0),
                )
            numbers[number] += 1
            missing += number == 0 and reference.NOT_RECORDED.to_bytes(4, "little") in file
            counted[number] += b"TC" in file
        self.assertGreater(numbers[0], 100)
        self.assertGreater(numbers[14], 3)
        self.assertGreater(numbers[19], 3)
        self.assertGreater(len(numbers), 8)
        self.assertGreater(missing, 50)
        self.assertGreater(counted[0], 80)
        self.assertGreater(counted[11], 10)

    def test_buffers(self):
        good = words(*range(100))
        with self.assertRaises(TypeError):
            pigrozd.call(SAMPLE, bytearray(400), good)
        with self.assertRaises(TypeError):
            pigrozd.call(SAMPLE, memoryview(bytes(400)).cast("I"), good)
        with self.assertRaises(TypeError):
            pigrozd.call(SAMPLE, memoryview(good)[::2], words(0))
        with self.assertRaises(ValueError):
            pigrozd.call(SAMPLE, good, good)
        with self.assertRaises(ValueError):
            pigrozd.call(SAMPLE, memoryview(good)[:60], memoryview(good)[59:])
        with self.assertRaises(ValueError):
            pigrozd.call(SAMPLE, memoryview(bytearray(401))[1:].cast("I"), words(0))
        self.assertEqual(good, words(*range(100)))
        self.assertEqual(pigrozd.call(SAMPLE, memoryview(good)[:60], memoryview(good)[60:]).number, 10)

    def test_files_that_are_no_bytes(self):
        for file in (5, None, "crates/pigrozd/stdin", [84, 66]):
            with self.subTest(file=file), self.assertRaisesRegex(TypeError, "the bytes of a file are wanted, not a "):
                pigrozd.call(file, words(), words())

    def test_two_halves_of_one_buffer(self):
        both = words(BEFORE) * (NEED + 16)
        answer = pigrozd.call(SAMPLE, memoryview(both)[:NEED], memoryview(both)[NEED:])
        self.assertEqual((answer, both), ((0, 0, 4, 6, 8, 19, 10), words(0) * NEED + words(*VALUES)))
        both = words(BEFORE) * (NEED + 16)
        answer = pigrozd.call(SAMPLE, memoryview(both)[16:], memoryview(both)[:16])
        self.assertEqual((answer, both), ((0, 0, 4, 6, 8, 19, 10), words(*VALUES) + words(0) * NEED))

    def test_no_word_lent_is_no_null_pointer(self):
        for lent, count in (library.lent(words()), library.given_words([], "a row number")):
            self.assertEqual(count, 0)
            self.assertNotEqual(ctypes.addressof(lent), 0)


class Copies(unittest.TestCase):
    """Tables with copies: how many copies a row can have, and what a file with them must hold."""

    def answer(self, data, scratch_words=2000, output_words=0):
        """Number and detail, which are those of the reference; as those of the slow engine where it says no 15."""
        answer = pigrozd.call(data, words(0) * scratch_words, words(0) * output_words)
        self.assertEqual(answer[:2], reference.outcome(data, scratch_words, output_words)[:2])
        slow = pigrozd.call_slow(data, words(0) * output_words)
        if slow.number != 15 and answer.number != 10:
            self.assertEqual(answer[:3], slow)
        return answer[:2]

    def test_how_many(self):
        """A row has 1 to 65,535 copies, whichever row of whichever table it is; 19 has the offset of the mark."""
        one = pigrozd.make_file([{0: [5], 1: [6]}, {0: [5, 5, 5]}], (0, 1))
        second = 10 + 4 * 3  # where the second record begins if the first has copies
        for copies, number in ((0, 19), (1, 11), (2, 11), (65535, 11), (65536, 19), (2**31, 19), (2**32 - 1, 19)):
            detail = {19: 0, 11: 3 * copies}[number]
            self.assertEqual(self.answer(with_copies(one, [[copies], None])), (number, detail))
            for row in range(3):
                given = [7, 7, 7]
                given[row] = copies
                detail = {19: second, 11: 14 + copies}[number]
                self.assertEqual(self.answer(with_copies(one, [[1], given])), (number, detail))

    def test_cut(self):
        """Wherever the file ends, in the copies or in the columns behind them, it is cut; also if a count is wrong."""
        for copies in ([2, 3], [0, 3]):
            whole = with_copies(pigrozd.make_file([{0: [5, 6], 1: [7, 8]}, {0: [5]}], (0, 1)), [copies, [1]])
            for end in range(34):
                self.assertEqual(self.answer(whole[:end]), (1, 0))
            self.assertEqual(self.answer(whole[:34]), (19, 0) if 0 in copies else (1, 34))
            self.assertEqual(self.answer(whole[:45]), (19, 0) if 0 in copies else (1, 34))

    def test_order_of_answers(self):
        """5, 1, 3, 4, 1 and 19 of a record; and all of them before the next record is looked at."""
        wrong = with_copies(pigrozd.make_file([{0: [5, 6]}]), [[0, 70000]])[:-3]
        plain = pigrozd.make_file([{0: [5]}])[:-3]
        self.assertEqual(self.answer(plain * 16 + b"TC"), (5, 16 * len(plain)))
        self.assertEqual(self.answer(plain * 15 + wrong), (19, 15 * len(plain)))
        self.assertEqual(self.answer(plain + b"TC" + bytes(7)), (1, len(plain)))
        self.assertEqual(self.answer(plain + b"TC" + bytes(8)), (3, len(plain)))
        self.assertEqual(self.answer(plain + b"TC\xff\1\0\0" + b"\1\x10\0\0"), (3, len(plain)))
        self.assertEqual(self.answer(plain + b"TC\1\0\0\0" + b"\1\x10\0\0"), (4, len(plain)))
        for behind in (b"", b"T", b"XX", b"TB", b"PL", b"PL\0", b"PL\0\0", b"PL\1\xff", wrong):
            self.assertEqual(self.answer(wrong + behind), (19, 0))
            self.assertEqual(self.answer(plain + wrong + behind), (19, len(plain)))

    def test_marks(self):
        """54 43 is a mark; others that are near to it are none."""
        for mark in (b"TA", b"TD", b"SC", b"UC", b"CT", b"tc", b"Tc", b"tC", b"PC", b"CL"):
            self.assertEqual(self.answer(mark + COUNTED_SAMPLE[2:]), (2, 0))

    def test_rows_decide_the_scratch(self):
        """However many copies there are, the scratch needed is that of the rows."""
        many = with_copies(SAMPLE, [[65535] * 4, [65535] * 4, [65535] * 3])
        for data in (SAMPLE, COUNTED_SAMPLE, many):
            self.assertEqual(self.answer(data, NEED - 1), (10, NEED))
            self.assertEqual(self.answer(data, NEED)[0], 11)
        self.assertEqual(self.answer(many), (11, 4 * 65535**3))

    def test_no_rows(self):
        """A table with copies and no rows has no copies either."""
        data = with_copies(pigrozd.make_file([{0: []}, {0: [5]}]), [[], [65535]])
        self.assertEqual(self.answer(data), (0, 0))
        self.assertEqual(self.answer(with_copies(pigrozd.make_file([{0: []}]), [[]]), 0), (0, 0))

    def test_as_rows_sent_so_often(self):
        """A file with copies has the results of the one that sends each row as often, in the same order, with the same
        visits. Both have no plan, as rows decide how one is mended."""
        chance, compared = random.Random(47), 0
        for _ in range(300):
            tables, _ = drawn_tables(chance, 0.1)
            copies = [[chance.randint(1, 3) for _ in next(iter(table.values()))] for table in tables]
            often = [
                {a: [value for value, n in zip(column, given) for _ in range(n)] for a, column in table.items()}
                for table, given in zip(tables, copies)
            ]
            told = []
            for data in (with_copies(pigrozd.make_file(tables), copies), pigrozd.make_file(often)):
                output = words(BEFORE) * 20000
                answer = pigrozd.call(data, words(0) * 2000, output)
                told.append((answer.number, answer.detail, answer.rows, answer.visits, output))
            self.assertEqual(*told)
            compared += told[0][2] > 0
        self.assertGreater(compared, 80)


def drawn_file(chance, index):
    """The bytes of a drawn file. In every second one values are missing, every third has no plan, and in three of four
    some tables have copies."""
    tables, plan = drawn_tables(chance, 0.2 * (index % 2))
    data = pigrozd.make_file(tables, plan if index % 3 else None)
    return bytearray(drawn_copies(data, chance) if chance.random() < 0.75 else data)


def drawn_tables(chance, missing):
    """A few small tables and a plan that names each once. This part of their values was not recorded."""

    def value():
        return None if chance.random() < missing else chance.randint(0, 2)

    tables = []
    for _ in range(chance.randint(1, 4)):
        rows = chance.randint(0, 4)
        attributes = chance.sample(range(4), chance.randint(1, 3))
        tables.append({a: [value() for _ in range(rows)] for a in attributes})
    drawn = list(range(len(tables)))
    chance.shuffle(drawn)
    while len(drawn) > 1:
        i = chance.randrange(len(drawn) - 1)
        drawn[i : i + 2] = [(drawn[i], drawn[i + 1])]
    return tables, drawn[0]


class Loading(unittest.TestCase):
    def test_header(self):
        """The numbers of each answer in the header's order."""
        header = load("include", "pigrozd.h").decode()
        structs = {name: body for name, body in re.findall(r"^typedef struct (\w+) \{\n(.*?)^\}", header, re.M | re.S)}
        fields = {name: tuple(re.findall(r"^    uint64_t (\w+);", body, re.M)) for name, body in structs.items()}
        wanted = {
            "pigrozd_answer": pigrozd.Answer._fields,
            "pigrozd_slow_answer": pigrozd.SlowAnswer._fields,
            "pigrozd_result_answer": pigrozd.ResultAnswer._fields[:2],
            "pigrozd_number_answer": pigrozd.NumberAnswer._fields,
        }
        self.assertEqual(fields, wanted)
        arrays = re.findall(r"^    uint32_t (\w+)\[PIGROZD_MOST_TABLES\];", structs["pigrozd_result_answer"], re.M)
        self.assertEqual(tuple(arrays), pigrozd.ResultAnswer._fields[2:])
        self.assertEqual(ctypes.sizeof(library.AnswerStruct), 56)
        self.assertEqual(ctypes.sizeof(library.SlowAnswerStruct), 24)

    def told(self, named):
        """What is told where PIGROZD_LIBRARY names this file."""
        code = (
            "import pigrozd\ntry:\n    pigrozd.join([{0: [1]}], 0)\n"
            "except pigrozd.LibraryError as error:\n    print(error)"
        )
        environment = dict(os.environ, PYTHONPATH=os.path.join(TOP, "python"), PIGROZD_LIBRARY=named)
        return subprocess.run(
            [sys.executable, "-c", code], env=environment, stdout=subprocess.PIPE, check=True
        ).stdout.decode()

    def test_missing_library(self):
        self.assertRegex(
            self.told("./no-such-library.so"), "make lib builds it, PIGROZD_LIBRARY may name it.*no-such-library"
        )

    def test_a_file_that_is_no_library(self):
        self.assertRegex(self.told(path("Makefile")), "cannot be loaded.*Makefile")

    def test_foreign_library(self):
        self.assertRegex(
            self.told("libc.so.6"), "libc.so.6 is not Pigrozd's library: it has no function pigrozd_join"
        )


if __name__ == "__main__":
    unittest.main()
