"""Tests of the commands: pigrozd pack, unpack, rows, dump, plan. test_join.py has those of pigrozd join."""
import contextlib
import csv
import io
import os
import random
import re
import shlex
import shutil
import subprocess
import unittest

from support import (
    COUNTED_SAMPLE,
    CSVS,
    PROGRAM,
    ROWS,
    SAMPLE,
    SAMPLE_DRAWN,
    SAMPLE_PLAN,
    Folder,
    damaged,
    expected,
    load,
    needs_program,
    path,
    samples,
)

import reference
from pigrozd import commandline, commands, dumps, fileformat, limits, names

LINE = re.compile("([ 0-9]{8})  ((?:[0-9a-f]{2} ){0,15}[0-9a-f]{2})(?: |$)")
POINT = re.compile(r"( {10,})\^\^ answer (\d+), detail (\d+): ")


def dumped(data, everything=True, answer=None):
    known = names.Names()
    return dumps.dump("FILE", fileformat.read(data, known), known, everything, answer)


def marked(lines):
    """The offset of the byte that a dump marks, with the answer that is written there; None if none is."""
    found = []
    for before, line in zip(lines, lines[1:]):
        point = POINT.match(line)
        if point:
            at = int(before[:8]) + (len(point[1]) - 10) // 3
            found.append((at, int(point[2]), int(point[3])))
    assert len(found) <= 1
    return found[0] if found else None


def place_of(data, number, detail):
    """The offset that an answer's detail points at: it is one, an index in the plan, or the number of a table."""
    if number <= 6 or number == 19:
        return detail
    tables, code = reference.read(data)
    if number <= 9:
        return len(data) - len(code) + detail
    at = 0
    for table in tables[:detail]:
        at += 10 + 4 * table.rows * (len(table.columns) + (data[at : at + 2] == b"TC"))
    return at


class Dumping(Folder):
    def check(self, data):
        lines = dumped(data)
        shown = b""
        for line in lines:
            found = LINE.match(line)
            if found:
                self.assertEqual(int(found[1]), len(shown), line)
                shown += bytes.fromhex(found[2])
        self.assertEqual(shown, data)  # each byte once, in order
        number, detail = expected(data)
        if number == 0:
            self.assertIsNone(marked(lines))
            return
        at = place_of(data, number, detail)
        self.assertEqual(marked(lines), (at, number, detail))
        self.assertEqual(marked(dumped(data, everything=False)), (at, number, detail))
        self.assertIn("refused %d %d: " % (number, detail), lines[1])

    def test_samples(self):
        for name, data in samples().items():
            with self.subTest(name):
                self.check(data)

    def test_damaged_files(self):
        for data in damaged(1500):
            self.check(data)

    def test_every_cut_of_the_sample(self):
        for end in range(len(SAMPLE)):
            self.check(SAMPLE[:end])

    def test_every_cut_of_a_sample_with_copies(self):
        for end in range(len(COUNTED_SAMPLE)):
            self.check(COUNTED_SAMPLE[:end])

    def test_bytes_of_no_kind(self):
        draw = random.Random(1)
        for size in (0, 1, 2, 3, 17, 500):
            for start in (b"", b"TB", b"TC", b"PL"):
                self.check(start + bytes(draw.randrange(256) for _ in range(size)))

    def test_long_columns_are_shortened(self):
        data = samples()["rows_4096_entered"]
        lines = dumped(data, everything=False)
        self.assertLess(len(lines), 40)
        self.assertIn("          ..  16,320 bytes left out", lines)
        self.assertEqual(sum("left out" in line for line in lines), 1)
        plan = dumped(samples()["tables_16_in_a_row"], everything=False)
        self.assertEqual(sum(" index " in line for line in plan), 31)

    def test_given_answers(self):
        self.assertEqual(marked(dumped(SAMPLE, answer=(2, 34))), (34, 2, 34))
        self.assertIn("but this file is within the rules", dumped(SAMPLE, answer=(2, 34))[2])
        self.assertEqual(marked(dumped(samples()["rows_4096_entered"], False, (2, 9001))), (9001, 2, 9001))
        self.assertEqual(marked(dumped(SAMPLE, answer=(9, 2))), (123, 9, 2))
        self.assertEqual(marked(dumped(SAMPLE, answer=(1, 126))), (126, 1, 126))
        self.assertIn("behind the file's end", dumped(SAMPLE, answer=(1, 127))[3])
        self.assertIn("no whole plan record", dumped(SAMPLE[:50], answer=(8, 3))[3])
        self.assertIn("but this file is refused with 1 42", dumped(SAMPLE[:50], answer=(8, 3))[2])
        self.assertEqual(dumped(SAMPLE, answer=(10, 118))[2], "answer 10 118: the scratch is too short")
        self.assertIn("but this file needs 118 words", dumped(SAMPLE, answer=(10, 119))[2])
        self.assertIsNone(marked(dumped(SAMPLE, answer=(11, 4))))
        self.assertIn("no more than 65,536 bytes", dumped(SAMPLE, answer=(13, 65536))[2])
        long = SAMPLE + bytes(65536)
        self.assertEqual(dumped(long, False, (13, 65536))[3], "answer 13 65536: standard input is too long")

    def test_command(self):
        bad = self.write("bad", SAMPLE[:121] + bytes([255, 255, 0, 2, 1]))
        self.write("bad.names", "0 frame\n1 exposure\n2 reading\ntable 2 readings\n")
        out, _ = self.command("dump", bad)
        self.assertIn(
            "refused 9 0: a join has a side where no table holds its join attributes: the join of table0 and readings "
            "with table1, byte 0 of the plan, is on exposure and reading, but no table on the left has them all; name "
            "tables that share attributes next to each other\n",
            out,
        )
        self.assertIn(
            "     121  ff                                               index 0   join on exposure, reading; no table "
            "on the left has them all\n          ^^ answer 9, detail 0: ",
            out,
        )
        out, _ = self.command("dump", "--answer", "6", "126", bad)
        self.assertIn("     126  end of the file\n          ^^ answer 6", out)
        for none in ("99", "12"):  # 12 is retired
            self.fails("there is no such answer", "dump", bad, "--answer", none, "0")
        self.fails("none: No such file", "dump", self.at("none"))
        self.fails("Is a directory", "dump", self.folder)
        self.write("bad.names", "frame\n")
        out, err = self.command("dump", bad)
        self.assertIn("bad.names, line 1: expected NUMBER NAME", err)
        self.assertIn("table0 and table2 with table1, byte 0 of the plan, is on a1 and a2, but no table on the", out)

    def test_mended_plan(self):
        """What the file holds is shown as it is, and the plan that a join follows is told."""
        data = SAMPLE[:121] + bytes([255, 0, 255, 2, 1])
        lines = dumped(data)
        self.assertEqual(
            lines[:4],
            [
                "FILE: 126 bytes, 3 tables, 11 rows, plan (table0 (table2 table1))",
                "within the rules: none of the answers 1 to 9 is due; the scratch needed is 118 words, a result has 4 "
                "values",
                "the plan as sent, (table0 (table2 table1)), is not well-behaved: the join follows "
                "(table0 (table1 table2)), bytes ff 00 ff 01 02",
                "penalty: 3 rows = 3 (table2, at byte 2 as sent)",
            ],
        )
        shown = [line.split("index ")[1] for line in lines if " index " in line]
        self.assertEqual(
            [re.sub(" +", " ", line) for line in shown],
            ["0 join on a1; not well-behaved", "1 table 0", "2 join on a2", "3 table 2", "4 table 1"],
        )
        self.assertEqual(len(dumped(SAMPLE)) + 2, len(lines))
        self.assertEqual(dumped(data, answer=(10, 118))[4], "answer 10 118: the scratch is too short")
        self.assertIn("but this file needs 118 words", dumped(data, answer=(10, 117))[4])

    def test_names_of_another_file(self):
        self.command("pack", self.at("out"), "--plan", SAMPLE_PLAN, *CSVS)
        other = self.write("other", SAMPLE[:-1] + b"\1")
        shutil.copy(self.at("out.names"), self.at("other.names"))
        out, err = self.command("dump", other)
        self.assertRegex(err, "warning: .*other.names belongs to another file than .*other: its digest differs")
        self.assertNotIn("frames", out)


class Packing(Folder):
    def pack(self, *arguments):
        return self.command("pack", self.at("out"), *arguments)

    def refused(self, pattern, *arguments, status=2):
        self.fails(pattern, "pack", self.at("out"), *arguments, status=status)
        self.assertFalse(os.path.exists(self.at("out")))
        self.assertFalse(os.path.exists(self.at("out.names")))

    def test_sample(self):
        out, err = self.pack("--plan", SAMPLE_PLAN, *CSVS)
        self.assertEqual(self.read("out"), SAMPLE)
        self.assertEqual((out, err), (self.at("out") + ": 126 bytes, 3 tables, 11 rows\n", ""))
        self.assertEqual(
            self.read("out.names").decode(),
            self.digest_line("out") + "0 frame\n1 exposure\n2 reading\n"
            "3 centikelvin\ntable 0 frames\ntable 1 exposures\ntable 2 readings\n",
        )
        self.assertEqual(sorted(os.listdir(self.folder)), ["out", "out.names"])

    def test_options_may_stand_anywhere(self):
        self.command(
            "pack",
            "--plan",
            SAMPLE_PLAN,
            self.at("out"),
            *CSVS[:1],
            "--attributes",
            "frame,exposure,reading,centikelvin",
            *CSVS[1:],
        )
        self.assertEqual(self.read("out"), SAMPLE)
        self.command("pack", self.at("out"), "--plan", SAMPLE_PLAN, *CSVS)

    def test_attributes_given(self):
        frames = self.write("frames.csv", "exposure,frame\n1,10\n2,11\n")
        self.pack("--attributes", "frame,,,exposure", frames)
        words = (9, 2, 10, 11, 1, 2)  # mask, row count, columns
        self.assertEqual(self.read("out"), b"TB" + b"".join(w.to_bytes(4, "little") for w in words) + b"PL\0")
        self.assertEqual(
            self.read("out.names").decode(), self.digest_line("out") + "0 frame\n3 exposure\ntable 0 frames\n"
        )

    def test_attributes_not_given_right(self):
        self.refused(
            r"exposures.csv, line 1, column 2 \(reading\): not among",
            "--plan",
            SAMPLE_PLAN,
            "--attributes",
            "frame,exposure",
            *CSVS,
        )
        self.refused("stands there twice", "--plan", SAMPLE_PLAN, "--attributes", "frame,frame", *CSVS)
        self.refused(
            "--attributes .*: exposure has the number 32, and the highest is 31",
            "--plan",
            SAMPLE_PLAN,
            "--attributes",
            "frame" + "," * 32 + "exposure,reading,centikelvin",
            *CSVS,
        )
        self.refused("--attributes .*: a line break", "--plan", SAMPLE_PLAN, "--attributes", "frame\nexposure", *CSVS)
        self.refused("--text .*: a line break", "--plan", SAMPLE_PLAN, "--text", "frame\r", *CSVS)
        self.refused(
            "--attributes .*not UTF-8",
            "--plan",
            SAMPLE_PLAN,
            "--attributes",
            "frame,exposure,reading,centikelvin,\udcff",
            *CSVS,
        )

    def test_values(self):
        t = self.write("t.csv", '\ufeffa , b\r\n0, 4294967294\r\n\r\n 007,"5"\r\n')
        self.pack("--plan", "t", t)
        file = fileformat.read(self.read("out"))
        self.assertEqual([file.values(file.tables[0], i) for i in (0, 1)], [[0, 7], [4294967294, 5]])
        self.assertEqual(names.names_beside(self.at("out"), self.read("out"), self.fail).attributes, {0: "a", 1: "b"})

    def test_values_refused(self):
        for value in ("4294967296", "-1", "+1", "1.0", "1e3", "ten", "1_0", "0x10", "9" * 5000, "٣", "\0"):
            with self.subTest(value[:12]):
                t = self.write("t.csv", "a,b\n1,2\n3,%s\n" % value)
                self.refused(
                    r"t\.csv, line 3(, column 2 \(b\): .* is not a number from 0 to 4294967294|: not CSV: .*NUL)", t
                )

    def test_not_utf8(self):
        """The line is told, wherever the file is cut into pieces when it is read."""
        for line, content in (
            (1, b"\xff,b\n1,2\n"),
            (2, b"\xef\xbb\xbfa,b\n1,\xff\n3,4\n"),
            (3, b"a,b\r1,2\r3,\xff\r"),
            (3, b"a\r\n1\r\n\xc3"),
            (3001, b"a\n" + b"4294967295\n" * 2999 + b"\xff\n"),
            (3, b'a,b\n1,"' + b" " * 9000 + b'2"\n\xff,4\n'),
        ):
            with self.subTest(content[:20]):
                t = self.write("t.csv", content)
                self.refused(r"t\.csv, line %d: not UTF-8 text; save the file as UTF-8" % line, "--text", "a", t)

    def test_csv_files_refused(self):
        for pattern, content in {
            "line 1: the line with the names": "",
            "line 3: 1 value, but the first line names 2 attributes": "a,b\n1,2\n3\n",
            "line 2: 3 values": "a,b\n1,2,3\n",
            "line 1, column 2: an attribute without a name": "a,,b\n",
            r"line 1, column 3: a stands in this line already": "a,b,a\n",
            r"line 1, column 9 \(i\): a table has at most 8 attributes": "a,b,c,d,e,f,g,h,i\n",
            "line 4098: a table has at most 4,096 rows": "a\n" + "5\n" * 4097,
            "line 2: not CSV": 'a,b\n1,"2\n',
            "line 2: not CSV: field larger": "a\n" + "5" * 200000,
            "line 1, column 1: a line break": '"a\nb"\n',
            "a packed file, not CSV; a packed file is joined alone": SAMPLE,
        }.items():
            with self.subTest(pattern):
                t = self.write("t.csv", content)
                self.refused(r"t\.csv.*" + pattern, "--plan", "t", t)
        self.refused("none.csv: No such file", self.at("none.csv"))
        self.refused("Is a directory", self.folder)

    def test_limits_taken(self):
        t = self.write("t.csv", "a,b,c,d,e,f,g,h\n" + "1,2,3,4,5,6,7,8\n" * 4096)
        _, err = self.pack(t)
        self.assertIn("note: the program says 13", err)
        self.assertIsNone(fileformat.read(self.read("out")).fault)
        t = self.write("t.csv", "a\n" + "1\n" * 4096)
        self.assertIn(
            "note: the program says 10, it lends 16,384 words of scratch; pigrozd join takes the file with 40,960",
            self.pack(t)[1],
        )

    def test_tables(self):
        several = [self.write("t%d.csv" % i, "a\n5\n") for i in range(17)]
        chain = "t0"
        for i in range(1, 16):
            chain = "(%s t%d)" % (chain, i)
        self.refused("at most 16 tables", "--plan", "(%s t16)" % chain, *several)
        os.mkdir(self.at("other"))
        self.refused(
            "a table called t0 was given already", "--plan", "t0", several[0], self.write("other/t0.csv", "a\n5\n")
        )
        self.pack("--plan", chain, *several[:16])
        self.assertEqual(self.read("out"), samples()["tables_16"])

    def test_plans(self):
        self.refused("plan .*at character 9: no table is called panels", "--plan", "(frames panels)", *CSVS)
        self.refused("plan : at character 1: the plan is empty", "--plan", "", *CSVS)
        self.refused(
            "refused 8 2: .*names frames a second time; nothing is written",
            "--plan",
            "(frames frames)",
            *CSVS,
            status=1,
        )
        self.refused(
            "refused 8 3: .*leaves out readings; nothing is written", "--plan", "(frames exposures)", *CSVS, status=1
        )
        self.pack("--plan", ' ( 0("exposures"  2) )', *CSVS)
        self.assertEqual(self.read("out"), SAMPLE)

    def test_side_without_holder(self):
        plan = "((frames readings) exposures)"
        self.refused(
            "refused 9 0: .* is on exposure and reading, but no table on the left has them all; .*; nothing is",
            "--plan",
            plan,
            *CSVS,
            status=1,
        )
        _, err = self.pack("--anyway", "--plan", plan, *CSVS)
        self.assertIn("note: refused 9 0", err)
        self.assertEqual(self.read("out"), SAMPLE[:121] + bytes([255, 255, 0, 2, 1]))

    def test_not_well_behaved(self):
        """Such a plan is packed as it was given: the join mends it."""
        self.assertEqual(self.pack("--plan", "(frames (readings exposures))", *CSVS)[1], "")
        self.assertEqual(self.read("out"), SAMPLE[:121] + bytes([255, 0, 255, 2, 1]))

    def test_scratch_of_the_mended_plan(self):
        """The note speaks of the words that the mended plan (a (b c)) needs: 10 a row, and the rows of a and b."""
        for rows, note in (((745, 10, 742), ""), ((10, 1471, 10), "pigrozd join takes the file with 16,391\n")):
            tables = [
                self.write(name + ".csv", header + "\n" + (line + "\n") * n)
                for name, header, line, n in zip("abc", ("x", "x,y", "y"), ("1", "1,2", "2"), rows)
            ]
            _, err = self.pack("--plan", "(a (c b))", *tables)
            self.assertTrue(err.endswith(note) if note else err == "", err)

    def test_texts(self):
        left = self.write("left.csv", 'panel,state\nnorth,1\n"a ""b"", c",2\nsüd ,3\nöst,4\n')
        right = self.write("right.csv", 'panel,side\nsüd ,in\nwest,out\n"a ""b"", c",in\nöst,out\n')
        self.pack("--plan", "(left right)", "--text", "panel,side", left, right)
        self.assertEqual(
            self.read("out.names").decode(),
            self.digest_line("out") + "0 panel\n1 state\n2 side\ntable 0 left\n"
            'table 1 right\ntext 0 0 north\ntext 0 1 a "b", c\ntext 0 2 süd \ntext 0 3 öst\ntext 0 4 west\n'
            "text 2 0 in\ntext 2 1 out\n",
        )
        printed = reference.printed(self.read("out")).encode()
        rows = 'panel,state,side\n"a ""b"", c",2,in\nsüd ,3,in\nöst,4,out\n'
        self.assertEqual(self.command("rows", self.at("out"), stdin=printed)[0], rows)
        self.assertEqual(self.command("join", self.at("out"))[0], rows)
        before = self.read("out"), self.read("out.names")
        command, _ = self.command("unpack", self.at("out"), self.at("back"))
        self.assertEqual(self.read("back/left.csv"), self.read("left.csv"))
        self.assertEqual(self.read("back/right.csv"), self.read("right.csv"))
        self.command(*shlex.split(command)[1:])
        self.assertEqual((self.read("out"), self.read("out.names")), before)
        self.fails("no attribute is called colour", "pack", self.at("out2"), "--text", "colour", left)
        self.fails(
            "line 2, column 1 .*line break",
            "pack",
            self.at("out2"),
            "--text",
            "p",
            self.write("x.csv", 'p\n"a\nb"\n'),
        )
        zero = self.write("x.csv", "p\na\0b\n")
        self.fails("line 2(, column 1 .*zero|: not CSV: .*NUL)", "pack", self.at("out2"), "--text", "p", zero)


class Replacing(Folder):
    """What pack replaces, and what it leaves alone."""

    def setUp(self):
        super().setUp()
        self.csv = self.write("t.csv", "a\n5\n")
        self.other = self.write("u.csv", "a\n6\n")

    def left_alone(self, pattern, name, *arguments):
        before = {name: self.read(name) for name in os.listdir(self.folder) if os.path.isfile(self.at(name))}
        self.fails(pattern, "pack", self.at(name), *arguments)
        self.assertEqual(
            {name: self.read(name) for name in os.listdir(self.folder) if os.path.isfile(self.at(name))}, before
        )

    def test_what_was_packed_is_replaced(self):
        self.command("pack", self.at("out"), self.csv)
        os.chmod(self.at("out"), 0o640)
        self.command("pack", self.at("out"), self.other)
        self.assertEqual(
            fileformat.read(self.read("out")).values(fileformat.read(self.read("out")).tables[0], 0), [6]
        )
        self.assertEqual(os.stat(self.at("out")).st_mode & 0o777, 0o640)

    def test_other_files_are_left_alone(self):
        for content in ("to do\n", "TB or not TB\n", SAMPLE):
            self.write("notes", content)
            self.left_alone("notes is there and was not packed here; it is left as it is", "notes", self.csv)
        self.command("pack", "--force", self.at("notes"), self.csv)
        self.assertEqual(self.read("notes")[:2], b"TB")

    def test_other_names_are_left_alone(self):
        self.write("out.names", "0 mine\n")
        self.left_alone("out.names is there and was not packed with .*out; it is left", "out", self.csv)
        self.command("pack", "--force", self.at("out"), self.csv)
        self.write("out.names", "0 mine\n")
        self.left_alone("out.names is there and was not packed with .*out; it is left", "out", self.csv)

    def test_what_was_changed_since_is_left_alone(self):
        self.command("pack", self.at("out"), self.csv)
        self.write("out", SAMPLE)
        self.left_alone("out.names is there and was not packed with .*out", "out", self.csv)

    def test_an_empty_file_is_replaced(self):
        self.write("out", b"")
        self.command("pack", self.at("out"), self.csv)

    def test_inputs_are_left_alone(self):
        for extra in ([], ["--force"]):
            self.left_alone(
                "t.csv is read here, so it is not written", "t.csv", self.other, self.csv, "--plan", "(u t)", *extra
            )
            os.symlink(self.csv, self.at("link"))
            self.left_alone("link is read here, so it is not written", "link", self.csv, *extra)
            os.unlink(self.at("link"))
            shutil.copy(self.csv, self.at("v.names"))
            self.left_alone("v.names is read here, so it is not written", "v", self.at("v.names"), *extra)
            os.unlink(self.at("v.names"))

    def test_what_is_no_regular_file(self):
        os.mkfifo(self.at("fifo"))
        os.mkdir(self.at("folder"))
        for extra in ([], ["--force"]):
            for name in ("fifo", "folder", "/dev/null"):
                self.left_alone("is no regular file, and only these are written", name, self.csv, *extra)
        os.mkfifo(self.at("out.names"))
        self.left_alone("out.names is no regular file", "out", self.csv, "--force")

    def test_a_link_stays(self):
        os.mkdir(self.at("elsewhere"))
        os.symlink(self.at("elsewhere/file"), self.at("out"))
        self.command("pack", self.at("out"), self.csv)
        self.assertTrue(os.path.islink(self.at("out")))
        self.assertEqual(self.read("elsewhere/file")[:2], b"TB")

    def test_folder_that_is_not_there(self):
        self.left_alone("none/out: No such file", "none/out", self.csv)

    def test_input_from_a_fifo(self):
        """A FIFO is read as a stream, once."""
        os.mkfifo(self.at("f.csv"))
        writer = subprocess.Popen(["cp", self.csv, self.at("f.csv")])
        self.command("pack", self.at("out"), self.at("f.csv"))
        self.assertEqual(writer.wait(), 0)
        self.assertEqual(names.names_beside(self.at("out"), self.read("out"), self.fail).tables, {0: "f"})


class Unpacking(Folder):
    def test_round_trips(self):
        """Every sample that is within the rules: unpacked, and packed again by the command that unpack prints."""
        done = 0
        for name, data in samples().items():
            if fileformat.read(data).fault or len(data) > 1000:
                continue
            done += 1
            with self.subTest(name):
                self.write("out", data)
                command, _ = self.command("unpack", self.at("out"), self.at(name))
                self.write("out", b"")
                self.command(*shlex.split(command)[1:])
                self.assertEqual(self.read("out"), data)
                os.remove(self.at("out.names"))
        self.assertGreater(done, 80)

    def test_sample(self):
        self.command("pack", self.at("out"), "--plan", SAMPLE_PLAN, *CSVS)
        self.command("unpack", self.at("out"), self.at("new/folder"))
        for csv_path in CSVS:
            self.assertEqual(self.read("new/folder/" + os.path.basename(csv_path)), load(csv_path))
        self.fails("frames.csv is there already", "unpack", self.at("out"), self.at("new/folder"))
        self.command("unpack", "--force", self.at("out"), self.at("new/folder"))
        os.unlink(self.at("new/folder/readings.csv"))
        os.mkfifo(self.at("new/folder/readings.csv"))
        self.fails("readings.csv is no regular file", "unpack", "--force", self.at("out"), self.at("new/folder"))

    def test_names_that_begin_with_a_dash(self):
        """The command that is printed takes them as names and not as options."""
        for table, attribute in (("-x", "-a"), ("--plan", "--text")):
            with self.subTest(table):
                csv_path = self.write(table + ".csv", "%s,b\none,1\n" % attribute)
                self.command("pack", self.at("out"), "--text=" + attribute, csv_path)
                data = self.read("out")
                command, _ = self.command("unpack", self.at("out"), self.at("d" + table))
                self.command(*shlex.split(command)[1:], "--force")
                self.assertEqual(self.read("out"), data)
        self.assertEqual(commands.command_text("dump", commands.operand("-x")), "pigrozd dump ./-x")

    def test_without_names(self):
        self.write("out", SAMPLE)
        self.command("unpack", self.at("out"), self.folder)
        self.assertEqual(self.read("table1.csv"), b"a1,a2\n1,7\n2,8\n2,9\n3,7\n")

    def test_bad_files(self):
        self.fails("refused 1 42: ", "unpack", self.write("cut", SAMPLE[:50]), self.at("cut_dir"), status=1)
        self.assertFalse(os.path.exists(self.at("cut_dir")))
        self.fails(
            "the tables are written, but the plan is bad: refused 6 126",
            "unpack",
            self.write("long", SAMPLE + b"\n"),
            self.at("d"),
            status=1,
        )
        self.assertEqual(self.read("d/table2.csv"), b"a2,a3\n7,29510\n7,29510\n9,29530\n")
        self.fails("Not a directory|File exists", "unpack", self.write("good", SAMPLE), self.at("long"))
        self.fails("refused 2 0: .*; a packed file is wanted here", "unpack", CSVS[0], self.at("d"), status=1)

    def test_bad_names(self):
        self.write("out", SAMPLE)
        for pattern, content in {
            "line 2: expected NUMBER NAME": "0 frame\nframe 0\n",
            "line 1: '../frames' cannot be the name of a table": "table 0 ../frames\n",
            "value 29510 of attribute 3 a3 stands for no text": "text 3 1 cold\n",
        }.items():
            with self.subTest(pattern):
                self.write("out.names", content)
                self.fails(pattern, "unpack", self.at("out"), self.at("d"))
                self.assertFalse(os.path.exists(self.at("d")))

    def test_names_of_unnamed_attributes_are_free(self):
        self.write("out", SAMPLE)
        self.write("out.names", "3 a2\ntable 0 table1\n")
        self.command("unpack", self.at("out"), self.at("d"))
        self.assertEqual(sorted(os.listdir(self.at("d"))), ["table1.csv", "table1_.csv", "table2.csv"])
        self.assertEqual(self.read("d/table2.csv")[:7], b"a2_,a2\n")


class RowsOfPrints(Folder):
    def setUp(self):
        super().setUp()
        self.command("pack", self.at("out"), "--plan", SAMPLE_PLAN, *CSVS)
        self.print = reference.printed(SAMPLE)

    def test_sample(self):
        self.assertEqual(self.command("rows", self.at("out"), stdin=self.print.encode())[0], ROWS)
        self.assertEqual(self.command("rows", self.at("out"), self.write("print", self.print))[0], ROWS)

    def test_no_rows(self):
        self.assertEqual(self.command("rows", self.at("out"), stdin=b"rows 0\nsteps 0 0 0 0\n")[0], ROWS[:35])

    def test_refused(self):
        self.fails(
            r"standard input: refused 9 0: a join has a side .*; pigrozd dump .*out --answer 9 0 shows the place",
            "rows",
            self.at("out"),
            stdin=b"refused 9 0\n",
            status=1,
        )
        for pattern, text in {
            r"10 118: the scratch is too short \(words needed: 118\); pigrozd join .*out has more room": "10 118",
            "11 5: .*; pigrozd join .*out has more room": "11 5",
            "13 65536: .*; pigrozd join .*out has more room": "13 65536",
        }.items():
            stdin = ("refused %s\n" % text).encode()
            self.fails("refused " + pattern, "rows", self.at("out"), stdin=stdin, status=1)

    def test_other_text(self):
        for pattern, text in {
            "line 1: expected rows N": "",
            "line 1: expected rows N or refused": "refused 99 0\n",
            "line 1: expected rows N or refused .*, found 'refused 12 0'": "refused 12 0\n",  # which is retired
            "line 1: expected rows N or refused ?": "refused 0 0\n",
            "line 3: expected a row, found 'steps": "rows 2\n1 2 3 4\nsteps 1 1 1 1\n",
            "3 rows and then steps expected behind line 1, found 1 line": "rows 3\n1 2 3 4\n",
            "line 2: 3 values, but a result of .* has 4": "rows 1\n1 2 3\nsteps 1 1 1 1\n",
            "line 2: expected a row": "rows 1\n1 2 3 x\nsteps 1 1 1 1\n",
            "1 row and then steps expected": "rows 1\n1 2 3 4\nsteps 1 1 1 1\nsteps 1 1 1 1\n",
            "line 2: expected a row, found '4294967296": "rows 1\n4294967296 2 3 4\nsteps 1 1 1 1\n",
            "the last line has no end, so the print is not whole": "rows 1\n1 2 3 4\nsteps 1 1 1 1",
            "the last line has no end": "refused 10 9",
            "line 2: a refusal is one line, found 'rows": "refused 10 118\nrows 0\n",
        }.items():
            with self.subTest(pattern):
                self.assertEqual(
                    self.fails("standard input.*" + pattern, "rows", self.at("out"), stdin=text.encode()), ""
                )
        self.fails("not the file of this print", "rows", self.write("cut", SAMPLE[:50]), stdin=self.print.encode())

    @needs_program
    def test_with_the_program(self):
        done = subprocess.run([PROGRAM], input=self.read("out"), stdout=subprocess.PIPE, check=True)
        self.assertEqual(self.command("rows", self.at("out"), stdin=done.stdout)[0], ROWS)

    def test_joins_by_hand(self):
        """Packed, joined by the reference and read as CSV: the same rows as a join written with dictionaries."""
        draw = random.Random(3).randrange
        for _ in range(5):
            a = [(draw(4), draw(9)) for _ in range(6)]
            b = [(draw(4), draw(3)) for _ in range(6)]
            left = self.write("left.csv", "k,v\n" + "".join("%d,%d\n" % row for row in a))
            right = self.write("right.csv", "k,u\n" + "".join("%d,%d\n" % row for row in b))
            self.command("pack", self.at("j"), "--plan", "(left right)", left, right)
            out, _ = self.command("rows", self.at("j"), stdin=reference.printed(self.read("j")).encode())
            expect = [{"k": str(k), "v": str(v), "u": str(u)} for k, v in a for l, u in b if k == l]
            self.assertEqual([dict(row) for row in csv.DictReader(out.splitlines())], expect)


class Plans(Folder):
    def test_sample(self):
        self.command("pack", self.at("out"), "--plan", SAMPLE_PLAN, *CSVS)
        tree = SAMPLE_DRAWN + """
the plan is well-behaved, and the join follows it as it is
scratch needed: 118 words
a result: frame, exposure, reading, centikelvin
"""
        self.assertEqual(self.command("plan", self.at("out"))[0], tree)
        self.assertEqual(self.command("plan", SAMPLE_PLAN, "--tables", *CSVS)[0], tree)
        self.assertEqual(self.command("plan", self.at("out"), "--plan", SAMPLE_PLAN)[0], tree)

    def test_side_without_holder(self):
        out, _ = self.command("plan", "((frames readings) exposures)", "--tables", *CSVS, status=1)
        self.assertIn(
            "join on exposure, reading, byte 0 of the plan\n|     REFUSED: no table on the left has them all\n", out
        )
        self.assertIn("join on nothing (every pair matches), byte 1", out)
        self.assertTrue(
            out.endswith(
                "\nanswer 9, detail 0: a join has a side where no table holds its join attributes, at 1 join\n"
                "name tables that share attributes next to each other\n"
            )
        )
        out, _ = self.command("plan", "((a b) (c d))", "--tables", "a=p", "b=q,r", "c=p", "d=q,r", status=1)
        self.assertIn("|     REFUSED: no table on the left and none on the right has them all\n", out)
        for absent in ("NOT well-behaved", "looked up", "scratch", "as mended"):
            self.assertNotIn(absent, out)

    def test_tables_without_rows(self):
        out, _ = self.command("plan", "(a b)", "--tables", "a=x,y", "b=y")
        self.assertIn("a (rows not known) looked up in b (rows not known)", out)
        self.assertIn("the plan is well-behaved, and the join follows it as it is\n", out)
        self.assertNotIn("scratch", out)

    def test_mended_tables_without_rows(self):
        """The rows of all tables decide how a plan is mended, so it is not drawn as mended if one is not known."""
        for tables in (CSVS[:2] + ["readings=reading,centikelvin"], ["frames=f,e", "exposures=e,r", "readings=r"]):
            out, _ = self.command("plan", "(frames (readings exposures))", "--tables", *tables)
            self.assertIn("NOT well-behaved: readings, the leftmost table on the right, has no ", out)
            self.assertIn("\nthe plan is not well-behaved: it is mended by the tables' rows, which are not all", out)
            for absent in ("root", "looked up", "as sent", "as mended", "penalty", "scratch"):
                self.assertNotIn(absent, out)

    def test_bad_files(self):
        known = samples()
        for answer, data in (
            ("1 42", SAMPLE[:50]),
            ("7 2", known["p5_plan_ends_early"]),
            ("8 3", known["p7_table_named_twice"]),
        ):
            self.assertEqual(self.fails("refused " + answer, "plan", self.write("bad", data), status=1), "")
        self.assertIn("the plan is well-behaved, ", self.command("plan", self.at("bad"), "--plan", "(0 (1 2))")[0])
        self.fails("no table is called x", "plan", self.at("bad"), "--plan", "(0 (1 x))")
        self.fails(
            "refused 8 3: .*names table0 a second time", "plan", self.at("bad"), "--plan", "(0 (0 1))", status=1
        )
        self.fails("refused 8 3: .*leaves out table2", "plan", self.at("bad"), "--plan", "(0 1)", status=1)

    def test_usage(self):
        self.fails("needs --tables", "plan", "(a b)")
        self.fails("goes with a FILE", "plan", "(a b)", "--plan", "a", "--tables", "a=x")
        self.fails("at most 8 attributes", "plan", "a", "--tables", "a=a,b,c,d,e,f,g,h,i")
        self.fails("cannot be the name of a table", "plan", "a", "--tables", "..=a")
        self.fails("line break", "plan", "a", "--tables", "a=x\ny")

    def test_dot(self):
        quoted = "say x \\ y"
        tables = ["a=q," + quoted, "b=p," + quoted, "c=p,q"]
        out, _ = self.command("plan", "(a (c b))", "--tables", *tables, "--dot", status=1)
        self.assertIn('n0 [label="join on q, say x \\\\ y, byte 0 of the plan\\nREFUSED: no table on the right', out)
        self.assertEqual((out.count(" color=red"), out.count("->"), out.count("subgraph")), (1, 4, 0))
        mended, _ = self.command("plan", "(frames (readings exposures))", "--tables", *CSVS, "--dot")
        for line in ('    label="as sent:";', '    label="as mended:";', "    n0 -> n2 [label", "    m0 -> m2 [label"):
            self.assertEqual(mended.count(line), 1)
        self.assertEqual((mended.count(" color=orange"), mended.count(" color=red")), (1, 0))
        self.assertEqual((mended.count("{"), mended.count("}"), mended.count("->")), (3, 3, 8))
        if shutil.which("dot"):
            other = self.command("plan", self.write("out", samples()["tables_16_in_a_row"]), "--dot")[0]
            for text in (out, mended, other):
                svg = subprocess.run(["dot", "-Tsvg"], input=text.encode(), stdout=subprocess.PIPE, check=True).stdout
                self.assertIn(b"</svg>", svg)


class Usage(Folder):
    def test_usage(self):
        for pattern, arguments in {
            "invalid choice: 'foo' \\(choose from '?join'?": ["foo"],
            "required: COMMAND": [],
            "required: FILE": ["join"],
            "required: FILE, DIR": ["unpack"],
            "unrecognized arguments: --no-such": ["join", CSVS[0], "--no-such"],
            "unrecognized arguments: --pl frames": ["join", CSVS[0], "--pl", "frames"],
            "unrecognized arguments: three": ["unpack", "one", "two", "three"],
            "invalid int value: 'x'": ["dump", "a", "--answer", "x", "0"],
        }.items():
            with self.subTest(pattern):
                _, err = self.command(*arguments, status=2)
                self.assertRegex(err, "usage: pigrozd(.|\n)*" + pattern)

    def test_usage_without_standard_error(self):
        out = io.StringIO()
        with contextlib.redirect_stdout(out), contextlib.redirect_stderr(None):
            self.assertEqual(commandline.main(["join"]), 2)
        self.assertEqual(out.getvalue(), "")

    def test_help_and_version(self):
        self.assertRegex(self.command("--version")[0], r"^pigrozd \d+\.\d+\.\d+\n$")
        for command in ("join", "pack", "unpack", "rows", "dump", "plan"):
            self.assertIn("usage: pigrozd " + command, self.command(command, "--help")[0])
            self.assertIn(command, self.command("--help")[0])

    def test_limits_are_documented(self):
        self.assertEqual((limits.MOST_TABLES, limits.MOST_ROWS), (16, 4096))


class Documents(Folder):
    def test_commands_in_tools(self):
        """The commands of docs/TOOLS.md print what stands below them."""
        self.assertGreaterEqual(self.run_document("TOOLS.md"), 5)


if __name__ == "__main__":
    unittest.main()
