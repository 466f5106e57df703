"""Tests of pigrozd join, and of how a command ends whatever happens to its streams."""
import csv
import os
import random
import signal
import sqlite3
import subprocess
import sys
import time
import unittest

from support import CSVS, ROWS, SAMPLE, SAMPLE_PLAN, Folder, path, samples

import reference
from pigrozd import NOT_RECORDED


class Joining(Folder):
    def test_without_a_plan(self):
        self.assertEqual(self.command("join", *CSVS), (ROWS, ""))
        self.assertEqual(self.command("join", *CSVS[::-1], "--attributes", ROWS.split("\n")[0])[0], ROWS)

    def test_csv_files(self):
        self.assertEqual(self.command("join", *CSVS, "--plan", SAMPLE_PLAN), (ROWS, ""))
        self.assertEqual(self.command("join", "--plan", SAMPLE_PLAN, *CSVS, "-o", "-")[0], ROWS)
        self.assertEqual(self.command("join", CSVS[0], "--plan", SAMPLE_PLAN, *CSVS[1:])[0], ROWS)

    def test_one_table(self):
        rows = "frame,exposure\n10,1\n11,2\n12,2\n13,4\n"
        self.assertEqual(self.command("join", CSVS[0])[0], rows)
        self.assertEqual(self.command("join", CSVS[0], "--plan", "frames")[0], rows)
        self.fails("the plan is empty; leave it out, and one is found", "join", CSVS[0], "--plan", "")

    def test_packed_file(self):
        place = self.write("sample", SAMPLE)
        self.assertEqual(
            self.command("join", place)[0], ROWS.replace("frame,exposure,reading,centikelvin", "a0,a1,a2,a3")
        )
        self.assertEqual(self.command("join", place, "--plan", "((1 2) 0)")[0].count("\n"), 5)
        self.command("pack", self.at("out"), "--plan", SAMPLE_PLAN, *CSVS)
        self.assertEqual(self.command("join", self.at("out"))[0], ROWS)
        self.assertEqual(
            self.command("join", self.at("out"), "--plan", "(readings (exposures frames))")[0].count("\n"), 5
        )
        self.fails("--attributes and --text go with CSV files", "join", place, "--text", "frame")

    def test_samples(self):
        """Every sample that the reference joins in full."""
        done = 0
        for name, data in samples().items():
            if len(data) < 300:
                number, detail, rows, _ = reference.outcome(data, 100000, 16384)
                with self.subTest(name):
                    status, out, err = self.run_here("join", self.write("file", data))
                    if number == 0:
                        cells = list(csv.reader(out.splitlines()))[1:]
                        self.assertEqual([[int(cell or NOT_RECORDED) for cell in row] for row in cells], rows)
                        done += 1
                    elif number not in (10, 11):
                        self.assertEqual((status, out), (1, ""))
                        self.assertIn("refused %d %d: " % (number, detail), err)
        self.assertGreater(done, 60)

    def test_endless_inputs(self):
        self.fails("/dev/zero is longer than 16,777,216 bytes", "join", "/dev/zero")
        self.fails(
            "/dev/zero, line 1: a line of 1,048,576 letters or more",
            "join",
            "/dev/zero",
            CSVS[0],
            "--plan",
            "(zero frames)",
        )

    def test_output_file(self):
        out = self.at("joined.csv")
        self.assertEqual(self.command("join", *CSVS, "--plan", SAMPLE_PLAN, "-o", out), ("", ""))
        self.assertEqual(self.read("joined.csv").decode(), ROWS)
        self.command("join", CSVS[0], "--output", out)
        self.assertEqual(self.read("joined.csv").decode().count("\n"), 5)
        self.assertEqual(os.listdir(self.folder), ["joined.csv"])

    def test_inputs_are_not_replaced(self):
        frames = self.write("frames.csv", "frame\n1\n")
        self.fails("frames.csv is read here, so it is not written", "join", frames, "-o", frames)
        self.command("pack", self.at("out"), frames)
        self.fails("out is read here", "join", self.at("out"), "-o", self.at("out"))
        self.fails("out.names is read here", "join", self.at("out"), "-o", self.at("out.names"))
        os.mkfifo(self.at("fifo"))
        for name in ("fifo", "/dev/null", "/dev/stdout", "/dev/fd/1", "/proc/self/fd/1", self.folder):
            self.fails("is no regular file", "join", frames, "-o", self.at(name))
        for name in ("", "none/"):
            self.fails("is not the name of a file", "join", frames, "-o", name)
        self.fails("'': No such file", "join", "")
        self.fails("none/out.csv: No such file", "join", frames, "-o", self.at("none/out.csv"))

    def test_read_only_files_are_not_replaced(self):
        self.write("kept.csv", "before\n")
        os.chmod(self.at("kept.csv"), 0o444)
        if os.access(self.at("kept.csv"), os.W_OK):
            self.skipTest("this user may write every file")
        self.fails("kept.csv may not be written", "join", CSVS[0], "-o", self.at("kept.csv"))

    def test_a_refusal_writes_nothing(self):
        self.write("joined.csv", "before\n")
        self.fails(
            "refused 9 0: .*: the join of frames and readings with exposures, byte 0 of the plan, is on exposure and "
            "reading, but no table on the left has them all; name tables that share attributes next to each other; "
            "--explain draws the plan",
            "join",
            *CSVS,
            "--plan",
            "((frames readings) exposures)",
            "-o",
            self.at("joined.csv"),
            status=1,
        )
        self.assertEqual(self.read("joined.csv"), b"before\n")

    def test_refusals_in_words(self):
        self.fails("refused 8 3: .*: it leaves out readings", "join", *CSVS, "--plan", "(frames exposures)", status=1)
        a = self.write("a.csv", "x\n" + "1\n" * 4096)
        b = self.write("b.csv", "y\n" + "1\n" * 4096)
        self.fails(
            r"refused 11 16777216: .*: there are 16,777,216 results of 2 values, which take 134,217,728 bytes, and "
            r"the longest output \(1,048,576 words\) "
            "fits 524,288; the join of a with b is on no attribute",
            "join",
            a,
            b,
            "--plan",
            "(a b)",
            status=1,
        )
        self.fails(
            "b.csv, line 4098: a table has at most 4,096 rows",
            "join",
            a,
            self.write("b.csv", "y\n" + "1\n" * 4097),
            "--plan",
            "(a b)",
        )
        self.fails(
            "table.txt: refused 2 0: .*; a CSV file's name ends in .csv",
            "join",
            self.write("table.txt", "x\n1\n"),
            status=1,
        )
        bad = self.write("bad", SAMPLE[:121] + bytes([255, 255, 0, 2, 1]))
        self.fails("bad: refused 9 0: .*; pigrozd dump .*bad shows it", "join", bad, status=1)
        self.fails("bad: refused 8 1: .* it leaves out table1 and table2$", "join", bad, "--plan", "0", status=1)
        drawn = r"refused 9 0: .*; pigrozd plan .*bad --plan '\(1 .* shows it"
        self.fails(drawn, "join", bad, "--plan", "(1 (2 0))", status=1)
        cut = self.write("cut", SAMPLE[:50])
        self.fails("refused 1 42: .*; pigrozd dump .*cut shows it", "join", cut, "--plan", "0", status=1)
        self.fails(
            "a packed file, not CSV; a packed file is joined alone",
            "join",
            a,
            self.write("p", SAMPLE),
            "--plan",
            "(a p)",
        )

    def test_explain(self):
        out, err = self.command("join", *CSVS, "--plan", SAMPLE_PLAN, "--explain")
        self.assertEqual(out, ROWS)
        for line in (
            "join on exposure, byte 0 of the plan",
            "|-- frames: 4 rows (frame, exposure)",
            "the plan is well-behaved, and the join follows it as it is",
        ):
            self.assertIn(line + "\n", err)
        found = [line.rsplit(None, 1) for line in err.splitlines()[-10:-1]]
        self.assertEqual([number for _, number in found], ["11", "4", "6", "8", "19", "10", "16", "59", "1,150"])
        self.assertTrue(err.endswith("= (32 * 1 + 2) * 3 * 11 + (3 + 4) * 4\n"))
        _, err = self.command("join", *CSVS, "--plan", "((frames readings) exposures)", "--explain", status=1)
        self.assertRegex(err, "REFUSED: no table on the left (.|\n)*refused 9 0: .* each other\n$")
        self.assertNotIn("entries", err)
        self.assertNotIn("--explain", err)

    def test_explain_mended(self):
        """The plan that is followed is drawn alone, and the work beside its bound is that of the join by it."""
        drawn = self.command("join", *CSVS, "--plan", SAMPLE_PLAN, "--explain")
        told = "the plan is well-behaved, and the join follows it as it is\n"
        for plan, penalty in (
            ("(frames (readings exposures))", "penalty: 3 rows = 3 (readings, at byte 2 as sent)"),
            ("((frames exposures) readings)", "penalty: 0 rows"),
        ):
            instead = "the plan as sent, %s, is not well-behaved: the join follows %s, bytes ff 00 ff 01 02\n%s\n" % (
                plan,
                SAMPLE_PLAN,
                penalty,
            )
            explained = self.command("join", *CSVS, "--plan", plan, "--explain")
            self.assertEqual(explained, (drawn[0], drawn[1].replace(told, instead)))
            self.assertEqual(self.command("join", *CSVS, "--plan", plan), (ROWS, ""))

    def test_texts(self):
        left = self.write("left.csv", "panel,state\nnorth,1\nsouth,2\n")
        right = self.write("right.csv", "panel,side\nsouth,in\nwest,out\n")
        out, _ = self.command("join", left, right, "--plan", "(left right)", "--text", "panel,side")
        self.assertEqual(out, "panel,state,side\nsouth,2,in\n")


class FullSize(Folder):
    def table(self, name, header, rows):
        return self.write(name + ".csv", header + "\n" + "".join("%d,%d\n" % row for row in rows))

    def test_three_tables_against_sqlite(self):
        """Three tables of 4,096 rows, CSV to CSV, with repeated keys and keys that no other table has."""
        draw = random.Random(5).randrange
        a = [(draw(9000), draw(6000)) for _ in range(4096)]
        b = [(draw(6000), draw(5000)) for _ in range(4096)]
        c = [(draw(5000), draw(NOT_RECORDED)) for _ in range(4096)]
        files = [self.table("a", "w,x", a), self.table("b", "x,y", b), self.table("c", "y,z", c)]
        out = self.at("out.csv")
        self.command("join", *files, "--plan", "(a (b c))", "-o", out)
        base = sqlite3.connect(":memory:")
        for name, rows in (("a", a), ("b", b), ("c", c)):
            base.execute("create table %s (p integer, q integer)" % name)
            base.executemany("insert into %s values (?, ?)" % name, rows)
        expect = base.execute(
            "select a.p, a.q, b.q, c.q from a, b, c where b.p = a.q and c.p = b.q order by a.rowid, b.rowid, c.rowid"
        )
        expect = [",".join(map(str, row)) for row in expect]
        self.assertGreater(len(expect), 1000)
        self.assertEqual(self.read("out.csv").decode().splitlines(), ["w,x,y,z"] + expect)

    def test_sixteen_tables(self):
        """16 tables of 4,096 rows, each row with one partner in the next table."""
        names = ["t%d" % t for t in range(16)]
        files = [
            self.table(name, "x%d,x%d" % (t, t + 1), [(i * 7 + t, i * 7 + t + 1) for i in range(4096)])
            for t, name in enumerate(names)
        ]
        plan = names[-1]
        for name in reversed(names[:-1]):
            plan = "(%s %s)" % (name, plan)
        out, _ = self.command("join", *files, "--plan", plan)
        lines = out.splitlines()
        self.assertEqual(lines[0], ",".join("x%d" % t for t in range(17)))
        self.assertEqual(lines[1:], [",".join(str(i * 7 + t) for t in range(17)) for i in range(4096)])

    def test_longest_output(self):
        a = self.write("a.csv", "x\n" + "".join("%d\n" % i for i in range(512)))
        b = self.write("b.csv", "y\n" + "".join("%d\n" % i for i in range(1024)))
        self.command("join", a, b, "--plan", "(a b)", "-o", self.at("out.csv"))
        self.assertEqual(self.read("out.csv").count(b"\n"), 512 * 1024 + 1)


class Streams(Folder):
    """Real processes, with streams that are closed, full, or no longer read."""

    def test_status(self):
        self.assertEqual(self.process("join", *CSVS, "--plan", SAMPLE_PLAN).stdout.decode(), ROWS)
        self.assertEqual(self.process("join", *CSVS, "--plan", "((frames readings) exposures)").returncode, 1)
        self.assertEqual(self.process("join", self.at("none.csv")).returncode, 2)
        self.assertEqual(self.process("join").returncode, 2)

    def test_full_device(self):
        for arguments in (
            ["join", CSVS[0]],
            ["--help"],
            ["join", "--help"],
            ["--version"],
            ["dump", path("crates/pigrozd/stdin")],
        ):
            with self.subTest(arguments), open("/dev/full", "wb") as full:
                done = self.process(*arguments, stdout=full)
                self.assertEqual(
                    (done.returncode, done.stderr), (2, b"pigrozd: standard output: No space left on device\n")
                )

    def test_full_standard_error(self):
        with open("/dev/full", "wb") as full:
            program = [sys.executable, path("bin", "pigrozd"), "join", self.at("none.csv")]
            done = subprocess.run(program, stderr=full, env=self.environment())
        self.assertEqual(done.returncode, 2)

    def shell(self, command):
        """Runs a command in a shell, with $pigrozd in it."""
        program = "%s %s" % (sys.executable, path("bin", "pigrozd"))
        done = subprocess.run(
            ["bash", "-c", command],
            env=self.environment(pigrozd=program),
            stderr=subprocess.PIPE,
            stdout=subprocess.PIPE,
            stdin=subprocess.DEVNULL,
            cwd=self.folder,
        )
        self.assertNotIn(b"Traceback", done.stderr)
        self.assertNotIn(b"Exception ignored", done.stderr)
        return done

    def test_closed_streams(self):
        done = self.shell("$pigrozd join %s >&-" % CSVS[0])
        self.assertEqual((done.returncode, done.stderr), (2, b"pigrozd: standard output is closed\n"))
        self.assertEqual(self.shell("$pigrozd join %s 2>&-" % CSVS[0]).returncode, 0)
        self.assertEqual(self.shell("$pigrozd join none.csv 2>&-").returncode, 2)
        self.assertEqual(self.shell("$pigrozd --help >&-").returncode, 2)
        done = self.shell("$pigrozd rows %s <&-" % path("crates/pigrozd/stdin"))
        self.assertEqual((done.returncode, done.stderr), (2, b"pigrozd: standard input is closed\n"))

    def test_reader_that_stops(self):
        big = self.write("big.csv", "x\n" + "123456\n" * 4096)
        other = self.write("other.csv", "y\n" + "1\n" * 100)
        done = self.shell(
            "$pigrozd join %s %s --plan '(big other)' | head -n 1; exit ${PIPESTATUS[0]}" % (big, other)
        )
        self.assertEqual((done.returncode, done.stdout, done.stderr), (2, b"x,y\n", b""))
        done = self.shell("$pigrozd join %s | true; exit ${PIPESTATUS[0]}" % CSVS[0])
        self.assertEqual((done.returncode, done.stderr), (2, b""))

    def test_interrupt(self):
        os.mkfifo(self.at("f.csv"))
        started = subprocess.Popen(
            [sys.executable, path("bin", "pigrozd"), "join", self.at("f.csv")], stderr=subprocess.PIPE
        )
        with open(self.at("f.csv"), "wb"):  # it has opened the FIFO and waits for the first line
            time.sleep(0.2)
            started.send_signal(signal.SIGINT)
            _, err = started.communicate(timeout=20)
        self.assertEqual((started.returncode, err), (130, b""))

    def test_full_disk(self):
        """A file that cannot be written in full is not put in place of the one before."""
        self.command("join", CSVS[0], "-o", self.at("out.csv"))
        big = self.write("big.csv", "x\n" + "4294967294\n" * 4096)
        done = self.shell("ulimit -f 8; $pigrozd join %s -o out.csv" % big)
        self.assertEqual((done.returncode, done.stderr), (2, b"pigrozd: out.csv: File too large\n"))
        self.assertEqual(self.read("out.csv").count(b"\n"), 5)
        self.assertEqual(sorted(os.listdir(self.folder)), ["big.csv", "out.csv"])

    def test_foreign_library(self):
        for named, words in (("libc.so.6", b"is not Pigrozd's library"), ("./none.so", b"cannot be loaded")):
            done = self.process("join", CSVS[0], env=self.environment(PIGROZD_LIBRARY=named))
            self.assertEqual(done.returncode, 2)
            self.assertIn(words, done.stderr)

    def test_locale(self):
        """Names are UTF-8 whatever the locale; a file name that is not UTF-8 is told."""
        t = self.write("t.csv", "süd\n5\n")
        done = self.process("join", t, env=self.environment(LC_ALL="C", PYTHONUTF8="0", PYTHONCOERCECLOCALE="0"))
        self.assertEqual(done.stdout.decode("utf-8"), "süd\n5\n")
        self.assertEqual(self.process("join", os.fsencode(self.folder) + b"/\xff.csv").returncode, 2)


class StreamsWithoutBuffer(Streams):
    """The same where Python does not gather what is written: a stream then may take a part of it at a time."""

    unbuffered = "1"


if __name__ == "__main__":
    unittest.main()
