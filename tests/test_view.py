"""Tests of pigrozd view: a page that is printed, what the viewer does with each key, and the viewer on a terminal."""
import codecs
import fcntl
import os
import pty
import re
import select
import signal
import struct
import subprocess
import sys
import termios
import textwrap
import time
import unittest
from unittest import mock

from support import COUNTED_SAMPLE, CSVS, SAMPLE, SAMPLE_PLAN, Folder, path, with_copies
from test_access import ONE_LESS, grouped

import pigrozd
from pigrozd import access, fileformat, names, screens, viewing

PAGE = """\
n  frame  exposure  reading  centikelvin
0     10         1        7        29510
1     10         1        7        29510
2     11         2        9        29530
3     12         2        9        29530
"""
WITH_ROWS = """\
n  frame  exposure  reading  centikelvin  |  frames  exposures  readings
0     10         1        7        29510  |       0          0         0
1     10         1        7        29510  |       0          0         1
2     11         2        9        29530  |       1          2         2
3     12         2        9        29530  |       2          2         2
"""


COUNTED = """\
 n  frame  a1  a2     a3  |  frames.copy  table1  table2.copy
 2     10   1   7  29510  |          0.0       0          1.0
 3     11   2   9  29530  |          1.0       2          2.0
 4     11   2   9  29530  |          1.0       2          2.1
"""


def lines_of(text, *numbers):
    """Lines of a text, by their numbers."""
    return "".join(text.splitlines(True)[number] for number in numbers)


class Printing(Folder):
    """Standard output is no terminal: one page is printed."""

    def page(self, *arguments):
        out, err = self.command("view", *arguments)
        self.assertEqual(err, "")
        return out

    def refused(self, told, *arguments):
        self.assertEqual(self.fails(told, "view", *arguments, status=1), "")

    def column(self, name, rows):
        """A CSV file of one attribute, which is called as the table, with the rows' numbers as values."""
        return self.write(name + ".csv", name + "\n" + "".join("%d\n" % row for row in range(rows)))

    def test_csv_files(self):
        self.assertEqual(self.page(*CSVS), PAGE)
        self.assertEqual(self.page(*CSVS, "--row-numbers"), WITH_ROWS)
        self.assertEqual(self.page("--plan", SAMPLE_PLAN, *CSVS), PAGE)
        frames = "n  frame  exposure\n1     11         2\n2     12         2\n"
        self.assertEqual(self.page(CSVS[0], "--at", "1", "--rows", "2"), frames)

    def test_packed_files(self):
        self.command("pack", self.at("out"), *CSVS)
        self.assertEqual(self.page(self.at("out")), PAGE)
        self.assertEqual(self.page(self.at("out"), "--plan", SAMPLE_PLAN), PAGE)
        bare = "n  a0  a1  a2     a3  |  table0  table1  table2\n0  10   1   7  29510  |       0       0       0\n"
        self.assertEqual(self.page(self.write("bare", SAMPLE), "--row-numbers", "--rows", "1"), bare)

    def test_from_a_number_on(self):
        for at in range(4):
            for size in (1, 2, 3, 9):
                shown = lines_of(PAGE, 0, *(n + 1 for n in range(at, min(at + size, 4))))
                self.assertEqual(self.page(*CSVS, "--at", str(at), "--rows", str(size)), shown)
        self.assertEqual(self.page(*CSVS, "--at", "0,003"), lines_of(PAGE, 0, 4))

    def test_by_rows(self):
        self.assertEqual(self.page(*CSVS, "--find", "0,0,1", "--rows", "1"), lines_of(PAGE, 0, 2))
        self.assertEqual(self.page(*CSVS, "--find", " 1 2, 2"), lines_of(PAGE, 0, 3, 4))

    def test_the_order_is_that_of_the_plan(self):
        paths = [self.column("a", 2), self.column("b", 3)]
        for plan in ("(a b)", "(b a)"):
            rows = [line.split()[1:] for line in self.page(*paths, "--plan", plan).splitlines()[1:]]
            joined = pigrozd.join({"a": {"a": range(2)}, "b": {"b": range(3)}}, plan)
            self.assertEqual(rows, [list(map(str, row)) for row in joined])

    def test_texts_and_values_not_recorded(self):
        left = self.write("left.csv", "panel,state\nnorth,1\nsouth,\nwest,30\n")
        right = self.write("right.csv", "panel,side\nsouth,in\nwest,\nnorth,out\n")
        given = (left, right, "--text", "panel,side", "--plan", "(left right)")
        self.assertEqual(
            self.page(*given, "--row-numbers"),
            "n  panel  state  side  |  left  right\n"
            "0  north      1  out   |     0      2\n"
            "1  south         in    |     1      0\n"
            "2  west      30        |     2      1\n",
        )
        told = "left and right do not agree: panel is north in row 0 of left and south in row 0 of right$"
        self.refused(told, *given, "--find", "0,0")

    def test_letters(self):
        """Names and texts of any kind stand in their columns, and do nothing to a terminal."""
        table = self.write("t.csv", 'süd,"a\tb",長い\nx\x1b[2J,yy,é\n%s,long,中文\n' % ("z" * 50))
        self.assertEqual(
            self.page(table, "--text", "süd,a\tb,長い").splitlines(),
            [
                "n  süd" + " " * 39 + "a?b   長い",
                "0  x?[2J" + " " * 37 + "yy    é",
                "1  " + "z" * 38 + "..  long  中文",
            ],
        )

    def test_no_results(self):
        none = self.write("none.csv", "frame\n")
        self.assertEqual(self.page(none, "--row-numbers"), "n  frame  |  none\n")
        self.assertEqual(self.page(CSVS[0], none), "n  frame  exposure\n")
        self.refused("refused 16 0: n is not below the number of results: there are no results$", none, "--at", "0")
        self.refused("refused 17 0: .*: none has no row 0: it has no rows$", none, "--find", "0")

    def test_many_results(self):
        """Only what is shown is read, of 4,194,304,000 results; and of 1,152,921,504,606,846,976."""
        given = (self.column("a", 4096), self.column("b", 1024), self.column("c", 1000), "--plan", "(a (b c))")
        for n in (0, 4000, 123456789, 4194303999):
            cells = self.page(*given, "--at", str(n), "--rows", "1").split()[4:]
            self.assertEqual(list(map(int, cells)), [n, n // 1024000, n // 1000 % 1024, n % 1000])
        self.assertEqual(self.page(*given, "--at", "4194303990").count("\n"), 11)
        huge = [self.column(name, 16) for name in "abcdefghijklmno"]
        plan = " ".join("(" + name for name in "abcdefghijklmn") + " o" + ")" * 14
        for n in (0, 2**32, 2**59 + 7, 16**15 - 1):
            row = self.page(*huge, "--plan", plan, "--at", "{:,}".format(n), "--rows", "1").split()[16:]
            self.assertEqual(list(map(int, row)), [n, *(int(digit, 16) for digit in "%015x" % n)])
            self.assertEqual(row, self.page(*huge, "--plan", plan, "--find", ",".join(row[1:])).split()[16:32])
        with mock.patch.object(access, "call_result_at", wraps=access.call_result_at) as asked:
            self.assertEqual(self.page(*given, "--at", "4,000").count("\n"), 41)
        self.assertLess(asked.call_count, 45)

    def test_long_pages(self):
        """They are written in parts."""
        rows = self.page(self.column("x", 2500), "--rows", "1000000").splitlines()
        self.assertEqual([row.split() for row in rows[1:]], [[str(row)] * 2 for row in range(2500)])

    def test_refused(self):
        here = self.write("sample", SAMPLE)
        told = "there are 4 results, numbers 0 to 3, and no result 4$"
        self.refused("sample: refused 16 4: n is not below the number of results: " + told, here, "--at", "4")
        self.refused("and no result 18446744073709551616$", here, "--at", str(2**64))
        self.refused("and none with such a number$", here, "--at", "9" * 5000)
        self.assertEqual(self.page(here, "--at", "0" * 5000 + "3").count("\n"), 2)
        for rows, told in {
            "0,0": r"one row number for each table is wanted \(table0, table1 and table2\), and 2 are given",
            "": ".*, and none is given",
            "0,4,0": "table1 has no row 4: it has 4 rows, numbered from 0",
            "0,1,0": "table0 and table1 do not agree: a1 is 1 in row 0 of table0 and 2 in row 1 of table1",
        }.items():
            first = "sample: refused 17 0: the row numbers and copies are those of no result: "
            self.refused(first + told + "$", here, "--find", rows)
        self.refused("cut: refused 1 42: .*; pigrozd dump .*cut shows it$", self.write("cut", SAMPLE[:50]))
        self.refused("refused 8 1: .* it leaves out exposures and readings$", *CSVS, "--plan", "frames")
        ring = [self.write(name + ".csv", head + "\n") for name, head in (("a", "x,y"), ("b", "y,z"), ("c", "x,z"))]
        self.refused("refused 14 0: .*; pigrozd plan --tables .*c.csv shows it$", *ring)

    def test_copies(self):
        """Where rows have copies, the column is called so, and 1.2 is copy 2 of row 1."""
        here = self.write("counted", COUNTED_SAMPLE)
        self.write("counted.names", "0 frame\ntable 0 frames\n")
        self.assertEqual(self.page(here, "--row-numbers", "--at", "2", "--rows", "3"), COUNTED)
        without = "".join(line.split("  |")[0] + "\n" for line in COUNTED.splitlines())
        self.assertEqual(self.page(here, "--at", "2", "--rows", "3"), without)
        for n in range(23):
            last = self.page(here, "--row-numbers", "--at", str(n), "--rows", "1").splitlines()[1]
            for between in (",", " ", " , "):
                found = self.page(here, "--row-numbers", "--find", between.join(last.split()[-3:]), "--rows", "1")
                self.assertEqual(found.splitlines()[1], last)
        for find, n in (("1,2,2", 3), ("1.0 2.0 2.0", 3), ("1.2,2,2", 11), ("1.02,02.00,2.3", 14)):
            self.assertEqual(self.page(here, "--find", find, "--rows", "1").splitlines()[1].split()[0], str(n))
        for find, told in {
            "1.3,2,2": "row 1 of frames has no copy 3: it has 3 copies, numbered from 0",
            "1.2,2.1,2": "row 2 of table1 has no copy 1: it has 1 copy, numbered from 0",
            "1,2,2.%d" % 2**32: "row 2 of table2 has no copy 4294967296: it has 4 copies, numbered from 0",
            "4.0,2,2": "frames has no row 4: it has 4 rows, numbered from 0",
        }.items():
            self.refused("counted: refused 17 0: .*: %s$" % re.escape(told), here, "--find", find)
        self.refused("has no copy 1: it has 1 copy, numbered from 0$", *CSVS, "--find", "1,2.1,2")
        for find, told in {
            "1.,2,2": "a copy number of --find is a number from 0 on, not ''",
            ".1,2,2": "a row number of --find is a number from 0 on, not ''",
            "1.2.0,2,2": "a copy number of --find is a number from 0 on, not '2.0'",
            "1.x,2,2": "a copy number of --find is a number from 0 on, not 'x'",
            "1.-1,2,2": "a copy number of --find is a number from 0 on, not '-1'",
        }.items():
            self.fails("^pigrozd: %s$" % re.escape(told), "view", here, "--find", find)

    def test_wide_columns_of_copies(self):
        """They are as wide as the longest pair that is there, and a long name is cut before its ending."""
        data = with_copies(pigrozd.make_file([{0: [7] * 11}]), [[65535, *[1] * 9, 999]])
        here = self.write("counted", data)
        lines = self.page(here, "--row-numbers", "--at", "65534", "--rows", "2").splitlines()
        shown = ["    n  a0  |  table0.copy", "65534   7  |      0.65534", "65535   7  |          1.0"]
        self.assertEqual(lines, shown)
        self.write("counted.names", "table 0 %s\n" % ("long" * 20))
        title = "long" * 8 + "l...copy"
        self.assertEqual(self.page(here, "--row-numbers", "--rows", "1").splitlines()[0].split()[-1], title)
        self.assertEqual(len(title), viewing.WIDEST)
        self.write("counted.names", "table 0 t\n")
        lines = self.page(here, "--row-numbers", "--rows", "1").splitlines()
        self.assertEqual(lines, ["    n  a0  |   t.copy", "    0   7  |      0.0"])

    def test_too_many_results(self):
        told = (
            "refused 11 18446744073709551615: .*: there are 18,446,744,073,709,551,615 results or more, and results "
            "cannot be numbered then; the join of f with e, d, c, b and a is on no attribute, so that every pair "
        )
        self.refused(told, *(self.column(name, 4096) for name in "abcdef"))

    def test_usage(self):
        for told, *arguments in (
            ("--at is a number from 0 on, not '-1'", "--at", "-1"),
            ("--at is a number from 0 on, not 'x'", "--at", "x"),
            ("--at is a number from 0 on, not ''", "--at", ""),
            ("--rows is a number from 0 on, not '4.5'", "--rows", "4.5"),
            ("--rows is at least 1", "--rows", "0"),
            ("a row number of --find is a number from 0 on, not ''", "--find", "0,,1"),
            ("a row number of --find is a number from 0 on, not 'b'", "--find", "0 b"),
            ("--at and --find both say with which result to begin; give one of them", "--at", "0", "--find", "0,0,0"),
        ):
            self.fails("^pigrozd: " + re.escape(told) + "$", "view", *CSVS, *arguments)
        self.fails("none: No such file", "view", self.at("none"))
        self.fails("--attributes and --text go with CSV files", "view", self.write("out", SAMPLE), "--text", "a0")
        self.assertEqual(self.run_here("view")[0], 2)
        self.assertIn("usage: pigrozd view", self.command("view", "--help")[0])
        self.assertIn("view", self.command("--help")[0])

    def test_texts_that_are_not_there(self):
        self.write("out", SAMPLE)
        self.write("out.names", "text 0 10 dark\n")
        self.fails("value 11 of attribute 0 a0 stands for no text", "view", self.at("out"))

    def test_processes(self):
        """To a pipe, also where standard input is one; and to a full device."""
        self.assertEqual(self.process("view", *CSVS, "--at", "3").stdout.decode(), lines_of(PAGE, 0, 4))
        self.assertEqual(self.process("view", "/dev/stdin", input=SAMPLE).stdout.count(b"\n"), 5)
        with open("/dev/full", "wb") as full:
            done = self.process("view", *CSVS, stdout=full)
        self.assertEqual((done.returncode, done.stderr), (2, b"pigrozd: standard output: No space left on device\n"))
        self.assertEqual(self.process("view", *CSVS, "--at", "4").returncode, 1)


# ---- the viewer
class Viewing(unittest.TestCase):
    """A viewer without a terminal."""

    def view(self, tables, size=40, first=0, with_rows=False):
        return self.view_of_file(pigrozd.make_file(tables), size, first, with_rows)

    def view_of_file(self, data, size=40, first=0, with_rows=False):
        known = names.Names()
        opened = access.Tables(data, known)
        layout = viewing.Layout(opened, fileformat.read(data, known), known)
        return viewing.View(opened, layout, size, first, with_rows)

    def squares(self, **options):
        """A viewer of 100 results, each with its number and the square of it."""
        return self.view([{0: range(100), 1: [y * y for y in range(100)]}], **options)

    def shown(self, view, height=12, width=80):
        """The numbers of the results that are shown, and what is told below them."""
        picture = view.picture(height, width)
        if picture.header is not None:
            self.assertEqual(picture.header.split()[:1], ["n"])
        for line in [picture.header or "", *picture.results, *picture.told]:
            self.assertLessEqual(viewing.width_of(line), width)
        self.assertLessEqual((picture.header is not None) + len(picture.results) + len(picture.told), max(height, 1))
        return [int(line.split()[0]) for line in picture.results], picture.told

    def press(self, view, *keys):
        """Presses keys, one after the other, and looks at the screen after each: what is shown at last."""
        for key in keys:
            view.press(key)
            shown = self.shown(view)
        return shown


class Views(Viewing):
    """What the viewer shows, and what its keys do."""

    def test_moving(self):
        view = self.squares()
        self.assertEqual(self.shown(view), (list(range(10)), ["results 0 to 9 of 100, q: quit, ?: help"]))
        for keys, first in (
            ("down", 1),
            ("j,enter", 3),
            ("up", 2),
            ("k,k,k", 0),
            (" ", 10),
            ("page down,f", 30),
            ("b", 20),
            ("page up,page up,page up", 0),
            ("G", 90),
            ("down", 90),
            (" ", 90),
            ("up", 89),
            ("page down", 90),
            ("home", 0),
            ("end", 90),
            ("g", 0),
            ("other key,x,Q,escape,backspace", 0),
        ):
            with self.subTest(keys=keys):
                self.assertEqual(self.press(view, *keys.split(","))[0], list(range(first, first + 10)))
        self.assertFalse(view.ended)
        view.press("q")
        self.assertTrue(view.ended)

    def test_windows(self):
        """A page is as long as is wanted, or as the window; every window is drawn."""
        view = self.squares()
        for height, shown in ((100, 40), (42, 40), (41, 39), (4, 2), (3, 1), (2, 1), (1, 0)):
            for width in (0, 1, 5, 30):
                self.assertEqual(len(view.picture(height, width).results), shown)
        self.assertIsNone(view.picture(2, 20).header)
        self.assertEqual(view.picture(3, 4), (" n  ", [" 0  "], ["resu"], False))
        self.shown(view, 42)
        view.press("G")
        self.assertEqual(self.shown(view, 42)[0], list(range(60, 100)))
        self.assertEqual(self.shown(view, 12)[0], list(range(60, 70)))
        self.assertEqual(len(self.shown(self.squares(size=5), 42)[0]), 5)

    def test_going_to_a_number(self):
        view = self.squares()
        self.assertEqual(self.press(view, ":"), (list(range(10)), ["go to result: "]))
        self.assertEqual(self.press(view, "4", "x", "backspace", "2"), (list(range(10)), ["go to result: 42"]))
        self.assertTrue(view.picture(12, 80).asking)
        self.assertEqual(self.press(view, "enter")[0], list(range(42, 52)))
        self.assertFalse(view.picture(12, 80).asking)
        self.assertEqual(self.press(view, "7", "enter")[0], list(range(7, 17)))
        self.assertEqual(self.press(view, *"0,050", "enter")[0], list(range(50, 60)))
        shown, told = self.press(view, *"97", "enter")
        self.assertEqual((shown, told), ([97, 98, 99], ["results 97 to 99 of 100, q: quit, ?: help"]))
        self.assertEqual(self.press(view, "down")[0], [97, 98, 99])
        self.assertEqual(self.press(view, "up")[0], [96, 97, 98, 99])
        self.assertEqual(self.press(view, *":99", "enter")[1], ["result 99 of 100, q: quit, ?: help"])

    def test_going_nowhere(self):
        view = self.squares()
        there = list(range(10))
        shown = self.press(view, *"100", "enter")
        self.assertEqual(shown, (there, ["there are 100 results, numbers 0 to 99, and no result 100"]))
        self.assertEqual(self.press(view, "other key"), (there, ["results 0 to 9 of 100, q: quit, ?: help"]))
        shown = self.press(view, *":-1", "enter")
        self.assertEqual(shown, (there, ["the number of a result is a number from 0 on, not '-1'"]))
        for keys in ((":", "escape"), (":", "5", "escape"), (":", "backspace"), (":", " ", "enter"), ("/", "enter")):
            self.assertEqual(self.press(view, *keys), (there, ["results 0 to 9 of 100, q: quit, ?: help"]))
        self.assertEqual(self.press(view, *":" + "9" * 300, "enter")[0], there)

    def test_going_to_rows(self):
        tables = {"frames": {"x": [7] * 5}, "lit": {"x": [8, 7, None, 7]}}
        view = self.view(tables)
        self.assertEqual(self.press(view, "/")[1], ["rows of table0, table1: "])
        shown, _ = self.press(view, *"4 1", "enter")
        self.assertEqual(view.tables.result(shown[0]).rows, (4, 1))
        differ = "table0 and table1 do not agree: a0 "
        for typed, told in {
            "4": "one row number for each table is wanted (table0 and table1), and 1 is given",
            "0,4": "table1 has no row 4: it has 4 rows, numbered from 0",
            "3 0": differ + "is 7 in row 3 of table0 and 8 in row 0 of table1",
            "3 2": differ + "was not recorded in row 2 of table1, so that it matches nothing",
            "a b": "a row number is a number from 0 on, not 'a'",
        }.items():
            before, _ = self.shown(view)
            shown, lines = self.press(view, "/", *typed, "enter")
            self.assertEqual(" ".join(lines), told)
            self.assertEqual(shown, before[: len(shown)])

    def test_row_numbers(self):
        view = self.squares(first=8, size=1)
        without = view.picture(12, 80)
        self.assertEqual((without.header, without.results), (" n  a0    a1", [" 8   8    64"]))
        view.press("r")
        shown = view.picture(12, 80)
        self.assertEqual((shown.header, shown.results), (" n  a0    a1  |  table0", [" 8   8    64  |       8"]))
        view.press("r")
        self.assertEqual(view.picture(12, 80), without)
        self.assertEqual(self.squares(first=8, size=1, with_rows=True).picture(12, 80), shown)

    def test_columns(self):
        """Those behind the number are left out one by one, and the last one stays."""
        view = self.view([{a: [a * 11111] for a in range(8)}])
        self.assertEqual(view.picture(5, 80).told, ["result 0 of 1, q: quit, ?: help"])
        told = "result 0 of 1, q: quit, ?: help, left and right: more columns"
        self.assertEqual(view.picture(5, 20).told, [told[:20]])
        headers = ["n " + "".join("%5s  " % ("a%d" % a) for a in range(first, 8)).rstrip() for first in range(8)]
        for by, left_out in ((1, 1), (2, 3), (-1, 2), (9, 7), (-9, 0)):
            for _ in range(abs(by)):
                view.press("right" if by > 0 else "left")
            picture = view.picture(5, 80)
            self.assertEqual(picture.header.split(), headers[left_out].split())
            self.assertEqual(picture.told, [told] if left_out else ["result 0 of 1, q: quit, ?: help"])
        self.press(view, "r", *["right"] * 20)
        self.assertEqual(view.picture(5, 80).header.split(), ["n", "table0"])
        self.press(view, "r")
        self.assertEqual(view.picture(5, 80).header.split(), ["n", "a7"])

    def test_help(self):
        view = self.squares()
        shown, told = self.press(view, "?")
        self.assertEqual((" ".join(told), shown), (viewing.HELP, list(range(12 - 1 - len(told)))))
        self.assertGreater(len(told), 2)
        self.assertEqual(len(view.picture(3, 30).told), 2)
        self.assertEqual(self.press(view, "down")[0], list(range(1, 11)))

    def test_copies(self):
        """They are typed as they are shown, and the help says how."""
        view = self.view_of_file(COUNTED_SAMPLE, size=1, first=14, with_rows=True)
        shown = view.picture(12, 80)
        self.assertEqual(shown.header, " n  a0  a1  a2     a3  |  table0.copy  table1  table2.copy")
        self.assertEqual(shown.results, ["14  11   2   9  29530  |          1.2       2          2.3"])
        self.assertEqual(self.press(view, "/")[1], ["rows of table0.copy, table1, table2.copy: "])
        self.assertEqual(self.press(view, *"0.0 0 0.1", "enter")[0], [1])
        self.assertEqual(self.press(view, "/", *"1,2,2", "enter")[0], [3])
        for typed, told in {
            "1.3 2 2": "row 1 of table0 has no copy 3: it has 3 copies, numbered from 0",
            "1. 2 2": "a copy number is a number from 0 on, not ''",
        }.items():
            self.assertEqual(self.press(view, "/", *typed, "enter"), ([3], [told]))
        _, told = self.press(view, "?")
        self.assertEqual(" ".join(told), viewing.HELP + viewing.HELP_OF_COPIES)
        self.assertTrue(" ".join(told).endswith("with .copy, 12.3 is copy 3 of row 12, and so it is typed"))

    def test_no_results(self):
        view = self.view([{0: [], 1: []}])
        self.assertEqual(self.shown(view), ([], ["no results, q: quit, ?: help"]))
        for keys in (["down"], [" "], ["G"], ["g"], ["up"], ["r"], ["right"], ["b"]):
            self.assertEqual(self.press(view, *keys)[0], [])
        self.assertEqual(self.press(view, "0", "enter")[1], ["there are no results"])

    def test_many_results(self):
        """18,446,744,073,709,551,614 of them: numbers of 20 digits, of which none is cut where a line is too short."""
        view = self.view(grouped(*ONE_LESS))
        most = 2**64 - 2
        first = ["results 0 to 9 of 18,446,744,073,709,551,614, q: quit, ?: help"]
        self.assertEqual(self.shown(view), (list(range(10)), first))
        shown, told = self.press(view, "G")
        self.assertEqual(shown, list(range(most - 10, most)))
        self.assertEqual(told[0][:69], "from result 18,446,744,073,709,551,604 of 18,446,744,073,709,551,614,")
        both = "results 18,446,744,073,709,551,604 to 18,446,744,073,709,551,613 of 18,446,744,073,709,551,614"
        self.assertEqual(self.shown(view, width=112)[1], [both + ", q: quit, ?: help"])
        self.assertEqual(self.shown(view, width=len(both))[1], [both])
        self.assertEqual(self.press(view, *":9,223,372,036,854,775,808", "enter")[0], [2**63 + n for n in range(10)])
        self.assertEqual(self.press(view, "page down", "up")[0], [2**63 + n for n in range(9, 19)])
        shown, told = self.press(view, *str(most - 1), "enter")
        last = "result 18,446,744,073,709,551,613 of 18,446,744,073,709,551,614"
        self.assertEqual((shown, told[0][: len(last)]), ([most - 1], last))
        self.assertEqual(self.press(view, "down")[0], [most - 1])
        shown, told = self.press(view, *":18446744073709551614", "enter")
        self.assertEqual(shown, [most - 1])
        wanted = "there are 18,446,744,073,709,551,614 results, numbers 0 to 18446744073709551613, and no result "
        self.assertEqual(" ".join(told), wanted + "18446744073709551614")
        rows = view.tables.result(2**63 + 5).rows
        self.assertEqual(self.press(view, "/", *" ".join(map(str, rows)), "enter")[0][0], 2**63 + 5)

    def test_what_is_read(self):
        """Each result that is shown once, and no others."""
        view = self.squares()
        asked = []
        result = view.tables.result
        with mock.patch.object(view.tables, "result", lambda n: asked.append(n) or result(n)):
            self.shown(view)
            self.assertEqual(asked, list(range(10)))
            self.press(view, "down", "down", "?", "r", "up")
            self.assertEqual(asked[10:], [10, 11, 1])
            self.press(view, "G")
            self.assertEqual(asked[13:], list(range(90, 100)))

    def test_long_answers_are_seen_at_their_end(self):
        view = self.squares()
        self.press(view, *":" + "123456789" * 3)
        self.assertEqual(view.picture(12, 20).told, ["89123456789123456789"])


# ---- on a terminal
KEYS = {  # as xterm sends them
    "page down": "\x1b[6~",
    "page up": "\x1b[5~",
    "down": "\x1bOB",
    "up": "\x1bOA",
    "right": "\x1bOC",
    "left": "\x1bOD",
    "home": "\x1bOH",
    "end": "\x1bOF",
    "enter": "\r",
    "escape": "\x1b",
    "backspace": "\x7f",
    "redraw": "\x0c",
    "interrupt": "\x03",
}
SEQUENCE = re.compile(r"\x1b(?:\[([?>]?)([0-9;]*)([@-~])|[()*+].|[=>78HM])|[^\x1b]", re.S)


class Display:
    """What stands on a terminal after the bytes that a program wrote to it. It knows how the cursor is moved, and how
    lines are cleared and shifted, on xterm and vt100, as far as curses does that."""

    def __init__(self, height, width):
        self.decoder, self.rest, self.modes, self.before = codecs.getincrementaldecoder("utf-8")(), "", set(), " "
        self.resize(height, width)

    def resize(self, height, width):
        self.height, self.width = height, width
        self.cells = [[" "] * width for _ in range(height)]
        self.first, self.last = 0, height - 1  # the lines that are shifted
        self.place(0, 0)

    def lines(self):
        return ["".join(row).rstrip() for row in self.cells]

    def feed(self, data):
        self.rest += self.decoder.decode(data)
        found = SEQUENCE.match(self.rest)
        while found:
            self.rest = self.rest[found.end() :]
            if found[3]:
                self.control(found[3], [int(number or 0) for number in found[2].split(";")] + [0], found[1])
            elif found[0] == "\x1bM":
                self.line(-1)
            elif found[0][0] != "\x1b":
                self.letter(found[0])
            found = SEQUENCE.match(self.rest)

    def place(self, y, x):
        self.y, self.x = min(max(y, 0), self.height - 1), min(max(x, 0), self.width - 1)

    def letter(self, letter):
        if letter == "\n":
            self.line(1)
        elif letter in "\r\b\t":
            self.place(self.y, {"\r": 0, "\b": self.x - 1, "\t": self.x // 8 * 8 + 8}[letter])
        elif letter >= " ":
            if self.x >= self.width:  # behind the last place
                self.x = 0
                self.line(1)
            self.cells[self.y][self.x] = self.before = letter
            self.x += 1
            if viewing.width_of(letter) == 2:
                self.cells[self.y][self.x] = ""
                self.x += 1

    def line(self, by):
        """To the next line, or to the line before."""
        if self.y == (self.last if by > 0 else self.first):
            self.shift(self.first, by)
        else:
            self.place(self.y + by, self.x)

    def shift(self, top, by):
        """Shifts the lines from this one on up by so many, or down if the number is negative."""
        for _ in range(abs(by)):
            del self.cells[top if by > 0 else self.last]
            self.cells.insert(self.last if by > 0 else top, [" "] * self.width)

    def blank(self, y, start, end):
        for x in range(start, min(end, self.width)):
            self.cells[y][x] = " "

    def control(self, kind, numbers, mark):
        first, second = numbers[:2]
        count, row = max(first, 1), self.cells[self.y]
        if mark:
            (self.modes.add if kind == "h" else self.modes.discard)(first)
        elif kind == "H":
            self.place(count - 1, max(second, 1) - 1)
        elif kind in "AB":
            self.place(self.y + (count if kind == "B" else -count), self.x)
        elif kind in "CD":
            self.place(self.y, self.x + (count if kind == "C" else -count))
        elif kind == "d":
            self.place(count - 1, self.x)
        elif kind == "G":
            self.place(self.y, count - 1)
        elif kind == "K":
            self.blank(self.y, *((self.x, self.width), (0, self.x + 1), (0, self.width))[first])
        elif kind == "J":
            self.control("K", numbers, mark)
            for y in (range(self.y + 1, self.height), range(self.y), range(self.height))[first]:
                self.blank(y, 0, self.width)
        elif kind == "X":
            self.blank(self.y, self.x, self.x + count)
        elif kind in "P@":
            row[self.x : self.x + count * (kind == "P")] = [" "] * count * (kind == "@")
            row[:] = (row + [" "] * self.width)[: self.width]
        elif kind == "b":
            for _ in range(count):
                self.letter(self.before)
        elif kind in "LMST":
            self.shift(self.y if kind in "LM" else self.first, count if kind in "MS" else -count)
        elif kind == "r":
            self.first, self.last = count - 1, (second or self.height) - 1
            self.place(0, 0)


def begin():
    """Ties a new process to the terminal that is its standard input, and lets Ctrl-C interrupt it."""
    fcntl.ioctl(0, termios.TIOCSCTTY, 0)
    signal.signal(signal.SIGINT, signal.SIG_DFL)


class Terminal(Folder):
    """A viewer that runs on a terminal of its own."""

    term = "xterm"

    def start(self, *arguments, height=24, width=80, program=path("bin", "pigrozd"), **environment):
        """Starts the viewer on a terminal of so many lines and places."""
        self.master, self.slave = pty.openpty()
        self.addCleanup(os.close, self.master)
        self.addCleanup(os.close, self.slave)
        self.display, self.written = Display(height, width), b""
        self.resize(height, width)
        self.before = termios.tcgetattr(self.slave)
        given = self.environment(**{"TERM": self.term, "LC_ALL": "C.UTF-8", **environment})
        given.pop("LINES", None)
        given.pop("COLUMNS", None)
        self.viewer = subprocess.Popen(
            [sys.executable, program, "view", *arguments],
            stdin=self.slave,
            stdout=self.slave,
            stderr=self.slave,
            env=given,
            start_new_session=True,
            preexec_fn=begin,
        )
        self.addCleanup(self.stop)

    def stop(self):
        if self.viewer.poll() is None:
            self.viewer.kill()
        self.viewer.wait()

    def resize(self, height, width):
        self.display.resize(height, width)
        fcntl.ioctl(self.master, termios.TIOCSWINSZ, struct.pack("HHHH", height, width, 0, 0))

    def keys(self, *keys):
        """Types keys, or texts."""
        os.write(self.master, "".join(KEYS.get(key, key) for key in keys).encode())

    def take(self, wait):
        """Takes what the viewer writes within so many seconds; whether there was anything."""
        if not select.select([self.master], [], [], wait)[0]:
            return False
        data = os.read(self.master, 65536)
        self.written += data
        self.display.feed(data)
        return True

    def until(self, reached, told):
        """Takes what the viewer writes until this is so."""
        end = time.monotonic() + 30
        while not reached():
            self.take(0.05)
            if time.monotonic() > end:
                self.fail("%s; there is\n%s" % (told, "\n".join(self.display.lines())))

    def shows(self, *lines):
        """Waits until just these lines stand on the screen."""
        wanted = list(lines)
        self.until(lambda: self.display.lines() == wanted, "wanted\n%s" % "\n".join(wanted))

    def ends(self, status=0):
        """Waits until the viewer ends, with this status. The terminal is as it was before."""
        self.until(lambda: self.viewer.poll() is not None, "the viewer does not end")
        while self.take(0):
            pass
        self.assertNotIn(b"Traceback", self.written)
        self.assertEqual(self.viewer.returncode, status)
        self.assertEqual(termios.tcgetattr(self.slave), self.before)
        self.assertFalse(self.display.modes & {1, 1049})  # the keys and the screen that the viewer has
        self.assertTrue(b"\x1b[?25l" not in self.written or 25 in self.display.modes)  # the cursor is seen again

    def squares(self):
        """A table of 1,000 rows: numbers and their squares."""
        return self.write("squares.csv", "x,y\n" + "".join("%d,%d\n" % (x, x * x) for x in range(1000)))

    def page(self, first, count, told=None, height=24):
        """The lines of a screen with so many of these results."""
        shown = ["%3d  %3d  %6d" % (n, n, n * n) for n in range(first, first + count)]
        if told is None:
            ends = "results {} to {}" if count > 1 else "result {}"
            told = [ends.format(first, first + count - 1) + " of 1,000, q: quit, ?: help"]
        blank = [""] * (height - 1 - len(shown) - len(told))
        return ["  n    x       y", *shown, *blank, *told]


def described(term):
    """Whether curses knows this terminal."""
    code = "import curses, os; curses.setupterm(%r, os.open(os.devnull, os.O_RDWR))" % term
    return subprocess.run([sys.executable, "-c", code], stderr=subprocess.DEVNULL).returncode == 0


@unittest.skipUnless(described("xterm"), "curses does not know xterm here")
class Viewer(Terminal):
    def test_pages(self):
        self.start(self.squares())
        self.shows(*self.page(0, 22))
        for keys, first in (
            (["page down"], 22),
            ([" "], 44),
            (["page up"], 22),
            (["b"], 0),
            (["down", "down", "j"], 3),
            (["up"], 2),
            (["G"], 978),
            (["k"], 977),
            (["home"], 0),
            (["end"], 978),
            (["g"], 0),
        ):
            self.keys(*keys)
            self.shows(*self.page(first, 22))
        self.keys("q")
        self.ends()

    def test_the_largest_window(self):
        """Forty results make a page, or as many as are wanted."""
        self.start(self.squares(), height=60)
        self.shows(*self.page(0, 40, height=60))
        self.keys(" ", "down")
        self.shows(*self.page(41, 40, height=60))
        self.keys("q")
        self.ends()
        self.start(self.squares(), "--rows", "5", "--at", "700")
        self.shows(*self.page(700, 5))
        self.keys("page down")
        self.shows(*self.page(705, 5))
        self.keys("q")
        self.ends()

    def test_going_to_a_result(self):
        self.start(self.squares(), "--at", "500")
        self.shows(*self.page(500, 22))
        self.keys("4", "0", "1", "backspace")
        self.shows(*self.page(500, 22, ["go to result: 40"]))
        self.keys("0", "enter")
        self.shows(*self.page(400, 22))
        self.keys(":", "998", "enter")
        self.shows(*self.page(998, 2))
        self.keys(":", "1000", "enter")
        self.shows(*self.page(998, 2, ["there are 1,000 results, numbers 0 to 999, and no result 1000"]))
        self.keys(":", "5", "escape")
        self.shows(*self.page(998, 2))
        self.keys("q")
        self.ends()

    def test_going_to_rows(self):
        self.start(*CSVS, height=7)
        told = "results 0 to 3 of 4, q: quit, ?: help"
        self.shows(*PAGE.splitlines(), "", told)
        self.keys("r")
        self.shows(*WITH_ROWS.splitlines(), "", told)
        self.keys("/")
        self.shows(*WITH_ROWS.splitlines(), "", "rows of frames, exposures, readings:")
        self.keys("1 2 2", "enter")
        found = lines_of(WITH_ROWS, 0, 3, 4).splitlines()
        self.shows(*found, "", "", "", "results 2 to 3 of 4, q: quit, ?: help")
        self.keys("/", "0,1,0", "enter")
        why = "frames and exposures do not agree: exposure is 1 in row 0 of frames and 2 in", "row 1 of exposures"
        self.shows(*found, "", "", *why)
        self.keys("/", "0 0", "enter")
        why = "one row number for each table is wanted (frames, exposures and readings), and 2", "are given"
        self.shows(*found, "", "", *why)
        self.keys("/", "0 0 9", "enter")
        self.shows(*found, "", "", "", "readings has no row 9: it has 3 rows, numbered from 0")
        self.keys("/", "0,0,1", "enter")
        found = lines_of(WITH_ROWS, 0, 2, 3, 4).splitlines()
        self.shows(*found, "", "", "results 1 to 3 of 4, q: quit, ?: help")
        self.keys("r", "q")
        self.ends()

    def test_many_results(self):
        """Numbers of 20 digits are typed and shown whole."""
        data = pigrozd.make_file(grouped(*ONE_LESS))
        opened, here = pigrozd.open_file(data), self.write("many", data)

        def page(first, count, told):
            shown = ["%20d  %2d" % (n, *opened[n]) for n in range(first, first + count)]
            return ["%20s  a0" % "n", *shown, *[""] * (3 - count), told]

        self.start(here, "--at", "12,345,678,901,234,567,890", height=5)
        first = "from result 12,345,678,901,234,567,890 of 18,446,744,073,709,551,614, q: quit, ?"
        self.shows(*page(12345678901234567890, 3, first[:79].rstrip()))
        self.keys(":", "18446744073709551613", "enter")
        last = "result 18,446,744,073,709,551,613 of 18,446,744,073,709,551,614, q: quit, ?: help"
        self.shows(*page(2**64 - 3, 1, last[:79].rstrip()))
        self.keys("g")
        self.shows(*page(0, 3, "results 0 to 2 of 18,446,744,073,709,551,614, q: quit, ?: help"))
        self.keys("G")
        first = "from result 18,446,744,073,709,551,611 of 18,446,744,073,709,551,614, q: quit, ?"
        self.shows(*page(2**64 - 5, 3, first[:79].rstrip()))
        self.keys("q")
        self.ends()

    def test_start_by_rows(self):
        self.start(*CSVS, "--find", "1,2,2", "--row-numbers", height=5)
        self.shows(*lines_of(WITH_ROWS, 0, 3, 4).splitlines(), "", "results 2 to 3 of 4, q: quit, ?: help")
        self.keys("q")
        self.ends()

    def test_windows_of_any_size(self):
        """The page follows the window, and what was shown first stays."""
        self.start(self.squares(), "--at", "7")
        self.shows(*self.page(7, 22))
        for height, width in ((10, 50), (3, 45), (50, 120), (24, 80)):
            self.resize(height, width)
            self.shows(*self.page(7, min(height - 2, 40), height=height))
        self.resize(2, 50)
        self.shows("  7    7      49", "result 7 of 1,000, q: quit, ?: help")
        self.resize(1, 9)
        self.shows("1,000 re")
        self.resize(5, 1)
        self.shows("", "", "", "", "")
        self.keys("?", "r", ":", "3", "enter")
        self.resize(5, 8)
        self.shows("  n", "  3", "  4", "  5", "results")
        self.resize(24, 80)
        self.keys("r")
        self.shows(*self.page(3, 22))
        self.keys("q")
        self.ends()

    def test_help_and_redraw(self):
        self.start(self.squares())
        self.shows(*self.page(0, 22))
        self.keys("?")
        told = textwrap.wrap(viewing.HELP, 79)
        self.shows(*self.page(0, 23 - len(told), told))
        self.keys("x")
        self.shows(*self.page(0, 22))
        self.display.resize(24, 80)  # as if another program had written over it
        self.keys("redraw")
        self.shows(*self.page(0, 22))
        self.keys("q")
        self.ends()

    def test_columns(self):
        wide = self.write("wide.csv", "a,b,c,d,e,f,g,h\n" + ",".join(["4294967294"] * 8) + "\n")
        self.start(wide, height=3, width=41)
        cells = ["%10s" % name for name in "abcdefgh"], ["4294967294"] * 8
        told = "result 0 of 1, q: quit, ?: help, left and"
        for left_out in (0, 1, 2):
            shown = ["  ".join([first, *row[left_out:]])[:40].rstrip() for first, row in zip("n0", cells)]
            self.shows(*shown, told[:40].rstrip())
            self.keys("right")
        self.keys("q")
        self.ends()

    def test_keys_that_wait(self):
        """Many keys at once are all done."""
        self.start(self.squares())
        self.shows(*self.page(0, 22))
        self.keys(*["page down"] * 20, *["down"] * 30)
        self.shows(*self.page(470, 22))
        self.keys(":12\r", "/34\r", "down", "q")
        self.ends()

    def test_letters(self):
        """Names and texts in another alphabet; and where the locale has no such letters."""
        self.write("t.csv", "süd,中文\nä,x\x1b[2Jy\n")
        self.command("pack", self.at("out"), self.at("t.csv"), "--text", "süd,中文")
        told = "result 0 of 1, q: quit, ?: help"
        self.start(self.at("out"), height=4)
        self.shows("n  süd  中文", "0  ä    x?[2Jy", "", told)
        self.keys("q")
        self.ends()
        self.start(self.at("out"), height=4, LC_ALL="C", PYTHONUTF8="0", PYTHONCOERCECLOCALE="0")
        self.shows("n  s?d  ??", "0  ?    x?[2Jy", "", told)
        self.keys("q")
        self.ends()

    def test_interrupt(self):
        self.start(self.squares())
        self.shows(*self.page(0, 22))
        self.keys("interrupt")
        self.ends(130)

    def test_signal(self):
        self.start(self.squares())
        self.shows(*self.page(0, 22))
        self.viewer.send_signal(signal.SIGTERM)
        self.ends(128 + signal.SIGTERM)

    def test_an_error_while_it_runs(self):
        """The terminal is put right before it is told."""
        program = (
            "import sys; sys.path.insert(0, %r); from pigrozd import InputError, Tables, commandline\n"
            "def fail(self, n):\n    raise InputError('no more')\n"
            "Tables.result = fail\nsys.exit(commandline.main())\n"
        )
        self.start(self.squares(), program=self.write("failing", program % path("python")))
        self.ends(2)
        self.assertIn(b"pigrozd: no more", self.written.split(b"\x1b[?1049l")[1])

    def test_refused(self):
        """What is refused before anything is shown leaves the screen alone."""
        self.start(*CSVS, "--at", "4")
        self.ends(1)
        self.assertIn(b"pigrozd: refused 16 4: ", self.written)
        self.assertNotIn(b"\x1b", self.written)

    def test_a_terminal_that_cannot_be_drawn_on(self):
        """The page is printed."""
        for term in ("dumb", "no-such-terminal", ""):
            self.start(*CSVS, TERM=term)
            self.ends()
            self.assertEqual(self.written.decode().replace("\r\n", "\n"), PAGE)


@unittest.skipUnless(described("vt100"), "curses does not know vt100 here")
class OlderTerminal(Terminal):
    """vt100, which can do less, and has no second screen."""

    term = "vt100"

    def test_session(self):
        self.start(self.squares())
        self.shows(*self.page(0, 22))
        for keys, first in ((" ", 22), ("jj", 24), ("k", 23), ("G", 978), (":400\r", 400), ("/7\r", 7), ("b", 0)):
            self.keys(keys)
            self.shows(*self.page(first, 22))
        self.resize(12, 50)
        self.shows(*self.page(0, 10, height=12))
        self.keys("q")
        self.ends()


class WithoutTerminal(Viewing):
    def window(self, keys):
        """A window of 12 lines, with these keys or an error in their place."""
        return mock.Mock(encoding="utf-8", **{"getmaxyx.return_value": (12, 80), "get_wch.side_effect": keys})

    def test_a_terminal_that_is_gone(self):
        """No key comes, and waiting for one ends at once: the viewer ends."""
        window = self.window(screens.curses_module().error)
        with self.assertRaisesRegex(pigrozd.InputError, "the terminal gives no keys any more"):
            screens.Screen(window, self.squares()).show()
        self.assertEqual(window.refresh.call_count, 1)

    def test_keys_before_the_first_page(self):
        """A page is as long as the window, also where keys come before one is drawn."""
        window, view = self.window([" ", "q"]), self.squares()
        screens.Screen(window, view).show()
        self.assertEqual((view.top, window.refresh.call_count), (10, 0))

    def test_streams(self):
        """Where one of the two streams is no terminal, or is closed, there is none."""
        yes, no = mock.Mock(**{"isatty.return_value": True}), mock.Mock(**{"isatty.return_value": False})
        for stdin, stdout in ((yes, no), (no, yes), (no, no), (None, yes), (yes, None)):
            with mock.patch.object(sys, "stdin", stdin), mock.patch.object(sys, "stdout", stdout):
                self.assertFalse(screens.is_there())

    def test_without_curses(self):
        stream = mock.Mock(**{"isatty.return_value": True})
        with mock.patch.multiple(sys, stdin=stream, stdout=stream), mock.patch.dict(sys.modules, curses=None):
            self.assertFalse(screens.is_there())


if __name__ == "__main__":
    unittest.main()
