"""Tests of plans that are found where a file has none: the package's finding against the rule, read once more here,
and against every plan; the library by the plan that a result names; what a user is told: sentences and drawings."""
import array
import functools
import itertools
import os
import random
import shlex
import shutil
import subprocess
import unittest
from unittest import mock

from support import COUNTED_SAMPLE, CSVS, NO_PLAN, ROWS, SAMPLE, SAMPLE_PLAN, Folder, with_copies

import pigrozd
from pigrozd import commands, drawing, fileformat, finding, joining, library, mending, names, plans


# ---- the rule and every plan, on masks
def by_the_rule(masks):
    """0 and the bytes of the plan that is found for tables with these masks; or 14 and the detail."""
    remaining, children = dict(enumerate(masks)), {t: [] for t in range(len(masks))}
    while len(remaining) > 1:
        pairs = [
            (t, u)
            for t, u in itertools.permutations(remaining, 2)
            if not remaining[t] & union(remaining, {t}) & ~remaining[u]
        ]
        if not pairs:
            return 14, min(remaining)
        table, other = min(pairs)  # the lowest table, and of those that it can be hung under the lowest
        children[other].append(table)
        del remaining[table]
    return 0, spelled(*remaining, children)


def union(remaining, without):
    """The attributes of the tables that remain, as a mask, but for those of some."""
    return functools.reduce(int.__or__, (mask for t, mask in remaining.items() if t not in without), 0)


def spelled(table, children):
    """The bytes of a table's plan: an FF for each child, its number, the children's plans in rising number."""
    below = sorted(children[table])
    return b"\xff" * len(below) + bytes([table]) + b"".join(spelled(child, children) for child in below)


@functools.lru_cache(maxsize=None)
def every_plan(tables):
    """All plans that name each of these tables once: a table, or a pair of plans."""
    if len(tables) == 1:
        return tables
    return tuple(
        (left, right)
        for size in range(1, len(tables))
        for chosen in itertools.combinations(tables, size)
        for left in every_plan(chosen)
        for right in every_plan(tuple(t for t in tables if t not in chosen))
    )


def checked(plan, masks):
    """Whether a plan is well-behaved, the mask of its leftmost table, and that of all its tables."""
    if isinstance(plan, int):
        return True, masks[plan], masks[plan]
    (left_good, left, lefts), (right_good, right, rights) = (checked(side, masks) for side in plan)
    return left_good and right_good and not lefts & rights & ~(left & right), left, lefts | rights


@functools.lru_cache(maxsize=None)
def has_plan(masks):
    """Whether some plan over tables with these masks, which rise, is well-behaved: all are tried."""
    return any(checked(plan, masks)[0] for plan in every_plan(tuple(range(len(masks)))))


def shapes_of(masks, rows=None):
    """The shapes of tables with these masks, each with so many rows."""
    return [plans.Shape([a for a in range(32) if mask >> a & 1], rows) for mask in masks]


def found(masks):
    """0 and the bytes of the plan that the package finds; or 14 and the detail."""
    answer = finding.find(shapes_of(masks))
    return (0, answer.code) if answer.plan else (14, answer.stuck[0].table)


def all_masks(attributes, tables):
    """The masks of so many tables over so many attributes, in every order."""
    return itertools.product(range(1, 1 << attributes), repeat=tables)


def drawn_masks(seed, count, most_tables=16):
    """Drawn masks. Each table shares attributes with one before it, or nothing, so that there is a plan. In some of
    them a table gets one attribute more, or a few tables share in a ring, so that there may be none."""
    draw = random.Random(seed)
    for _ in range(count):
        held = [{0, 1, 2}]
        for t in range(1, draw.randint(1, most_tables)):
            before = sorted(draw.choice(held))
            held.append({*draw.sample(before, draw.randint(0, min(2, len(before)))), 3 + t})
        if draw.random() < 0.5:
            draw.choice(held).add(draw.choice(sorted(draw.choice(held))))
        ring = draw.sample(held, draw.choice((0, 0, 3, 4))) if len(held) > 3 else []
        for place, attributes in enumerate(ring):
            attributes |= {20 + place, 20 + (place + 1) % len(ring)}
        draw.shuffle(held)
        yield [sum(1 << a for a in attributes) for attributes in held]


class Finding(unittest.TestCase):
    def test_values_of_the_request(self):
        for masks, code in {
            (3, 6, 12): "ff 02 ff 01 00",
            (1, 2): "ff 01 00",
            (1, 2, 3): "ff ff 02 00 01",
            (1, 1, 1): "ff 02 ff 01 00",
            (1, 2, 4, 8): "ff 03 ff 02 ff 01 00",
            (5,): "00",
        }.items():
            self.assertEqual(found(masks), (0, bytes.fromhex(code)), masks)
        self.assertEqual(found((3, 5, 6)), (14, 0))
        self.assertEqual(found((1, 9, 3, 6, 5)), (14, 2))

    def test_14_exactly_if_no_plan_is_well_behaved(self):
        """Up to 4 tables over 3 attributes in every order, and over 4 attributes in two orders."""
        seen = {0: 0, 14: 0}
        orders = [masks for tables in range(1, 5) for masks in all_masks(3, tables)]
        for tables in range(1, 5):
            for masks in itertools.combinations_with_replacement(range(1, 16), tables):
                orders += [masks, masks[::-1]]
        for masks in orders:
            number, _ = found(masks)
            self.assertEqual(number == 0, has_plan(tuple(sorted(masks))), masks)
            seen[number] += 1
        self.assertGreater(min(seen.values()), 300, seen)

    def test_step_by_step(self):
        """What is found is what the rule says: for all masks of up to 4 tables over 3 attributes, for drawn ones."""
        seen = {0: 0, 14: 0}
        for masks in itertools.chain(*(all_masks(3, tables) for tables in range(1, 5)), drawn_masks(1, 1500)):
            answer = found(masks)
            self.assertEqual(answer, by_the_rule(masks), masks)
            seen[answer[0]] += len(masks) > 4
        self.assertGreater(min(seen.values()), 300, seen)

    def test_what_is_found(self):
        """The plan is well-behaved, names each table once, and is left as it is, whatever rows the tables have. The
        tables that were hung, and the root, are those of the plan."""
        done = 0
        for masks in drawn_masks(2, 1500):
            answer = finding.find(shapes_of(masks))
            if answer.plan:
                for rows in (None, 0, 5):
                    self.assertEqual(mending.mend(answer.plan, shapes_of(masks, rows)).code, answer.code)
                self.assertIsNone(plans.check(answer.code, shapes_of(masks), names.Names()))
                root, hung = plans.tables_of(answer.plan)[0], [step.table for step in answer.hung]
                self.assertEqual(sorted([root, *hung]), list(range(len(masks))))
                self.assertEqual(answer.stuck, ())
                done += len(masks) > 5
        self.assertGreater(done, 300)

    def test_what_remains(self):
        """Each table that remains shares what no other one has all of; by whom each attribute is held is told."""
        done = 0
        for masks in drawn_masks(3, 1500):
            answer = finding.find(shapes_of(masks))
            if answer.plan:
                continue
            remaining = [stuck.table for stuck in answer.stuck]
            hung = [step.table for step in answer.hung]
            self.assertEqual(sorted(hung + remaining), list(range(len(masks))))
            self.assertEqual((remaining, answer.code), (sorted(remaining), b""))
            self.assertGreaterEqual(len(remaining), 3)
            for stuck in answer.stuck:
                held = {a: [t for t in remaining if t != stuck.table and masks[t] >> a & 1] for a in range(32)}
                shared = [a for a in range(32) if masks[stuck.table] >> a & 1 and held[a]]
                self.assertEqual(stuck.shared, shared)
                self.assertEqual(
                    {a: list(share.others) for share in stuck.shares for a in share.attributes},
                    {a: held[a] for a in shared},
                )
                self.assertEqual(set.intersection(*(set(held[a]) for a in shared)), set())
            done += bool(hung)
        self.assertGreater(done, 100)

    def test_files(self):
        """The reader: 6 comes before, 14 in place of 8 and 9, and without tables it stays 7."""
        triangle = b"".join(fileformat.table_record([(a, b""), (b, b"")], 0) for a, b in ((0, 1), (0, 2), (1, 2)))
        for data, answer in {
            triangle + NO_PLAN: (14, 0),
            triangle + NO_PLAN + b"\0": (6, 33),
            triangle + NO_PLAN[:2]: (1, 30),
            triangle + b"PL\1\xff": (7, 1),
            triangle + b"PL\1\0": (8, 1),
            triangle + b"PL\5\xff\xff\0\1\2": (9, 0),
            NO_PLAN: (7, 0),
            NO_PLAN + b"\0": (6, 3),
        }.items():
            file = fileformat.read(data)
            self.assertEqual((file.fault.number, file.fault.detail), answer, data)
            self.assertEqual((file.plan is None, file.found is not None), (answer[0] != 9, answer[0] == 14), data)
            self.assertIsNone(file.mended)
            given = pigrozd.call(data, array.array("I"), array.array("I"))
            self.assertEqual(tuple(given), answer + (0,) * 5)
        file = fileformat.read(SAMPLE[:118] + NO_PLAN)
        self.assertEqual((file.fault, file.plan, file.mended.code), (None, None, b"\xff\2\xff\1\0"))


class Library(unittest.TestCase):
    """The library by the plan that the package names."""

    def test_sample(self):
        file = SAMPLE[:118] + NO_PLAN
        result = pigrozd.join_file(file)
        self.assertEqual((result.counts, result.plan, result.found), ((7, 7, 19, 10), "(2 (1 0))", True))
        short = pigrozd.call(file, array.array("I", bytes(4 * 116)), array.array("I", bytes(64)))
        self.assertEqual(tuple(short)[:2], (10, 117))
        self.assertEqual(pigrozd.call(file, array.array("I", bytes(4 * 117)), array.array("I", bytes(64))).rows, 4)

    def test_drawn_files(self):
        """The same answer as to the same tables with the plan that the result names; or 14, with the detail."""
        draw, seen = random.Random(4), {0: 0, 14: 0}
        for masks in drawn_masks(5, 500, 7):
            rows = draw.randint(0, 3)
            shapes = shapes_of(masks, rows)
            tables = [{a: [draw.randint(0, 1) for _ in range(rows)] for a in shape.attributes} for shape in shapes]
            number, told = by_the_rule(masks)
            seen[number] += rows > 0 and len(masks) > 2
            if number:
                with self.assertRaises(pigrozd.Refused) as caught:
                    pigrozd.join(tables)
                self.assertEqual((caught.exception.number, caught.exception.detail), (14, told))
                self.assertTrue(caught.exception.why)
                continue
            result = pigrozd.join(tables)
            self.assertEqual((result.plan_bytes, result.found, result.mended), (told, True, False))
            again = pigrozd.join(tables, result.plan)
            self.assertEqual((again.columns, again.counts, again.plan_bytes), (result.columns, result.counts, told))
            self.assertEqual((again.found, again.mended), (False, False))
            need = plans.words_needed(plans.from_bytes(told), shapes)
            short = pigrozd.call(pigrozd.make_file(tables), array.array("I"), array.array("I", bytes(9999 * 4)))
            self.assertEqual(tuple(short)[:2], (10, need) if need else (0, 0))
        self.assertGreater(min(seen.values()), 30, seen)

    def test_sixteen_tables(self):
        """A row of 16 tables is found from its first to its last; a ring of 16 has no plan."""
        chain = [{"x%d" % t: [1, 2], "x%d" % (t + 1): [1, 2]} for t in range(16)]
        result = pigrozd.join(chain)
        self.assertEqual(result.plan_bytes, bytes(b for t in range(15, 0, -1) for b in (255, t)) + b"\0")
        self.assertEqual(list(result), [(1,) * 17, (2,) * 17])
        chain[15] = {"x15": [1], "x0": [1]}
        with self.assertRaisesRegex(pigrozd.Refused, "^refused 14 0: .*table 14 and table 15 remain, and what each"):
            pigrozd.join(chain)


class TheLibraryDecides(unittest.TestCase):
    """Where the library and the package's reader differ, which is never: the library's answer is told."""

    def answered(self, *numbers):
        """A library that answers so, whatever the file is."""
        given = library.Answer(*numbers), array.array("I", [7])
        return mock.patch.object(joining, "call_with_enough", lambda data: given)

    def test_refused_by_the_library_alone(self):
        for tables in ([{0: [7]}, {0: [7]}], [{0: [7], 1: [7]}, {1: [7], 2: [7]}, {0: [7], 2: [7]}]):
            with self.answered(14, 1, 0, 0, 0, 0, 0), self.assertRaises(pigrozd.Refused) as caught:
                pigrozd.join(tables)
            means = pigrozd.MEANINGS[14].means
            told = "refused 14 1: %s (lowest number of a table that remains: 1)" % means
            self.assertEqual(str(caught.exception), told)

    def test_joined_by_the_library_alone(self):
        ring = [{0: [7], 1: [7]}, {1: [7], 2: [7]}, {0: [7], 2: [7]}]
        with self.answered(0, 0, 0, 1, 2, 3, 4):
            result = pigrozd.join(ring)
        self.assertEqual((result.counts, result.plan, result.plan_bytes), ((1, 2, 3, 4), "", b""))
        self.assertEqual((result.found, result.mended), (True, False))


# ---- what a user is told
FOUND_DRAWN = """\
join on reading, byte 0 of the plan
|     readings (3 rows) looked up in exposures (4 rows)
|     well-behaved: both have reading
|-- readings: 3 rows (reading, centikelvin)
`-- join on exposure, byte 2 of the plan
    |     exposures (4 rows) looked up in frames (4 rows)
    |     well-behaved: both have exposure
    |-- exposures: 4 rows (exposure, reading)
    `-- frames: 4 rows (frame, exposure)

no plan was sent, and the join follows the one that is found: (readings (exposures frames)), bytes ff 02 ff 01 00
frames hangs under exposures, which has all that frames still shares: exposure
exposures hangs under readings, which has all that exposures still shares: reading
readings is the root
scratch needed: 117 words
a result: frame, exposure, reading, centikelvin
"""
STUCK = ["a=p,x", "b=p,s", "c=p,q", "d=q,r", "e=p,r"]
STUCK_DRAWN = """\
c: rows not known (p, q)
      shares p with e, q with d; no one of these has p and q
d: rows not known (q, r)
      shares q with c, r with e; no one of these has q and r
e: rows not known (p, r)
      shares p with c, r with d; no one of these has p and r

answer 14, detail 2: no plan can be found for these tables: 3 of 5 tables remain
a hangs under b, which has all that a still shares: p
b hangs under c, which has all that b still shares: p
join two of them that share attributes first and make the result a table of a second file, or leave one out
"""
TO_FIND = "0 bytes: the library is to find a plan"
RING_TOLD = (
    "refused 14 0: no plan can be found for these tables: ab, bc and ca remain, and what each of them shares is not "
    "all in one of the others: ab shares a and b; bc shares b and c; ca shares a and c; join two of them that share "
    "attributes first and make the result a table of a second file, or leave one out"
)


class Sentences(unittest.TestCase):
    def test_hung(self):
        """Attributes of tables that were hung before no longer count, and a table that shares nothing is hung too."""
        answer = finding.find(shapes_of((1, 2, 3, 16)))
        self.assertEqual(
            finding.in_words(answer, names.Names())[1:],
            [
                "table0 hangs under table2, which has all that table0 still shares: a0",
                "table1 hangs under table2, which has all that table1 still shares: a1",
                "table2 hangs under table3, as it shares nothing",
                "table3 is the root",
            ],
        )

    def test_one_table(self):
        answer = finding.find(shapes_of((5,)))
        told = "no plan was sent, and the join follows the one that is found: table0, bytes 00"
        self.assertEqual(finding.in_words(answer, names.Names()), [told, "table0 is the root"])

    def test_what_several_have_stands_together(self):
        answer = finding.find(shapes_of((0b10111, 0b00011, 0b00111, 0b01100, 0b11000)))
        words = {stuck.table: finding.stuck_in_words(stuck, names.Names()) for stuck in answer.stuck}
        self.assertEqual(
            words,
            {
                0: "shares a2 with table3, a4 with table4; no one of these has a2 and a4",
                3: "shares a2 with table0, a3 with table4; no one of these has a2 and a3",
                4: "shares a3 with table3, a4 with table0; no one of these has a3 and a4",
            },
        )
        four = finding.find(shapes_of((0b0111, 0b1011, 0b1101, 0b1110)))
        self.assertEqual(
            finding.stuck_in_words(four.stuck[0], names.Names()),
            "shares a0 with table1 and table2, a1 with table1 and table3, a2 with table2 and table3; no one of these "
            "has a0, a1 and a2",
        )
        pairs = finding.find(shapes_of((0b00111, 0b01011, 0b01100)))
        words = finding.stuck_in_words(pairs.stuck[0], names.Names())
        self.assertIn("shares a0 and a1 with table1, a2 with table2;", words)


class Commands(Folder):
    """The commands where no plan is given."""

    def ring(self):
        """Three CSV files that share in a ring."""
        return [self.write(n + ".csv", "%s,%s\n1,1\n" % (n[0], n[1])) for n in ("ab", "bc", "ca")]

    def test_plan_of_tables(self):
        self.assertEqual(self.command("plan", "--tables", *CSVS), (FOUND_DRAWN, ""))
        out, _ = self.command("plan", "--tables", "frames=frame,exposure", *CSVS[1:])
        self.assertEqual(
            out,
            FOUND_DRAWN.replace("frames (4 rows)", "frames (rows not known)")
            .replace("frames: 4 rows", "frames: rows not known")
            .replace("scratch needed: 117 words\n", ""),
        )
        self.assertEqual(self.command("plan", "--tables", *STUCK, status=1), (STUCK_DRAWN, ""))
        self.assertIn("\na is the root\n", self.command("plan", "--tables", "a=x")[0])

    def test_plan_of_a_file(self):
        out, err = self.command("pack", self.at("out"), *CSVS)
        self.assertEqual((out, err), (self.at("out") + ": 121 bytes, 3 tables, 11 rows, no plan\n", ""))
        self.assertEqual(self.read("out"), SAMPLE[:118] + NO_PLAN)
        self.assertEqual(self.command("plan", self.at("out"))[0], FOUND_DRAWN)
        drawn = self.command("plan", self.at("out"), "--plan", SAMPLE_PLAN)[0]
        self.assertIn("the plan is well-behaved, and the join follows it as it is\n", drawn)
        self.assertEqual(drawn, self.command("plan", SAMPLE_PLAN, "--tables", *CSVS)[0])

    def test_plan_of_a_file_with_14(self):
        self.command("pack", "--anyway", self.at("out"), *self.ring())
        drawn, err = self.command("plan", self.at("out"), status=1)
        self.assertEqual(err, "")
        self.assertEqual(drawn, self.command("plan", "--tables", *self.ring(), status=1)[0])
        self.assertIn("ab: 1 row (a, b)\n      shares a with ca, b with bc; no one of these has a and b\n", drawn)
        self.assertIn("\nanswer 14, detail 0: no plan can be found for these tables: 3 of 3 tables remain\n", drawn)
        self.assertIn("answer 9, ", self.command("plan", self.at("out"), "--plan", "(0 (1 2))", status=1)[0])

    def test_plan_usage(self):
        self.fails("a packed FILE is wanted, or --tables, with a PLAN before it or without one", "plan")
        self.fails("a packed FILE is wanted", "plan", "--plan", "(a b)")
        self.fails(r"\(a b\) is no file; a PLAN stands before --tables", "plan", "--tables", "a=x", "b=x", "(a b)")
        self.fails("goes with a FILE", "plan", "--plan", "a", "--tables", "a=x")
        self.fails("the plan is empty; leave it out, and one is found", "plan", "", "--tables", "a=x")
        self.fails("'': No such file", "plan", "")
        known = self.write("(a).csv", "x\n1\n")
        self.assertIn("(a) is the root\n", self.command("plan", "--tables", known)[0])

    def test_dot(self):
        found_plan, _ = self.command("plan", "--tables", *CSVS, "--dot")
        self.assertEqual((found_plan.count("->"), found_plan.count("join on ")), (4, 2))
        hung = "\\nframes hangs under exposures, which has all that frames still shares: exposure\\n"
        self.assertIn(hung, found_plan)
        stuck, _ = self.command("plan", "--tables", *STUCK, "y=u", "--dot", status=1)
        for line in (
            't0 [label="a\\nrows not known\\np, x"];',
            't2 [label="c\\nrows not known\\np, q", color=red, fontcolor=red];',
            't0 -> t1 [label="p"];',
            't5 -> t2 [label=""];',
            't2 -> t4 [label="p", dir=none, color=red];',
        ):
            self.assertEqual(stuck.count("    " + line + "\n"), 1, line)
        self.assertEqual((stuck.count(" -> "), stuck.count("dir=none"), stuck.count("fontcolor=red")), (6, 3, 3))
        if shutil.which("dot"):
            for text in (found_plan, stuck):
                svg = subprocess.run(["dot", "-Tsvg"], input=text.encode(), stdout=subprocess.PIPE, check=True).stdout
                self.assertIn(b"</svg>", svg)

    def test_copies(self):
        """A table with copies is drawn with its rows and their copies; a lookup is one of rows."""
        here = self.write("counted", COUNTED_SAMPLE[:146] + NO_PLAN)
        out, _ = self.command("plan", here)
        for line in (
            "|-- table2: 3 rows, 7 copies (a2, a3)",
            "|     table2 (3 rows) looked up in table1 (4 rows)",
            "    |-- table1: 4 rows (a1, a2)",
            "    `-- table0: 4 rows, 15 copies (a0, a1)",
            "scratch needed: 117 words",
        ):
            self.assertIn(line, out.splitlines())
        dot, _ = self.command("plan", here, "--dot")
        for label in ("table2\\n3 rows, 7 copies\\na2, a3", "table1\\n4 rows\\na1, a2"):
            self.assertIn('[label="%s"];' % label, dot)
        ring = pigrozd.make_file([{0: [1], 1: [1]}, {1: [1], 2: [1]}, {0: [1], 2: [1]}])
        out, _ = self.command("plan", self.write("ring", with_copies(ring, [[1], [900], None])), status=1)
        for line in ("table0: 1 row, 1 copy (a0, a1)", "table1: 1 row, 900 copies (a1, a2)", "table2: 1 row (a0, a2)"):
            self.assertIn(line, out.splitlines())
        counted = [plans.Shape([0], None, counted=True), plans.Shape([0], 3, counted=True, pairs=9)]
        shapes = [*counted, plans.Shape([0], 2)]
        drawn = "\n".join(drawing.drawing_without_plan(shapes, names.Names()).tree())
        for told in ("table0: rows not known (a0)", "table1: 3 rows, 9 copies (a0)", "table2: 2 rows (a0)"):
            self.assertIn(told, drawn)

    def test_join(self):
        self.assertEqual(self.command("join", *CSVS), (ROWS, ""))
        self.command("pack", self.at("out"), *CSVS)
        self.assertEqual(self.command("join", self.at("out")), (ROWS, ""))
        self.assertEqual(self.command("join", self.at("out"), "--plan", SAMPLE_PLAN), (ROWS, ""))
        for arguments in (CSVS, [self.at("out")]):
            out, err = self.command("join", *arguments, "--explain")
            self.assertEqual((out, err[: len(FOUND_DRAWN)]), (ROWS, FOUND_DRAWN))
            work = [line.rsplit(None, 1)[1] for line in err.splitlines()[-10:-1]]
            self.assertEqual(work, ["11", "4", "7", "7", "19", "10", "16", "59", "1,150"])

    def test_join_refused(self):
        ring = self.ring()
        hint = "; pigrozd plan --tables %s shows it" % " ".join(ring)
        self.assertEqual(self.command("join", *ring, status=1), ("", "pigrozd: %s%s\n" % (RING_TOLD, hint)))
        drawn = self.command("plan", "--tables", *ring, status=1)[0]
        self.assertEqual(
            self.command("join", *ring, "--explain", status=1), ("", "%spigrozd: %s\n" % (drawn, RING_TOLD))
        )
        self.command("pack", "--anyway", self.at("out"), *ring)
        told = "pigrozd: %s: %s; pigrozd plan %s shows it\n" % (self.at("out"), RING_TOLD, self.at("out"))
        self.assertEqual(self.command("join", self.at("out"), status=1), ("", told))
        self.fails("refused 9 0: ", "join", self.at("out"), "--plan", "(0 (1 2))", status=1)
        self.fails("refused 8 1: .*leaves out bc and ca$", "join", self.at("out"), "--plan", "ab", status=1)

    def test_the_command_that_is_named(self):
        """It takes names that begin with a dash, or have = in them, as files."""
        for path, word in {"-x.csv": "./-x.csv", "a=b.csv": "./a=b.csv", "a b.csv": "'a b.csv'"}.items():
            self.assertEqual(commands.command_for_tables([path], None), "pigrozd plan --tables " + word)
        path = self.write("a=b.csv", "x\n1\n")
        self.assertIn("a=b is the root", self.command("plan", "--tables", path)[0])

    def test_pack(self):
        ring = self.ring()
        told = "; nothing is written (--anyway writes it, pigrozd plan --tables %s draws it)\n" % " ".join(ring)
        self.assertEqual(self.command("pack", self.at("out"), *ring, status=1), ("", "pigrozd: " + RING_TOLD + told))
        self.assertFalse(os.path.exists(self.at("out")))
        out, err = self.command("pack", "--anyway", self.at("out"), *ring)
        self.assertEqual(err, "pigrozd: note: %s\n" % RING_TOLD)
        self.assertTrue(self.read("out").endswith(NO_PLAN))
        one = self.write("t.csv", "a\n" + "1\n" * 4096)
        self.assertIn("the program says 10, it lends 16,384 words", self.command("pack", self.at("one"), one)[1])

    def test_unpack(self):
        """The command that packs again names no plan where the file has none."""
        self.command("pack", self.at("out"), *CSVS)
        before = self.read("out"), self.read("out.names")
        command, _ = self.command("unpack", self.at("out"), self.at("d"))
        self.assertNotIn("--plan", command)
        self.command(*shlex.split(command)[1:])
        self.assertEqual((self.read("out"), self.read("out.names")), before)
        self.command("pack", "--anyway", "--force", self.at("out"), *self.ring())
        told = "pigrozd: %s: the tables are written, but %s\n" % (self.at("out"), RING_TOLD)
        self.assertEqual(self.command("unpack", self.at("out"), self.at("ring"), status=1), ("", told))
        self.assertEqual(self.read("ring/bc.csv"), b"b,c\n1,1\n")

    def test_rows(self):
        self.command("pack", self.at("out"), *CSVS)
        printed = b"rows 1\n10 1 7 29510\nsteps 7 7 19 10\n"
        self.assertEqual(self.command("rows", self.at("out"), stdin=printed)[0].count("\n"), 2)
        self.command("pack", "--anyway", "--force", self.at("out"), *self.ring())
        self.fails(
            r"standard input: refused 14 0: no plan can be found for these tables \(lowest number of a table that "
            "remains: 0\\); pigrozd plan .*out shows why$",
            "rows",
            self.at("out"),
            stdin=b"refused 14 0\n",
            status=1,
        )
        self.fails("refused 14 0: .*; so it is not the file of this print", "rows", self.at("out"), stdin=printed)

    def test_dump(self):
        self.command("pack", self.at("out"), *CSVS)
        lines = self.command("dump", self.at("out"))[0].splitlines()
        self.assertEqual(
            [line.replace(self.at("out"), "FILE") for line in lines[:3]],
            [
                "FILE: 121 bytes, 3 tables, 11 rows, plan of length 0: the library finds one",
                "within the rules: none of the answers 1 to 7 and 14 is due; the scratch needed is 117 words, a "
                "result has 4 values",
                "no plan was sent, and the join follows the one that is found: (readings (exposures frames)), bytes "
                "ff 02 ff 01 00",
            ],
        )
        self.assertEqual(lines[3:6], FOUND_DRAWN.splitlines()[-5:-2])
        self.assertEqual(
            lines[-4:-2], ["     118  50 4c".ljust(59) + "mark of the plan", "     120  00".ljust(59) + TO_FIND]
        )
        self.assertFalse([line for line in lines if "^^" in line])
        given = self.command("dump", self.at("out"), "--answer", "10", "117")[0]
        self.assertIn("\nanswer 10 117: the scratch is too short\n", given)
        for answer in ("7 0", "9 0", "14 0"):
            given = self.command("dump", self.at("out"), "--answer", *answer.split())[0]
            self.assertRegex(given, "\nanswer %s: .*; but this file is within the rules\n" % answer)

    def test_dump_of_14(self):
        """The record of the table that the detail names is marked."""
        files = self.ring()
        first = self.write("x.csv", "a\n1\n")
        self.command("pack", "--anyway", self.at("out"), first, *files)
        out, _ = self.command("dump", self.at("out"))
        told = RING_TOLD.replace("14 0", "14 1")
        self.assertEqual(out.splitlines()[0], self.at("out") + ": 71 bytes, 4 tables, 4 rows, plan of length 0")
        self.assertEqual(out.splitlines()[1], told)
        mark = "      14  54 42".ljust(59) + "mark of a table\n          ^^ answer 14, detail 1: "
        self.assertIn(mark + told.split(": ", 1)[1] + "\n", out)
        self.assertIn(TO_FIND, out)
        out, _ = self.command("dump", self.at("out"), "--answer", "14", "4")
        self.assertIn("but this file is refused with 14 1\nnothing is marked: the file has no table 4\n", out)


if __name__ == "__main__":
    unittest.main()
