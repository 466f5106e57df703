"""Tests of plans that are mended: the package's mending against reference.py and against every selection, the library
by the plan that a result names, and what a user is told: sentences and drawings."""
import array
import random
import re
import unittest
from unittest import mock

from support import CSVS, Folder, SAMPLE_DRAWN, drawn_copies, load

import pigrozd
import reference
from pigrozd import joining, library, mending, names, plans
from pigrozd.drawing import Drawing


def shapes_of(masks, rows):
    """The shapes of tables with these masks and rows."""
    return [plans.Shape([a for a in range(32) if mask >> a & 1], r) for mask, r in zip(masks, rows)]


def mended(masks, rows, code):
    """A plan's bytes mended, and its penalty; both as the package has them."""
    found = mending.mend(plans.from_bytes(bytes.fromhex(code)), shapes_of(masks, rows))
    return found.code.hex(" "), found.penalty


def drawn_attributes(draw, tables):
    """Attributes of so many tables: each later one shares some with one before it, or with any; most have others."""
    held = [sorted(draw.sample(range(3), draw.randint(1, 2)))]
    for t in range(1, tables):
        before = draw.choice(held) if draw.random() < 0.9 else range(6)
        shared = draw.sample(list(before), draw.randint(0, min(2, len(before))))
        held.append(sorted({*shared, *([3 + t] if draw.random() < 0.7 or not shared else [])}))
    return held


def drawn_code(draw, tables):
    """The bytes of a plan of these tables, in this order."""
    if len(tables) == 1:
        return bytes(tables)
    at = draw.randint(1, len(tables) - 1)
    return bytes([plans.JOIN]) + drawn_code(draw, tables[:at]) + drawn_code(draw, tables[at:])


def drawn(seed, count, most_tables, most_rows=9):
    """Drawn shapes, each with the bytes of a plan for them."""
    draw = random.Random(seed)
    for _ in range(count):
        tables = draw.randint(1, most_tables)
        shapes = [plans.Shape(held, draw.randint(0, most_rows)) for held in drawn_attributes(draw, tables)]
        yield shapes, drawn_code(draw, draw.sample(range(tables), tables))


def by_reference(shapes, code):
    """What reference.py says of a plan: 9 and its detail, or 0 and the bytes of the mended plan."""
    tables = tuple(reference.Table(s.rows, {a: [0] * s.rows for a in s.attributes}) for s in shapes)
    try:
        return 0, bytes(code_of(reference.check_plan(tables, code)))
    except reference.Refused as refused:
        return refused.number, refused.detail


def code_of(plan):
    """The bytes of a plan of reference.py."""
    return [plan[1]] if len(plan) == 2 else [plans.JOIN] + code_of(plan[1]) + code_of(plan[2])


def penalties(plan, root, shapes):
    """The penalty of every selection of roots for the sides of a plan's joins."""
    if isinstance(plan, plans.Leaf):
        return [0]
    on_left = root in plans.tables_of(plan.left)
    side, other = (plan.left, plan.right) if on_left else (plan.right, plan.left)
    return [
        mine + others + (0 if on_left else shapes[holder].rows)
        for mine in penalties(side, root, shapes)
        for holder in plans.holders(other, plans.key(plan, shapes), shapes)
        for others in penalties(other, holder, shapes)
    ]


def is_well_behaved(plan, shapes):
    """Whether a plan is followed as it is."""
    return not any(plans.lacking(join, shapes) for join in plans.joins_of(plan))


class Mending(unittest.TestCase):
    def test_values_of_the_request(self):
        sample = (3, 6, 12)
        self.assertEqual(mended(sample, (4, 4, 3), "ff00ff0201"), ("ff 00 ff 01 02", 3))
        self.assertEqual(mended(sample, (4, 4, 3), "ffff000102"), ("ff 00 ff 01 02", 0))
        self.assertEqual(mended(sample, (3, 8, 6), "ff00ff0201"), ("ff 02 ff 01 00", 3))
        self.assertEqual(
            mended((8, 5, 2, 2, 13), (0, 1, 2, 2, 0), "ff03ffff00ff010402"), ("ff 03 ff 02 ff 00 ff 04 01", 1)
        )
        masks = (73760, 21037056, 524288, 34078720, 65600, 33554432)
        self.assertEqual(
            mended(masks, (9, 5, 9, 9, 9, 5), "ff00ff04ffff05ff020301"), ("ff 00 ff 04 ff 01 ff 05 ff 03 02", 14)
        )

    def test_against_the_reference(self):
        seen = {"refused": 0, "as it is": 0, "mended": 0}
        for shapes, code in drawn(1, 4000, 8):
            fault = plans.check(code, shapes, names.Names())
            found = mending.mend(plans.from_bytes(code), shapes)
            answer = (fault.number, fault.detail) if fault else (0, found.code)
            self.assertEqual(answer, by_reference(shapes, code), (code.hex(" "), [vars(s) for s in shapes]))
            self.assertEqual(found is None, fault is not None)
            seen["refused" if fault else "as it is" if found.code == code else "mended"] += 1
        self.assertGreater(min(seen.values()), 500, seen)

    def test_against_every_selection(self):
        """The penalty is the least of all selections, and the choices add up to it."""
        done = 0
        for shapes, code in drawn(2, 1500, 6):
            plan = plans.from_bytes(code)
            found = mending.mend(plan, shapes)
            if found:
                least = min(p for root in plans.tables_of(plan) for p in penalties(plan, root, shapes))
                self.assertEqual((found.penalty, sum(c.added for c in found.choices)), (least, least), code.hex(" "))
                self.assertEqual([c.join for c in found.choices], plans.joins_of(plan))
                done += least > 0
        self.assertGreater(done, 100)

    def test_what_comes_out(self):
        """The mended plan is well-behaved, has the keys of the plan as sent, and is not mended again; a plan that is
        well-behaved comes out byte for byte, whatever rows the tables have, and also if they are not known."""
        for shapes, code in drawn(3, 1500, 10):
            plan = plans.from_bytes(code)
            found = mending.mend(plan, shapes)
            unknown = mending.mend(plan, [plans.Shape(s.attributes, None) for s in shapes])
            if is_well_behaved(plan, shapes):
                self.assertEqual((found.plan, found.code, found.penalty), (plan, code, 0))
                self.assertEqual((unknown.plan, unknown.code, unknown.penalty), (plan, code, 0))
                continue
            self.assertIsNone(unknown)
            if found:
                self.assertTrue(is_well_behaved(found.plan, shapes))
                self.assertEqual(sorted(plans.tables_of(found.plan)), sorted(plans.tables_of(plan)))
                keys = [sorted(plans.key(join, shapes) for join in plans.joins_of(p)) for p in (plan, found.plan)]
                self.assertEqual(keys[0], keys[1])
                self.assertEqual(mending.mend(found.plan, shapes).code, found.code)

    def test_ties_go_to_the_first_named(self):
        """Of the roots, of the holders on the right, and of those on the left."""
        self.assertEqual(mended((3, 6, 12), (5, 5, 5), "ff00ff0201"), ("ff 00 ff 01 02", 5))
        self.assertEqual(mended((3, 6, 12), (5, 5, 5), "ff02ff0001"), ("ff 02 ff 01 00", 5))
        self.assertEqual(mended((1, 3, 3, 2), (9, 7, 0, 3), "ff00ff03ff0201"), ("ff 00 ff ff 02 01 03", 3))
        self.assertEqual(mended((1, 3, 3, 2), (9, 0, 7, 3), "ff00ff03ff0102"), ("ff 00 ff ff 01 02 03", 3))
        self.assertEqual(mended((1, 2, 2, 3), (9, 4, 0, 9), "ff00ffff010203"), ("ff 00 ff 03 ff 01 02", 4))

    def test_sixteen_tables(self):
        draw, done = random.Random(4), 0
        shapes = [plans.Shape([t, t + 1], draw.randint(0, 4096)) for t in range(16)]
        for _ in range(200):
            code = drawn_code(draw, list(range(16))[:: draw.choice((1, -1))])
            found = mending.mend(plans.from_bytes(code), shapes)
            self.assertEqual((0, found.code), by_reference(shapes, code))
            done += found.code != code
        self.assertGreater(done, 100)


class Library(unittest.TestCase):
    """The library by the plan that the package names."""

    def test_drawn_files(self):
        """Rows in the order of the plan, the words needed, and the same answer to the same tables with that plan."""
        draw, done = random.Random(5), 0
        for shapes, code in drawn(6, 600, 5, 4):
            tables = [{a: [draw.randint(0, 1) for _ in range(s.rows)] for a in s.attributes} for s in shapes]
            file = pigrozd.make_file(tables, code)
            fault = plans.check(code, shapes, names.Names())
            if fault:
                with self.assertRaises(pigrozd.Refused) as caught:
                    pigrozd.join(tables, code)
                self.assertEqual(str(caught.exception).split(": ")[0], "refused 9 %d" % fault.detail)
                continue
            result = pigrozd.join(tables, code)
            self.assertEqual((0, result.plan_bytes), by_reference(shapes, code))
            self.assertEqual(result.mended, result.plan_bytes != code)
            number, _, rows, counts = reference.outcome(file, 10000, 10000)
            self.assertEqual((number, [tuple(row) for row in rows], counts), (0, list(result), result.counts))
            need = plans.words_needed(plans.from_bytes(result.plan_bytes), shapes)
            self.assertEqual(answer(file), (10, need) if need else (0, 0))
            again = pigrozd.join(tables, result.plan)
            self.assertEqual((again.columns, again.counts, again.mended), (result.columns, result.counts, False))
            done += result.mended and result.rows > 1
        self.assertGreater(done, 30)

    def test_copies_decide_nothing(self):
        """A plan is mended by rows, and the scratch is that of rows, however many copies these have."""
        draw, done = random.Random(7), 0
        for shapes, code in drawn(8, 400, 5, 4):
            tables = [{a: [draw.randint(0, 1) for _ in range(s.rows)] for a in s.attributes} for s in shapes]
            plain = pigrozd.make_file(tables, code)
            counted = drawn_copies(plain, draw)
            self.assertEqual(answer(counted), answer(plain))
            if plans.check(code, shapes, names.Names()):
                continue
            result = pigrozd.join_file(counted)
            self.assertEqual((0, result.plan_bytes), by_reference(shapes, code))
            _, _, rows, counts = reference.outcome(counted, 10000, 10**6)
            self.assertEqual(([tuple(row) for row in rows], counts), (list(result), result.counts))
            done += result.mended and counted != plain and result.rows > 1
        self.assertGreater(done, 20)


def answer(file):
    """The library's number and detail where no scratch is lent."""
    return tuple(pigrozd.call(file, array.array("I"), array.array("I", bytes(4000))))[:2]


class TheLibraryDecides(unittest.TestCase):
    """Where the library and the package's reader differ, which is never: the library's answer is told."""

    def answered(self, *numbers):
        """A library that answers so, whatever the file is."""
        given = library.Answer(*numbers), array.array("I", [7])
        return mock.patch.object(joining, "call_with_enough", lambda data: given)

    def test_refused_by_the_library_alone(self):
        with self.answered(9, 0, 0, 0, 0, 0, 0), self.assertRaises(pigrozd.Refused) as caught:
            pigrozd.join([{0: [7]}, {0: [7]}], (0, 1))
        means = pigrozd.MEANINGS[9].means
        self.assertEqual(str(caught.exception), "refused 9 0: %s (index of an FF in the plan: 0)" % means)

    def test_joined_by_the_library_alone(self):
        ring = [{0: [7], 1: [7]}, {1: [7], 2: [7]}, {0: [7], 2: [7]}]
        with self.answered(0, 0, 0, 1, 2, 3, 4):
            result = pigrozd.join(ring, (0, (1, 2)))
        self.assertEqual((result.counts, result.plan, result.plan_bytes), ((1, 2, 3, 4), "", b""))


class Refusals(unittest.TestCase):
    def why(self, plan, **tables):
        """Why a plan is refused with 9, in words, and the detail."""
        with self.assertRaises(pigrozd.Refused) as caught:
            pigrozd.join({name: dict.fromkeys(attributes, [1]) for name, attributes in tables.items()}, plan)
        self.assertEqual(caught.exception.number, 9)
        return caught.exception.detail, caught.exception.why

    def test_sides(self):
        ending = "; name tables that share attributes next to each other"
        self.assertEqual(
            self.why("((a b) c)", a="x", b="y", c="xy"),
            (
                0,
                "the join of a and b with c, byte 0 of the plan, is on x and y, but no table on the left has them all"
                + ending,
            ),
        )
        self.assertEqual(
            self.why("(d (c (b a)))", a="x", b="y", c="xy", d="z"),
            (
                2,
                "the join of c with b and a, byte 2 of the plan, is on x and y, but no table on the right has them all"
                + ending,
            ),
        )
        self.assertEqual(
            self.why("((a b) (c d))", a="x", b="y", c="y", d="x")[1],
            "the join of a and b with c and d, byte 0 of the plan, is on x and y, but no table on the left and none "
            "on the right has them all" + ending,
        )

    def test_ring(self):
        """Tables that share in a ring have no plan that is joined: two of the three share what no one of them has."""
        for plan in ("((ab bc) ca)", "((bc ca) ab)", "((ca ab) bc)", "(ab (bc ca))"):
            self.assertEqual(self.why(plan, ab="ab", bc="bc", ca="ca")[0], 0)

    def test_the_first_of_several(self):
        """The join outside before those inside it, and those on its left before those on its right."""
        tables = {"a": "x", "b": "y", "c": "xy", "d": "uv", "e": "u", "f": "v"}
        self.assertEqual(self.why("(((a b) c) (d (e f)))", **tables)[0], 1)
        self.assertEqual(self.why("((c (a b)) (d (e f)))", **tables)[0], 1)
        self.assertEqual(self.why("(((c a) b) (d (e f)))", **tables)[0], 6)


class Documents(unittest.TestCase):
    """The tables of docs/answers/09.md: plans for the sample, for masks 1, 2 and 3, and for a ring; each answer."""

    def test_answer_9(self):
        four, three = range(4), range(3)
        sample = [{0: four, 1: four}, {1: four, 2: four}, {2: three, 3: three}]
        ring = [{"a": [1], "b": [1]}, {"b": [1], "c": [1]}, {"c": [1], "a": [1]}]
        written = load("docs", "answers", "09.md").decode().split("| plan |")[1:]
        for text, tables in zip(written, (sample, [{"a": [1]}, {"b": [1]}, {"a": [1], "b": [1]}], ring)):
            rows = re.findall("^\\| `([0-9a-f ]+)` \\| (.*?) \\|", text, re.M)
            self.assertGreater(len(rows), 1)
            for code, said in rows:
                self.assertEqual(self.said(tables, bytes.fromhex(code)), said)
        self.assertEqual(len(written), 3)

    def said(self, tables, code):
        """What the page says of a plan for these tables."""
        try:
            result = pigrozd.join(tables, code)
        except pigrozd.Refused as refused:
            return "`refused %d %d`" % (refused.number, refused.detail)
        return "joined as `%s`" % result.plan_bytes.hex(" ") if result.mended else "joined as it is"


SAMPLE_MENDED = """\
as sent:
join on exposure, byte 0 of the plan
|     NOT well-behaved: readings, the leftmost table on the right, has no exposure
|     root on the left: frames; exposures, chosen on the right, is joined to frames
|-- frames: 4 rows (frame, exposure)
`-- join on reading, byte 2 of the plan
    |     well-behaved: readings and exposures have reading
    |     root on the right: exposures; readings, chosen on the left, is joined to exposures and adds 3 rows
    |-- readings: 3 rows (reading, centikelvin)
    `-- exposures: 4 rows (exposure, reading)

as mended:
%s
the plan as sent, (frames (readings exposures)), is not well-behaved: the join follows (frames (exposures readings)), \
bytes ff 00 ff 01 02
penalty: 3 rows = 3 (readings, at byte 2 as sent)
scratch needed: 118 words
a result: frame, exposure, reading, centikelvin
""" % SAMPLE_DRAWN


class Drawings(Folder):
    def test_sample(self):
        plan = "(frames (readings exposures))"
        self.assertEqual(self.command("plan", plan, "--tables", *CSVS)[0], SAMPLE_MENDED)
        self.command("pack", self.at("out"), "--plan", plan, *CSVS)
        self.assertEqual(self.command("plan", self.at("out"))[0], SAMPLE_MENDED)

    def test_several_that_add(self):
        """The penalty is told as a sum, and each term with its table and its join."""
        shapes = shapes_of((73760, 21037056, 524288, 34078720, 65600, 33554432), (9, 5, 9, 9, 9, 5))
        plan = plans.from_bytes(bytes.fromhex("ff00ff04ffff05ff020301"))
        lines = Drawing(plan, shapes, names.Names()).tree()
        self.assertIn("penalty: 14 rows = 5 (table5, at byte 4 as sent) + 9 (table2, at byte 7 as sent)", lines)
        text = "\n".join(lines)
        self.assertEqual(text.count("root on the left: "), 3)
        self.assertIn("right: table1; table5, chosen on the left, is joined to table1 and adds 5 rows\n", text)

    def test_drawn_plans(self):
        """Whatever is drawn: a part for each plan, and choices exactly at the joins of a plan that is mended."""
        for shapes, code in drawn(7, 300, 7):
            plan = plans.from_bytes(code)
            drawing, joins = Drawing(plan, shapes, names.Names()), len(code) // 2
            changed = drawing.mended is not None and drawing.mended.plan != plan
            for lines in (drawing.tree(), drawing.dot()):
                text = "\n".join(lines)
                self.assertEqual(text.count("root on the "), joins if changed else 0)
                self.assertEqual(text.count("join on "), 2 * joins if changed else joins)
                self.assertEqual(text.count(" looked up in "), 0 if drawing.refused else joins)
                self.assertEqual("as mended:" in text, changed)
            alone = "\n".join(drawing.tree(followed_alone=True))
            self.assertEqual(alone.count("join on "), joins)
            self.assertNotIn("root on the ", alone)
            self.assertEqual("as sent" in alone, changed)
            self.assertEqual("REFUSED" in alone, bool(drawing.refused))


if __name__ == "__main__":
    unittest.main()
