"""Tests of files without a plan: the independent join against every plan of a few tables, and against the rule said in
another way; then the library against it."""
import collections
import functools
import itertools
import random
import re
import unittest

from support import load

import reference
from reference import NOT_RECORDED, Refused, Table, names
from test_mending import Calls, bag, drawn_few, drawn_later, drawn_tree, file_of, natural_join

FILES = 1000  # drawn files that the library joins
# masks, and the plan that is found, or the detail of 14
KNOWN = (
    ((5,), "00"),
    ((3, 6, 12), "ff02ff0100"),
    ((1, 2), "ff0100"),
    ((1, 2, 3), "ffff020001"),
    ((1, 1, 1), "ff02ff0100"),
    ((1, 2, 4, 8), "ff03ff02ff0100"),
    ((3, 5, 6), 0),
    ((1, 9, 3, 6, 5), 2),
)


def tables_of(masks):
    """Tables without rows."""
    return tuple(Table(0, {a: [] for a in range(32) if mask >> a & 1}) for mask in masks)


def found(masks):
    """What the independent join finds for tables with these masks: the bytes of a plan, or the detail of 14."""
    try:
        return reference.found_code(tables_of(masks))
    except Refused as refused:
        assert refused.number == 14
        return refused.detail


# ---- every plan
def every_plan(tables):
    """Each plan that names these tables once each. (The index of its first byte is left open.)"""
    if len(tables) == 1:
        yield None, tables[0]
    for left in itertools.chain(*(itertools.combinations(tables, n) for n in range(1, len(tables)))):
        right = [t for t in tables if t not in left]
        for sides in itertools.product(every_plan(left), every_plan(right)):
            yield (None, *sides)


def some_plan_behaves(masks):
    """Whether one of all plans over these tables is well-behaved."""
    tables = tables_of(masks)
    return any(reference.well_behaved(tables, plan) for plan in every_plan(range(len(masks))))


def union(masks):
    return functools.reduce(int.__or__, masks)


@functools.lru_cache(maxsize=None)
def first_named(masks):
    """The places of the tables that a well-behaved plan over tables with these masks can name first. Whether a plan is
    well-behaved is asked of the two plans of its join and of their first-named tables alone, so this is enough."""
    if len(masks) == 1:
        return frozenset([0])
    places = set()
    for n in range(1, len(masks)):
        for left in itertools.combinations(range(len(masks)), n):
            right = [t for t in range(len(masks)) if t not in left]
            sides = [tuple(masks[t] for t in side) for side in (left, right)]
            shared = union(sides[0]) & union(sides[1])
            held = [{t for t in first_named(side) if not shared & ~side[t]} for side in sides]
            if held[1]:
                places.update(left[t] for t in held[0])
    return frozenset(places)


# ---- the rule once more: pairs of numbers, and masks
def can_hang(masks, remaining, t, under):
    """Whether table t can hang under another: what t has in common with any other table is there too."""
    return all(not masks[t] & masks[other] & ~masks[under] for other in remaining if other != t)


def hung(masks):
    """Under which table each hangs, and the numbers that remain."""
    remaining, parents = list(range(len(masks))), {}
    while True:
        pairs = [pair for pair in itertools.permutations(remaining, 2) if can_hang(masks, remaining, *pair)]
        if not pairs:
            return parents, remaining
        t, parents[t] = min(pairs)
        remaining.remove(t)


def spelled(parents, t):
    """The bytes of the plan in which a table joins its children's plans in turn."""
    code = bytes([t])
    for child in sorted(c for c in parents if parents[c] == t):
        code = b"\xff" + code + spelled(parents, child)
    return code


def found_again(masks):
    """The bytes of the plan by the rule, or the detail of 14."""
    parents, remaining = hung(masks)
    return spelled(parents, remaining[0]) if len(remaining) == 1 else remaining[0]


class Reference(unittest.TestCase):
    """What the request demands of files without a plan, asked of the independent join."""

    def check(self, masks):
        """14 exactly if no plan is well-behaved; else one that is, and that mending leaves. Whether it was found."""
        given = found(masks)
        self.assertEqual(given, found_again(masks), masks)
        self.assertEqual(isinstance(given, bytes), bool(first_named(masks)), masks)
        if isinstance(given, bytes):
            self.check_plan(tables_of(masks), given)
        return isinstance(given, bytes)

    def check_plan(self, tables, code):
        """A plan that was found. (Its root is the last table: two tables or more can be hung at each step.)"""
        plan, end = reference.parse(code)
        self.assertEqual((end, sorted(names(plan))), (2 * len(tables) - 1, list(range(len(tables)))))
        self.assertTrue(reference.well_behaved(tables, plan))
        self.assertEqual(reference.mended(tables, plan), (plan, 0))
        self.assertEqual(reference.check_plan(tables, code), plan)
        self.assertEqual(names(plan)[0], len(tables) - 1)

    def test_known_plans(self):
        for masks, known in KNOWN:
            with self.subTest(masks=masks):
                self.assertEqual(found(masks), bytes.fromhex(known) if isinstance(known, str) else known)

    def test_number_of_plans(self):
        """Orders of the tables, times ways to put brackets."""
        self.assertEqual([len(set(every_plan(range(n)))) for n in range(1, 6)], [1, 2, 12, 120, 1680])

    def test_up_to_four_tables_of_three_attributes(self):
        """All of them, each in every order. Whether some plan is well-behaved does not depend on the order."""
        seen = collections.Counter()
        for count in range(1, 5):
            for masks in itertools.combinations_with_replacement(range(1, 8), count):
                some = some_plan_behaves(masks)
                for order in set(itertools.permutations(masks)):
                    self.assertEqual(self.check(order), some, order)
                    seen[some] += 1
        self.assertEqual(sum(seen.values()), 7 + 7**2 + 7**3 + 7**4)
        self.assertGreater(seen[False], 100)

    def test_five_tables_of_five_attributes(self):
        chance, seen = random.Random(1), collections.Counter()
        for _ in range(1000):
            seen[self.check(tuple(chance.choices(range(1, 32), k=5)))] += 1
        self.assertGreater(min(seen.values()), 200)
        for _ in range(50):  # those with few attributes have a plan more often
            masks = tuple(sum(1 << a for a in chance.sample(range(5), chance.randint(1, 3))) for _ in range(5))
            self.assertEqual(self.check(masks), some_plan_behaves(masks))

    def test_more_tables(self):
        chance, seen = random.Random(2), collections.Counter()
        for _ in range(150):
            masks = [sum(1 << a for a in chance.sample(range(7), chance.randint(1, 3))) for _ in range(7)]
            seen[self.check(tuple(masks))] += 1
        self.assertGreater(min(seen.values()), 20)

    def test_sixteen_tables(self):
        """Tables whose attributes form a tree have a plan, in any order of the tables."""
        chance = random.Random(3)
        for _ in range(200):
            lists = chance.choice((drawn_later, drawn_tree))(chance, 16)[0]
            masks = [sum(1 << a for a in held) for held in chance.sample(lists, 16)]
            self.assertEqual(found(masks), found_again(masks))
            self.check_plan(tables_of(masks), found(masks))

    def test_order_of_answers(self):
        """7 without tables; 14 in the place of 8 and 9, so before 10. What is wrong with the file comes first."""
        ring = file_of(tables_of((3, 5, 6)), b"")
        self.assertEqual(reference.outcome(b"PL\0", 0, 0), (7, 0, [], (0, 0, 0, 0)))
        self.assertEqual(reference.outcome(ring, 0, 0), (14, 0, [], (0, 0, 0, 0)))
        self.assertEqual(reference.outcome(ring + b"\0", 0, 0)[:2], (6, len(ring)))
        self.assertEqual(reference.outcome(ring[:-1], 0, 0)[:2], (1, len(ring) - 3))


# ---- drawn files: the attributes of so many tables
def drawn_ring(chance, count):
    """A tree of tables, and one attribute more in some of them."""
    lists, code = drawn_tree(chance, count)
    for held in chance.sample(lists, chance.randint(2, min(3, count))):
        held.append(count)
    return lists, code


def drawn(chance, count, row_counts):
    """So many drawn tables, in which some values were not recorded, numbered in any order."""
    lists = chance.choice((drawn_few, drawn_later, drawn_tree, drawn_ring))(chance, count)[0]
    values = chance.choice(([0], [0, 0, 0, 0, 1, NOT_RECORDED]))
    tables = []
    for attributes in chance.sample(lists, count):
        rows = chance.choice(row_counts)
        tables.append(Table(rows, {a: chance.choices(values, k=rows) for a in sorted(attributes)}))
    return tuple(tables)


class Library(Calls):
    """The shared library against the independent join."""

    def check_with_plan(self, tables, number, *lent):
        """A file within the rules has the same outcome with the plan that is found."""
        code = reference.found_code(tables)
        without, with_plan = (reference.outcome(file_of(tables, plan), *lent) for plan in (b"", code))
        self.assertEqual(without, with_plan)
        self.assertEqual(self.check(file_of(tables, code), *lent), number)
        if number == 0:
            rows = collections.Counter(map(tuple, without[2]))
            self.assertEqual(rows, bag(natural_join(tables, reference.parse(code)[0])))

    def test_random_files(self):
        chance, seen = random.Random(4), []
        for index in range(FILES):
            count, row_counts = (chance.randint(2, 5), range(4)) if index % 10 else (16, (1, 1, 1, 1, 2, 3))
            tables = drawn(chance, count, row_counts)
            file = file_of(tables, b"")
            for lent in self.lent(file):
                number, detail, *_ = reference.outcome(file, *lent)
                with self.subTest(file=file.hex(), lent=lent):
                    self.check(file, *lent)
                    if number in (0, 10, 11):
                        self.check_with_plan(tables, number, *lent)
                seen.append((number, detail))
        numbers = collections.Counter(number for number, _ in seen)
        for number in (0, 10, 11, 14):
            self.assertGreater(numbers[number], 100, numbers)
        self.assertGreater(len({detail for number, detail in seen if number == 14}), 4)

    def test_one_table(self):
        for rows in range(3):
            for lent in ((10 * rows, rows), (10 * rows, 0), (0, rows)):
                self.check(file_of([Table(rows, {3: [7] * rows})], b""), *lent)

    def test_no_tables(self):
        self.assertEqual(self.check(b"PL\0", 8, 8), 7)

    def test_14_before_10(self):
        ring = file_of([Table(1, {a: [7], b: [7]}) for a, b in ((0, 1), (1, 2), (0, 2))], b"")
        for lent in ((0, 0), (0, 8), (8, 0), (8, 8)):
            self.assertEqual(self.check(ring, *lent), 14)


class Documents(unittest.TestCase):
    """The tables of docs/answers/14.md and of docs/SPECIFICATION.md: what a file without a plan is answered."""

    def test_answer_14(self):
        rows = re.findall(r"^\| (\([a-z, ()]*\)) \| (.*?) \|", load("docs", "answers", "14.md").decode(), re.M)
        self.assertGreater(len(rows), 5)
        for listed, said in rows:
            tables = re.findall(r"\(([a-z, ]*)\)", listed)
            masks = [sum(1 << ord(a) - ord("a") for a in table.split(", ")) for table in tables]  # a is 0, b is 1 ..
            with self.subTest(listed):
                self.assertEqual(self.said(masks, "`refused 14 %d`"), said)

    def test_specification(self):
        text = load("docs", "SPECIFICATION.md").decode().split("\n**12.18** ")[1].split("\n## ")[0]
        rows = re.findall(r"^\| ([\d, ]+) \| (.*?) \|", text, re.M)
        self.assertGreater(len(rows), 5)
        for listed, said in rows:
            with self.subTest(listed):
                self.assertEqual(self.said([int(mask) for mask in listed.split(", ")], "14, detail %d"), said)

    def said(self, masks, refused):
        """What the page says of tables with these masks."""
        given = found(masks)
        return "joined by `%s`" % given.hex(" ") if isinstance(given, bytes) else refused % given


if __name__ == "__main__":
    unittest.main()
