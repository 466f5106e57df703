"""Tests of the totals that the library forms: no multiplication of the built library is wider than 32 bits, and
products and sums of totals at every edge are document 01's. Needs objdump and nm, which come with a C compiler."""
import array
import functools
import os
import random
import re
import subprocess
import unittest

from make_samples import FF, file, table
from reference import HOLD
from support import Folder, path

import pigrozd

BUILT = [path("target", "lib", name) for name in ("libpigrozd.a", "libpigrozd.so")]


def edges(bits):
    """The powers of two up to this one, and what stands beside them."""
    return sorted({(1 << i) + beside for i in range(bits + 1) for beside in (-1, 0, 1)})


NARROW, WIDE = edges(33), edges(64)
FEW = (0, 1, 2, 3, 2**16 - 1, 2**16, 2**16 + 1, 2**31, 2**32 - 1, 2**32, 2**32 + 1)  # of the narrow ones


# ---- multiplications of a built file
def printed(*command):
    return subprocess.run(command, check=True, stdout=subprocess.PIPE, universal_newlines=True).stdout


def is_narrow(name, operands):
    """Whether a multiplication's product has 32 bits. That of imul with two or three operands has the first one's
    size. All others count as wide: mul and imul of one operand make twice its size, mulx and vector forms too."""
    first = operands.split(",")[0]
    return name == "imul" and "," in operands and re.fullmatch(r"e[a-ds][xip]|r\d+d", first) is not None


def multiplications(built):
    """The multiplications of a built file, in Intel's syntax: those of 32 bits, and all others."""
    narrow, others = [], []
    for line in printed("objdump", "-d", "-M", "intel", "--no-show-raw-insn", built).splitlines():
        found = re.match(r"\s*[0-9a-f]+:\s+(?:rep |lock |notrack |bnd )*(\S*mul\S*)\s+(\S.*)", line)
        if found:
            name, operands = found.groups()
            (narrow if is_narrow(name, operands) else others).append(name + " " + operands)
    return narrow, others


class Multiplications(Folder):
    def test_none_is_wide(self):
        for built in BUILT:
            narrow, others = multiplications(built)
            self.assertGreaterEqual(len(narrow), 3, built)  # the forming of a product has three of them
            self.assertEqual(others, [], built)

    def test_nothing_that_multiplies_is_called(self):
        """By any function of the library, whatever object it is in."""
        called = {line.split()[-1] for line in printed("nm", "-u", BUILT[0]).splitlines() if " U " in line}
        self.assertEqual(called, {"memcpy", "memset"})

    def compiled(self, product):
        """The multiplications of a C function that gives this product of a and b."""
        source = "#include <stdint.h>\nuint64_t f(uint32_t a, uint32_t b) { return %s; }\n" % product
        printed(os.environ.get("CC", "cc"), "-O2", "-c", "-o", self.at("f.o"), self.write("f.c", source))
        return multiplications(self.at("f.o"))

    def test_wide_ones_are_noticed(self):
        """A product of 32 bits; then one held as before request U3, and one held by the processor's flag."""
        narrow, others = self.compiled("a * b")
        self.assertEqual((len(narrow), others), (1, []))
        self.assertNotEqual(self.compiled("a * (uint64_t)b >> 32 ? 4294967295 : a * b")[1], [])
        self.assertNotEqual(self.compiled("__builtin_umul_overflow(a, b, &a) ? 4294967295 : a")[1], [])


# ---- totals
@functools.lru_cache(maxsize=None)
def tables_of(total, key, first, base, ladder):
    """A table, and behind it so many others as `ladder` says. Rows of the first one that have 1 in the attribute `key`
    have this total together: that of each is a power of the base, the product of what it finds in the others, and
    there are as many as the digit says, or of the highest power as are needed. A row that has 2 there has the total 1.
    The others share the attributes from `first` on with the first, one each."""
    held = range(first, first + ladder)
    digits = [total // base**power % base for power in range(ladder)] + [total // base**ladder]
    powers = [power for power, digit in enumerate(digits) for _ in range(digit)]
    rows = [(1, *(int(a - first < power) for a in held)) for power in powers]
    rows.append((2, *[0] * ladder))
    return b"".join([table((key, *held), *rows), *(table((a,), *[(1,)] * base, (0,)) for a in held)])


WIDE_PLAN, NARROW_PLAN = [*[FF] * 7, *range(1, 9)], [*[FF] * 6, *range(9, 16)]


def two_totals(rows, wide, narrow, wide_first=True):
    """A file of 16 tables. The rows of the first-named one, of attributes 0 and 1, find two groups: where they have 1
    in attribute 0, one with the total `wide`, which may pass 64 bits; and where they have 1 in attribute 1, one with
    the total `narrow`, of up to 36 bits. Where they have 2, the group has the total 1. The wide one is found first, or
    last."""
    tables = [table((0, 1), *rows), tables_of(wide, 0, 2, 256, 7), tables_of(narrow, 1, 9, 32, 6)]
    plans = (WIDE_PLAN, NARROW_PLAN) if wide_first else (NARROW_PLAN, WIDE_PLAN)
    return file(tables, FF, FF, 0, *plans[0], *plans[1])


def drawn(seed):
    """600 pairs of numbers of any length: of up to 64 bits, and of up to 34."""
    chance = random.Random(seed)
    for _ in range(600):
        yield tuple(chance.getrandbits(chance.randrange(1, bits + 1)) for bits in (64, 34))


class Totals(unittest.TestCase):
    """Totals of up to 64 bits, across 16, 32, 48 and 64 of them."""

    def setUp(self):
        self.scratch, self.output = array.array("I", [0]) * 131072, array.array("I")

    def check(self, rows, wide, narrow, wide_first, results):
        """This many results come of the two groups that the rows of the first-named table find."""
        answer = pigrozd.call(two_totals(rows, wide, narrow, wide_first), self.scratch, self.output)
        self.assertEqual(answer[:2], (11, results) if results else (0, 0), (wide, narrow, wide_first))

    def check_product(self, wide, narrow):
        """One row finds both groups, in either order: its total is their product."""
        for wide_first in (True, False):
            self.check([(1, 1)], wide, narrow, wide_first, min(min(wide, HOLD) * narrow, HOLD))

    def check_sum(self, wide, narrow):
        """One row finds the first group, the other the second: the total is the sum. In either order of the rows."""
        for rows in ([(1, 2), (2, 1)], [(2, 1), (1, 2)]):
            self.check(rows, wide, narrow, True, min(min(wide, HOLD) + narrow, HOLD))

    def test_totals(self):
        """Each group alone."""
        for total in [*WIDE, 3 * 2**64, 4000 * 256**7]:
            self.check([(1, 2)], total, 5, True, min(total, HOLD))
        for total in [*NARROW, 2**36 - 1]:
            self.check([(2, 1)], 5, total, True, total)

    def test_narrow_products(self):
        for a in NARROW:
            for b in NARROW:
                self.check([(1, 1)], a, b, True, min(a * b, HOLD))

    def test_wide_products(self):
        for wide in WIDE:
            for narrow in FEW:
                self.check_product(wide, narrow)

    def test_products_around_the_limit(self):
        """The largest product of each number that is not past the limit, and the next one."""
        for narrow in NARROW[1:]:
            for wide in (HOLD // narrow, HOLD // narrow + 1):
                self.check_product(wide, narrow)

    def test_drawn_products(self):
        for wide, narrow in drawn(47):
            self.check_product(wide, narrow)

    def test_sums(self):
        for wide in WIDE:
            for narrow in FEW:
                self.check_sum(wide, narrow)

    def test_sums_around_the_limit(self):
        """The sum is one less than the limit, the limit itself, and one more."""
        for narrow in NARROW:
            for beside in (-1, 0, 1):
                self.check_sum(HOLD - narrow + beside, narrow)

    def test_drawn_sums(self):
        for wide, narrow in drawn(53):
            self.check_sum(wide, narrow)


if __name__ == "__main__":
    unittest.main()
