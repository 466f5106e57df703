"""Tests that documents name what is there: definitions and theorems, numbers of crates and of wrong versions, an edit
for each fault, functions without a contract. And that nothing but its retirement names the answer 12."""
import glob
import os
import re
import unittest

from support import load, path
from test_sources import files, functions

import pigrozd

SPECS, PROOFS = "crates/semantics/specs", "crates/theory/proofs"


def text(*parts):
    return load(*parts).decode()


class Specification(unittest.TestCase):
    """Section 14 of docs/SPECIFICATION.md: each name stands in the file that it is said to be in."""

    def names(self):
        """The files and names of the table: pairs of a file and a name, or of a file and None."""
        for line in text("docs", "SPECIFICATION.md").split("\n## 14. ")[1].splitlines():
            cells = line.split("|")
            for folder, cell in zip((SPECS, PROOFS), cells[3:5]):
                file = None
                for word in re.findall("`([^`]+)`", cell):
                    if word.endswith((".antt", ".rt")):
                        file = word if "/" in word else folder + "/" + word
                        yield file, None
                    elif file:
                        yield file, word

    def test_names(self):
        found = 0
        for file, name in self.names():
            with self.subTest(file=file, name=name):
                self.assertTrue(os.path.exists(path(file)))
                if name:
                    found += 1
                    self.assertTrue(re.search(r"(?<![\w-])%s(?![\w-])" % re.escape(name), text(file)))
        self.assertGreater(found, 60)


class Trust(unittest.TestCase):
    """docs/TRUST.md: how many crates and wrong versions there are, and the corollaries that it names. And how many
    wrong definitions there are, in docs/DECISIONS.md."""

    def test_counts(self):
        crates = len(re.findall(r"^\w+(?: [\w=+]+)*:", text("crates.txt"), re.M))
        edits = len(glob.glob(path("crates", "*", "must-fail", "*.edit")))
        trust = text("docs", "TRUST.md")
        self.assertIn("`crates/*/must-fail`; %d of them" % edits, trust)
        self.assertIn("that were refused: %d + %d |" % (crates, edits), trust)

    def test_wrong_definitions(self):
        edits = len(os.listdir(path("crates", "semantics", "must-fail")))
        self.assertIn("%d wrong definitions that must be refused" % edits, text("docs", "DECISIONS.md"))

    def test_corollaries(self):
        named = re.search("by name, as `(.*)` or `(.*)`", text("docs", "TRUST.md"))
        proofs = text("crates", "join", "proofs", "Corollaries.antt")
        for name in named.groups():
            self.assertTrue(" pub %s :" % name in proofs, name)


class Faults(unittest.TestCase):
    """docs/FAULTS.md: each row of its tables names must-fail edits that are there, or says that there is no edit."""

    NAMED = re.compile(r"\bedits? ((?:(?:\w+/)?`\w+`(?:, )?)+)")

    def rows(self):
        """The crate that a section names for edits without one, or None; the fault; what rules it out."""
        for section in text("docs", "FAULTS.md").split("\n## ")[1:]:
            crate = re.search(r"\bEdits(?: without a\scrate)? are those of\s`(\w+)`", section)
            for line in section.splitlines():
                if line.startswith("| ") and not line.endswith("| ruled out by |"):
                    fault, cell = line.strip("| ").split(" | ")
                    yield crate and crate[1], fault, cell

    def edits(self, crate, cell):
        """The crate and the name of each edit in a cell. One without a crate is that of the section's crate."""
        for given, name in re.findall(r"(?:(\w+)/)?`(\w+)`", " ".join(self.NAMED.findall(cell))):
            yield given or crate, name

    def test_edits(self):
        for crate, fault, cell in self.rows():
            with self.subTest(fault=fault):
                edits = list(self.edits(crate, cell))
                self.assertEqual(not edits, cell.endswith("; no edit"), "names an edit, or says: no edit")
                for crate, name in edits:
                    there = os.path.exists(path("crates", crate or "", "must-fail", name + ".edit"))
                    self.assertTrue(there, "%s is no edit of %s" % (name, crate))

    def test_counts(self):
        cells = [cell for _, _, cell in self.rows()]
        without = sum(cell.endswith("; no edit") for cell in cells)
        self.assertIn('%d of the %d rows end in "no edit"' % (without, len(cells)), text("docs", "FAULTS.md"))


class Contributing(unittest.TestCase):
    """CONTRIBUTING.md: how many functions of which crates have no contract. Methods count too. The
    contract of a method of a trait is the trait's: its implementation says of what, by ghost definitions."""

    def of_trait(self, source, found):
        """Whether a method stands in an implementation of a trait that has a contract."""
        block = re.split(r"^impl", source[: found.start()], flags=re.M)[-1] if found["indent"] else ""
        return re.search(r"^    ghost \w+ =", block, re.M) is not None

    def test_contracts(self):
        without = {}
        for file, source in files("src/**/*.rt"):
            for found, head, _ in functions(source):
                if "ensures" not in head and not self.of_trait(source, found):
                    crate = os.path.relpath(file, path("crates")).split(os.sep)[0]
                    without[crate] = without.get(crate, 0) + 1
        told = " ".join(text("CONTRIBUTING.md").split())
        self.assertIn("%d functions of the programs have none" % sum(without.values()), told)
        listed = re.search(r"functions of the programs have none: ([^.]*)\.", told)[1]
        self.assertEqual({crate: int(n) for n, crate in re.findall(r"(\d+) of `(\w+)`", listed)}, without)


class Retired(unittest.TestCase):
    """12 is retired: one definition keeps the number, no code gives it, and no answer has it for its name."""

    def lines(self, *parts):
        """The lines of a file that have the number."""
        return re.findall(r"^.*(?<![\w.,-])12(?![\w,-]).*$", text(*parts), re.M)

    def test_definition(self):
        told = self.lines("crates", "semantics", "specs", "Outcome.antt")
        self.assertEqual(len(told), 2)
        self.assertIn('request U8: "12 is retired and not used again"', told[0])
        self.assertEqual(told[1], "retired_number = 12")

    def test_code(self):
        sources = glob.glob(path("crates", "*", "src", "**", "*.rt"), recursive=True)
        self.assertGreater(len(sources), 25)
        for source in sources + glob.glob(path("bench", "src", "*.rs")):
            with open(source, encoding="utf-8") as file:
                self.assertNotRegex(file.read(), r"(Refused\(|Err\(\(|refuse\(|number: *|= *)12\b", source)

    def test_names(self):
        self.assertNotIn(12, pigrozd.MEANINGS)
        header = text("include", "pigrozd.h")
        self.assertNotRegex(header, r"PIGROZD_\w+ *=? *12\b")
        self.assertIn("12 is retired", header)
        self.assertIn("12 is retired", text("man", "pigrozd_join.3"))

    def test_page(self):
        """There is no page of 12, and no link to one. What is to be said stands in 9.8 of docs/SPECIFICATION.md, with
        theorems, which the test of section 14 looks up."""
        self.assertFalse(os.path.exists(path("docs", "answers", "12.md")))
        pages = [path("README.md"), path("CONTRIBUTING.md"), path("CHANGELOG.md")]
        for pattern in ("docs/**/*.md", "man/*", "python/**/*.py"):
            pages += glob.glob(path(pattern), recursive=True)
        self.assertGreater(len(pages), 60)
        for page in pages:
            with open(page, encoding="utf-8") as file:
                self.assertNotRegex(file.read(), r"(?<!\d)12\.md", page)
        paragraph = re.search(r"\*\*9\.8\*\*.*?\n\n", text("docs", "SPECIFICATION.md"), re.S)[0]
        for theorem in ("total-counts-choices", "only_three", "join-never_retired"):
            self.assertIn("`%s`" % theorem, paragraph)


if __name__ == "__main__":
    unittest.main()
