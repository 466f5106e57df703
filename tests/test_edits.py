"""Tests why must-fail edits were refused, by what rt must-fail or rt ci printed of them. The gate itself only sees
that they were. Prints where each was refused first, and of what. EDITS names the file that holds what was printed:

    rt must-fail | tee target/must-fail.log
    EDITS=target/must-fail.log python3 tests/run.py test_edits      (without EDITS: target/must-fail.log)
"""
import glob
import os
import re
import unittest

from support import path

TOLD = re.compile(r"^rt: must-fail (?P<crate>\w+)/(?P<edit>[\w.-]+)\.edit: (?P<said>.*)$", re.M)
REFUSED = re.compile(r"refused, as it must be(?: \((?P<only>[^)]*)\))?(?:: (?P<first>.*))?$")
LINE = re.compile(
    r"(?:note: )?(?:\./)?(?P<place>\S+:\d+:\d+): (?:error(?:\[[\w-]+\])?: |(?=it is not proved))(?P<why>.*)$"
)


def told():
    """What was printed of each edit: its crate, its name, the words. None if nothing was kept."""
    log = os.environ.get("EDITS") or path("target", "must-fail.log")
    if not os.path.exists(log) and not os.environ.get("EDITS"):
        return None
    with open(log, encoding="utf-8", errors="replace") as f:
        return [(m["crate"], m["edit"], m["said"]) for m in TOLD.finditer(f.read())]


class Edits(unittest.TestCase):
    """A definition is refused only if it is none: a name that its file does not import, a wrong type, no term. So an
    edit is to be refused in a proof, or at a function of the code."""

    def setUp(self):
        self.told = told()
        if self.told is None:
            self.skipTest("EDITS names no file with what rt must-fail printed, and target/must-fail.log is not there")

    def test_refused_for_what_they_say(self):
        self.assertTrue(self.told)
        for crate, edit, said in self.told:
            with self.subTest(edit="%s/%s" % (crate, edit)):
                refused = REFUSED.match(said)
                self.assertTrue(refused, said)
                self.assertNotIn("a proof file names what the edit took away", refused["only"] or "", said)
                found = LINE.match(refused["first"] or "")
                self.assertTrue(found, said)
                print("%s/%s: %s: %s" % (crate, edit, found["place"], found["why"][:90]))
                self.assertFalse(found["place"].startswith("specs/") or "is not in scope" in found["why"], said)

    def test_all_were_tried(self):
        """Of a crate of which anything was printed, each edit was tried, and none that is no longer there."""
        for crate in sorted({crate for crate, _, _ in self.told}):
            with self.subTest(crate=crate):
                there = glob.glob(path("crates", crate, "must-fail", "*.edit"))
                tried = [edit for name, edit, _ in self.told if name == crate]
                self.assertEqual(sorted(set(tried)), sorted(os.path.basename(file)[: -len(".edit")] for file in there))


if __name__ == "__main__":
    unittest.main()
