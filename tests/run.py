#!/usr/bin/env python3
"""Runs tests of what users call, and says what was skipped and why:

    python3 tests/run.py test_python test_commands ..       (without names: all of them)
"""
import glob
import os
import sys
import unittest

HERE = os.path.dirname(os.path.abspath(__file__))
sys.path.insert(0, HERE)


def main(names):
    names = names or sorted(os.path.basename(p)[:-3] for p in glob.glob(os.path.join(HERE, "test_*.py")))
    result = unittest.TextTestRunner(verbosity=1).run(unittest.defaultTestLoader.loadTestsFromNames(names))
    for why in sorted({why for _, why in result.skipped}):
        print(
            "skipped, because %s: %s" % (why, ", ".join(test.id() for test, other in result.skipped if other == why))
        )
    print(
        "%s under Python %s: %d tests run, %d skipped, %d failed"
        % (
            " ".join(names),
            sys.version.split()[0],
            result.testsRun,
            len(result.skipped),
            len(result.failures) + len(result.errors),
        )
    )
    return 0 if result.wasSuccessful() else 1


if __name__ == "__main__":
    sys.exit(main(sys.argv[1:]))
