"""Tests of the package as it is installed: pip, python3 -m pigrozd, the script, types."""
import ast
import importlib.metadata
import importlib.util
import os
import shutil
import subprocess
import sys
import unittest

from support import CSVS, ROWS, SAMPLE_PLAN, Folder, load, path

import pigrozd

MISSING = [name for name in ("pip", "setuptools") if importlib.util.find_spec(name) is None]
if not MISSING and int(importlib.metadata.version("setuptools").split(".")[0]) < 61:
    MISSING = ["setuptools 61 or later"]
needs_setuptools = unittest.skipIf(MISSING, "%s is not there for %s" % (" and ".join(MISSING), sys.executable))


class Installed(Folder):
    def copy_sources(self):
        """Copies what the package is built from, so that nothing is left in the repository."""
        for name in ("pyproject.toml", "setup.py"):
            shutil.copy(path(name), self.at(name))
        shutil.copytree(path("python"), self.at("python"), ignore=shutil.ignore_patterns("__pycache__", "*.egg-info"))

    @needs_setuptools
    def test_pip(self):
        """pip install --no-build-isolation, without a network, into a folder; then the script and the module join."""
        self.copy_sources()
        os.makedirs(self.at("target/lib"))
        shutil.copy(path("target", "lib", "libpigrozd.so"), self.at("target/lib"))
        options = "--no-build-isolation --no-deps --no-index --quiet --disable-pip-version-check --target".split()
        pip = [sys.executable, "-m", "pip", "install", *options, self.at("installed"), self.folder]
        done = subprocess.run(pip, stdout=subprocess.PIPE, stderr=subprocess.STDOUT)
        self.assertEqual(done.returncode, 0, done.stdout.decode())
        environment = dict(os.environ, PYTHONPATH=self.at("installed"))
        environment.pop("PIGROZD_LIBRARY", None)
        shutil.rmtree(self.at("target"))
        for start in ([self.at("installed/bin/pigrozd")], ["-m", "pigrozd"]):
            done = subprocess.run(
                [sys.executable, *start, "join", *CSVS, "--plan", SAMPLE_PLAN],
                env=environment,
                stdout=subprocess.PIPE,
                cwd=self.folder,
            )
            self.assertEqual((done.returncode, done.stdout.decode()), (0, ROWS))
        self.assertTrue(os.path.exists(self.at("installed/pigrozd/py.typed")))
        done = subprocess.run(
            [sys.executable, *start, "--version"], env=environment, stdout=subprocess.PIPE, check=True
        )
        self.assertEqual(done.stdout.decode(), "pigrozd %s\n" % pigrozd.__version__)

    @needs_setuptools
    def test_without_the_library(self):
        """A package is not built without the library, and says what builds it."""
        self.copy_sources()
        done = subprocess.run(
            [sys.executable, "setup.py", "-q", "build"],
            cwd=self.folder,
            stdout=subprocess.PIPE,
            stderr=subprocess.STDOUT,
        )
        self.assertNotEqual(done.returncode, 0)
        self.assertIn(b"libpigrozd.so is missing: make lib builds it", done.stdout)

    def test_started_from_elsewhere(self):
        """bin/pigrozd finds the package through a link and from another folder."""
        os.symlink(path("bin", "pigrozd"), self.at("linked"))
        done = subprocess.run(
            [sys.executable, self.at("linked"), "join", CSVS[0]], stdout=subprocess.PIPE, cwd=self.folder
        )
        self.assertEqual(done.returncode, 0)
        self.assertTrue(os.access(path("bin", "pigrozd"), os.X_OK))


class Source(unittest.TestCase):
    def test_types_and_docstrings(self):
        """Every function of the package has a docstring, and a type for each parameter and for what it gives."""
        folder = path("python", "pigrozd")
        for name in sorted(os.listdir(folder)):
            if not name.endswith(".py"):
                continue
            tree = ast.parse(load(folder, name))
            self.assertTrue(ast.get_docstring(tree), name)
            for node in ast.walk(tree):
                if isinstance(node, ast.FunctionDef):
                    self.check(node, "%s, line %d: %s" % (name, node.lineno, node.name))

    def check(self, node, where):
        special = node.name.startswith("__") or node.name == "describe"
        self.assertTrue(special or ast.get_docstring(node), where)
        self.assertIsNotNone(node.returns, where)
        for argument in node.args.args + node.args.kwonlyargs:
            self.assertTrue(argument.arg == "self" or argument.annotation, where)
        self.assertLess(node.end_lineno - node.lineno, 40, where)

    @unittest.skipUnless(shutil.which("mypy"), "mypy is not there")
    def test_types_agree(self):
        """mypy finds no fault in the package, and finds those of a program that uses it wrongly: what is no file, a
        sum of values that may be None, an engine that is not there."""
        program = "import pigrozd\nx = pigrozd.join([{0: [1]}], 0).columns[0]\npigrozd.join_file(5)\nsum(x)\n"
        program += 'pigrozd.join_file("a", engine="slow")\npigrozd.join_file("a", engine="fast")\n'
        for arguments, faults in (([path("python", "pigrozd")], 0), (["-c", program], 3)):
            command = ["mypy", "--strict", "--python-version", "3.9", "--cache-dir", os.devnull, *arguments]
            environment = dict(os.environ, MYPYPATH=path("python"))
            done = subprocess.run(command, stdout=subprocess.PIPE, stderr=subprocess.STDOUT, env=environment)
            self.assertEqual(done.stdout.decode().count(": error: "), faults, done.stdout.decode())

    def test_lines(self):
        for folder in ("python/pigrozd", "tests", "bin", "examples/numpy"):
            for name in os.listdir(path(folder)):
                if name.endswith(".py") and name not in ("make_samples.py", "reference.py"):
                    for line in load(folder, name).decode().splitlines():
                        self.assertLess(len(line), 120, name)

    def test_nothing_but_the_standard_library(self):
        """NumPy and pandas are imported by the two functions that make their objects, and nothing else is."""
        code = "import sys, pigrozd.commandline; print([n for n in ('numpy', 'pandas') if n in sys.modules])"
        done = subprocess.run(
            [sys.executable, "-c", code],
            env=dict(os.environ, PYTHONPATH=path("python")),
            stdout=subprocess.PIPE,
            check=True,
        )
        self.assertEqual(done.stdout, b"[]\n")


if __name__ == "__main__":
    unittest.main()
