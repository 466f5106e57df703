"""Tests the layout of the crates that CONTRIBUTING.md asks for: lines, functions, edits, imports."""
import glob
import os
import re
import unittest

from support import path

FUNCTION = re.compile(  # of a method too, which is indented
    r"^(?P<indent> *)(?:#\[unsafe\(no_mangle\)\] )?(?:pub(?:\(crate\))? )?(?:extern \"C\" )?"
    r"fn (?P<name>\w+)(?:<.*?>)?\((?P<parameters>.*?)\)",
    re.M | re.S,
)
# The result and the clauses; a function that a trait declares ends there.
HEAD = re.compile(r".*?(?P<end>;|\{)\n", re.S)
IMPORT = re.compile(r"^\s*(?:ghost )?use ([^;{\n]*?)(?:(?:\.|::)\{(.*)\})?(?: as ([^\s;{]+))?;?$", re.M)
WORD = re.compile(r"[^\s(){}.;,@\"«»]+")


def files(*patterns):
    for pattern in patterns:
        for name in sorted(glob.glob(path("crates", "*", pattern), recursive=True)):
            with open(name, encoding="utf-8") as f:
                yield name, f.read()


def functions(text):
    """The functions of a file: what FUNCTION found, the result with the clauses, and the body, None where a trait
    declares the function."""
    for found in FUNCTION.finditer(text):
        head = HEAD.match(text, found.end())
        body = None
        if head["end"] == "{":
            body = text[head.end() : text.index("\n%s}" % found["indent"], head.end())]
        yield found, head[0], body


def used(name, body):
    """Whether the body has the name. Of an operator each part is a word of its own, as + of ◌+◌, or it stands there
    as it is."""
    if not re.fullmatch(r"[\w·'-]+", name):
        words = set(WORD.findall(body))
        return name in words or set(name.split("◌")) - {""} <= words
    return re.search(r"(?<![\w·'-])" + re.escape(name) + r"(?![\w·'-])", body) is not None


class Sources(unittest.TestCase):
    def test_lines(self):
        for file, text in files("src/**/*.rt", "specs/**/*.antt"):
            for number, line in enumerate(text.splitlines(), 1):
                self.assertLessEqual(len(line), 140, "%s:%d" % (file, number))

    def test_functions(self):
        for file, text in files("src/**/*.rt"):
            for found, _, body in functions(text):
                with self.subTest(file=file, function=found["name"]):
                    self.assertLessEqual(len(re.findall(r"\w+: ", found["parameters"])), 9)
                    self.assertLess((body or "").count("\n") + 1, 40)

    def test_all_functions(self):
        """No function is overlooked: as many are found as lines begin with the word, but for what stands before it."""
        for file, text in files("src/**/*.rt"):
            lines = re.findall(r"^(?!\s*//).*\bfn \w", text, re.M)
            self.assertEqual(len(list(functions(text))), len(lines), file)

    def test_edits(self):
        """Each old text of a must-fail edit stands just once in its file, as the pairs before it left that, and a new
        text behind it says something else."""
        for file, text in files("must-fail/*.edit"):
            sources, edited, old = {}, None, None
            for kind, given in re.findall("^(file|old|new): ?(.*)$", text, re.M):
                if kind == "file":
                    edited = path("crates", file.split("/must-fail/")[0], given)
                    if edited not in sources:
                        with open(edited, encoding="utf-8") as f:
                            sources[edited] = f.read()
                elif kind == "old":
                    self.assertIsNone(old, file)
                    self.assertEqual(sources[edited].count(given), 1, file)
                    old = given
                else:
                    self.assertNotIn(old, (None, given), file)
                    sources[edited], old = sources[edited].replace(old, given), None
            self.assertTrue(sources and old is None, file)

    def test_imports(self):
        unused = []
        for file, text in files("src/**/*.rt", "specs/**/*.antt", "proofs/**/*.antt"):
            body = re.sub("(--|//).*", "", IMPORT.sub("", text))
            body = re.sub(r"\bwrite(ln)?!", "Write!", body)  # the trait whose method the macro calls
            for module, names, alias in IMPORT.findall(text):
                if alias or names:
                    names = [alias] if alias else [name.split(" as ")[-1] for name in names.split(", ")]
                else:
                    names = [module.split("::")[-1]] if file.endswith(".rt") else []
                for name in names:
                    if not used(name, body):
                        unused.append("%s: %s" % (os.path.relpath(file, path("crates")), name))
        self.assertFalse(unused, "\n".join(unused))


if __name__ == "__main__":
    unittest.main()
