"""What the tests of the Python package share: the samples, damaged files, a folder for each test, commands."""
import contextlib
import io
import os
import random
import re
import shutil
import struct
import subprocess
import sys
import tempfile
import unittest

HERE = os.path.dirname(os.path.abspath(__file__))
TOP = os.path.dirname(HERE)
sys.path[:0] = [HERE, os.path.join(TOP, "python")]

import reference  # noqa: E402
from pigrozd import commandline, names  # noqa: E402

try:
    import numpy
except ImportError:
    numpy = None
try:
    import pandas
except ImportError:
    pandas = None

needs_numpy = unittest.skipUnless(numpy, "NumPy is not there for %s" % sys.executable)
needs_pandas = unittest.skipUnless(pandas, "pandas is not there for %s" % sys.executable)


def path(*parts):
    return os.path.join(TOP, *parts)


def load(*parts):
    with open(path(*parts), "rb") as f:
        return f.read()


MEMORY = "/dev/shm"  # files made there are written quickly
PROGRAM = path("target", "bin", "pigrozd")
needs_program = unittest.skipUnless(os.path.exists(PROGRAM), "the program is not built (make run builds it)")
ACCEPT = path("target", "bin", "accept")
needs_accept = unittest.skipUnless(os.path.exists(ACCEPT), "accept is not built (make target/bin/accept builds it)")

SAMPLE = load("crates", "pigrozd", "stdin")
SAMPLE_PLAN = "(frames (exposures readings))"
SAMPLE_DRAWN = """\
join on exposure, byte 0 of the plan
|     frames (4 rows) looked up in exposures (4 rows)
|     well-behaved: both have exposure
|-- frames: 4 rows (frame, exposure)
`-- join on reading, byte 2 of the plan
    |     exposures (4 rows) looked up in readings (3 rows)
    |     well-behaved: both have reading
    |-- exposures: 4 rows (exposure, reading)
    `-- readings: 3 rows (reading, centikelvin)
"""
NO_PLAN = b"PL\0"  # the record of a plan of length 0
FOUND_PLAN = "(readings (exposures frames))"  # what is found for the sample's tables
CSVS = [path("examples", "csv", name + ".csv") for name in ("frames", "exposures", "readings")]
ROWS = "frame,exposure,reading,centikelvin\n10,1,7,29510\n10,1,7,29510\n11,2,9,29530\n12,2,9,29530\n"


def samples():
    """The files of crates/samples, by name."""
    folder = path("crates", "samples", "data")
    return {name: load(folder, name)[8:] for name in sorted(os.listdir(folder))}


def with_copies(data, copies):
    """A file of tables without copies, in which these have them: for each table how many copies each of its rows has,
    or None if it is left as it is. The plan stays the same."""
    made, at = b"", 0
    for given in copies:
        mask, rows = (int.from_bytes(data[i : i + 4], "little") for i in (at + 2, at + 6))
        end = at + 10 + 4 * rows * bin(mask).count("1")
        record, at = data[at:end], end
        made += record if given is None else b"TC" + record[2:10] + struct.pack("<%dI" % rows, *given) + record[10:]
    return made + data[at:]


def drawn_copies(data, draw):
    """A file in which some tables, or all, have copies, 1 to 3 of each row."""
    rows = [table.rows for table in reference.read(data)[0]]
    return with_copies(
        data, [[draw.choice((1, 1, 2, 3)) for _ in range(n)] if draw.random() < 0.7 else None for n in rows]
    )


COUNTED_SAMPLE = with_copies(SAMPLE, [[1, 3, 2, 9], None, [2, 1, 4]])  # frames and readings have copies


def damaged(count):
    """Drawn files: samples, with copies or without, cut, lengthened, with bytes changed, with another plan or none.
    The same at every run."""
    draw = random.Random(7)
    small = [data for data in samples().values() if len(data) < 400]
    small += [drawn_copies(data, draw) for data in small if expected(data)[0] in (0, 9, 14) and b"TC" not in data]
    for _ in range(count):
        data = bytearray(draw.choice(small))
        for _ in range(draw.randrange(3)):
            damage(data, draw)
        yield bytes(data)


def damage(data, draw):
    """Damages a file once."""
    kind, at = draw.randrange(7), draw.randrange(len(data) + 1)
    if kind == 0:
        del data[at:]
    elif kind == 1:
        data[at:at] = draw.choice([b"TB", b"TC", b"PL", b"\xff", b"\0", bytes([draw.randrange(256)])])
    elif kind == 2 and at < len(data):
        data[at] = draw.choice([0, 1, 2, 255, draw.randrange(256)])
    elif kind == 3 and b"PL" in data:  # the plan's bytes in another order
        start = data.rindex(b"PL") + 3
        code = list(data[start:])
        draw.shuffle(code)
        data[start:] = bytes(code)
    elif kind == 4 and len(data) > 10:  # another mask or row count
        data[draw.randrange(2, 10)] ^= 1 << draw.randrange(8)
    elif kind == 5 and b"PL" in data:
        data[data.rindex(b"PL") :] = NO_PLAN
    elif kind == 6 and len(data) > 14:  # the other mark of a table, or another count of copies
        at = draw.choice((1, *range(10, 14)))
        data[at] = data[at] ^ 1 if at == 1 else draw.choice((0, 0, 1, 255))


def expected(data):
    """The answer of 1 to 9, 14 and 19 by the reference, or (0, 0)."""
    try:
        tables, code = reference.read(data)
        reference.check_plan(tables, code)
    except reference.Refused as refused:
        return refused.number, refused.detail
    return 0, 0


class Input(io.TextIOWrapper):
    """Standard input with these bytes."""

    def __init__(self, data):
        super().__init__(io.BytesIO(data))


class Folder(unittest.TestCase):
    """A test with a folder of its own, in which it runs commands."""

    def setUp(self):
        self.folder = tempfile.mkdtemp(dir=MEMORY if os.access(MEMORY, os.W_OK) else None)
        self.addCleanup(shutil.rmtree, self.folder)

    def at(self, name):
        return os.path.join(self.folder, name)

    def write(self, name, content):
        with open(self.at(name), "wb") as f:
            f.write(content.encode("utf-8") if isinstance(content, str) else content)
        return self.at(name)

    def read(self, name):
        with open(self.at(name), "rb") as f:
            return f.read()

    def run_here(self, *arguments, stdin=b""):
        """Runs a command in this process: its status, standard output and standard error."""
        out, err, before = io.StringIO(), io.StringIO(), sys.stdin
        sys.stdin = Input(stdin)
        try:
            with contextlib.redirect_stdout(out), contextlib.redirect_stderr(err):
                status = commandline.main(list(arguments))
        finally:
            sys.stdin = before
        return status, out.getvalue(), err.getvalue()

    def command(self, *arguments, status=0, stdin=b""):
        """Runs a command that must end with this status: what it wrote to standard output and to standard error."""
        ended, out, err = self.run_here(*arguments, stdin=stdin)
        self.assertEqual(ended, status, out + err)
        return out, err

    def fails(self, pattern, *arguments, status=2, stdin=b""):
        """Runs a command that must fail with one line that has this pattern."""
        out, err = self.command(*arguments, status=status, stdin=stdin)
        self.assertRegex(err, pattern)
        self.assertEqual(err.count("\n"), 1, err)
        return out

    unbuffered = ""  # PYTHONUNBUFFERED of the processes that are run; empty is as if it were not set

    def environment(self, **more):
        """The environment of a process."""
        return dict(os.environ, PYTHONUNBUFFERED=self.unbuffered, **more)

    def process(self, *arguments, **options):
        """Runs a command as a process of its own."""
        options.setdefault("env", self.environment())
        options.setdefault("stdout", subprocess.PIPE)
        options.setdefault("stdin", subprocess.DEVNULL if "input" not in options else None)
        if options["stdin"] is None:
            del options["stdin"]
        done = subprocess.run([sys.executable, path("bin", "pigrozd"), *arguments], stderr=subprocess.PIPE, **options)
        self.assertNotIn(b"Traceback", done.stderr)
        self.assertNotIn(b"Exception ignored", done.stderr)
        return done

    def run_document(self, name):
        """Runs the commands of a document of docs/, here; they must print what stands below them. How many blocks of
        them there are. The programs' part is the reference's."""
        for folder in ("examples", "tests", "bin", "python"):
            shutil.copytree(path(folder), self.at(folder), ignore=shutil.ignore_patterns("__pycache__"))
        environment = dict(os.environ, PIGROZD_LIBRARY=path("target", "lib", "libpigrozd.so"))
        blocks = re.findall(r"```\n(\$ .*?)```", load("docs", name).decode(), re.S)
        for block in blocks:
            for step in re.split(r"^\$ ", block.replace("\\\n", ""), flags=re.M)[1:]:
                command, _, expect = step.partition("\n")
                command = command.replace("target/bin/pigrozd", "python3 tests/reference.py")
                command = command.replace("target/bin/accept", "python3 tests/reference.py accept")
                command = command.replace("python3", sys.executable)
                command = command.replace("bin/pigrozd", sys.executable + " bin/pigrozd")
                done = subprocess.run(
                    command,
                    shell=True,
                    cwd=self.folder,
                    stdout=subprocess.PIPE,
                    stderr=subprocess.STDOUT,
                    env=environment,
                )
                self.assertEqual(done.stdout.decode().strip("\n"), expect.strip("\n"), command)
        return len(blocks)

    def digest_line(self, name):
        """The first line of the names of a file."""
        return "sha256 %s\n" % names.digest(self.read(name))
