"""A thousand damaged files through every command: each ends with a status and in words, and none with a traceback."""
import os
import random
import shutil
import unittest

from support import COUNTED_SAMPLE, CSVS, SAMPLE, SAMPLE_PLAN, Folder, damage, expected, load

import pigrozd
import reference

FILES = 1000


def damaged_sample(draw):
    """The sample, with copies or without, cut or with a few bytes changed."""
    data = bytearray(draw.choice((SAMPLE, COUNTED_SAMPLE)))
    if draw.random() < 0.3:
        del data[draw.randrange(len(data)) :]
    for _ in range(1 + draw.randrange(3)):
        if draw.random() < 0.5:
            damage(data, draw)
        elif data:
            data[draw.randrange(len(data))] = draw.randrange(256)
    return bytes(data)


def damaged_text(text, draw):
    """A text file, cut or with a few bytes changed."""
    data = bytearray(text)
    if draw.random() < 0.3:
        del data[draw.randrange(len(data)) :]
    for _ in range(1 + draw.randrange(3)):
        at = draw.randrange(len(data) + 1)
        data[at : at + draw.randrange(2)] = draw.choice(
            [b",", b"\n", b'"', b"\r", b"\0", b"\xff", b"-", bytes([draw.randrange(256)])]
        )
    return bytes(data)


class Damaged(Folder):
    def ends(self, *arguments, stdin=b""):
        """Runs a command; its status is one of the three, and is told if it is not 0."""
        status, out, err = self.run_here(*arguments, stdin=stdin)
        self.assertIn(status, (0, 1, 2))
        self.assertTrue(
            status == 0 or err.startswith("pigrozd: ") or arguments[0] == "plan" and out, (arguments, err)
        )
        return status, out, err

    def test_packed_files(self):
        draw, seen = random.Random(11), set()
        self.write("good", SAMPLE)
        printed = reference.printed(SAMPLE).encode()
        for number in range(FILES):
            data = damaged_sample(draw)
            file = self.write("file", data)
            with self.subTest(file=data.hex()):
                answer = expected(data)
                seen.add(answer[0])
                status, out, err = self.ends("join", file)
                if answer[0]:
                    self.assertIn("refused %d %d: " % answer, err)
                else:
                    self.assertIn(status, (0, 1))
                self.ends("join", file, "--explain", "--plan", "(0 (1 2))")
                self.assertEqual(self.ends("dump", file)[0], 0)
                self.assertEqual(self.ends("plan", file)[0], 1 if answer[0] else 0)
                self.ends("plan", file, "--plan", "(0 (1 2))", "--dot")
                self.ends("rows", file, stdin=printed)
                self.ends("rows", self.at("good"), stdin=damaged_text(printed, draw))
                self.ends("unpack", "--force", file, self.at("folder"))
                self.ends("count", file)
                self.ends("view", file, "--row-numbers", "--rows", "5")
                self.in_python(data, answer)
        self.assertLessEqual({0, 1, 2, 3, 4, 7, 8, 9, 19}, seen)

    def in_python(self, data, answer):
        """The same file through the Python interface."""
        try:
            pigrozd.join_file(data)
        except pigrozd.Refused as refused:
            self.assertTrue(refused.number == 11 or (refused.number, refused.detail) == answer)
        else:
            self.assertEqual(answer, (0, 0))

    def test_csv_files_and_names(self):
        draw = random.Random(12)
        texts = [load(path) for path in CSVS]
        self.command("pack", self.at("packed"), "--plan", SAMPLE_PLAN, *CSVS)
        names = self.read("packed.names")
        by_hand = names.split(b"\n", 1)[1]
        for number in range(FILES // 4):
            at = draw.randrange(3)
            folder = self.at("csv")
            os.makedirs(folder, exist_ok=True)
            files = [
                self.write("csv/" + os.path.basename(path), damaged_text(text, draw) if place == at else text)
                for place, (path, text) in enumerate(zip(CSVS, texts))
            ]
            with self.subTest(csv=self.read(files[at]), at=at):
                self.ends("join", *files)
                self.ends("join", *files, "--plan", SAMPLE_PLAN)
                plan = damaged_text(SAMPLE_PLAN.encode(), draw).decode("utf-8", "surrogateescape")
                self.ends("join", *files, "--plan=" + plan)
                self.ends("pack", "--force", self.at("out"), *files, "--plan", SAMPLE_PLAN)
                self.ends("pack", "--force", self.at("out"), *files)
                self.ends("plan", SAMPLE_PLAN, "--tables", *files)
                self.ends("plan", "--tables", *files)
            self.write("packed.names", damaged_text(draw.choice((names, by_hand)), draw))
            with self.subTest(names=self.read("packed.names")):
                self.ends("join", self.at("packed"))
                self.ends("dump", self.at("packed"))
                self.ends("unpack", "--force", self.at("packed"), self.at("folder"))
            shutil.rmtree(folder)

    def test_in_processes(self):
        draw = random.Random(13)
        for _ in range(6):
            file = self.write("file", damaged_sample(draw))
            for command in (["join", file], ["dump", file]):
                self.assertIn(self.process(*command).returncode, (0, 1, 2))


if __name__ == "__main__":
    unittest.main()
