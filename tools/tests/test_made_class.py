"""Whether a class that is made by chance is of the space, and the same again."""
import subprocess
import sys
import unittest
from pathlib import Path

TOP = Path(__file__).resolve().parents[2]
sys.path.insert(0, str(TOP / "tools/tests"))
import given  # noqa: F401

FRACTIONS = str(TOP / "samples/fractions.txt")
STATES = {"1111", "1110", "1100", "1011", "1010", "1000", "0110", "0100", "0000"}


class MadeClass(unittest.TestCase):
    def made(self, *words):
        done = subprocess.run([sys.executable, str(TOP / "tools/made-class"), FRACTIONS, *words],
                              stdout=subprocess.PIPE, stderr=subprocess.PIPE, check=True)
        return [line.split(",") for line in done.stdout.decode().splitlines()]

    def test_without_slips_and_guesses_each_row_is_a_state(self):
        """Of 300 pupils over nine states some are in each."""
        first, *rows = self.made("300", "--slip", "0", "--guess", "0")
        self.assertEqual(first, ["pupil", "expand", "decimal", "compare", "add"])
        self.assertEqual([row[0] for row in rows], [f"p{n}" for n in range(1, 301)])
        self.assertEqual({"".join(row[1:]) for row in rows}, STATES)

    def test_slips_and_guesses(self):
        """Where all goes wrong, the rows are the states with their marks turned round."""
        _, *rows = self.made("300", "--slip", "100", "--guess", "100")
        turned = {"".join("01"[mark == "0"] for mark in row[1:]) for row in rows}
        self.assertEqual(turned, STATES)

    def test_a_seed_makes_its_table(self):
        table = self.made("50", "--seed", "7")
        self.assertEqual(self.made("50", "--seed", "7"), table)
        self.assertNotEqual(self.made("50", "--seed", "8"), table)
        self.assertEqual(self.made("20", "--seed", "7"), table[:21])

    def test_words_that_are_no_numbers(self):
        for words in (["3", "--slip=-5"], ["3", "--slip=101"], ["3", "--guess=1000"],
                      ["3", "--guess=x"], ["0"], ["-1"]):
            done = subprocess.run([sys.executable, str(TOP / "tools/made-class"), FRACTIONS,
                                   *words], stdout=subprocess.PIPE, stderr=subprocess.PIPE)
            self.assertEqual((done.returncode, done.stdout), (2, b""), words)
            self.assertRegex(done.stderr, rb"(is no number from|arguments are required)")
