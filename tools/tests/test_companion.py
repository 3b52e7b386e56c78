"""Whether replies are split by command, and troubles told in a line."""
import subprocess
import sys
import tempfile
import unittest
from pathlib import Path

TOP = Path(__file__).resolve().parents[2]
sys.path.insert(0, str(TOP / "tools/tests"))
from given import PROGRAM
import companion
import course


class Replies(unittest.TestCase):
    def test_each_sample_is_split_whole(self):
        """Line by line each sample gets what the program writes for the whole script."""
        for sample in sorted((TOP / "samples").glob("*.txt")):
            text = companion.read_text(sample)
            split = companion.run_script(PROGRAM, text, TOP / "samples")
            whole = subprocess.run([PROGRAM], input=text.encode(), cwd=TOP / "samples",
                                   stdout=subprocess.PIPE).stdout.decode().splitlines()
            self.assertEqual([line for _, reply in split for line in reply], whole, sample.name)
            self.assertEqual([line for line, _ in split], text.splitlines(), sample.name)

    def test_replies_belong_to_their_lines(self):
        script = "# a note\nitems a b\n\nyes a : b\nstates\nno a:b\nbase\nfoo\nproject-base a"
        replies = [reply for _, reply in companion.run_script(PROGRAM, script)]
        self.assertEqual(replies, [
            [], ["ok 2"], [], ["ok 1"], ["set c {a b}", "set 8 {a}", "set 0 {}", "more no"],
            ["no 19 1"], ["set c {a b}", "set 8 {a}", "base 2"], ["no 10 1"],
            ["set 8 {a}", "base 1", "learning yes"]])

    def test_words_are_cut_as_by_the_program(self):
        self.assertEqual(companion.words_of("yes a,b:c\r"), ["yes", "a", "b", ":", "c"])
        self.assertEqual(companion.words_of(" \t# yes a : b"), [])

    def test_set_texts(self):
        self.assertEqual(companion.names_in("result Ann 6 share {expand compare}"),
                         ["expand", "compare"])
        self.assertEqual(companion.names_in("set 0 {}"), [])


class Troubles(unittest.TestCase):
    def test_a_missing_program(self):
        with self.assertRaises(companion.Trouble) as caught:
            companion.find_program("/nowhere/lspace")
        self.assertEqual(caught.exception.status, 3)
        self.assertIn("--program", str(caught.exception))

    def test_a_program_that_ends(self):
        with tempfile.TemporaryDirectory() as folder:
            short = Path(folder) / "short"
            short.write_text("#!/bin/sh\nread line\necho ok 2\nexit 6\n")
            short.chmod(0o755)
            with self.assertRaises(companion.Trouble) as caught:
                companion.run_script(str(short), "items a b\nstates\n")
        self.assertEqual(str(caught.exception),
                         "the program ended before it had replied: memory ran out")

    def test_refusals_have_plain_words(self):
        self.assertIsNone(companion.refusal_of(["ok 1"]))
        self.assertEqual(companion.refusal_of(["no 21 7"]),
                         "the earlier answers already tell No (no 21 7)")


class Courses(unittest.TestCase):
    def test_a_course_leaves_neither_its_program_nor_its_folder(self):
        with course.Course(PROGRAM, str(TOP / "samples/fractions.txt")) as open_one:
            self.assertIsNone(open_one.running.poll())
            self.assertTrue((open_one.folder / "fractions.txt").is_symlink())
        self.assertEqual(open_one.running.returncode, 0)
        self.assertFalse(open_one.folder.exists())

    def test_cursors(self):
        with course.Course(PROGRAM, str(TOP / "samples/fractions.txt")) as open_one:
            self.assertEqual("".join(open_one.cursors(9)), "fecba8640")
            self.assertIsNone(open_one.cursors(8))
            self.assertEqual(open_one.names("a"), ["expand", "compare"])
        self.assertEqual(companion.marks_of("a8", 6), "101010")


class Helps(unittest.TestCase):
    def test_each_companion_tells_its_use_and_that_it_proves_nothing(self):
        for name in ["interview", "report", "draw", "kst", "made-class"]:
            done = subprocess.run([sys.executable, str(TOP / "tools" / name), "--help"],
                                  stdout=subprocess.PIPE)
            told = " ".join(done.stdout.decode().split())
            self.assertEqual(done.returncode, 0)
            self.assertIn(f"usage: {name} ", told)
            self.assertIn("proves nothing", told)


if __name__ == "__main__":
    unittest.main()
