"""What an interview by keys asks, keeps and tells."""
import os
import random
import signal
import subprocess
import sys
import time
import unittest
from pathlib import Path
from unittest import mock

sys.path.insert(0, str(Path(__file__).resolve().parent))
from interviews import GUIDE, INTERVIEW, ITEMS, KEYS, PROGRAM, ByKeys, ByLines
import companion
import script


class Interviews(ByLines):
    def test_the_interview_of_the_guide(self):
        printed = self.interview(KEYS)
        self.assertEqual(self.lines(), ["items " + ITEMS, *GUIDE])
        self.assertEqual(self.replies(), ["ok 4"] + [f"ok {n}" for n in range(1, 10)])
        self.assertIn("[0 asked, 0 settled without asking, 12 open] "
                      "Would a pupil who fails expand also fail decimal?", printed)
        # after `yes expand : add` the two No before tell `add : decimal` and `add : compare`
        self.assertIn("[3 asked, 2 settled without asking, 7 open] "
                      "Would a pupil who fails decimal also fail expand?", printed)
        self.assertIn("All 12 questions of blocks 1 are settled: 9 asked, 3 settled without "
                      "asking.\nThe answers leave 10 states.\nThey are a learning space", printed)

    def test_larger_blocks_go_on(self):
        self.interview(KEYS)
        printed = self.interview(["y", "n", "n", "n"], "--blocks", "2")
        self.assertIn("Would a pupil who fails all of expand, decimal also fail compare?", printed)
        self.assertIn("13 asked, 11 settled without asking.\nThe answers leave 9 states", printed)
        self.assertEqual(self.lines()[10:], [
            "blocks 2", "yes expand decimal : compare", "no expand compare : decimal",
            "no decimal compare : expand", "no decimal add : compare"])
        before = self.lines()
        self.interview([], "--blocks", "2", "--items", *ITEMS.split())
        self.assertEqual(self.lines(), before)  # the same command again adds nothing

    def test_skipped_questions_come_again(self):
        printed = self.interview(["s", "s", "n", "y"], items="a b")
        asked = [line.split("] ")[1] for line in printed.splitlines() if "] Would" in line]
        first, second = ("Would a pupil who fails a also fail b?",
                         "Would a pupil who fails b also fail a?")
        self.assertEqual(asked, [first, second, first, second])
        self.assertEqual(printed.count("Only skipped questions are left"), 1)
        self.assertEqual(self.lines(), ["items a b", "no a : b", "yes b : a"])

    def test_a_skipped_question_that_answers_settle_is_never_asked_again(self):
        # a : c skipped; a : b and b : c are Yes, so a : c is Yes
        printed = self.interview(["y", "s", "n", "y"], items="a b c")
        self.assertEqual(self.lines()[1:], ["yes a : b", "no b : a", "yes b : c"])
        self.assertEqual(printed.count("who fails a also fail c?"), 1)

    def test_undo(self):
        printed = self.interview(["y", "u", "n", "y", "u", "u"], items="a b")
        self.assertEqual(self.lines(), ["items a b", "yes a : b", "retract 1", "no a : b",
                                        "yes b : a", "retract 3", "retract 2"])
        self.assertIn("  Taken back: answer 1, 'yes a : b'.\n[0 asked, 0 settled without asking, "
                      "2 open] Would a pupil who fails a also fail b?", printed)
        self.assertEqual(self.replies()[-1], "ok 2")
        self.assertIn("No such answer stands.", self.interview(["u"]))

    def test_undo_of_an_earlier_session_and_of_a_named_answer(self):
        self.interview(KEYS)
        self.interview(["u yes : no", "u expand : add", "u"])
        self.assertEqual(self.lines()[10:], ["retract 3", "retract 9"])

    def test_why(self):
        self.interview(KEYS)
        printed = self.interview(["w add : expand", "w expand : add", "w expand compare : add"])
        self.assertIn("It is No, by answer 7, 'no compare : expand': some pupil fails compare and"
                      " masters expand.\n  Were it Yes, there could be no such pupil.", printed)
        self.assertIn("It was answered: answer 3, 'yes expand : add'.", printed)
        self.assertIn("It is Yes: by the start and the answers Yes, nobody masters add without one"
                      " of expand, compare.", printed)
        self.assertEqual(len(self.lines()), 10)
        self.script.unlink()
        self.assertIn("It is open: the answers so far tell neither", self.interview(["w"]))

    def test_refused_answers_are_told_and_not_kept(self):
        self.interview(KEYS)
        printed = self.interview(["y add : expand", "n expand compare : add", "y expand : add",
                                  "y add : add", "y add : zero", "loud"])
        for told in ["No (no 21 7), by answer 7, 'no compare : expand'.",
                     "tell Yes (no 20).", "(no 19 3), by answer 3, 'yes expand : add'.",
                     "the same item on both sides (no 18)", "That is no question of the items",
                     "Keys: y yes"]:
            self.assertIn(told, printed)
        self.assertEqual(len(self.lines()), 10)

    def test_items_are_asked_for(self):
        printed = self.interview(["a a", "", "a b\u00fc c", "a b", "q"], items=None)
        self.assertIn("These can't be taken. 12 repeat 2 1", printed)
        self.assertIn("a name has 1 to 40 of the letters a to z", printed)
        self.assertIn("These can't be taken. 'b\u00fc' is no such name.", printed)
        self.assertEqual(printed.count("Which items?"), 4)
        self.assertIn("2 items in first.txt. They stay: other items take another file.",
                      printed)
        self.assertEqual(self.lines(), ["items a b"])
        self.script.unlink()
        (self.folder / "topics.csv").write_text("add,addition\nsub,subtraction\n")
        self.interview(["y"], "--load-items", "topics.csv", items=None)
        self.assertEqual(self.lines(), ["load-items topics.csv", "yes add : sub"])
        self.assertIn("has its items already", self.interview([], "--items", "a", status=2))

    def test_a_script_as_an_author_left_it(self):
        """Notes, listings, a start, a refused line and no line end at the end all stay."""
        (self.folder / "ways.json").write_text(
            '{"a": [["a"]], "b": [["a", "b"], ["c", "b"]], "c": [["c"]]}')
        text = "# mine\nitems a b c\nstart surmise ways.json\nblocks 2\nstates\nfoo\nno a : b"
        self.script.write_text(text)
        printed = self.interview(["q"])
        self.assertIn("Line 6, 'foo', is refused: the line is no command (no 10 1).", printed)
        self.assertEqual(self.script.read_text(), text)
        self.interview(["n"])
        # of the start's states only {b c} has b without a; so it stays, and a : c is No as well
        self.assertEqual(self.script.read_text(), text + "\nno b : a\n")

    def test_a_saved_session_goes_on(self):
        self.interview(KEYS[:3])
        subprocess.run([PROGRAM], input=self.script.read_bytes() + b"blocks 2\nsave kept\n",
                       cwd=self.folder, stdout=subprocess.DEVNULL)
        self.script.write_text("open kept\n")
        printed = self.interview(["u"])
        self.assertIn("[3 asked, ", printed)
        self.assertIn("Taken back: answer 3, 'yes expand : add'.", printed)
        self.assertEqual(self.lines(), ["open kept", "retract 3"])

    def test_killed_at_any_moment(self):
        """What was told as kept is in the script, which goes on to the same end."""
        names = " ".join(f"i{n}" for n in range(9))
        whole = ["items " + names]
        for kill in range(8):
            drawn = random.Random(kill)
            self.script.unlink() if self.script.exists() else None
            running = subprocess.Popen([*INTERVIEW, "first.txt", "--items", *names.split()],
                                       cwd=self.folder, stdin=subprocess.PIPE,
                                       stdout=subprocess.PIPE)
            running.stdin.write(b"n\n" * 200)
            running.stdin.flush()
            printed = [running.stdout.readline() for _ in range(drawn.randrange(2, 90))]
            time.sleep(drawn.uniform(0, 0.004))
            os.kill(running.pid, signal.SIGKILL)
            printed = b"".join(printed) + running.communicate()[0]
            kept = printed.count(b", kept as answer ")
            self.assertLessEqual(kept, len(self.lines()) - 1)
            self.assertGreaterEqual(kept, len(self.lines()) - 2)
            self.assertEqual(self.replies(), ["ok 9"] + [f"ok {n}" for n in
                                                         range(1, len(self.lines()))])
            self.interview(["n"] * 80)
            whole = self.lines() if len(whole) == 1 else whole
            self.assertEqual(self.lines(), whole)
        self.assertEqual(len(whole), 73)

    def test_one_interview_at_a_time(self):
        running = subprocess.Popen([*INTERVIEW, "first.txt", "--items", "a", "b"], cwd=self.folder,
                                   stdin=subprocess.PIPE, stdout=subprocess.PIPE)
        running.stdout.readline()
        self.assertIn("is used by another interview", self.interview(["y"], status=2))
        running.communicate()

    def test_a_full_disk_keeps_no_part_of_an_answer(self):
        self.interview(["n"])
        before = self.script.read_text()
        limited = ["bash", "-c", "trap '' XFSZ; ulimit -f 1; exec \"$@\"", "bash", *INTERVIEW]
        self.script.write_text("#" * (1024 - len(before) - 6) + "\n" + before)
        before = self.script.read_text()
        done = subprocess.run([*limited, "first.txt"], cwd=self.folder, input=b"y\ny\n",
                              stdout=subprocess.PIPE, stderr=subprocess.PIPE)
        self.assertEqual(done.returncode, 2)
        self.assertIn(b"can't keep 'yes expand : compare'", done.stderr)
        self.assertEqual(self.script.read_text(), before)

    def test_keys_with_a_question_that_is_none(self):
        """None ends the interview, none is kept, and the answer behind them is."""
        keys = [f"{key} {words}".strip() for key in ("y", "n", "u", "w")
                for words in (":", ": a", "a :", ": :", "a : b :", ":a:", "a b", "\\xff : a", "\0")]
        printed = self.interview([*keys, "y"], items="a b c")
        self.assertEqual(printed.count("That is no question of the items."), len(keys))
        self.assertEqual(self.lines(), ["items a b c", "yes a : b"])

    def test_blocks_that_are_none(self):
        for word in ("0", "-1", "x", "1.5"):
            self.assertIn(f"{word} is no number from 1 on",
                          self.interview(["y"], f"--blocks={word}", status=2))
        self.assertFalse(self.script.exists())

    def test_a_script_without_a_line_is_taken_away(self):
        self.assertIn("these are no items", self.interview([], items="a a", status=1))
        self.assertIn("no items were given", self.interview([], items=None, status=2))
        self.assertEqual(list(self.folder.iterdir()), [])
        self.script.write_text("")  # this one was there before
        self.assertIn("no items were given", self.interview([], items=None, status=2))
        self.assertEqual(self.script.read_text(), "")

    def test_another_interview_keeps_its_empty_script(self):
        running = subprocess.Popen([*INTERVIEW, "first.txt"], cwd=self.folder,
                                   stdin=subprocess.PIPE, stdout=subprocess.PIPE)
        while b"Which items?" not in running.stdout.readline():
            pass
        self.assertIn("is used by another interview", self.interview([], status=2))
        self.assertTrue(self.script.exists())
        running.communicate(b"a b\ny\n")
        self.assertEqual(self.lines(), ["items a b", "yes a : b"])


    def test_a_script_that_another_interview_just_had(self):
        """It was made here, and another interview was the first to lock it; or another has taken
        it away, and a third has made it again. It isn't taken away here."""
        def refuse(*_):
            raise BlockingIOError

        def exchange(*_):
            self.script.unlink()
            self.script.touch()

        for lock in (refuse, exchange):
            with mock.patch("fcntl.flock", lock), self.assertRaises(companion.Trouble) as caught:
                script.Script(self.script)
            self.assertIn("is used by another interview", str(caught.exception))
            self.assertTrue(self.script.exists())
            self.script.unlink()


class Terminal(ByKeys):
    def test_keys(self):
        self.start()
        for key, shown in [(b"n", b"fail compare?"), (b"y", b"fail add?"), (b"u", b"fail compare?"),
                           (b"w", b"Of which question?"), (b"decimal : add\n", b"fail compare?"),
                           (b"w", b"Of which question?"), (b":\n", b"fail compare?"),
                           (b"\xff", b"fail compare?")]:
            self.press(key, shown)
        self.assertFalse(self.is_as_before())
        self.press(b"q", b"1 answer in first.txt")
        self.ends(0)
        self.assertEqual(self.lines()[1:], ["no expand : decimal", "yes expand : compare",
                                            "retract 2"])

    def test_signals_put_the_terminal_back(self):
        """And what was told as kept is kept; also while a line is typed."""
        for number in (signal.SIGTERM, signal.SIGHUP, signal.SIGQUIT, signal.SIGINT):
            self.start()
            self.press(b"n", b"fail compare?")
            self.assertFalse(self.is_as_before())
            self.running.send_signal(number)
            self.ends(128 + number)
            self.assertEqual(self.lines()[1:], ["no expand : decimal"])
        self.start()
        self.press(b"w", b"Of which question?")
        self.running.send_signal(signal.SIGTERM)
        self.ends(128 + signal.SIGTERM)

    def test_a_stop_puts_the_terminal_back_and_keys_come_again(self):
        self.start()
        self.running.send_signal(signal.SIGTSTP)
        _, status = os.waitpid(self.running.pid, os.WUNTRACED)
        self.assertTrue(os.WIFSTOPPED(status))
        self.assertTrue(self.is_as_before())
        self.running.send_signal(signal.SIGCONT)
        self.press(b"y", b"fail compare?")
        self.assertFalse(self.is_as_before())
        self.press(b"q", b"1 answer in first.txt")
        self.ends(0)

    def test_a_program_that_is_killed(self):
        """It is told in a line, the terminal is put back, and the answers before are kept."""
        self.start()
        self.press(b"n", b"fail compare?")
        children = Path(f"/proc/{self.running.pid}/task/{self.running.pid}/children").read_text()
        os.kill(int(children), signal.SIGKILL)
        os.write(self.main, b"y")
        told = self.running.communicate(timeout=20)[1]
        self.assertEqual((self.running.returncode, told), (
            3, b"interview: the program ended before it had replied: its status is -9\n"))
        self.assertTrue(self.is_as_before())
        self.assertEqual(self.lines()[1:], ["no expand : decimal"])

    def test_a_terminal_that_goes(self):
        self.start()
        self.press(b"n", b"fail compare?")
        os.close(self.main)
        said = self.running.communicate(timeout=20)[1]
        self.assertNotIn(b"Traceback", said)
        self.assertLessEqual(said.count(b"\n"), 1)
        self.assertEqual(self.lines()[1:], ["no expand : decimal"])


if __name__ == "__main__":
    unittest.main()
