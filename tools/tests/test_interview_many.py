"""Several answers at once, contradictions, larger blocks, what was learned, and labels."""
import itertools
import os
import random
import signal
import subprocess
import sys
import time
import unittest
from pathlib import Path
from types import SimpleNamespace
from unittest import mock

sys.path.insert(0, str(Path(__file__).resolve().parent))
from interviews import INTERVIEW, ITEMS, KEYS, PROGRAM, ByKeys, ByLines
import companion
import forcing
import learned
import questions
from labels import Labels

WAYS = '{"a": [["a"]], "b": [["a", "b"], ["c", "b"]], "c": [["c"]]}'


class Many(ByLines):
    def test_numbers_and_names(self):
        for named in ("3", "add", "3 add", "add,3"):
            self.script.unlink() if self.script.exists() else None
            printed = self.interview(["m", named, "y"])
            self.assertEqual(self.lines()[1:], ["yes expand : add", "no expand : decimal",
                                                "no expand : compare"])
            self.assertIn("1 decimal   2 compare   3 add", printed)
            self.assertIn("  Yes: add.\n  No: decimal, compare.\n", printed)
            self.assertIn("  No for compare, kept as answer 3.\n", printed)

    def test_only_the_yes(self):
        self.interview(["m", "compare add", "o"])
        self.assertEqual(self.lines()[1:], ["yes expand : compare", "yes expand : add"])

    def test_none_and_all_are_named(self):
        printed = self.interview(["m", "", "o", "m", "", "y"], items="a b c")
        self.assertEqual(printed.count("Nothing is kept."), 1)  # `o` has no Yes to keep
        self.assertEqual(self.lines()[1:], ["no a : b", "no a : c"])
        self.assertNotIn("o only", self.interview(["m", "1 2", "y"]))
        self.assertEqual(self.lines()[3:], ["yes b : a", "yes b : c"])

    def test_nothing_is_answered_that_was_not_said(self):
        """No end of the input, no word that is none and no other key answers anything."""
        for keys in (["m"], ["m", "3"], ["m", "3", "n"], ["m", "3", "q"], ["m", "4", "y", "n"],
                     ["m", "0"], ["m", "expand"], ["m", ":", "y"], ["m", "", "u"], ["m zero"],
                     ["m", "add", "loud"], ["m expand decimal compare add"]):
            self.interview(keys)
            self.assertEqual(self.lines(), ["items " + ITEMS], keys)
        # a key in place of `y` is done as such
        self.interview(["m", "add", "n decimal : Add", "n decimal : add"])
        self.assertEqual(self.lines()[1:], ["no decimal : add"])

    def test_names_that_are_numbers(self):
        printed = self.interview(["m", "3", "o"], items="3 2 1 4")
        self.assertIn("\n    2   1   4\n", printed)
        self.assertEqual(self.lines()[1:], [])  # 3 is the failed item, and not the third
        self.interview(["m", "1", "o"])
        self.assertEqual(self.lines()[1:], ["yes 3 : 1"])

    def test_failed_items_that_are_named(self):
        printed = self.interview(["s", "m c b", "a", "y"], items="a b c d")
        self.assertIn("A pupil fails all of b, c. Which", printed)
        self.assertEqual(self.lines()[1:], ["yes b c : a", "no b c : d"])
        self.assertIn("None of these questions is open.", self.interview(["m b c"]))

    def test_what_follows_is_passed_over(self):
        printed = self.interview(["y b : c", "m", "b c", "y"], items="a b c")
        self.assertEqual(self.lines()[1:], ["yes b : c", "yes a : b"])
        self.assertNotIn("Not kept", printed)

    def test_what_contradicts_is_told(self):
        printed = self.interview(["y b : c", "m", "b", "y", "1"], items="a b c")
        self.assertEqual(self.lines()[1:], ["yes b : c", "yes a : b", "retract 1"])
        self.assertIn("  Not kept for c: the earlier answers already tell Yes (no 20).\n"
                      "  These answers together tell it:\n"
                      "    1 Yes: who fails b also fails c\n"
                      "    2 Yes: who fails a also fails b\n", printed)
        self.assertTrue(printed.split("Taken back: answer 1, 'yes b : c'.\n")[1].split("] ")[1]
                        .startswith("Would a pupil who fails a also fail c?"))

    def test_killed_between_its_answers(self):
        """What was told as kept is in the script, in order, and the script is a front of it."""
        names = " ".join(f"i{n:02}" for n in range(60))
        whole = [f"yes i00 : i{n:02}" for n in range(1, 31)]
        whole += [f"no i00 : i{n:02}" for n in range(31, 60)]
        lengths = set()
        for kill in range(8):
            drawn = random.Random(kill)
            self.script.unlink() if self.script.exists() else None
            running = subprocess.Popen([*INTERVIEW, "first.txt", "--items", *names.split()],
                                       cwd=self.folder, stdin=subprocess.PIPE,
                                       stdout=subprocess.PIPE)
            running.stdin.write(f"m\n{' '.join(map(str, range(1, 31)))}\ny\n".encode())
            running.stdin.flush()
            while b"Which of these" not in running.stdout.readline():
                pass
            time.sleep(drawn.uniform(0, 0.03))
            os.kill(running.pid, signal.SIGKILL)
            running.communicate()
            kept = self.lines()[1:]
            self.assertEqual(kept, whole[:len(kept)])
            self.assertEqual(self.replies(), ["ok 60"] + [f"ok {n + 1}" for n in range(len(kept))])
            lengths.add(len(kept))
        self.assertGreater(len(lengths), 1)


class Contradictions(ByLines):
    def tells(self, lines, question):
        """What the program tells of a question after some lines."""
        text = "\n".join([*lines, "known " + question])
        return companion.run_script(PROGRAM, text, self.folder)[-1][1][0]

    def test_a_no_by_a_chain(self):
        yes = ["yes a : b", "yes x : y", "yes b : c", "yes y : x", "yes c d : e"]
        self.script.write_text("\n".join(["items a b c d e x y", *yes, ""]))
        printed = self.interview(["n a d : e", "2"])
        told = [line for line in printed.splitlines() if line.startswith("    ")]
        self.assertEqual(told, ["    1 Yes: who fails a also fails b",
                                "    3 Yes: who fails b also fails c",
                                "    5 Yes: who fails all of c, d also fails e"])
        needed = [yes[0], yes[2], yes[4]]
        self.assertEqual(self.tells(["items a b c d e x y", *needed], "a d : e"), "known yes")
        for some in itertools.combinations(needed, 2):
            self.assertEqual(self.tells(["items a b c d e x y", *some], "a d : e"), "known open")
        self.assertIn("Nothing is taken back.", printed)  # 2 isn't one of them
        self.interview(["n a d : e", "3", "n"])
        self.assertEqual(self.lines()[6:], ["retract 3", "no a d : e"])

    def test_a_yes(self):
        self.interview(KEYS)
        printed = self.interview(["y add : expand", "9", "y"])
        self.assertIn("    7 No: some pupil fails compare and masters expand\n"
                      "    9 Yes: who fails compare also fails add\n"
                      "  Take one of them back?", printed)
        self.assertEqual(self.lines()[10:], ["retract 9", "yes add : expand"])
        self.assertEqual(self.tells(["items " + ITEMS, "no compare : expand",
                                     "yes compare : add"], "add : expand"), "known no 1")

    def test_others_that_still_tell(self):
        """There are two chains, of which one is shown."""
        self.script.write_text("items a b c d\nyes a : b\nyes b : c\nyes a : d\nyes d : c\n")
        printed = self.interview(["n a : c", "1", "n a : c", "4", "n a : c"])
        self.assertIn("  Taken back: answer 1, 'yes a : b'.\n  The others still tell Yes.\n",
                      printed)
        self.assertEqual(printed.count("The others"), 1)
        self.assertEqual(self.lines()[5:], ["retract 1", "retract 4", "no a : c"])

    def test_a_saved_session_that_was_written_again(self):
        """A second run opens other answers, so that the one is told that the reply names."""
        subprocess.run([PROGRAM], cwd=self.folder, stdout=subprocess.DEVNULL,
                       input=b"items a b c\nyes a : b\nno a : c\nsave kept\n")
        self.script.write_text("open kept\nretract 1\nsave kept\nyes a : b\n")
        printed = self.interview(["y b : c", "2"])
        self.assertIn("tell No (no 21 2), by answer 2, 'no a : c'.\n  Take it back? 2, or", printed)
        self.assertEqual(self.lines()[4:], ["retract 2"])

    def test_another_answer_before(self):
        self.interview(["y"], items="a b")
        self.assertNotIn("Take it back", self.interview(["y a : b"]))
        self.assertIn("Take it back? 1, or nothing.", self.interview(["n a : b", "1", "n"]))
        self.assertEqual(self.lines()[1:], ["yes a : b", "retract 1", "no a : b"])

    def test_a_start_that_tells(self):
        """Of its states only {b c} has b without a: so who fails a and c fails b."""
        (self.folder / "ways.json").write_text(WAYS)
        self.script.write_text("items a b c\nstart surmise ways.json\nyes b : c\n")
        printed = self.interview(["n a c : b", "y"])
        self.assertIn("The start alone tells it.\n", printed)
        self.assertNotIn("Take", printed)
        # with `yes c : b` as well, {a b} goes, and a : b needs answers beside the start
        self.script.write_text("items a b c\nstart surmise ways.json\nyes a : c\nyes b : c\n")
        printed = self.interview(["n a : b"])
        self.assertIn("This answer tells it:\n    1 Yes: who fails a also fails c\n", printed)
        start = ["items a b c", "start surmise ways.json"]
        self.assertEqual(self.tells([*start, "yes a : c"], "a : b"), "known yes")
        self.assertEqual(self.tells([*start, "yes b : c"], "a : b"), "known open")

    def test_a_saved_session(self):
        """Its answers are left out one by one like any other."""
        subprocess.run([PROGRAM], cwd=self.folder, stdout=subprocess.DEVNULL,
                       input=b"items a b c d\nyes a : b\nyes c : d\nyes b : c\nsave kept\n")
        self.script.write_text("open kept\n")
        self.assertIn("    1 Yes: who fails a also fails b\n    3 Yes: who fails b also fails c\n"
                      "  Take", self.interview(["n a : c"]))

    def test_many_answers_without_a_chain(self):
        """By a start in which b needs a or c, and 302 answers of which two are needed."""
        names = [f"i{n}" for n in range(20)]
        (self.folder / "ways.json").write_text(
            '{"a": [["a"]], "b": [["a", "b"], ["c", "b"]], "c": [["c"]], '
            + ", ".join(f'"{it}": [["{it}"]]' for it in names) + "}")
        others = [f"yes {one} : {two}" for one, two in itertools.permutations(names, 2)]
        yes = [*others[:150], "yes a : i0", "yes i0 : c", *others[150:300]]
        lines = [f"items a b c {' '.join(names)}", "start surmise ways.json"]
        self.script.write_text("\n".join([*lines, *yes, ""]))
        printed = self.interview(["n a : b"])
        found = [int(it.split()[0]) for it in printed.splitlines() if it.startswith("    ")]
        self.assertEqual(found, [151, 152])
        self.assertEqual(self.tells([*lines, yes[150], yes[151]], "a : b"), "known yes")

    def test_why_tells_the_answers(self):
        self.script.write_text("items a b c\nyes a : b\nyes b : c\nno b : a\n")
        printed = self.interview(["w a : c", "w c : a"])
        self.assertIn("    1 Yes: who fails a also fails b\n    2 Yes: who fails b also fails c\n",
                      printed)
        self.assertIn("    2 Yes: who fails b also fails c\n"
                      "    3 No: some pupil fails b and masters a\n", printed)

    def test_replies_that_run_out(self):
        """Then a part that tells the question, and not a least one, is told."""
        (self.folder / "ways.json").write_text(WAYS)
        yes = {1: (("b",), "c"), 2: (("a",), "c"), 3: (("b",), "a")}
        answers = SimpleNamespace(ground=["items a b c", "start surmise ways.json"],
                                  standing={it: (asked, "yes") for it, asked in yes.items()})
        for most, found in [(900, [2]), (0, [1, 2, 3])]:
            with mock.patch("forcing.MOST_REPLIES", most):
                self.assertEqual(forcing.telling(PROGRAM, self.folder, answers, (("a",), "b")),
                                 found)
        self.assertIsNone(forcing.telling(PROGRAM, self.folder, answers, (("b",), "zz")))

    def test_chains(self):
        rules = {1: (("a",), "b"), 2: (("b",), "c"), 3: (("c", "d"), "e"), 4: (("a",), "c")}
        self.assertEqual(forcing.chain(rules, ("a",), "c"), {4})
        self.assertEqual(forcing.chain(rules, ("a", "d"), "e"), {3, 4})
        self.assertIsNone(forcing.chain(rules, ("d",), "e"))


class Ends(ByLines):
    def test_larger_blocks_by_a_key(self):
        """With all pairs No, each of the three larger questions can still be Yes or No."""
        printed = self.interview([*"nnnnnn", "b", "y", "y", "y"], items="a b c")
        self.assertIn("Blocks of 2 may leave fewer states. 3 questions would be open: b goes on"
                      " with them.\nKeys: b blocks of 2, u undo", printed)
        self.assertEqual(self.lines()[7:], ["blocks 2", "yes a b : c", "yes a c : b",
                                            "yes b c : a"])
        self.assertIn("All 9 questions of blocks 2 are settled: 9 asked", printed)
        self.assertIn("No question of larger blocks is open: one space is left", printed)
        self.assertIn("Larger blocks are offered where all", self.interview(["b"]))
        self.assertEqual(self.lines()[-1], "yes b c : a")

    def test_blocks_before_the_end(self):
        self.assertIn("Larger blocks are offered where all", self.interview(["b"]))
        self.assertEqual(self.lines(), ["items " + ITEMS])

    def test_a_long_chain_with_more_questions_than_are_counted(self):
        """Each item before the next one, and not the other way: all of 70 are in one chain. There
        are 2,415 pairs of them, with 68 other items each."""
        names = [f"i{n}" for n in range(70)]
        self.script.write_text("\n".join(
            ["items " + " ".join(names), *(f"yes {a} : {b}\nno {b} : {a}"
                                           for a, b in zip(names, names[1:])), ""]))
        printed = self.interview(["b"])
        self.assertIn("The answers leave 71 states.\n", printed)
        self.assertIn(f"The longest chain of what comes first: {', then '.join(names)}.\n", printed)
        self.assertIn("Blocks of 2 may leave fewer states. At most 164,220 questions would be open",
                      printed)
        self.assertEqual(self.lines()[-1], "blocks 2")

    def test_the_two_ways_of_the_guide(self):
        # by all 14 families that fit these answers, written down once: five are open
        self.assertIn("The longest chain of what comes first: expand, then add.\n"
                      "Blocks of 2 may leave fewer states. 5 questions would be open:",
                      self.interview(KEYS))
        printed = self.interview(["y", "n", "n", "n"], "--blocks", "2")
        self.assertIn("The answers leave 9 states.\nThey are a learning space: all can be learned"
                      " one item after another.\nTheir base has 5 sets.\n"
                      "There are 2 ways to compare: by expand; by decimal.\n"
                      "No question of larger blocks is open", printed)

    def test_items_that_come_together(self):
        printed = self.interview(["y", "y"], items="a b")
        self.assertIn("The answers leave 2 states.\nThey are no learning space: at {a b} a and b"
                      " are learned at once.\na and b come together, each with the other.\n"
                      "Their base has 1 set.\n", printed)

    def test_nothing_that_comes_first(self):
        self.assertIn("No item comes before another.", self.interview(["n", "n"], items="a b"))

    def test_a_base_that_is_too_large(self):
        class Refusing:
            def say(self, line):
                return ["no 25"]
        wording = questions.Wording(Labels({}))
        self.assertEqual(learned.order(Refusing(), ["a"], wording), [
            "What comes first isn't told: the base of the states is too large (no 25)."])

    def test_longest_chains(self):
        covers = [("a", "b"), ("b", "d"), ("c", "d"), ("d", "e"), ("a", "c")]
        self.assertEqual(learned.longest("abcde", covers), ["a", "b", "d", "e"])
        self.assertEqual(learned.longest("ab", []), ["a"])


class Labelled(ByLines):
    def test_questions_with_labels_and_tasks(self):
        (self.folder / "labels.csv").write_text(
            "name,label,task\nsd,Subtract a digit,7 - 4\nad,\x1b[2JAdd\u202e,\nzz,Gone,\n")
        printed = self.interview(["m", "", "n", "n", "y", "y ad : sd"], "--labels", "labels.csv",
                                 items="sd ad td")
        self.assertIn("Would a pupil who fails Subtract a digit (sd) also fail [2JAdd (ad)?\n"
                      "    sd: 7 - 4\n  A pupil fails Subtract a digit (sd). Which", printed)
        self.assertIn("    1 [2JAdd (ad)   2 td\n", printed)
        self.assertIn("note: there is a label for zz, and no such item", printed)
        self.assertEqual(self.lines()[1:], ["no sd : ad", "yes sd : td", "yes ad : sd"])

    def test_labels_that_cannot_be_read(self):
        for path, told in [("none.csv", "none.csv can't be read"), (".", "can't be read")]:
            self.assertIn(told, self.interview([], "--labels", path, status=2))
            self.assertFalse(self.script.exists())


class Terminal(ByKeys):
    def test_many(self):
        self.start()
        for key, shown in [(b"m", b"Names or numbers"), (b"7\n", b"The line again"),
                           (b"3\n", b"Keep them?"), (b"n", b"fail decimal?"),
                           (b"m", b"Names or numbers"), (b"add\n", b"Keep them?"),
                           (b"o", b"fail decimal?"), (b"m", b"Names or numbers"),
                           (b"\n", b"Keep them?"), (b"y", b"fail expand?")]:
            self.press(key, shown)
        self.press(b"q", b"3 answers in first.txt")
        self.ends(0)
        self.assertEqual(self.lines()[1:], ["yes expand : add", "no expand : decimal",
                                            "no expand : compare"])

    def test_a_contradiction_and_larger_blocks(self):
        self.start()
        for key in KEYS[:-1]:
            self.press(key.encode(), b"fail")
        self.press(b"y", b"b goes on")
        for key, shown in [(b"l", b"A line with a key"), (b"y add : expand\n", b"Take one"),
                           (b"12\n", b"Nothing is taken back"), (b"l", b"A line with a key"),
                           (b"y add : expand\n", b"Take one"), (b"9\n", b"fail expand?"),
                           (b"n", b"fail add?"), (b"y", b"b goes on"), (b"b", b"fail compare?")]:
            self.press(key, shown)
        self.press(b"q", b"10 answers in first.txt")
        self.ends(0)
        self.assertEqual(self.lines()[10:], ["retract 9", "no add : expand", "yes compare : add",
                                             "blocks 2"])

    def test_arrows_and_functions_are_no_keys(self):
        """F2 and F4 end in Q and S, and a shifted arrow in D; alone these would be keys."""
        self.start()
        for key in (b"\x1bOQ", b"\x1bOS", b"\x1b[1;2D", b"\x1b"):
            self.press(key, b"Keys:")
            self.wait_for(b"fail decimal?")
        self.press(b"q", b"0 answers in first.txt")
        self.ends(0)

    def test_a_signal_while_several_are_named(self):
        for keys in ([(b"m", b"Names or numbers")], [(b"m", b"Names or"), (b"3\n", b"Keep them?")]):
            self.start()
            for key, shown in keys:
                self.press(key, shown)
            self.running.send_signal(signal.SIGTERM)
            self.ends(128 + signal.SIGTERM)
            self.assertEqual(self.lines(), ["items " + ITEMS])


if __name__ == "__main__":
    unittest.main()
