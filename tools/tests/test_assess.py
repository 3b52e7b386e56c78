"""What an assessment by keys asks, keeps and tells."""
import os
import pty
import random
import re
import signal
import subprocess
import sys
import tempfile
import time
import unittest
from html.parser import HTMLParser
from pathlib import Path

TOP = Path(__file__).resolve().parents[2]
sys.path.insert(0, str(TOP / "tools/tests"))
from given import PROGRAM

ASSESS = [sys.executable, str(TOP / "tools/assess")]
SPACE = "items expand decimal compare add\nstart surmise fractions.json\n"
# Ann of the guide: decimal wrong, compare right, add wrong, and the same again.
ANN = ["w", "r", "w", "w", "r", "w"]
HEBREW = "\u05db\u05ea\u05d5\u05d1 \u05db\u05e9\u05d1\u05e8"
LABELS = f"""name,label,task
expand,Write over another <denominator>,
decimal,{HEBREW},write 3/4 as 0.75
compare,"Compare two fractions, of whatever kind they are",
"""


class Tags(HTMLParser):
    """Whether each tag of a page is closed in its turn."""
    OPEN = ("meta", "!doctype")

    def __init__(self):
        super().__init__()
        self.stack, self.names = [], []

    def handle_starttag(self, tag, attrs):
        self.names.append(tag)
        if tag not in self.OPEN:
            self.stack.append(tag)

    def handle_endtag(self, tag):
        assert self.stack.pop() == tag, tag


class Assessments(unittest.TestCase):
    def setUp(self):
        kept = tempfile.TemporaryDirectory()
        self.addCleanup(kept.cleanup)
        self.folder = Path(kept.name)
        (self.folder / "fractions.json").write_bytes(
            (TOP / "samples/fractions.json").read_bytes())
        (self.folder / "course.txt").write_text(SPACE)
        self.kept = self.folder / "course-Ann.txt"

    def assess(self, keys, *words, status=0, script="course.txt"):
        done = subprocess.run([*ASSESS, script, *(words or ["Ann"])], cwd=self.folder,
                              input="".join(key + "\n" for key in keys).encode(),
                              stdout=subprocess.PIPE, stderr=subprocess.PIPE, timeout=60)
        printed = (done.stdout + done.stderr).decode()
        self.assertEqual(done.returncode, status, printed)
        self.assertNotIn("Traceback", printed)
        self.assertNotIn("a fault of the companion", printed)
        return printed

    def lines(self):
        return self.kept.read_text().splitlines()

    def replies(self, *more):
        """What the program says to the script, what was kept, and more lines."""
        script = (self.folder / "course.txt").read_text() + self.kept.read_text()
        script += "".join(f"{it}\n" for it in more)
        done = subprocess.run([PROGRAM], input=script.encode(), cwd=self.folder,
                              stdout=subprocess.PIPE)
        return done.stdout.decode().splitlines()

    def test_ann_of_the_guide(self):
        printed = self.assess(ANN)
        self.assertEqual(self.lines(), ["pupil Ann"] + [
            f"reply Ann {it}" for it in ["decimal wrong", "compare right", "add wrong"] * 2])
        self.assertIn("[5 replies, the leading state has 84 of 100] add: right or wrong?", printed)
        self.assertIn("Ann. Over after 6 replies: this state has 92 of 100.\n"
                      "  Masters: expand, compare.\n  Can learn next: decimal, add.\n"
                      "  Learned last: compare.\n", printed)
        self.assertEqual(self.replies("report Ann")[-2:], [
            "report {expand compare} 262144 282816 6", "fringes compare | decimal add"])
        self.assertEqual((self.folder / "course.txt").read_text(), SPACE)

    def test_it_goes_on(self):
        for place, key in enumerate(ANN, 1):
            printed = self.assess([key])
            self.assertEqual(len(self.lines()), place + 1)
            self.assertEqual("goes on after" in printed, place > 1)
        self.assertIn("Over after 6 replies", printed)
        self.assertIn("Over after 6 replies", self.assess([]))
        self.assertEqual(len(self.lines()), 7)

    def test_undo(self):
        self.assess(["r", "u", *ANN])
        self.assertEqual(self.lines()[:4], ["pupil Ann", "reply Ann decimal right", "close Ann",
                                            "pupil Ann"])
        self.assertEqual(self.replies("report Ann")[-2:], [
            "report {expand compare} 262144 282816 6", "fringes compare | decimal add"])
        printed = self.assess(["u", "u", "r", "w"])  # also what was kept before
        self.assertIn("Taken back: add wrong.\n[5 replies", printed)
        self.assertIn("Taken back: compare right.\n[4 replies", printed)
        self.assertEqual(self.replies("report Ann")[-2].split()[-1], "6")
        self.assertIn("No reply stands.", self.assess(["u"], "Bea"))

    def test_the_end_is_told_again_after_an_undo(self):
        """Also where as many replies stand as before. With `add` right the end is another."""
        (self.folder / "course.txt").write_text(SPACE + "limits 3 90\n")
        printed = self.assess([*ANN[:3], "u", "r"])
        self.assertIn("  Masters: expand, compare.\n", printed)
        self.assertIn("  Masters: expand, compare, add.\n", printed)
        self.assertEqual(printed.count("UNCERTAIN"), 2)

    def test_undo_and_why_where_the_space_changed(self):
        (self.folder / "course.txt").write_text(SPACE + "pupil Ann\nreply Ann decimal wrong\n"
                                                "limits 20 80\n")
        printed = self.assess(["u", "y"])
        self.assertIn("can't be taken back: the space or the settings changed since Ann", printed)
        self.assertEqual(self.kept.read_text() if self.kept.exists() else "", "")

    def test_skip_and_keys(self):
        printed = self.assess(["s", "loud", "r"])
        self.assertIn("  Take another task of decimal, or quit: until it has a reply the program"
                      " asks no other item, also later.\n", printed)
        self.assertIn("  Keys: r right", printed)
        self.assertEqual(self.lines(), ["pupil Ann", "reply Ann decimal right"])

    def test_why(self):
        printed = self.assess(["y", *ANN, "y"])
        self.assertIn("decimal is asked since the states with it have 55 of 100", printed)
        self.assertIn("These states lead: {expand compare} with 92 of 100; ", printed)
        self.assertIn("Settled by 95 of 100: masters expand, compare; lacks decimal, add.\n"
                      "  What remains: nothing.", printed)

    def test_weights_are_the_programs(self):
        """With settings of all kinds, and in a session that was saved by an older version."""
        for settings in ("odds 3 4\nodds add 9 2\n", "ratio 7 3 5 2\nratio expand 9 4 3 2\n",
                         "odds add 9 2\nodds 5 5\nlimits 12 99\n"):
            (self.folder / "course.txt").write_text(SPACE + settings)
            printed = self.assess([key for it in ANN for key in (it, "y")])
            self.assertEqual(printed.count("These states lead"), 6, printed)
            self.kept.unlink()
        script = SPACE + "odds add 9 2\nratio 5 3 4 3\npupil Ann\nreply Ann decimal wrong\n"
        script += "save it\n"
        subprocess.run([PROGRAM], input=script.encode(), cwd=self.folder, stdout=subprocess.PIPE)
        (self.folder / "course.txt").write_text("open it\n")
        printed = self.assess(["y", "u", "r"])
        self.assertIn("[1 reply, the leading state has", printed)
        self.assertIn("These states lead", printed)
        self.assertIn("or a session was opened", printed)
        self.assertIn("[2 replies", self.assess([]))

    def test_no_weights_where_they_would_be_others(self):
        (self.folder / "course.txt").write_text(SPACE + "pupil Ann\nyes add : decimal\n")
        printed = self.assess(["y"])
        self.assertNotIn("These states lead", printed)
        self.assertIn("more can't be told", printed)

    def test_a_budget_stands_out(self):
        (self.folder / "course.txt").write_text(SPACE + "limits 3 90\n")
        printed = self.assess(ANN[:3], "Ann", "--sheet", "ann.html")
        self.assertIn("Ann. UNCERTAIN after 3 replies, which are all that `limits` allows: this"
                      " state has 59 of 100, and 90 are asked for.", printed)
        self.assertIn("<p class=warn>UNCERTAIN", (self.folder / "ann.html").read_text())

    def test_a_sheet(self):
        printed = self.assess(ANN, "Ann", "--sheet", "ann.html")
        text = (self.folder / "ann.html").read_text()
        self.assertIn("The sheet is ann.html.", printed)
        self.assertIn("<h2>You master</h2><ul class=mastered><li dir=auto>expand</li>"
                      "<li dir=auto>compare</li></ul>", text)
        self.assertIn("<li dir=auto>decimal</li><li dir=auto>add</li>", text)
        tags = Tags()
        tags.feed(text)
        self.assertEqual(tags.stack, [])
        self.assertNotIn("http", text)

    def test_labels(self):
        (self.folder / "labels.csv").write_text(LABELS + "gone,Nothing,\n", encoding="utf-8")
        printed = self.assess([*ANN, "u", "s", "w", "y"], "Ann", "--labels", "labels.csv",
                              "--sheet", "ann.html")
        compare = "Compare two fractions, of whatever kind they are"
        for part in [
                f"of 100] {HEBREW} (decimal): right or wrong?\n  Such as: write 3/4 as 0.75\n",
                f"of 100] {compare} (compare): right or wrong?\n  Right, kept.\n",
                "of 100] add: right or wrong?\n", "  Taken back: add wrong.\n",
                "  Take another task of add, or quit: ",
                f"  Masters: Write over another <denominator> (expand), {compare} (compare).\n"
                f"  Can learn next: {HEBREW} (decimal), add.\n"
                f"  Learned last: {compare} (compare).\n",
                f"lacks {HEBREW} (decimal), add.\n",
                "assess: note: there is a label for gone, and no such item\n"]:
            self.assertIn(part, printed)
        self.assertEqual(self.lines()[1], "reply Ann decimal wrong")
        text = (self.folder / "ann.html").read_text(encoding="utf-8")
        self.assertIn("<li dir=auto>Write over another &lt;denominator&gt;</li>"
                      f"<li dir=auto>{compare}</li></ul>", text)
        self.assertIn(f"<bdi>{HEBREW}</bdi> wrong, <bdi>{compare}</bdi> right, <bdi>add</bdi>",
                      text)
        self.assertNotIn("(decimal)", text)
        tags = Tags()
        tags.feed(text)
        self.assertEqual(tags.stack, [])

    def test_labels_wrap_at_the_width_of_a_terminal(self):
        """Each line has at most its 40 columns, and its words stay whole."""
        (self.folder / "labels.csv").write_text(LABELS, encoding="utf-8")
        main, terminal = pty.openpty()
        running = subprocess.Popen([*ASSESS, "course.txt", "Ann", "--labels", "labels.csv"],
                                   cwd=self.folder, stdin=subprocess.PIPE, stdout=terminal,
                                   env={**os.environ, "COLUMNS": "40", "LC_ALL": "C.UTF-8"})
        running.communicate("".join(f"{it}\n" for it in [*ANN, "y"]).encode())
        os.close(terminal)
        printed = b""
        with open(main, "rb", 0) as shown:
            try:
                while part := shown.read(65536):
                    printed += part
            except OSError:  # all was read
                pass
        printed = printed.decode().replace("\r", "")
        self.assertIn("[1 reply, the leading state has 21 of\n  100] Compare two fractions, of\n"
                      "  whatever kind they are (compare):\n  right or wrong?\n", printed)
        self.assertIn(f"  Can learn next: {HEBREW} (decimal),\n    add.\n", printed)
        self.assertLessEqual(max(map(len, printed.split("\n"))), 40)

    def test_labels_that_are_none(self):
        for text, told in [("item,label\n", "the first record has to name the columns"),
                           ("name,label\na,b\na,c\n", "line 3: a has a label before")]:
            (self.folder / "labels.csv").write_text(text)
            self.assertRegex(self.assess([], "Ann", "--labels", "labels.csv", status=2),
                             rf"^assess: labels.csv[^\n]*{told}[^\n]*\n$")
            self.assertFalse(self.kept.exists())

    def test_names_and_files(self):
        for name in ("Ann Lee", "../Ann", "<b>", "a\nb", "it's", "\"", "", "x" * 41, "\u05d0"):
            self.assertIn("a pupil's name has 1 to 40 of the letters",
                          self.assess([], name, status=2))
        self.assertEqual(sorted(it.name for it in self.folder.iterdir()),
                         ["course.txt", "fractions.json"])
        self.assertIn("nowhere.txt can't be read", self.assess([], script="nowhere.txt", status=2))
        self.assertIn("'pupil Ann' is refused. 15 0: no domain stands. Give the items first",
                      self.assess([], "Ann", "--keep", "k", script="/dev/null", status=1))
        hostile = self.folder / "it's \"a\" <b>\n&.txt"
        hostile.write_text(SPACE)
        self.assess(["r"], script=hostile.name)
        self.assertTrue((self.folder / "it's \"a\" <b>\n&-Ann.txt").exists())

    def test_a_refused_line_has_its_remedy(self):
        (self.folder / "course.txt").write_text(SPACE + "states 1 after 00\n")
        self.assertIn("Line 3 of course.txt, 'states 1 after 00', is refused. 24 length 2: ",
                      self.assess([]))

    def test_one_at_a_time(self):
        running = subprocess.Popen([*ASSESS, "course.txt", "Ann"], cwd=self.folder,
                                   stdin=subprocess.PIPE, stdout=subprocess.PIPE)
        running.stdout.readline()
        self.assertIn("is used by another", self.assess(["r"], status=2))
        running.communicate()

    def test_killed_at_any_moment(self):
        (self.folder / "course.txt").write_text(SPACE + "odds 2 2\nlimits 40 99\n")
        for kill in range(8):
            drawn = random.Random(kill)
            self.kept.unlink() if self.kept.exists() else None
            running = subprocess.Popen([*ASSESS, "course.txt", "Ann"], cwd=self.folder,
                                       stdin=subprocess.PIPE, stdout=subprocess.PIPE)
            running.stdin.write(b"r\nw\nu\n" * 20)
            running.stdin.flush()
            printed = [running.stdout.readline() for _ in range(drawn.randrange(2, 60))]
            time.sleep(drawn.uniform(0, 0.004))
            os.kill(running.pid, signal.SIGKILL)
            printed = (b"".join(printed) + running.communicate()[0]).decode()
            told = printed.count(", kept.") - printed.count("Taken back")
            stands = self.replies("report Ann")[-2].split()[-1]
            self.assertLessEqual(abs(int(stands) - told), 1, printed)
            self.assertTrue(all(it.startswith(("ok", "report", "fringes"))
                                for it in self.replies("report Ann")))

    def test_full_disks_and_a_missing_program(self):
        with open("/dev/full", "w") as full:
            for words in (["course.txt", "Ann"], ["--help"]):
                done = subprocess.run([*ASSESS, *words], input=b"r\n", stdout=full,
                                      stderr=subprocess.PIPE, cwd=self.folder)
                self.assertEqual((done.returncode, done.stderr), (2,
                                 b"assess: standard output can't be written:"
                                 b" No space left on device\n"))
        self.assertFalse(self.kept.exists())  # where nothing can be said, nothing is begun
        self.kept.write_text("#" * 1000 + "\npupil Ann\n")
        before = self.kept.read_text()
        done = subprocess.run(["bash", "-c", 'trap "" XFSZ; ulimit -f 1; exec "$@"', "bash",
                               *ASSESS, "course.txt", "Ann"], input=b"r\n", cwd=self.folder,
                              stdout=subprocess.PIPE, stderr=subprocess.PIPE)
        self.assertEqual(done.returncode, 2)
        self.assertRegex(done.stderr, rb"^assess: [^\n]* can't keep 'reply Ann decimal right'")
        self.assertEqual(self.kept.read_text(), before)
        self.assertRegex(self.assess([], "Ann", "--program", "/nowhere/x", status=3),
                         r"^assess: [^\n]*no program that can be run[^\n]*\n$")
        self.assertIn("can't be written", self.assess(["q"], "Ann", "--sheet", "no/a.html",
                                                      status=2))

    def test_single_keys_at_a_terminal(self):
        main, terminal = pty.openpty()
        running = subprocess.Popen([*ASSESS, "course.txt", "Ann"], cwd=self.folder,
                                   stdin=terminal, stdout=subprocess.PIPE)
        for key, shown in [(b"w", b"decimal: right or wrong?"), (b"y", b"compare: right or"),
                           (b"u", b"compare: right or"), (b"r", b"decimal: right or"),
                           (b"q", b"right or wrong?")]:
            line = running.stdout.readline()
            while shown not in line and line:
                line = running.stdout.readline()
            os.write(main, key)
        printed = running.communicate()[0]
        os.close(main)
        os.close(terminal)
        self.assertIn(b"1 reply of Ann in course-Ann.txt", printed)
        self.assertEqual(self.lines(), ["pupil Ann", "reply Ann decimal wrong", "close Ann",
                                        "pupil Ann", "reply Ann decimal right"])


if __name__ == "__main__":
    unittest.main()
