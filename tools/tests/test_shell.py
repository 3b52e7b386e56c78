"""What the shell takes, completes, explains and keeps; at a terminal it is tried by a pty."""
import os
import pty
import random
import re
import select
import signal
import stat
import subprocess
import sys
import tempfile
import time
import unittest
from pathlib import Path

TOP = Path(__file__).resolve().parents[2]
sys.path.insert(0, str(TOP / "tools/tests"))
from given import PROGRAM
import typed

SHELL = [sys.executable, str(TOP / "tools/shell")]
HOSTILE = ["it's \"quoted\" <b>&amp;</b>", "$(touch owned); `touch owned`", "\x1b[31mred",
           "a\tb\x00c", "items \xfc\u05d0", "keep", "keep a:b", "help <b>", "help help", "|", ":", "no",
           "quit now", "{a b}", "no {a b", "yes : : :", "state-of | | a", "close nobody", "open ../x"]


class Shells(unittest.TestCase):
    def setUp(self):
        kept = tempfile.TemporaryDirectory()
        self.addCleanup(kept.cleanup)
        self.folder = Path(kept.name)
        self.places = {**os.environ, "XDG_STATE_HOME": str(self.folder / "state"), "TERM": "xterm"}
        self.places.pop("NO_COLOR", None)

    def shell(self, lines, *words, status=0, **more):
        done = subprocess.run([*SHELL, *words], cwd=self.folder, env=self.places,
                              input="".join(it + "\n" for it in lines).encode(),
                              stdout=subprocess.PIPE, stderr=subprocess.PIPE, timeout=60, **more)
        printed = (done.stdout + done.stderr).decode()
        self.assertEqual(done.returncode, status, printed)
        self.assertNotIn("Traceback", printed)
        return printed


class Lines(Shells):
    def test_replies_are_the_programs_own(self):
        for sample in ("fractions.txt", "curriculum.txt", "starts.txt", "assessment.txt"):
            lines = (TOP / "samples" / sample).read_text().splitlines()
            done = subprocess.run([*SHELL], input="\n".join(lines).encode(), cwd=TOP / "samples",
                                  env=self.places, stdout=subprocess.PIPE)
            whole = subprocess.run([PROGRAM], input="\n".join(lines).encode(),
                                   cwd=TOP / "samples", stdout=subprocess.PIPE)
            self.assertEqual(done.stdout, whole.stdout, sample)

    def test_each_refusal_has_its_sentence_and_remedy(self):
        told = self.shell(["items expand decimal compare", "states 1 after 1",
                           "yes expnd : compare", "stats", "yes expand", "test nowhere", "report Ann"], status=1)
        for part in [
                "no 24 spare\n  The last digit of the cursor stands for an item that isn't there."
                " Cursors of 3 items are 0 to e. Take one that `states` or another listing"
                " printed.", "Do you mean expand? Spell it as in",
                "no 10 1\n  The line is no command. Do you mean states or start",
                "Something is missing at its end. The form is: yes NAME .. : NAME.",
                "There is no file 'nowhere'. Look where",
                "There is no pupil 'Ann'. Begin the pupil by `pupil`"]:
            self.assertIn(part, told)
        self.assertNotIn("\x1b", told)
        self.assertNotIn("lspace>", told)

    def test_a_word_that_keeps_no_rule(self):
        told = self.shell(["items \u00fcber a", "items a b", "states 65537", "states \u00b2",
                           "save .x", "yes a | b"], status=1)
        self.assertIn("Word 2 is '\u00fcber', and a name has 1 to 40 of the letters a to z", told)
        self.assertIn("Word 2 is '65537', and a count is a number from 0 to 65536.", told)
        self.assertIn("Word 2 is '\u00b2', and a count", told)
        self.assertIn("Word 2 is '.x', and a file's name has 1 to 64 of", told)
        self.assertIn("Word 3 is '|'. The form is", told)

    def test_help(self):
        told = self.shell(["help", "help yes", "help state-of", "help zzz"])
        for command in re.findall(r"^\| `([a-z-]+)", (TOP / "docs/COMMANDS.md").read_text()
                                  .split("\n## Lines")[0], re.M):
            self.assertRegex(told, rf"(?m)^  {command}\b")
        self.assertIn("  yes NAME .. : NAME\nReply: `ok NUMBER`, the answer's number", told)
        self.assertIn("says: a pupil who fails `a` and `b` also fails `c`.", told)
        self.assertIn("  20  the answer is No, and the standing answers tell Yes", told)
        self.assertIn("  state-of NAME .. | NAME ..\n", told)
        self.assertIn("The program has no command 'zzz'.", told)

    def test_each_command_has_a_section(self):
        names = {it.split()[0] for it in self.shell(["help"]).splitlines() if it.startswith("  ")}
        self.assertGreater(len(names), 35)
        told = self.shell([f"help {name}" for name in sorted(names)])
        self.assertEqual(len(re.findall(r"^Reply: .*\n\n.{30}", told, re.M)), len(names))

    def test_keep_and_go_on(self):
        told = self.shell(["# mine", "items a b", "states", "yes a b", "yes a : b", "pupil Ann",
                           "question Ann", "keep first.txt", "no b : a", "base"], status=1)
        self.assertIn("In first.txt there are 4 lines, and those that come.", told)
        kept = "# mine\nitems a b\nyes a : b\npupil Ann\nno b : a\n"
        self.assertEqual((self.folder / "first.txt").read_text(), kept)
        told = self.shell(["retract 2", "keep first.txt", "keep x/y"], "first.txt")
        self.assertIn("first.txt is there already", told)
        self.assertIn("x/y can't be written", told)
        self.assertEqual((self.folder / "first.txt").read_text(), kept + "retract 2\n")

    def test_refused_lines_of_the_script_are_told(self):
        (self.folder / "s").write_text("items a\nfoo\n")
        self.assertIn("Line 2 of s, 'foo':\nno 10 1\n", self.shell([], "s"))

    def test_completion(self):
        class Session:
            def say(self, line):
                return ["set e {add sub mul}", "more yes"]
        (self.folder / "start.json").write_text("{}")
        (self.folder / ".hidden").write_text("")
        (self.folder / "a b").write_text("")
        it = typed.Typed(Session(), self.folder)
        it.follow("items add sub mul", ["ok 3"])
        it.follow("pupil Ann", ["ok 8"])
        it.follow("states 1", ["set e {add sub mul}", "more yes"])
        for before, words in [
                ("yes ", ["add", "sub", "mul"]), ("yes add ", [":", "add", "sub", "mul"]),
                ("yes add:", ["add", "sub", "mul"]), ("yes add : sub ", []), ("reply ", ["Ann"]),
                ("reply Ann ", ["add", "sub", "mul"]), ("reply Ann sub ", ["right", "wrong"]),
                ("start ", ["base", "relation", "surmise"]), ("start base ", ["start.json"]),
                ("states 5 ", ["after"]), ("states 5 after ", ["e"]), ("pupil ", []),
                ("skills any start.json 9 ", ["after"]),
                ("state-of add ", ["add", "sub", "mul", "|"]),
                ("foo ", []), ("keep ", ["start.json"]), ("items ", [])]:
            self.assertEqual(sorted(it.following(before)), sorted(words), before)
        self.assertIn("load-items", it.following(""))
        self.assertIn("safe", it.following("help "))

    def test_labels(self):
        """Sentences stand behind replies that name items, and only where there are labels."""
        hebrew = "\u05d7\u05d9\u05d1\u05d5\u05e8"
        (self.folder / "labels.csv").write_text(
            f"name,label,task\nadd,{hebrew},\nsub,Subtract,\nmul,,2 x 3\ngone,Nothing,\n",
            encoding="utf-8")
        lines = ["items add sub mul", "ask", "yes add : sub", "known add mul : sub",
                 "no sub : mul", "known sub : mul", "known mul : add", "blocks 2", "pupil Ann",
                 "question Ann", "report Ann", "limits 1 99", "pupil Bea", "reply Bea mul right",
                 "question Bea", "known add : add"]
        told = self.shell(lines, "--labels", "labels.csv", status=1)
        self.assertIn("shell: note: there is a label for gone, and no such item\n", told)
        self.assertEqual(re.findall(r"^(.*)\n  (\S.*)$", told, re.M)[:6], [
            ("ask add : sub", f"Would a pupil who fails {hebrew} (add) also fail Subtract (sub)?"),
            ("known yes", f"By the answers, a pupil who fails all of {hebrew} (add), mul also fails"
                          " Subtract (sub)."),
            ("known no 2", "By the answers, some pupil fails Subtract (sub) and masters mul."),
            ("known open", "The answers leave open whether a pupil who fails mul also fails"
                           f" {hebrew} (add)."),
            ("question mul", "Give Ann a task of mul, such as: 2 x 3"),
            ("fringes sub mul |", f"The heaviest state of Ann: {hebrew} (add), Subtract (sub), mul."
                                  " Learned last: Subtract (sub), mul. Can learn next: nothing.")])
        self.assertIn("\nover budget\nno 18\n", told)
        plain = self.shell(lines, status=1)
        self.assertEqual(plain.count("\n  "), 1)  # of the refusal

    def test_labels_of_a_script(self):
        (self.folder / "labels.csv").write_text("name,label\na,First\nb,Second\nc,Third\n")
        (self.folder / "s").write_text("items a b\n")
        told = self.shell(["ask"], "s", "--labels", "labels.csv")
        self.assertIn("who fails First (a) also fail Second (b)?", told)
        self.assertEqual(told.count("a label for c, and no such item"), 1)


class Ends(Shells):
    def test_hostile_lines(self):
        told = self.shell(["items a b", *HOSTILE, "states 1"], status=1)
        self.assertTrue(told.endswith("set c {a b}\nmore yes\n"), told)
        self.assertNotIn("owned", [it.name for it in self.folder.iterdir()])

    def test_hostile_saved_session(self):
        """A file that another program changes behind the shell's back."""
        (self.folder / "bad").write_text("[" * 5000)
        it = typed.Typed(None, self.folder)
        for text in ("[" * 9000, "{}", '{"pupils": [1]}', '{"pupils": 3}', "\xff"):
            (self.folder / "bad").write_text(text)
            self.assertEqual(it.saved_pupils("bad"), [])

    def test_a_full_disk(self):
        with open("/dev/full", "w") as full:
            for words in ([], ["--help"]):
                done = subprocess.run([*SHELL, *words], input=b"items a\n", stdout=full,
                                      stderr=subprocess.PIPE, env=self.places, cwd=self.folder)
                self.assertEqual(done.stderr, b"shell: standard output can't be written:"
                                              b" No space left on device\n")
        (self.folder / "s").write_text("#" * 1019 + "\n")
        done = subprocess.run(["bash", "-c", 'trap "" XFSZ; ulimit -f 1; exec "$@"', "bash", *SHELL,
                               "s"], input=b"items a b\nyes a : b\nkeep t\n", cwd=self.folder,
                              env=self.places, stdout=subprocess.PIPE, stderr=subprocess.PIPE)
        self.assertEqual((done.returncode, done.stderr), (2, b""))
        self.assertIn(b"s can't keep 'items a b': ", done.stdout)
        self.assertRegex(done.stdout, b"ok 2\nok 1\n  [^\n]*t can't be written: File too large")
        self.assertEqual(list(self.folder.iterdir()), [self.folder / "s"])
        self.assertEqual((self.folder / "s").read_text(), "#" * 1019 + "\n")

    def test_a_missing_program(self):
        told = self.shell([], "--program", "/nowhere/lspace", status=3)
        self.assertRegex(told, r"^shell: .*no program that can be run[^\n]*\n$")
        (self.folder / "ends").write_text("#!/bin/sh\nread line\nexit 6\n")
        (self.folder / "ends").chmod(0o755)
        self.assertEqual(self.shell(["items a"], "--program", "./ends", status=3),
                         "shell: the program ended before it had replied: memory ran out\n")

    def test_killed_at_any_moment(self):
        """What was told as done is in the script."""
        for kill in range(8):
            drawn = random.Random(kill)
            script = self.folder / f"s{kill}"
            running = subprocess.Popen([*SHELL, script.name], cwd=self.folder, env=self.places,
                                       stdin=subprocess.PIPE, stdout=subprocess.PIPE)
            running.stdin.write(b"items a b c\n" + b"pupil p\nclose p\n" * 100)
            running.stdin.flush()
            printed = [running.stdout.readline() for _ in range(drawn.randrange(1, 150))]
            time.sleep(drawn.uniform(0, 0.004))
            os.kill(running.pid, signal.SIGKILL)
            printed = b"".join(printed) + running.communicate()[0]
            told, kept = printed.count(b"ok"), script.read_text().splitlines()
            self.assertLessEqual(told, len(kept))
            self.assertLessEqual(len(kept), told + 2)
            self.assertEqual(kept, (["items a b c"] + ["pupil p", "close p"] * 100)[:len(kept)])

    def test_signals(self):
        for number in (signal.SIGTERM, signal.SIGHUP, signal.SIGINT):
            running = subprocess.Popen([*SHELL], stdin=subprocess.PIPE, stdout=subprocess.PIPE,
                                       stderr=subprocess.PIPE, env=self.places, cwd=self.folder)
            running.stdin.write(b"items a\n")
            running.stdin.flush()
            running.stdout.readline()
            running.send_signal(number)
            self.assertEqual(running.wait(30), 128 + number)
            self.assertEqual(running.communicate()[1], b"")


class Terminals(Shells):
    """The shell behind a terminal of its own."""

    def begin(self, *words):
        self.child, self.terminal = pty.fork()
        if self.child == 0:
            os.chdir(self.folder)
            os.execve(sys.executable, [*SHELL, *words], self.places)
        self.addCleanup(os.close, self.terminal)
        return self.until(b"lspace> ")

    def until(self, wanted):
        """What is shown until it has the wanted pattern."""
        shown, end = b"", time.time() + 30
        while not re.search(wanted, shown, re.S):
            ready = select.select([self.terminal], [], [], max(0, end - time.time()))[0]
            self.assertTrue(ready, shown)
            try:
                shown += os.read(self.terminal, 4096)
            except OSError:
                self.fail(shown)
        return shown

    def type(self, keys, wanted):
        """What is shown for these keys, up to the next prompt."""
        return self.show(keys, re.escape(wanted) + b".*lspace> ")

    def show(self, keys, wanted):
        os.write(self.terminal, keys)
        return self.until(wanted)

    def status(self):
        return os.waitpid(self.child, 0)[1] >> 8

    def test_a_script_with_items(self):
        (self.folder / "s.txt").write_text("items add sub\n")
        self.assertIn(b"The items: add, sub\r\n", self.begin("s.txt"))
        os.write(self.terminal, b"quit\r")
        self.assertEqual(self.status(), 0)

    def test_a_session(self):
        self.assertIn(b"Begin with the items", self.begin())
        self.type(b"it\tadd sub mul\r", b"ok 3")
        self.type(b"yes a\t: s\t\r", b"ok 1")
        self.type(b"stats\r", b"\x1b[31mno 10 1\x1b[0m")
        self.show(b"yes add : mul\x03", b"lspace> ")  # the line is dropped, and the session stays
        self.type(b"known add : mul\r", b"known open")
        os.write(self.terminal, b"quit\r")
        self.assertEqual(self.status(), 0)
        history = self.folder / "state/lspace/history"
        self.assertEqual(history.read_text().splitlines(), [
            "items add sub mul", "yes add : sub ", "stats", "known add : mul", "quit"])
        self.assertEqual(stat.S_IMODE(history.stat().st_mode), 0o600)
        self.begin()
        self.show(b"\x1b[A\x1b[A", b"known add : mul")  # of the session before
        self.type(b"\r", b"no 15 0")
        os.write(self.terminal, b"\x04")
        self.assertEqual(self.status(), 0)

    def test_control_and_c_while_the_program_is_at_work(self):
        slow = self.folder / "slow"
        slow.write_text("#!/bin/sh\nread line; sleep 1; echo no 15 0; read line\n")
        slow.chmod(0o755)
        self.begin("--program", str(slow))
        os.write(self.terminal, b"states\r")
        time.sleep(0.5)
        shown = self.show(b"\x03", b"lspace> ")
        self.assertIn(b"Still at work", shown)
        self.assertIn(b"no 15 0", shown)
        os.write(self.terminal, b"quit\r")
        self.assertEqual(self.status(), 0)

    def test_no_colours_where_they_are_not_wanted(self):
        self.places["NO_COLOR"] = "1"
        self.begin("--no-history")
        self.assertNotIn(b"\x1b[31m", self.type(b"foo\r", b"Take one of"))
        os.write(self.terminal, b"\x04")
        self.assertEqual(self.status(), 0)
        self.assertFalse((self.folder / "state").exists())

    def test_long_labels_wrap(self):
        (self.folder / "labels.csv").write_text(
            f"name,label\na,{'many words ' * 8}\nb,{'x' * 70}\n")
        self.places["COLUMNS"] = "60"
        self.begin("--labels", "labels.csv")
        self.type(b"items a b\r", b"ok 2")
        shown = self.type(b"ask\r", b"ask a : b").decode().replace("\r", "")
        self.assertIn("\n  Would a pupil who fails many words many words many words\n"
                      "    many words many words many words many words many words\n"
                      f"    (a) also fail\n    {'x' * 70}\n    (b)?\n", shown)
        os.write(self.terminal, b"quit\r")
        self.assertEqual(self.status(), 0)

    def test_a_history_that_cannot_be_kept(self):
        (self.folder / "state").write_text("no folder")
        self.begin()
        self.type(b"items a\r", b"ok 1")
        os.write(self.terminal, b"quit\r")
        self.assertEqual(self.status(), 0)

    def test_a_signal_puts_the_terminal_back(self):
        import termios
        self.begin()
        time.sleep(0.2)
        os.kill(self.child, signal.SIGTERM)
        self.assertEqual(self.status(), 128 + signal.SIGTERM)
        self.assertTrue(termios.tcgetattr(self.terminal)[3] & termios.ECHO)


if __name__ == "__main__":
    unittest.main()
