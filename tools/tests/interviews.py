"""What the tests of interviews share: interviews by lines, and at a terminal of a test's own."""
import os
import pty
import subprocess
import sys
import tempfile
import termios
import threading
import unittest
from pathlib import Path

TOP = Path(__file__).resolve().parents[2]
sys.path.insert(0, str(TOP / "tools/tests"))
from given import PROGRAM

INTERVIEW = [sys.executable, str(TOP / "tools/interview")]
ITEMS = "expand decimal compare add"
# The answers of the guide on fractions, in the order in which they are asked with blocks of 1.
GUIDE = ["no expand : decimal", "no expand : compare", "yes expand : add", "no decimal : expand",
         "no decimal : compare", "no decimal : add", "no compare : expand", "no compare : decimal",
         "yes compare : add"]
KEYS = [line[0] for line in GUIDE]


class ByLines(unittest.TestCase):
    def setUp(self):
        kept = tempfile.TemporaryDirectory()
        self.addCleanup(kept.cleanup)
        self.folder = Path(kept.name)
        self.script = self.folder / "first.txt"

    def interview(self, keys, *words, items=ITEMS, status=0):
        """What an interview prints that gets these lines."""
        given = ["--items", *items.split()] if items and not self.script.exists() else []
        done = subprocess.run([*INTERVIEW, "first.txt", *given, *words], cwd=self.folder,
                              input="".join(key + "\n" for key in keys), stdout=subprocess.PIPE,
                              stderr=subprocess.STDOUT, universal_newlines=True)
        self.assertEqual(done.returncode, status, done.stdout)
        return done.stdout

    def lines(self):
        return self.script.read_text().splitlines()

    def replies(self):
        """What the program replies to the script as it stands."""
        with open(self.script) as script:
            done = subprocess.run([PROGRAM], stdin=script, cwd=self.folder, stdout=subprocess.PIPE)
        return done.stdout.decode().splitlines()


class ByKeys(unittest.TestCase):
    """Single keys, at a terminal of the test's own."""

    def setUp(self):
        kept = tempfile.TemporaryDirectory()
        self.addCleanup(kept.cleanup)
        self.script = Path(kept.name) / "first.txt"
        self.main, self.terminal = pty.openpty()
        self.addCleanup(os.close, self.terminal)
        self.before = termios.tcgetattr(self.terminal)

    def start(self):
        self.script.unlink() if self.script.exists() else None
        self.running = subprocess.Popen([*INTERVIEW, "first.txt", "--items", *ITEMS.split()],
                                        cwd=self.script.parent, stdin=self.terminal,
                                        stdout=subprocess.PIPE, stderr=subprocess.PIPE,
                                        preexec_fn=os.setpgrp)  # a job, that can be stopped
        self.addCleanup(self.running.communicate)
        self.addCleanup(self.running.kill)
        patience = threading.Timer(60, self.running.kill)  # so that nothing waits without end
        patience.start()
        self.addCleanup(patience.cancel)
        self.wait_for(b"fail decimal?")

    def wait_for(self, shown):
        line = b"."
        while line and shown not in line:
            line = self.running.stdout.readline()
        self.assertIn(shown, line)

    def press(self, key, shown):
        os.write(self.main, key)
        self.wait_for(shown)

    def is_as_before(self):
        return termios.tcgetattr(self.terminal) == self.before

    def ends(self, status):
        """That the interview ends so, says nothing of it, and leaves the terminal as it was."""
        said = self.running.communicate(timeout=20)[1]
        self.assertEqual((self.running.returncode, said), (status, b""))
        self.assertTrue(self.is_as_before())

    def lines(self):
        return self.script.read_text().splitlines()
