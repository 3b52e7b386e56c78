"""What the tests of pictures share: the companion run in a folder, and its input of dot read."""
import re
import subprocess
import sys
import tempfile
import unittest
from pathlib import Path

import given  # noqa: F401

TOP = Path(__file__).resolve().parents[2]


def boxes(text):
    """Each box of a state, an item or a base set with its words and what it looks like."""
    found = re.findall(r'^  "([^"+]+)" \[label="([^"]*)"(.*)\];$', text, flags=re.M)
    return {name: (label.replace("\\n", " "), kind_of(look)) for name, label, look in found}


def kind_of(look):
    looks = {"class=path": "path", "peripheries=2": "state", "dashed": "dashed",
             "penwidth=2.6": "thick"}
    return next((kind for sign, kind in looks.items() if sign in look), "")


def lines(text):
    """Each line of a picture of states: from where, by which items, where to, and how it looks."""
    words = dict(re.findall(r'^  "([^"]*\+[^"]*)" \[label="([^"]*)"', text, flags=re.M))
    found = re.findall(r'^  "(\w+)" -> "([^"]+)" -> "(\w+)"(.*);$', text, flags=re.M)
    return [(low, words[middle], high, kind_of(look)) for low, middle, high, look in found]


def title(text):
    return re.search(r'graph \[label="([^"]*)"', text)[1].replace("\\l", " ").strip()


class Draw(unittest.TestCase):
    def setUp(self):
        kept = tempfile.TemporaryDirectory()
        self.addCleanup(kept.cleanup)
        self.folder = Path(kept.name)

    def draw(self, *words, status=0):
        """What the companion prints, and what it says on standard error."""
        done = subprocess.run([sys.executable, str(TOP / "tools/draw"), *words], cwd=self.folder,
                              stdout=subprocess.PIPE, stderr=subprocess.PIPE)
        self.assertEqual(done.returncode, status, done.stderr.decode())
        return done.stdout.decode(), done.stderr.decode()

    def dot(self, script, *words):
        """The input of dot for a script that is given by its lines."""
        (self.folder / "script").write_text(script)
        return self.draw("script", "--dot", *words)[0]

    def refused(self, script, *words, status=1):
        (self.folder / "script").write_text(script)
        printed, told = self.draw("script", "--dot", *words, status=status)
        self.assertEqual(printed, "")
        return told
