"""What the tests of `report` share: a run in a folder of its own, and a page that is read back."""
import html.parser
import re
import subprocess
import sys
import tempfile
import unittest
from pathlib import Path

import given  # noqa: F401

TOP = Path(__file__).resolve().parents[2]
SAMPLES = TOP / "samples"
VOID = {"meta", "br"}
CHAIN = "items a b c\nyes a : b\nyes b : c\n"  # its states: {}, a, a b, a b c


class Page(html.parser.HTMLParser):
    """The tables of a page by their heading: rows of cells, each its text and its class."""

    def __init__(self, text):
        super().__init__()
        self.stack, self.tables, self.heading, self.cell = [], {}, "", None
        self.feed(text)
        self.close()
        if self.stack:
            raise AssertionError(f"{self.stack} aren't closed")

    def handle_starttag(self, tag, attributes):
        self.stack += [] if tag in VOID else [tag]
        if tag == "h2":
            self.heading = ""
        if tag == "table":
            self.tables[self.heading] = []
        if tag == "tr":
            self.tables[self.heading].append([])
        if tag in ("th", "td"):
            self.cell = ["", dict(attributes).get("class", "")]
            self.tables[self.heading][-1].append(self.cell)

    def handle_endtag(self, tag):
        if self.stack.pop() != tag:
            raise AssertionError(f"{tag} ends another")
        if tag in ("th", "td"):
            self.cell = None

    def handle_data(self, data):
        if self.stack and self.stack[-1] == "h2":
            self.heading += data
        if self.cell:
            self.cell[0] += data

    def texts(self, heading):
        return [[text for text, _ in row] for row in self.tables[heading][1:]]


class Report(unittest.TestCase):
    def setUp(self):
        kept = tempfile.TemporaryDirectory()
        self.addCleanup(kept.cleanup)
        self.folder = Path(kept.name)

    def report(self, *words, status=0, **more):
        done = subprocess.run([sys.executable, str(TOP / "tools/report"), *words], **more,
                              cwd=self.folder, stdout=subprocess.PIPE, stderr=subprocess.STDOUT)
        self.assertEqual(done.returncode, status, done.stdout.decode())
        return done.stdout.decode()

    def page(self, *words):
        self.text = self.report(*words, "--out", "-")
        return Page(self.text)

    def write(self, name, text):
        (self.folder / name).write_text(text, encoding="utf-8")
        return self.folder / name

    def sheets(self):
        """The sheets, each in one element that is closed."""
        text = (self.folder / "sheets.html").read_text(encoding="utf-8")
        Page(text[text.index("<section>"):text.index("</html>")])
        return re.findall("<section>.*?</section>", text, flags=re.S)
