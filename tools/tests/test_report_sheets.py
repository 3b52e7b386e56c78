"""What the sheets of a class show, and the labels on them and on the page."""
import os
import re
import shutil
import subprocess
import sys
import unittest
from pathlib import Path

sys.path.insert(0, str(Path(__file__).resolve().parent))
from reports import CHAIN, SAMPLES, TOP, Report

HEBREW = "צמצום שברים (8/12)"
LONG = "Donaudampfschifffahrtsgesellschaftskapitänsmützenbruchteil " * 3


class Sheets(Report):
    def test_sheets(self):
        """One for each pupil, of the class and of the script. Eva's `add` was a lucky guess."""
        self.write("s", (SAMPLES / "fractions.txt").read_text() + "\npupil Zoe\n")
        printed = self.report("s", SAMPLES / "class.csv", "--sheets", "sheets.html")
        self.assertTrue(printed.endswith("sheets.html: 6 sheets\n"))
        ann, *_, eva, zoe = self.sheets()
        for part in ["<h1 dir=auto>Ann</h1>\n<p>This is how you stand, by the replies to 6 ",
                     "<h2>You master</h2><ul class=mastered><li dir=auto>expand</li>",
                     "<h2>You can learn next</h2><ul class=next><li dir=auto>decimal</li>",
                     "look at these again</h2><ul class=last><li dir=auto>compare</li></ul>"]:
            self.assertIn(part, ann)
        self.assertNotIn("in the test", ann)
        self.assertIn("<h2>Right in the test, though you may not master it yet: look again</h2>"
                      "<ul class=last><li dir=auto>add</li></ul>", eva)
        self.assertIn("<p class=warn>The likeliest after 0 questions, with 11 of 100.", zoe)

    def test_sheets_are_uncertain_by_budget(self):
        self.write("s", "items a b c\nlimits 3 90\n")
        self.report("s", self.write("t.csv", "who,a,b,c\nAnn,1,1,0\n"), "--sheets", "sheets.html")
        self.assertIn("<p class=warn>UNCERTAIN: this is the likeliest after 3 questions",
                      self.sheets()[0])

    @unittest.skipUnless(shutil.which("dot"), "dot isn't found")
    def test_a_small_picture_of_the_base(self):
        """Five ways; Ann masters expand, learned compare last, and can learn decimal or add."""
        self.report(SAMPLES / "fractions.txt", SAMPLES / "class.csv", "--sheets", "sheets.html")
        sheets = self.sheets()
        self.assertEqual([it.count("<figure><svg") for it in sheets], [1] * 5)
        words = re.findall("<text[^>]*>([^<]*)</text>", sheets[0])
        self.assertEqual(sorted(words), ["add", "compare", "compare", "decimal", "expand"])
        self.assertEqual(sheets[0].count('fill="#1f4e79"'), 1)
        self.assertEqual(sheets[0].count("stroke-dasharray"), 1)
        self.assertEqual(sheets[0].count('fill="#d2ecd0"'), 2)
        self.assertNotIn(" id=", "".join(sheets))

    def test_sheets_without_dot(self):
        """One note tells it, also where dot fails."""
        (self.folder / "bin").mkdir()
        words = [SAMPLES / "fractions.txt", SAMPLES / "class.csv", "--sheets", "sheets.html"]
        for told in ("`dot` isn't found", "`dot` failed"):
            printed = self.report(*words, env={**os.environ, "PATH": str(self.folder / "bin")})
            self.assertEqual(printed.count("note: "), 1)
            self.assertIn(told, printed)
            self.assertNotIn("<figure>", "".join(self.sheets()))
            self.write("bin/dot", "#!/bin/sh\nexit 1\n").chmod(0o755)

    def test_a_base_that_is_too_large_for_a_picture(self):
        names = [f"a{n}" for n in range(31)]
        pairs = [f"yes {low} : {high}" for low, high in zip(names, names[1:])]
        self.write("s", "\n".join(["items " + " ".join(names), *pairs]))
        table = self.write("t.csv", f"who,{','.join(names)}\nAnn{',1' * 31}\n")
        printed = self.report("s", table, "--sheets", "sheets.html")
        self.assertIn("note: the base is too large for a small picture", printed)
        self.assertNotIn("<figure>", self.sheets()[0])

    def test_sheets_of_any_names(self):
        names = ['<b>"A" & \'B\'', "A\x1b[2J\nB"]
        self.write("s", "items a\n")
        rows = "".join('"' + name.replace('"', '""') + '",1\n' for name in names)
        self.report("s", self.write("t.csv", "who,a\n" + rows), "--sheets", "sheets.html",
                    "--sort", "table", "--title", "<i>")
        first, second = self.sheets()
        self.assertIn("<h1 dir=auto>&lt;b&gt;&quot;A&quot; &amp; &#x27;B&#x27;</h1>", first)
        self.assertIn("<footer>&lt;i&gt;. By lspace.", second)
        table = self.write("t.csv", "who,a\n" + rows.split("\n", 1)[1] * 2)
        self.assertNotIn("\x1b", self.report("s", table, status=2))

    def test_labels(self):
        """Long ones may be broken, and those in another direction stand alone."""
        self.write("s", CHAIN + "pupil Zoe\n")
        self.write("labels.csv", f"name,label\na,{LONG}\nb,{HEBREW}\nc,<b> & &lt;\ngone,x\n")
        printed = self.report("s", self.write("t.csv", "who,a,b,c\nAnn,1,1,0\n"), "--labels",
                              "labels.csv", "--sheets", "sheets.html")
        self.assertIn("note: there is a label for gone, and no such item", printed)
        page = (self.folder / "t.html").read_text(encoding="utf-8")
        for part in [f"<bdi class=long>{LONG.strip()}</bdi>", f"<bdi class=name>{HEBREW}</bdi>",
                     "<bdi class=name>&lt;b&gt; &amp; &amp;lt;</bdi>",
                     f"is asked <bdi class=name>{HEBREW}</bdi> next"]:
            self.assertIn(part, page)
        sheet = self.sheets()[0]
        self.assertIn(f"<li dir=auto>{HEBREW}</li>", sheet)
        if shutil.which("dot"):
            self.assertIn(">&lt;b&gt; &amp; &amp;lt;</text>", sheet)
            self.assertIn(">\u2067" + HEBREW.split(" (", maxsplit=1)[0], sheet)

    def test_writes_that_fail(self):
        """The page and the sheets that stand stay as they are, and nothing stands beside them."""
        self.write("s", "items a b\n")
        self.write("t.csv", "pupil,a,b\nAnn,1,0\n")
        for name in ("t.html", "sheets.html"):
            self.write(name, "precious")
        before = {it.name: it.read_bytes() for it in self.folder.iterdir()}
        limited = ["bash", "-c", 'ulimit -f 1; exec "$@"', "bash", sys.executable,
                   str(TOP / "tools/report"), "s", "t.csv", "--sheets", "sheets.html"]
        done = subprocess.run(limited, cwd=self.folder, capture_output=True, check=False)
        self.assertEqual(done.returncode, 2)
        self.assertIn(b"report: sheets.html can't be written: File too large\n", done.stderr)
        for place, told in [("/dev/full", "No space left on device"), ("no/x", "No such file"),
                            (".", "it names no file"), ("-", "--sheets needs a file"),
                            ("t.csv", "is another file of"), ("./t.html", "is another file of")]:
            self.assertIn(told, self.report("s", "t.csv", "--sheets", place, status=2))
        self.assertEqual({it.name: it.read_bytes() for it in self.folder.iterdir()}, before)


if __name__ == "__main__":
    unittest.main()
