"""What the page of a class shows."""
import os
import re
import sys
import unittest
from pathlib import Path

sys.path.insert(0, str(Path(__file__).resolve().parent))
from reports import CHAIN, SAMPLES, Report


class Reports(Report):
    def test_the_class_of_the_guide(self):
        """The states, fringes and counts of the five pupils, worked by hand."""
        page = self.page(SAMPLES / "fractions.txt", SAMPLES / "class.csv")
        # the last column tells why it was over, and the one before how many questions were asked
        self.assertEqual(page.texts("Pupils"), [
            ["Ann", "2 of 4", "compare", "decimal, add", "6", "share"],
            ["Bea", "2 of 4", "compare", "expand", "5", "share"],
            ["Cid", "1 of 4", "decimal", "expand, compare", "6", "share"],
            ["Dan", "4 of 4", "decimal, add", "–", "6", "share"],
            ["Eva", "0 of 4", "–", "expand, decimal", "5", "share"]])
        self.assertEqual([row[:2] + row[3:] for row in page.texts("Who is ready for what")], [
            ["expand", "3", "Bea, Cid, Eva"], ["decimal", "2", "Ann, Eva"],
            ["compare", "1", "Cid"], ["add", "1", "Ann"]])
        self.assertIn("Master all items: <bdi class=name>Dan</bdi>.", self.text)
        self.assertEqual(page.texts("Items"), [
            ["decimal", "3", "", "2", "3", "0", "0"], ["compare", "3", "", "1", "3", "0", "0"],
            ["expand", "2", "", "3", "2", "0", "0"], ["add", "1", "", "1", "2", "0", "1"]])
        self.assertIn("5 pupils, 4 items, 5 states among them, 5 to 6 questions each, "
                      "5 ended by share, 0 by budget.", self.text)

    def test_the_states_of_the_class(self):
        """Eva's `add` is right in the table, and not in her state."""
        page = self.page(SAMPLES / "fractions.txt", SAMPLES / "class.csv")
        kinds = {row[0][0]: [kind for _, kind in row[1:]] for row in
                 page.tables["Who stands where"][1:]}
        self.assertEqual(kinds, {
            "Ann": ["mastered", "ready", "last", "ready", "number"],
            "Bea": ["ready", "mastered", "last", "later", "number"],
            "Cid": ["ready", "last", "ready", "later", "number"],
            "Dan": ["mastered", "last", "mastered", "last", "number"],
            "Eva": ["ready", "ready", "later", "later odd", "number"]})

    def test_orders(self):
        self.write("s", "items a b\n")
        table = self.write("t.csv", "who,b,a\nzoe,1,0\nBob,1,1\nann,0,1\ncid,0,1\n")
        for order, names in [("name", "ann Bob cid zoe"), ("state", "Bob ann cid zoe"),
                             ("table", "zoe Bob ann cid")]:
            page = self.page("s", table, "--sort", order)
            self.assertEqual([row[0] for row in page.texts("Pupils")], names.split())

    def test_limits_of_the_script_hold(self):
        self.write("s", "items a b c\nyes a : b\nlimits 3 90\n")
        table = self.write("t.csv", "pupil,c,a,b\nann,1,1,0\nbob,0,0,0\n")
        page = self.page("s", table)
        self.assertEqual([row[4:] for row in page.texts("Pupils")], [["3", "budget"]] * 2)
        self.assertIn("0 ended by share, 2 by budget", self.text)

    def test_names_of_any_signs_are_escaped(self):
        names = ['<script>alert("x")</script>', "Tom & Jerry", "Zoë O'Hara \"Z\"", "a,b"]
        self.write("s", "items a b\n")
        quoted = ['"' + name.replace('"', '""') + '",1,0\n' for name in names]
        table = self.write("any name.csv", "pupil,a,b\n" + "".join(quoted))
        page = self.page("s", table, "--title", '<b>"T" & U', "--sort", "table")
        self.assertEqual([row[0] for row in page.texts("Pupils")], names)
        self.assertIn("<h1>&lt;b&gt;&quot;T&quot; &amp; U</h1>", self.text)
        for wrong in ["<script", "<b>\"T\"", "Tom & Jerry", "\"Z\""]:
            self.assertNotIn(wrong, self.text)

    def test_the_page_needs_no_network(self):
        self.page(SAMPLES / "grade.txt", SAMPLES / "grade.csv")
        self.assertIsNone(re.search(r"https?:|//|@import|url\(|<link|<script|src=", self.text))

    def test_pupils_of_the_script(self):
        """The reports of the README: Cid's stands at 1024 of 1386, more than 73 in a hundred."""
        page = self.page(SAMPLES / "assessment.txt")
        self.assertEqual(page.texts("Assessed one by one"), [
            ["Ann", "expand, compare", "92 %", "compare", "decimal, add", "6", "taken away"],
            ["Bea", "decimal, compare", "96 %", "compare", "expand", "8", "taken away"],
            ["Cid", "decimal", "73 %", "decimal", "expand, compare", "4", "taken away"]])
        self.assertNotIn("Who stands where", self.text)

    def test_pupils_of_a_saved_session(self):
        """At the end of samples/tuesday.txt, and before: 512 of 856, not 60 in a hundred."""
        ann = self.page(SAMPLES / "tuesday.txt").texts("Assessed one by one")
        self.assertEqual(ann, [["Ann", "expand, compare", "92 %", "compare", "decimal, add", "6",
                                "over by share"]])
        (self.folder / "monday.json").write_bytes((SAMPLES / "monday.json").read_bytes())
        ann = self.page(self.write("s", "open monday.json\n")).texts("Assessed one by one")
        self.assertEqual(ann, [["Ann", "expand, compare", "59 %", "compare", "decimal, add", "3",
                                "is asked decimal next"]])

    def test_the_folder_stays_as_it_is(self):
        """What the script saves goes to a copy, and so does the table."""
        self.write("kept", "precious")
        self.write("table0", "precious too")
        self.write("s", "items a b\nsave kept\nsave new\nopen new\n")
        table = self.write("t.csv", "pupil,a,b\nAnn,1,0\n")
        printed = self.report("s", table)
        self.assertEqual(printed, "t.html: 1 pupil of the class, 0 assessed one by one, 2 items\n")
        self.assertEqual({it.name: it.read_text() for it in self.folder.iterdir()
                          if it.name in ("kept", "table0")},
                         {"kept": "precious", "table0": "precious too"})
        self.assertEqual(sorted(it.name for it in self.folder.iterdir()),
                         ["kept", "s", "t.csv", "t.html", "table0"])

    def test_long_names(self):
        """A field may be longer than 131,072 letters."""
        self.write("s", "items a b\n")
        name = "x" * 200000
        page = self.page("s", self.write("t.csv", f"pupil,a,b\n{name},1,0\n"))
        self.assertEqual(page.texts("Pupils")[0][:2], [name, "1 of 2"])
        for text, told in [(f"pupil,a,b\n{name},1,{name}\n", "record 2, of xxx"),
                           (f"pupil,a,b\n{name},1,0\n{name},1,0\n", "there is a pupil xxx")]:
            printed = self.report("s", self.write("t.csv", text), status=2 - ("of" in told))
            self.assertIn(told, printed)
            self.assertLess(len(printed), 300)

    def test_names_that_are_not_utf8(self):
        """The page shows that a letter is none, and its file has the name of the table's."""
        self.write("s", "items a b\n")
        table = os.fsencode(self.folder) + b"/bad\xff.csv"
        with open(table, "w") as file:
            file.write("pupil,a,b\nAnn,1,0\n")
        for words in (["--title", b"x\xff"], []):
            self.report("s", table, *words)
            text = (self.folder / os.fsdecode(b"bad\xff.html")).read_text(encoding="utf-8")
            self.assertIn(f"<h1>{'x' if words else 'bad'}\ufffd</h1>", text)
            self.assertIn("From s and bad\ufffd.csv", text)
        self.assertEqual(len(list(self.folder.iterdir())), 3)

    def test_more_pupils_than_a_table_may_have(self):
        """The number is the cause. Each of the names is looked up, and not compared with all before
        it: of thirty thousand that took twelve seconds of the processor."""
        self.write("s", "items a b\n")
        for count, shown in [(4097, "4,097"), (30000, "30,000")]:
            rows = "".join(f"p{n},1,1\n" for n in range(count))
            before = os.times().children_user
            printed = self.report("s", self.write("t.csv", "pupil,a,b\n" + rows), status=2)
            self.assertLess(os.times().children_user - before, 5)
            self.assertIn(f"t.csv has {shown} pupils, and a table may have 4,096: cut it", printed)
        rows = "".join(f"p{n},1,1\n" for n in range(4096))
        self.assertIn("4,096 pupils", self.report("s", self.write("t.csv", "pupil,a,b\n" + rows)))

    def test_tables_that_are_no_text(self):
        self.write("s", "items a\n")
        for data, told in [(b"\xff\xfep\0,\0a\0\n\0", "is no text in UTF-8"),
                           (b"pupil,a\nA\0n,1\n", "the table has a byte 0")]:
            (self.folder / "t.csv").write_bytes(data)
            self.assertIn(told, self.report("s", "t.csv", status=2))

    def test_troubles_are_told_in_a_line(self):
        self.write("s", "items a b\n")
        for text, told in [
                ("pupil,a\nAnn,1\n", "the first record has to be any word, and then each"),
                ("pupil;a;b;c\nAnn;1;0;0\n", "for a table with semicolons there is `tools/kst"),
                ("pupil,a,b\nAnn,1,0\nBea B,1,x\n", "record 3, of Bea B, has to be a name"),
                ("pupil,a,b\nAnn,1,0\nAnn,1,1\n", "record 3: there is a pupil Ann before")]:
            status = 2 if "before" in told else 1
            printed = self.report("s", self.write("t.csv", text), status=status)
            self.assertIn(told, printed)
            self.assertEqual(printed.count("\n"), 1)
        self.assertIn("there are no pupils", self.report("s", status=2))
        self.assertIn("nowhere can't be read", self.report("nowhere", status=2))
        self.write("s", "ask\n")
        self.assertIn("s has no session: no items were given", self.report("s", status=1))
        self.assertFalse((self.folder / "t.html").exists())

    def test_names_in_natural_order(self):
        self.write("s", "items a\n")
        long = "p" + "9" * 5000
        names = ["p10", "P2", "p1", long, "p02"]
        table = self.write("t.csv", "who,a\n" + "".join(f"{it},1\n" for it in names))
        page = self.page("s", table)
        self.assertEqual([row[0] for row in page.texts("Pupils")], ["p1", "P2", "p02", "p10", long])

    def test_what_ended_by_budget_stands_out(self):
        self.write("s", "items a b c\nyes a : b\nlimits 3 90\n")
        self.page("s", self.write("t.csv", "pupil,c,a,b\nann,1,1,0\nbob,0,0,0\n"))
        self.assertIn("<p class=alarm>2 of 2 are uncertain: the questions ran out before one state"
                      " stood out. Raise <code>limits</code>, or ask more.</p>", self.text)
        self.assertIn("<b class=warn>budget</b>", self.text)
        self.page(SAMPLES / "fractions.txt", SAMPLES / "class.csv")
        self.assertNotIn("<p class=alarm>", self.text)

    def test_slips_and_guesses_of_an_item(self):
        """Of the chain a, b, c Ann fails a alone, and Bob masters c alone."""
        self.write("s", CHAIN)
        page = self.page("s", self.write("t.csv", "who,a,b,c\nAnn,0,1,1\nBob,0,0,1\nCid,0,0,0\n"))
        self.assertEqual({row[0]: row[5:] for row in page.texts("Items")},
                         {"a": ["1", "0"], "b": ["0", "0"], "c": ["0", "1"]})
        self.assertEqual(re.findall('data-head="(Slips|Guesses)"><b class=warn>1</b>', self.text),
                         ["Slips", "Guesses"])

    def test_what_changed_since_an_earlier_table(self):
        """Ann learns b, Bob forgets it, Cid stays; Dan and Eva are in one table each."""
        self.write("s", CHAIN)
        old = self.write("<old>.csv", "who,c,b,a\nBob,0,1,1\nAnn,0,0,1\nCid,1,1,1\nDan,0,0,0\n")
        new = self.write("t.csv", "who,a,b,c\nAnn,1,1,0\nBob,1,0,0\nCid,1,1,1\nEva,0,0,0\n")
        page = self.page("s", new, "--before", old, "--sheets", "sheets.html")
        self.assertEqual(page.texts("What was gained and lost"), [
            ["Ann", "1", "2", "b", "–"], ["Bob", "2", "1", "–", "b"]])
        self.assertEqual(page.texts("Items gained and lost"), [["b", "2", "2", "Ann", "Bob"]])
        for told in ["the 3 pupils of both tables gained 1 item and lost 1; 1 stand as they did",
                     "Only in <bdi class=name>&lt;old&gt;.csv</bdi>: <bdi class=name>Dan</bdi>.",
                     "Only in this table: <bdi class=name>Eva</bdi>."]:
            self.assertIn(told, self.text)
        sheets = self.sheets()
        self.assertIn("<h2>New since the test before</h2><ul class=mastered><li dir=auto>b</li>",
                      sheets[0])
        self.assertIn("<h2>Mastered in the test before: look again</h2>", sheets[1])
        self.assertNotIn("the test before", sheets[2] + sheets[3])

    def test_a_change_without_a_pupil_of_both_tables(self):
        self.write("s", "items a\n")
        self.write("old.csv", "who,a\nAnn,1\n")
        self.page("s", self.write("t.csv", "who,a\nBob,1\n"), "--before", "old.csv")
        self.assertIn("No pupil of <bdi class=name>old.csv</bdi> is in this table.", self.text)
        self.assertIn("--before needs a table", self.report("s", "--before", "t.csv", status=2))

    def test_each_cell_has_its_heading(self):
        """It is shown where a narrow screen has no columns."""
        self.page(SAMPLES / "fractions.txt", SAMPLES / "class.csv")
        for table in re.findall('<table class="lines.*?</table>', self.text, flags=re.S):
            heads = re.findall("<th scope=col[^>]*>([^<]*)</th>", table)[1:]
            cells = re.findall('<td class=\\w+ data-head="([^"]*)">', table)
            self.assertEqual(cells, heads * (len(cells) // len(heads)))
            self.assertGreater(len(cells), 3)

    def test_a_program_that_is_not_there(self):
        self.write("s", "items a b\n")
        told = self.report("s", "--program", "/nowhere", status=3)
        self.assertEqual(told, "report: /nowhere is no program that can be run; name it by"
                               " --program PATH\n")


if __name__ == "__main__":
    unittest.main()
