"""Whether tables of zeros and ones are read and written as R has them, and come back the same."""
import os
import shutil
import subprocess
import sys
import tempfile
import unittest
from pathlib import Path

TOP = Path(__file__).resolve().parents[2]
sys.path.insert(0, str(TOP / "tools/tests"))
from given import PROGRAM
import companion
import matrices

# The nine states of the guide's fractions, in the order of `states`.
FRACTIONS = """expand,decimal,compare,add
1,1,1,1
1,1,1,0
1,1,0,0
1,0,1,1
1,0,1,0
1,0,0,0
0,1,1,0
0,1,0,0
0,0,0,0
"""
STATES = ["{expand decimal compare add}", "{expand decimal compare}", "{expand decimal}",
          "{expand compare add}", "{expand compare}", "{expand}", "{decimal compare}", "{decimal}",
          "{}"]


class Kst(unittest.TestCase):
    def setUp(self):
        kept = tempfile.TemporaryDirectory()
        self.addCleanup(kept.cleanup)
        self.folder = Path(kept.name)

    def kst(self, *words, text="", status=0):
        """What the companion prints, and what it says on standard error."""
        done = subprocess.run([sys.executable, str(TOP / "tools/kst"), *words], cwd=self.folder,
                              input=text.encode(), stdout=subprocess.PIPE, stderr=subprocess.PIPE)
        self.assertEqual(done.returncode, status, done.stderr.decode())
        return done.stdout.decode(), done.stderr.decode()

    def replies(self, *lines):
        """What the program replies to these lines in the folder."""
        return [line for _, reply in companion.run_script(PROGRAM, "\n".join(lines), self.folder)
                for line in reply]


class FromTheProgram(Kst):
    def test_the_states_of_the_guide(self):
        script = str(TOP / "samples/fractions.txt")
        self.assertEqual(self.kst("states", script), (FRACTIONS, ""))

    def test_the_base_of_the_guide(self):
        script = str(TOP / "samples/fractions.txt")
        self.assertEqual(self.kst("base", script)[0], "expand,decimal,compare,add\n"
                         "1,0,1,1\n1,0,1,0\n1,0,0,0\n0,1,1,0\n0,1,0,0\n")

    def test_states_by_more_pages_than_one(self):
        """Of 13 free items there are 8,192 states, from all items to none; a page has 4,096."""
        (self.folder / "free").write_text("items " + " ".join(f"q{n}" for n in range(13)))
        rows = self.kst("states", "free")[0].splitlines()[1:]
        self.assertEqual([int(row.replace(",", ""), 2) for row in rows], list(range(8191, -1, -1)))

    def test_more_states_than_a_table_may_get(self):
        (self.folder / "free").write_text("items a b c")
        self.assertEqual(self.kst("states", "free", "--most", "8")[0].count("\n"), 9)
        _, told = self.kst("states", "free", "--most", "7", status=1)
        self.assertEqual(told, "kst: there are more than 7 states; --most N takes more\n")

    def test_more_states_than_fit_in_memory(self):
        """Of 512 free items there are 2^512 states. That is told within 100 MB."""
        (self.folder / "free").write_text("items " + " ".join(
            f"an-item-whose-name-has-forty-letters-{n:03}" for n in range(512)))
        for words in (["kst", "states", "free"], ["made-class", "free", "5"]):
            running = subprocess.Popen([sys.executable, str(TOP / "tools" / words[0]), *words[1:]],
                                       cwd=self.folder, stdout=subprocess.PIPE,
                                       stderr=subprocess.STDOUT)
            told = running.stdout.read()
            running.stdout.close()
            _, status, used = os.wait4(running.pid, 0)
            running.returncode = os.WEXITSTATUS(status)
            self.assertIn(b"there are more than 65536 states", told)
            self.assertEqual((running.returncode, told.count(b"\n")), (1, 1))
            self.assertLess(used.ru_maxrss, 100000)  # in KB

    def test_a_refused_line_is_told_and_changes_nothing(self):
        (self.folder / "twice").write_text("items a\nitems a b\nfoo\n")
        table, told = self.kst("states", "twice")
        self.assertEqual(table, "a\n1\n0\n")
        self.assertEqual(told, "kst: note: line 2 of twice: the items were given before (no 11)\n"
                               "kst: note: line 3 of twice: the line is no command (no 10 1)\n")

    def test_what_a_script_saves_is_not_kept(self):
        """The second line opens what the first has saved, and the file beside is as it was."""
        (self.folder / "kept").write_text("as it was")
        (self.folder / "script").write_text("items a b\nsave kept\nopen kept\nyes a : b\nsave new")
        self.assertEqual(self.kst("states", "script"), ("a,b\n1,1\n1,0\n0,0\n", ""))
        self.assertEqual((self.folder / "kept").read_text(), "as it was")
        self.assertEqual(sorted(it.name for it in self.folder.iterdir()), ["kept", "script"])

    def test_scripts_that_have_no_session(self):
        (self.folder / "none").write_text("# nothing\n")
        self.assertIn("kst: none has no session", self.kst("states", "none", status=1)[1])
        self.assertEqual(self.kst("states", "gone", status=2)[1],
                         "kst: gone can't be read: No such file or directory\n")


class ToTheProgram(Kst):
    def test_states_come_back_the_same(self):
        (self.folder / "space.csv").write_text(FRACTIONS)
        family, told = self.kst("sets", "space.csv")
        self.assertEqual(family.splitlines(), ["# items expand decimal compare add", *STATES])
        self.assertEqual(told, "")
        (self.folder / "family.sets").write_text(family)
        items = self.kst("items", "space.csv")[0].strip()
        replies = self.replies(items, "test family.sets", "start base family.sets", "states")
        self.assertEqual(replies[:3], ["ok 4", "test learning 5", "ok 5"])
        self.assertEqual([line.split(" ", 2)[2] for line in replies[3:-1]], STATES)
        (self.folder / "again").write_text(items + "\nstart base family.sets\n")
        self.assertEqual(self.kst("states", "again")[0], FRACTIONS)

    def test_the_base_comes_back_the_same(self):
        base = self.kst("base", str(TOP / "samples/fractions.txt"))[0]
        (self.folder / "base.sets").write_text(self.kst("sets", "-", text=base)[0])
        (self.folder / "again").write_text(
            "items expand decimal compare add\nstart base base.sets\n")
        self.assertEqual(self.kst("states", "again")[0], FRACTIONS)
        self.assertEqual(self.kst("base", "again")[0], base)

    def test_rows_that_stand_again(self):
        sets, told = self.kst("sets", "-", text="a,b\n1,0\n0,0\n1,0\n1,0\n")
        self.assertEqual(sets, "# items a b\n{a}\n{}\n")
        self.assertEqual(told, "kst: rows that stand again are left out: 2\n")

    def test_a_class_table(self):
        """Names of rows are the pupils; the program reads the table that is made."""
        text = '"","expand","decimal","compare","add"\n"Ann",TRUE,FALSE,TRUE,FALSE\n"2",0,1,1,0\n'
        table, told = self.kst("class", "-", text=text)
        self.assertEqual(table, "pupil,expand,decimal,compare,add\nAnn,1,0,1,0\n2,0,1,1,0\n")
        self.assertEqual(told, "")
        (self.folder / "class.csv").write_text(table)
        (self.folder / "fractions.json").write_bytes(
            (TOP / "samples/fractions.json").read_bytes())
        replies = self.replies("items expand decimal compare add", "start surmise fractions.json",
                               "class class.csv")
        self.assertEqual(replies[2:], ["result Ann 6 share {expand compare}",
                                       "result 2 5 share {decimal compare}", "class 2"])

    def test_a_class_table_is_read_as_it_is(self):
        text = (TOP / "samples/class.csv").read_text()
        self.assertEqual(self.kst("class", "-", "--named", text=text)[0], text)
        self.assertEqual(self.kst("class", "-", text=text), (text, ""))

    def test_the_names_of_a_class_table_are_no_item(self):
        text = (TOP / "samples/class.csv").read_text()
        self.assertEqual(self.kst("items", "-", text=text)[0], "items expand decimal compare add\n")
        self.assertEqual(self.kst("sets", "-", text=text)[0].splitlines()[1:], [
            "{expand compare}", "{decimal compare}", "{decimal}", "{expand decimal compare add}",
            "{add}"])
        told = self.kst("items", "-", text="id,a,b\n1001,1,0\n1002,0,0\n")
        self.assertEqual(told, ("items a b\n",
                                "kst: the column id is taken for the names of the rows\n"))

    def test_patterns(self):
        """Each once with its count, as states are listed; the counts are those of the rows."""
        text = "pupil,b,a\nA,0,1\nB,1,1\nC,0,1\nD,0,0\nE,0,1\n"
        self.assertEqual(self.kst("patterns", "-", text=text),
                         ("b,a,count\n1,1,1\n0,1,3\n0,0,1\n", ""))

    @unittest.skipUnless(shutil.which("Rscript"), "Rscript isn't found")
    def test_the_sample_of_r(self):
        """With `blim` of another kind, which shows what pks would get; its columns are of K."""
        table = "pupil,add,expand,decimal,compare\nA,0,1,0,1\nB,0,1,0,1\nC,0,0,1,0\nD,1,1,1,1\n"
        made = {"states.csv": self.kst("states", str(TOP / "samples/fractions.txt"))[0],
                "patterns.csv": self.kst("patterns", "-", text=table)[0],
                "stub.R": "library <- function(...) NULL\n"
                          'commandArgs <- function(...) c("states.csv", "patterns.csv")\n'
                          "blim <- function(K, N.R, method) {\n"
                          '  cat(dim(K), colnames(K), names(N.R), N.R, method, "\\n")\n'
                          "  list(P.K = 1)\n}\n"
                          f"source('{TOP / 'samples/blim.R'}')\n"}
        for name, text in made.items():
            (self.folder / name).write_text(text)
        done = subprocess.run(["Rscript", "--vanilla", "stub.R"], cwd=self.folder,
                              stdout=subprocess.PIPE, stderr=subprocess.PIPE)
        self.assertEqual(done.stdout.decode().splitlines()[:1], [
            "9 4 expand decimal compare add 0100 1010 1111 1 2 1 ML "], done.stderr)

    def test_pupils_without_names(self):
        self.assertEqual(self.kst("class", "-", text="a,b\n1,0\n0,0\n")[0],
                         "pupil,a,b\np1,1,0\np2,0,0\n")

    def test_more_pupils_than_a_class_table_has(self):
        table, told = self.kst("class", "-", text="a\n" + "1\n" * 4097)
        self.assertEqual(table.count("\n"), 4098)
        self.assertEqual(told, "kst: 4097 pupils are more than one class table may have (4096): "
                               "cut it\n")
        self.assertEqual(self.kst("class", "-", text="a\n" + "1\n" * 4096)[1], "")


    def test_long_names(self):
        """A field may be longer than 131,072 letters; of it a name and a message have a part."""
        text = "pupil,a\n" + "x" * 200000 + ",1\n"
        table, told = self.kst("class", "-", "--named", text=text)
        self.assertEqual(table, "pupil,a\n" + "x" * 40 + ",1\n")
        self.assertIn(f"'{'x' * 60}..' is now {'x' * 40}\n", told)
        text = "id,a\n0,1\n" + "x" * 200000 + ",1\n"
        _, told = self.kst("class", "-", text=text, status=2)
        self.assertIn("xxx.. is neither 0 nor 1", told)
        self.assertLess(len(told), 300)

    def test_a_table_that_is_no_text(self):
        _, told = self.kst("sets", "-", text="a,b\n1,\0\n", status=2)
        self.assertEqual(told, "kst: the table has a byte 0, so it is no text; save it as CSV in "
                               "UTF-8\n")


class FormsOfR(unittest.TestCase):
    ROWS = [[True, False], [False, False]]

    def reads(self, text, items=("a", "b"), row_names=None, **options):
        table = matrices.read_matrix(text, **options)
        self.assertEqual(table, (list(items), row_names, self.ROWS))

    def refuses(self, text, told, **options):
        with self.assertRaises(companion.Trouble) as caught:
            matrices.read_matrix(text, **options)
        self.assertEqual(str(caught.exception), told)

    def test_write_csv(self):
        self.reads('"","a","b"\n"1",1,0\n"2",0,0\n', row_names=["1", "2"])
        self.reads('"","a","b"\r\n"1",TRUE,FALSE\r\n"2",FALSE,FALSE\r\n', row_names=["1", "2"])
        self.reads('"a","b"\n1,0\n0,0\n')  # row.names = FALSE
        self.reads(',a,b\nx,1,0\ny,0,0\n', row_names=["x", "y"])  # quote = FALSE
        self.reads('"","pupil","a","b"\n"1","x",1,0\n"2","y",0,0\n', row_names=["x", "y"])
        self.reads('\ufeff"","a","b"\n"x",1,0\n"y",0,0\n', row_names=["x", "y"])

    def test_write_csv2(self):
        self.reads('"";"a";"b"\n"1";1;0\n"2";0;0\n', row_names=["1", "2"])

    def test_write_table(self):
        self.reads('"a" "b"\n"1" TRUE FALSE\n"2" FALSE FALSE\n', row_names=["1", "2"])
        self.reads('"" "a" "b"\n"1" 1 0\n"2" 0 0\n', row_names=["1", "2"])  # col.names = NA
        self.reads('"a \\"one\\"" "b"\n"1" 1 0\n"2" 0 0\n', ['a "one"', "b"], ["1", "2"])
        self.reads("a\tb\n1\t0\n0\t0\n")
        self.reads("1 0\n0 0", items=["V1", "V2"])  # no names at all
        self.reads(" a  b\n 1  0\n\n 0  0\n")  # as print shows it, without row names

    def test_tables_without_a_header(self):
        self.reads("1,0\n0,0\n", items=["V1", "V2"])
        self.assertEqual(matrices.read_matrix("T;f\n0;0\n", items=["x", "y"]),
                         (["x", "y"], None, self.ROWS))
        self.reads("Ann,1,0\nBea,0,0\n", items=["V1", "V2"], row_names=["Ann", "Bea"], named=True)

    def test_numbers_as_names_of_columns(self):
        self.reads('"1","2"\n1,0\n0,0\n', items=["1", "2"])

    def test_quoted_separators(self):
        self.reads('"a, then b";"b"\n1;0\n0;0\n', items=["a, then b", "b"])

    def test_missing_marks(self):
        self.reads("a,b\n1,NA\nNA,\n", missing=False)
        self.refuses("a,b\n1,NA\n", "line 2, column b: NA is neither 0 nor 1, nor TRUE or FALSE; "
                                    "--missing 0 or 1 takes it for that")
        self.refuses("a,b\n,1\n0,1\n", "line 2, column a: nothing is neither 0 nor 1, nor TRUE or "
                                       "FALSE; --missing 0 or 1 takes it for that")

    def test_tables_that_are_none(self):
        self.refuses("", "the table is empty")
        self.refuses("a,b\n1,0\n0\n1,1\n", "line 3 has 1 fields in place of 2")
        self.refuses("a,b\n1,2\n", "line 2, column b: 2 is neither 0 nor 1, nor TRUE or FALSE")
        self.refuses("id,a\n1,1\nx,1\n", "line 3, column id: x is neither 0 nor 1, nor TRUE or FALSE; "
                                    "--named says that this column has names of rows")
        self.refuses("1,0\n", "1 items are named, and the table has 2 columns", items=["a"])


class Names(unittest.TestCase):
    def test_names_that_fit_stay(self):
        self.assertEqual(matrices.fitted(["a", "3.b-c_D"], "item"), (["a", "3.b-c_D"], None))

    def test_other_names_are_changed_and_told(self):
        names, told = matrices.fitted(["item 1", "é", "x" * 41, "b:c", "d"], "item")
        self.assertEqual(names, ["item_1", "_", "x" * 40, "b_c", "d"])
        self.assertEqual(told, "names of items have letters, digits, _ - and . only: 'item 1' is "
                               f"now item_1, 'é' is now _, '{'x' * 41}' is now {'x' * 40}, and 1 "
                               "more")

    def test_names_that_would_be_one(self):
        for names, told in [(["a b", "a_b"], "a b and a_b would both be a_b"),
                            (["a", "a"], "a stands twice")]:
            with self.assertRaises(companion.Trouble) as caught:
                matrices.fitted(names, "item")
            self.assertEqual(str(caught.exception), f"each item needs a name of its own: {told}")
        with self.assertRaises(companion.Trouble) as caught:
            matrices.fitted(["a", ""], "pupil")
        self.assertEqual(str(caught.exception), "pupil 2 has no name")
