"""Whether each refusal has an entry with a remedy, and how refusals are explained."""
import re
import subprocess
import sys
import unittest
from pathlib import Path

TOP = Path(__file__).resolve().parents[2]
sys.path.insert(0, str(TOP / "tools/tests"))
from given import PROGRAM
import refusals

SPECS = TOP / "crates/ls_meaning/specs"
RESPONSE = TOP / "crates/ls_meaning/src/response.rt"
EXPLAIN = [sys.executable, str(TOP / "tools/explain")]
NEVER = re.compile(r"^\w+ (?:side |code )?\(\w+\.Memory e\).*$\n?", re.M)


def source():
    """The definitions of what refusals tell, but for want of memory, which refuses no line."""
    text = "\n".join((SPECS / name).read_text() for name in ("Refusals.antt", "FileRefusals.antt"))
    return NEVER.sub("", re.sub(r"\n {4,}", " ", text))


def words_of_definition(text, name):
    """The words that a definition such as `cause_word` gives."""
    return re.findall(rf'^{name} .*= codes "([^"]*)"', text, re.M)


def details_of(text, given):
    """The words of a list of details, as every choice of them: a number is 1, an item is `a`."""
    told = [[]]
    detail = r'(Word|Number|Item|Set) (\(codes "[^"]*"\)|\(\w+ \w+\)|\w+)'
    for kind, rest in re.findall(detail, given):
        word = re.match(r'\(codes "(.*)"\)', rest)
        choices = ([word[1]] if word else words_of_definition(text, rest[1:].split()[0])
                   if kind == "Word" else [{"Number": "1", "Item": "a", "Set": "{a b}"}[kind]])
        told = [before + [choice] for before in told for choice in choices]
    return told


def refusals_of_the_sources():
    """Each refusal that the definitions can tell, as the words behind `no`."""
    text, found = source(), [["15", "0"]]  # the place where no domain stands
    for code, given in re.findall(r"told (\d+|code) (\[\]|\((?:[^()]|\([^()]*\))*\))", text):
        codes = re.findall(r"sets_notice (\d+)", text) if code == "code" else [code]
        found += [[it, *details] for it in codes for details in details_of(text, given)]
    return found


class Entries(unittest.TestCase):
    def setUp(self):
        self.entries = refusals.entries()

    def test_the_sources_were_read_whole(self):
        found = refusals_of_the_sources()
        rows = re.findall(r"^refusal_notice \(?(\w+)", source(), re.M)
        enum = re.search(r"^pub enum Refusal \{\n(.*?)^\}", RESPONSE.read_text(), re.M | re.S)[1]
        variants = re.findall(r"^    ([A-Z]\w*)", enum, re.M)
        self.assertEqual(sorted(rows), sorted(variants))
        self.assertEqual({it[0] for it in found}, set(re.findall(r"\b[1-8]\d\b", source())))
        for words in ("24 spare", "29 repeat 1 1", "42 pupils", "39 budget", "70 1 line 1", "15 1"):
            self.assertIn(words.split(), found)
        self.assertEqual(len(found), 85)

    def test_each_refusal_has_an_entry_with_a_remedy(self):
        for words in refusals_of_the_sources():
            told = refusals.found(words, self.entries)
            self.assertIsNotNone(told, words)
            self.assertGreater(len(told.cause.split()), 2, words)
            self.assertRegex(told.remedy, r"^[A-Z`].*\.$", words)
            self.assertLess(len(told.remedy.split()), 31, words)

    def test_each_entry_is_that_of_a_refusal(self):
        told = refusals_of_the_sources()
        for entry in self.entries:
            self.assertTrue(any(refusals.values_of(entry.form, it) is not None for it in told),
                            entry.form)
        forms = [tuple(it.form) for it in self.entries]
        self.assertEqual(len(set(forms)), len(forms))

    def test_each_value_is_told(self):
        """What a refusal tells is in its sentence or its remedy."""
        for form, cause, remedy in self.entries:
            for part in filter(str.isupper, form[1:]):
                self.assertRegex(f"{cause.split('. ')[0]} {remedy}", rf"\b{part}\b", form)

    def test_the_commands_name_refusals_that_are_there(self):
        codes = {it.form[0] for it in self.entries}
        for command in refusals.commands():
            named = set(re.findall(r"\d+", command.codes))
            self.assertLessEqual(named, codes, command.name)

    def test_refusals_of_the_program(self):
        script = ["foo", "items a b c", "states 5 after 00", "yes z : a", "yes a : b", "yes b : a",
                  "state-of | a", ""]
        done = subprocess.run([PROGRAM], input="\n".join(script).encode(),
                              stdout=subprocess.PIPE)
        told = [it for it in done.stdout.decode().splitlines() if it.startswith("no ")]
        self.assertEqual(len(told), 4)
        self.assertTrue(all(refusals.explanation(it, self.entries) for it in told), told)


class Explanations(unittest.TestCase):
    def explain(self, *words, given=b"", status=0):
        done = subprocess.run([*EXPLAIN, *words], input=given, stdout=subprocess.PIPE,
                              stderr=subprocess.PIPE)
        self.assertEqual(done.returncode, status, done.stderr)
        self.assertNotIn(b"Traceback", done.stderr)
        return (done.stdout + done.stderr).decode()

    def test_one_refusal(self):
        for words in (["no 24 spare"], ["24", "spare"], [" no  24 spare "]):
            self.assertEqual(self.explain(*words),
                             "24 spare: the last digit of the cursor stands for an item that isn't"
                             " there. Take one that `states` or another listing printed.\n")
        self.assertIn("by `learning` x and y are learned at once, at {x y}.",
                      self.explain("no 31 {x y} x y"))
        self.assertEqual(self.explain("24").count("\n"), 3)

    def test_what_is_no_refusal(self):
        for words in ("ok 2", "no", "no 99", "no 24 spare 9", "no 24 <b>'\"\n\x1b[31m", "{",
                      "24 {a"):
            self.assertIn("no refusal reads", self.explain(words, status=2))

    def test_replies(self):
        given = b"ok 2\nno 15 0\nno such\xff\nset 8 {a}\nno 99"
        lines = self.explain(given=given).splitlines()
        self.assertEqual([lines[0], lines[1], lines[-1]], ["ok 2", "no 15 0", "no 99"])
        self.assertIn("  15 0: no domain stands. Give the items first", lines[2])
        self.assertEqual(len(lines), 6)

    def test_names_like_placeholders_stay(self):
        told = self.explain("no 14 open ITEM 1 CLAUSE")
        self.assertIn("clause 1 of ITEM has CLAUSE, of which", told)

    def test_a_full_disk_and_help(self):
        with open("/dev/full", "w") as full:
            for words in (["24"], ["--help"], []):
                done = subprocess.run([*EXPLAIN, *words], input=b"no 11\n", stdout=full,
                                      stderr=subprocess.PIPE)
                self.assertEqual(done.returncode, 2)
                self.assertEqual(done.stderr, b"explain: standard output can't be written:"
                                              b" No space left on device\n")
        self.assertIn("usage: explain ", self.explain("--help"))


if __name__ == "__main__":
    unittest.main()
