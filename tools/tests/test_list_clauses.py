"""docs/list-clauses --check passes on the tree as it stands, and fails where the sources and the documents differ."""
import re, shutil, subprocess, sys, tempfile, unittest
from pathlib import Path

TOP = Path(__file__).resolve().parent.parent.parent
TOP_CALL = "crates/ls_shell/src/top.rt"

def unread(folder, names):
    """What the script reads nothing of: what was built, and the proofs but for the worked examples."""
    is_kept = lambda name: name.startswith("Examples") or (Path(folder) / name).is_dir()
    return [name for name in names if name == "out" or "proofs" in Path(folder).parts and not is_kept(name)]

class ListClauses(unittest.TestCase):
    @classmethod
    def setUpClass(cls):
        """A copy of what the script reads."""
        folder = tempfile.TemporaryDirectory()
        cls.addClassCleanup(folder.cleanup)
        cls.top = Path(folder.name)
        for name in ("crates", "docs", "tools"):
            shutil.copytree(TOP / name, cls.top / name, ignore=unread)
        shutil.copy(TOP / "crates.txt", cls.top)

    def kept(self, name):
        """A file of the copy, whose text comes back after the test."""
        path = self.top / name
        self.addCleanup(path.write_text, path.read_text())
        return path

    def run_script(self, *words):
        done = subprocess.run([sys.executable, self.top / "docs/list-clauses", *words], capture_output=True, text=True)
        return done.returncode, done.stdout.splitlines()

    def change(self, name, old, new):
        """Puts one text for another in a file, where it stands for the first time."""
        path = self.kept(name)
        text = path.read_text()
        self.assertIn(old, text)
        path.write_text(text.replace(old, new, 1))

    def assert_fails(self, *told):
        """The check fails, with each of these in its own line."""
        status, lines = self.run_script("--check")
        self.assertEqual(status, 1)
        self.assertRegex(lines[-1], r"^\d+ passed, [1-9]\d* failed$")
        for words in told:
            self.assertTrue(any(words in line for line in lines), f"{words} isn't told in {lines}")

    def test_the_tree_passes(self):
        status, lines = self.run_script("--check")
        self.assertEqual((status, lines), (0, lines[-1:]))
        self.assertRegex(lines[-1], r"^[1-9]\d* passed, 0 failed$")

    def test_what_is_written_passes(self):
        self.kept("docs/clauses.txt").unlink()
        self.assert_fails("docs/clauses.txt")
        self.assertEqual(self.run_script(), (0, []))
        self.assertEqual(self.run_script("--check")[0], 0)

    def test_a_clause_is_renamed_in_the_sources(self):
        self.change(TOP_CALL, "ensures write_stops {", "ensures write_ends {")
        self.assert_fails("docs/clauses.txt", "its file has no lspace as in `lspace`: `write_fault`, `write_stops`")

    def test_a_clause_is_renamed_in_the_sources_and_the_index(self):
        self.kept("docs/clauses.txt")
        self.change(TOP_CALL, "ensures write_stops {", "ensures write_ends {")
        self.run_script()
        self.assert_fails("docs/PROVED.md")

    def test_a_clause_is_renamed_in_the_document(self):
        self.change("docs/PROVED.md", "`write_stops`", "`write_ends`")
        self.assert_fails("`write_ends`")

    def test_a_call_is_renamed_in_the_document(self):
        self.change("docs/PROVED.md", "`forced_once`", "`forced_twice`")
        self.assert_fails("no forced_twice")

    def test_a_call_is_cited_from_another_file(self):
        text = (self.top / "docs/PROVED.md").read_text()
        row = re.search(r"^.*`forced_once`.*$", text, flags=re.M)[0]
        self.change("docs/PROVED.md", row, row.replace("src/forced.rt", "src/changes.rt"))
        self.assert_fails("no forced_once")

    def test_the_theorem_is_weakened_in_the_sources(self):
        self.change(TOP_CALL, "ensures headline { words.now ≡ [] →", "ensures headline { words.now ≢ [] →")
        self.assert_fails(f"`{TOP_CALL}` has no such whole clause")

    def test_the_quoted_theorem_is_shortened(self):
        self.change("docs/PROVED.md", "        → TakesFew script (S.left src.new)\n", "")
        self.assert_fails("has no such whole clause")

    def test_the_end_of_the_quoted_theorem_is_left_out(self):
        self.change("docs/PROVED.md", "        (K.written out.old) (K.written out.new) result }\n", "")
        self.assert_fails("has no such whole clause")

    def test_the_document_quotes_nothing(self):
        text = (self.top / "docs/PROVED.md").read_text()
        for quote in re.findall(r"^```quote .*?^```\n", text, flags=re.M | re.S):
            self.change("docs/PROVED.md", quote, "")
        self.assert_fails("docs/PROVED.md:1: it quotes no clause")

    def test_a_quote_has_no_end(self):
        self.change("docs/PROVED.md", "result }\n```\n", "result }\n")
        self.assert_fails("docs/PROVED.md:1: it quotes no clause, or a quote has no end")

    def test_a_definition_is_renamed(self):
        self.change("crates/ls_theory/specs/Forced.antt", "pub next_question :", "pub question_next :")
        self.assert_fails("docs/PROVED.md", "docs/DEFINITIONS.md", "its file doesn't define `next_question`")

    def test_a_file_is_gone(self):
        self.kept("crates/ls_theory/specs/Forced.antt").unlink()
        self.assert_fails("there is no `crates/ls_theory/specs/Forced.antt`")

    def test_a_document_cites_nothing(self):
        self.kept("docs/DEFINITIONS.md").write_text("Nothing.\n")
        self.assert_fails("docs/DEFINITIONS.md: it cites nothing")

    def test_a_new_clause_is_missing_in_the_index(self):
        self.change("crates/ls_interior/src/family.rt", "ensures { result ≡ is_among (F.members f.now) s }",
                    "ensures value { result ≡ is_among (F.members f.now) s }")
        self.assert_fails("docs/clauses.txt")

    def test_other_words_are_refused(self):
        self.assertEqual(self.run_script("--chek")[0], 1)

if __name__ == "__main__":
    unittest.main()
