"""Each wrong body still has its place: the file is there, and what it replaces stands in it once."""
import unittest
from pathlib import Path

TOP = Path(__file__).resolve().parents[2]
FOLDERS = ["crates/*/must-fail", "tools/wrong-bodies/*", "tools/wrong-bodies-by-trials/*"]


def crate_of(edit):
    folder = edit.parent
    return folder.parent if folder.name == "must-fail" else TOP / "crates" / folder.name


class WrongBodies(unittest.TestCase):
    def test_each_has_its_place(self):
        edits = [it for folder in FOLDERS for it in sorted(TOP.glob(f"{folder}/*.edit"))]
        self.assertGreater(len(edits), 200)
        for edit in edits:
            for line in edit.read_text(encoding="utf-8").splitlines():
                if line.startswith("file: "):
                    text = (crate_of(edit) / line[len("file: "):]).read_text(encoding="utf-8")
                elif line.startswith("old: "):
                    old = line[len("old: "):]
                    self.assertEqual(text.count(old), 1, f"{edit.relative_to(TOP)}: {old}")


if __name__ == "__main__":
    unittest.main()
