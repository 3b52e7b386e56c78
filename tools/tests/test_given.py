"""Whether a companion and a test without a program say so, and start no build."""
import os
import shutil
import subprocess
import sys
import tempfile
import unittest
from pathlib import Path

TOP = Path(__file__).resolve().parents[2]
BARE = {it: value for it, value in os.environ.items() if it != "LSPACE"}
LAUNCHER = "#!/bin/sh\ntouch \"$(dirname \"$0\")/begun\"\n"
PROGRAM = "#!/bin/sh\nread line; echo ok 2; read line; echo 'set c {a b}'; echo more yes\n"


class Unbuilt(unittest.TestCase):
    """A repository whose launcher leaves a file where it is started."""

    def setUp(self):
        kept = tempfile.TemporaryDirectory()
        self.addCleanup(kept.cleanup)
        self.top = Path(kept.name).resolve() / "a b"
        left_out = shutil.ignore_patterns("__pycache__", "wrong-bodies*")
        shutil.copytree(TOP / "tools", self.top / "tools", ignore=left_out)
        shutil.copytree(TOP / "docs", self.top / "docs", ignore=shutil.ignore_patterns("*.png"))
        for path, text in {"lspace": LAUNCHER, "crates/ls_app/src/main.rt": "one", "HANDLES": "",
                           "crates.txt": "ls_app:\n"}.items():
            (self.top / path).parent.mkdir(parents=True, exist_ok=True)
            (self.top / path).write_text(text)
            (self.top / path).chmod(0o755)

    def build(self):
        """What the launcher would build, with its stamp."""
        program = self.top / "crates/ls_app/out/ls_app"
        program.parent.mkdir()
        program.write_text(PROGRAM)
        program.chmod(0o755)
        stamp = subprocess.run([self.top / "tools/sources", "stamp"], stdout=subprocess.PIPE)
        (program.parent / "lspace.sources").write_bytes(stamp.stdout)

    def run_it(self, *words, **more):
        done = subprocess.run([sys.executable, *words], cwd=self.top, env={**BARE, **more},
                              input=b"items a b\n", stdout=subprocess.PIPE,
                              stderr=subprocess.STDOUT, timeout=60)
        self.assertFalse((self.top / "begun").exists(), "a build was begun")
        return done.returncode, done.stdout.decode()

    def refused(self, *words, status=3):
        returned, told = self.run_it(*words)
        self.assertEqual(returned, status, told)
        self.assertRegex(told, "^[^\n]*no program is built of these sources[^\n]*LSPACE=[^\n]*\n$")

    def test_a_companion_says_what_to_do(self):
        self.refused("tools/shell")

    def test_a_test_says_so_too(self):
        self.refused("-m", "unittest", "tools/tests/test_shell.py", status=1)
        self.refused("tools/tests/test_interview.py", status=1)
        self.refused("tools/tests/run")

    def test_no_found_test_begins_a_build(self):
        status, told = self.run_it("-m", "unittest", "discover", "-f", "tools/tests")
        self.assertEqual(status, 1)
        self.assertIn("no program is built of these sources", told)

    def test_what_is_built_is_taken(self):
        self.build()
        self.assertEqual(self.run_it("tools/shell"), (0, "ok 2\n"))

    def test_a_stamp_that_does_not_hold(self):
        self.build()
        (self.top / "crates/ls_app/src/main.rt").write_text("two")
        self.refused("tools/shell")
        program = str(self.top / "crates/ls_app/out/ls_app")
        self.assertEqual(self.run_it("tools/shell", LSPACE=program), (0, "ok 2\n"))


if __name__ == "__main__":
    unittest.main()
