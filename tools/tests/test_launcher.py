"""The launcher, in a repository of one crate whose kit and whose program are scripts."""
import os
import shutil
import signal
import subprocess
import tempfile
import time
import unittest
from pathlib import Path

TOP = Path(__file__).resolve().parent.parent.parent
PROGRAM = """#!/bin/bash
[ "$1" = wait ] && echo begun && exec sleep 60
cat; exit ${1:-0}
"""
KIT = """#!/bin/bash
[ "$1" = version ] && echo a kit && exit
echo "rt: ls_app proved"; sleep 1; echo built >> "$BUILDS"
mkdir -p crates/ls_app/out; cp "$PROGRAM" crates/ls_app/out/ls_app
"""


class Launcher(unittest.TestCase):
    def setUp(self):
        folder = tempfile.TemporaryDirectory()
        self.addCleanup(folder.cleanup)
        self.top, self.kit = Path(folder.name) / "a b", Path(folder.name) / "kit"
        self.builds, program = Path(folder.name) / "builds", Path(folder.name) / "program"
        self.write(program, PROGRAM)
        self.write(self.kit / "rt", KIT)
        self.write(self.top / "crates/ls_app/src/main.rt", "one")
        self.write(self.top / "crates.txt", "ls_app:\n")
        self.write(self.top / "HANDLES", "none\n")
        (self.top / "tools").mkdir()
        shutil.copy(TOP / "lspace", self.top / "lspace")
        shutil.copy(TOP / "tools/sources", self.top / "tools/sources")
        self.bare = dict(os.environ, BUILDS=str(self.builds), PROGRAM=str(program))
        self.bare["PATH"] = ":".join(it for it in os.environ["PATH"].split(":")
                                     if not (Path(it) / "rt").exists())
        self.environment = dict(self.bare, PATH=f"{self.kit}:{self.bare['PATH']}")

    @staticmethod
    def write(path, text):
        path.parent.mkdir(parents=True, exist_ok=True)
        path.write_text(text)
        path.chmod(0o755)

    def begin(self, *words, top=None, before=(), environment=None):
        return subprocess.Popen([*before, str((top or self.top) / "lspace"), *words],
                                stdin=subprocess.PIPE, stdout=subprocess.PIPE,
                                stderr=subprocess.PIPE, text=True,
                                env=environment or self.environment)

    def run_it(self, *words, script="", **others):
        running = self.begin(*words, **others)
        output, told = running.communicate(script, timeout=60)
        return running.returncode, output, told

    def built(self):
        return self.builds.read_text().count("built") if self.builds.exists() else 0

    def test_it_builds_once_and_passes_input_output_and_status(self):
        status, output, told = self.run_it("1", script="items a\n")
        self.assertEqual((status, output), (1, "items a\n"))
        self.assertIn("lspace: building", told)
        self.assertIn("lspace: 1 of 1 crates: ls_app\n", told)
        self.assertEqual(self.run_it("1", script="x"), (1, "x", ""))
        self.assertEqual(self.built(), 1)

    def test_it_tells_how_far_the_build_is(self):
        self.write(self.top / "crates/ls_set/src/lib.rt", "one")
        self.write(self.top / "crates.txt", "ls_set:\nls_app: ls_set\n")
        self.write(self.kit / "rt", KIT.replace("echo \"rt: ls_app", "echo \"rt: ls_set is kept:"
                                                " the same\"; echo \"rt: ls_app"))
        self.assertIn("lspace: 1 of 2 crates: ls_set\nlspace: 2 of 2 crates: ls_app\n",
                      self.run_it()[2])
        self.write(self.top / "crates/ls_app/src/main.rt", "two")
        self.write(self.kit / "rt", KIT.replace("echo \"rt: ls_app", "sleep 1; echo \"rt: ls_set"
                                                " proved\"; echo \"rt: ls_app"))
        told = self.run_it()[2]
        self.assertIn("lspace: 1 of 2 crates: ls_set; about 1 minutes are left\n", told)
        self.assertIn("in some three minutes 'rt try'", told)

    def test_another_program_source_or_kit_is_built_anew(self):
        self.run_it()
        program = self.top / "crates/ls_app/out/ls_app"
        self.write(program, PROGRAM.replace("cat", "rm"))
        self.assertEqual(self.run_it(script="x")[:2], (0, "x"))
        self.write(self.top / "crates/ls_app/src/main.rt", "two")
        self.run_it()
        self.write(self.kit / "rt", KIT.replace("a kit", "another"))
        self.run_it()
        self.assertEqual(self.built(), 4)

    def test_a_copy_stays_valid_also_without_a_kit(self):
        self.run_it()
        other = self.top.parent / "copy"
        shutil.copytree(self.top, other, copy_function=shutil.copyfile)
        for path in (other / "lspace", other / "tools/sources", other / "crates/ls_app/out/ls_app"):
            path.chmod(0o755)
        self.assertEqual(self.run_it(top=other, script="x"), (0, "x", ""))
        self.assertEqual(self.run_it(top=other, script="x", environment=self.bare), (0, "x", ""))
        self.assertEqual(self.built(), 1)

    def test_without_a_kit_nothing_is_built(self):
        status, output, told = self.run_it(environment=self.bare)
        self.assertEqual((status, output), (125, ""))
        self.assertIn("'rt' isn't found", told)

    def test_it_tells_what_statuses_mean(self):
        self.run_it()
        for status in range(9):
            told = self.run_it(str(status), "nofile")[2]
            self.assertEqual(told.count("\n"), 1 if 2 <= status <= 7 else 0)
            self.assertEqual("nofile" in told, status == 7)

    def test_signals_are_passed_on(self):
        self.run_it()
        for number in (signal.SIGHUP, signal.SIGINT, signal.SIGTERM):
            running = self.begin("wait")
            self.assertEqual(running.stdout.readline(), "begun\n")
            running.send_signal(number)
            running.communicate(timeout=20)
            self.assertEqual(running.returncode, 128 + number)

    def test_sh_runs_it(self):
        self.run_it()
        self.assertEqual(self.run_it(before=["sh"], script="x"), (0, "x", ""))

    @unittest.skipUnless(shutil.which("flock"), "without flock both build")
    def test_the_second_of_two_waits(self):
        first = self.begin()
        while "building" not in first.stderr.readline():
            time.sleep(0.01)
        status, output, told = self.run_it(script="x")
        first.communicate(timeout=60)
        self.assertEqual((status, output, self.built()), (0, "x", 1))
        self.assertIn("another launcher builds", told)


if __name__ == "__main__":
    unittest.main()
