"""Who may use a file after a save, and what a save that was killed leaves."""
import fcntl
import json
import os
import shutil
import stat
import subprocess
import sys
import tempfile
import time
import unittest
from pathlib import Path

TOP = Path(__file__).resolve().parents[2]
sys.path.insert(0, str(TOP / "tools/tests"))
from given import PROGRAM
import companion


def program_itself():
    """The program, and not the launcher, which other users may be unable to run."""
    if Path(PROGRAM).read_bytes()[:4] == b"\x7fELF":
        return PROGRAM
    if companion.is_built():
        return str(companion.BUILT)
    raise unittest.SkipTest(f"{PROGRAM} isn't the program itself")


def works(*words):
    """Whether the system has this command and lets it do what it is for."""
    return shutil.which(words[0]) is not None and subprocess.run(
        [*words, "true"], stdout=subprocess.DEVNULL, stderr=subprocess.DEVNULL).returncode == 0


SCRIPT = b"items a b c\nsave s\n"
OLD = b'{"old":1}'
KEPT, REFUSED = "ok", "no 27"
OWNER, GROUP, OTHER, THEIRS = 1001, 2000, 1002, 2001
ROOT = []
THE_OWNER = ["--reuid=1001", "--regid=2000", "--clear-groups"]
OF_THE_GROUP = ["--reuid=1001", "--regid=2001", "--groups=2000"]  # the owner, by a further group
OUT_OF_GROUP = ["--reuid=1001", "--regid=2001", "--clear-groups"]  # the owner too
ANOTHER = ["--reuid=1002", "--regid=2001", "--clear-groups"]
A_MEMBER = ["--reuid=1002", "--regid=2001", "--groups=2000"]
# What happens, who saves, the modes of the file and its folder, the answer, the mode afterwards.
CASES = [
    ("root over a private file", ROOT, 0o600, 0o755, KEPT, 0o600),
    ("root over a group's file", ROOT, 0o660, 0o755, KEPT, 0o660),
    ("root over a set-user-ID file", ROOT, 0o4755, 0o755, KEPT, 0o755),
    ("root over a set-group-ID file", ROOT, 0o2755, 0o755, KEPT, 0o755),
    ("root over a sticky file", ROOT, 0o1644, 0o755, KEPT, 0o644),
    ("root over a file that nobody may write", ROOT, 0o444, 0o755, REFUSED, 0o444),
    ("the owner", THE_OWNER, 0o600, 0o755, KEPT, 0o600),
    ("the owner over a set-user-ID file", THE_OWNER, 0o4755, 0o755, KEPT, 0o755),
    ("the owner over what they may not write", THE_OWNER, 0o460, 0o755, REFUSED, 0o460),
    ("the owner over a read-only file", THE_OWNER, 0o400, 0o755, REFUSED, 0o400),
    ("the owner, whose group is another", OF_THE_GROUP, 0o640, 0o755, KEPT, 0o640),
    ("the owner, out of the group", OUT_OF_GROUP, 0o640, 0o755, REFUSED, 0o640),
    ("another, the folder closed", ANOTHER, 0o666, 0o755, REFUSED, 0o666),
    ("another, the folder open", ANOTHER, 0o666, 0o777, REFUSED, 0o666),
    ("another, the folder sticky", ANOTHER, 0o666, 0o1777, REFUSED, 0o666),
    ("another, without a right", ANOTHER, 0o644, 0o777, REFUSED, 0o644),
    ("a member of the group", A_MEMBER, 0o660, 0o777, REFUSED, 0o660),
    ("a member, the folder set-group-ID", A_MEMBER, 0o660, 0o2777, REFUSED, 0o660),
    ("a member, the owner may not write", A_MEMBER, 0o464, 0o777, REFUSED, 0o464),
    ("another, the group is shut out", ANOTHER, 0o606, 0o777, REFUSED, 0o606),
    ("another, the owner is shut out", ANOTHER, 0o066, 0o777, REFUSED, 0o066),
]
as_users = unittest.skipUnless(os.getuid() == 0 and works("setpriv", *A_MEMBER),
                               "it wants root, and setpriv to be other users")
traced = unittest.skipUnless(works("strace", "-o", os.devnull),
                             "it wants strace, to fail a call and to kill the program at one")
# The calls of a save, at each of which it is killed.
CALLS = ["openat", "flock", "statx", "write", "fchown", "fchmod", "fsync", "rename", "close"]


class Saving(unittest.TestCase):
    def setUp(self):
        kept = tempfile.TemporaryDirectory()
        self.addCleanup(kept.cleanup)
        os.chmod(kept.name, 0o755)
        self.program = shutil.copy(program_itself(), Path(kept.name) / "program")
        os.chmod(self.program, 0o755)
        self.folder = Path(kept.name) / "folder"
        self.folder.mkdir()
        self.saved = self.folder / "s"

    def save(self, before=()):
        """The answer of a save, without a length; none where the program was killed."""
        done = subprocess.run([*before, self.program], input=SCRIPT, cwd=self.folder,
                              stdout=subprocess.PIPE, stderr=subprocess.DEVNULL)
        return " ".join(done.stdout.decode().split("\n")[1:2]).replace("ok 162", KEPT)

    def names(self):
        return sorted(it.name for it in self.folder.iterdir())

    def is_new(self):
        return json.loads(self.saved.read_bytes()).get("items") == ["a", "b", "c"]

    def put(self, mode=0o644, folder=0o777):
        """The old file, and whose it and the folder are."""
        self.saved.write_bytes(OLD)
        for path, bits in (self.saved, mode), (self.folder, folder):
            os.chown(path, OWNER, GROUP)
            path.chmod(bits)


@as_users
class Rights(Saving):
    def test_each_case(self):
        for what, who, mode, folder, answer, after in CASES:
            with self.subTest(what):
                self.put(mode, folder)
                self.assertEqual(self.save(["setpriv", *who] if who else []), answer)
                found = self.saved.stat()
                self.assertEqual((found.st_uid, found.st_gid), (OWNER, GROUP))
                self.assertEqual(oct(stat.S_IMODE(found.st_mode)), oct(after))
                self.assertEqual(self.is_new(), answer == KEPT)
                self.assertEqual(self.names(), ["s"])
                self.saved.unlink()

    def test_a_new_file_is_the_callers(self):
        for mask in 0o022, 0o077, 0:
            self.folder.chmod(0o777)
            kept = os.umask(mask)
            self.assertEqual(self.save(["setpriv", *ANOTHER]), KEPT)
            os.umask(kept)
            found = self.saved.stat()
            self.assertEqual((found.st_uid, found.st_gid), (OTHER, THEIRS))
            self.assertEqual(stat.S_IMODE(found.st_mode), 0o666 & ~mask)
            self.saved.unlink()

    @traced
    def test_an_owner_that_cant_be_given(self):
        self.put(0o600)
        self.assertEqual(self.save(["strace", "-e", "inject=fchown:error=EPERM"]), REFUSED)
        self.assertFalse(self.is_new())
        self.assertEqual(self.names(), ["s"])

    def test_what_is_anothers_stays(self):
        left = self.folder / ".s.part0"
        left.write_bytes(b"theirs")
        os.chown(left, OTHER, THEIRS)
        self.put(0o600)
        self.assertEqual(self.save(), KEPT)
        self.assertEqual(self.names(), [".s.part0", "s"])
        self.assertEqual(left.read_bytes(), b"theirs")

    @traced
    def test_root_is_killed_at_each_call(self):
        kill_at_each_call(self, lambda: self.put(0o600))


class Left(Saving):
    def test_what_was_left_is_taken_away(self):
        for number in 0, 1, 3, 15:
            (self.folder / f".s.part{number}").write_bytes(b"left")
        self.assertEqual(self.save(), KEPT)
        self.assertEqual(self.names(), ["s"])

    def test_what_is_held_stays(self):
        with open(self.folder / ".s.part0", "wb") as held:
            fcntl.flock(held, fcntl.LOCK_EX)
            self.assertEqual(self.save(), KEPT)
            self.assertEqual(self.names(), [".s.part0", "s"])
        self.assertEqual(self.save(), KEPT)
        self.assertEqual(self.names(), ["s"])

    @traced
    def test_two_saves_at_once(self):
        slow = ["strace", "-o", os.devnull, "-e", "inject=fsync:delay_enter=2000000:when=1"]
        with subprocess.Popen([*slow, self.program], stdin=subprocess.PIPE, cwd=self.folder,
                              stdout=subprocess.PIPE) as first:
            first.stdin.write(SCRIPT)
            first.stdin.close()
            begun = time.monotonic()
            while self.names() != [".s.part0"] and time.monotonic() < begun + 60:
                time.sleep(0.05)
            time.sleep(0.5)
            self.assertEqual(self.save(), KEPT)
            self.assertEqual(self.names(), [".s.part0", "s"])
            self.assertEqual(first.stdout.read(), b"ok 3\nok 162\n")
        self.assertTrue(self.is_new())
        self.assertEqual(self.names(), ["s"])

    def test_what_is_no_file_or_has_another_name_stays(self):
        os.mkfifo(self.folder / ".s.part0")
        (self.folder / ".s.part1").symlink_to("other")
        (self.folder / ".s.part2").mkdir()
        others = [".s.part", ".s.partx", ".t.part0", "other", "s.part0"]
        for name in others:
            (self.folder / name).write_bytes(b"other")
        self.assertEqual(self.save(), KEPT)
        self.assertEqual(self.names(), sorted([*others, ".s.part0", ".s.part1", ".s.part2", "s"]))

    @traced
    def test_a_file_that_cant_be_locked_stays(self):
        (self.folder / ".s.part0").write_bytes(b"left")
        self.assertEqual(self.save(["strace", "-e", "inject=flock:error=ENOLCK"]), KEPT)
        self.assertEqual(self.names(), [".s.part0", "s"])

    @traced
    def test_a_new_file_that_another_has_taken_isnt_used(self):
        self.assertEqual(self.save(["strace", "-e", "inject=flock:error=EAGAIN:when=1"]), KEPT)
        self.assertTrue(self.is_new())
        self.assertEqual(self.names(), ["s"])

    @traced
    def test_the_caller_is_killed_at_each_call(self):
        kill_at_each_call(self, lambda: self.saved.write_bytes(OLD))


def kill_at_each_call(test, put):
    """After each kill the file is whole, and the next save leaves nothing beside it."""
    left = 0
    for call in CALLS:
        number = 1
        killed = True
        while killed:
            put()
            answer = test.save(["strace", "-f", "-e", f"inject={call}:signal=KILL:when={number}"])
            killed = answer == ""
            left += len(test.names()) > 1
            test.assertTrue(test.is_new() or test.saved.read_bytes() == OLD, f"{call} {number}")
            test.assertEqual(test.save(), KEPT)
            test.assertEqual(test.names(), ["s"], f"{call} {number}")
            number += 1
    test.assertGreater(left, 5)


if __name__ == "__main__":
    unittest.main()
