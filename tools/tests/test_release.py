"""Whether a release is the same bytes each time, and is installed and taken away whole."""
import hashlib
import os
import random
import shutil
import signal
import subprocess
import sys
import tarfile
import tempfile
import time
import unittest
from pathlib import Path

TOP = Path(__file__).resolve().parents[2]
sys.path.insert(0, str(TOP / "tools/tests"))
from given import PROGRAM

COPIED = ["README.md", "docs", "samples", "tools", "lspace"]
DAY = "2026-03-04T05:06:07 +0000"
GIT = {"GIT_AUTHOR_NAME": "a", "GIT_AUTHOR_EMAIL": "a@b", "GIT_COMMITTER_NAME": "a",
       "GIT_COMMITTER_EMAIL": "a@b", "GIT_AUTHOR_DATE": DAY, "GIT_COMMITTER_DATE": DAY}
PLACES = {**os.environ, **GIT, "GIT_CONFIG_NOSYSTEM": "1"}
NOBODY = ["setpriv", "--reuid", "65534", "--regid", "65534", "--clear-groups"]


def run(words, folder, **more):
    done = subprocess.run([str(it) for it in words], cwd=folder, stdout=subprocess.PIPE,
                          stderr=subprocess.PIPE, **{"env": PLACES, **more})
    assert b"Traceback" not in done.stderr, done.stderr
    return done


def below(folder):
    """Each path below a folder, with the bytes of a file or where a link leads."""
    return {str(it.relative_to(folder)): os.readlink(it) if it.is_symlink() else
            it.read_bytes() if it.is_file() else None for it in folder.rglob("*")}


@unittest.skipUnless(shutil.which("git"), "git isn't found")
class Releases(unittest.TestCase):
    """A small repository with the real companions, documents and samples, and the program."""

    @classmethod
    def setUpClass(cls):
        kept = tempfile.TemporaryDirectory()
        cls.addClassCleanup(kept.cleanup)
        cls.base = Path(kept.name).resolve()
        cls.base.chmod(0o755)
        cls.made = cls.base / "made"
        cls.repository = cls.make(cls.base / "first")
        kit = cls.base / "kit"
        kit.mkdir()
        (kit / "rt").write_text("#!/bin/sh\necho kit-1 logic 2\n")
        (kit / "rt").chmod(0o755)
        cls.places = {**PLACES, "PATH": f"{kit}:{os.environ['PATH']}"}
        cls.stamp(cls.repository)
        cls.made.mkdir()
        done = cls.release(cls.repository, cls.made)
        assert done.returncode == 0, done.stderr
        cls.archive = next(cls.made.glob("*.tar"))
        cls.printed = done.stdout.decode()
        with tarfile.open(cls.archive) as archive:
            archive.extractall(cls.base)
        cls.unpacked = cls.base / cls.archive.stem

    @classmethod
    def make(cls, folder):
        """A repository with one commit."""
        folder.mkdir()
        for name in COPIED:
            copy = shutil.copytree if (TOP / name).is_dir() else shutil.copy2
            more = {"ignore": shutil.ignore_patterns("out", "__pycache__", "wrong-bodies*")}
            copy(TOP / name, folder / name, **(more if copy is shutil.copytree else {}))
        source = folder / "crates/ls_app/src"
        source.mkdir(parents=True)
        (source / "main.rt").write_text("// the program\n")
        (folder / "crates.txt").write_text("ls_app:\n")
        (folder / "HANDLES").write_text("none\n")
        (folder / ".gitignore").write_text("out/\n__pycache__/\n")
        for words in (["init", "-q"], ["add", "-A"], ["commit", "-qm", "all"]):
            assert run(["git", *words], folder).returncode == 0
        return folder

    @classmethod
    def stamp(cls, folder):
        """Puts the program where the launcher has it, with the stamp of these sources."""
        out = folder / "crates/ls_app/out"
        out.mkdir(exist_ok=True)
        shutil.copy2(PROGRAM, out / "ls_app")
        done = run([folder / "tools/sources", "stamp"], folder, env=cls.places)
        (out / "lspace.sources").write_bytes(done.stdout)

    @classmethod
    def release(cls, folder, *words, **more):
        return run([sys.executable, folder / "tools/release", *words], cls.base,
                   **{"env": cls.places, **more})

    def refused(self, folder, told, status=1, **more):
        before = below(self.made)
        done = self.release(folder, self.made, **more)
        self.assertEqual((done.returncode, done.stdout), (status, b""), done.stderr)
        self.assertRegex(done.stderr.decode(), rf"^release: .*{told}[^\n]*\n$")
        self.assertEqual(below(self.made), before)

    def install(self, prefix, *words, **more):
        return run([sys.executable, self.unpacked / "tools/install", prefix, *words], self.base,
                   **more)

    def uninstall(self, prefix, **more):
        return run([sys.executable, self.unpacked / "tools/uninstall", prefix], self.base, **more)

    def folder(self, name="empty"):
        kept = tempfile.TemporaryDirectory(dir=self.base)
        self.addCleanup(kept.cleanup)
        Path(kept.name).chmod(0o755)
        folder = Path(kept.name, name)
        folder.mkdir()
        return folder


class Archives(Releases):
    def test_the_same_bytes_from_the_same_commit(self):
        other = self.folder() / "a b"
        previous = os.umask(0o077)
        run(["git", "clone", "-q", self.repository, other], self.base)
        os.umask(previous)
        self.stamp(other)
        for it in other.rglob("*.md"):
            os.utime(it, (1, 1))
        self.stamp(other)
        done = self.release(other, other.parent, env={**self.places, "TZ": "Asia/Tokyo",
                                                      "LC_ALL": "C", "HOME": "/"})
        self.assertEqual(done.stdout.decode(), self.printed, done.stderr)
        self.assertEqual((other.parent / self.archive.name).read_bytes(),
                         self.archive.read_bytes())

    def test_what_is_in_it(self):
        commit = run(["git", "rev-parse", "HEAD"], self.repository).stdout.decode().strip()
        self.assertEqual(self.archive.name, f"lspace-{commit[:12]}.tar")
        self.assertEqual(self.printed.split()[0],
                         hashlib.sha256(self.archive.read_bytes()).hexdigest())
        with tarfile.open(self.archive) as archive:
            files = archive.getmembers()
        names = [it.name for it in files]
        self.assertEqual(names, sorted(names))
        self.assertEqual({(it.mtime, it.uid, it.gid, it.uname) for it in files},
                         {(1772600767, 0, 0, "")})
        self.assertLessEqual({it.mode for it in files}, {0o755, 0o644})
        self.assertEqual((self.unpacked / "RELEASE").read_text(),
                         f"commit {commit}\nkit kit-1 logic 2\n")
        self.assertEqual((self.unpacked / "programs/plain/lspace").read_bytes(),
                         Path(PROGRAM).read_bytes())
        done = run(["sha256sum", "-c", "SHA256SUMS"], self.unpacked)
        self.assertEqual(done.returncode, 0, done.stderr)
        self.assertEqual(done.stdout.count(b": OK") + 1,
                         sum(it.is_file() for it in self.unpacked.rglob("*")))

    def test_each_companion_of_it_runs(self):
        names = [it for it in (self.unpacked / "tools").iterdir() if not it.suffix]
        self.assertGreater(len(names), 8)
        for it in names:
            self.assertEqual(run([sys.executable, it, "--help"], self.base).returncode, 0, it)

    def test_it_refuses_what_was_not_built_of_these_sources(self):
        folder = self.folder() / "other"
        run(["git", "clone", "-q", self.repository, folder], self.base)
        self.refused(folder, "isn't built of these sources")
        self.stamp(folder)
        source = folder / "crates/ls_app/src/main.rt"
        source.write_text("// another program\n")
        self.refused(folder, "isn't built of these sources")
        self.stamp(folder)
        self.refused(folder, "crates/ls_app/src/main.rt differs from the commit")
        source.write_text("// the program\n")
        self.stamp(folder)
        (folder / "docs/GUIDE.md").write_text("changed")
        self.refused(folder, "docs/GUIDE.md differs from the commit")
        run(["git", "checkout", "-q", "."], folder)
        self.stamp(folder)
        (folder / "crates/ls_app/out/lspace.sources").write_text("")
        self.refused(folder, "isn't built of these sources")
        self.stamp(folder)
        self.assertEqual(self.release(folder, folder.parent).returncode, 0)
        shutil.rmtree(folder / ".git")
        self.refused(folder, "git status: fatal", 3)

    def test_it_refuses_without_a_kit_and_on_a_full_disk(self):
        (self.base / "bare").mkdir()
        for name in ("git", "bash", "sh", "awk", "find", "sort", "cksum", "readlink", "dirname",
                     "xargs", "sha256sum", "cut", "cat", "sed"):
            if shutil.which(name):
                (self.base / "bare" / name).symlink_to(shutil.which(name))
        done = self.release(self.repository, self.made,
                            env={**self.places, "PATH": str(self.base / "bare")})
        self.assertIn(done.returncode, (1, 3))
        self.assertRegex(done.stderr.decode(), r"^release: the (kit|program) isn't [^\n]*\n$")
        limited = ["bash", "-c", 'trap "" XFSZ; ulimit -f 8; exec "$@"', "bash", sys.executable]
        folder = self.folder()
        done = run([*limited, self.repository / "tools/release", folder], self.base,
                   env=self.places)
        self.assertEqual(done.returncode, 2)
        self.assertIn(b"can't be written", done.stderr)
        self.assertEqual(below(folder), {})


class Installations(Releases):
    def test_installed_used_by_another_user_and_taken_away(self):
        prefix = self.folder()
        self.assertEqual(self.install(prefix).returncode, 0)
        self.assertEqual({it.name for it in (prefix / "bin").iterdir()} & {
            "lspace", "lspace-shell", "lspace-uninstall", "lspace-install"},
            {"lspace", "lspace-shell", "lspace-uninstall"})
        for it in prefix.rglob("*"):
            mode = it.stat().st_mode & 0o777
            self.assertIn(mode, (0o755, 0o644), it)
        self.try_samples(prefix)
        done = run([sys.executable, prefix / "bin/lspace-uninstall"], self.base)
        self.assertEqual((done.returncode, done.stderr), (0, b""))
        self.assertEqual(below(prefix), {})

    def try_samples(self, prefix):
        """Each sample says what it says here, by a user who has neither `rt` nor the sources."""
        if os.geteuid() or not shutil.which("setpriv"):
            self.skipTest("another user can't be had: it takes root and setpriv")
        work = prefix.parent / "work"
        shutil.copytree(prefix / "share/lspace/samples", work)
        for it in (work, *work.iterdir()):
            os.chown(it, 65534, 65534)
        other = {"PATH": f"{prefix}/bin:/usr/bin:/bin", "HOME": "/nonexistent"}
        self.assertIsNone(shutil.which("rt", path=other["PATH"]))
        here = self.folder() / "work"
        shutil.copytree(TOP / "samples", here)
        for sample in sorted(it.name for it in work.glob("*.txt")):
            done = run([*NOBODY, "lspace", "--script", sample], work, env=other)
            wanted = run([PROGRAM, "--script", sample], here)
            self.assertEqual((done.stdout, done.returncode), (wanted.stdout, wanted.returncode))
        for words in (["lspace-explain", "24", "spare"], ["lspace-kst", "base", "fractions.txt"],
                      ["lspace-shell", "--help"]):
            if run([*NOBODY, "python3", "--version"], work, env=other).returncode == 0:
                done = run([*NOBODY, *words], work, env=other)
                self.assertEqual((done.returncode, done.stderr), (0, b""), words)

    def test_the_installed_program_is_found_and_never_built(self):
        prefix = self.folder()
        self.install(prefix)
        bare = {it: value for it, value in PLACES.items() if it != "LSPACE"}
        done = run([sys.executable, prefix / "bin/lspace-shell"], self.base, env=bare,
                   input=b"items a b\n")
        self.assertEqual((done.stdout, done.stderr), (b"ok 2\n", b""))
        self.assertEqual((prefix / "bin/lspace").read_bytes(), Path(PROGRAM).read_bytes())

    def test_the_help_of_an_installed_companion_has_its_own_name(self):
        prefix = self.folder()
        self.install(prefix)
        for name in ("assess", "explain", "interview", "kst", "made-class", "shell", "uninstall"):
            done = run([sys.executable, prefix / f"bin/lspace-{name}", "--help"], prefix)
            told = done.stdout.decode()
            self.assertIn(f"usage: lspace-{name} ", told)
            self.assertNotRegex(told, r"tools/(?!install)|\./lspace")

    def test_what_other_programs_look_for(self):
        prefix = self.folder()
        self.install(prefix)
        for path, name in {"bash-completion/completions/lspace": "completion.bash",
                           "bash-completion/completions/lspace-kst": "completion.bash",
                           "vim/vimfiles/ftdetect/lspace.vim": "ftdetect.vim",
                           "vim/vimfiles/syntax/lspace.vim": "lspace.vim"}.items():
            self.assertEqual((prefix / "share" / path).read_bytes(),
                             (TOP / "tools" / name).read_bytes())

    def test_the_man_page(self):
        prefix = self.folder()
        self.install(prefix)
        text = (prefix / "share/man/man1/lspace.1").read_text()
        self.assertIn(".B no 24 spare\n", text)
        self.assertIn(".B yes NAME .. : NAME\n", text)
        self.assertNotIn("`", text)
        if not shutil.which("groff"):
            self.skipTest("groff isn't found")
        done = run(["groff", "-man", "-Tascii", "-ww", prefix / "share/man/man1/lspace.1"], prefix)
        self.assertEqual((done.returncode, done.stderr), (0, b""))

    def test_the_program_for_avx2(self):
        second = self.base / "second"
        shutil.copy2(PROGRAM, second)
        second.write_bytes(second.read_bytes() + b"avx2")
        folder = self.folder()
        self.assertEqual(self.release(self.repository, folder, "--avx2", second).returncode, 0)
        with tarfile.open(next(folder.glob("*.tar"))) as archive:
            archive.extractall(folder)
        install = [sys.executable, next(folder.glob("*/tools/install"))]
        for words, wanted in [([], " avx2 " in Path("/proc/cpuinfo").read_text() + " "),
                              (["--plain"], False)]:
            run([*install, folder / "there", *words], folder)
            self.assertEqual((folder / "there/bin/lspace").read_bytes().endswith(b"avx2"), wanted)
            run([folder / "there/bin/lspace-uninstall"], folder)
            self.assertFalse((folder / "there").exists())

    def test_what_is_there_stays(self):
        for path in ("bin/lspace", "share/lspace/docs/GUIDE.md", "bin/lspace-shell",
                     "share/lspace"):
            prefix = self.folder()
            (prefix / path).parent.mkdir(parents=True)
            (prefix / path).write_text("mine")
            before = below(prefix)
            done = self.install(prefix)
            self.assertIn(done.returncode, (1, 2))
            self.assertRegex(done.stderr.decode(), r"^install: [^\n]+\n$")
            self.assertEqual(below(prefix), before)

    def test_installed_twice_and_changed_files(self):
        prefix = self.folder("it's \"a\" <b>&\n$(touch x) prefix")
        self.assertEqual(self.install(prefix).returncode, 0)
        before = below(prefix)
        self.assertIn(b"has an lspace", self.install(prefix).stderr)
        self.assertEqual(below(prefix), before)
        sample = prefix / "share/lspace/samples/first.txt"
        sample.write_text("items mine\n")
        (prefix / "bin/other").write_text("other")
        done = self.uninstall(prefix)
        self.assertEqual(done.returncode, 1)
        self.assertIn(b"first.txt was changed, and stays", done.stderr)
        kept = {path for path, data in below(prefix).items() if data is not None}
        self.assertEqual(kept, {"share/lspace/samples/first.txt", "bin/other"})
        self.assertIn(b"no lspace that was installed", self.uninstall(prefix).stderr)

    def test_a_damaged_release(self):
        folder = self.folder()
        shutil.copytree(self.unpacked, folder / "damaged")
        (folder / "damaged/docs/GUIDE.md").write_text("another")
        install = [sys.executable, folder / "damaged/tools/install", folder / "there"]
        self.assertIn(b"docs/GUIDE.md isn't as it was packed", run(install, folder).stderr)
        (folder / "damaged/docs/GUIDE.md").unlink()
        self.assertIn(b"docs/GUIDE.md can't be read", run(install, folder).stderr)
        (folder / "damaged/SHA256SUMS").unlink()
        self.assertIn(b"is no unpacked release", run(install, folder).stderr)
        self.assertFalse((folder / "there").exists())

    def test_a_hostile_list(self):
        prefix = self.folder()
        (prefix / "share/lspace").mkdir(parents=True)
        (prefix.parent / "precious").write_text("")
        for text in ('{"files": {"../precious": "x"}, "links": {}, "folders": []}', "[", "{}", "3",
                     '{"files": {}, "links": {"/etc/passwd": "x"}, "folders": []}', "[" * 9000,
                     '{"files": [1], "links": {}, "folders": []}'):
            (prefix / "share/lspace/INSTALLED").write_text(text)
            done = self.uninstall(prefix)
            self.assertEqual((done.returncode, done.stdout), (2, b""), text)
            self.assertIn(b"is no list of what was installed", done.stderr)
        self.assertTrue((prefix.parent / "precious").exists())

    def test_a_full_disk(self):
        prefix = self.folder()
        done = run(["bash", "-c", 'trap "" XFSZ; ulimit -f 64; exec "$@"', "bash", sys.executable,
                    self.unpacked / "tools/install", prefix], self.base)
        self.assertEqual(done.returncode, 2)
        self.assertIn(b"can't be written: File too large", done.stderr)
        self.assertEqual(below(prefix), {})

    def test_killed_at_any_moment(self):
        """By a signal that can be caught nothing stays; what SIGKILL leaves is taken away."""
        cut = 0
        for kill in range(16):
            prefix, drawn = self.folder(), random.Random(kill)
            number = signal.SIGTERM if kill % 2 else signal.SIGKILL
            running = subprocess.Popen([sys.executable, str(self.unpacked / "tools/install"),
                                        str(prefix)], stdout=subprocess.PIPE,
                                       stderr=subprocess.PIPE, env=PLACES)
            end = time.time() + 10
            while not (prefix / "share/lspace").exists() and time.time() < end:
                time.sleep(0.0005)
            time.sleep(drawn.uniform(0, 0.008))
            running.send_signal(number)
            running.communicate()
            cut += running.returncode != 0
            if running.returncode == 128 + signal.SIGTERM:
                self.assertEqual(below(prefix), {}, kill)
            elif (prefix / "share/lspace/INSTALLED").exists():
                self.assertEqual(self.uninstall(prefix).returncode, 0)
                self.assertEqual(below(prefix), {}, kill)
            self.assertLessEqual(len([it for it in below(prefix).values() if it is not None]), 1)
        self.assertGreater(cut, 4)


if __name__ == "__main__":
    unittest.main()
