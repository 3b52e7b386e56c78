"""How each companion ends where its streams, its program or its time are at an end."""
import os
import signal
import stat
import subprocess
import sys
import tempfile
import threading
import time
import unittest
from pathlib import Path

TOP = Path(__file__).resolve().parents[2]
sys.path.insert(0, str(TOP / "tools/tests"))
import given  # noqa: F401
import companion
import streams

COMPANIONS = ["draw s --dot", "kst states s", "made-class s 3", "report s t.csv --out -",
              "interview i --items a b"]
# A program that tells its process, takes all lines, and never replies.
SILENT = '#!/bin/sh\necho $$ > "$0.on"\nexec cat > /dev/null\n'
SIGNALS = [signal.SIGHUP, signal.SIGINT, signal.SIGQUIT, signal.SIGTERM]


def is_running(number):
    """Whether a process runs; one that has ended may not be taken away yet."""
    try:
        return Path(f"/proc/{number}/stat").read_text().rsplit(")", 1)[1].split()[0] != "Z"
    except OSError:
        return False


class Companions(unittest.TestCase):
    def setUp(self):
        kept = tempfile.TemporaryDirectory()
        self.addCleanup(kept.cleanup)
        self.folder = Path(kept.name)
        self.write("s", "items a b c\nyes a : b\npupil p\n")
        self.write("t.csv", "pupil,a,b,c\nAnn,1,0,1\n")

    def write(self, name, text, mode=0o644):
        (self.folder / name).write_text(text)
        (self.folder / name).chmod(mode)
        return str(self.folder / name)

    def files(self):
        return {it.name: it.read_bytes() for it in self.folder.iterdir() if it.is_file()}

    def command(self, words):
        name, *others = words.split()
        return [sys.executable, str(TOP / "tools" / name), *others]

    def run_by(self, words, redirected="", **more):
        """A run by the shell, with redirections behind the command."""
        shell = ["bash", "-c", f'exec "$@" {redirected}', "bash", *self.command(words)]
        more = {"stdin": subprocess.DEVNULL, "stdout": subprocess.PIPE, **more}
        return subprocess.run(shell, cwd=self.folder, stderr=subprocess.PIPE, timeout=60, **more)

    def ends(self, words, redirected, status, told, **more):
        """That a run has this status, says just this, and leaves the folder as it was."""
        before = self.files()
        done = self.run_by(words, redirected, **more)
        self.assertEqual((done.returncode, done.stderr.decode()), (status, told), words)
        self.assertEqual(self.files(), before, words)
        return done.stdout


class Streams(Companions):
    def test_output_that_is_closed(self):
        for words in COMPANIONS:
            told = f"{words.split()[0]}: standard output is closed\n"
            self.ends(words, ">&-", 2, told)
            self.assertEqual(self.run_by(words, "<&- >&- 2>&-").returncode, 2, words)

    def test_output_that_is_full(self):
        for words in [*COMPANIONS, "draw --help", "interview --help"]:
            told = "standard output can't be written: No space left on device"
            self.ends(words, "> /dev/full", 2, f"{words.split()[0]}: {told}\n")

    def test_output_that_nobody_reads(self):
        for words in [*COMPANIONS, "kst --help"]:
            reading, writing = os.pipe()
            os.close(reading)
            self.ends(words, "", 141, "", stdout=writing)
            os.close(writing)

    def test_errors_that_cannot_be_told(self):
        """The output is as otherwise, and no file or pipe gets the number of a closed stream."""
        self.write("twice", "items a\nitems a\nsave kept\n")
        for words in ["kst states twice", *COMPANIONS[:-1]]:
            made = self.run_by(words)
            self.assertEqual(made.returncode, 0)
            for redirected in ("2>&-", "<&- 2>&-", "2> /dev/full"):
                self.assertEqual(self.ends(words, redirected, 0, ""), made.stdout, words)
        self.run_by(COMPANIONS[-1], "2>&-")
        self.run_by("interview i --items z", "2>&-")  # it has its items already
        self.assertEqual(self.files()["i"], b"items a b\n")

    def test_input_that_is_closed(self):
        for words in COMPANIONS[:-1]:
            self.assertEqual(self.ends(words, "<&-", 0, ""), self.run_by(words).stdout)
        for words in [COMPANIONS[-1], "kst class -"]:
            self.ends(words, "<&-", 2, f"{words.split()[0]}: standard input is closed\n")
            self.ends(words.replace(" i ", " s ").split("--")[0], "< /dev/null 0>&-", 2,
                      f"{words.split()[0]}: standard input is closed\n")

    def test_input_that_cannot_be_read(self):
        self.ends("kst class -", "0> /dev/null", 2,
                  "kst: standard input can't be read: Bad file descriptor\n")

    def test_input_without_end(self):
        self.ends("interview s", "< /dev/zero", 2,
                  "interview: standard input has a line of 65,536 letters or more\n")
        self.ends("kst class /dev/zero", "", 2, "kst: /dev/zero has more than 268,435,456 bytes\n")

    def test_words_that_are_more_than_one_line(self):
        before = self.files()
        done = subprocess.run([*self.command("interview i --items"), "a", "b\nyes a : b"],
                              cwd=self.folder, stdout=subprocess.PIPE, stderr=subprocess.PIPE)
        self.assertEqual((done.returncode, done.stderr.decode()),
                         (2, r"interview: 'items a b\nyes a : b' is more than one line" + "\n"))
        self.assertEqual(self.files(), before)


class Programs(Companions):
    def test_programs_that_cannot_be_run(self):
        plain = self.write("plain", "items a\n", 0o755)
        lost = self.write("lost", "#!/nowhere/sh\n", 0o755)
        for words in COMPANIONS:
            name = words.split()[0]
            for path, why in [(plain, "Exec format error"), (lost, "No such file or directory")]:
                told = f"{name}: {path} can't be run: {why}\n"
                self.ends(f"{words} --program {path}", "", 3, told)
        for path in ("/nowhere", "/tmp", "/" + "x" * 300):
            told = f"{path} is no program that can be run; name it by --program PATH\n"
            self.ends(f"interview i --items a b --program {path}", "", 3, f"interview: {told}")

    def test_a_program_that_ends_at_once(self):
        for words in COMPANIONS:
            told = "the program ended before it had replied: its status is 0"
            self.ends(f"{words} --program /bin/true", "", 3, f"{words.split()[0]}: {told}\n")

    def test_a_program_that_does_not_end(self):
        """It is ended by force, after a time."""
        path = self.write("long", "#!/bin/sh\nexec sleep 60\n", 0o755)
        patience, companion.PATIENCE = companion.PATIENCE, 0.1
        self.addCleanup(setattr, companion, "PATIENCE", patience)
        session = companion.Session(path)
        session.close()
        self.assertEqual(session.running.returncode, -signal.SIGKILL)


class Signals(Companions):
    def started(self, words, **more):
        """A companion, with a folder of its own for what it keeps meanwhile."""
        (self.folder / "tmp").mkdir(exist_ok=True)
        more = {"stdin": subprocess.DEVNULL, **more}
        running = subprocess.Popen(self.command(words), cwd=self.folder, stdout=subprocess.PIPE,
                                   stderr=subprocess.PIPE,
                                   env={**os.environ, "TMPDIR": str(self.folder / "tmp")}, **more)
        self.addCleanup(running.kill)
        return running

    def wait_for(self, is_so):
        end = time.monotonic() + 20
        while not is_so():
            self.assertLess(time.monotonic(), end)
            time.sleep(0.01)

    def program_of(self, running):
        """The process of the silent program, when it has begun."""
        begun = self.folder / "silent.on"
        self.wait_for(lambda: begun.exists() and begun.read_text().endswith("\n"))
        number = int(begun.read_text())
        begun.unlink()
        return number

    def test_signals_take_all_away(self):
        """The folder of links, the new script and the program go, and nothing is said."""
        program = self.write("silent", SILENT, 0o755)
        before = self.files()
        for number, words in zip(SIGNALS * 2, COMPANIONS * 2):
            running = self.started(f"{words} --program {program}")
            process = self.program_of(running)
            running.send_signal(number)
            running.send_signal(signal.SIGHUP)  # as a terminal that goes may send it twice
            said = running.communicate(timeout=20)
            self.assertIn(running.returncode, {128 + number, 128 + signal.SIGHUP}, words)
            self.assertEqual(said[1], b"", words)
            self.assertEqual(list((self.folder / "tmp").iterdir()), [], words)
            self.assertEqual(self.files(), before, words)
            self.wait_for(lambda: not is_running(process))

    def test_the_status_tells_the_signal(self):
        program = self.write("silent", SILENT, 0o755)
        for number in SIGNALS:
            running = self.started(f"kst states s --program {program}")
            self.program_of(running)
            running.send_signal(number)
            running.communicate(timeout=20)
            self.assertEqual(running.returncode, 128 + number)

    def test_a_signal_while_nobody_reads(self):
        """What isn't written yet is dropped: else the end would wait for a reader."""
        running = self.started("made-class s 100000")
        running.stdout.read(1)
        time.sleep(0.5)  # then the pipe is full
        running.send_signal(signal.SIGTERM)
        self.assertEqual(running.wait(timeout=20), 128 + signal.SIGTERM)
        self.assertEqual(running.communicate()[1], b"")

    def test_an_ignored_signal_stays_so(self):
        running = self.started("interview i --items a b", stdin=subprocess.PIPE,
                               preexec_fn=lambda: signal.signal(signal.SIGHUP, signal.SIG_IGN))
        running.stdout.readline()
        running.send_signal(signal.SIGHUP)
        running.communicate(b"y\nq\n", timeout=20)
        self.assertEqual(running.returncode, 0)
        self.assertEqual(self.files()["i"], b"items a b\nyes a : b\n")


class Writing(Companions):
    def test_a_new_file_has_the_rights_of_any(self):
        mask = os.umask(0o027)
        self.addCleanup(os.umask, mask)
        streams.write_whole(str(self.folder / "new"), b"page")
        self.assertEqual(stat.S_IMODE((self.folder / "new").stat().st_mode), 0o640)
        self.assertEqual(self.files()["new"], b"page")
        self.assertEqual(os.umask(0o027), 0o027)

    def test_an_old_file_keeps_its_rights_and_links(self):
        old = Path(self.write("old", "as it was", 0o640))
        (self.folder / "link").symlink_to("old")
        streams.write_whole(str(self.folder / "link"), b"page")
        self.assertTrue((self.folder / "link").is_symlink())
        self.assertEqual((old.read_bytes(), stat.S_IMODE(old.stat().st_mode)), (b"page", 0o640))
        self.assertEqual(sorted(self.files()), ["link", "old", "s", "t.csv"])

    def test_what_is_no_file_is_written_and_not_replaced(self):
        pipe = self.folder / "pipe"
        os.mkfifo(pipe)
        read = []
        reader = threading.Thread(target=lambda: read.append(pipe.read_bytes()),
                                  daemon=True)
        reader.start()
        streams.write_whole(str(pipe), b"page")
        if not stat.S_ISFIFO(pipe.stat().st_mode):
            self.fail("it is replaced")
        reader.join(20)
        self.assertEqual(read, [b"page"])

    def test_a_write_that_fails_leaves_all_as_it_was(self):
        """No file gets more than 1,024 bytes; the page and the picture have more."""
        self.write("page", "as it was")
        self.write("large", "items a b c d e\n")
        for words in ["draw large --dot --out page", "report s t.csv --out page"]:
            shell = ["bash", "-c", 'trap "" XFSZ; ulimit -f 1; exec "$@"', "bash",
                     *self.command(words)]
            before = self.files()
            done = subprocess.run(shell, cwd=self.folder, stdout=subprocess.DEVNULL,
                                  stderr=subprocess.PIPE)
            told = f"{words.split()[0]}: page can't be written: File too large\n"
            self.assertEqual((done.returncode, done.stderr.decode()), (2, told))
            self.assertEqual(self.files(), before)

    def test_names_of_files_that_are_not_utf8(self):
        """Each companion takes such a name, and shows the byte in its note and its message."""
        script, table = (os.fsencode(self.folder) + it for it in (b"/s\xff", b"/t\xff.csv"))
        for path, text in [(script, "items a\nfoo\n"), (table, "a\n2\n")]:
            Path(os.fsdecode(path)).write_text(text)
        for words in ("draw", "kst states", "made-class"):
            made = subprocess.run([*self.command(words), script, *["3"][:words == "made-class"]],
                                  cwd=self.folder, stdout=subprocess.PIPE, stderr=subprocess.PIPE,
                                  env={**os.environ, "PATH": "/nowhere"})
            self.assertEqual(made.returncode, 3 if words == "draw" else 0)
            self.assertIn(rb"/s\udcff: the line is no command (no 10 1)", made.stderr)
        for words, path, status, told in [
                ("interview", script, 0, b""), ("kst class", table, 2, b"kst: line 2, column a: 2"),
                ("report s", table, 1, rb"report: " + os.fsencode(self.folder) + rb"/t\udcff.csv: "
                                       rb"the first record has to be any word")]:
            made = subprocess.run([*self.command(words), path], cwd=self.folder,
                                  stdin=subprocess.DEVNULL, stdout=subprocess.PIPE,
                                  stderr=subprocess.PIPE)
            self.assertEqual(made.returncode, status, made.stderr)
            self.assertIn(told, made.stderr)

    def test_a_folder_is_no_file(self):
        (self.folder / "pages").mkdir()
        for path in (".", "/", "''", "/tmp", "pages", "pages/", "none/"):
            for words in ("draw s --dot", "report s t.csv"):
                self.ends(words, f"--out {path}", 2, f"{words.split()[0]}: '{path.strip(chr(39))}'"
                                                     " can't be written: it names no file\n")
        self.assertEqual(sorted(it.name for it in self.folder.iterdir()), ["pages", "s", "t.csv"])
        self.assertEqual(list((self.folder / "pages").iterdir()), [])

    def test_a_fault_of_a_companion_is_a_line(self):
        status, told = streams.end_of(lambda: [][0])
        self.assertEqual(status, 3)
        self.assertRegex(told, r"^a fault of the companion, at test_ends.py:\d+: IndexError\(.*\)$")


if __name__ == "__main__":
    unittest.main()
