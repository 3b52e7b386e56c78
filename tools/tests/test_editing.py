"""What bash completes, and what Vim shows of a script."""
import os
import pty
import re
import shlex
import shutil
import signal
import subprocess
import sys
import tempfile
import time
import unittest
from pathlib import Path

TOP = Path(__file__).resolve().parents[2]
sys.path.insert(0, str(TOP / "tools"))
import packing
import refusals

COMPLETION, SYNTAX = TOP / "tools/completion.bash", TOP / "tools/lspace.vim"
SHOWN = """for number in range(1, line('$'))
  for place in range(1, len(getline(number)))
    let shown = synIDattr(synID(number, place, 1), 'name')
    let letter = getline(number)[place - 1]
    call writefile([number . "\t" . letter . "\t" . shown], 'shown', 'a')
  endfor
endfor
qa!
"""


def has_syntax():
    return shutil.which("vim") is not None and b"+syntax" in subprocess.run(
        ["vim", "--version"], stdout=subprocess.PIPE, stdin=subprocess.DEVNULL).stdout


class InFolder(unittest.TestCase):
    def setUp(self):
        kept = tempfile.TemporaryDirectory()
        self.addCleanup(kept.cleanup)
        self.folder = Path(kept.name)


@unittest.skipUnless(shutil.which("bash"), "bash isn't found")
class Completions(InFolder):
    def setUp(self):
        super().setUp()
        (self.folder / "bin").mkdir()
        for name in packing.COMPANIONS:
            (self.folder / "bin" / f"lspace-{name}").symlink_to(TOP / "tools" / name)
        self.places = {**os.environ, "PATH": f"{self.folder}/bin:{os.environ['PATH']}"}

    def completed(self, *words, by="_lspace"):
        """The words that can stand for the last one."""
        script = (f"source {shlex.quote(str(COMPLETION))}; COMP_WORDS=({shlex.join(words)})\n"
                  f"COMP_CWORD={len(words) - 1}; {by}; printf '%s\\n' \"${{COMPREPLY[@]}}\"")
        done = subprocess.run(["bash", "-c", script], cwd=self.folder, env=self.places,
                              stdout=subprocess.PIPE, stderr=subprocess.PIPE, timeout=60)
        self.assertEqual(done.stderr, b"")
        return done.stdout.decode().split("\n")[:-1]

    def test_the_forms(self):
        for words, wanted in {"": "--script --drill --number", "--s": "--script", "x": "",
                              "--drill ": "", "--drill 4 ": "--number", "--number 7 ": "--drill",
                              "--drill 4 --number ": "", "--drill 4 --number 7 ": "",
                              "--script a ": "", "< ": ""}.items():
            found = self.completed("lspace", *words.split(" "))
            self.assertEqual(" ".join(found), wanted, words)

    def test_the_files_that_a_script_can_be(self):
        for name in ("first.txt", "fit", "-f", ".first", "f" * 65, "f it", "f$(touch x)", "f\nit"):
            (self.folder / name).touch()
        (self.folder / "folder").mkdir()
        self.assertEqual(self.completed("lspace", "--script", "f"), ["first.txt", "fit"])
        self.assertEqual(self.completed("lspace", "--script", "-"), ["-f"])
        self.assertFalse((self.folder / "x").exists())

    def test_the_companions_have_completion(self):
        named = subprocess.run(["bash", "-c", f"source {shlex.quote(str(COMPLETION))}; complete"],
                               stdout=subprocess.PIPE).stdout.decode()
        self.assertEqual(set(re.findall(r"_lspace_companion lspace-(\S+)", named)),
                         set(packing.COMPANIONS) - {"install"})

    def test_the_options_of_companions(self):
        def found(*words):
            return self.completed(*words, by="_lspace_companion")
        self.assertEqual(found("lspace-shell", "--"),
                         ["--help", "--no-history", "--labels", "--program"])
        self.assertEqual(found("lspace-report", "s", "--sort", ""), ["name", "state", "table"])
        self.assertEqual(found("lspace-kst", "s"), ["states", "sets"])
        self.assertEqual(found("lspace-kst", "sets", ""), [""])
        self.assertEqual(found("lspace-nowhere", "--"), [""])

    def test_at_a_terminal(self):
        """A tabulator completes an option, a script, and any file behind a redirection."""
        (self.folder / "first.txt").write_text("of a file")
        (self.folder / "a b").write_text("of a b")
        typed = (f"PS1= PS2=; bind 'set bell-style none'; source {shlex.quote(str(COMPLETION))}\n"
                 "lspace() { printf '<%s>' \"$@\" \"$(cat)\" > told; }\n"
                 "lspace --scr\tfi\t< a\t\nexit\n")
        child, terminal = pty.fork()
        if not child:
            os.chdir(self.folder)
            os.execvpe("bash", ["bash", "--norc", "--noprofile", "-i"], self.places)
        os.write(terminal, typed.encode())
        end = time.time() + 30
        while not (self.folder / "told").exists() and time.time() < end:
            time.sleep(0.05)
        time.sleep(0.2)
        os.kill(child, signal.SIGKILL)
        os.waitpid(child, 0)
        os.close(terminal)
        self.assertEqual((self.folder / "told").read_text(), "<--script><first.txt><of a b>")


class Syntax(InFolder):
    def test_its_commands_are_those_of_the_document(self):
        lines = re.findall(r"^syntax keyword lspaceCommand contained (.*)$", SYNTAX.read_text(),
                           re.M)
        self.assertEqual([word for line in lines for word in line.split()],
                         [it.name for it in refusals.commands()])

    def shown(self, text):
        """Of each line the letters of each kind that Vim shows, by the kind."""
        for place, name in {"syntax": SYNTAX, "ftdetect": TOP / "tools/ftdetect.vim"}.items():
            (self.folder / place).mkdir()
            shutil.copy(name, self.folder / place / "lspace.vim")
        (self.folder / "s.lspace").write_text(text)
        (self.folder / "vimrc").write_text(f"set nocompatible rtp^={self.folder}\nsyntax on\n"
                                           f"edit s.lspace\n{SHOWN}")
        subprocess.run(["vim", "-es", "-u", "vimrc"], cwd=self.folder, timeout=60,
                       stdin=subprocess.DEVNULL, stdout=subprocess.DEVNULL)
        found = [{} for _ in text.splitlines()]
        for line in (self.folder / "shown").read_text().splitlines():
            number, letter, kind = line.split("\t")
            kinds = found[int(number) - 1]
            kinds[kind[6:]] = kinds.get(kind[6:], "") + letter.strip()
        return [{kind: letters for kind, letters in it.items() if kind} for it in found]

    @unittest.skipUnless(has_syntax(), "no vim is found that colours")
    def test_what_vim_shows(self):
        self.assertEqual(self.shown("# a note\nitems a yes 9\n safe-open\nfoo a\nyes a b : c\n"
                                    "start base s\nstates 2 after 8\nreply Ann a right\n"), [
            {"Note": "#anote"}, {"Command": "items", "Name": "ayes", "Number": "9"},
            {"Command": "safe-open"}, {"First": "foo", "Name": "a"},
            {"Command": "yes", "Name": "abc", "Mark": ":"},
            {"Command": "start", "Word": "base", "Name": "s"},
            {"Command": "states", "Number": "28", "Word": "after"},
            {"Command": "reply", "Name": "Anna", "Word": "right"}])


if __name__ == "__main__":
    unittest.main()
