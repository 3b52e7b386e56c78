"""Runs the program on a script in a folder that has the files of a trial and no others."""
import os
import select
import shutil
import subprocess
import tempfile
from trials import replies
from trials.replies import Differs

PATIENCE = 60
MEMORY = "/dev/shm"


def encode(text):
    return text.encode("utf-8", "surrogateescape")


class Run:
    """What one run of the program wrote, its status, and the reply to each line."""

    def __init__(self, lines, output, status):
        self.lines, self.output, self.status = lines, output, status
        self.replies = replies.cut(lines, output.decode("utf-8", "replace"))


class Program:
    """The program, with a folder in which it is run. The folder is in memory where that can be."""

    def __init__(self, path):
        self.path = path
        self.folder = tempfile.mkdtemp(prefix="lspace-trials-",
                                       dir=MEMORY if os.path.isdir(MEMORY) else None)
        self.there = {}
        self.runs = 0

    def close(self):
        shutil.rmtree(self.folder)

    def fill(self, files):
        """Sees to it that the folder has these files and no others."""
        for name in set(self.there) - set(files):
            os.unlink(os.path.join(self.folder, name))
        for name, text in files.items():
            if self.there.get(name) != text:
                with open(os.path.join(self.folder, name), "wb") as file:
                    file.write(text)
        self.there = dict(files)

    def look(self):
        """The files of the folder as they are now."""
        self.there = {}
        for name in os.listdir(self.folder):
            with open(os.path.join(self.folder, name), "rb") as file:
                self.there[name] = file.read()
        return dict(self.there)

    def call(self, script, files, words=()):
        """Runs the program on the bytes of a script: what it writes, and its status."""
        self.fill(files)
        self.runs += 1
        try:
            done = subprocess.run([self.path, *words], input=script, cwd=self.folder,
                                  stdout=subprocess.PIPE, stderr=subprocess.DEVNULL,
                                  timeout=PATIENCE, close_fds=False)
        except subprocess.TimeoutExpired:
            raise Differs(f"a run didn't end within {PATIENCE} seconds") from None
        if b"save" in script or words:
            self.look()
        return done.stdout, done.returncode

    def run(self, lines, files):
        """Runs the program on the lines of a script."""
        script = encode("".join(line + "\n" for line in lines))
        output, status = self.call(script, files)
        if status not in (0, 1):
            raise Differs(f"the status is {status}, and this was written: {output[-300:]!r}")
        return Run(lines, output, status)

    def live(self, files):
        """A run that is given its lines one by one."""
        self.fill(files)
        self.runs += 1
        return Live(self)


class Live:
    """A run in which each reply is read before the next line is written."""

    def __init__(self, program):
        self.running = subprocess.Popen([program.path], cwd=program.folder, bufsize=0,
                                        stdin=subprocess.PIPE, stdout=subprocess.PIPE,
                                        stderr=subprocess.DEVNULL, close_fds=False)
        self.program = program
        self.output = b""

    def say(self, line):
        """The reply to a line, or None where it is silent."""
        return self.say_all([line])[0]

    def say_all(self, lines):
        """The replies to some lines, which are written at once."""
        self.running.stdin.write(encode("".join(line + "\n" for line in lines)))
        text, piece = b"", b""
        while True:
            try:
                found = replies.cut(lines, text.decode("utf-8", "replace"))
                self.output += text
                return found
            except Differs:
                piece = self.piece()
                text += piece
                if not piece:
                    raise

    def piece(self):
        """What is written next; nothing at the end."""
        stream = self.running.stdout.fileno()
        if not select.select([stream], [], [], PATIENCE)[0]:
            raise Differs(f"no reply came within {PATIENCE} seconds")
        return os.read(stream, 1 << 20)

    def end(self):
        """Ends the script: what was written in all, and the status."""
        try:
            rest, _ = self.running.communicate(timeout=PATIENCE)
        except subprocess.TimeoutExpired:
            self.running.kill()
            rest, _ = self.running.communicate()
        self.program.look()
        return self.output + rest, self.running.returncode
