"""The script of an interview, as a file that only grows.

  with Script(path) as script:
      script.text           what stands in it
      script.add(line)      adds a line, which is on the disk when this returns

Nothing else in the file is ever touched, and one interview at a time has it. A file that is made
here and gets no line is taken away again."""
import contextlib
import fcntl
import os

from companion import Trouble, read_text, telling


class Script:
    def __init__(self, path):
        self.path = path
        with telling(f"{path} can't be opened"), contextlib.ExitStack() as stack:
            self.file, self.is_new = self.open()
            stack.callback(self.close)
            self.lock()
            os.fsync(self.file)
            self.sync_folder()
            self.text = read_text(path)
            stack.pop_all()

    def __enter__(self):
        return self

    def __exit__(self, *_):
        self.close()

    def open(self):
        """The file, and whether it was made here."""
        flags = os.O_RDWR | os.O_CREAT | os.O_APPEND
        try:
            return os.open(self.path, flags | os.O_EXCL, 0o666), True
        except FileExistsError:
            return os.open(self.path, flags, 0o666), False

    def lock(self):
        """Keeps other interviews away. One that has just ended may have taken the file away."""
        try:
            fcntl.flock(self.file, fcntl.LOCK_EX | fcntl.LOCK_NB)
            is_other = not os.path.samestat(os.fstat(self.file), os.stat(self.path))
        except BlockingIOError:
            is_other = True
        if is_other:
            self.is_new = False
            raise Trouble(f"{self.path} is used by another interview")

    def sync_folder(self):
        """Puts the name of the file on the disk."""
        folder = os.open(self.path.parent, os.O_RDONLY)
        try:
            os.fsync(folder)
        finally:
            os.close(folder)

    def close(self):
        if self.is_new and os.fstat(self.file).st_size == 0:
            os.unlink(self.path)
        os.close(self.file)

    def add(self, line):
        """Adds a line, which is on the disk when this returns. Where that fails the file is as it
        was, since a part of a line could be read as another answer."""
        with telling(f"{self.path} can't keep '{line}'"):
            before = os.fstat(self.file).st_size
            joint = "\n" if before and os.pread(self.file, 1, before - 1) != b"\n" else ""
            data = f"{joint}{line}\n".encode("utf-8", "surrogateescape")
            try:
                if os.write(self.file, data) != len(data):
                    raise OSError(0, "the disk is full")
                os.fsync(self.file)
            except OSError:
                os.ftruncate(self.file, before)
                raise
