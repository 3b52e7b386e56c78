"""What a companion reads and writes, and how it ends: by a status and one plain line.

  sys.exit(status_of(main))              runs main, and tells what it couldn't do
  with telling("x can't be read"): ..    a call of the system that fails here is told so
  tell("a note")                         a line on standard error, behind the companion's name
  write_whole(path, data)                the bytes come into a file whole, or not at all

The status is 0 where all was done, 1 where the program refused something, 2 where words, files or
streams are wrong, and 3 where the program can't be used. Where a signal ends the companion, the
status is 128 and the signal's number. So it is, without a line, where nobody reads its output any
more (141)."""
import signal

if signal.getsignal(signal.SIGINT) == signal.default_int_handler:
    signal.signal(signal.SIGINT, signal.SIG_DFL)  # until `status_of` sets it: no trace of Python

import contextlib
import errno
import io
import os
import stat
import sys
import tempfile
import traceback
from pathlib import Path

ENDING = [signal.SIGHUP, signal.SIGINT, signal.SIGQUIT, signal.SIGTERM]
UNREAD = 128 + signal.SIGPIPE


class Trouble(Exception):
    """What can't be done, in one plain line, with the status of the companion."""

    def __init__(self, text, status=2):
        super().__init__(text)
        self.status = status


@contextlib.contextmanager
def telling(what):
    """Makes a Trouble of a call of the system that fails: what can't be done, and why."""
    try:
        yield
    except OSError as error:
        raise Trouble(f"{what}: {error.strerror or error}") from None


def tell(text):
    print(f"{Path(sys.argv[0]).name}: {text}", file=sys.stderr)


class Output(io.RawIOBase):
    """An output of the process. After a write that failed it takes everything and writes nothing,
    so that what is left is not tried again when Python ends."""

    def __init__(self, number):
        super().__init__()
        self.number, self.is_over = number, False

    def fileno(self):
        return self.number

    def isatty(self):
        return os.isatty(self.number)

    def writable(self):
        return True

    def write(self, data):
        if not self.is_over:
            try:
                return os.write(self.number, data)
            except OSError as error:
                self.is_over = True
                self.fail(error)
        return len(data)

    def fail(self, error):
        """Nothing where it is standard error: there is no place to tell that."""
        if self.number == 1 and isinstance(error, BrokenPipeError):
            raise Trouble("", UNREAD)
        if self.number == 1:
            raise Trouble(f"standard output can't be written: {error.strerror}")


def text_output(number, before):
    """The stream of text of an output, which writes any text. A closed one writes UTF-8."""
    raw = Output(number)
    return io.TextIOWrapper(io.BufferedWriter(raw), before.encoding if before else "utf-8",
                            "backslashreplace", line_buffering=raw.isatty() or number == 2)


def fit_streams():
    """Makes the standard streams take any text and tell where they fail. A closed one is opened on
    nothing: else the next file would get its number."""
    is_closed = sys.stdout is None
    for stream in (sys.stdin, sys.stdout, sys.stderr):
        if stream is None:  # of the free numbers it gets the least
            os.set_inheritable(os.open(os.devnull, os.O_RDWR), True)
    if sys.stdin:
        sys.stdin.reconfigure(errors="backslashreplace")
    sys.stdout, sys.stderr = text_output(1, sys.stdout), text_output(2, sys.stderr)
    if is_closed:
        raise Trouble("standard output is closed")


def demand_input():
    if sys.stdin is None:
        raise Trouble("standard input is closed")


def set_signals(action):
    """Sets what the signals do that end a process. One that is ignored stays so, as by `nohup`. The
    action is a function of this file: Python complains of a signal that comes while it becomes
    one of the system's."""
    for number in ENDING:
        if signal.getsignal(number) != signal.SIG_IGN:
            signal.signal(number, action)


def stop(number, _):
    """Ends by an exception, so that all is put back. Further signals don't disturb that."""
    set_signals(lambda *_: None)
    raise KeyboardInterrupt(number)


def leave(number, _):
    """Ends at once: there is nothing to put back."""
    os._exit(128 + number)


def fault_of(error):
    """Where a companion itself is wrong, and how."""
    place = traceback.extract_tb(error.__traceback__)[-1]
    return f"a fault of the companion, at {Path(place.filename).name}:{place.lineno}: {error!r}"


def end_of(doing):
    """The status with which a call ends, and what is to tell of that."""
    try:
        return doing() or 0, ""
    except SystemExit as ending:  # of argparse, which has told what there is
        return ending.code or 0, ""
    except KeyboardInterrupt as ending:
        return 128 + (ending.args or [signal.SIGINT])[0], ""
    except Trouble as trouble:
        return trouble.status, str(trouble)
    except MemoryError:
        return 3, "memory ran out"
    except OSError as error:
        return 2, f"{error.filename or 'the system'}: {error.strerror or error}"
    except Exception as error:
        return 3, fault_of(error)


def run(main):
    """Runs main with streams and signals as above. Behind it nothing is left to put back."""
    fit_streams()
    set_signals(stop)
    try:
        return main()
    finally:
        set_signals(leave)


def status_of(main):
    """The status with which main ends, and then the companion. What can't be done is told in one
    line. Where a signal ended it, what isn't written yet is dropped: nobody may read it."""
    status, told = end_of(lambda: run(main))
    if status > 128:
        sys.stdout.buffer.raw.is_over = True
    late, told_late = end_of(sys.stdout.flush)
    for text in filter(None, (told, told_late)):
        tell(text)
    return status or late


def write_whole(path, data):
    """Puts the bytes into a file when all of them are written. Where that fails, the file is as it
    was, and nothing stands beside it. What is no file, such as a pipe, is just written."""
    if not os.path.basename(path) or os.path.isdir(path):
        raise Trouble(f"'{path}' can't be written: it names no file")
    with telling(f"{path} can't be written"):
        if os.path.exists(path) and not os.path.isfile(path):
            with open(path, "wb") as file:
                file.write(data)
        else:
            replace(os.path.realpath(path), data)


def replace(path, data):
    """Puts a new file in place of the one with this path, or where there is none."""
    old = os.stat(path) if os.path.exists(path) else None
    if old and not os.access(path, os.W_OK):
        raise PermissionError(errno.EACCES, os.strerror(errno.EACCES))
    handle, part = tempfile.mkstemp(".part", ".", os.path.dirname(path))
    try:
        with open(handle, "wb") as file:
            fit_rights(handle, old)
            file.write(data)
            file.flush()
            os.fsync(handle)
        os.replace(part, path)
    except BaseException:
        with contextlib.suppress(FileNotFoundError):
            os.unlink(part)
        raise


def fit_rights(handle, old):
    """Gives a new file the rights and the owner of the old one, or those of any new file. Where it
    can't have that owner, nobody but its own gets a right."""
    if old is None:
        mask = os.umask(0)
        os.umask(mask)
        os.fchmod(handle, 0o666 & ~mask)
        return
    mode = stat.S_IMODE(old.st_mode) & 0o777
    try:
        os.fchown(handle, old.st_uid, old.st_gid)
    except PermissionError:
        mode &= 0o700
    os.fchmod(handle, mode)
