"""The keys of an interview: single ones at a terminal, else the lines of standard input.

  with Keys() as keys:
      key, words = keys.next()    a key, and the words behind it, which only a line has
      key = keys.key()            a key alone
      text = keys.line()          a whole line, also at a terminal
      keys.give_back(text)        a line of standard input, which comes again

At a terminal a key comes without the end of a line, and isn't shown. However the interview ends,
and while it is stopped (^Z), the terminal is as it was before."""
import atexit
import contextlib
import os
import select
import signal
import sys
import termios
import tty

from companion import LONGEST_LINE, Trouble, demand_input, telling

REST = 0.05  # seconds, in which the rest of such a key as an arrow comes
LONGEST_KEY = 16


def parted(line):
    """The key of a line, and the words behind it."""
    words = line.strip().split(None, 1)
    return (words + [""])[0].lower(), (words[1:] + [""])[0]


class Keys:
    def __init__(self):
        demand_input()
        self.alone, self.waiting = sys.stdin.isatty(), []
        self.before = termios.tcgetattr(sys.stdin) if self.alone else None

    def __enter__(self):
        if self.alone:
            atexit.register(self.put_back)  # for a signal that comes when `with` ends
            if signal.getsignal(signal.SIGTSTP) != signal.SIG_IGN:
                signal.signal(signal.SIGTSTP, self.pause)
            self.take()
        return self

    def __exit__(self, *_):
        self.put_back()

    def take(self):
        """Lets single keys come."""
        if self.alone:
            tty.setcbreak(sys.stdin, termios.TCSANOW)

    def put_back(self):
        """Makes the terminal as it was, if it is still there."""
        if self.alone:
            with contextlib.suppress(termios.error):
                termios.tcsetattr(sys.stdin, termios.TCSANOW, self.before)

    def pause(self, *_):
        """Stops here, if anyone could let it go on, and goes on here with the keys as they were."""
        now = termios.tcgetattr(sys.stdin)
        self.put_back()
        signal.signal(signal.SIGTSTP, signal.SIG_DFL)
        os.kill(os.getpid(), signal.SIGTSTP)
        signal.signal(signal.SIGTSTP, self.pause)
        termios.tcsetattr(sys.stdin, termios.TCSANOW, now)

    def next(self):
        """A key, and the words behind it; `q` at the end of the input. At a terminal `l` takes a
        line, which is a key with its words."""
        if not self.alone:
            return parted(self.read_line() or "q")
        key = self.key()
        if key == "w":
            print("Of which question? Names : name, or nothing for this one.", flush=True)
            return key, self.line().strip()
        if key == "l":
            print("A line with a key and a question, such as: n add : expand", flush=True)
            return parted(self.line())
        return key, ""

    def key(self):
        """A key alone, or a line as it stands; `q` at the end of the input."""
        if not self.alone:
            return self.read_line() or "q"
        with telling("the terminal can't be read"):
            key = os.read(sys.stdin.fileno(), 1)
            while key == b"\x1b" and select.select([sys.stdin], [], [], REST)[0]:
                if len(os.read(sys.stdin.fileno(), LONGEST_KEY)) < LONGEST_KEY:
                    break  # an arrow or the like, of which no letter is a key
        key = key.decode("ascii", "replace").lower()
        return "q" if key in ("", "\x04") else key

    def give_back(self, text):
        self.waiting.append(text)

    def line(self):
        """A whole line; an empty text at the end of the input."""
        self.put_back()
        text = self.read_line()
        self.take()
        return text

    def read_line(self):
        if self.waiting:
            return self.waiting.pop()
        with telling("standard input can't be read"):
            text = sys.stdin.readline(LONGEST_LINE)
        if len(text) == LONGEST_LINE:
            raise Trouble(f"standard input has a line of {LONGEST_LINE:,} letters or more")
        return text
