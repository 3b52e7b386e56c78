"""What the companions of the program share: finding it, asking it, and telling what it says.
How they read, write and end is told by `streams`, of which the names are here as well.

A companion is a script of this folder that wraps the program's own words. It proves nothing: what
it prints is what the program replied, put in another form.

  program = find_program(options.program)         the program, or an end with a plain line
  for line, reply in run_script(program, text):   a script's lines, each with its reply's lines
  with Session(program) as session:               the program, kept running
      session.say("yes a : b")                    the lines of one reply: ["ok 1"]
      session.cursors(128)                        those of the states; None where they are more
"""
import argparse
import contextlib
import csv
import io
import os
import re
import shutil
import subprocess
import sys
from pathlib import Path

from streams import Trouble, demand_input, status_of, tell, telling, write_whole  # noqa: F401

TOP = Path(__file__).resolve().parent.parent
BUILT = TOP / "crates/ls_app/out/ls_app"
LETTERS = "of the letters a to z and A to Z, digits, '_', '-' and '.'"
NAME_RULE = f"a name has 1 to 40 {LETTERS}"
FILE_RULE = f"a file's name has 1 to 64 {LETTERS}, the first of them no '.'"
LONGEST_LINE = 65536
LONGEST_TEXT = 2**28  # bytes of a file that is read, so that one without end is refused
MOST_PUPILS = 4096  # that a class table may have
LONGEST_FIELD = 2**31 - 1
PAGE = 256  # of states that are read at once
PATIENCE = 10  # seconds, after which a program that doesn't end is ended
# How the last line of a reply begins, for the commands whose reply may have more than one line.
LAST_LINES = {
    "states": "more ", "project": "more ", "skills": "more ", "mesh": "more ", "paths": "more ",
    "safe-states": "more ", "base": "base ", "project-base": "learning ", "relation": "relation ",
    "class": "class ", "report": "fringes", "safe-list": "safe ",
}
ENDS = {
    2: "it didn't take its words", 3: "its script could not be read", 4: "it could not write",
    5: "the script is too long", 6: "memory ran out", 7: "the folder lacks the script",
    125: "it could not be built",
}
REFUSALS = {
    10: "the line is no command", 11: "the items were given before", 12: "these are no items",
    13: "a start comes before the first answer", 14: "the file is no start of these items",
    15: "no items were given yet, or a word that must name an item doesn't",
    16: "there are too many sets of so many items", 17: "the blocks can't have this size",
    18: "the question has no item before the colon, or the same item on both sides",
    19: "this question was answered before", 20: "the earlier answers already tell Yes",
    21: "the earlier answers already tell No", 22: "there are too many answers",
    23: "no answer that stands has this number", 24: "the cursor is none",
    25: "the base of the states is too large", 26: "the file isn't there",
    27: "the file could not be read or written", 28: "the file is too long",
    29: "the file is no list of sets of these items", 30: "the set is no state",
    31: "the states are no learning space", 32: "no state has these fringes",
    33: "these aren't all items, each once", 34: "there are too many states to assess pupils on",
    35: "the weights may grow too large: take a smaller budget, or smaller odds",
    36: "16 pupils stand, and no more can", 37: "a pupil has this name",
    38: "no pupil has this name", 39: "the pupil's assessment is over",
    40: "the pupil is asked another item", 41: "the file is no class table of these items",
    42: "the file is no saved session", 43: "a number is out of its range",
    50: "a safe interview stands", 51: "no safe interview stands",
    52: "this answer was given before", 53: "the base of the states would be too large",
    60: "the file is no skill file of these items", 70: "the two files give no mesh",
    80: "the file of pairs is no chart of these items",
}


def find_program(option=None):
    """The path of the program: the option, the variable LSPACE, or the built one, which in an
    installation is the `lspace` there. In a repository that one would build, and so isn't taken."""
    named = option or os.environ.get("LSPACE")
    if not named and (TOP / "crates.txt").is_file() and not is_built():
        raise Trouble(f"no program is built of these sources; {TOP / 'lspace'} builds it, in hours,"
                      " or LSPACE=PATH names another", 3)
    path = Path(named) if named else BUILT if BUILT.is_file() else TOP / "lspace"
    found = os.path.abspath(path) if os.path.isfile(path) else shutil.which(str(path))
    if not found or not os.access(found, os.X_OK):
        raise Trouble(f"{path} is no program that can be run; name it by --program PATH", 3)
    return found


def printed_by(words):
    """What a command prints at the top; None where it fails."""
    try:
        done = subprocess.run(words, cwd=TOP, stdout=subprocess.PIPE, stderr=subprocess.DEVNULL)
    except OSError:
        return None
    return done.stdout.decode().strip() if done.returncode == 0 else None


def is_built():
    """Whether a program stands that was built of these sources, as the launcher tells it."""
    stamp = BUILT.with_name("lspace.sources")
    if not (os.access(BUILT, os.X_OK) and stamp.is_file()):
        return False
    wanted = printed_by([str(TOP / "tools/sources"), "stamp"])
    return bool(wanted) and read_text(stamp).strip() == wanted


def read_text(path):
    """The text of a file. Bytes that aren't UTF-8 are kept as they are."""
    return read_bytes(path).decode("utf-8", "surrogateescape")


def read_bytes(path):
    with telling(f"{path} can't be read"), open(path, "rb") as file:
        return bounded(file, path)


def bounded(file, name):
    """The bytes of a file, if they aren't too many."""
    data = file.read(LONGEST_TEXT + 1)
    if len(data) > LONGEST_TEXT:
        raise Trouble(f"{name} has more than {LONGEST_TEXT:,} bytes")
    return data


def read_input():
    """The bytes of standard input."""
    demand_input()
    with telling("standard input can't be read"):
        return bounded(sys.stdin.buffer, "standard input")


def records_of(text, separator=","):
    """The records of a table, each with the number of the line on which it ends. A field may have
    any length."""
    if "\0" in text:
        raise Trouble("the table has a byte 0, so it is no text; save it as CSV in UTF-8")
    csv.field_size_limit(LONGEST_FIELD)
    reader = csv.reader(io.StringIO(text, newline=""), delimiter=separator)
    try:
        yield from ((reader.line_num, fields) for fields in reader if fields)
    except csv.Error as error:
        raise Trouble(f"line {reader.line_num} of the table: {error}") from None


def use_of(text):
    """What a companion says of its use, with the names that the commands have where it stands: in
    an installation that is `lspace-shell` in place of `tools/shell`."""
    if not Path(sys.argv[0]).name.startswith("lspace-"):
        return text
    return re.sub(r"\btools/([a-z])", r"lspace-\1", text).replace("./lspace", "lspace")


def is_name(word):
    """Whether an item or a pupil can have this name."""
    return re.fullmatch(r"[A-Za-z0-9_.-]{1,40}", word) is not None


def is_file_name(word):
    """Whether a command can name a file so."""
    return re.fullmatch(r"[A-Za-z0-9_-][A-Za-z0-9_.-]{0,63}", word) is not None


def clipped(text):
    """A text of a table, as it stands in a message: in one line, and not without end."""
    line = " ".join(text.split())
    return line if len(line) <= 60 else line[:60] + ".."


def count_of(word):
    """The number from 1 on that a word of the command line is."""
    if not re.fullmatch("[1-9][0-9]{0,8}", word):
        raise argparse.ArgumentTypeError(f"{word} is no number from 1 on")
    return int(word)


def percent_of(word):
    """The number from 0 to 100 that a word of the command line is."""
    if not re.fullmatch("[0-9]{1,2}|100", word):
        raise argparse.ArgumentTypeError(f"{word} is no number from 0 to 100")
    return int(word)


def words_of(line):
    """The words of a line, as the program cuts them; none of a note."""
    line = line[:-1] if line.endswith("\r") else line
    return [] if line.lstrip(" \t").startswith("#") else re.findall(r"[:|]|[^ \t,:|]+", line)


def take_reply(line, next_line):
    """The lines of the reply to this line, each of which `next_line()` gives."""
    words = words_of(line)
    if not words and len(line.encode("utf-8", "surrogateescape")) <= LONGEST_LINE:
        return []
    reply = [next_line()]
    last = LAST_LINES.get(words[0] if words else "", "")
    while not reply[0].startswith("no ") and not reply[-1].startswith(last):
        reply.append(next_line())
    return reply


def run_script(program, text, folder="."):
    """Each line of a script with the lines of its reply, from one run in the folder."""
    with Session(program, folder) as session:
        lines = text.split("\n")
        return [(line, session.say(line)) for line in lines[:-1] + [it for it in lines[-1:] if it]]


class Session:
    """The program, kept running in a folder: a line in, its reply's lines out."""

    def __init__(self, program, folder="."):
        try:
            self.running = subprocess.Popen([program], stdin=subprocess.PIPE,
                                            stdout=subprocess.PIPE, cwd=folder)
        except OSError as error:
            raise Trouble(f"{program} can't be run: {error.strerror}", 3) from None

    def __enter__(self):
        return self

    def __exit__(self, *_):
        self.close()

    def say(self, line):
        """The lines of the reply to a line; none where it is empty or a note."""
        if "\n" in line:
            raise Trouble(f"{line!r} is more than one line")
        self.write(line + "\n")
        return take_reply(line, self.next_line)

    def say_all(self, lines):
        """The one line of the reply to each of many lines. They are written at once, so that there
        may be at most some hundreds, whose replies are short."""
        self.write("\n".join(lines) + "\n" if lines else "")
        return [self.next_line() for _ in lines]

    def write(self, text):
        try:
            self.running.stdin.write(text.encode("utf-8", "surrogateescape"))
            self.running.stdin.flush()
        except BrokenPipeError:
            self.tell_end()

    def next_line(self):
        line = self.running.stdout.readline()
        if not line.endswith(b"\n"):
            self.tell_end()
        return line[:-1].decode("utf-8", "surrogateescape")

    def tell_end(self):
        status = self.running.wait()
        why = ENDS.get(status, f"its status is {status}")
        raise Trouble(f"the program ended before it had replied: {why}", 3)

    def cursors(self, most):
        """The cursors of all states, in their order; None where there are more than `most`, which
        is known as soon as that many were read. The sets themselves would take too much memory."""
        found, after, more = [], "", "more yes"
        while more == "more yes" and len(found) <= most:
            doing = f"states {min(PAGE, most + 1)}{after}"
            *lines, more = demand(self.say(doing), doing)
            found += [cursor_of(line) for line in lines]
            after = f" after {found[-1]}"
        return found if len(found) <= most else None

    def close(self):
        """Ends the input, and waits until the program has ended, which may need an end by force
        where it is still at work."""
        with contextlib.suppress(BrokenPipeError):
            self.running.stdin.close()
        self.running.stdout.close()
        try:
            self.running.wait(PATIENCE)
        except subprocess.TimeoutExpired:
            self.running.kill()
            self.running.wait()


def cursor_of(line):
    """The cursor of a set line."""
    words = line.split(" ", 2)
    if len(words) != 3 or words[0] != "set":
        raise Trouble(f"the program's line is no set line: {line}", 3)
    return words[1]


def marks_of(cursor, count):
    """The set of a cursor: for each of so many items 1 where it is in the set, and 0 where not."""
    return "".join(f"{int(digit, 16):04b}" for digit in cursor)[:count]


def names_in(text):
    """The names of a set text such as `{a b}`, which may stand among other words."""
    found = re.search(r"\{([^}]*)\}", text)
    if not found:
        raise Trouble(f"the program's line has no set: {text}", 3)
    return found[1].split()


def refusal_of(reply):
    """What a refusal says, in plain words with the program's own line; None where it is none."""
    if not reply or not reply[0].startswith("no "):
        return None
    code = int(reply[0].split()[1])
    return f"{REFUSALS.get(code, 'it is refused')} ({reply[0]})"


def demand(reply, doing):
    """The reply, where it is no refusal; else the Trouble that this can't be done."""
    if refusal_of(reply):
        raise Trouble(f"{doing}: {refusal_of(reply)}", 1)
    return reply
