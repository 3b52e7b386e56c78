"""Reads cases of the whole program. crates/ls_trials/data/README.txt tells how they are written.

A case becomes steps: each is a line of its script, with what is to be written for it and with the
files that it stores. So the replies have to stand behind their lines, and a file with `=` behind
the line that stores it. Of a file that is saved, and that no `=` tells, the length is known from
the reply."""
import re
from typing import NamedTuple

OPEN = b"\0"  # ends a reply line that goes on with anything
ESCAPES = {"n": b"\n", "r": b"\r", "t": b"\t", "\\": b"\\"}
PASSED_OVER = re.compile(r"% |! (source|sink|shelf)-each |\$ --script script$")


class Misformed(Exception):
    """A case that can't be read as steps."""


class Step(NamedTuple):
    text: bytes  # a line of the script, with its end
    replies: bytes  # what is to be written for it, in whole lines
    stores: dict  # of each file that it stores the bytes, or their number


class Case(NamedTuple):
    title: str
    words: list  # of the command line
    files: dict  # the bytes of each file of the folder before the run
    steps: list  # one at least
    told_status: int | None

    def script(self):
        return b"".join(step.text for step in self.steps)

    def replies(self):
        return b"".join(step.replies for step in self.steps)

    def status(self):
        """The status of a run to the end."""
        if self.told_status is not None:
            return self.told_status
        return int(any(line.startswith(b"no ") for line in self.replies().split(b"\n")))

    def folder(self, count):
        """The files of the folder after so many steps."""
        files = dict(self.files)
        for step in self.steps[:count]:
            files.update(step.stores)
        return files

    def refused(self, place, reply):
        """The case in which the line of that place is refused so, and stores nothing."""
        steps = list(self.steps)
        steps[place] = Step(steps[place].text, reply, {})
        return self._replace(steps=steps)

    def named(self):
        """The case whose script is a file of the folder, which the command line names."""
        return self._replace(title=f"{self.title}, by --script", words=["--script", "script"],
                             files={**self.files, "script": self.script()})


def plain(text):
    """The bytes that a text with escapes stands for."""
    def byte(found):
        escape = found[1]
        if escape.startswith("x"):
            return bytes.fromhex(escape[1:]).decode("latin-1")
        if escape not in ESCAPES:
            raise Misformed(f"\\{escape} is no escape")
        return ESCAPES[escape].decode("latin-1")
    return re.sub(r"\\(x..|.|$)", byte, text).encode("latin-1")


def choices(group, names):
    """The texts that a group in round brackets stands for."""
    if "|" in group:
        return [plain(choice) for choice in group.split("|")]
    if found := re.fullmatch(r"(\d+)-(\d+)", group):
        return [b"%d" % number for number in range(int(found[1]), int(found[2]) + 1)]
    if found := re.fullmatch(r"(\d+)\*(.*)", group):
        return [plain(found[2]) * int(found[1])]
    if group not in names:
        raise Misformed(f"({group}) is told by no line")
    return [plain(names[group])]


def lines_of(text, names):
    """The bytes of the lines that the text of a line of a case stands for."""
    end = b"" if text.endswith("\\") else b"\n"
    front, *parts = text.removesuffix("\\").split("(")
    found = [plain(front)]
    for part in parts:
        group, _, rest = part.partition(")")
        own = choices(group, names)
        found = [line + choice + plain(rest) for line in found for choice in own]
    return b"".join(line + end for line in found)


class Reader:
    """Takes the lines of a case one by one. Replies and stored files are kept by the number of
    bytes of the script that stand before them."""

    def __init__(self, names):
        self.names, self.words, self.files, self.status = names, [], {}, None
        self.script, self.replies, self.stored, self.open = b"", {}, {}, None

    def take(self, mark, text):
        place = len(self.script)
        if mark == "<":
            self.script += lines_of(text, self.names)
        elif mark == ">":
            self.replies[place] = self.replies.get(place, b"") + lines_of(text, self.names)
        elif mark == "~":
            count, _, front = text.partition(" ")
            lines = (front.encode("latin-1") + OPEN + b"\n") * int(count)
            self.replies[place] = self.replies.get(place, b"") + lines
        elif mark in ("@", "="):
            own = self.files if mark == "@" else self.stored.setdefault(place, {})
            own[text] = b""
            self.open = own, text
        elif mark == "|" and self.open:
            own, name = self.open
            own[name] += lines_of(text, self.names)
        elif mark == "$":
            self.words += text.split(" ")
        elif mark == "?":
            self.status = int(text)
        elif mark not in ("", "-", ":"):
            raise Misformed(f"'{mark} {text}' has none of the forms")


def saved(text, replies, stores):
    """The files that a line stores. Of one that is saved and not told the length is known."""
    words = text.split()
    answered = re.fullmatch(rb"ok (\d+)\n", replies)
    if words[:1] == [b"save"] and len(words) == 2 and answered:
        return {words[1].decode("latin-1"): int(answered[1]), **stores}
    return stores


def step_of(text, replies, stores):
    is_note = text.lstrip(b" \t").startswith(b"#")
    if text.strip(b" \t,\r\n") and not is_note and not replies:
        raise Misformed(f"no reply stands behind the line {text!r}")
    if not replies.endswith(b"\n") and replies:
        raise Misformed(f"the replies to {text!r} don't end with a line end")
    return Step(text, replies, saved(text, replies, stores))


def case_of(title, lines):
    """The case that lines tell."""
    names = dict(line[2:].partition(" ")[::2] for line in lines if line.startswith(": "))
    reader = Reader(names)
    for line in lines:
        mark, _, text = line.partition(" ")
        reader.take(mark, text)
    ends = [0] + [found.end() for found in re.finditer(rb"\n|[^\n]\Z", reader.script)]
    if reader.words:
        if reader.script or "--script" in reader.words:
            raise Misformed("the words of the command line go with no script here")
        reader.status = reader.status or 0
        ends = [0, 0]
    steps = [step_of(reader.script[front:end], reader.replies.pop(end, b""),
                     reader.stored.pop(end, {})) for front, end in zip(ends, ends[1:])]
    if reader.replies or reader.stored or not steps:
        raise Misformed("replies or files stand behind no line of the script")
    return Case(title, reader.words, reader.files, steps, reader.status)


def read_cases(path):
    """The cases of a file, each with the title of its group. Cases of a group that differ in the
    sizes of pieces, in the call that fails in turn, or in whether the script is a file's, are one.
    Those in which a call fails that they tell are left out."""
    for group in path.read_text(encoding="latin-1").split("\n== ")[1:]:
        front, *parts = group.split("\n# ")
        title, *own = front.split("\n")
        seen = []
        for part in parts or [""]:
            lines = [line for line in own + part.split("\n")[1:] if not PASSED_OVER.match(line)]
            lines = [line for line in lines if line]
            if lines not in seen and not any(line.startswith("! ") for line in lines):
                seen.append(lines)
                name = title if len(seen) == 1 else f"{title}: {part.split(chr(10))[0]}"
                try:
                    yield case_of(name, lines)
                except (Misformed, ValueError) as fault:
                    raise Misformed(f"{path.name}: {name}: {fault}") from fault
