"""The forms of the commands and the codes that refuse them, as the table of docs/COMMANDS.md has
them, and how a line is cut into words. So the trials hold the program against its document."""
import functools
import re
from pathlib import Path

DOCUMENT = Path(__file__).resolve().parent.parent.parent / "docs" / "COMMANDS.md"
NUMBERS = ["SIZE", "BUDGET", "SHARE", "R", "W", "RA", "RB", "WA", "WB", "NUMBER"]
LONGEST = 65536


def below(most):
    """Whether a word is a decimal number up to the most, without a leading zero."""
    number = re.compile("0|[1-9][0-9]{0,8}")
    return lambda word: bool(number.fullmatch(word)) and int(word) <= most


KINDS = {
    "NAME": re.compile(r"[A-Za-z0-9_.-]{1,40}").fullmatch,
    "ITEM": re.compile(r"[A-Za-z0-9_.-]{1,40}").fullmatch,
    "FILE": re.compile(r"(?!\.)[A-Za-z0-9_.-]{1,64}").fullmatch,
    "CURSOR": re.compile(r"[!-~]+").fullmatch,
    "COUNT": below(65536),
    **{kind: below(999999999) for kind in NUMBERS},
}


class Form:
    """One form of a command: its words or kinds of words, each once or any number of times."""

    def __init__(self, text, codes):
        self.text = text.replace("\\|", "|")
        words = self.text.split()
        self.parts = []
        for place, word in enumerate(words):
            if word != "..":
                again = place + 1 < len(words) and words[place + 1] == ".."
                self.parts.append((word, again))
        self.codes = codes
        fixed = [word for word, _ in self.parts]
        self.head = tuple(fixed[:2] if fixed[0] in ("start", "skills") else fixed[:1])

    def spread(self, places):
        """The places, and those behind parts that may be none."""
        found = set()
        for place in places:
            found.add(place)
            while place < len(self.parts) and self.parts[place][1]:
                place += 1
                found.add(place)
        return found

    def takes(self, words):
        """How many of the words begin this form, and whether all of them are one."""
        places = self.spread({0})
        for taken, word in enumerate(words):
            behind = set()
            for place in places - {len(self.parts)}:
                part, again = self.parts[place]
                fits = KINDS[part](word) if part in KINDS else part == word
                if fits and word not in (":", "|") or part == word:
                    behind.add(place if again else place + 1)
            places = self.spread(behind)
            if not places:
                return taken, False
        return len(words), len(self.parts) in places


def read_forms():
    """The forms in the table of the commands."""
    table = DOCUMENT.read_text().split("\n## The commands\n\n")[1].split("\n\n")[0]
    forms = []
    for row in table.splitlines()[2:]:
        cells = re.split(r"(?<!\\)\|", row)
        codes = {int(code) for code in re.findall(r"\d+", cells[3])}
        forms += [Form(text, codes) for text in re.findall(r"`([^`]+)`", cells[1])]
    return forms


FORMS = read_forms()
BY_WORD = {}
for one in FORMS:
    BY_WORD.setdefault(one.head[0], []).append(one)
HEADS = sorted({one.head for one in FORMS})


@functools.lru_cache(maxsize=1 << 14)
def cut(line):
    text = line[:-1] if line.endswith("\r") else line
    return re.findall(r"[:|]|[^ \t,:|]+", text)


def words_of(line):
    """The words of a line; one carriage return at its end is passed over."""
    return list(cut(line))


def is_silent(line):
    """Whether a line has no reply: it has no words, or it is a note."""
    return line.lstrip(" \t").startswith("#") or not cut(line)


@functools.lru_cache(maxsize=1 << 14)
def form_of(line):
    """The form that a line has, or else the place that is told by its refusal."""
    size = len(line.encode("utf-8", "surrogateescape"))
    if size > LONGEST:
        return None, f"long {size}"
    words = words_of(line)
    best = 0
    for form in BY_WORD.get(words[0], []):
        taken, whole = form.takes(words)
        if whole:
            return form, None
        best = max(best, taken)
    return None, str(best + 1)
