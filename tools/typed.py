"""What is known of the session in which lines are typed, and what can follow in a line.

  typed = Typed(session, folder)
  typed.follow(line, reply)            keeps what an accepted line changed
  typed.following("yes a ")            the words that can come next there
  typed.here(line, reply)              what helps with a refusal just here, in a sentence or none"""
import difflib
import json
import os
import re

import companion
import refusals
from companion import names_in, words_of

OWN = {"help": ["help", "help COMMAND"], "keep": ["keep FILE"], "quit": ["quit"]}
PUPILS = ("question", "reply", "report", "close")
NEW = ("items", "pupil")  # whose names are new ones
NAMING = ("items", "load-items", "open")  # which give the items
CHANGES = {"items", "load-items", "start", "blocks", "yes", "no", "retract", "odds", "ratio",
           "limits", "pupil", "reply", "close", "open", "safe-open", "safe", "safe-close"}
RULES = {  # of the words that a part of a form stands for, and whether a word keeps them
    "NAME": (companion.NAME_RULE, companion.is_name),
    "FILE": (companion.FILE_RULE, companion.is_file_name),
    "COUNT": ("a count is a number from 0 to 65536",
              lambda it: re.fullmatch("0|[1-9][0-9]{0,4}", it) and int(it) <= 65536),
}
LISTED = 12  # so many items, pupils or files are named in a sentence


def parts_of(form):
    """The words of a form, each with whether it may be repeated."""
    words = form.split()
    return [(word, words[place + 1:place + 2] == [".."]) for place, word in enumerate(words)
            if word != ".."]


def steps(parts, at, word):
    """The places in a form to which this word may lead from those that were reached."""
    reached = set()
    for place in at:
        part, again = parts[place] if place < len(parts) else (None, False)
        if part == word or part and part.isupper() and word not in (":", "|"):
            reached |= {place, place + 1} if again else {place + 1}
    return reached


def next_parts(form, words):
    """The parts of a form that can follow the words; None stands for the end of the line."""
    parts, at = parts_of(form), {0}
    for word in words:
        at = steps(parts, at, word)
    return {parts[place][0] if place < len(parts) else None for place in at}


def near(word, known):
    """Those of the known words that a misspelt one may mean."""
    return difflib.get_close_matches(word, known, 3, 0.6)


def listed(words):
    """Some words in a sentence; many are cut short."""
    words = list(words)
    return ", ".join(words[:LISTED]) + (f" and {len(words) - LISTED} more"
                                        if len(words) > LISTED else "")


class Typed:
    def __init__(self, session, folder):
        self.session, self.folder = session, folder
        self.items, self.pupils, self.cursor = [], [], None
        self.commands = {it.name: it for it in refusals.commands()}

    def follow(self, line, reply):
        """Keeps what a line changed that wasn't refused."""
        words = words_of(line)
        if words[0] in NAMING:
            self.items = names_in(self.session.say("states 1")[0])
        if words[0] == "open":
            self.pupils = self.saved_pupils(words[1])
        elif words[0] == "pupil":
            self.pupils.append(words[1])
        elif words[0] == "close":
            self.pupils.remove(words[1])
        elif reply[-1] == "more yes" and reply[-2:-1] and reply[-2].startswith("set "):
            self.cursor = reply[-2].split()[1]

    def saved_pupils(self, name):
        """The pupils of a saved session. Another program may have changed the file since."""
        try:
            saved = json.loads(companion.read_text(os.path.join(self.folder, name)))
            return [str(pupil["name"]) for pupil in saved["pupils"]]
        except (companion.Trouble, ValueError, LookupError, TypeError, RecursionError):
            return []

    def forms(self, name):
        return self.commands[name].forms if name in self.commands else OWN.get(name, [])

    def files(self):
        """The files of the folder that a command can name."""
        try:
            return sorted(it.name for it in os.scandir(self.folder) if it.is_file()
                          and companion.is_file_name(it.name))
        except OSError:
            return []

    def words_for(self, part, name):
        """The words that a part of a form stands for."""
        if part in ("NAME", "ITEM"):
            new = [] if name in NEW else self.items
            return self.pupils if part == "NAME" and name in PUPILS else new
        if part == "FILE":
            return self.files()
        if part == "CURSOR":
            return [self.cursor] if self.cursor else []
        if part == "COMMAND":
            return list(self.commands)
        return [part] if part and not part.isupper() else []

    def following(self, before):
        """The words that can follow what stands before in the line."""
        words = words_of(before)
        if not words:
            return [*self.commands, *OWN]
        parts = {part for form in self.forms(words[0]) for part in next_parts(form, words)}
        found = (self.words_for(part, words[0]) for part in sorted(filter(None, parts)))
        return list(dict.fromkeys(sum(found, [])))

    def here(self, line, reply):
        """A sentence on a refusal in this session, or an empty text."""
        told, words = refusals.words_told(reply[0]), words_of(line)
        if told[0] == "10" and told[1:2] != ["long"]:
            return self.here_command(words, int(told[1]))
        if told[0] == "15" and told[1] != "0":
            word = words[int(told[1]) - 1]
            return self.nearest(word, self.items, "item")
        if told[0] == "24":
            count, digits = len(self.items), (len(self.items) + 3) // 4
            last = f"{((1 << count) - 1) << (-count % 4):0{digits}x}"
            return f"Cursors of {count} items are {'0' * digits} to {last}." if count < 65 else \
                f"Cursors of {count} items have {digits} digits."
        if told[0] == "26":
            return self.nearest(words[-1], self.files(), "file")
        if told[0] == "38":
            return self.nearest(words[1], self.pupils, "pupil")
        return ""

    def here_command(self, words, place):
        """What a line that is no command may be meant to be."""
        name = words[0] if words else ""
        if name not in self.commands:
            meant = near(name, list(self.commands))
            return f"Do you mean {' or '.join(meant)}?" if meant else ""
        forms = "; ".join(self.forms(name))
        what = self.wrong_word(words, place) if place <= len(words) else \
            "Something is missing at its end."
        return f"{what} The form is: {forms}."

    def wrong_word(self, words, place):
        """What is known of the word with which no command goes on."""
        word = words[place - 1]
        wanted = {part for form in self.forms(words[0])
                  for part in next_parts(form, words[:place - 1])}
        rules = [rule for kind, (rule, holds) in RULES.items() if kind in wanted
                 and not holds(word)] if word not in (":", "|") else []
        return f"Word {place} is '{word}'" + "".join(f", and {it}" for it in rules) + "."

    def nearest(self, word, known, kind):
        meant = near(word, known)
        if meant:
            return f"Do you mean {' or '.join(meant)}?"
        return f"There is no {kind} '{word}'; there are {listed(known)}." if known else \
            f"There is no {kind} '{word}'."
