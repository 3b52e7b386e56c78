"""What the accepted lines of a script come to: the session as docs/COMMANDS.md describes it.

A ledger follows a script line by line, with the program's replies. Of these it takes only which
lines were accepted; all else is worked out from the lines and the files."""
import copy
import csv
import io
import json
from trials import forms, replies, sets

SMALL = 8  # the most items of which all sets are gone through


class Pupil:
    """What a pupil began with, and its replies."""

    def __init__(self, ledger):
        self.limits, self.start = ledger.limits, ledger.start
        self.ratios = copy.deepcopy(ledger.ratios)
        self.yes = [answer[1] for answer in ledger.answers.values() if answer[0]]
        self.states = ledger.states()
        self.replies = []


class Safe:
    """A safe interview: the states with which it was opened, and its queries in order."""

    def __init__(self, states):
        self.states, self.queries, self.last = states, [], None


class Ledger:
    def __init__(self, files):
        self.files, self.kept = files, {}
        self.names, self.answers, self.next, self.pupils, self.safe = None, {}, 1, {}, None
        self.left = None

    def begin(self, names):
        """A domain is given."""
        self.names, self.size, self.left = names, len(names), None
        self.place = {name: place for place, name in enumerate(names)}
        self.start, self.block, self.answers, self.next = ("free", None), 1, {}, 1
        self.limits = (30, 90)
        self.ratios = [[(8, 1), (8, 1)] for _ in names]
        self.pupils, self.safe = {}, None

    def is_small(self):
        return self.names is not None and self.size <= SMALL

    def set_of(self, words):
        return sets.set_of([self.place[word] for word in words], self.size)

    def query(self, words):
        return self.set_of(words[:words.index(":")]), self.place[words[-1]]

    def states(self):
        """The sets that the start and the Yes answers leave, in order; None where they are many."""
        if not self.is_small():
            return None
        queries = tuple(query for yes, query in self.answers.values() if yes)
        if self.left is None or self.left[:2] != (self.start, queries):
            self.left = self.start, queries, self.left_by(queries)
        return self.left[2]

    def left_by(self, queries):
        kind, value = self.start
        every = range(sets.full(self.size), -1, -1)
        if kind == "surmise":
            every = sets.clause_states(value, self.size)
        elif kind == "base":
            every = [own for own in every if sets.reached(own, value) == own]
        return [own for own in every
                if not any(sets.breaks(own, query, self.size) for query in queries)]

    def follow(self, line, reply):
        """Takes a line with its reply."""
        if reply is None or replies.is_refusal(reply):
            return
        words = forms.words_of(line)
        step = getattr(self, "line_" + words[0].replace("-", "_"), None)
        if step:
            step(words[1:], reply)

    def line_items(self, words, reply):
        self.begin(words)

    def line_load_items(self, words, reply):
        text = text_of(self.files[words[0]]).removeprefix("\ufeff")
        self.begin([row[0] for row in csv.reader(io.StringIO(text, newline="")) if row])

    def line_start(self, words, reply):
        text = text_of(self.files[words[1]])
        if words[0] == "surmise":
            ways = json.loads(text)
            self.start = "surmise", [sets.in_order(self.set_of(clause) for clause in ways[name])
                                     for name in self.names]
        elif words[0] == "base":
            self.start = "base", sets.base_of(family_of(text, self.place))
        else:
            pairs = [forms.words_of(line) for line in text.split("\n")
                     if not forms.is_silent(line)]
            self.start = "surmise", [[own] for own in self.down_sets(pairs)]

    def down_sets(self, pairs):
        """For each item the set of it and all items below it."""
        down = [sets.bit(item, self.size) for item in range(self.size)]
        for _ in self.names:
            for low, high in pairs:
                down[self.place[high]] |= down[self.place[low]]
        return down

    def line_blocks(self, words, reply):
        self.block = int(words[0])

    def answer(self, words, yes):
        self.answers[self.next] = yes, self.query(words)
        self.next += 1

    def line_yes(self, words, reply):
        self.answer(words, True)

    def line_no(self, words, reply):
        self.answer(words, False)

    def line_retract(self, words, reply):
        del self.answers[int(words[0])]

    def line_odds(self, words, reply):
        right, wrong = (int(word) for word in words[-2:])
        self.settle(words[:-2], [(right, 1), (wrong, 1)])

    def line_ratio(self, words, reply):
        numbers = [int(word) for word in words[-4:]]
        self.settle(words[:-4], [tuple(numbers[:2]), tuple(numbers[2:])])

    def settle(self, items, ratios):
        for name in items or self.names:
            self.ratios[self.place[name]] = ratios

    def line_limits(self, words, reply):
        self.limits = int(words[0]), int(words[1])

    def line_pupil(self, words, reply):
        self.pupils[words[0]] = Pupil(self)

    def line_reply(self, words, reply):
        self.pupils[words[0]].replies.append((self.place[words[1]], words[2] == "right"))

    def line_close(self, words, reply):
        del self.pupils[words[0]]

    def line_safe_open(self, words, reply):
        self.safe = Safe(self.states())

    def line_safe(self, words, reply):
        self.safe.queries.append(self.query(words))
        self.safe.last = reply

    def line_safe_close(self, words, reply):
        self.safe = None

    def session(self):
        """What is kept of a session: all but the safe interview."""
        own = {key: copy.deepcopy(value) for key, value in vars(self).items()
               if key not in ("files", "kept")}
        return own | {"safe": None}

    def line_save(self, words, reply):
        self.kept[words[0]] = self.session()

    def line_open(self, words, reply):
        if words[0] in self.kept:
            vars(self).update(copy.deepcopy(self.kept[words[0]]))
        else:
            self.take_up(json.loads(self.files[words[0]]))

    def take_up(self, told):
        """A saved session that was made by hand, without pupils."""
        self.begin(told["items"])
        self.block, self.next = told["block"], told["next"]
        self.limits = tuple(told["limits"])
        for number, yes, before, item in told["answers"]:
            self.answers[number] = yes, (sets.set_of_cursor(before, self.size), item)
        self.ratios = [[(pair, 1) if told["version"] == 1 else tuple(pair) for pair in own]
                       for own in told["odds"]]
        self.start = self.taken_start(told["start"])

    def taken_start(self, told):
        if told == "free":
            return "free", None
        if "base" in told:
            return "base", [sets.set_of_cursor(own, self.size) for own in told["base"]]
        return "surmise", [sets.in_order(sets.set_of_cursor(own, self.size) for own in clauses)
                           for clauses in told["surmise"]]

    def start_json(self, start):
        kind, value = start
        if kind == "free":
            return "free"
        if kind == "base":
            return {"base": [sets.cursor(own, self.size) for own in value]}
        return {"surmise": [[sets.cursor(own, self.size) for own in clauses]
                            for clauses in value]}

    def saved(self):
        """The text that `save` writes, by the table of docs/COMMANDS.md."""
        answers = [[number, yes, sets.cursor(before, self.size), item]
                   for number, (yes, (before, item)) in self.answers.items()]
        pupils = [{"limits": own.limits, "name": name, "odds": own.ratios,
                   "replies": own.replies, "start": self.start_json(own.start),
                   "yes": [[sets.cursor(before, self.size), item] for before, item in own.yes]}
                  for name, own in self.pupils.items()]
        return sets.compact({
            "answers": answers, "block": self.block, "items": self.names, "limits": self.limits,
            "next": self.next, "odds": self.ratios, "pupils": pupils,
            "start": self.start_json(self.start), "version": 2})


def text_of(own):
    """The text of a file, also where some bytes aren't UTF-8, as in a note."""
    return own.decode("utf-8", "surrogateescape")


def family_of(text, place):
    """The sets of a file of sets, in the order of the file."""
    found = []
    for line in text.split("\n"):
        words = forms.words_of(line.replace("{", " ").replace("}", " "))
        if line.strip() and not line.lstrip(" \t").startswith("#"):
            found.append(sets.set_of([place[word] for word in words], len(place)))
    return found


def follow(lines, found, files):
    """The ledger of a script with its replies."""
    ledger = Ledger(files)
    for line, reply in zip(lines, found):
        ledger.follow(line, reply)
    return ledger
