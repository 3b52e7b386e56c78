"""The session of an interview, its script, and what stands: the items, the blocks, the answers."""
import itertools
import json

import companion
import questions
from companion import clipped, refusal_of, words_of
from labels import plain
from questions import command_of, count_of_size, of_size

AT_ONCE = 256


class Answers:
    def __init__(self, session, script):
        self.session, self.script = session, script
        self.items, self.size = [], 1
        self.ground = []  # the lines that make the session as it was before its answers
        self.standing = {}  # the number of each answer, with its question and its word
        self.changed = True  # since the end was told

    def replay(self):
        """Runs the script as it stands, and tells which of its lines are refused."""
        for place, line in enumerate(self.script.text.split("\n"), 1):
            reply = self.session.say(line)
            if refusal_of(reply):
                print(f"Line {place}, '{clipped(plain(line))}', is refused: {refusal_of(reply)}.")
            elif reply:
                self.follow(words_of(line), reply)

    def add(self, line):
        """Gives the program a line, and keeps it in the script where it isn't refused."""
        reply = self.session.say(line)
        if not refusal_of(reply):
            self.script.add(line)
            self.changed = True
            self.follow(words_of(line), reply)
        return reply

    def follow(self, words, reply):
        """Keeps what an accepted line changed."""
        if words[0] in ("yes", "no"):
            self.standing[int(reply[0].split()[1])] = (self.question_of(words[1:]), words[0])
        elif words[0] == "retract":
            self.standing.pop(int(words[1]))
        elif words[0] == "blocks":
            self.size = int(words[1])
        elif words[0] == "start":
            self.ground.append(" ".join(words))
        elif words[0] == "open":
            self.items = self.items_of_session()
            self.open_saved(json.loads(companion.read_text(self.script.path.parent / words[1])))
            self.ground = ["open " + words[1], *(f"retract {it}" for it in self.standing)]
        elif words[0] in ("items", "load-items"):
            self.items = self.items_of_session()
            self.ground = [" ".join(words)]

    def open_saved(self, saved):
        """Takes the blocks and the answers from a saved session that was opened."""
        self.size = saved["block"]
        self.standing = {}
        for number, tells_yes, cursor, item in saved["answers"]:
            bits = companion.marks_of(cursor, len(self.items))
            before = tuple(name for name, bit in zip(self.items, bits) if bit == "1")
            self.standing[number] = (before, self.items[item]), "yes" if tells_yes else "no"

    def items_of_session(self):
        """All items in their order, which are the first state that is listed."""
        return companion.names_in(self.session.say("states 1")[0])

    def question_of(self, words):
        return questions.question_of(words, self.items)

    def questions(self):
        """All questions of the blocks, in the order in which they are asked."""
        return itertools.chain.from_iterable(of_size(self.items, size)
                                             for size in range(1, self.size + 1))

    def count(self):
        """How many questions the blocks have."""
        return sum(count_of_size(self.items, size) for size in range(1, self.size + 1))

    def known(self, question):
        """What the answers tell of a question: the words behind `known`."""
        return companion.demand(self.session.say("known " + command_of(question)),
                                "the question can't be had")[0].split()[1:]

    def open_ones(self, asked):
        """Those of the questions that the answers leave open."""
        asked = iter(asked)
        while some := list(itertools.islice(asked, AT_ONCE)):
            told = self.session.say_all(["known " + command_of(it) for it in some])
            yield from (it for it, tells in zip(some, told) if tells == "known open")

    def asked(self):
        """How many questions of the blocks have an answer."""
        return sum(1 for question, _ in self.standing.values() if len(question[0]) <= self.size)

    def named(self, number):
        question, word = self.standing[number]
        return f"answer {number}, '{word} {command_of(question)}'"
