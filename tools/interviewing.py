"""An interview: which question comes next, what each key does, and what is told of it."""
import itertools
import re

import forcing
import learned
import questions
from answers import Answers
from companion import clipped, demand, refusal_of, words_of
from labels import plain
from questions import command_of, count_of_size, of_size, plural

KEYS = "y yes, n no, m many, s skip, u undo, w why, l a line, q quit"
COUNTED = 50000  # blocks with more questions are counted at their end only
SHOWN = 12  # so many answers are told that tell another
WORDS = {"yes": "y", "no": "n", "many": "m", "skip": "s", "undo": "u", "why": "w", "blocks": "b",
         "quit": "q"}
NO_QUESTION = "  That is no question of the items. It has the form: names : name"


class Interview(Answers):
    """What stands, and beside it what the expert sees and does."""

    def __init__(self, session, script, keys, wording, program):
        super().__init__(session, script)
        self.keys, self.wording, self.program = keys, wording, program
        self.skipped = {}
        self.wanted = []  # the questions that come first, since an answer was taken back
        self.larger = None  # the blocks that `b` goes on with

    def next_question(self):
        """A question that is wanted, or the next open one that wasn't skipped, or one that was;
        None where all are settled. `ask` alone tells the first open one each time, so behind a
        skipped one the next is found by `known`, in the order of `ask`."""
        reply = demand(self.session.say("ask"), "the next question can't be had")[0]
        self.wanted = list(self.open_ones(self.wanted))
        if self.wanted:
            return self.wanted[0]
        if reply == "settled":
            return None
        first = self.question_of(words_of(reply)[1:])
        behind = itertools.dropwhile(lambda it: it != first, self.questions())
        fresh = (it for it in self.open_ones(behind) if it not in self.skipped)
        found = next(fresh, None) if first in self.skipped else first
        if found is None:
            print("Only skipped questions are left; they come again.")
            self.skipped = {}
        return found or first

    def progress(self):
        """How many questions were asked, were settled without asking, and are open."""
        asked = self.asked()
        if self.count() > COUNTED:
            return f"{asked:,} asked of {self.count():,}"
        opened = sum(1 for _ in self.open_ones(self.questions()))
        return (f"{asked:,} asked, {self.count() - asked - opened:,} settled without asking,"
                f" {opened:,} open")

    def answer(self, question, word, behind=""):
        """Gives an answer, and tells whether it is kept, with some words behind Yes or No."""
        reply = self.add(f"{word} {command_of(question)}")
        if refusal_of(reply):
            print(f"  Not kept{behind}: {self.told(reply)}.")
            self.contradicted(question, word, reply[0].split()[1:])
            return
        self.settle(question)
        print(f"  {word.capitalize()}{behind}, kept as answer {reply[0].split()[1]}.")

    def settle(self, question):
        """The question needn't be asked now."""
        self.skipped.pop(question, None)
        self.wanted = [it for it in self.wanted if it != question]

    def told(self, reply):
        """A refusal in plain words, with the answer that it names."""
        words = reply[0].split()
        if words[1] in ("19", "21"):
            return f"{refusal_of(reply)}, by {self.named(int(words[2]))}"
        return refusal_of(reply)

    def contradicted(self, question, word, refusal):
        """Shows the answers that speak against an answer, and offers to take one back."""
        if refusal[0] == "19":
            if self.standing[int(refusal[1])][1] != word:
                self.offer([int(refusal[1])], question)
        elif refusal[0] in ("20", "21"):
            named = [int(it) for it in refusal[1:]]
            numbers = self.telling(question, *named)
            self.show_telling(numbers)
            numbers = named if numbers is None else numbers
            if numbers:
                self.offer(numbers, question)

    def telling(self, question, number=None):
        return forcing.telling(self.program, self.script.path.parent, self, question, number)

    def show_telling(self, numbers):
        """The answers that together tell a question, as far as they were found."""
        if numbers is None:
            return
        if not numbers:
            print("  The start alone tells it.")
            return
        print("  These answers together tell it:" if len(numbers) > 1 else
              "  This answer tells it:")
        for number in numbers[:SHOWN]:
            question, word = self.standing[number]
            print(f"    {number} {word.capitalize()}: {self.wording.answer(question, word)}")
        if len(numbers) > SHOWN:
            print(f"    and {', '.join(map(str, numbers[SHOWN:]))}")

    def offer(self, numbers, question):
        """Lets one of these answers be taken back; then the question comes, and that answer's. A
        line of standard input that is no number is the next key."""
        print("  Take one of them back? Its number, or nothing." if len(numbers) > 1 else
              f"  Take it back? {numbers[0]}, or nothing.", flush=True)
        text = self.keys.line()
        word = text.strip()
        if re.fullmatch("[0-9]{1,9}", word) and int(word) in numbers:
            self.take_back(int(word), [question])
            told = self.known(question)[0]
            if told != "open":
                print(f"  The others still tell {told.capitalize()}.")
        elif word and not self.keys.alone and not re.fullmatch("[0-9]+", word):
            self.keys.give_back(text)
        else:
            print("  Nothing is taken back.")

    def undo(self, words):
        """Takes back the last answer, or that to a question or with a number."""
        question = self.question_of(words_of(words))
        if words and question is None and not re.fullmatch("[0-9]+", words):
            print(NO_QUESTION)
            return
        numbers = [it for it, (asked, _) in self.standing.items()
                   if not words or asked == question or str(it) == words]
        if numbers:
            self.take_back(max(numbers), [])
        else:
            print("  No such answer stands.")

    def take_back(self, number, before):
        """Takes an answer back by a line `retract`. The answer's own line stays: a script that only
        grows can't be spoiled by a kill, the numbers of later answers stay, and whoever reads it
        sees that the expert thought again. The questions before come next, and then its own."""
        name, question = self.named(number), self.standing[number][0]
        demand(self.add(f"retract {number}"), "the answer can't be taken back")
        self.skipped.pop(question, None)
        self.wanted = list(dict.fromkeys([*before, question, *self.wanted]))
        print(f"  Taken back: {name}.")

    def why(self, question):
        """What the answers tell of a question, in plain words."""
        for number, (asked, _) in self.standing.items():
            if asked == question:
                print(f"  It was answered: {self.named(number)}.")
                return
        reply = self.session.say("known " + command_of(question))
        words = reply[0].split()
        if refusal_of(reply):
            print(f"  {self.told(reply)}.")
        elif words[1] == "open":
            print("  It is open: the answers so far tell neither Yes nor No.")
        elif words[1] == "yes":
            before, item = question
            print("  It is Yes: by the start and the answers Yes, nobody masters"
                  f" {self.wording.names([item])} without {'one of ' if len(before) > 1 else ''}"
                  f"{self.wording.names(before)}.")
            self.show_telling(self.telling(question))
        else:
            self.why_no(question, int(words[2]))

    def why_no(self, question, number):
        print(f"  It is No, by {self.named(number)}: {self.wording.answer(*self.standing[number])}."
              "\n  Were it Yes, there could be no such pupil.")
        numbers = self.telling(question, number)
        if numbers != [number]:
            self.show_telling(numbers)

    def many(self, before):
        """Takes answers to all open questions of one set at once. Nothing is answered before the
        expert has seen all answers; then each is on the disk before the next."""
        items = [item for _, item in self.open_ones((before, it) for it in self.items
                                                    if it not in before)]
        if not items:
            print("  None of these questions is open.")
            return
        print(f"  A pupil fails {self.wording.failed(before)}."
              f" Which of these would such a pupil fail too?\n{self.wording.choice(items)}\n"
              "  Names or numbers in one line; nothing where it is none of them.", flush=True)
        named = self.picked(items)
        if named is None:
            return
        for word, some in self.confirmed(named, [it for it in items if it not in named]):
            for item in some:
                self.answer_unless_told((before, item), word)

    def picked(self, items):
        """Those of the items that a line names; None at the end of the input. A line with another
        word is asked for again, so that what is typed behind it isn't taken for an answer."""
        while True:
            text = self.keys.line()
            named, wrong = questions.chosen(text.strip(), items)
            if not text:
                print("  Nothing is kept.")
                return None
            if wrong is None:
                return named
            print(f"  '{clipped(plain(wrong))}' is none of these, and nothing is kept. The line"
                  " again:", flush=True)

    def confirmed(self, named, others):
        """The items answered Yes and No, as the expert confirms them; none without that."""
        print(*([f"  Yes: {self.wording.names(named)}."] if named else []),
              *([f"  No: {self.wording.names(others)}."] if others else []), sep="\n")
        only = ", o only the Yes, the others stay open" if named and others else ""
        print(f"  Keep them? y yes{only}, n no.", flush=True)
        text = self.keys.key()
        key = text.strip().lower()
        if key in ("y", "yes"):
            return [("yes", named), ("no", others)]
        if key == "o" and only:
            return [("yes", named)]
        print("  Nothing is kept.")
        if key not in ("n", "no", "") and not self.keys.alone:
            self.keys.give_back(text)
        return []

    def answer_unless_told(self, question, word):
        """Answers a question, if it doesn't follow so from the answers before."""
        if self.known(question)[0] != word:
            self.answer(question, word, f" for {self.wording.names(question[1:])}")
        else:
            self.settle(question)

    def go_on(self):
        """Goes on with the larger blocks that were offered."""
        if self.larger is None:
            print("  Larger blocks are offered where all questions are settled.")
            return
        reply = self.add(f"blocks {self.larger}")
        if refusal_of(reply):
            print(f"  That can't be had: {refusal_of(reply)}.")

    def act(self, key, words, question):
        """Does what a key asks for; whether the interview goes on."""
        key = WORDS.get(key, key)
        if key == "u":
            self.undo(words)
        elif key == "b":
            self.go_on()
        elif key == "m":
            self.act_many(words, question)
        elif key in ("y", "n", "s", "w"):
            self.act_question(key, words, question)
        elif key != "q":
            print(f"  Keys: {KEYS}.")
        return key != "q"

    def act_question(self, key, words, question):
        """Does what a key asks for of a question, which is the one that stands, or is named."""
        question = self.question_of(words_of(words)) if words else question
        if question is None:
            print(NO_QUESTION if words else "  No question is open.")
        elif key == "s":
            self.settle(question)
            self.skipped[question] = True
            print("  Skipped.")
        elif key == "w":
            self.why(question)
        else:
            self.answer(question, "yes" if key == "y" else "no")

    def act_many(self, words, question):
        failed = words_of(words)
        if not set(failed) <= set(self.items):
            print("  These are no items.")
        elif not failed and question is None:
            print("  No question is open.")
        else:
            self.many(tuple(it for it in self.items if it in failed) or question[0])

    def run(self):
        """Asks until the expert quits. Where all is settled, the last answer can be taken back."""
        goes_on = True
        while goes_on:
            question = self.next_question()
            if question is None and self.changed:
                self.tell_end()
            elif question:
                self.larger = None
                print(f"[{self.progress()}] {self.wording.question(question)}")
            print(end="", flush=True)
            goes_on = self.act(*self.keys.next(), question)
        print(f"{plural(len(self.standing), 'answer')} in {self.script.path.name}."
              " The same command goes on with it.")

    def tell_end(self):
        """What an interview to the end has found, and what larger blocks cost."""
        print(f"All {plural(self.count(), 'question')} of blocks {self.size} are settled:"
              f" {self.asked():,} asked,"
              f" {self.count() - self.asked():,} settled without asking.")
        print("\n".join(learned.lines(self.session, self.items, self.wording)))
        print(self.offer_larger())
        going_on = "" if self.larger is None else f"b blocks of {self.larger}, "
        print(f"Keys: {going_on}u undo, w why, l a line, q quit.")
        self.changed = False

    def offer_larger(self):
        """The least larger blocks that leave a question open, and how many: counted by `known`,
        where there are not too many."""
        for self.larger in range(self.size + 1, len(self.items)):
            count = count_of_size(self.items, self.larger)
            if count > COUNTED:
                return (f"Blocks of {self.larger} may leave fewer states. At most"
                        f" {plural(count, 'question')} would be open: b goes on with them.")
            count = sum(1 for _ in self.open_ones(of_size(self.items, self.larger)))
            if count:
                return (f"Blocks of {self.larger} may leave fewer states."
                        f" {plural(count, 'question')} would be open: b goes on with them.")
        self.larger = None
        return "No question of larger blocks is open: one space is left that fits all answers."
