"""The questions of an interview: their order, and how they and their answers are told.

A question is a pair: the names before the colon, in the order of items, and the name behind it."""
import itertools
import math
import re

from companion import words_of


def plural(count, word):
    return f"{count:,} {word}" + ("" if count == 1 else "s")


def command_of(question):
    """A question in the program's words."""
    before, item = question
    return f"{' '.join(before)} : {item}"


def question_of(words, items):
    """The question with these words; None where it is no question of the items."""
    if words.count(":") != 1 or words[-2:-1] != [":"] or len(words) == 2:
        return None
    if not set(words) - {":"} <= set(items):
        return None
    return tuple(name for name in items if name in words[:-2]), words[-1]


def of_size(items, size):
    """All questions with so many items before the colon, in the order in which they are asked."""
    for before in itertools.combinations(items, size):
        yield from ((before, item) for item in items if item not in before)


def count_of_size(items, size):
    return math.comb(len(items), size) * (len(items) - size)


def chosen(text, items):
    """Those of the items that a line names, by names or by their numbers from 1 on, and the first
    word that is neither. Where a name is itself a number, numbers stand for names alone."""
    by_word = {} if numbered_by_names(items) else \
        {str(number): item for number, item in enumerate(items, 1)}
    by_word.update((item, item) for item in items)
    words = words_of(text)
    named = {by_word.get(word) for word in words}
    wrong = next((word for word in words if word not in by_word), None)
    return [it for it in items if it in named], wrong


def numbered_by_names(items):
    return any(re.fullmatch("[0-9]+", it) for it in items)


class Wording:
    """Questions and answers in words, with the labels of the items."""

    def __init__(self, labels):
        self.labels = labels

    def names(self, names):
        return ", ".join(self.labels.told(it) for it in names)

    def failed(self, before):
        return ("all of " if len(before) > 1 else "") + self.names(before)

    def question(self, question):
        """The sentence that asks it, and below it a task of each item that has one."""
        before, item = question
        asked = f"Would a pupil who fails {self.failed(before)} also fail {self.names([item])}?"
        tasks = [f"    {it}: {self.labels.task(it)}" for it in (*before, item)
                 if self.labels.task(it)]
        return "\n".join([asked, *tasks])

    def answer(self, question, word):
        """What an answer says."""
        before, item = question
        if word == "yes":
            return f"who fails {self.failed(before)} also fails {self.names([item])}"
        return f"some pupil fails {self.failed(before)} and masters {self.names([item])}"

    def choice(self, items):
        """A list of items, to pick from by numbers where no name is a number."""
        numbers = [""] * len(items) if numbered_by_names(items) else \
            [f"{number} " for number in range(1, len(items) + 1)]
        texts = [number + self.labels.told(it) for number, it in zip(numbers, items)]
        wide = max(map(len, texts)) + 3
        row = max(1, 96 // wide)
        return "\n".join("    " + "".join(it.ljust(wide) for it in texts[at:at + row]).rstrip()
                         for at in range(0, len(texts), row))
