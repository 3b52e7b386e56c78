"""Which answers tell a question: a small part of them that does so in a run of its own.

  found = telling(program, folder, answers, question, number)

gives the numbers of answers that together tell the question, where the program says so of a second
run that has no other answers; None where none were found. `number` is that of the No by which
`known` tells No, and None where it tells Yes. What is found need not be the only such part."""
from companion import Session, refusal_of
from questions import command_of

MOST_REPLIES = 900  # that make a part smaller, after which it stays as it is


class Trial:
    """A second run, which has those of the answers that are tried."""

    def __init__(self, session, answers, question, number):
        self.session, self.standing = session, answers.standing
        self.question, self.wanted = question, "known yes" if number is None else "known no"
        self.kept, self.replies = {}, 0  # the number that an answer has in this run
        self.is_ready = not any(refusal_of(session.say(line)) for line in answers.ground)
        if number is not None:
            self.put(number)

    def say(self, line):
        self.replies += 1
        return self.session.say(line)[0]

    def put(self, number):
        question, word = self.standing[number]
        reply = self.say(f"{word} {command_of(question)}")
        self.is_ready = self.is_ready and reply.startswith("ok ")
        self.kept[number] = reply.split()[1]

    def tells(self, numbers):
        """Whether these Yes answers tell the question."""
        for number in [it for it in self.kept if self.standing[it][1] == "yes"]:
            if number not in numbers:
                self.say(f"retract {self.kept.pop(number)}")
        for number in numbers:
            if number not in self.kept:
                self.put(number)
        return self.is_ready and self.say("known " + command_of(self.question)).startswith(
            self.wanted)

    def least(self, numbers):
        """Of answers that tell the question those that are needed, found last to first: each time
        the least front that tells it, with those found. Where the replies run out, the front that
        was reached tells it too."""
        found = []
        while True:
            low, high = -1, len(numbers)
            while high - low > 1 and self.replies < MOST_REPLIES:
                middle = (low + high) // 2
                if self.tells(found + numbers[:middle]):
                    high = middle
                else:
                    low = middle
            if high == 0 or high - low > 1:
                return found + numbers[:high]
            found.append(numbers[high - 1])
            numbers = numbers[:high - 1]


def chain(rules, before, item):
    """The numbers of rules that lead from what fails to this item; None where none do. A rule is a
    Yes: who fails all items before its colon fails the one behind it."""
    by = dict.fromkeys(before)
    is_longer = True
    while is_longer and item not in by:
        reached = {behind: number for number, (first, behind) in reversed(list(rules.items()))
                   if behind not in by and all(it in by for it in first)}
        by.update(reached)
        is_longer = bool(reached)
    if item not in by:
        return None
    used, waiting = set(), [item]
    while waiting:
        number = by[waiting.pop()]
        if number is not None and number not in used:
            used.add(number)
            waiting += rules[number][0]
    return used


def candidates(yes, standing, question, number):
    """First the answers of a chain, where there is one, and then all Yes answers."""
    if number is None:
        found = chain(yes, *question)
    else:  # the No would be a Yes, were this question one
        found = chain({**yes, 0: question}, *standing[number][0])
    return ([sorted(found - {0})] if found else []) + [sorted(yes)]


def telling(program, folder, answers, question, number=None):
    yes = {it: asked for it, (asked, word) in answers.standing.items() if word == "yes"}
    with Session(program, folder) as session:
        trial = Trial(session, answers, question, number)
        for some in candidates(yes, answers.standing, question, number):
            if trial.tells(some):
                trial.replies = 0
                return sorted(trial.least(some) + ([] if number is None else [number]))
    return None
