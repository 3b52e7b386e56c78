"""What each state of a pupil weighs, by the definitions of the documents.

The program tells the heaviest state alone. Here the states are listed and weighed again, so that
more can be told of them: but only where the program's own total comes out."""
from companion import cursor_of, names_in

MOST = 65536
SETTLED = 95  # hundredths of the weight


class Ratios:
    """For each item the ratios of a right and a wrong reply, and the limits."""

    def __init__(self):
        self.all, self.one, self.share, self.budget = ((8, 1), (8, 1)), {}, 90, 30

    def follow(self, words):
        """Keeps what an accepted line of settings says."""
        if words[0] == "limits":
            self.budget, self.share = int(words[1]), int(words[2])
            return
        count = 2 if words[0] == "odds" else 4
        numbers = [int(it) for it in words[-count:]]
        pair = tuple(zip(numbers[::2], numbers[1::2])) if count == 4 else \
            tuple((it, 1) for it in numbers)
        if len(words) == count + 1:
            self.all, self.one = pair, {}
        else:
            self.one[words[1]] = pair

    def take(self, saved, items):
        """Takes the settings of a session that was opened."""
        def ratio(it):
            return tuple(it) if isinstance(it, list) else (it, 1)
        self.budget, self.share = saved["limits"]
        self.one = {item: (ratio(right), ratio(wrong))
                    for item, (right, wrong) in zip(items, saved["odds"])}

    def of(self, item, is_right):
        right, wrong = self.one.get(item, self.all)
        return right if is_right else wrong


class Weights:
    """The states with what they weigh after some replies."""

    def __init__(self, session, items, ratios, replies):
        cursors = session.cursors(MOST) or []
        self.items, self.width = items, 4 * ((len(items) + 3) // 4)
        self.states = [int(it, 16) for it in cursors]
        self.weights = [1] * len(self.states)
        for item, is_right in replies:
            self.reply(item, is_right, ratios.of(item, is_right))
        self.total = sum(self.weights)

    def bit(self, item):
        return 1 << (self.width - 1 - self.items.index(item))

    def reply(self, item, is_right, ratio):
        bit = self.bit(item)
        self.weights = [weight * ratio[0 if bool(state & bit) == is_right else 1]
                        for state, weight in zip(self.states, self.weights)]

    def hundredths(self, weight):
        return 100 * weight // self.total

    def leading(self, count):
        """The heaviest states, of equal ones the first: the names, and the weight."""
        order = sorted(range(len(self.states)), key=lambda it: (-self.weights[it], it))[:count]
        return [([name for name in self.items if self.states[it] & self.bit(name)],
                 self.weights[it]) for it in order]

    def of_item(self, item):
        """What the states with this item weigh together."""
        bit = self.bit(item)
        return sum(weight for state, weight in zip(self.states, self.weights) if state & bit)

    def parted(self):
        """The items that are almost surely mastered, almost surely not, and the others."""
        shares = {item: self.of_item(item) for item in self.items}
        known = [it for it in self.items if 100 * shares[it] >= SETTLED * self.total]
        missing = [it for it in self.items
                   if 100 * shares[it] <= (100 - SETTLED) * self.total]
        return known, missing, {it: self.hundredths(shares[it]) for it in self.items
                                if it not in known and it not in missing}


def items_of(session):
    """All items, which are the first state that is listed; none where no domain stands."""
    listing = session.say("states 1")
    return names_in(listing[0]) if listing[0].startswith("set ") and cursor_of(listing[0]) else []
