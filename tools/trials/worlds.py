"""Makes a world from a number: the items, the files of a folder, and a script on them.

All is drawn from `random.Random(number)`, so one number always gives one world."""
import random
from trials import sets
from trials.files import Files

SIZES = [1] + [2] * 3 + [3] * 9 + [4] * 10 + [5] * 8 + [6] * 5 + [7] * 2 + [8]
ODD_NAMES = ["a-1", "x.y", "B", "b", "_", "-", ".", "right", "after", "any", "9", "007", "base",
             "s0001", "no", "yes", "N" * 40, "safe-open", "z", "items", "0"]
STRANGE = [":", "|", "after", "65537", "65536", "007", "1000000000", "n" * 41, "\u00e9", "#",
           "stranger", ".hidden", "-1", "f" * 65, "%", "wrong", "right", "base", "all", "\udcff"]
LISTINGS = ["states", "states", "safe-states", "project", "skills", "mesh", "paths"]
PLAIN = ["known", "known", "ask", "base", "surmise", "relation", "skill-map", "learning",
         "fringes", "state-of", "project-base", "test", "mesh-agree"] + LISTINGS
GROUPS = {
    "interview": ["yes"] * 6 + ["no"] * 4 + ["retract", "known", "ask", "blocks"],
    "views": PLAIN,
    "pupils": ["pupil", "replies", "replies", "replies", "question", "report", "close", "class",
               "odds", "ratio", "limits"],
    "safe": ["safe-open"] + ["safe"] * 6 + ["safe-list", "safe-states", "safe-close"],
    "files": ["start", "save", "open", "class", "test", "items", "load-items"],
}


class World:
    """The files and the script of a trial, and the number by which all else is drawn."""

    def __init__(self, number, names, lines, files):
        self.number, self.names, self.lines, self.files = number, names, lines, files

    def rng(self, name):
        """The numbers that a check draws."""
        return random.Random(f"{self.number} {name}")

    def with_changed(self, lines, files):
        return World(self.number, self.names, lines, files)


def item_names(rng):
    """The names of some items."""
    size = rng.choice(SIZES) if rng.random() < 0.92 else rng.randint(9, 14)
    if rng.random() < 0.2:
        return rng.sample(ODD_NAMES, size)
    return rng.sample("abcdefghijklmnopqrst", size)


class Maker:
    """Draws the lines of a script."""

    def __init__(self, rng, names, files):
        self.rng, self.names, self.size, self.files = rng, names, len(names), files
        self.answers, self.begun = 0, []

    def name(self):
        return self.rng.choice(self.names) if self.rng.random() < 0.99 else "stranger"

    def some_names(self):
        return self.rng.sample(self.names, self.rng.randint(0, self.size))

    def file(self, kind):
        """The name of a file, mostly of this kind."""
        drawn = self.rng.random()
        if drawn < 0.9:
            return self.rng.choice(self.files.by_kind[kind])
        return self.rng.choice([*self.files.texts, "s1"]) if drawn < 0.97 else "nowhere"

    def pupil(self):
        """The name of a pupil, mostly of one that has begun."""
        if self.begun and self.rng.random() < 0.9:
            return self.rng.choice(self.begun)
        return self.rng.choice(["Ann", "Bea", self.names[0]])

    def pupil_line(self):
        if self.rng.random() < 0.01:
            return [f"pupil p{number}" for number in range(17)]
        self.begun.append(self.rng.choice(["Ann", "Bea", self.names[0]]))
        return f"pupil {self.begun[-1]}"

    def cursor(self):
        if self.rng.random() < 0.06:
            return self.rng.choice(["", "0", "g", "F", "1"]) + self.rng.choice("0g1f")
        return sets.cursor(self.rng.randrange(1 << self.size), self.size)

    def page(self, after):
        """A count, and now and then a cursor behind it."""
        count = self.rng.choice([0, 1, 2, 3, 5, 1000, 65536])
        return f"{count} after {after()}" if self.rng.random() < 0.4 else f"{count}"

    def query(self):
        rng = self.rng
        before = rng.sample(self.names, min(self.size, rng.choice([1, 1, 1, 1, 2, 2, 3])))
        behind = [name for name in self.names if name not in before]
        if rng.random() < 0.03:
            before, behind = before[:rng.randint(0, 1)], before
        if rng.random() < 0.05:
            before = before + before[:1]
        return f"{' '.join(before)} : {rng.choice(behind or self.names)}"

    def odds_line(self):
        item = self.name() + " " if self.rng.random() < 0.5 else ""
        return f"odds {item}{self.rng.randint(1, 12)} {self.rng.randint(1, 12)}"

    def ratio_line(self):
        rng = self.rng
        item = self.name() + " " if rng.random() < 0.5 else ""
        pairs = [sorted(rng.sample(range(1, 13), 2), reverse=True) for _ in range(2)]
        if rng.random() < 0.1:
            pairs[0].reverse()
        return f"ratio {item}{pairs[0][0]} {pairs[0][1]} {pairs[1][0]} {pairs[1][1]}"

    def limits_line(self):
        budget = self.rng.choice([0, 1, 2, 3, 5, 8, 20, 30, 40, 41])
        return f"limits {budget} {self.rng.choice([50, 51, 60, 75, 90, 95, 99, 100])}"

    def replies_line(self):
        """Replies of a pupil on each item in some order: now and then one is on the item asked."""
        own = set(self.some_names())
        pupil = self.pupil()
        return [f"reply {pupil} {name} {'right' if name in own else 'wrong'}"
                for name in self.rng.sample(self.names, self.size)]

    def retract_line(self):
        return f"retract {self.rng.randint(1, self.answers + 2)}"

    def answer_line(self, word):
        self.answers += 1
        return f"{word} {self.query()}"

    def paths_page(self):
        order = self.rng.sample(self.names, self.size)
        return " ".join(order[:self.size - (self.rng.random() < 0.1)])

    def state_of_line(self):
        return f"state-of {' '.join(self.some_names())} | {' '.join(self.some_names())}"

    def start_line(self):
        kind, word = self.rng.choice([("ways", "surmise"), ("sets", "base"), ("pairs", "relation")])
        return f"start {word} {self.file(kind)}"

    def plain_line(self, word):
        """The line of a command without a method of its own."""
        rng = self.rng
        lines = {
            "items": lambda: f"items {' '.join(self.names)}",
            "load-items": lambda: f"load-items {self.file('table')}",
            "blocks": lambda: f"blocks {rng.randint(0, max(1, self.size))}",
            "known": lambda: f"known {self.query()}",
            "states": lambda: "states " + self.page(self.cursor) if rng.random() < 0.8
                              else "states",
            "safe-states": lambda: "safe-states " + self.page(self.cursor),
            "fringes": lambda: f"fringes {' '.join(self.some_names())}",
            "paths": lambda: "paths " + self.page(self.paths_page),
            "project": lambda: f"project {self.page(self.cursor)} : {' '.join(self.some_names())}",
            "project-base": lambda: f"project-base {' '.join(self.some_names())}",
            "test": lambda: f"test {self.file('family')}",
            "skills": lambda: f"skills {rng.choice(['any', 'all'])} {self.file('skills')} "
                              + self.page(self.cursor),
            "mesh": lambda: f"mesh {self.file('part')} {self.file('part')} "
                            + self.page(self.cursor),
            "mesh-agree": lambda: f"mesh-agree {self.file('part')} {self.file('part')}",
            "question": lambda: f"question {self.pupil()}",
            "report": lambda: f"report {self.pupil()}",
            "close": lambda: f"close {self.pupil()}",
            "class": lambda: f"class {self.file('pupils')}",
            "save": lambda: f"save s{rng.randint(1, 2)}",
            "open": lambda: f"open {rng.choice(['s1', 's1', 's2', self.file('kept')])}",
            "safe": lambda: f"safe {self.query()}",
        }
        return lines[word]() if word in lines else word

    def line(self, word):
        """The lines of a command."""
        if word in ("yes", "no"):
            return [self.answer_line(word)]
        own = getattr(self, word.replace("-", "_") + "_line", None)
        made = own() if own else self.plain_line(word)
        return made if isinstance(made, list) else [made]

    def spoiled(self, line):
        """The line with something wrong in it, perhaps."""
        words = line.split()
        place = self.rng.randrange(len(words) + 1)
        change = self.rng.randrange(4)
        if change == 0:
            del words[place:place + 1]
        elif change == 1:
            words[place:place] = [self.rng.choice(STRANGE)]
        elif change == 2:
            words[place:place + 1] = [self.rng.choice(STRANGE + self.names)]
        else:
            words = words[:place]
        return " ".join(words)

    def spaced(self, line):
        """The line with other spaces between its words, which mean the same."""
        gap = self.rng.choice(["  ", "\t", ",", ", ", " ,\t"])
        line = self.rng.choice(["", " ", "\t"]) + line.replace(" ", gap)
        return line.replace(gap + ":" + gap, ":") + self.rng.choice(["", " ", "\r"])

    def noise(self):
        return self.rng.choice(["", " ", "# a note", " \t# states", "foo", ", #", "nonsense : |",
                                ",,", "\r", ":", "| a", "STATES", "states\r\r", "\u00e9", "no"])

    def script(self):
        """The lines of a script."""
        rng = self.rng
        weights = [rng.choice([3, 6, 10]), *(rng.choice([1, 2, 6]) for _ in range(3)), 1]
        words = ["items" if rng.random() < 0.8 else "load-items"]
        if rng.random() < (0.5 if self.size <= 8 else 1):
            words.append("start")
        words += ["blocks"] if rng.random() < 0.4 else []
        for group in rng.choices(list(GROUPS), weights, k=rng.randint(8, 36)):
            first = {"safe": "safe-open", "pupils": "pupil"}.get(group)  # else all are refused
            words += [first] if first and first not in words else []
            words.append(rng.choice(GROUPS[group]))
        if rng.random() < 0.1:
            words[:0] = [rng.choice(GROUPS[rng.choice(list(GROUPS))])]
        lines = []
        for word in words:
            for line in self.line(word):
                if rng.random() < 0.04:
                    line = self.spoiled(line)
                lines.append(self.spaced(line) if rng.random() < 0.08 else line)
            if rng.random() < 0.06:
                lines.append(self.noise())
        if rng.random() < 0.003:
            lines.append("a" * rng.randint(65535, 65538))
        return lines


def make(number):
    """The world of a number."""
    rng = random.Random(number)
    names = item_names(rng)
    files = Files(rng, names)
    return World(number, names, Maker(rng, names, files).script(), files.texts)
