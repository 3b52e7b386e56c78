"""Makes the files of a trial: of each kind that a command reads, mostly good ones."""
import json
from trials import sets

KINDS = ["table", "ways", "sets", "pairs", "skills", "family", "part", "pupils", "kept"]
SKILLS = ["s", "t", "u", "long division", "times, tables", "s0001", "\u00e9"]


class Files:
    """The files of a trial, by their names; and their names by what they are made for."""

    def __init__(self, rng, names):
        self.rng, self.names, self.size = rng, names, len(names)
        self.texts, self.by_kind = {}, {kind: [] for kind in KINDS}
        for kind in KINDS:
            for number in range(rng.choice([1, 1, 2]) + (kind == "part")):
                self.put(kind, f"{kind}{number + 1}", getattr(self, kind)())
        if rng.random() < 0.5:
            self.broken()

    def put(self, kind, name, text):
        self.texts[name] = text if isinstance(text, bytes) else text.encode()
        self.by_kind[kind].append(name)

    def broken(self):
        """A file of some kind with something wrong in it."""
        rng = self.rng
        kind = rng.choice(KINDS)
        text = bytearray(self.texts[rng.choice(self.by_kind[kind])])
        for _ in range(rng.randint(1, 2)):
            place = rng.randrange(len(text) + 1)
            change = rng.randrange(5)
            if change == 0:
                del text[place:place + 1]
            elif change == 1:
                text[place:place] = rng.choice([b"\n", b"}", b"{", b",", b"\"", b"\xff", b"zz"])
            elif change == 2:
                del text[place:]
            elif change == 3:
                text += text[place:]
            else:
                text = bytearray(bytes(text).replace(self.names[0].encode(), b"stranger", 1))
        self.put(kind, f"broken-{kind}", bytes(text))

    def some(self, items, least=0):
        """Some of the items."""
        items = list(items)
        return self.rng.sample(items, self.rng.randint(min(least, len(items)), len(items)))

    def fronts(self, items):
        """The fronts of some orders of the items: the base of a learning space has no others."""
        found = set()
        for _ in range(self.rng.choice([1, 2, 2, 3] if self.size <= 8 else [1, 2])):
            order = self.rng.sample(list(items), len(items))
            found |= {sets.set_of(order[:count], self.size) for count in range(1, len(order) + 1)}
        return found

    def family_on(self, items):
        """Some sets in which each of the items is."""
        if self.rng.random() < 0.6:
            return self.fronts(items)
        count = self.rng.randint(0, 6 if self.size <= 8 else 3)
        return {sets.set_of(self.some(items, 1), self.size) for _ in range(count)} | {
            sets.set_of(items, self.size)}

    def set_lines(self, family):
        """The text of a list of sets, in any order and with any spacing."""
        rng, lines = self.rng, []
        for own in rng.sample(sorted(family), len(family)):
            items = sets.members(own, self.size)
            words = [self.names[item] for item in rng.sample(items, len(items))]
            words += words[:1] if rng.random() < 0.05 else []
            lines.append("{" + rng.choice([" ", " ", ", ", ",", "\t"]).join(words) + "}")
            if rng.random() < 0.1:
                lines.append(rng.choice(["", "# a note", "  # {", " \t"]))
        return "\n".join(lines) + ("\n" if rng.random() < 0.8 else "")

    def table(self):
        extra = self.rng.choice(["", ",x", ",\"a, b\"", ",\"say \"\"so\"\"\""])
        mark = "\ufeff" if self.rng.random() < 0.1 else ""
        end = self.rng.choice(["\n", "\n", "\r\n"])
        return mark + "".join(name + extra + end for name in self.names)

    def sets(self):
        family = self.family_on(range(self.size))
        if self.rng.random() < 0.2:
            family |= {self.rng.choice(sorted(sets.unions(family)))}
        return self.set_lines(family)

    def family(self):
        """All unions of some sets, or all but one or two of these."""
        family = sets.unions(self.family_on(range(self.size)))
        if self.rng.random() < 0.5:
            joined = family - {0, sets.full(self.size), *sets.base_of(family)}
            pool = sorted(joined if joined and self.rng.random() < 0.8 else family)
            family -= set(self.rng.choices(pool, k=self.rng.randint(1, 2)))
        return self.set_lines(family)

    def part(self):
        items = self.some(range(self.size), (self.size + 1) // 2)
        family = self.family_on(items) if items else set()
        return self.set_lines(family | ({0} if self.rng.random() < 0.1 else set()))

    def ways(self):
        base = sets.base_of(self.family_on(range(self.size)))
        told = {}
        for item, atoms in enumerate(sets.atoms_at(base, self.size)):
            told[self.names[item]] = [[self.names[one] for one in sets.members(own, self.size)]
                                      for own in self.rng.sample(atoms, len(atoms))]
        if self.rng.random() < 0.15:
            clauses = told[self.rng.choice(self.names)]
            clauses.append(self.some(self.names, 1))
        return self.json(told)

    def json(self, value):
        """A JSON text in some layout, its keys in any order."""
        keys = self.rng.sample(sorted(value), len(value))
        own, layout = {key: value[key] for key in keys}, self.rng.choice([None, None, 1])
        return json.dumps(own, indent=layout, ensure_ascii=self.rng.random() < 0.5)

    def pairs(self):
        rng, lines = self.rng, []
        order = rng.sample(self.names, self.size)
        share = rng.choice([0.1, 0.3, 0.6] if self.size <= 8 else [0.3, 0.5])
        for high in range(self.size):
            for low in range(high):
                if rng.random() < share:
                    pair = [order[low], order[high]]
                    lines.append(rng.choice([" ", "\t", ", "]).join(pair))
        if rng.random() < 0.1:
            lines.append(f"{rng.choice(order)} {rng.choice(order)}")
        rng.shuffle(lines)
        return "# pairs\n\n" + "\n".join(lines) + rng.choice(["", "\n"])

    def skills(self):
        pool = self.rng.sample(SKILLS, self.rng.randint(1, 5))
        told = {name: self.rng.choices(pool, k=self.rng.randint(1, 3)) for name in self.names}
        return self.json(told)

    def pupils(self):
        """A class table."""
        rng = self.rng
        order = rng.sample(self.names, self.size)
        rows = [["pupil", *order]]
        pool = ["Ann", "Bea", "Cid", "p-1", self.names[0], "x.y"]
        for name in rng.sample(sorted(set(pool)), rng.randint(0, 4)):
            rows.append([name, *(rng.choice("01") for _ in order)])
        if rng.random() < 0.1:
            row = rng.choice(rows)
            row[rng.randrange(len(row))] = rng.choice(["Ann", "2", "", self.names[-1]])
        return "".join(",".join(row) + "\n" for row in rows)

    def kept(self):
        """A saved session made by hand, of either version."""
        rng, size = self.rng, self.size
        version = rng.choice([1, 2, 2])
        odds = [[rng.randint(2, 9), rng.randint(2, 9)] for _ in self.names]
        if version == 2:
            odds = [[[right, 1], [wrong, rng.randint(1, wrong - 1)]] for right, wrong in odds]
        answers = []
        for number in sorted(rng.sample(range(1, 9), rng.randint(0, 3) if size > 1 else 0)):
            before, item = rng.sample(range(size), 2)
            cursor = sets.cursor(sets.bit(before, size), size)
            answers.append([number, rng.random() < 0.6, cursor, item])
        start = "free"
        if rng.random() < 0.5 or size > 8:
            base = sets.base_of(self.family_on(range(size)))
            start = {"base": [sets.cursor(own, size) for own in base]}
        told = {
            "version": version, "items": self.names, "start": start, "block": 1,
            "answers": answers, "next": rng.randint(9, 12), "odds": odds, "note": "by hand",
            "limits": [rng.randint(1, 20), rng.randint(51, 99)], "pupils": []}
        if rng.random() < 0.25:
            key = rng.choice(sorted(told))
            told[key] = rng.choice([0, "free", [], [told[key]], {}, told["limits"], None])
        return self.json(told)
