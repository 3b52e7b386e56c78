"""The cases of tools/longest: for each the commands that take longest within the limits.

A case is given a session of the program in an empty folder, and returns pairs: a command with where
it is given, and its seconds. All that is drawn is drawn from seeds, so that each run of a case is
the same."""
import itertools
import json
import random

CASES = {}


def case(function):
    CASES[function.__name__] = function
    return function


def names(count):
    """Names of two letters."""
    letters = "abcdefghijklmnopqrstuvwxyz"
    return [a + b for a, b in itertools.islice(itertools.product(letters, repeat=2), count)]


def begin(it, count):
    """The names of so many items, which the program is given."""
    found = names(count)
    it.do(["items " + " ".join(found)])
    return found


def query(found, items, item):
    return " ".join(found[i] for i in items) + " : " + found[item]


def set_text(found, items):
    return "{" + " ".join(found[i] for i in items) + "}"


class Expert:
    """Says Yes to a query exactly where in each of some orders of the items some item of its set
    is before its item."""

    def __init__(self, draw, count, orders=3):
        self.places = [draw.sample(range(count), count) for _ in range(orders)]

    def reply(self, items, item):
        return "yes" if all(min(p[i] for i in items) < p[item] for p in self.places) else "no"


def interview(it, found, sizes, count, seed=7):
    """Answers to drawn queries, until so many of them stand: the seconds of the longest `yes` and
    of the longest `no`, and how many stand."""
    draw = random.Random(seed)
    expert, longest, stand = Expert(draw, len(found)), {"yes": 0, "no": 0}, 0
    for _ in range(20 * count):
        item, *items = draw.sample(range(len(found)), draw.choice(sizes) + 1)
        reply = expert.reply(items, item)
        seconds, last = it.take(f"{reply} {query(found, items, item)}")
        longest[reply] = max(longest[reply], seconds)
        stand += last.startswith("ok")
        if stand == count:
            break
    return longest, stand


@case
def answers_on_512_items(it):
    found = begin(it, 512)
    longest, stand = interview(it, found, [2, 3, 4, 5], 8190)
    where = f"512 items, {stand:,} answers of two to five items"
    yield ("`yes`", where), longest["yes"]
    yield ("`no`", where), longest["no"]
    yield ("`save`", where), it.time("save kept", "ok")
    yield ("`open`", where), it.time("open kept", "ok")
    after, _ = interview(it, found, [2, 3, 4, 5], 1, seed=8)
    yield ("an answer after it", where), max(after.values())


@case
def answers_on_128_items(it):
    found = begin(it, 128)
    longest, stand = interview(it, found, [1, 2], 8190)
    where = f"128 items, {stand:,} answers of one or two items"
    yield ("`yes`", where), longest["yes"]
    yield ("`no`", where), longest["no"]
    yield ("`retract`", where), max(it.time(f"retract {k}", "ok") for k in range(1, 8000, 97))
    yield ("`ask`", where), it.time("ask", "ask")
    yield ("`known`", where), it.time("known " + query(found, [1], 2), "known")


@case
def settled(it):
    found, draw = begin(it, 128), random.Random(4)
    it.do(["blocks 3"])
    drawn = [draw.sample(range(128), 61) for _ in range(3000)]
    it.do("yes " + query(found, items[1:], items[0]) for items in drawn)
    it.do("yes " + query(found, [k], (k + 1) % 128) for k in range(128))
    yield ("`ask`", "128 items, `blocks 3`, 3,000 Yes of 60 items, and a ring that settles all"), \
        it.time("ask", "settled")


@case
def bases(it):
    found, draw, sets = begin(it, 512), random.Random(9), {(i,) for i in range(16)}
    while len(sets) < 4080:
        sets.add(tuple(sorted(draw.sample(range(16, 512), 8))))
    it.put("sets", [set_text(found, items) for items in sorted(sets)])
    where = "a base of 4,080 sets on 512 items"
    for name, line, wanted in [
            ("start base", "start base sets", "ok 4080"), ("base", "base", "base 4080"),
            ("learning", "learning", "learning no"), ("surmise", "surmise", "surmise"),
            ("project-base", "project-base " + " ".join(found[:256]), "learning"),
            ("fringes", "fringes " + " ".join(found), "fringes"),
            ("states 65536", "states 65536", "more yes")]:
        yield (f"`{name}`", where), it.time(line, wanted)


@case
def joins(it):
    found, draw, sets = begin(it, 512), random.Random(4), set()
    while len(sets) < 2000:
        sets.add((0, *sorted(draw.sample(range(2, 257), 2))))
    while len(sets) < 4000:
        sets.add((1, *sorted(draw.sample(range(257, 512), 2))))
    sets |= {(i,) for i in range(2, 98)}
    it.put("sets", [set_text(found, items) for items in sorted(sets)])
    it.do(["start base sets", "yes " + query(found, [1], 0)])
    yield ("`base`", "2,000 sets fall by a Yes, and 2,000 can save each: refused as too many"), \
        it.time("base", "no 25 1")


@case
def pairs(it):
    found, draw = begin(it, 512), random.Random(5)
    drawn = list(itertools.combinations(range(512), 2))
    draw.shuffle(drawn)
    sets = [set_text(found, items) for items in drawn[:65534]]
    it.put("family", ["{}", set_text(found, range(512)), *sets])
    it.put("base", sets)
    yield ("`test`", "65,534 pairs of 512 items, {}, and the set of all"), \
        it.time("test family", "test not-closed")
    yield ("`start base`", "the same pairs, refused as too many"), \
        it.time("start base base", "no 14")
    lines = [f"{found[a]} {found[b]}" for a, b in drawn]
    it.put("relation", (lines * 22)[:2_790_000])
    yield ("`start relation`", "16 MB of pairs of 512 items"), \
        it.time("start relation relation", "ok")


@case
def twins(it):
    found = begin(it, 120)
    left_out = (gone for count in range(4) for gone in itertools.combinations(range(60), count))
    it.put("family", ["{}", *(set_text(found, (i for i in range(120) if i // 2 not in gone))
                              for gone in left_out)])
    yield ("`test`", "the unions of 57 and more of 60 pairs, and {}: 36,052 sets, 12 MB"), \
        it.time("test family", "test not-graded")


@case
def clauses(it):
    found, draw, of_first = begin(it, 512), random.Random(4), set()
    while len(of_first) < 230_000:
        of_first.add(tuple(sorted(draw.sample(range(1, 512), 12))))
    text = {name: [[name]] for name in found}
    text[found[0]] = [[found[0], *(found[i] for i in items)] for items in sorted(of_first)]
    it.put("surmise", [json.dumps(text, separators=(",", ":"))])
    yield ("`start surmise`", "16 MB: 230,000 clauses of one item, refused as too many"), \
        it.time("start surmise surmise", "no 14")


@case
def free(it):
    begin(it, 512)
    yield ("`states 65536`", "512 items and no answer: 100 MB"), it.time("states 65536", "more yes")


@case
def tries(it):
    found = begin(it, 512)
    it.do("yes " + query(found, [late], early) for early in range(16) for late in range(16, 512))
    yield ("`states 65536`", "512 items, 7,936 Yes by which a state has 496 failing tries"), \
        it.time("states 65536", "more yes")


@case
def rings(it):
    found = begin(it, 512)
    it.do("yes " + query(found, [i], (i + 16) % 512) for i in range(512))
    yield ("`pupil`", "65,536 states on 512 items, given by 16 rings of Yes answers"), \
        it.time("pupil p", "ok 65536")


def wide_queries(count):
    """Queries on 24 items, of 8 to 15 each, behind those that tie the last nine."""
    draw, tied = random.Random(7), [((i,), i + 1 if i < 23 else 15) for i in range(15, 24)]
    asked = dict.fromkeys(tied)
    while len(asked) < count:
        items = tuple(sorted(draw.sample(range(24), draw.randrange(8, 16))))
        item = draw.randrange(24)
        if item not in items:
            asked[items, item] = None
    return list(asked)


def cursor(count, items):
    digits = (count + 3) // 4
    return f"{sum(1 << (4 * digits - 1 - i) for i in items):0{digits}x}"


@case
def wide_answers(it):
    found = begin(it, 24)
    for items, item in wide_queries(1009):
        it.take("yes " + query(found, items, item))
    yield ("`pupil`", "24 items, up to 1,009 Yes answers of 8 to 15 items"), \
        it.time("pupil p", "ok")


@case
def saved_pupil(it):
    yes = [[cursor(24, items), item] for items, item in wide_queries(100_000)]
    settings = {"limits": [13, 90], "odds": [[8, 8]] * 24}
    pupil = {**settings, "name": "p", "replies": [], "start": "free", "yes": yes}
    session = {**settings, "answers": [], "block": 1, "items": names(24), "next": 1,
               "pupils": [pupil], "start": "free", "version": 1}
    it.put("session", [json.dumps(session, separators=(",", ":"), sort_keys=True)])
    yield ("`open` of a pupil", "24 items, 100,000 Yes queries of 8 to 15 items"), \
        it.time("open session", "ok")


@case
def saved_pupils(it):
    found, draw = begin(it, 40), random.Random(4)
    it.do("yes " + query(found, pair, item) for i in range(16, 40)
          for pair, item in [([i - 16], i), ([i], i - 16)])
    for k in range(16):
        it.do([f"pupil p{k}"])
        it.take("yes " + query(found, draw.sample(range(16), 3), draw.randrange(16)))
    for k in range(16):
        for _ in range(29):
            words = it.say(f"question p{k}")[0].split()
            if words[0] == "question":
                it.do([f"reply p{k} {words[1]} {draw.choice(['right', 'wrong'])}"])
    it.do(["save session"])
    yield ("`open` of 16 pupils", "40 items, each pupil under other answers"), \
        it.time("open session", "ok")


@case
def wide_session(it):
    draw, answers, asked = random.Random(7), [], set()
    expert = Expert(draw, 512)
    while len(answers) < 8192:
        items = draw.sample(range(512), draw.choice((100, 200, 256)))
        item = draw.randrange(512)
        if item not in items:
            answers.append([len(answers) + 1, expert.reply(items, item) == "yes",
                            cursor(512, items), item])
    session = {"answers": answers, "block": 1, "items": names(512), "limits": [13, 90],
               "next": 8193, "odds": [[8, 8]] * 512, "pupils": [], "start": "free", "version": 1}
    it.put("session", [json.dumps(session, separators=(",", ":"), sort_keys=True)])
    yield ("`open`", "512 items, 8,192 answers of 100 to 256 items"), it.time("open session", "ok")


@case
def classes(it):
    found, draw = begin(it, 16), random.Random(2)
    it.put("class", ["pupil," + ",".join(found)] + [
        f"p{k}," + ",".join(draw.choice("01") for _ in found) for k in range(256)])
    it.do(["limits 40 99", "ratio 6 5 6 5"])
    yield ("`class`", "256 pupils over 65,536 states on 16 items, 40 replies"), \
        it.time("class class", "class 256")


@case
def meshes(it):
    found = begin(it, 36)
    for file, first in [("left", 0), ("right", 18)]:
        it.put(file, (set_text(found, items)
                      for items in itertools.combinations(range(first, first + 18), 9)))
    yield ("`mesh`", "two files of 48,620 sets, refused as too wide"), \
        it.time("mesh left right 9", "no 70")


@case
def large_mesh(it):
    found, draw = begin(it, 512), random.Random(3)
    for file, first in [("left", 0), ("right", 212)]:
        sets = {tuple(sorted(draw.sample(range(first, first + 300), 8))) for _ in range(3800)}
        it.put(file, [set_text(found, items) for items in sorted(sets)])
    yield ("`mesh .. 65536`", "parts of 3,800 sets on 300 items each, 512 in all: 100 MB"), \
        it.time("mesh left right 65536", "more yes")


@case
def skills(it):
    found, draw = begin(it, 512), random.Random(3)
    of_item = {name: [] for name in found}
    for number in range(4096):
        for name in draw.sample(found, draw.choice((20, 60))):
            of_item[name].append(f"s{number}")
    it.put("skills", [json.dumps(of_item, separators=(",", ":"))])
    yield ("`skills all .. 256`", "4,096 skills of 20 or 60 of 512 items"), \
        it.time("skills all skills 256", "more yes")


@case
def safe_interview(it):
    found, draw = begin(it, 256), random.Random(6)
    orders = Expert(draw, 256, 5).places
    sets = {tuple(i for i in range(256) if place[i] <= last) for place in orders
            for last in range(256)}
    it.put("sets", [set_text(found, items) for items in sorted(sets)])
    it.do(["start base sets", "safe-open"])
    longest = 0
    for _ in range(320):
        item, *items = draw.sample(range(256), 2)
        longest = max(longest, it.take("safe " + query(found, items, item))[0])
    yield ("`safe`", f"256 items, a base of {len(sets):,} sets, the longest of 320 answers"), \
        longest
