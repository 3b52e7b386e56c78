"""Checks of assessments: a class is its pupils one by one, and weights are those of the replies."""
from trials import replies, sets
from trials.replies import Differs
from trials.trial import AtEnd, same

TABLE, ALONE = "class-of-the-trial", "one-by-one"


def class_table(trial, rng):
    """The order of the items in a class table, and the marks of each pupil."""
    names = trial.names()
    order = rng.sample(names, len(names))
    rows = {f"p{number}": [rng.choice("01") for _ in order] for number in range(rng.randint(1, 3))}
    text = f"pupil,{','.join(order)}\n" + "".join(
        f"{name},{','.join(marks)}\n" for name, marks in rows.items())
    return text, {name: dict(zip(order, marks)) for name, marks in rows.items()}


def one_by_one(live, marks):
    """The end of the assessment of one pupil by its marks: what a class tells of it."""
    begun = live.say(f"pupil {ALONE}")
    if replies.is_refusal(begun):
        return begun
    count = 0
    while (asked := live.say(f"question {ALONE}")).startswith("question "):
        item = asked.split()[1]
        mark = "right" if marks[item] == "1" else "wrong"
        count += 1
        same(live.say(f"reply {ALONE} {item} {mark}"), f"ok {count}\n", "the count of replies")
        if count > 40:
            raise Differs("a pupil has more than 40 replies")
    report = live.say(f"report {ALONE}").splitlines()[0]
    same(live.say(f"close {ALONE}"), "ok\n", "the reply to `close`")
    state, _, _, told = report[len("report "):].rsplit(" ", 3)
    same(told, str(count), "the number of replies in the report")
    return f"{count} {asked.split()[1]} {state}"


def a_class_is_its_pupils_one_by_one(trial):
    """The table is made here, on the session as the script leaves it."""
    full = len(trial.ledger.pupils) >= 16 or sum(map(len, trial.lines)) > 30000
    if full or not trial.names():
        return 0
    text, rows = class_table(trial, trial.world.rng("class"))
    live = trial.program.live({**trial.files, TABLE: text.encode()})
    try:
        live.say_all(trial.lines)
        told = live.say(f"class {TABLE}")
        single = {name: one_by_one(live, marks) for name, marks in rows.items()}
    finally:
        live.end()
    if replies.is_refusal(told):
        same(list(single.values()), [told] * len(rows), "the refusals of the pupils of a class")
    else:
        lines = [f"result {name} {end}\n" for name, end in single.items()]
        same(told, "".join(lines) + f"class {len(rows)}\n", "`class`, by its pupils one by one")
    return len(rows)


class Weights:
    """The weights of a pupil's states, by the text of docs/COMMANDS.md."""

    def __init__(self, states, ratios, limits, size):
        self.weights = dict.fromkeys(states, 1)
        self.ratios, self.limits, self.size, self.count = ratios, limits, size, 0

    def take(self, item, right):
        ratio = self.ratios[item][0 if right else 1]
        for own in self.weights:
            agrees = bool(own & sets.bit(item, self.size)) == right
            self.weights[own] *= ratio[0 if agrees else 1]
        self.count += 1

    def heaviest(self):
        most = max(self.weights.values())
        return max(own for own, weight in self.weights.items() if weight == most)

    def asked(self, names):
        """What `question` tells."""
        total = sum(self.weights.values())
        if 100 * max(self.weights.values()) >= self.limits[1] * total:
            return "over share\n"
        if self.count >= self.limits[0]:
            return "over budget\n"
        away = [abs(2 * sum(weight for own, weight in self.weights.items()
                            if own & sets.bit(item, self.size)) - total)
                for item in range(self.size)]
        return f"question {names[away.index(min(away))]}\n"

    def report(self, names):
        """What `report` tells."""
        own = self.heaviest()
        return (f"report {sets.in_braces(own, names)} {self.weights[own]} "
                f"{sum(self.weights.values())} {self.count}\n"
                + sets.fringes_text(own, self.weights, names))


def questions_and_reports_fit_the_weights(trial):
    """Of each pupil that stands at the end, with what it began with."""
    names, weighed = trial.names(), {}
    if not names:
        return 0
    for name, pupil in trial.ledger.pupils.items():
        if pupil.states is not None:
            weighed[name] = Weights(pupil.states, pupil.ratios, pupil.limits, len(names))
            for item, right in pupil.replies:
                same(weighed[name].asked(names), f"question {names[item]}\n",
                     f"what {name} was asked when a reply was taken, by the weights")
                weighed[name].take(item, right)
    lines = [f"{word} {name}" for name in weighed for word in ("question", "report")]
    found = yield AtEnd(lines)
    for place, (name, own) in enumerate(weighed.items()):
        same(found[2 * place], own.asked(names), f"`question {name}`")
        same(found[2 * place + 1], own.report(names), f"`report {name}`")
    return len(lines)


def a_class_is_told_by_the_weights(trial):
    """Each pupil of a table, with the states and the settings of the session."""
    states, names = trial.ledger.names and trial.ledger.states(), trial.names()
    if not states:
        return 0
    kept = trial.ledger
    text, rows = class_table(trial, trial.world.rng("weights"))
    run = trial.run([*trial.lines, f"class {TABLE}"], {**trial.files, TABLE: text.encode()})
    most = max(ratio[0] for pair in kept.ratios for ratio in pair)
    heavy = [count for count in range(kept.limits[0] + 1)
             if len(states) * most ** count > 2 ** 120]
    if heavy:
        same(run.replies[-1], f"no 35 {heavy[0]}\n", "`class` where weights may be too great")
        return 1
    lines = []
    for name, marks in rows.items():
        own = Weights(states, kept.ratios, kept.limits, len(names))
        while (asked := own.asked(names)).startswith("question "):
            item = asked.split()[1]
            own.take(names.index(item), marks[item] == "1")
        lines.append(f"result {name} {own.count} {asked.split()[1]} "
                     f"{sets.in_braces(own.heaviest(), names)}\n")
    same(run.replies[-1], "".join(lines) + f"class {len(rows)}\n", "`class`, by the weights")
    return len(rows)


CHECKS = [
    a_class_is_its_pupils_one_by_one, questions_and_reports_fit_the_weights,
    a_class_is_told_by_the_weights,
]
