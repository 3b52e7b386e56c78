"""Checks of the safe interview: a learning space remains, and the turns are those of the text."""
from trials import listings, replies, sets
from trials.trial import AtEnd, Anew, same


def what_remains_is_a_learning_space(trial):
    """The states that remain, written into a base file, begin a learning space of just these."""
    names = trial.names()
    reply, = yield AtEnd(["safe-states 65536"])
    if replies.is_refusal(reply):
        return 0
    states, _ = replies.listing(reply, names)
    text = "".join(sets.in_braces(own, names) + "\n" for own in states)
    found = yield Anew(["start base safe-sets", "states", "learning"], {"safe-sets": text})
    same(found[1:], [reply, "learning yes\n"], "begun with the states that remain, the replies")
    return 1


def turns(states, queries, size):
    """The numbers of the applied answers after each answer, and the states that remain."""
    applied, waiting = [], []
    for number, query in enumerate(queries, 1):
        waiting.append((number, query))
        tried = 0
        while tried < len(waiting):
            own, query = waiting[tried]
            left = [state for state in states if not sets.breaks(state, query, size)]
            if sets.twofold(sets.base_of(left), size) is None:
                states, tried = left, 0
                applied.append(own)
                waiting = [one for one in waiting if one[0] != own]
            else:
                tried += 1
        yield set(applied), states


def an_answer_waits_until_a_learning_space_remains(trial):
    """The whole safe interview, worked out from its queries."""
    safe, names = trial.ledger.safe, trial.names()
    if safe is None or safe.states is None:
        return 0
    found = yield AtEnd(["safe-list", "safe-states 65536"])
    applied, states = set(), safe.states
    for applied, states in turns(safe.states, safe.queries, len(names)):
        pass
    lines = [f"answer {number} {'applied' if number in applied else 'pending'}\n"
             for number in range(1, len(safe.queries) + 1)]
    last = f"safe {len(applied)} {len(lines) - len(applied)}\n"
    same(found[0], "".join([*lines, last]), "`safe-list`")
    same(found[1], listings.expected(states, 0, 65536, names), "`safe-states`")
    return 1


def the_counts_of_the_list_fit_those_told(trial):
    safe = trial.ledger.safe
    if safe is None:
        return 0
    reply, = yield AtEnd(["safe-list"])
    lines = [line.split() for line in reply.splitlines()]
    same([line[1] for line in lines[:-1]], [str(place) for place in range(1, len(lines))],
         "the numbers of `safe-list`")
    counts = [sum(line[2] == word for line in lines[:-1]) for word in ("applied", "pending")]
    same(lines[-1], ["safe", *map(str, counts)], "the last line of `safe-list`")
    if safe.last is not None:
        wanted = f"ok {len(lines) - 1} applied {counts[0]} pending {counts[1]}\n"
        same(safe.last, wanted, "the reply to the last answer, by `safe-list`")
    return 1


def an_answer_that_was_accepted_is_told_by_its_number(trial):
    """`no 52 NUMBER`, whether it is applied or waits."""
    safe, names = trial.ledger.safe, trial.names()
    if safe is None:
        return 0
    lines = [f"safe {sets.query_text(query, names)}" for query in safe.queries]
    for number, reply in enumerate((yield AtEnd(lines)), 1):
        same(reply, f"no 52 {number}\n", f"`{lines[number - 1]}` again")
    return len(lines)


CHECKS = [
    what_remains_is_a_learning_space, an_answer_waits_until_a_learning_space_remains,
    the_counts_of_the_list_fit_those_told, an_answer_that_was_accepted_is_told_by_its_number,
]
