"""Checks of the interview: what is known, what is asked, and what a retracted answer leaves."""
import functools
from trials import forms, ledger, replies, sets
from trials.trial import AtEnd, same

OPEN = "known open\n"


@functools.lru_cache
def all_spaces(size):
    """All knowledge spaces on the items; each is a number that has a bit for each of its states."""
    whole, found = sets.full(size), []
    inner = range(1, whole)
    for chosen in range(1 << (whole - 1)):
        own = [state for place, state in enumerate(inner) if chosen >> place & 1]
        family = 1 | 1 << whole | sum(1 << state for state in own)
        if all(family >> (one | other) & 1 for one in own for other in own if one < other):
            found.append(family)
    return found


def known_by_all_spaces(book, size):
    """Which of a list of families of sets meets all, some or none of the spaces that fit."""
    allowed = sum(1 << own for own in book.states())
    noes = {number: sum(1 << own for own in range(1 << size) if sets.breaks(own, query, size))
            for number, (yes, query) in book.answers.items() if not yes}
    fitting = [space for space in all_spaces(size) if space & ~allowed == 0
               and all(space & broken for broken in noes.values())]

    def known(query):
        broken = sum(1 << own for own in range(1 << size) if sets.breaks(own, query, size))
        meets = {bool(space & broken) for space in fitting}
        if meets == {False}:
            return "known yes\n"
        if meets == {True}:
            left = allowed & ~broken
            number = min(number for number, broken in noes.items() if not left & broken)
            return f"known no {number}\n"
        return OPEN
    return known


def known_by_states(states, book, size):
    """What is known of a query by the states that the answers leave."""
    noes = {number: query for number, (yes, query) in book.answers.items() if not yes}

    def known(query):
        left = [own for own in states if not sets.breaks(own, query, size)]
        if len(left) == len(states):
            return "known yes\n"
        for number, other in noes.items():
            if not any(sets.breaks(own, other, size) for own in left):
                return f"known no {number}\n"
        return OPEN
    return known


def some_queries(trial, name, most):
    """Some good queries on the items, in the order of questions."""
    size = len(trial.names())
    if not 1 <= size <= ledger.SMALL:
        return []
    every = sets.queries(size, 2 if size > 6 else size)
    kept = sorted(trial.world.rng(name).sample(range(len(every)), min(most, len(every))))
    return [every[place] for place in kept]


def known_is_what_all_fitting_spaces_say(trial):
    """For few items against all knowledge spaces, by the words of docs/COMMANDS.md."""
    names = trial.names()
    if not 1 <= len(names) <= 4:
        return 0
    queries = some_queries(trial, "all spaces", 12 if len(names) == 4 else 99)
    found = yield AtEnd(f"known {sets.query_text(query, names)}" for query in queries)
    known = known_by_all_spaces(trial.ledger, len(names))
    for query, reply in zip(queries, found):
        same(reply, known(query), f"`known {sets.query_text(query, names)}`")
    return len(queries)


def known_fits_the_states(trial):
    names, queries = trial.names(), some_queries(trial, "known", 25)
    if not queries:
        return 0
    found = yield AtEnd(["states"] + [f"known {sets.query_text(one, names)}" for one in queries])
    states = replies.listing(found[0], names)[0]
    known = known_by_states(states, trial.ledger, len(names))
    for query, reply in zip(queries, found[1:]):
        same(reply, known(query), f"`known {sets.query_text(query, names)}`")
    return len(queries)


def the_first_open_query_is_asked(trial):
    names = trial.names()
    if not 1 <= len(names) <= 6:
        return 0
    queries = sets.queries(len(names), trial.ledger.block)
    found = yield AtEnd(["ask"] + [f"known {sets.query_text(one, names)}" for one in queries])
    wanted = next((f"ask {sets.query_text(query, names)}\n"
                   for query, reply in zip(queries, found[1:]) if reply == OPEN), "settled\n")
    same(found[0], wanted, "`ask`")
    return 1


def what_is_known_refuses_its_opposite(trial):
    """`known yes` refuses a No by 20, and `known no K` a Yes by `21 K`; both after 19."""
    names, queries = trial.names(), some_queries(trial, "opposite", 20)
    texts = [sets.query_text(query, names) for query in queries]
    found = yield AtEnd(f"known {text}" for text in texts)
    stand = {query: number for number, (_, query) in trial.ledger.answers.items()}
    lines, wanted = [], []
    for query, text, reply in zip(queries, texts, found):
        if query in stand:
            lines += [f"yes {text}", f"no {text}"]
            wanted += [f"no 19 {stand[query]}\n"] * 2
        elif reply != OPEN:
            yes = reply == "known yes\n"
            lines.append(f"no {text}" if yes else f"yes {text}")
            wanted.append("no 20\n" if yes else f"no 21 {reply.split()[2]}\n")
    for line, refusal, reply in zip(lines, wanted, (yield AtEnd(lines))):
        same(reply, refusal, f"`{line}`")
    return len(lines)


def an_open_query_takes_either_answer(trial):
    """Of the query that is asked, and of some others that are open."""
    names, queries = trial.names(), some_queries(trial, "either", 15)
    if not queries:
        return 0
    texts = [sets.query_text(query, names) for query in queries]
    found = yield AtEnd(["ask"] + [f"known {text}" for text in texts])
    taken = [text for text, reply in zip(texts, found[1:]) if reply == OPEN][:4]
    if found[0] != "settled\n":
        taken.insert(0, found[0][len("ask "):-1])
    number, lines, wanted = trial.ledger.next, [], []
    for text in taken:
        lines += [f"known {text}", f"yes {text}", f"known {text}", f"retract {number}",
                  f"no {text}", f"known {text}", f"retract {number + 1}", f"known {text}"]
        wanted += [OPEN, f"ok {number}\n", "known yes\n", f"ok {number}\n", f"ok {number + 1}\n",
                   f"known no {number + 1}\n", f"ok {number + 1}\n", OPEN]
        number += 2
    run = trial.run(trial.lines + lines)
    for line, told, reply in zip(lines, wanted, run.replies[len(trial.lines):]):
        same(reply, told, f"`{line}`, of an open query that is answered both ways")
    return len(taken)


def retracted(trial):
    """The accepted lines, the place of one answer among them, its number, and where it was taken
    back; None where the script has no such answer."""
    kept = [(line, reply) for line, reply in zip(trial.lines, trial.main.replies)
            if reply is not None and not replies.is_refusal(reply)]
    lines, words = [line for line, _ in kept], [forms.words_of(line) for line, _ in kept]
    opened = max((place for place, own in enumerate(words) if own[0] == "open"), default=-1)
    answers = {}
    for place, (_, reply) in enumerate(kept):
        if words[place][0] in ("yes", "no") and place > opened:
            answers[reply.split()[1]] = place, None
        elif words[place][0] == "retract" and words[place][1] in answers:
            answers[words[place][1]] = answers[words[place][1]][0], place
    if not answers:
        return None
    rng = trial.world.rng("retracted")
    taken_back = [number for number, (_, place) in answers.items() if place]
    number = rng.choice(taken_back or list(answers))
    place, back = answers[number]
    if back is None:
        lines, back = [*lines, f"retract {number}"], len(lines)
    return lines, place, int(number), back


def a_retracted_answer_was_never_given(trial):
    """A script with the answer and `retract` tells the same as one without the two lines."""
    found = retracted(trial)
    if found is None:
        return 0
    lines, place, number, back = found
    without = [renumbered(line, number) if here > place else line
               for here, line in enumerate(lines) if here not in (place, back)]
    queries = some_queries(trial, "never given", 25)
    asked = ["states", "base", "surmise", "relation", "learning", "skill-map", "ask"] + [
        f"known {sets.query_text(query, trial.names())}" for query in queries]
    told = trial.run(lines + asked).replies[len(lines):]
    other = trial.run(without + asked).replies[len(without):]
    for line, reply, wanted in zip(asked, told, other):
        same(renumbered(reply, number), wanted, f"with answer {number} taken back, `{line}`")
    return len(asked)


def renumbered(text, gone):
    """A line `retract NUMBER` or `known no NUMBER`, where the answer of a number is gone."""
    words = forms.words_of(text.strip())
    is_number = words[:1] == ["retract"] or words[:2] == ["known", "no"] and len(words) == 3
    if is_number and ":" not in words and int(words[-1]) > gone:
        return " ".join([*words[:-1], str(int(words[-1]) - 1)]) + "\n" * text.endswith("\n")
    return text


def an_expert_is_asked_until_one_space_is_left(trial):
    """An expert who has a space in mind answers what is asked, by ever larger blocks."""
    rng, names, made = trial.world.rng("expert"), trial.names(), 0
    size = len(names)
    if not 2 <= size <= 5:
        return 0
    drawn = [rng.randrange(1 << size) for _ in range(rng.randint(0, 5))]
    space = sets.unions([*drawn, sets.full(size)])
    live = trial.program.live(trial.files)
    try:
        live.say(f"items {' '.join(names)}")
        for block in range(1, size):
            queries = {f"ask {sets.query_text(query, names)}\n": query
                       for query in sets.queries(size, block)}
            live.say(f"blocks {block}")
            while (asked := live.say("ask")) != "settled\n":
                query = queries.pop(asked, None)
                same(query is not None, True, f"whether {asked!r} is new and of blocks of {block}")
                yes = not any(sets.breaks(own, query, size) for own in space)
                made += 1
                same(live.say(asked.replace("ask", "yes" if yes else "no", 1)[:-1]),
                     f"ok {made}\n", f"the reply to the expert's answer to {asked!r}")
        told = live.say("states")
    finally:
        live.end()
    same(replies.listing(told, names)[0], sets.in_order(space), "the states when all is settled")
    return 1


CHECKS = [
    known_is_what_all_fitting_spaces_say, known_fits_the_states, the_first_open_query_is_asked,
    what_is_known_refuses_its_opposite, an_open_query_takes_either_answer,
    a_retracted_answer_was_never_given, an_expert_is_asked_until_one_space_is_left,
]
