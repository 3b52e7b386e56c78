"""What an interview to the end has found, in words: lines, of what the program replies."""
import json

from companion import names_in, refusal_of
from questions import plural

STATES = 65536
ITEMS = 8  # so many items with several ways are told, and so many ways of each
WAYS = 4


def lines(session, items, wording):
    return [f"The answers leave {states(session)}.", learning(session, wording),
            *order(session, items, wording)]


def states(session):
    """How many states are left, in words."""
    found = session.cursors(STATES)
    return plural(len(found), "state") if found else f"more than {plural(STATES, 'state')}"


def learning(session, wording):
    """Whether they are a learning space, or why not."""
    reply = session.say("learning")
    if refusal_of(reply):
        return f"Whether they are a learning space isn't told: {refusal_of(reply)}."
    if reply[0] == "learning yes":
        return "They are a learning space: all can be learned one item after another."
    first, second = reply[0].split("} ")[1].split()
    return (f"They are no learning space: at {{{' '.join(names_in(reply[0]))}}}"
            f" {wording.names([first])} and {wording.names([second])} are learned at once.")


def order(session, items, wording):
    """What comes first: the longest chain, or why there is none to tell."""
    reply = session.say("relation")
    if refusal_of(reply):
        return [f"What comes first isn't told: {refusal_of(reply)}."]
    words = reply[-1].split()
    if words[1] == "quasi":
        return [f"{wording.names(words[2:3])} and {wording.names(words[3:])} come together, each"
                " with the other.", base(session)]
    if words[1] == "no":
        return [base(session), *ways(session, items, wording)]
    found = longest(items, [line.split()[1:] for line in reply[:-1]])
    if len(found) < 2:
        return ["No item comes before another."]
    return ["The longest chain of what comes first: "
            + ", then ".join(wording.names([it]) for it in found) + "."]


def longest(items, covers):
    """One of the longest chains by these pairs of a lower and a higher item, lowest first."""
    above, missing = {it: [] for it in items}, dict.fromkeys(items, 0)
    for low, high in covers:
        above[low].append(high)
        missing[high] += 1
    ready, chains = [it for it in items if not missing[it]], {it: [it] for it in items}
    for item in ready:
        for high in above[item]:
            missing[high] -= 1
            if len(chains[item]) >= len(chains[high]):
                chains[high] = chains[item] + [high]
            if not missing[high]:
                ready.append(high)
    return max((chains[it] for it in items), key=len)


def base(session):
    return f"Their base has {plural(int(session.say('base')[-1].split()[1]), 'set')}."


def ways(session, items, wording):
    """The items with several ways, and what the ways are."""
    clauses = json.loads(session.say("surmise")[0].split(" ", 1)[1])
    several = [it for it in items if len(clauses[it]) > 1]
    told = [f"There are {len(clauses[it])} ways to {wording.names([it])}: "
            + way_texts(it, clauses[it], wording) + "." for it in several[:ITEMS]]
    left = several[ITEMS:]
    return told + ([f"There are several ways to {wording.names(left)} as well."] if left else [])


def way_texts(item, clauses, wording):
    texts = ["by " + wording.names(it for it in clause if it != item) for clause in clauses[:WAYS]]
    more = len(clauses) - WAYS
    return "; ".join(texts + ([f"and {more} more"] if more > 0 else []))
