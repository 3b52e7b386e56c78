"""Checks of the commands that answer from files alone: skills, meshes and families of sets."""
import itertools
import json
from trials import ledger, listings, replies, sets
from trials.trial import AtEnd, same

MOST = 65536


def files_of(trial, word):
    return [name for name in trial.files if word in name]


def listed(family, names):
    return listings.expected(sets.in_order(family), 0, MOST, names)


def skills_give_the_states_of_their_readings(trial):
    names, found = trial.names(), files_of(trial, "skills")
    if not trial.ledger.is_small():
        return 0
    lines = [f"skills {word} {name} {MOST}" for name in found for word in ("any", "all")]
    made = 0
    for line, reply in zip(lines, (yield AtEnd(lines))):
        if replies.is_refusal(reply):
            continue
        _, word, name, _ = line.split()
        told = json.loads(trial.files[name])
        skills = sorted({skill for own in told.values() for skill in own})
        enough = any if word == "any" else all
        family = {sets.set_of([place for place, item in enumerate(names)
                               if enough(skill in has for skill in told[item])], len(names))
                  for count in range(len(skills) + 1)
                  for has in itertools.combinations(skills, count)}
        same(reply, listed(family, names), f"`{line}`")
        made += 1
    return made


def the_conjunctive_states_are_the_complements(trial):
    names, found = trial.names(), files_of(trial, "skills")
    lines = [f"skills {word} {name} {MOST}" for name in found for word in ("any", "all")]
    told = yield AtEnd(lines)
    made = 0
    for disjunctive, conjunctive in zip(told[::2], told[1::2]):
        if not replies.is_refusal(disjunctive):
            states = replies.listing(disjunctive, names)[0]
            family = {sets.full(len(names)) ^ own for own in states}
            same(conjunctive, listed(family, names), "the conjunctive states")
            made += 1
    return made


def part_of(trial, name):
    """The items of a part, and its states."""
    family = ledger.family_of(ledger.text_of(trial.files[name]), trial.ledger.place)
    items = 0
    for own in family:
        items |= own
    return items, sets.unions(family)


def a_mesh_looks_to_each_part_like_its_states(trial):
    names, found = trial.names(), files_of(trial, "part")
    if not trial.ledger.is_small():
        return 0
    pairs = [(one, other) for one in found for other in found]
    lines = [f"{word} {one} {other}" for one, other in pairs
             for word in ("mesh", "mesh-agree")]
    lines = [line + (f" {MOST}" if line.startswith("mesh ") else "") for line in lines]
    told = yield AtEnd(lines)
    made = 0
    for (one, other), mesh, agree in zip(pairs, told[::2], told[1::2]):
        if replies.is_refusal(mesh):
            same(agree, mesh, f"the refusal of `mesh-agree {one} {other}`")
            continue
        (first, states), (second, others) = part_of(trial, one), part_of(trial, other)
        family = [own for own in range(1 << len(names))
                  if own & first in states and own & second in others]
        same(mesh, listed(family, names), f"the mesh of {one} and {other}")
        shared = first & second
        seen = [{own & shared for own in family} for family in (states, others)]
        same(agree, f"agree {'yes' if seen[0] == seen[1] else 'no'}\n",
             f"`mesh-agree {one} {other}`")
        made += 1
    return made


def tested(family, names):
    """What `test` says of a family."""
    size, order = len(names), sets.in_order(family)
    if 0 not in family:
        return "test no-empty\n"
    if sets.full(size) not in family:
        return "test no-full\n"
    for own, other in itertools.product(order, order):
        if own | other not in family:
            return f"test not-closed {sets.in_braces(own, names)} {sets.in_braces(other, names)}\n"
    base = sets.base_of(family)
    learning = sets.learning_text(base, names)
    if learning != "learning yes\n":
        return "test not-graded" + learning[len("learning no"):]
    return f"test learning {len(base)}\n"


def a_test_tells_the_first_that_holds(trial):
    """Of all files of sets, also of those that are made for other commands."""
    names = trial.names()
    if not trial.ledger.is_small():
        return 0
    found = [name for name in trial.files
             if any(word in name for word in ("family", "sets", "part"))]
    made = 0
    for name, reply in zip(found, (yield AtEnd(f"test {name}" for name in found))):
        if not replies.is_refusal(reply):
            family = ledger.family_of(ledger.text_of(trial.files[name]), trial.ledger.place)
            same(reply, tested(set(family), names), f"`test {name}`")
            made += 1
    return made


CHECKS = [
    skills_give_the_states_of_their_readings, the_conjunctive_states_are_the_complements,
    a_mesh_looks_to_each_part_like_its_states, a_test_tells_the_first_that_holds,
]
