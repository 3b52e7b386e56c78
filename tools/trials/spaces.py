"""Checks of the states and of what is told of them: base, surmise function, relation, skill map,
fringes; and that each of these, put into a file, gives the same states."""
from trials import listings, replies, sets
from trials.trial import AtEnd, Anew, same

MOST = 65536


def is_small(trial):
    return trial.ledger.is_small()


def listed(family, names):
    """The listing of some sets."""
    return listings.expected(sets.in_order(family), 0, MOST, names)


def based(base, names):
    """The reply of `base`."""
    lines = listed(base, names).splitlines()[:-1]
    return "\n".join([*lines, f"base {len(base)}\n"])


def the_states_break_no_yes(trial):
    """They are exactly the sets of the start that break no query with a standing Yes."""
    if not is_small(trial):
        return 0
    reply, = yield AtEnd(["states"])
    same(reply, listed(trial.ledger.states(), trial.names()), "`states`")
    return 1


def told_states(trial, reply):
    return replies.listing(reply, trial.names())[0]


def the_base_is_the_states_that_are_no_unions(trial):
    if not is_small(trial):
        return 0
    told, reply = yield AtEnd(["states", "base"])
    states = told_states(trial, told)
    others = {own: sets.reached(own, [it for it in states if it != own]) for own in states}
    base = [own for own, union in others.items() if union != own]
    same(reply, based(base, trial.names()), "`base`")
    return 1


def atoms_of(trial, told):
    """The states, and for each item those that have it and within which no smaller one has it."""
    states, size = told_states(trial, told), len(trial.names())
    return states, [sets.in_order(atoms) for atoms in sets.atoms_at(states, size)]


def clauses_json(trial, atoms):
    names = trial.names()
    return sets.compact({name: [[names[item] for item in sets.members(own, len(names))]
                                for own in atoms[place]] for place, name in enumerate(names)})


def the_surmise_function_has_the_atoms(trial):
    if not is_small(trial):
        return 0
    told, reply = yield AtEnd(["states", "surmise"])
    _, atoms = atoms_of(trial, told)
    same(reply, f"surmise {clauses_json(trial, atoms)}\n", "`surmise`")
    return 1


def the_skill_map_has_a_skill_for_each_base_set(trial):
    if not is_small(trial):
        return 0
    told, reply = yield AtEnd(["base", "skill-map"])
    base, names = replies.base_lines(told, trial.names()), trial.names()
    wanted = {name: [f"s{number:04}" for number, own in enumerate(base, 1)
                     if own & sets.bit(item, len(names))] for item, name in enumerate(names)}
    same(reply, f"skills {sets.compact(wanted)}\n", "`skill-map`")
    return 1


def learning_is_told_by_the_atoms(trial):
    if not is_small(trial):
        return 0
    told, reply = yield AtEnd(["states", "learning"])
    states, atoms = atoms_of(trial, told)
    names, wanted = trial.names(), "learning yes\n"
    for own in states:
        items = [item for item in range(len(names)) if own in atoms[item]]
        if len(items) > 1:
            first, second = names[items[0]], names[items[1]]
            wanted = f"learning no {sets.in_braces(own, names)} {first} {second}\n"
            break
    same(reply, wanted, "`learning`")
    return 1


def relation_text(atoms, names):
    """What `relation` tells where these are the clauses of each item."""
    size = len(names)
    for item, own in enumerate(atoms):
        if len(own) > 1:
            return f"relation no {names[item]}\n"
    below = {(low, high) for high, (own,) in enumerate(atoms)
             for low in sets.members(own, size) if low != high}
    for low, high in sorted(below):
        if (high, low) in below:
            return f"relation quasi {names[low]} {names[high]}\n"
    covers = [(low, high) for low, high in sorted(below)
              if not any((low, one) in below and (one, high) in below for one in range(size))]
    lines = [f"cover {names[low]} {names[high]}\n" for low, high in covers]
    return "".join(lines) + f"relation {len(covers)}\n"


def the_relation_is_told_by_the_clauses(trial):
    if not is_small(trial):
        return 0
    told, reply = yield AtEnd(["states", "relation"])
    same(reply, relation_text(atoms_of(trial, told)[1], trial.names()), "`relation`")
    return 1


def set_file(trial, states):
    return "".join(sets.in_braces(own, trial.names()) + "\n" for own in states)


def the_states_begin_the_same_space(trial):
    """Written into a base file they give the same states, the same base, and `learning` again."""
    if not is_small(trial):
        return 0
    told = yield AtEnd(["states", "base", "learning"])
    states = told_states(trial, told[0])
    found = yield Anew(["start base all-states", "states", "base", "learning"],
                       {"all-states": set_file(trial, states)})
    count = told[1].splitlines()[-1].split()[1]
    same(found, [f"ok {count}\n", *told], "begun with all states, the replies")
    return 1


def a_test_of_the_states_tells_what_learning_does(trial):
    if not is_small(trial):
        return 0
    told, base, learning = yield AtEnd(["states", "base", "learning"])
    found, = yield Anew(["test tested-states"],
                        {"tested-states": set_file(trial, told_states(trial, told))})
    count = base.splitlines()[-1].split()[1]
    wanted = f"test learning {count}\n" if learning == "learning yes\n" else (
        "test not-graded" + learning[len("learning no"):])
    same(found, wanted, "`test` of the states")
    return 1


def the_base_begins_the_same_space(trial):
    told = yield AtEnd(["states", "base"])
    if any(map(replies.is_refusal, told)):
        return 0
    text = set_file(trial, replies.base_lines(told[1], trial.names()))
    found = yield Anew(["start base told-base", "states", "base"], {"told-base": text})
    same(found[1:], told, "begun with the base, the replies")
    return 1


def the_surmise_function_begins_the_same_space(trial):
    told = yield AtEnd(["states", "surmise"])
    if any(map(replies.is_refusal, told)):
        return 0
    found = yield Anew(["start surmise told-ways", "states", "surmise"],
                       {"told-ways": told[1][len("surmise "):]})
    same(found[1:], told, "begun with the surmise function, the replies")
    return 1


def the_covers_begin_the_same_space(trial):
    told = yield AtEnd(["states", "relation"])
    if any(map(replies.is_refusal, told)) or told[1].split()[1] in ("no", "quasi"):
        return 0
    lines = told[1].splitlines()[:-1]
    text = "".join(line[len("cover "):] + "\n" for line in lines)
    found = yield Anew(["start relation covers", "states", "relation"], {"covers": text})
    same(found[1:], told, "begun with the covers, the replies")
    return 1


def the_skill_map_has_the_same_states(trial):
    told = yield AtEnd(["states", "skill-map"])
    if any(map(replies.is_refusal, told)):
        return 0
    found, = yield Anew([f"skills any told-skills {MOST}"],
                        {"told-skills": told[1][len("skills "):]})
    same(found, told[0], "the disjunctive states of the skill map")
    return 1


def fringes_fit_the_states(trial):
    """Of states and of sets that are none."""
    rng, names = trial.world.rng("fringes"), trial.names()
    if not is_small(trial):
        return 0
    told, = yield AtEnd(["states"])
    states = told_states(trial, told)
    tried = rng.sample(states, min(len(states), 20))
    tried += [rng.randrange(1 << len(names)) for _ in range(3)]
    found = yield AtEnd("fringes " + sets.in_braces(own, names)[1:-1] for own in tried)
    family = set(states)
    for own, reply in zip(tried, found):
        wanted = sets.fringes_text(own, family, names) if own in family else "no 30\n"
        same(reply, wanted, f"the fringes of {sets.in_braces(own, names)}")
    return len(tried)


def fringes_tell_the_state(trial):
    """In a learning space; and of two sets that are no fringes of a state there is no state."""
    rng, names = trial.world.rng("state of"), trial.names()
    if not is_small(trial):
        return 0
    told, learning = yield AtEnd(["states", "learning"])
    states, size = told_states(trial, told), len(names)
    pairs = {sets.fringes_of(own, set(states), size): own for own in states}
    tried = rng.sample(sorted(pairs), min(len(pairs), 12))
    tried += [(rng.randrange(1 << size), rng.randrange(1 << size)) for _ in range(3)]
    lines = ["state-of " + " | ".join(sets.in_braces(own, names)[1:-1] for own in pair)
             for pair in tried]
    for pair, line, reply in zip(tried, lines, (yield AtEnd(lines))):
        wanted = f"state {sets.in_braces(pairs[pair], names)}\n" if pair in pairs else "no 32\n"
        if learning != "learning yes\n":
            wanted = f"no 31{learning[len('learning no'):]}"
        same(reply, wanted, f"`{line}`")
    return len(tried)


CHECKS = [
    the_states_break_no_yes, the_base_is_the_states_that_are_no_unions,
    the_surmise_function_has_the_atoms, the_skill_map_has_a_skill_for_each_base_set,
    learning_is_told_by_the_atoms, the_relation_is_told_by_the_clauses,
    the_states_begin_the_same_space, a_test_of_the_states_tells_what_learning_does,
    the_base_begins_the_same_space, the_surmise_function_begins_the_same_space,
    the_covers_begin_the_same_space, the_skill_map_has_the_same_states, fringes_fit_the_states,
    fringes_tell_the_state,
]
