"""Sets of items, families of them, and what docs/COMMANDS.md says of these, by the plainest means.

A set is a whole number of as many bits as there are items, in which item 0 has the highest bit. So
the order of sets, by which a set with the least item on which two differ comes first, is that of
falling numbers. Nothing here has anything of the program in it."""
import functools
import json


def bit(item, size):
    """The set of one item."""
    return 1 << (size - 1 - item)


def full(size):
    return (1 << size) - 1


@functools.lru_cache(maxsize=1 << 14)
def members(own, size):
    """The items of a set, in their order."""
    return tuple(item for item in range(size) if own & bit(item, size))


def set_of(items, size):
    return sum(bit(item, size) for item in set(items))


def cursor(own, size):
    """A digit for each four items; bits that no item has are 0."""
    digits = (size + 3) // 4
    return f"{own << (4 * digits - size):0{digits}x}"


def set_of_cursor(text, size):
    digits = (size + 3) // 4
    return int(text, 16) >> (4 * digits - size)


def in_braces(own, names):
    """The text of a set in a reply."""
    return "{" + " ".join(names[item] for item in members(own, len(names))) + "}"


def in_order(family):
    return sorted(family, reverse=True)


def unions(sets):
    """All unions of the sets, that of none among them."""
    family = {0}
    for own in sets:
        family |= {own | other for other in family}
    return family


def reached(own, sets):
    """The union of those of the sets that lie within a set."""
    union = 0
    for other in sets:
        if other & ~own == 0:
            union |= other
    return union


def base_of(sets):
    """Those of the sets that are no union of others, in order."""
    base = []
    for own in sorted(set(sets), key=int.bit_count):
        if reached(own, base) != own:
            base.append(own)
    return in_order(base)


def atoms_at(base, size):
    """For each item the sets of a base that have it and within which no smaller one has it."""
    atoms = []
    for item in range(size):
        having = [own for own in base if own & bit(item, size)]
        atoms.append([own for own in having
                      if not any(other != own and other & ~own == 0 for other in having)])
    return atoms


def twofold(base, size):
    """The first set of a base that is an atom at two items, with the two least; or None."""
    atoms = atoms_at(base, size)
    for own in base:
        items = [item for item in range(size) if own in atoms[item]]
        if len(items) > 1:
            return own, items[0], items[1]
    return None


def learning_text(base, names):
    """What `learning` says of the space with this base."""
    found = twofold(base, len(names))
    if found is None:
        return "learning yes\n"
    own, first, second = found
    return f"learning no {in_braces(own, names)} {names[first]} {names[second]}\n"


def fringes_of(own, family, size):
    """The inner and the outer fringe of a state: two sets."""
    inner = outer = 0
    for item in range(size):
        one = bit(item, size)
        if own ^ one in family:
            inner |= own & one
            outer |= one & ~own
    return inner, outer


def fringes_text(own, family, names):
    """The line of `fringes` for a state."""
    words = ["fringes"]
    for place, fringe in enumerate(fringes_of(own, family, len(names))):
        words += [names[item] for item in members(fringe, len(names))]
        words += ["|"] if place == 0 else []
    return " ".join(words) + "\n"


def paths_of(family, size):
    """The orders of all items whose fronts are all in the family, in lexicographic order."""
    def go_on(path, own):
        if len(path) == size:
            yield path
        for item in range(size):
            grown = own | bit(item, size)
            if grown != own and grown in family:
                yield from go_on([*path, item], grown)
    return go_on([], 0) if 0 in family else iter(())


def breaks(own, query, size):
    """Whether a set lacks all items before the colon and has the one behind it."""
    before, item = query
    return own & before == 0 and own & bit(item, size) != 0


def clause_states(clauses, size):
    """The sets in which each item has a clause, in order."""
    return [own for own in range(full(size), -1, -1)
            if all(any(clause & ~own == 0 for clause in clauses[item])
                   for item in members(own, size))]


def queries(size, most):
    """All good queries with up to so many items before the colon, in the order of questions."""
    found = [(before, item) for before in range(1, full(size) + 1) if before.bit_count() <= most
             for item in range(size) if not before & bit(item, size)]
    return sorted(found, key=lambda query: (query[0].bit_count(), -query[0], query[1]))


def query_text(query, names):
    before, item = query
    own = " ".join(names[one] for one in members(before, len(names)))
    return f"{own} : {names[item]}"


def compact(value):
    """The compact text of a JSON value, with keys in the order of their bytes."""
    return json.dumps(value, separators=(",", ":"), sort_keys=True)
