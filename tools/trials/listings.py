"""Checks of listings: pages join to the whole, and a listing goes on after any set."""
import itertools
from trials import replies, sets
from trials.trial import AtEnd, same

MOST = 65536


def commands_of(trial, rng):
    """The commands that list sets: the words before the count, and those behind the page."""
    names = trial.names()
    found = [("states", ""), ("safe-states", "")]
    if names:
        some = rng.sample(names, rng.randint(0, len(names)))
        found.append(("project", f" : {' '.join(some)}"))
    skills = [name for name in trial.files if "skills" in name]
    parts = [name for name in trial.files if "part" in name]
    if skills:
        found += [(f"skills {word} {rng.choice(skills)}", "") for word in ("any", "all")]
    if parts:
        found.append((f"mesh {rng.choice(parts)} {rng.choice(parts)}", ""))
    return found


def page_line(command, count, after=""):
    return f"{command[0]} {count}{' after ' if after else ''}{after}{command[1]}"


def wholes(trial, commands, found):
    """The commands that aren't refused, with their whole listings."""
    for command, reply in zip(commands, found):
        told = replies.listing(reply, trial.names())
        if told is not None:
            same(told[1], "more no", f"the end of `{page_line(command, MOST)}`")
            yield command, told[0]


def expected(whole, first, count, names):
    """The page of a listing from a place on."""
    shown = whole[first:first + count]
    lines = [f"set {sets.cursor(own, len(names))} {sets.in_braces(own, names)}" for own in shown]
    more = "yes" if first + count < len(whole) else "no"
    return "\n".join([*lines, f"more {more}\n"])


def pages_join_to_the_whole_listing(trial):
    rng, names = trial.world.rng("pages"), trial.names()
    commands = commands_of(trial, rng)
    found = yield AtEnd(page_line(command, MOST) for command in commands)
    lines, wanted = [], []
    for command, whole in wholes(trial, commands, found):
        size = rng.randint(1 + len(whole) // 12, 1 + len(whole) // 2)
        for first in range(0, len(whole), size):
            after = sets.cursor(whole[first - 1], len(names)) if first else ""
            lines.append(page_line(command, size, after))
            wanted.append(expected(whole, first, size, names))
    for line, page, reply in zip(lines, wanted, (yield AtEnd(lines))):
        same(reply, page, f"the page `{line}`")
    return len(lines)


def a_listing_goes_on_after_any_set(trial):
    rng, names = trial.world.rng("cursors"), trial.names()
    commands = commands_of(trial, rng)
    found = yield AtEnd(page_line(command, MOST) for command in commands)
    lines, wanted = [], []
    for command, whole in wholes(trial, commands, found):
        for _ in range(3):
            own = rng.randrange(1 << len(names))
            count = rng.choice([0, 1, 2, 7, 500])
            lines.append(page_line(command, count, sets.cursor(own, len(names))))
            first = sum(other >= own for other in whole)
            wanted.append(expected(whole, first, count, names))
    for line, page, reply in zip(lines, wanted, (yield AtEnd(lines))):
        same(reply, page, f"the page `{line}`")
    return len(lines)


def path_text(path, names):
    return f"path {' '.join(names[item] for item in path)}\n"


def paths_are_the_orders_through_states(trial):
    """The first paths are those that the states have, and so are those after any order."""
    rng, names = trial.world.rng("paths"), trial.names()
    if not 1 <= len(names) <= 8:
        return 0
    told, reply = yield AtEnd(["states", "paths 400"])
    if replies.is_refusal(told) or replies.is_refusal(reply):
        return 0
    family = set(replies.listing(told, names)[0])
    wanted = list(itertools.islice(sets.paths_of(family, len(names)), 401))
    same(reply, paths_page(wanted, 0, 400, names), "the page `paths 400`")
    if len(wanted) > 400:
        return 1
    lines, pages = [], []
    for _ in range(4):
        order = rng.sample(range(len(names)), len(names))
        order = rng.choice(wanted) if rng.random() < 0.4 else order
        count = rng.choice([0, 1, 3, 50])
        lines.append(f"paths {count} after {' '.join(names[item] for item in order)}")
        first = sum(path <= order for path in wanted)
        pages.append(paths_page(wanted, first, count, names))
    for line, page, reply in zip(lines, pages, (yield AtEnd(lines))):
        same(reply, page, f"the page `{line}`")
    return 5


def paths_page(whole, first, count, names):
    more = "yes" if first + count < len(whole) else "no"
    return "".join(path_text(path, names) for path in whole[first:first + count]) + f"more {more}\n"


def pages_of_paths_join(trial):
    rng, names = trial.world.rng("path pages"), trial.names()
    reply, = yield AtEnd(["paths 60"])
    if replies.is_refusal(reply):
        return 0
    paths, more = reply.splitlines()[:-1], reply.splitlines()[-1]
    size = rng.randint(1 + len(paths) // 6, 1 + len(paths) // 2)
    lines, pages = [], []
    for first in range(0, len(paths), size):
        after = " after" + paths[first - 1][4:] if first else ""
        page = paths[first:first + size]
        last = more if first + size >= len(paths) else "more yes"
        lines.append(f"paths {len(page)}{after}")
        pages.append("".join(path + "\n" for path in page) + last + "\n")
    for line, page, reply in zip(lines, pages, (yield AtEnd(lines))):
        same(reply, page, f"the page `{line}`")
    return len(lines)


def a_projection_is_the_traces_of_the_states(trial):
    rng, names = trial.world.rng("traces"), trial.names()
    if not names or len(names) > 8:
        return 0
    parts = [rng.sample(names, rng.randint(0, len(names))) for _ in range(3)]
    found = yield AtEnd(["states"] + [f"project {MOST} : {' '.join(part)}" for part in parts])
    states = replies.listing(found[0], names)[0]
    for part, reply in zip(parts, found[1:]):
        traces = traces_of(states, part, names)
        same(reply, expected(traces, 0, MOST, names), f"the projection on {part}")
    return len(parts)


def traces_of(states, part, names):
    own = sets.set_of([names.index(name) for name in part], len(names))
    return sets.in_order({state & own for state in states})


def the_base_of_a_projection_is_that_of_the_traces(trial):
    rng, names = trial.world.rng("base of traces"), trial.names()
    if not names or len(names) > 8:
        return 0
    parts = [rng.sample(names, rng.randint(0, len(names))) for _ in range(3)]
    found = yield AtEnd(["states"] + [f"project-base {' '.join(part)}" for part in parts])
    states = replies.listing(found[0], names)[0]
    for part, reply in zip(parts, found[1:]):
        base = sets.base_of(traces_of(states, part, names))
        wanted = expected(base, 0, MOST, names).replace("more no", f"base {len(base)}")
        same(reply, wanted + sets.learning_text(base, names), f"`project-base` on {part}")
    return len(parts)


CHECKS = [
    pages_join_to_the_whole_listing, a_listing_goes_on_after_any_set,
    paths_are_the_orders_through_states, pages_of_paths_join,
    a_projection_is_the_traces_of_the_states, the_base_of_a_projection_is_that_of_the_traces,
]
