"""What changed in a class since an earlier table, by the names of its pupils."""
from collections import namedtuple

from class_parts import count_of, lines, listed, said

# The name of the earlier table, the pupils of both as (then, now), and those of one table alone.
Change = namedtuple("Change", "source both gone new")


def change_of(source, before, pupils):
    """The change from the pupils of an earlier table."""
    then, now = {it.name: it for it in before}, {it.name for it in pupils}
    return Change(source, [(then[it.name], it) for it in pupils if it.name in then],
                  [it.name for it in before if it.name not in now],
                  [it.name for it in pupils if it.name not in then])


def gained(then, now):
    return now.state - then.state


def told(change):
    """The sentences on the change of the class."""
    gains = [len(gained(*it)) for it in change.both]
    losses = [len(gained(now, then)) for then, now in change.both]
    same = sum(not gain and not loss for gain, loss in zip(gains, losses))
    found = [f"Since {said(change.source)} the {count_of(len(change.both), 'pupil')} of both tables"
             f" gained {count_of(sum(gains), 'item')} and lost {sum(losses):,}; {same:,} stand"
             " as they did. A lost item may be a slip in the later table, or was a lucky guess."]
    if not change.both:
        found = [f"No pupil of {said(change.source)} is in this table."]
    unsure = [now.name for then, now in change.both if "budget" in (then.reason, now.reason)]
    if unsure:
        found.append(f"<b class=warn>Uncertain then or now: {listed(unsure)}.</b>")
    if change.gone:
        found.append(f"Only in {said(change.source)}: {listed(change.gone)}.")
    if change.new:
        found.append(f"Only in this table: {listed(change.new)}.")
    return "".join(f"<p>{it}</p>\n" for it in found)


def pupil_rows(change, shown):
    """Each pupil whose state is another."""
    for then, now in change.both:
        if then.state != now.state:
            yield (now.name, len(then.state), len(now.state), shown.listed(gained(then, now)),
                   shown.listed(gained(now, then)))


def item_rows(change, shown):
    """Each item that a pupil gained or lost."""
    for item in shown.items:
        more = [now.name for then, now in change.both if item in gained(then, now)]
        less = [now.name for then, now in change.both if item in gained(now, then)]
        if more or less:
            masters = [sum(item in it.state for it in pupils) for pupils in zip(*change.both)]
            yield shown.of(item), *masters, listed(more), listed(less)


def change_part(change, shown):
    """The part of the page on the change."""
    found = f"<h2>What was gained and lost</h2>\n{told(change)}"
    pupils = list(pupil_rows(change, shown))
    if not pupils:
        return found
    return (found + lines(["Pupil", "Then", "Now", "Gained", "Lost"], pupils)
            + "<h2>Items gained and lost</h2>\n"
            + lines(["Item", "Then", "Now", "Gained by", "Lost by"],
                    item_rows(change, shown)))
