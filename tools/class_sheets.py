"""The sheets of a class: a file with one printed page for each pupil."""
from collections import namedtuple

import sheet
from class_parts import count_of, readable, text_of
from class_picture import standing_of
from class_table import Pupil, end_of

# What a sheet tells of a pupil: the items in their order, and whether the state stands out.
Found = namedtuple("Found", "state ready last is_sure")


def found_of(pupil, shown):
    return Found(*([item for item in shown.items if item in some]
                   for some in (pupil.state, pupil.ready, pupil.last)),
                 end_of(pupil) in ("share", ""))


def told_of(pupil):
    """How sure the sheet is, in a sentence."""
    asked = count_of(pupil.replies, "question")
    if end_of(pupil) == "share":
        return f"This is how you stand, by the replies to {asked}."
    if end_of(pupil) == "budget":
        return (f"UNCERTAIN: this is the likeliest after {asked}, and not likely enough. More has"
                " to be asked.")
    return f"The likeliest after {asked}, with {100 * pupil.weight // pupil.total} of 100."


def parts_of(told, shown):
    """A part for each heading under which there is an item."""
    return [sheet.part(title, kind, shown.names(some), "") for title, kind, some in told if some]


def looked_at(pupil, before):
    """What else a sheet tells: what the table says otherwise, and what changed since a state."""
    told = [
        ("Wrong in the test, though you seem to master it: look again", "last",
         pupil.state - pupil.right),
        ("Right in the test, though you may not master it yet: look again", "last",
         pupil.right - pupil.state)]
    if before is not None:
        told += [("New since the test before", "mastered", pupil.state - before),
                 ("Mastered in the test before: look again", "last", before - pupil.state)]
    return told


def section(pupil, shown, before, picture, title):
    """The page of a pupil."""
    found = found_of(pupil, shown)
    told = looked_at(pupil, before.get(pupil.name)) if isinstance(pupil, Pupil) else []
    return "\n".join([
        "<section>", *sheet.beginning(pupil.name, told_of(pupil), found.is_sure),
        *sheet.standing(found, shown), *parts_of(told, shown), picture,
        f"<footer>{text_of(title)}. By lspace.</footer></section>"])


def sheets(title, shown, pupils, change, pictures):
    """The file with the sheets of all pupils."""
    before = {now.name: then.state for then, now in change.both} if change else {}
    pages = [section(it, shown, before, pictures.get(standing_of(it), ""), title) for it in pupils]
    return "\n".join([*sheet.opened(readable(title)), *pages, "</html>", ""])
