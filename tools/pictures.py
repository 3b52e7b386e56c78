"""The pictures of a space, its base and its relation, as the input of Graphviz's `dot`.

  covers(sets)                     which set covers which, by place: [(low, high), ..]
  space_picture(items, states, marks, path, labels)
  base_picture(because, items, base, marks, path, labels)
  relation_picture(because, items, pairs, marks, path, labels)

States and base sets are (cursor, names), in the order of the program. `because` says why this is
drawn in place of the states; it is empty where it was asked for. Marks are a pupil's state and its
fringes, or None. A path is a list of items in the order learned, or None, and stands without marks.
Marks are told apart by frames and lines, so the colours may be lost."""
from collections import Counter, namedtuple

from captions import Words, counted, heading, legend, part_legend, title_of
from lettering import NO_TEXT, folded, turned

Marks = namedtuple("Marks", "pupil state inner outer")
SETS_SHOWN = 40     # with more states a box shows the cursor in place of the set
WIDEST_SET = 60     # the same where a set is longer than that, in letters
WIDEST_CURSOR = 4   # with longer cursors a box shows the number of items
WIDEST_LINE = 64    # of the text above the picture
WIDEST_NAME = 17    # of a line in a box, in letters
WIDEST_LABEL = 22   # the same where a label stands in it
MOST_LINES = 6      # of a label in a box; its tooltip has it all
LONGEST_TIP = 3000  # letters of a tooltip: `dot` takes strings of 16,384 bytes
BACKSLASH = "\ue05c"  # stands for it in a tooltip, where `dot` would take it for a mark of its own
BOXES = {
    "state": 'fillcolor="#1f4e79", fontcolor=white, peripheries=2',
    "outer": 'fillcolor="#d2ecd0", penwidth=2.6',
    "inner": 'fillcolor="#fde3c8", style="rounded,filled,dashed", penwidth=1.4',
    "path": 'fillcolor="#e6dcf5", penwidth=2.6',
    "plain": "",
}
LINES = {
    "outer": 'color="#1b6e1b", penwidth=2.6',
    "inner": 'color="#a04a00", penwidth=1.8, style=dashed',
    "path": 'color="#5b2d91", penwidth=2.6, arrowhead=normal, arrowsize=0.5',
    "plain": "",
}
STEPS = {("state", "outer"): "outer", ("inner", "state"): "inner",  # which lines are marked
         ("path", "path"): "path", ("path", "state"): "path"}


def covers(sets):
    """The pairs of places of which the second set covers the first: it has it, and no set of the
    list stands between the two."""
    by_size = sorted(range(len(sets)), key=lambda place: (len(sets[place]), place))
    found = []
    for low in by_size:
        least = []
        for high in by_size:
            if sets[low] < sets[high] and not any(sets[it] < sets[high] for it in least):
                least.append(high)
        found += [(low, high) for high in least]
    return found


def quoted(text):
    return '"' + text.replace("\\", "\\\\").replace('"', '\\"').replace("\n", "\\n") + '"'


def kept(text):
    """A text that `dot` has to show letter by letter: it would read `&lt;` as a letter."""
    return text.translate(NO_TEXT).replace("&", "&amp;")


def tip(text):
    """A tooltip. `dot` reads a backslash in it twice, so another letter stands for it."""
    text = text if len(text) <= LONGEST_TIP else text[:LONGEST_TIP] + ".."
    return f"tooltip={quoted(kept(text).replace(chr(92), BACKSLASH))}"


def wrapped(text, width):
    """The text in lines of about this width, cut at its spaces."""
    lines = [""]
    for word in text.split(" "):
        if lines[-1] and len(lines[-1]) + 1 + len(word) > width:
            lines.append(word)
        else:
            lines[-1] += " " + word if lines[-1] else word
    return "\n".join(lines)


def braced(names):
    return "{" + " ".join(names) + "}"


def fitted(text, words):
    """The words of a box in its lines."""
    width = WIDEST_LABEL if words.labels.by_name else WIDEST_NAME
    return kept("\n".join(turned(folded(text, width, MOST_LINES))))


def box(name, label, kind="plain", told=""):
    looks = [f"label={quoted(label)}", BOXES[kind], "" if kind == "plain" else f"class={kind}",
             tip(told) if told else ""]
    return f"  {quoted(name)} [{', '.join(filter(None, looks))}];"


def line(names, kind="plain", told=""):
    looks = [LINES[kind], "" if kind == "plain" else f"class={kind}", tip(told) if told else ""]
    look = ", ".join(filter(None, looks))
    return "  " + " -> ".join(map(quoted, names)) + (f" [{look}];" if look else ";")


def whole(title, lines, spread=0.3, straight=True, name="space"):
    """The input of dot: its name, a title of some lines, and the lines of the picture."""
    text = "\\l".join(quoted(kept("\n".join(folded(it, WIDEST_LINE))))[1:-1].replace("\\n", "\\l")
                      for it in title)
    return "\n".join([
        f"digraph {quoted(kept(name).replace(chr(92), BACKSLASH))} {{",
        f'  graph [label="{text}\\l", labelloc=t, labeljust=l, fontsize=9, fontname=Helvetica,',
        "         rankdir=BT, outputorder=edgesfirst, mclimit=4, nodesep=0.12,",
        f"         ranksep={spread:.2f}, splines={'line' if straight else 'true'}];",
        '  node [shape=box, style="rounded,filled", fillcolor=white, fontsize=10,',
        '        fontname=Helvetica, margin="0.09,0.04", height=0.22, width=0.22];',
        "  edge [arrowhead=none, color=gray35];",
        *lines, "}", ""])


def namer(states, words):
    """How a state is shown in its box, and what the caption says of that."""
    longest = max((names for _, names in states), key=lambda it: len(" ".join(it)))
    if len(states) <= SETS_SHOWN:
        labels, text = words.labels, ", ".join(map(words.labels.of, longest))
        if labels.by_name and len(folded(text, WIDEST_LABEL)) <= MOST_LINES:
            return (lambda _, names: fitted(", ".join(map(labels.of, names)) or "{}", words)), ""
        if len(" ".join(longest)) <= WIDEST_SET:
            return (lambda _, names: wrapped(" ".join(names), WIDEST_NAME) or "{}"), ""
    if len(states[0][0]) <= WIDEST_CURSOR:
        return (lambda cursor, names: cursor), "has the cursor of its state"
    return (lambda cursor, names: str(len(names))), "has the number of items of its state"


def state_caption(said):
    """What is seen in a picture of states."""
    shown = f"Each box is a state and {said}. Point at it to see the items." if said else \
        "Each box is a state: all that a pupil masters."
    return shown + " A line goes up to a larger state, and names what is learned on the way."


def kinds_of(sets, marks, path=None):
    """How each state is marked."""
    if path is not None:
        by_set = {frozenset(path[:many]): "path" for many in range(len(path))}
        by_set[frozenset(path)] = "state"
    elif marks is None:
        by_set = {}
    else:
        state = frozenset(marks.state)
        by_set = {state: "state", **{state - {item}: "inner" for item in marks.inner},
                  **{state | {item}: "outer" for item in marks.outer}}
    return [by_set.get(it, "plain") for it in sets]


def steps_between(items, states, kinds, pairs, words):
    """The lines of dot for the covers. What a cover adds stands on its line, in a box of its own,
    so that no line crosses it."""
    few = len(states) <= SETS_SHOWN
    for low, high in pairs:
        below, above = states[low][1], states[high][1]
        added = [item for item in items if item in above and item not in below]
        middle = "+".join([states[low][0], *added])
        kind = STEPS.get((kinds[low], kinds[high]), "plain")
        text = words.between.join(map(words.labels.of, added)) if few else " ".join(added)
        told = (f"{', '.join(map(words.told, added))}: from {words.whole(below)} "
                f"to {words.whole(above)}")
        bold = "" if kind == "plain" else ', fontname="Helvetica-Bold"'
        yield (f"  {quoted(middle)} [label={quoted(fitted(text, words))}{bold}, class=learned, "
               f"{tip(told)}];")
        yield line([states[low][0], middle, states[high][0]], kind, told)


def space_picture(items, states, marks=None, path=None, labels=None):
    """The states and their covers."""
    words, sets = Words(labels), [frozenset(names) for _, names in states]
    kinds, pairs = kinds_of(sets, marks, path), covers(sets)
    name, said = namer(states, words)
    lines = [box(cursor, name(cursor, names), kind, words.whole(names))
             for (cursor, names), kind in zip(states, kinds)]
    lines.append('  node [style=filled, color=white, margin="0.02,0.0", height=0.1, width=0.1, '
                 "fontsize=9];")
    lines += steps_between(items, states, kinds, pairs, words)
    levels = {}
    for cursor, names in states:
        levels.setdefault(len(names), []).append(quoted(cursor))
    lines += [f"  {{rank=same; {'; '.join(level)}}}" for level in levels.values()]
    first = f"{counted(len(states), 'state')} of {counted(len(items), 'item')}"
    caption = [f"{first}.", state_caption(said), *legend(marks, path, words)]
    steps = all(len(sets[high]) == len(sets[low]) + 1 for low, high in pairs)
    return whole(caption, lines, 0.15 + max(map(len, levels.values())) / 38, steps,
                 title_of(first, marks, path, words))


def kind_of_way(way, shown, marks, path=None):
    """How a way to some items, which has all that comes before them, is marked. A path takes a way
    where it has the last of its items when it has the others."""
    if path is not None:
        fronts = [set(path[:path.index(item) + 1]) for item in shown if item in path]
        return "path" if any(set(way) <= it for it in fronts) else "plain"
    if marks is None:
        return "plain"
    missing = set(way) - set(marks.state)
    if not missing:
        return "inner" if set(shown) & set(marks.inner) else "state"
    new = len(missing) == 1 and missing <= set(shown) & set(marks.outer)
    return "outer" if new else "plain"


def items_box(name, shown, way, look, ways=1):
    """A box of items that are learned by a way, one of so many. On a path they have their places in
    it."""
    marks, path, words = look
    kind = kind_of_way(way, shown, marks, path)
    places = {item: f"{path.index(item) + 1}. " for item in shown} if kind == "path" else {}
    text = words.between.join(places.get(it, "") + words.labels.of(it) for it in shown)
    needed = words.needs(shown, [item for item in way if item not in shown], ways)
    return box(name, fitted(text, words), kind, needed)


def base_caption(shown, ways):
    """What is seen in a picture of the base: its boxes have these items, by so many ways."""
    said = ["Each box is one way to its item; what it needs stands below."]
    if any(len(names) > 1 for names in shown):
        said.append("Items in one box are learned at once.")
    if any(many > 1 for many in ways.values()):
        said.append("An item with two boxes has two ways.")
    return " ".join(said)


def base_picture(because, items, base, marks=None, path=None, labels=None):
    """The base by inclusion. A set is named by the items of which it is a least state."""
    words, sets = Words(labels), [frozenset(names) for _, names in base]
    shown = [[item for item in names if not any(item in it and it < own for it in sets)]
             for (_, names), own in zip(base, sets)]
    ways = Counter(item for least in shown for item in least)
    lines = [items_box(cursor, least, names, (marks, path, words), ways[least[0]])
             for (cursor, names), least in zip(base, shown)]
    lines += [line([base[low][0], base[high][0]], told=words.needs(
        shown[high], shown[low], ways[shown[high][0]])) for low, high in covers(sets)]
    first = heading(f"{counted(len(base), 'base set')} of {counted(len(items), 'item')}", because)
    caption = [f"{first}.", base_caption(shown, ways), *part_legend(marks, path, words)]
    return whole(caption, lines, straight=False, name=title_of(first, marks, path, words))


def relation_picture(because, items, pairs, marks=None, path=None, labels=None):
    """The items, each with lines up to those that build on it."""
    words, below = Words(labels), {item: {item} for item in items}
    for _ in items:  # a chain of covers has no more steps than items
        sizes = [len(it) for it in below.values()]
        for low, high in pairs:
            below[high] |= below[low]
        if sizes == [len(it) for it in below.values()]:
            break
    ways = {item: [it for it in items if it in below[item]] for item in items}
    lines = [items_box(item, [item], ways[item], (marks, path, words)) for item in items]
    lines += [line(pair, told=words.needs([pair[1]], [pair[0]])) for pair in pairs]
    first = heading(f"{counted(len(items), 'item')}, by what comes before what", because)
    caption = [f"{first}.", "Each box is an item; what it needs stands below.",
               *part_legend(marks, path, words)]
    return whole(caption, lines, straight=False, name=title_of(first, marks, path, words))
