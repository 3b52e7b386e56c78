"""Small pictures of a base, each with the state of a pupil on it, by `dot` of Graphviz.

  pictures = pictures_of(base, shown, pupils)    the picture by `standing_of`, as a part of a page

There is none where `dot` is missing or where the base is too large to be read so small: a note on
standard error tells which."""
import re
import shutil
import subprocess

from companion import tell
from lettering import folded, turned
from pictures import Marks, box, covers, kept, kind_of_way, line, whole

MOST_SETS = 30  # of a base in a small picture
WIDEST = 750    # points of a picture, which the page makes narrower
TALLEST = 600
WIDTH = 17      # letters of a line in a box
MOST_LINES = 4  # of a label in a box
LEGEND = ("Each box is a way to what it names, and builds on the boxes below it. Dark, with a"
          " double frame: you master it. Dashed: you do, and may have learned it last. Thick frame:"
          " you can learn it next.")


def standing_of(pupil):
    """The state with its fringes, by which pupils have the same picture."""
    return pupil.state, pupil.last, pupil.ready


def input_of(base, shown, marks):
    """The input of dot: the base by inclusion. A set is named by the items of which it is a least
    state."""
    sets = [frozenset(names) for _, names in base]
    lines = ['  graph [label=""];']  # in place of a title's line
    for (cursor, names), own in zip(base, sets):
        least = [it for it in names if not any(it in other and other < own for other in sets)]
        words = (it for item in least for it in turned(folded(shown.of(item), WIDTH, MOST_LINES)))
        lines.append(box(cursor, kept("\n".join(words)), kind_of_way(names, least, marks)))
    lines += [line([base[low][0], base[high][0]]) for low, high in covers(sets)]
    return whole([], lines, straight=False)


def drawn(texts):
    """A picture for each of these inputs by one call of dot; none where it fails."""
    try:
        made = subprocess.run(["dot", "-Tsvg"], input="\n".join(texts).encode(),
                              stdout=subprocess.PIPE, stderr=subprocess.PIPE)
    except OSError as error:
        tell(f"note: `dot` can't be run: {error.strerror}; the sheets have no picture")
        return []
    found = re.findall("<svg.*?</svg>", made.stdout.decode(errors="replace"), flags=re.S)
    if made.returncode or len(found) != len(texts):
        tell("note: `dot` failed, so the sheets have no picture")
        return []
    return found


def bare(picture):
    """A picture without names of its own, which would stand on the page many times."""
    picture = re.sub("<!--.*?-->|<title>.*?</title>", "", picture, flags=re.S)
    return re.sub(' (id|class|xmlns(:xlink)?)="[^"]*"', "", re.sub(r"\n+", "\n", picture))


def is_small(picture):
    found = re.search(r'width="([0-9.]+)pt" height="([0-9.]+)pt"', picture)
    return bool(found) and float(found[1]) <= WIDEST and float(found[2]) <= TALLEST


def pictures_of(base, shown, pupils):
    """The picture of each standing of the pupils; of a base that is None there is none."""
    if base is None or len(base) > MOST_SETS:
        tell("note: the base is too large for a small picture, so the sheets have none")
        return {}
    if shutil.which("dot") is None:
        tell("note: `dot` isn't found, so the sheets have no picture; it comes with Graphviz")
        return {}
    marks = {standing_of(it): Marks("", *standing_of(it)) for it in pupils}
    found = drawn([input_of(base, shown, it) for it in marks.values()])
    if found and not all(map(is_small, found)):
        tell("note: the base is too large for a small picture, so the sheets have none")
        return {}
    return {standing: f"<figure>{bare(it)}<figcaption>{LEGEND}</figcaption></figure>"
            for standing, it in zip(marks, found)}
