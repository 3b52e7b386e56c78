"""What a picture of a space says in words: what is seen, what its marks mean, and its tooltips.

Names are told by labels, of which there may be none. The words are those of a reader: a box of a
large space may be too small for them, but its tooltip has them all."""
from labels import Labels
from lettering import isolated

MOST_TOLD = 8       # items of a state that a title names, or else counts
LONGEST_LIST = 400  # letters of the items in a caption, or else they are counted


def counted(number, what):
    return f"{number} {what}" if number == 1 else f"{number} {what}s"


class Words:
    """The items in sentences. Without labels a set is written as the program does it."""

    def __init__(self, labels=None):
        self.labels = labels or Labels({})
        self.between = ", " if self.labels.by_name else " "

    def of(self, name):
        return isolated(self.labels.of(name))

    def told(self, name):
        return isolated(self.labels.told(name))

    def listed(self, names):
        """Items in a caption."""
        text = ", ".join(map(self.of, names)) or "nothing"
        return text if len(text) <= LONGEST_LIST else counted(len(names), "item")

    def braced(self, names):
        """A state in a caption."""
        text = "{" + self.between.join(map(self.of, names)) + "}"
        return text if len(text) <= LONGEST_LIST else f"a state of {counted(len(names), 'item')}"

    def short(self, names):
        """A state in a title."""
        few = len(names) <= MOST_TOLD
        return self.braced(names) if few else f"a state of {counted(len(names), 'item')}"

    def whole(self, names):
        """A state in a tooltip."""
        return "{" + self.between.join(map(self.told, names)) + "}"

    def needs(self, shown, below, ways=1):
        """Items in a tooltip, with those that have to be learned before, by one of so many ways."""
        before = ", ".join(map(self.told, below)) or "nothing"
        among = f" (one of {ways} ways)" if ways > 1 else ""
        return f"{', '.join(map(self.told, shown))}{among}: needs {before}"


def heading(what, because):
    """The first line of a picture."""
    return what + (f", in place of {because}" if because else "")


def title_of(first, marks, path, words):
    """The title of a picture, with what is marked in it."""
    if marks is not None:
        return f"{first}; {marks.pupil} in {words.short(marks.state)}"
    if path is not None:
        return f"{first}; a path to {words.short(path)}"
    return first


def legend(marks, path=None, words=Words()):
    """What the marks of a picture of states mean."""
    if path is not None:
        return [f"Arrows and thick frames: the path {words.listed(path)}.",
                "Double frame: where it ends."]
    if marks is None:
        return []
    return [f"Double frame: {marks.pupil} in {words.braced(marks.state)}.",
            f"Thick lines and frames: can be learned next ({words.listed(marks.outer)}).",
            f"Dashed lines and frames: may have been learned last ({words.listed(marks.inner)})."]


def part_legend(marks, path=None, words=Words()):
    """What the marks of a picture of items, or of ways to them, mean."""
    if path is not None:
        return [f"Thick frames, with numbers: the path {words.listed(path)}."]
    if marks is None:
        return []
    return [f"Double or dashed frames: {marks.pupil} is in {words.braced(marks.state)}.",
            f"Thick frames: can be learned next ({words.listed(marks.outer)}).",
            f"Dashed frames: may have been learned last ({words.listed(marks.inner)})."]
