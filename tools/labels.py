"""Labels: what the items are called in any script, and an example task of each.

A file of labels is CSV whose first record names its columns: `name`, `label` and, where it has
tasks, `task`; other columns are passed over. Scripts keep the short names.

  add_option(parser)                the option --labels FILE
  labels = read_labels(path)        of such a file, or of none where the path is None
  labels.demand_names(items)        a note on standard error of the names that are no items
  labels.of("sd")                   "Subtract a digit"; the name itself where no label is told
  labels.told("sd")                 "Subtract a digit (sd)", so that the name can be typed
  labels.task("sd")                 "7 - 4", or ""
"""
import unicodedata
from collections import Counter

from companion import Trouble, clipped, read_bytes, records_of
from streams import tell

# Marks that turn the direction of what follows them, and so of text that isn't the label's.
TURNING = dict.fromkeys(map(ord, "\u202a\u202b\u202c\u202d\u202e\u2066\u2067\u2068\u2069"))


def add_option(parser):
    parser.add_argument("--labels", metavar="FILE",
                        help="a CSV file with the columns name, label and task")


def plain(field):
    """A field in one line, without what a terminal would obey."""
    letters = (" " if unicodedata.category(it) == "Cc" else it for it in field.translate(TURNING))
    return " ".join("".join(letters).split())


class Labels:
    """What is told of items by their names: (label, task)."""

    def __init__(self, by_name):
        self.by_name = by_name
        labels = Counter(label for label, _ in by_name.values() if label)
        self.twice = {label for label, many in labels.items() if many > 1}

    def of(self, name):
        """The label of an item. Where another item has the same, the name stands behind it."""
        label = self.by_name.get(name, ("", ""))[0] or name
        return f"{label} ({name})" if label in self.twice else label

    def told(self, name):
        """The label with the name behind it."""
        label = self.of(name)
        return label if label == name or label in self.twice else f"{label} ({name})"

    def task(self, name):
        return self.by_name.get(name, ("", ""))[1]

    def demand_names(self, items):
        unknown = [name for name in self.by_name if name not in items]
        if unknown:
            tell(f"note: there is a label for {clipped(', '.join(unknown))}, and no such item")


def read_labels(path):
    """The labels of a file, or none."""
    if path is None:
        return Labels({})
    try:
        records = list(records_of(read_bytes(path).decode("utf-8-sig")))
    except UnicodeDecodeError:
        raise Trouble(f"{path} is no text in UTF-8; save the labels in that form") from None
    columns = [plain(field).lower() for field in (records[0][1] if records else [])]
    if "name" not in columns or "label" not in columns:
        raise Trouble(f"{path}: the first record has to name the columns: name, label, task")
    return Labels(by_names(path, records[1:], columns))


def by_names(path, records, columns):
    """(label, task) by name, of the records behind the first."""
    found = {}
    for number, fields in records:
        told = dict(zip(columns, map(plain, fields)))
        name = told.get("name", "")
        if not name or name in found:
            why = f"{clipped(name)} has a label before" if name else "it has no name"
            raise Trouble(f"{path}, line {number}: {why}")
        found[name] = (told.get("label", ""), told.get("task", ""))
    return found
