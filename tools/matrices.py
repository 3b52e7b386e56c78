"""Tables of zeros and ones, as R writes them.

  table = read_matrix(text, options)   its names, and its rows of True and False

It takes what write.csv, write.csv2 and write.table write of a matrix or a data frame: commas,
semicolons, tabs or spaces; quoted texts; with or without a header; with or without names of rows; 0
and 1, or FALSE and TRUE. A first column has names of rows where its header is empty, missing or
`pupil`, and where no row begins with a mark."""
import re
from collections import namedtuple

from companion import Trouble, clipped, records_of, tell

MARKS = {"0": False, "FALSE": False, "F": False, "1": True, "TRUE": True, "T": True}
MISSING = ("NA", "")
PUPIL = "pupil"  # heads the names of a class table
WORDS = re.compile(r'"((?:[^"\\]|\\.)*)"|(\S+)')  # write.table puts \ before a quote in a text
NAME = re.compile(r"[A-Za-z0-9_.-]{1,40}")

Table = namedtuple("Table", "items row_names rows")


def separator_of(text):
    """What parts the fields: the first of `,`, `;` and tab that the first line has, or blanks."""
    first = re.sub(r'"[^"]*"', "", text.split("\n", 1)[0])
    return next((it for it in ",;\t" if it in first), None)


def rows_of(text):
    """The records of the text, each with the number of the line on which it ends."""
    text = text[1:] if text.startswith("\ufeff") else text
    separator = separator_of(text)
    if separator is None:
        for number, line in enumerate(text.splitlines(), 1):
            fields = [quoted.replace('\\"', '"') or plain for quoted, plain in WORDS.findall(line)]
            if fields:
                yield number, fields
        return
    for number, fields in records_of(text, separator):
        yield number, [field.strip() for field in fields]


def is_mark(field):
    return field.upper() in MARKS or field.upper() in MISSING


def mark_of(field, place, item, missing, hint):
    """The mark of a field. `missing` is what stands for NA, or None where that is refused."""
    if field.upper() in MARKS:
        return MARKS[field.upper()]
    if field.upper() in MISSING:
        if missing is not None:
            return missing
        hint = "; --missing 0 or 1 takes it for that"
    raise Trouble(f"line {place}, column {clipped(item)}: {clipped(field) or 'nothing'} is neither "
                  f"0 nor 1, nor TRUE or FALSE{hint}")


def marks_of(fields, items, place, named, missing):
    """The marks of a row, behind its name if the rows are named."""
    hints = ["" if named else "; --named says that this column has names of rows"]
    hints += [""] * len(items)
    return [mark_of(field, place, item, missing, hint)
            for item, field, hint in zip(items, fields[named:], hints)]


def parts_of(records, named):
    """The header or None, whether a first column has names, and the rows."""
    first = records[0][1]
    width = len(records[-1][1])
    short = len(records) > 1 and len(first) == width - 1  # write.table gives row names no header
    if short or not all(map(is_mark, first[1:] if named or first[0] == "" else first)):
        header = first if not short else ["", *first]
        return header, named or has_names(header, records[1:]), records[1:]
    return None, named, records


def has_names(header, rows):
    """Whether the first column of a table with this header has names of rows. Where its rows alone
    show that, it is told."""
    if header[0] == "" or header[0].lower() == PUPIL:
        return True
    if len(header) == 1 or not rows or any(is_mark(fields[0]) for _, fields in rows):
        return False
    tell(f"the column {clipped(header[0])} is taken for the names of the rows")
    return True


def without_numbers(records):
    """The records without the numbers of rows that write.csv puts before a column of pupils."""
    if [it.lower() for it in records[0][1][:2]] != ["", PUPIL]:
        return records
    return [(place, fields[1:]) for place, fields in records]


def read_matrix(text, named=False, items=None, missing=None):
    """The table of a text. `named` says that the first column has names of the rows, and `items`
    names the columns, in place of the header's names."""
    records = list(rows_of(text))
    if not records:
        raise Trouble("the table is empty")
    header, named, rows = parts_of(without_numbers(records), named)
    width = len(header) if header else len(records[0][1])
    found = header[named:] if header else [f"V{place}" for place in range(1, width - named + 1)]
    if items is not None and len(items) != len(found):
        raise Trouble(f"{len(items)} items are named, and the table has {len(found)} columns")
    names = found if items is None else items
    if not names:
        raise Trouble("the table has no column of an item")
    kept = []
    for place, fields in rows:
        if len(fields) != width:
            raise Trouble(f"line {place} has {len(fields)} fields in place of {width}")
        kept.append(marks_of(fields, names, place, named, missing))
    return Table(names, [fields[0] for _, fields in rows] if named else None, kept)


def fitted(names, what):
    """The names as NAMEs of the program, and a line on those that were changed, or None. In place
    of each other letter stands `_`, and what is behind 40 letters is cut off."""
    made = [name if NAME.fullmatch(name) else re.sub(r"[^A-Za-z0-9_.-]", "_", name)[:40]
            for name in names]
    owners = {}
    for name, new in zip(names, made):
        if not new:
            raise Trouble(f"{what} {len(owners) + 1} has no name")
        if new in owners:
            same = f"{clipped(name)} stands twice" if name == owners[new] else \
                f"{clipped(owners[new])} and {clipped(name)} would both be {new}"
            raise Trouble(f"each {what} needs a name of its own: {same}")
        owners[new] = name
    changed = [f"{clipped(name)!r} is now {new}" for name, new in zip(names, made) if name != new]
    if not changed:
        return made, None
    more = f", and {len(changed) - 3} more" if len(changed) > 3 else ""
    return made, f"names of {what}s have letters, digits, _ - and . only: " \
                 f"{', '.join(changed[:3])}{more}"
