"""What the page of a class is made of: texts, and tables with a line for each row.

  said(label)                  a name or label, in the direction of its own script
  lines(columns, rows)         a table; a narrow screen shows each cell below its column's heading
  Shown(items, labels)         the items, and what they are called
"""
import html

SHORT = 24  # letters of a name that isn't broken
BARS = ""   # the heading of the bars
NUMBERS = {"Masters", "Ready", "Questions", "Replies", "Share", "Right in the table", "Slips",
           "Guesses", "Then", "Now"}


def readable(words):
    """A text in which a byte that isn't UTF-8, as a file's name may have, is shown as such."""
    return str(words).encode("utf-8", "surrogateescape").decode("utf-8", "replace")


def text_of(words):
    """A text of the page."""
    return html.escape(readable(words), quote=True)


def said(text):
    """A name or a label. What follows it keeps its direction, and a short one isn't broken."""
    return f"<bdi class={'name' if len(text) <= SHORT else 'long'}>{text_of(text)}</bdi>"


def listed(texts):
    """Names or labels, for a cell."""
    return ", ".join(map(said, texts)) or "<span class=faint>–</span>"


def count_of(many, word):
    return f"{many:,} {word}{'' if many == 1 else 's'}"


def row(*cells):
    return "<tr>" + "".join(cells) + "</tr>\n"


def cell(words, column):
    """A cell, with its heading for a narrow screen."""
    kind = "number" if column in NUMBERS else "bars" if column == BARS else "words"
    return f'<td class={kind} data-head="{column}">{words}</td>'


def lines(columns, rows, kind=""):
    """A table whose first column has names. The words over numbers stand at the right."""
    heads = "".join(f"<th scope=col{' class=number' if it in NUMBERS else ''}>{it}</th>"
                    for it in columns)
    body = "".join(row(f"<th scope=row>{said(first)}</th>", *map(cell, others, columns[1:]))
                   for first, *others in rows)
    return (f'<table class="lines {kind}"><thead>{row(heads)}</thead>\n'
            f"<tbody>{body}</tbody></table>\n")


def bar(count, of, kind=""):
    """A bar whose length is a part of the cell."""
    return f'<span class="bar {kind}" style="width: {100 * count / max(of, 1):.1f}%"></span>'


class Shown:
    """The items in their order, and their labels."""

    def __init__(self, items, labels):
        self.items, self.of = items, labels.of

    def names(self, some):
        """The labels of some items, in the order of all."""
        return [self.of(item) for item in self.items if item in some]

    def listed(self, some):
        return listed(self.names(some))
