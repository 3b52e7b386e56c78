"""Words in a picture: how wide they are, where their lines end, and which way they run.

  lines = folded("Compare two fractions", 17, 4)   at most so many lines of at most this width
  runs_left("جمع")                                 whether a text begins from right to left
  isolated(text)                                   in a sentence it doesn't turn what stands beside
"""
import unicodedata

LONGEST = 1000  # letters of a text that is folded; what is behind them couldn't be read in a box
TO_LEFT, BY_FIRST, END = "\u2067", "\u2068", "\u2069"  # they begin and end a part by its direction
NO_TEXT = dict.fromkeys([*range(0xd800, 0xe000), 0xfffe, 0xffff])  # letters that no XML may have


def width_of(text):
    """In letters of Latin. A mark on a letter has no width, and a letter of Chinese that of two."""
    return sum(0 if unicodedata.category(it) in ("Mn", "Me", "Cf") else
               2 if unicodedata.east_asian_width(it) in "WF" else 1 for it in text)


def pieces(word, width):
    """A word in parts of at most this width, cut behind a hyphen where there is one. A mark stays
    with its letter."""
    parts, room = [""], width
    for letter in word:
        wide = width_of(letter)
        if wide > room:
            cut = max(parts[-1].rfind(it) for it in "-_/.") + 1 or len(parts[-1])
            parts[-1:] = [parts[-1][:cut], parts[-1][cut:]]
            room = width - width_of(parts[-1])
        parts[-1] += letter
        room -= wide
    return parts


def folded(text, width, most=LONGEST):
    """The lines of a text, cut at its spaces, and where a word is too long in the word. Where they
    are more than `most`, two dots say so."""
    lines = []
    for word in text[:LONGEST].split(" "):
        for part in pieces(word, width):
            if lines and width_of(f"{lines[-1]} {part}") <= width:
                lines[-1] += " " + part
            else:
                lines.append(part)
    if len(lines) > most or len(text) > LONGEST:
        lines = lines[:most]
        lines[-1] = pieces(lines[-1], width - 2)[0] + ".."
    return lines


def runs_left(text):
    """Whether the first of its letters that has a direction runs from right to left."""
    kinds = (unicodedata.bidirectional(it) for it in text)
    return next((kind != "L" for kind in kinds if kind in ("L", "R", "AL")), False)


def turned(lines):
    """The lines of one text, each of which runs as the text does."""
    left = runs_left(" ".join(lines))
    return [f"{TO_LEFT}{line}{END}" for line in lines] if left else lines


def isolated(text):
    """A text that may run from right to left, as a part of a sentence."""
    turns = any(unicodedata.bidirectional(it) in ("R", "AL", "AN") for it in text)
    return f"{BY_FIRST}{text}{END}" if turns else text
