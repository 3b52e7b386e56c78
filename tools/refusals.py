"""What the documents say of commands and refusals, read from the tables of docs/COMMANDS.md.

  entry = found(["24", "spare"])       the row of a refusal's words behind `no`; None without one
  entry.cause, entry.remedy            its sentence and its remedy, with what was told put in
  explanation("no 24 spare")           both in one text; None where the line is no refusal
  for it in commands(): it.name, it.forms, it.reply, it.codes

A row of refusals has forms such as `24 digit PLACE`: a word in capitals stands for what is told."""
import re
from collections import namedtuple

from companion import TOP, read_text

REFUSALS = "| refusal | comes exactly where | remedy |"
COMMANDS = "| command | reply | refusals |"
Entry = namedtuple("Entry", "form cause remedy")
Command = namedtuple("Command", "name forms reply codes")


def document(name="COMMANDS.md"):
    """The path of a document: they stand beside the companions' folder, also where installed."""
    return TOP / "docs" / name


def rows_of(text, header):
    """The cells of each row of the tables with this header."""
    for table in re.findall(rf"^{re.escape(header)}\n\|[-|]+\|\n((?:\|.*\n)*)", text, re.M):
        for row in table.splitlines():
            yield [it.strip().replace("\\|", "|") for it in re.split(r"(?<!\\)\|", row)[1:-1]]


def quoted(cell):
    """What stands between backquotes in a cell."""
    return re.findall(r"`([^`]*)`", cell)


def entries(text=None):
    """An entry for each form of the tables of refusals, in their order."""
    text = read_text(document()) if text is None else text
    return [Entry(form.split(), cause, remedy) for forms, cause, remedy in rows_of(text, REFUSALS)
            for form in quoted(forms)]


def commands(text=None):
    """The commands in the order of their table, the forms of one name together."""
    text = read_text(document()) if text is None else text
    known = {}
    for forms, reply, codes in rows_of(text, COMMANDS):
        for form in quoted(forms):
            it = known.setdefault(form.split()[0], Command(form.split()[0], [], reply, codes))
            it.forms.append(form)
    return list(known.values())


def values_of(form, words):
    """What stands for each word in capitals, where the words have the form; else None."""
    if len(form) != len(words):
        return None
    values = {}
    for part, word in zip(form, words):
        if part.isupper():
            values[part] = word
        elif part != word:
            return None
    return values


def filled(text, values):
    """A text with what stands for the words in capitals."""
    return re.sub(r"\b[A-Z]{2,}\b", lambda it: values.get(it[0], it[0]), text)


def words_told(line):
    """The words of a refusal behind `no`, a set being one; None where the line is no refusal."""
    words = re.findall(r"\{[^}]*\}|[^ ]+", line.strip())
    return words[1:] if len(words) > 1 and words[0] == "no" and words[1].isdigit() else None


def found(words, known=None):
    """The entry of a refusal, of which the first sentence of the cause is taken."""
    for form, cause, remedy in known or entries():
        values = values_of(form, words)
        if values is not None:
            first = re.split(r"\. (?=[A-Z])", cause)[0]
            return Entry(words, filled(first, values), filled(remedy, values))
    return None


def explanation(line, known=None):
    """A refusal's sentence and remedy; None where the line is none or has no entry."""
    words = words_told(line)
    entry = found(words, known) if words else None
    return entry and f"{' '.join(words)}: {entry.cause}. {entry.remedy}"
