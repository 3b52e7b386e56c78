"""Replies in plain words, with the labels of the items, and lines that fit the terminal.

  in_words(labels, line, reply)     one sentence on the reply to an accepted line; None where it
                                    names no item, or where no labels are told
  wrapped("  a long line")          cut between words, where a narrower terminal shows it
"""
import re
import shutil
import sys
import textwrap

from companion import names_in, words_of

NARROWEST = 20
ASK = "Would a pupil who fails {failed} also fail {item}?"
KNOWN = {
    "yes": "By the answers, a pupil who fails {failed} also fails {item}.",
    "no": "By the answers, some pupil fails {failed} and masters {item}.",
    "open": "The answers leave open whether a pupil who fails {failed} also fails {item}.",
}


def wrapped(text):
    """The text, each line cut where the terminal ends. Elsewhere it stays as it is."""
    if not sys.stdout.isatty():
        return text
    width = max(NARROWEST, shutil.get_terminal_size().columns)
    return "\n".join(textwrap.fill(line, width, subsequent_indent=re.match(" *", line)[0] + "  ",
                                   break_long_words=False, break_on_hyphens=False)
                     for line in text.split("\n"))


def listed(labels, names):
    """The labels of some items, in a sentence."""
    return ", ".join(map(labels.told, names)) or "nothing"


def such_as(labels, item):
    """An example task of an item, as the end of a sentence; only a full stop without one."""
    task = labels.task(item)
    return f", such as: {task}" if task else "."


def of_query(labels, words, form):
    """A sentence of the form, on the query `NAME .. : NAME`."""
    before, item = words[:-2], words[-1]
    failed = ("all of " if len(before) > 1 else "") + listed(labels, before)
    return form.format(failed=failed, item=labels.told(item))


def of_report(labels, pupil, reply):
    last, ready = (it.split() for it in reply[1][len("fringes"):].split("|"))
    return (f"The heaviest state of {pupil}: {listed(labels, names_in(reply[0]))}."
            f" Learned last: {listed(labels, last)}. Can learn next: {listed(labels, ready)}.")


def in_words(labels, line, reply):
    """What the reply to an accepted line says, in a sentence; None where it names no item."""
    words = words_of(line)
    kind, *told = words_of(reply[0]) if reply else [""]
    if not labels.by_name:
        return None
    if kind == "ask":
        return of_query(labels, told, ASK)
    if kind == "known":
        return of_query(labels, words[1:], KNOWN[told[0]])
    if kind == "question":
        return f"Give {words[1]} a task of {labels.told(told[0])}{such_as(labels, told[0])}"
    if kind == "report":
        return of_report(labels, words[1], reply)
    return None
