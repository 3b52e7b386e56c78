"""The pupils of a class: what a table says of them, and what the program finds.

  with Space(program, script) as space:
      space.pupils("class.csv")    each pupil of the table, assessed by `class`
      space.alone()                each pupil that the script assessed one by one
  end_of(pupil)                    why the assessment of either is over
  in_order(pupils, items, order)   the pupils by name, by state, or as they are
"""
import csv
import itertools
import json
import os
import re
from collections import namedtuple

import companion
from companion import MOST_PUPILS, Trouble, clipped, records_of, refusal_of, use_of
from course import Course
from labels import plain

# What is known of a pupil of the class: the items of the state and of its two fringes, and what
# the table says was right, each a set of names.
Pupil = namedtuple("Pupil", "name state last ready right replies reason")
# What is known of a pupil that was assessed alone.
Single = namedtuple("Single", "name state last ready weight total replies standing")


def read_class(path):
    """The records of a class table, and the names of its pupils."""
    rows = [fields for _, fields in records_of(table_text(path))]
    names = [row[0].strip() for row in rows[1:]]
    found = set()
    for place, name in enumerate(names, 2):
        if name in found:
            raise Trouble(f"{path}, record {place}: there is a pupil {clipped(plain(name))} before")
        if not name:
            raise Trouble(f"{path}, record {place}: the pupil has no name")
        found.add(name)
    if len(names) > MOST_PUPILS:
        raise Trouble(f"{path} has {len(names):,} pupils, and a table may have {MOST_PUPILS:,}:"
                      " cut it")
    return rows, names


def table_text(path):
    try:
        return companion.read_bytes(path).decode("utf-8-sig")
    except UnicodeDecodeError:
        raise Trouble(f"{path} is no text in UTF-8; save the table in that form") from None


class Space(Course):
    """The space that a script makes, and its pupils."""

    def __init__(self, program, script):
        self.singles, self.known = {}, {}
        super().__init__(program, script)

    def follow(self, words, reply):
        """Keeps which pupils stand, and the last report of one that was taken away."""
        if words[0] == "pupil":
            self.singles[words[1]] = None
        elif words[0] == "report":
            self.singles[words[1]] = reply
        elif words[0] == "close":
            if not self.singles[words[1]]:
                del self.singles[words[1]]
        elif words[0] == "open":
            saved = json.loads(companion.read_text(self.folder / words[1]))
            self.singles = {pupil["name"]: None for pupil in saved["pupils"]}

    def fringes_of(self, state):
        """The two fringes of a state."""
        if state not in self.known:
            self.known[state] = [frozenset(it) for it in self.fringes(state)]
        return self.known[state]

    def pupils(self, path):
        """Each pupil of a class table, assessed by `class`."""
        rows, names = read_class(path)
        free = next(name for name in map("table{}".format, itertools.count())
                    if not os.path.lexists(self.folder / name))
        with open(self.folder / free, "w", encoding="utf-8", newline="") as table:
            csv.writer(table).writerows(
                [f"p{place}" if place else "pupil", *(mark.strip() for mark in row[1:])]
                for place, row in enumerate(rows))
        reply = self.say(f"class {free}")
        if refusal_of(reply):
            raise Trouble(f"{path}: {self.refused(reply, rows)}", 1)
        for line, name, row in zip(reply, names, rows[1:]):
            _, _, replies, reason = line.split()[:4]
            state = frozenset(companion.names_in(line))
            marks = zip(rows[0][1:], row[1:])
            right = frozenset(item.strip() for item, mark in marks if mark.strip() == "1")
            yield Pupil(name, state, *self.fringes_of(state), right, int(replies), reason)

    def refused(self, reply, rows):
        """Why a class is refused, in plain words, with the record that is bad."""
        words = reply[0].split()
        if words[1] != "41":
            return refusal_of(reply)
        place = int(words[2])
        if place == 1:
            hint = "; for a table with semicolons there is `tools/kst class TABLE`"
            return ("the first record has to be any word, and then each item's name once: "
                    + ", ".join(self.items) + f" ({reply[0]})"
                    + (use_of(hint) if any(";" in it for it in rows[0]) else ""))
        return (f"record {place}, of {clipped(plain(rows[place - 1][0]))}, has to be a name and"
                f" then under each item 1 for right or 0 for wrong ({reply[0]})")

    def small_base(self):
        """The base; None where there is none, as where it is too large."""
        return None if refusal_of(self.say("base")) else self.base()

    def alone(self):
        """Each pupil that the script or its session assessed alone."""
        for name, before in self.singles.items():
            now = self.say("report " + name)
            standing = None if refusal_of(now) else self.say("question " + name)[0]
            report = before if refusal_of(now) else now
            weight, total, replies = report[0].split("} ")[1].split()
            yield Single(name, frozenset(companion.names_in(report[0])), *fringes_in(report[1]),
                         int(weight), int(total), int(replies), standing)


def fringes_in(line):
    """The inner and the outer fringe of a line `fringes`."""
    inner, outer = line[len("fringes"):].split("|")
    return frozenset(inner.split()), frozenset(outer.split())


def end_of(pupil):
    """Why an assessment is over: "share" or "budget"; what else is told where it isn't over, and
    nothing where the pupil was taken away."""
    if isinstance(pupil, Pupil):
        return pupil.reason
    return pupil.standing.replace("over ", "") if pupil.standing else ""


def natural(name):
    """What orders names as people do: p2 before p10, and large letters as small ones."""
    parts = re.split("([0-9]+)", name.casefold())
    numbers = [it.lstrip("0") for it in parts[1::2]]
    parts[1::2] = [(len(it), it) for it in numbers]
    return parts, name


def in_order(pupils, items, order):
    """The pupils by their names, or with those that master most first and one state together."""
    if order == "table":
        return pupils
    by_name = sorted(pupils, key=lambda pupil: natural(pupil.name))
    if order == "name":
        return by_name
    return sorted(by_name, key=lambda pupil: (-len(pupil.state),
                                              [item not in pupil.state for item in items]))
