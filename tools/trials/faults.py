"""Checks of what is told of a file that isn't of its kind: the first fault, by docs/COMMANDS.md.

Every file of a world is given to every reader, so most of them aren't of their kind. Where the text
of docs/COMMANDS.md leaves open what a file is, as with odd bytes, nothing is held."""
import csv
import io
import json
import re
from trials import forms, replies, sets
from trials.trial import Anew, same

IS_NAME = forms.KINDS["NAME"]
UNCLEAR = None


def set_lines(text, place):
    """The fault of a list of sets, or "" and the sets."""
    rows = {}
    if "\r" in text or not text.isascii():
        return UNCLEAR, []
    for row, line in enumerate(text.split("\n"), 1):
        line = line.strip(" \t")
        if not line or line.startswith("#"):
            continue
        inner = re.fullmatch(r"\{([^{}]*)\}", line)
        if line.startswith(",") or line.endswith(","):
            return UNCLEAR, []
        words = re.findall(r"[^ \t,]+", inner[1]) if inner else []
        if not inner or not all(IS_NAME(word) for word in words):
            return f"line {row}", []
        if not all(word in place for word in words):
            return f"unknown-item {row}", []
        own = sets.set_of([place[word] for word in words], len(place))
        if own in rows:
            return f"repeat {row} {rows[own]}", []
        rows[own] = row
    return "", list(rows)


def uncovered(family, names):
    """The least item in no set, or None."""
    return next((name for item, name in enumerate(names)
                 if not any(own & sets.bit(item, len(names)) for own in family)), None)


def of_test(text, place):
    fault, _ = set_lines(text, place)
    return fault and f"no 29 {fault}\n"


def of_base(text, place):
    fault, family = set_lines(text, place)
    missing = fault == "" and uncovered(family, list(place))
    fault = f"not-spanning {missing}" if missing else fault
    return fault and f"no 14 {fault}\n"


def of_mesh(text, place):
    """Of a part that is joined with itself."""
    fault, family = set_lines(text, place)
    missing = fault == "" and uncovered(family, list(place))
    fault = f"uncovered {missing}" if missing else fault and f"1 {fault}"
    return fault and f"no 70 {fault}\n"


def of_pairs(text, place):
    pairs = []
    for row, line in enumerate(text.split("\n"), 1):
        words = [] if forms.is_silent(line) else forms.words_of(line)
        if words and (len(words) != 2 or not all(IS_NAME(word) for word in words)):
            return f"no 80 line {row}\n"
        if not all(word in place for word in words):
            return f"no 80 unknown-item {row}\n"
        pairs += [tuple(words)] if words else []
    below = set(pairs)
    for middle in place:
        below |= {(low, high) for low, one in below if one == middle
                  for other, high in below if other == middle}
    return next((f"no 80 cycle {name}\n" for name in place if (name, name) in below), "")


def json_object(text, is_value):
    """The object of a JSON text with values of a kind, or None."""
    try:
        told = json.loads(text.encode("utf-8", "surrogateescape").decode())
    except ValueError:
        return None
    good = isinstance(told, dict) and all(map(is_value, told.values()))
    return told if good else None


def is_texts(value):
    return isinstance(value, list) and all(isinstance(one, str) for one in value)


def of_skills(text, place):
    told = json_object(text, is_texts)
    if told is None or set(told) - set(place):
        return "no 60 json\n" if told is None else "no 60 unknown\n"
    return next((f"no 60 no-skill {name}\n" for name in place if not told.get(name)), "")


def of_ways(text, place):
    told = json_object(text, lambda value: isinstance(value, list) and all(map(is_texts, value)))
    if told is None:
        return "no 14 json\n"
    known = {name for ways in told.values() for way in ways for name in way} | set(told)
    if known - set(place):
        return "no 14 unknown\n"
    lacking = [name for name in place if not told.get(name)]
    if lacking:
        return f"no 14 no-clause {lacking[0]}\n"
    ways = {name: [set(way) for way in told[name]] for name in place}
    fault = next(faults_of_ways(ways), None)
    return f"no 14 {fault}\n" if fault else ""


def faults_of_ways(ways):
    """The faults of clauses in the order in which they are told."""
    numbered = [(name, number, way) for name, own in ways.items()
                for number, way in enumerate(own, 1)]
    for name, number, way in numbered:
        if name not in way:
            yield f"reflexive {name} {number}"
    for name, number, way in numbered:
        for other in ways:
            if other in way and not any(one <= way for one in ways[other]):
                yield f"open {name} {number} {other}"
    for name, number, way in numbered:
        for other, second in enumerate(ways[name], 1):
            if other != number and (way <= second or second <= way):
                yield f"comparable {name} {number} {other}"


def of_class(text, place):
    """The first bad record of a class table without quotes."""
    if '"' in text or not text.isascii() or "\r" in text or "\0" in text:
        return UNCLEAR
    rows = [row for row in csv.reader(io.StringIO(text, newline="")) if row]
    if not rows or sorted(rows[0][1:]) != sorted(place):
        return "no 41 1\n"
    seen = set()
    for number, row in enumerate(rows[1:], 2):
        good = len(row) == len(rows[0]) and IS_NAME(row[0]) and row[0] not in seen
        if not good or not set(row[1:]) <= {"0", "1"}:
            return f"no 41 {number}\n"
        seen.add(row[0])
    return ""


READERS = {
    "test {}": of_test, "start base {}": of_base, "start surmise {}": of_ways,
    "start relation {}": of_pairs, "skills all {} 0": of_skills, "mesh {0} {0} 0": of_mesh,
    "class {}": of_class,
}


def a_file_is_refused_by_its_first_fault(trial):
    """In a new session; a file without a fault isn't refused."""
    names, made = trial.names(), 0
    if not trial.ledger.is_small():
        return 0
    asked = [(reader, name) for name in trial.files for reader in READERS]
    lines = [reader.format(name) for reader, name in asked]
    found = yield Anew(lines, trial.files)
    for (reader, name), line, reply in zip(asked, lines, found):
        text = trial.files[name].decode("utf-8", "surrogateescape")
        wanted = READERS[reader](text, {own: place for place, own in enumerate(names)})
        if wanted is not UNCLEAR:
            same(reply if replies.is_refusal(reply) else "", wanted, f"the refusal of `{line}`")
            made += 1
    return made


CHECKS = [a_file_is_refused_by_its_first_fault]
