"""Checks of saved sessions that were made by hand: which part is told where one couldn't stand.

Every file of a world is opened, so most of them are no sessions. Where a session has a start by
clauses, or has pupils, nothing is held."""
from trials import faults, forms, ledger, sets
from trials.trial import same

UNCLEAR = None
DIGITS = set("0123456789abcdef")


def is_number(value, least, most):
    return type(value) is int and least <= value <= most


def is_list(value, count):
    return isinstance(value, list) and len(value) == count


def is_version(told):
    return is_number(told.get("version"), 1, 2)


def is_items(told):
    names = told.get("items")
    return (faults.is_texts(names) and 1 <= len(names) == len(set(names)) <= 512
            and all(map(forms.KINDS["NAME"], names)))


def is_limits(told):
    limits = told.get("limits")
    return (is_list(limits, 2) and is_number(limits[0], 1, 40) and is_number(limits[1], 51, 99))


def is_ratio(pair):
    return (is_list(pair, 2) and is_number(pair[0], 2, 64)
            and is_number(pair[1], 1, pair[0] - 1))


def is_odds(told):
    odds, old = told.get("odds"), told["version"] == 1
    if not is_list(odds, len(told["items"])):
        return False
    if old:
        return all(is_list(own, 2) and all(is_number(one, 2, 64) for one in own) for own in odds)
    return all(is_list(own, 2) and all(map(is_ratio, own)) for own in odds)


def set_of(text, size):
    """The set of a cursor, or None where it is none."""
    good = isinstance(text, str) and set(text) <= DIGITS and len(text) == (size + 3) // 4
    own = sets.set_of_cursor(text, size) if good else 0
    return own if good and sets.cursor(own, size) == text else None


def is_start(told):
    start, size = told.get("start"), len(told["items"])
    if not isinstance(start, dict):
        return start == "free"
    if "surmise" in start:
        return UNCLEAR
    if not isinstance(start.get("base"), list):
        return False
    family = [set_of(own, size) for own in start["base"]]
    return (None not in family and sets.base_of(family) == family
            and not faults.uncovered(family, told["items"]))


def is_block(told):
    return is_number(told.get("block"), 1, max(1, len(told["items"]) - 1))


def is_answers(told):
    """Whether the answers and the next number could stand; unclear where there are many items."""
    answers, following, size = told.get("answers"), told.get("next"), len(told["items"])
    if not isinstance(answers, list) or not is_number(following, 1, 10 ** 9):
        return False
    seen, last = set(), 0
    for answer in answers:
        if not is_list(answer, 4) or not isinstance(answer[1], bool):
            return False
        number, _, before, item = answer
        before = set_of(before, size)
        if not is_number(number, last + 1, following - 1) or not is_number(item, 0, size - 1):
            return False
        if not before or before & sets.bit(item, size) or (before, item) in seen:
            return False
        seen.add((before, item))
        last = number
    return some_space_fits(told)


def some_space_fits(told):
    """Whether each No is broken by a state that the Yes answers leave."""
    book = ledger.Ledger({})
    book.take_up(told)
    states = book.states()
    if states is None:
        return UNCLEAR if told["answers"] else True
    return all(any(sets.breaks(own, query, book.size) for own in states)
               for yes, query in book.answers.values() if not yes)


def is_pupils(told):
    pupils = told.get("pupils")
    return UNCLEAR if isinstance(pupils, list) and pupils else pupils == []


PARTS = {
    "version": is_version, "items": is_items, "limits": is_limits, "odds": is_odds,
    "start": is_start, "block": is_block, "answers": is_answers, "pupils": is_pupils,
}


def opened(text):
    """The reply to `open` of a file."""
    told = faults.json_object(text, lambda value: True)
    if told is None:
        return "no 42 json\n"
    for cause, holds in PARTS.items():
        good = holds(told)
        if good is UNCLEAR:
            return UNCLEAR
        if not good:
            return f"no 42 {cause}\n"
    return f"ok {len(told['items'])}\n"


def a_session_is_refused_by_its_first_fault(trial):
    """Each file is opened, after one session or another."""
    files = [name for name in trial.files if forms.KINDS["FILE"](name)]
    run, made = trial.run([f"open {name}" for name in files]), 0
    for name, reply in zip(files, run.replies):
        wanted = opened(trial.files[name].decode("utf-8", "surrogateescape"))
        if wanted is not UNCLEAR:
            same(reply, wanted, f"`open {name}`")
            made += 1
    return made


CHECKS = [a_session_is_refused_by_its_first_fault]
