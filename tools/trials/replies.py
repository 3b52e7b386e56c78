"""The shape of the reply to each command, and the cutting of what the program writes into replies.

A reply is a text with its line ends. The last line of a reply tells its end, so what is written can
be cut by the lines of the script alone."""
import re
from trials import forms, sets


class Differs(Exception):
    """Something is otherwise than a check says; the text tells what."""


NAME = r"[A-Za-z0-9_.-]{1,40}"
N = r"(?:0|[1-9][0-9]*)"
SET = rf"\{{(?:{NAME}(?: {NAME})*)?\}}"
SETS = rf"(?:set [0-9a-f]+ {SET}\n)*"
OK = rf"ok {N}\n"
LISTING = rf"{SETS}more (?:yes|no)\n"
LEARNING = rf"learning (?:yes|no {SET} {NAME} {NAME})\n"
FRINGES = rf"fringes(?: {NAME})* \|(?: {NAME})*\n"
TEXTS = r"\[(?:\"[^\"]*\"(?:,\"[^\"]*\")*)?\]"

SHAPES = {
    "items": OK, "load-items": OK, "start": OK, "blocks": OK, "yes": OK, "no": OK, "retract": OK,
    "pupil": OK, "reply": OK, "save": OK, "open": OK, "safe-open": OK,
    "odds": "ok\n", "ratio": "ok\n", "limits": "ok\n", "close": "ok\n", "safe-close": "ok\n",
    "known": rf"known (?:yes|no {N}|open)\n",
    "ask": rf"(?:ask(?: {NAME})+ : {NAME}|settled)\n",
    "base": rf"{SETS}base {N}\n",
    "surmise": r"surmise \{.*\}\n",
    "skill-map": rf"skills \{{\"{NAME}\":{TEXTS}(?:,\"{NAME}\":{TEXTS})*\}}\n",
    "relation": rf"(?:(?:cover {NAME} {NAME}\n)*relation {N}\n|relation no {NAME}\n"
                rf"|relation quasi {NAME} {NAME}\n)",
    "states": LISTING, "project": LISTING, "skills": LISTING, "mesh": LISTING,
    "safe-states": LISTING,
    "learning": LEARNING, "fringes": FRINGES,
    "state-of": rf"state {SET}\n",
    "paths": rf"(?:path(?: {NAME})+\n)*more (?:yes|no)\n",
    "project-base": rf"{SETS}base {N}\n{LEARNING}",
    "test": rf"test (?:no-empty|no-full|not-closed {SET} {SET}|not-graded {SET} {NAME} {NAME}"
            rf"|learning {N})\n",
    "mesh-agree": r"agree (?:yes|no)\n",
    "question": rf"(?:question {NAME}|over share|over budget)\n",
    "report": rf"report {SET} {N} {N} {N}\n{FRINGES}",
    "class": rf"(?:result {NAME} {N} (?:share|budget) {SET}\n)*class {N}\n",
    "safe": rf"ok {N} applied {N} pending {N}\n",
    "safe-list": rf"(?:answer {N} (?:applied|pending)\n)*safe {N} {N}\n",
}

FAMILY = rf"(?:line {N}|unknown-item {N}|repeat {N} {N}|many {N})"
DETAILS = {
    10: rf"(?:{N}|long {N})", 11: "",
    12: rf"(?:none|csv {N}|name {N}|repeat {N} {N}|many)", 13: "",
    14: rf"(?:json|unknown|no-clause {NAME}|reflexive {NAME} {N}|open {NAME} {N} {NAME}"
        rf"|comparable {NAME} {N} {N}|wide {N}|{FAMILY}|not-spanning {NAME})",
    15: N, 16: N, 17: "", 18: "", 19: N, 20: "", 21: N, 22: "", 23: "",
    24: rf"(?:length {N}|digit {N}|spare)", 25: rf"{N} {N}", 26: "", 28: N, 29: FAMILY, 30: "",
    31: rf"{SET} {NAME} {NAME}", 32: "", 33: "", 34: "", 35: N, 36: "", 37: "", 38: "",
    39: "(?:share|budget)", 40: NAME, 41: N,
    42: "(?:json|version|items|limits|odds|start|block|answers|pupils)", 43: "", 50: "", 51: "",
    52: N, 53: N, 60: rf"(?:json|unknown|no-skill {NAME}|wide {N})",
    70: rf"(?:[12] {FAMILY}|uncovered {NAME}|wide [12] {N})",
    80: rf"(?:line {N}|unknown-item {N}|cycle {NAME})",
}
REFUSALS = {code: re.compile(rf"no {code}{' ' if details else ''}{details}\n")
            for code, details in DETAILS.items()}
PATTERNS = {word: re.compile(shape) for word, shape in SHAPES.items()}


def is_refusal(reply):
    return reply is not None and reply.startswith("no ")


def code_of(reply):
    return int(reply.split()[1])


def refusal_end(line, form, place, text, start):
    """Where the refusal ends that stands at a place of what was written."""
    end = text.find("\n", start) + 1
    reply = text[start:end]
    found = re.match("no ([0-9]+)", reply)
    code = int(found[1]) if found else 0
    if code not in REFUSALS or not REFUSALS[code].fullmatch(reply):
        raise Differs(f"the line {line!r} has the reply {reply!r}, which has no known shape")
    if form is not None and code not in form.codes:
        raise Differs(f"the line {line!r} is refused by {code}, which its row hasn't")
    if form is None and reply != f"no 10 {place}\n":
        raise Differs(f"the line {line[:200]!r} is no command from place {place} on, "
                      f"and has the reply {reply!r}")
    return end


def cut(lines, text):
    """The reply to each line, None for a silent one."""
    found, start = [], 0
    for line in lines:
        if forms.is_silent(line):
            found.append(None)
            continue
        form, place = forms.form_of(line)
        shape = form and PATTERNS[form.head[0]].match(text, start)
        end = shape.end() if shape else refusal_end(line, form, place, text, start)
        found.append(text[start:end])
        start = end
    if start != len(text):
        raise Differs(f"behind the last reply stands {text[start:start + 200]!r}")
    return found


def listing(reply, names):
    """The sets of a listing and whether more follow; None where it was refused."""
    if is_refusal(reply):
        return None
    size, found = len(names), []
    lines = reply.splitlines()
    for line in lines[:-1]:
        _, spelled, told = line.split(" ", 2)
        own = sets.set_of_cursor(spelled, size)
        if sets.cursor(own, size) != spelled or sets.in_braces(own, names) != told:
            raise Differs(f"the cursor and the set of {line!r} aren't one")
        found.append(own)
    if found != sets.in_order(set(found)):
        raise Differs(f"the sets aren't in order, or one stands twice: {reply[:300]!r}")
    return found, lines[-1]


def base_lines(reply, names):
    """The sets of a base; None where it was refused."""
    if is_refusal(reply):
        return None
    lines = [line for line in reply.splitlines() if not line.startswith("learning")]
    found, last = listing("\n".join(lines) + "\n", names)
    if last != f"base {len(found)}":
        raise Differs(f"{last!r} ends a list of {len(found)} sets")
    return found
