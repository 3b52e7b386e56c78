"""Checks of lines and replies, of refused lines, of saved sessions, and of how a script comes."""
from trials import forms, ledger, program, replies
from trials.trial import KEPT, same

AGAIN = "kept-again"


def each_line_has_a_reply_of_its_command(trial):
    """The cutting into replies raises what differs; the words that vary with them are counted."""
    return sum(reply is not None for reply in trial.main.replies)


def the_status_tells_of_refusals(trial):
    refused = any(replies.is_refusal(reply) for reply in trial.main.replies)
    same(trial.main.status, 1 if refused else 0, "the status")
    return 1


def an_unknown_item_is_told_by_its_place(trial):
    """`no 15` comes exactly without a domain, or with the first word that should name an item."""
    book, made = ledger.Ledger(trial.files), 0
    for line, reply in zip(trial.lines, trial.main.replies):
        form = reply and forms.form_of(line)[0]
        if form and 15 in form.codes:
            wanted = unknown_place(form, forms.words_of(line), book)
            told = reply.split()[2] if reply.startswith("no 15 ") else None
            same(told, wanted, f"the place that is told of {line!r}")
            made += 1
        book.follow(line, reply)
    return made


def unknown_place(form, words, book):
    """Which place `no 15` tells of a line, or None."""
    if book.names is None:
        return "0"
    if form.head[0] in ("pupil", "question", "report", "close", "class", "save"):
        return None
    kinds, behind = {part for part, _ in form.parts}, len(form.head)
    if form.head[0] in ("odds", "ratio", "reply"):
        places = [place for place, (part, _) in enumerate(form.parts) if part == "ITEM"]
    elif "NAME" not in kinds:
        places = []
    else:
        if form.head[0] in ("project", "paths"):
            behind = next(place for place, word in enumerate(words)
                          if word == (":" if form.head[0] == "project" else "after")) + 1
        places = [place for place in range(behind, len(words)) if words[place] not in ":|"]
    for place in places:
        if words[place] not in book.place:
            return str(place + 1)
    return None


def refused_lines_change_nothing(trial):
    """The script without its refused lines has the same other replies, and the same session."""
    kept = [(line, reply) for line, reply in zip(trial.lines, trial.main.replies)
            if not replies.is_refusal(reply)]
    if len(kept) == len(trial.lines):
        return 0
    again = trial.run([*(line for line, _ in kept), f"save {KEPT}"])
    for (line, reply), other in zip(kept, again.replies):
        same(other, reply, f"without the refused lines, the reply to {line!r}")
    same(again.status, 0 if trial.ledger.names else 1, "the status without the refused lines")
    same(trial.program.look().get(KEPT), trial.saved, "what is saved without the refused lines")
    return len(kept)


def without_safe_lines(lines):
    return [line for line in lines if not forms.words_of(line)[:1]
            or not forms.words_of(line)[0].startswith("safe")]


def saved_and_opened_goes_on(trial):
    """A session that is saved at some line and opened anew goes on as it would have done."""
    rng = trial.world.rng("cut")
    cut = rng.randint(0, len(trial.lines))
    before, behind = trial.lines[:cut], trial.lines[cut:]
    book = ledger.follow(before, trial.main.replies[:cut], trial.files)
    if book.names is None:
        return 0
    if book.safe is not None:
        behind = without_safe_lines(behind)
    first = trial.run([*before, f"save {KEPT}"])
    files = trial.program.look()
    same(files.get(KEPT, b"").decode(), book.saved(), "the saved text of the session")
    same(first.replies[-1], f"ok {len(files[KEPT])}\n", "the length of what is saved")
    on = trial.run([*before, *behind, f"save {AGAIN}"])
    kept_on = trial.program.look()
    opened = trial.run([f"open {KEPT}", f"save {AGAIN}", *behind, f"save {AGAIN}-2"], files)
    found = trial.program.look()
    same(opened.replies[0], f"ok {book.size}\n", "the reply to `open`")
    same(found[AGAIN], files[KEPT], "what is saved at once of the opened session")
    for line, other, reply in zip(behind, opened.replies[2:], on.replies[cut:]):
        same(other, reply, f"saved after line {cut} and opened, the reply to {line!r}")
    same(found[f"{AGAIN}-2"], kept_on[AGAIN], "what the opened session has saved at the end")
    return len(behind) + 3


def the_saved_text_tells_the_session(trial):
    """At the end of the script `save` writes what the accepted lines come to."""
    if trial.ledger.names is None:
        return 0
    same(trial.saved.decode(), trial.ledger.saved(), "the saved text of the session")
    return 1


def the_way_of_a_script_is_of_no_account(trial):
    """With other line ends, by its name, and line by line, a script has the same replies."""
    script = program.encode("".join(line + "\n" for line in trial.lines))
    wanted = trial.main.output, trial.main.status
    ways = trial.world.rng("ways").sample([crossed, unended, named, line_by_line], 2)
    return sum(way(trial, script, wanted) for way in ways)


def crossed(trial, script, wanted):
    if any(line.endswith("\r") or len(line) > 65000 for line in trial.lines):
        return 0
    found = trial.program.call(script.replace(b"\n", b"\r\n"), trial.files)
    same(found, wanted, "with a carriage return before each line feed")
    return 1


def unended(trial, script, wanted):
    same(trial.program.call(script[:-1], trial.files), wanted, "without the last line end")
    return 1


def named(trial, script, wanted):
    files = {**trial.files, "script": script}
    same(trial.program.call(b"", files, ["--script", "script"]), wanted, "by --script")
    return 1


def line_by_line(trial, script, wanted):
    live = trial.program.live(trial.files)
    try:
        for line in trial.lines:
            live.say(line)
    finally:
        found = live.end()
    same(found, wanted, "line by line")
    return 1


CHECKS = [
    each_line_has_a_reply_of_its_command, the_status_tells_of_refusals,
    an_unknown_item_is_told_by_its_place, refused_lines_change_nothing, saved_and_opened_goes_on,
    the_saved_text_tells_the_session, the_way_of_a_script_is_of_no_account,
]
