"""What a run of the program may end with, by the case that tells it.

Each of the functions named `differs` says what of a run is otherwise, or None."""
import re
from typing import NamedTuple

from cases import OPEN


class Run(NamedTuple):
    status: int | None  # None where the run came to no end
    written: bytes
    complaints: bytes  # what stands on standard error
    folder: dict  # the bytes of each file after the run


def is_reply(wanted, line):
    if wanted.endswith(OPEN):
        return line.startswith(wanted.removesuffix(OPEN))
    return line == wanted


def is_front(wanted, part):
    """Whether a line may begin with this part, which isn't empty."""
    return wanted.startswith(part) or wanted.endswith(OPEN) and is_reply(wanted, part)


def reached(case, written):
    """How many lines of the transcript were written whole, and the part of the next one that was;
    None where that is no front of the transcript."""
    *lines, part = written.split(b"\n")
    wanted = case.replies().split(b"\n")[:-1]
    if len(lines) > len(wanted) or not all(map(is_reply, wanted, lines)):
        return None
    if part and not any(is_front(line, part) for line in wanted[len(lines):len(lines) + 1]):
        return None
    return len(lines), part


def stops(case, written):
    """The places of the steps of which a front is what was written last, each with whether that
    front is empty."""
    found = reached(case, written)
    before = 0
    for place, step in enumerate(case.steps if found else []):
        count, part = found
        after = before + step.replies.count(b"\n")
        if before <= count and (count, part) < (after, b"\0") and (count < after or not part):
            yield place, count == before and not part
        before = after


def is_file(told, text):
    """Whether a file is as told. Where that is by its length, it has to look like a session."""
    if isinstance(told, bytes):
        return text == told
    return (len(text) == told and text.startswith(b'{"answers":[')
            and text.endswith(b',"version":2}'))


def has(wanted, folder):
    """Whether a folder has these files and no others."""
    return wanted.keys() == folder.keys() and all(
        is_file(told, folder[name]) for name, told in wanted.items())


def shown(folder):
    return ", ".join(f"{name} of {len(text)} bytes" for name, text in sorted(folder.items()))


def end_of(run):
    written = run.written if len(run.written) < 60 else b".." + run.written[-60:]
    how = "without an end" if run.status is None else f"with status {run.status}"
    told = f", complaining {run.complaints[-200:]!r}" if run.complaints else ""
    return f"it ends {how}{told}, writing {written!r}; the folder has {shown(run.folder) or 'none'}"


def differs_whole(case, run):
    """A run to the end: its status, all replies, and the folder as the script leaves it."""
    if run.status != case.status():
        return f"the status isn't {case.status()}"
    if reached(case, run.written) != (case.replies().count(b"\n"), b""):
        return "what is written isn't the transcript"
    if not has(case.folder(len(case.steps)), run.folder):
        return "the folder isn't as the script leaves it"
    return None


def differs_stopped(case, run, status):
    """A run that stopped before a line, for want of memory (6) or by a write that failed (4).
    What is written is a front of the transcript. The folder is as after the line at which it ends;
    or, for want of memory and where nothing of that line's reply is written, as before it."""
    if run.status != status:
        return f"the status isn't {status}"
    if reached(case, run.written) is None:
        return "what is written is no front of the transcript"
    for place, is_empty in stops(case, run.written):
        if has(case.folder(place + 1), run.folder):
            return None
        if status == 6 and is_empty and has(case.folder(place), run.folder):
            return None
    return "the folder is neither as before the line at which the run stopped nor as after it"


def differs_unread(case, run, taken):
    """A run of which standard input failed after so many bytes: the lines that had ended are
    answered, and no others."""
    ended = case.script()[:taken].count(b"\n")
    front = case._replace(steps=case.steps[:ended])
    if run.status != 3:
        return "the status isn't 3"
    if reached(front, run.written) != (front.replies().count(b"\n"), b""):
        return f"what is written isn't the replies to {ended} lines"
    if not has(case.folder(ended), run.folder):
        return f"the folder isn't as {ended} lines leave it"
    return None


def differs_untouched(case, run, status):
    """A run that ends with this status, writes nothing and leaves the folder as it was."""
    if run.status != status:
        return f"the status isn't {status}"
    if run.written:
        return "something is written"
    return None if has(case.files, run.folder) else "the folder isn't as it was"


FOLDER_LINE = re.compile(rb"[ \t]*(load-items|start|test|skills|mesh|mesh-agree|class|save|open)\b")


def refused_cases(case, written, reply):
    """The cases in which a line on the folder is refused so, at which a run that has written this
    stands."""
    for place, is_empty in stops(case, written):
        if is_empty and FOLDER_LINE.match(case.steps[place].text):
            yield case.refused(place, reply)
