"""Runs the program under `strace`, which fails a call of a run, and reads its log."""
import re
import tempfile
from pathlib import Path
from typing import NamedTuple

from running import loading, run_case

MARK = "getppid"  # the call that tools/fail-calls.c makes before the program's own first call
CALL = re.compile(r"(\w+)\((.*)\) += (-?\w+|\?)(.*)")
BY_NAME = re.compile(r'(?:AT_FDCWD, )?"[^"]')


class Call(NamedTuple):
    name: str
    words: str  # what the program hands to the system
    moved: int  # the result, where that is a count of bytes
    is_failed: bool  # by strace

    def is_on(self, file):
        """Whether it is on the open file of this number."""
        return re.match(rf"{file}\b", self.words) is not None

    def is_by_name(self):
        return BY_NAME.match(self.words) is not None


def calls_of(log):
    """The calls that a log tells. One that another thread cut in two is told where it ended."""
    begun = {}
    for line in log.splitlines():
        thread, _, text = line.partition(" ")
        text = text.lstrip()
        if text.endswith("<unfinished ...>"):
            begun[thread] = text.removesuffix("<unfinished ...>")
            continue
        if resumed := re.match(r"<\.\.\. \w+ resumed>(.*)", text):
            text = begun.pop(thread, "") + resumed[1]
        if found := CALL.match(text):
            moved = int(found[3]) if re.fullmatch(r"\d+", found[3]) else 0
            yield Call(found[1], found[2], moved, "(INJECTED)" in found[4])


class Trace(NamedTuple):
    loader: list  # the calls before the mark
    calls: list  # and those behind it

    def before(self, name):
        return sum(call.name == name for call in self.loader)

    def failed(self):
        """The place of the first call that was failed, among the program's own."""
        return next((at for at, call in enumerate(self.calls) if call.is_failed), None)

    def moved(self, name, file, end=None):
        """How many bytes the calls of a name, up to this place, moved of an open file."""
        return sum(call.moved for call in self.calls[:end]
                   if call.name == name and call.is_on(file) and not call.is_failed)


def traced(program, library, case, faults, environment):
    """A run with these faults, and its trace."""
    with tempfile.TemporaryDirectory() as folder:
        log = Path(folder) / "log"
        injected = [word for fault in faults for word in ("-e", f"inject={fault}")]
        named = {"LD_PRELOAD": loading(library), **environment}
        given = [word for name, value in named.items() for word in ("-E", f"{name}={value}")]
        run = run_case(case, ["strace", "-f", "-s", "0", "-o", str(log), *injected, *given,
                              program], {})
        calls = list(calls_of(log.read_text(errors="replace")))
    marks = [at for at, call in enumerate(calls) if call.name == MARK]
    at = marks[0] if marks else len(calls)
    return run, Trace(calls[:at], calls[at + 1:])
