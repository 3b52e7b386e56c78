"""A trial: one world, the run of its script, and what the checks ask beyond it.

A check is a function of a trial, which gives how often it compared something, and raises `Differs`
where something is otherwise. It may be a generator: it then yields an `AtEnd` or an `Anew` and gets
the replies to its lines. Those of all checks of one round are asked in one run, which saves time.
So such lines may change nothing, or, in `Anew`, nothing but the start."""
import functools
import inspect
import traceback
from trials import ledger
from trials.replies import Differs

KEPT = "kept-by-the-trial"


class AtEnd:
    """Lines that are asked behind the script of the world."""

    def __init__(self, lines):
        self.lines, self.files = list(lines), {}


class Anew:
    """Lines that are asked in a new session on the same items, with further files."""

    def __init__(self, lines, files):
        self.lines = list(lines)
        self.files = {name: text if isinstance(text, bytes) else text.encode()
                      for name, text in files.items()}


class Trial:
    def __init__(self, program, world):
        self.program, self.world = program, world
        self.lines, self.files = world.lines, world.files

    def run(self, lines, files=None):
        return self.program.run(lines, self.files if files is None else files)

    @functools.cached_property
    def main(self):
        """The run of the script."""
        return self.run(self.lines)

    @functools.cached_property
    def ledger(self):
        """What the script came to."""
        return ledger.follow(self.lines, self.main.replies, self.files)

    @functools.cached_property
    def saved(self):
        """What is saved behind the script; None without a domain."""
        self.run([*self.lines, f"save {KEPT}"])
        return self.program.look().get(KEPT)

    def names(self):
        """The names of the items at the end of the script; none without a domain."""
        return self.ledger.names or []

    def answer(self, asked):
        """The replies to the lines of some `AtEnd` or of some `Anew`, for each of them."""
        lines = [line for one in asked for line in one.lines]
        if not lines:
            found = []
        elif isinstance(asked[0], AtEnd):
            found = self.run(self.lines + lines).replies[len(self.lines):]
        else:
            files = {name: text for one in asked for name, text in one.files.items()}
            found = self.run([f"items {' '.join(self.names())}", *lines], files).replies[1:]
        for one in asked:
            yield found[:len(one.lines)]
            found = found[len(one.lines):]

    def try_check(self, check):
        """How often a check was made on this world, and what differed, or None."""
        return next(iter(self.try_checks([check]).values()))

    def try_checks(self, checks):
        """For each check how often it was made, and what differed, or None."""
        talks, asked, ended = {}, {}, {}

        def step(check, move):
            try:
                asked[check] = move()
            except StopIteration as end:
                ended[check] = end.value, None
            except Exception as fault:  # also where a reply is such that the check itself breaks
                ended[check] = 1, told(fault)

        for check in checks:
            if inspect.isgeneratorfunction(check):
                talks[check] = check(self)
                step(check, talks[check].__next__)
            else:
                step(check, functools.partial(self.made, check))
        while asked:
            waiting, found = dict(asked), self.answer_all(asked)
            asked.clear()
            for check in waiting:
                step(check, functools.partial(talks[check].send, found[check])
                     if not isinstance(found[check], Differs)
                     else functools.partial(talks[check].throw, found[check]))
        return {check: ended[check] for check in checks}

    def made(self, check):
        """Makes a check that is no generator."""
        end = StopIteration()
        end.value = check(self)
        raise end

    def answer_all(self, asked):
        """The replies to what each check asks; where a run differs, each is asked by itself."""
        found = {}
        for kind in (AtEnd, Anew):
            own = {check: one for check, one in asked.items() if isinstance(one, kind)}
            if not own:
                continue
            try:
                found.update(zip(own, self.answer(list(own.values()))))
            except Differs:
                for check, one in own.items():
                    try:
                        found[check] = next(self.answer([one]))
                    except Differs as difference:
                        found[check] = difference
        return found


def told(fault):
    """What differed, or where a check broke."""
    if isinstance(fault, Differs):
        return str(fault)
    place = traceback.extract_tb(fault.__traceback__)[-1]
    return f"the check broke in {place.name}, line {place.lineno}: {fault!r}"


def same(found, wanted, what):
    """Raises `Differs` where what was found isn't what was wanted."""
    if found != wanted:
        raise Differs(f"{what}\n  found:  {shown(found)}\n  wanted: {shown(wanted)}")


def shown(value):
    """A value in a few words."""
    text = value if isinstance(value, str) else repr(value)
    text = text.rstrip("\n").replace("\n", " / ")
    return text if len(text) <= 600 else f"{text[:400]} .. {text[-180:]}"
