"""Checks of each line where it stands in the script: its reply is what the session decides.

The session is that of the ledger, and each reply is worked out from docs/COMMANDS.md. Where a reply
depends on a file, or there are many items, only the refusals that the session decides are held."""
import math
from trials import forms, interview, ledger, lines, listings, pupils, replies, safely, sets, spaces
from trials.replies import Differs
from trials.trial import same

CODES = {11, 13, 17, 18, 19, 20, 21, 23, 24, 30, 31, 32, 33, 36, 37, 38, 39, 40, 43, 50, 51, 52}


def cursor_fault(text, size):
    """Why a cursor is none, or None."""
    if len(text) != (size + 3) // 4:
        return f"no 24 length {len(text)}\n"
    for place, digit in enumerate(text, 1):
        if digit not in "0123456789abcdef":
            return f"no 24 digit {place}\n"
    spare = 4 * len(text) - size
    return "no 24 spare\n" if int(text, 16) & ((1 << spare) - 1) else None


class Decided:
    """The reply to each kind of line, where the session decides it; None where it doesn't."""

    def __init__(self, book):
        self.book, self.weighed = book, {}

    def reply(self, form, words):
        """What is the reply to a line, in a session with a domain or without one."""
        step = getattr(self, "line_" + words[0].replace("-", "_"), None)
        return step(words[1:]) if step else None

    def line_items(self, words):
        if self.book.names is not None:
            return "no 11\n"
        for place, name in enumerate(words):
            if name in words[:place]:
                return f"no 12 repeat {place + 1} {words.index(name) + 1}\n"
        return f"ok {len(words)}\n" if words else "no 12 none\n"

    def line_load_items(self, words):
        return None if self.book.names is None else "no 11\n"

    def line_start(self, words):
        return "no 13\n" if self.book.answers else None

    def line_blocks(self, words):
        size, most = int(words[0]), max(1, self.book.size - 1)
        if not 1 <= size <= most:
            return "no 17\n"
        return f"ok {sum(math.comb(self.book.size, count) for count in range(1, size + 1))}\n"

    def asked(self, words):
        """The query of a line, or its refusal by 18."""
        before, item = self.book.query(words)
        good = before and not before & sets.bit(item, self.book.size)
        return ((before, item), None) if good else (None, "no 18\n")

    def known(self, query):
        return interview.known_by_states(self.book.states(), self.book, self.book.size)(query)

    def line_known(self, words):
        query, fault = self.asked(words)
        return fault or (self.known(query) if self.book.is_small() else None)

    def answer(self, words, yes):
        query, fault = self.asked(words)
        stands = [number for number, (_, one) in self.book.answers.items() if one == query]
        if fault or stands:
            return fault or f"no 19 {stands[0]}\n"
        if not self.book.is_small():
            return None
        known = self.known(query)
        if not yes and known == "known yes\n":
            return "no 20\n"
        if yes and known.startswith("known no"):
            return f"no 21 {known.split()[2]}\n"
        return f"ok {self.book.next}\n"

    def line_yes(self, words):
        return self.answer(words, True)

    def line_no(self, words):
        return self.answer(words, False)

    def line_retract(self, words):
        return f"ok {words[0]}\n" if int(words[0]) in self.book.answers else "no 23\n"

    def line_ask(self, words):
        if self.book.size > 5:
            return None
        for query in sets.queries(self.book.size, self.book.block):
            if self.known(query) == "known open\n":
                return f"ask {sets.query_text(query, self.book.names)}\n"
        return "settled\n"

    def base(self):
        return sets.base_of(self.book.states())

    def line_base(self, words):
        return spaces.based(self.base(), self.book.names) if self.book.is_small() else None

    def line_learning(self, words):
        return sets.learning_text(self.base(), self.book.names) if self.book.is_small() else None

    def line_relation(self, words):
        if self.book.is_small():
            atoms = sets.atoms_at(self.base(), self.book.size)
            return spaces.relation_text(atoms, self.book.names)

    def page(self, words, whole):
        """A page of a listing, of which the words begin with the count."""
        size, after = self.book.size, words[2] if words[1:2] == ["after"] else None
        fault = after and cursor_fault(after, size)
        if fault or whole is None:
            return fault
        first = after and sum(own >= sets.set_of_cursor(after, size) for own in whole)
        return listings.expected(whole, first or 0, int(words[0]), self.book.names)

    def line_states(self, words):
        return self.page(words or ["65536"], self.book.states())

    def line_project(self, words):
        states = self.book.states()
        part = words[words.index(":") + 1:]
        return self.page(words, states and listings.traces_of(states, part, self.book.names))

    def line_skills(self, words):
        return self.page(words[2:], None)

    def line_mesh(self, words):
        return self.page(words[2:], None)

    def line_fringes(self, words):
        if not self.book.is_small():
            return None
        own, family = self.book.set_of(words), set(self.book.states())
        return sets.fringes_text(own, family, self.book.names) if own in family else "no 30\n"

    def unlearning(self):
        """The refusal by 31, or None."""
        told = sets.learning_text(self.base(), self.book.names)
        return None if told == "learning yes\n" else "no 31" + told[len("learning no"):]

    def line_state_of(self, words):
        if not self.book.is_small():
            return None
        bar, family = words.index("|"), set(self.book.states())
        pair = self.book.set_of(words[:bar]), self.book.set_of(words[bar + 1:])
        for own in family:
            if sets.fringes_of(own, family, self.book.size) == pair and not self.unlearning():
                return f"state {sets.in_braces(own, self.book.names)}\n"
        return self.unlearning() or "no 32\n"

    def line_paths(self, words):
        size, order = self.book.size, [self.book.place[word] for word in words[2:]]
        if not self.book.is_small() or self.unlearning():
            return self.unlearning() if self.book.is_small() else None
        if words[1:] and sorted(order) != list(range(size)):
            return "no 33\n"
        if size > 5:
            return None
        whole = list(sets.paths_of(set(self.book.states()), size))
        first = sum(path <= order for path in whole) if words[1:] else 0
        return listings.paths_page(whole, first, int(words[0]), self.book.names)

    def ratios(self, pairs):
        good = all(2 <= first <= 64 and 1 <= second < first for first, second in pairs)
        return "ok\n" if good else "no 43\n"

    def line_odds(self, words):
        return self.ratios([(int(word), 1) for word in words[-2:]])

    def line_ratio(self, words):
        numbers = [int(word) for word in words[-4:]]
        return self.ratios([numbers[:2], numbers[2:]])

    def line_limits(self, words):
        good = 1 <= int(words[0]) <= 40 and 51 <= int(words[1]) <= 99
        return "ok\n" if good else "no 43\n"

    def line_pupil(self, words):
        if words[0] in self.book.pupils or len(self.book.pupils) == 16:
            return "no 37\n" if words[0] in self.book.pupils else "no 36\n"
        if not self.book.is_small():
            return None
        count = len(self.book.states())
        most = max(ratio[0] for pair in self.book.ratios for ratio in pair)
        for times in range(self.book.limits[0] + 1):
            if count * most ** times > 2 ** 120:
                return f"no 35 {times}\n"
        return f"ok {count}\n"

    def weights(self, name):
        """The weights of a pupil after its replies so far."""
        pupil = self.book.pupils[name]
        kept, own = self.weighed.get(name, (None, None))
        if kept is not pupil:
            own = pupils.Weights(pupil.states, pupil.ratios, pupil.limits, self.book.size)
            self.weighed[name] = pupil, own
        for item, right in pupil.replies[own.count:]:
            own.take(item, right)
        return own

    def of_pupil(self, name, tell):
        """The refusal by 38, or what is told by the weights of a pupil with few items."""
        if name not in self.book.pupils:
            return "no 38\n"
        return tell(self.weights(name)) if self.book.is_small() else None

    def line_question(self, words):
        return self.of_pupil(words[0], lambda own: own.asked(self.book.names))

    def line_report(self, words):
        return self.of_pupil(words[0], lambda own: own.report(self.book.names))

    def line_close(self, words):
        return self.of_pupil(words[0], lambda own: "ok\n")

    def line_reply(self, words):
        def tell(own):
            _, asked = own.asked(self.book.names).split()
            if asked in ("share", "budget") and own.asked(self.book.names).startswith("over"):
                return f"no 39 {asked}\n"
            return f"ok {own.count + 1}\n" if words[1] == asked else f"no 40 {asked}\n"
        return self.of_pupil(words[0], tell)

    def line_save(self, words):
        return f"ok {len(self.book.saved())}\n"

    def line_safe_open(self, words):
        if self.book.safe is not None or not self.book.is_small():
            return None if self.book.safe is None else "no 50\n"
        return self.unlearning() or f"ok {len(self.base())}\n"

    def line_safe(self, words):
        safe = self.book.safe
        query, fault = self.asked(words) if safe else (None, "no 51\n")
        if fault or query in safe.queries:
            return fault or f"no 52 {safe.queries.index(query) + 1}\n"
        if safe.states is None:
            return None
        queries = [*safe.queries, query]
        *_, (applied, _) = safely.turns(safe.states, queries, self.book.size)
        count = len(queries)
        return f"ok {count} applied {len(applied)} pending {count - len(applied)}\n"

    def line_safe_list(self, words):
        return None if self.book.safe else "no 51\n"

    def line_safe_states(self, words):
        return self.page(words, None) if self.book.safe else "no 51\n"

    def line_safe_close(self, words):
        return "ok\n" if self.book.safe else "no 51\n"


def each_line_is_answered_by_what_stands(trial):
    book, made = ledger.Ledger(trial.files), 0
    decided = Decided(book)
    for line, reply in zip(trial.lines, trial.main.replies):
        form = reply and forms.form_of(line)[0]
        words = forms.words_of(line)
        if form and lines.unknown_place(form, words, book) is None or words[:1] == ["items"]:
            wanted = form and decided.reply(form, words)
            if wanted is not None:
                same(reply, wanted, f"the reply to {line!r}")
                made += 1
            elif book.is_small() and replies.is_refusal(reply) and replies.code_of(reply) in CODES:
                raise Differs(f"{line!r} is refused by {reply!r}, which doesn't hold")
        book.follow(line, reply)
    return made


CHECKS = [each_line_is_answered_by_what_stands]
