"""What runs of the crates: the functions that a root reaches, by names and by the types at hand.

A method's name alone doesn't tell whose it is. It is taken for that of each type at hand: those
that the function's head or body names, those of the fields that it reads, and those that the calls
give which it makes. A trait's function stands for those of each type that is at hand anywhere."""
import collections
from declared import names_in


def paths_in(tokens):
    """The paths of the tokens, each with the place of its first and behind its last name."""
    at = 0
    while at < len(tokens):
        if not (tokens[at][0].isalpha() or tokens[at][0] == "_"):
            at += 1
            continue
        begin, path = at, [tokens[at]]
        while tokens[at + 1:at + 2] == ["::"] and tokens[at + 2:at + 3] and tokens[at + 2] != "<":
            at += 2
            path.append(tokens[at])
        at += 1
        yield begin, at, path


class Names:
    """What the paths of files stand for."""

    def __init__(self, files):
        self.files = files
        self.crates = {crate for crate, _ in files}
        self.free = {}
        for file in files.values():
            for function in file.functions:
                if function.owner is None:
                    self.free[file, function.name] = function

    def of_path(self, file, path):
        """What a path of a file stands for: a function or a type, and the names left behind it."""
        if path[0] in ("crate", "self", "super"):
            module = {"crate": (), "self": file.module, "super": file.module[:-1]}[path[0]]
            return self.within(self.files.get((file.crate, module)), path[1:])
        found = self.within(file, path)
        if found is None and path[0] in self.crates:
            return self.within(self.files.get((path[0], ())), path[1:])
        return found

    def within(self, file, path):
        """The same of a path that begins in the file's module."""
        if file is None or not path:
            return None
        if path[0] in file.types:
            return (file, path[0]), path[1:]
        if (file, path[0]) in self.free:
            return self.free[file, path[0]], path[1:]
        below = self.files.get((file.crate, file.module + (path[0],)))
        if below is not None and len(path) > 1:
            return self.within(below, path[1:])
        stands_for = list(file.imports.get(path[0], ()))
        if stands_for[:1] == path[:1]:  # a crate's, or a module's of that name
            root = below or self.files.get((path[0], ()))
            return self.within(root, stands_for[1:] + path[1:])
        return self.of_path(file, stands_for + path[1:]) if stands_for else None

    def types(self, file, tokens, owner=None):
        """The types that the tokens name."""
        found = {owner} if owner and "Self" in tokens else set()
        for _, _, path in paths_in(tokens):
            named = self.of_path(file, path)
            if named and isinstance(named[0], tuple):
                found.add(named[0])
        return found


class Uses:
    """What a function uses: functions by their paths, methods, fields, and types that it names."""

    def __init__(self, names, function, owner):
        self.called, self.methods, self.fields, self.of_types = [], set(), set(), []
        self.unknown = set()
        body, file = function.body or [], function.file
        head = function.params + function.result + function.bounds
        self.types = names.types(file, head, owner) | ({owner} if owner else set())
        self.named = names.types(file, body, owner)
        bound = bound_names(function)
        for begin, end, path in paths_in(body):
            if body[begin - 1:begin] == ["."]:
                called = body[end] in ("(", "::")
                if called:
                    self.add_method(names, function, owner, body[:begin - 1], path[0])
                else:
                    self.fields.add(path[0])
            else:
                self.add_path(names, function, owner, path, body[end] != "(" and path[0] in bound)

    def add_method(self, names, function, owner, before, name):
        """A method: of the type of a parameter, or of `self` or its field, where that tells it."""
        words = function.params
        if owner and before[-3:-1] == ["self", "."] and owner[0]:
            declared = owner[0].types[owner[1]].get(before[-1])
            types = declared and names.types(owner[0], declared, owner)
        elif before[-2:-1] not in (["."], ["?"]) and before[-1] == "self":
            types = {owner}
        elif before[-2:-1] != ["."] and before[-1] in words:
            at = words.index(before[-1]) + 2
            end = words.index(",", at) if "," in words[at:] else len(words)
            types = names.types(function.file, words[at:end], owner)
        else:
            types = None
        if types:
            self.of_types += [(it, name) for it in types]
        self.unknown |= set() if types else {name}
        self.methods.add(name)

    def add_path(self, names, function, owner, path, is_bound):
        named = (owner, path[1:]) if path[0] == "Self" else names.of_path(function.file, path)
        if named is None:
            self.unknown |= set(path[-1:]) if len(path) > 1 else set()
            self.methods |= self.unknown
        elif isinstance(named[0], tuple):
            self.of_types += [(named[0], name) for name in named[1][:1]]
        elif not (is_bound and len(path) == 1):
            self.called.append(named[0])


def bound_names(function):
    """The names of parameters and of what `let` binds: they are no functions."""
    tokens = function.params + (function.body or [])
    found = {tokens[place - 1] for place in range(1, len(function.params))
             if tokens[place] == ":"}
    for place, token in enumerate(tokens[:-2]):
        if token == "let":
            found.add(tokens[place + 1 + (tokens[place + 1] == "mut")])
        if token == "|":
            found.add(tokens[place + 1])
    return found


class Reached:
    """The functions that are reached, from those that begin on."""

    def __init__(self, files):
        self.names = Names(files)
        self.functions = [it for file in files.values() for it in file.functions]
        self.owners = {it: self.owner_of(it) for it in self.functions}
        self.traits = {it: self.trait_of(it) for it in self.functions}
        self.methods = collections.defaultdict(list)
        self.implied = collections.defaultdict(list)
        for it in self.functions:
            self.methods[self.owners[it], it.name].append(it)
            if it.of_trait and it.of_trait != "itself":
                self.implied[self.owners[it]].append(it)
        self.reached, self.live, self.waiting = set(), set(), []

    def owner_of(self, function):
        if function.owner is None:
            return None
        found = self.names.of_path(*function.owner_path()) if function.owner else None
        return found[0] if found else (None, function.owner[1])

    def trait_of(self, function):
        if not function.of_trait or function.of_trait == "itself":
            return None
        named = self.names.types(function.file, function.of_trait[:1])
        return next(iter(named), None)

    def begin(self, roots):
        """Reaches all from the roots on."""
        self.waiting = list(roots)
        while self.waiting:
            function = self.waiting.pop()
            if function not in self.reached:
                self.reached.add(function)
                self.follow(function)

    def follow(self, function):
        """What a function that runs reaches, and the types that it has at hand."""
        uses = Uses(self.names, function, self.owners[function])
        at_hand = self.widened(function, uses)
        self.waiting += uses.called
        for key in [(it, name) for it in at_hand for name in uses.unknown] + uses.of_types:
            self.waiting += self.methods[key]
        for it in at_hand - self.live:
            self.live.add(it)
            self.waiting += [one for one in self.implied[it] if self.is_implied(one)]
        if function.of_trait == "itself":
            trait = self.owners[function]
            self.waiting += [one for it in self.live for one in self.implied[it]
                             if self.traits[one] == trait and one.name == function.name]

    def is_implied(self, function):
        """Whether a function of a trait runs with its type: another's trait, or one that runs."""
        trait = self.traits[function]
        return trait is None or any(one in self.reached
                                    for one in self.methods[trait, function.name])

    def widened(self, function, uses):
        """The types at hand in a function."""
        at_hand, new = set(), uses.types | uses.named
        for it in uses.named | uses.types:
            new |= self.parts(it, [""]) if it in uses.named else set()
        for one in uses.called:
            new |= self.names.types(one.file, one.result, self.owners[one])
        for key in uses.of_types:
            new |= self.results(key)
        while new - at_hand:
            fresh, new = new - at_hand, set()
            at_hand |= fresh
            for it in fresh:
                new |= self.parts(it, uses.fields) | self.given(it, uses.methods)
        return at_hand

    def parts(self, it, fields):
        """The types of the fields of a type; all that an alias or a trait names."""
        file, name = it
        if file is None:
            return set()
        declared = file.types[name]
        wanted = set(fields) if len(declared) > 1 else {""}
        return {part for field in wanted if field in declared
                for part in self.names.types(file, declared[field], it)}

    def given(self, it, methods):
        return {given for name in methods for given in self.results((it, name))}

    def results(self, key):
        return {given for one in self.methods[key]
                for given in self.names.types(one.file, one.result, self.owners[one])}
