"""What the sources of the crates declare: functions, types, and what names stand for in a file.

Clauses, ghost items and comments are left out, so that what is left is code that runs."""
import collections
import re
from pathlib import Path

TOKEN = re.compile(r"[A-Za-z_]\w*|::|->|=>|\d[\w.]*|[^\s\w]")
ASIDE = re.compile(r"//[^\n]*|b?\"(?:\\[\s\S]|[^\"\\])*\"|b?'(?:\\.|[^'\\])'|'[a-z_]+\b(?!')")
OPENED = {"(": ")", "[": "]", "{": "}"}
ITEMS = {"fn", "impl", "trait", "struct", "enum", "use", "type", "mod", "const", "static"}
BEFORE_FN = {"const", "unsafe", "extern"}


class Function:
    """A function: where it stands, the type or trait that owns it, its head and its body."""

    def __init__(self, file, owner, of_trait, name, is_public):
        self.file, self.owner, self.of_trait = file, owner, of_trait
        self.name, self.is_public, self.is_test = name, is_public, False
        self.params, self.result, self.bounds, self.body = [], [], [], None

    def owner_path(self):
        return self.owner[0], [self.owner[1]]

    def __str__(self):
        owner = f"{self.owner[1]}::" if self.owner else ""
        return f"{self.file.crate}: {owner}{self.name}"


class File:
    """A file of a crate: its module's path, what it imports, and what it declares."""

    def __init__(self, crate, module):
        self.crate, self.module = crate, module
        self.imports, self.types, self.functions = {}, {}, []


def closing(tokens, at):
    """The place behind the bracket that closes the one at the place."""
    depth = 0
    for place in range(at, len(tokens)):
        depth += (tokens[place] in OPENED) - (tokens[place] in ")]}")
        if depth == 0:
            return place + 1
    return len(tokens)


def behind_angles(tokens, at):
    """The place behind the generics that may begin at the place."""
    depth = 0
    for place in range(at, len(tokens)):
        depth += (tokens[place] == "<") - (tokens[place] == ">")
        if depth == 0:
            return place + (tokens[place] == ">")
    return len(tokens)


def behind_ghost(tokens, at):
    """The place behind the clause or ghost item at the place; the place itself where none is."""
    if tokens[at] == "ghost":
        while tokens[at] not in (";", ",", "}"):
            at = closing(tokens, at) if tokens[at] in OPENED else at + 1
        return at + (tokens[at] != "}")
    if tokens[at] in ("requires", "ensures"):
        while tokens[at] != "{":
            at += 1
        return closing(tokens, at)
    return at


def code_of(text):
    """The tokens of a text, without what never runs."""
    tokens = TOKEN.findall(ASIDE.sub(" 0 ", text).replace("\n", " "))
    kept, at = [], 0
    while at < len(tokens):
        behind = behind_ghost(tokens, at)
        if behind == at:
            kept.append(tokens[at])
            behind = at + 1
        at = behind
    return kept


def imported(tokens, prefix=()):
    """The names that a tree of a `use` brings, each with the path for which it stands."""
    path, at = list(prefix), 0
    while at < len(tokens) and tokens[at] not in (",", "{", "as"):
        path += [tokens[at]] if tokens[at] != "::" else []
        at += 1
    if tokens[at:at + 1] == ["{"]:
        end = closing(tokens, at)
        yield from imported_each(tokens[at + 1:end - 1], path)
    elif tokens:
        yield tokens[at + 1] if tokens[at:at + 1] == ["as"] else path[-1], tuple(path)


def imported_each(tokens, prefix):
    """The same for the trees of a list."""
    begin = depth = 0
    for place, token in enumerate(tokens + [","]):
        depth += (token == "{") - (token == "}")
        if token == "," and depth == 0:
            yield from imported(tokens[begin:place], prefix)
            begin = place + 1


def names_in(tokens):
    return [token for token in tokens if token[0].isalpha() or token[0] == "_"]


class Reader:
    """Reads the items of a file one after another."""

    def __init__(self, file, tokens):
        self.file, self.tokens = file, tokens

    def read(self, at, end, owner=None, of_trait=None):
        """Reads the items between two places, which stand in the block of the owner."""
        is_public = is_test = False
        while at < end:
            token = self.tokens[at]
            if token == "#":
                behind = closing(self.tokens, at + 1 + (self.tokens[at + 1] == "!"))
                is_test |= "test" in self.tokens[at:behind] and "cfg" not in self.tokens[at:behind]
                at = behind
            elif token == "pub":
                is_public = self.tokens[at + 1] != "("
                at = at + 1 if is_public else closing(self.tokens, at + 1)
            elif token in ITEMS and self.tokens[at + 1] != "fn":
                at = getattr(self, "read_" + token)(at, owner, of_trait, is_public, is_test)
                is_public = is_test = False
            else:
                at = closing(self.tokens, at) if token in OPENED else at + 1

    def till(self, at, stops):
        """The first place from there on that has one of the stops, past what is in brackets."""
        while at < len(self.tokens) and self.tokens[at] not in stops:
            at = closing(self.tokens, at) if self.tokens[at] in OPENED else at + 1
        return at

    def read_fn(self, at, owner, of_trait, is_public, is_test):
        function = Function(self.file, owner, of_trait, self.tokens[at + 1], is_public)
        function.is_test = is_test
        opened = behind_angles(self.tokens, at + 2) if self.tokens[at + 2] == "<" else at + 2
        closed = closing(self.tokens, opened)
        begin = self.till(closed, ("{", ";"))
        where = self.till(closed, ("{", ";", "where"))
        function.bounds = self.tokens[at + 2:opened] + self.tokens[where:begin]
        function.params = self.tokens[opened + 1:closed - 1]
        function.result = self.tokens[closed:where]
        self.file.functions.append(function)
        if self.tokens[begin] == ";":
            return begin + 1
        end = closing(self.tokens, begin)
        function.body = self.tokens[begin:end]
        return end

    def read_impl(self, at, *_):
        begin = self.till(at, ("{",))
        end = closing(self.tokens, begin)
        head = self.tokens[at + 1:begin]
        head = head[behind_angles(head, 0) if head[0] == "<" else 0:]
        words = head[:head.index("where")] if "where" in head else head
        of_trait = words[:words.index("for")] if "for" in words else None
        owner = words[words.index("for") + 1:] if of_trait else words
        if of_trait != ["Model"]:
            first = [name for name in names_in(owner) if name not in ("mut", "dyn")]
            self.read(begin + 1, end - 1, first and (self.file, first[0]) or None, of_trait)
        return end

    def read_trait(self, at, *_):
        begin = self.till(at, ("{",))
        end = closing(self.tokens, begin)
        name = self.tokens[at + 1]
        self.file.types[name] = {"": self.tokens[at + 2:begin]}
        self.read(begin + 1, end - 1, (self.file, name), "itself")
        return end

    def read_struct(self, at, *_):
        begin = self.till(at, ("{", ";"))
        end = closing(self.tokens, begin) if self.tokens[begin] == "{" else begin + 1
        self.file.types[self.tokens[at + 1]] = fields_of(self.tokens[at + 2:end])
        return end

    read_enum = read_struct

    def read_type(self, at, *_):
        end = self.till(at, (";",))
        self.file.types[self.tokens[at + 1]] = {"": self.tokens[at + 2:end]}
        return end + 1

    def read_use(self, at, _owner, _trait, is_public, _is_test):
        end = self.till(at, (";",))
        for name, path in imported_each(self.tokens[at + 1:end], []):
            self.file.imports[name] = path
        return end + 1

    def read_mod(self, at, *_):
        return at + 3 if self.tokens[at + 2] == ";" else closing(self.tokens, at + 2)

    def read_const(self, at, *_):
        return self.till(at, (";",)) + 1

    read_static = read_const


def fields_of(tokens):
    """The names of a type's fields, each with the words of its type; `` has all words."""
    fields = {"": tokens}
    for place in range(1, len(tokens) - 1):
        if tokens[place] == ":" and tokens[place - 1].isidentifier():
            end = place + 1
            while end < len(tokens) and tokens[end] not in (":", "}"):
                end += 1
            fields[tokens[place - 1]] = tokens[place + 1:end]
    return fields


def read_sources(top):
    """The files of the crates, by crate and module."""
    files = {}
    for path in sorted(Path(top).glob("crates/*/src/**/*.rt")):
        crate, _, *words = path.relative_to(Path(top) / "crates").with_suffix("").parts
        module = () if words in (["lib"], ["main"]) else tuple(words)
        file = files[crate, module] = File(crate, module)
        reader = Reader(file, code_of(path.read_text()))
        reader.read(0, len(reader.tokens))
    return files


def functions_by(files, key_of):
    """The functions of all files, by a key."""
    found = collections.defaultdict(list)
    for file in files.values():
        for function in file.functions:
            found[key_of(function)].append(function)
    return found
